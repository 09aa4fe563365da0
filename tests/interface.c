/* Calls every function of include/figdawesa.h, to see that the declarations there are those of the archive: each argument at its
 * place, each number at its place, refusals that change nothing, and not a word written outside what was lent. */
#include <stdio.h>
#include <stdlib.h>
#include <string.h>

#include "figdawesa.h"

#define QUESTION "       1      -1      -2\n       4       4      -1      -2\n"
#define LIST "       2      -1      -2\n       4       5      -1      -2\n"
#define VIEW "       3      -1      -2\n       4       4      -1      -2\n"
#define ROWS "       5       7       1\n       5       7       2\n"
#define SHEET QUESTION LIST VIEW ROWS
#define SIGNALS "       4       4      -1      -2\n"
#define BEATS "       4       5      -1      -2\n"

/* Sheets that are sent back, by 3 to 9. */
#define NO_LIST QUESTION
#define NO_SUCH_KIND QUESTION LIST "       6\n"
#define NO_SUCH_RELATION QUESTION LIST "       3      -1      -2\n       4      11      -1      -2\n"
#define NO_SUCH_VARIABLE QUESTION LIST "       3      -1     -13\n" SIGNALS
#define SEVENTH_ATOM QUESTION SIGNALS SIGNALS SIGNALS SIGNALS SIGNALS SIGNALS LIST
#define SHORTER_LIST QUESTION "       2      -1\n" BEATS
#define UNBOUND_HEAD "       1      -3      -2\n" SIGNALS LIST
#define ROWS_DESCEND QUESTION LIST VIEW "       5       7       2\n       5       7       1\n"

/* A view with no columns has its one row, and another says that there are no beats. */
#define CONTRARY QUESTION LIST "       3\n" BEATS "       5\n       3      -1      -2\n" BEATS

/* Tables: the library's own by hand; two relations beyond it, of which 11 has two key columns and 12 has the parent 11; the same two without; a
 * club that has only two; and one whose second relation's key has all its columns. */
#define OWN \
    "       1       2       0       0\n       2       1       0       0\n       3       3       2       0\n" \
    "       4       2       0       0\n       5       2       0       4\n       6       2       0       4\n" \
    "       7       3       2       0\n       8       2       0       0\n       9       4       0       0\n" \
    "      10       1       0       0\n"
#define CLUB OWN "      11       3       2       0\n      12       3       0      11\n"
#define LOOSE OWN "      11       3       0       0\n      12       3       0       0\n"
#define SMALL "       1       3       2       0\n       2       3       0       1\n"
#define BROKEN "       1       3       2       0\n       2       3       3       0\n"

/* Sheets by the club's table. MEASURED asks for the first two columns of 11, all of which is listed, and has a list of 12. TWICE asks for the values
 * that 11 has behind 7 and 1, two of which are listed. CHECKED asks for 12, all of which is listed, and has a list of 11, WORN one of 3. */
#define ALL_11 "       4      11      -1      -2      -3\n"
#define ALL_12 "       4      12      -1      -2      -3\n"
#define ROW_714 "       5       7       1       4\n"
#define MEASURED "       1      -1      -2\n" ALL_11 "       2      -1      -2\n" ALL_12 "       3      -1      -2      -3\n" ALL_11 ROW_714
#define TWICE \
    "       1      -1\n       4      11       7       1      -1\n       2      -1\n       4      12       7       1      -1\n" \
    "       3      -1\n       4      11       7       1      -1\n       5       4\n       5       5\n"
#define CHECKED "       1      -1      -2      -3\n" ALL_12 "       2      -1      -2      -3\n" ALL_11 "       3      -1      -2      -3\n" ALL_12 ROW_714
#define WORN \
    "       1      -1      -2      -3\n" ALL_12 "       2      -1      -2      -3\n       4       3      -1      -2      -3\n" \
    "       3      -1      -2      -3\n" ALL_12 ROW_714
#define MEASURED_TEXT "q(a,b): R11(a,b,c)\nl(a,b): R12(a,b,c)\nv(a,b,c): R11(a,b,c) = (7,1,4)\n"

/* What is lent stands between margins, and all of it holds a mark before each call. */
#define MARGIN 16
#define ROOM 12000
#define MARK 119

static int32_t words[MARGIN + ROOM + MARGIN];
static uint8_t bytes[MARGIN + ROOM + MARGIN];
static uint8_t too_long[FIGDAWESA_SHEET_BYTES + 1];
static int32_t *const lent_words = words + MARGIN;
static uint8_t *const lent_bytes = bytes + MARGIN;

static int checks, failures;

static void check(int holds, const char *what, int line)
{
    checks++;
    if (!holds) {
        failures++;
        printf("tests/interface.c:%d: %s\n", line, what);
    }
}

#define CHECK(holds) check(holds, #holds, __LINE__)

static void mark(void)
{
    for (size_t i = 0; i < MARGIN + ROOM + MARGIN; i++) {
        words[i] = MARK;
        bytes[i] = MARK;
    }
}

/* The words, or bytes, before what was lent and after the first n of it are as they were. */
static int words_kept(size_t n)
{
    for (size_t i = 0; i < MARGIN + ROOM + MARGIN; i++)
        if ((i < MARGIN || MARGIN + n <= i) && words[i] != MARK)
            return 0;
    return 1;
}

static int bytes_kept(size_t n)
{
    for (size_t i = 0; i < MARGIN + ROOM + MARGIN; i++)
        if ((i < MARGIN || MARGIN + n <= i) && bytes[i] != MARK)
            return 0;
    return 1;
}

static int are(const int32_t *expected, size_t n)
{
    return memcmp(lent_words, expected, n * sizeof *expected) == 0;
}

static const uint8_t *of(const char *text) { return (const uint8_t *)text; }

static int ended(struct figdawesa_ended r, size_t number, size_t line, size_t count)
{
    return r.number == number && r.line == line && r.count == count;
}

static int outcome(struct figdawesa_outcome r, size_t verdict, size_t number, size_t line, size_t count, size_t first, size_t second)
{
    return r.verdict == verdict && r.number == number && r.line == line && r.count == count && r.missing[0] == first
        && r.missing[1] == second && r.missing[2] == 0 && r.missing[3] == 0;
}

static int stands(struct figdawesa_stretch r, size_t start, size_t length) { return r.start == start && r.length == length; }

static struct figdawesa_ended read(const char *sheet, size_t room)
{
    mark();
    return figdawesa_read(of(sheet), strlen(sheet), lent_words, room);
}

static struct figdawesa_ended evaluate(size_t block, const int32_t *facts, size_t n, size_t room)
{
    mark();
    return figdawesa_evaluate(of(SHEET), strlen(SHEET), block, facts, n, lent_words, room);
}

static struct figdawesa_outcome judge(const char *sheet, size_t room)
{
    mark();
    return figdawesa_judge(of(sheet), strlen(sheet), lent_words, room);
}

static void reading(void)
{
    static const int32_t first[] = {3, 1, -1, -2, 0, 0, 0, 4, 4, 4, -1, -2, 0, 0};
    CHECK(ended(read(SHEET, FIGDAWESA_READ_WORDS), FIGDAWESA_DONE, 0, 8) && are(first, 14) && words_kept(56));
    CHECK(ended(read(SHEET, FIGDAWESA_READ_WORDS - 1), FIGDAWESA_NO_ROOM, 0, 0) && words_kept(0));
    CHECK(ended(read(NO_LIST, ROOM), FIGDAWESA_MISPLACED, 0, 0) && words_kept(0));
    CHECK(ended(read(NO_SUCH_KIND, ROOM), FIGDAWESA_MISPLACED, 5, 0) && words_kept(0));
    CHECK(ended(read(NO_SUCH_RELATION, ROOM), FIGDAWESA_WRONG_COLUMNS, 6, 0) && words_kept(0));
    CHECK(ended(read(NO_SUCH_VARIABLE, ROOM), FIGDAWESA_OUT_OF_RANGE, 5, 0) && words_kept(0));
    CHECK(ended(read(SEVENTH_ATOM, ROOM), FIGDAWESA_TOO_MANY, 8, 0) && words_kept(0));
    CHECK(ended(read(SHORTER_LIST, ROOM), FIGDAWESA_WRONG_LENGTH, 3, 0) && words_kept(0));
    CHECK(ended(read(UNBOUND_HEAD, ROOM), FIGDAWESA_UNSAFE_HEAD, 1, 0) && words_kept(0));
    CHECK(ended(read(ROWS_DESCEND, ROOM), FIGDAWESA_NOT_ABOVE, 8, 0) && words_kept(0));
    CHECK(ended(read(NO_SUCH_RELATION, 0), FIGDAWESA_WRONG_COLUMNS, 6, 0) && words_kept(0));
    mark();
    CHECK(ended(figdawesa_read(of(SHEET), strlen(SHEET) - 1, lent_words, ROOM), FIGDAWESA_MALFORMED, 8, 0) && words_kept(0));
    CHECK(ended(figdawesa_read(too_long, FIGDAWESA_SHEET_BYTES + 1, lent_words, ROOM), FIGDAWESA_TOO_LONG, 0, 0) && words_kept(0));
    CHECK(ended(figdawesa_read(too_long, FIGDAWESA_SHEET_BYTES, lent_words, ROOM), FIGDAWESA_MALFORMED, 1, 0) && words_kept(0));
    CHECK(ended(figdawesa_read(NULL, 0, lent_words, ROOM), FIGDAWESA_MISPLACED, 0, 0) && words_kept(0));
    CHECK(ended(figdawesa_read(of(SHEET), strlen(SHEET), NULL, 0), FIGDAWESA_NO_ROOM, 0, 0));
}

static void writing(void)
{
    int32_t form[56];
    read(SHEET, FIGDAWESA_READ_WORDS);
    memcpy(form, lent_words, sizeof form);
    mark();
    CHECK(ended(figdawesa_write(form, 56, lent_bytes, FIGDAWESA_WRITE_BYTES), FIGDAWESA_DONE, 0, strlen(SHEET)));
    CHECK(memcmp(lent_bytes, SHEET, strlen(SHEET)) == 0 && bytes_kept(strlen(SHEET)));
    mark();
    CHECK(ended(figdawesa_write(form, 56, lent_bytes, FIGDAWESA_WRITE_BYTES - 1), FIGDAWESA_NO_ROOM, 0, 0) && bytes_kept(0));
    CHECK(ended(figdawesa_write(form, 55, lent_bytes, ROOM), FIGDAWESA_MALFORMED, 0, 0) && bytes_kept(0));
    CHECK(ended(figdawesa_write(words, FIGDAWESA_READ_WORDS + 1, lent_bytes, ROOM), FIGDAWESA_TOO_LONG, 0, 0) && bytes_kept(0));
    CHECK(ended(figdawesa_write(words, FIGDAWESA_READ_WORDS, lent_bytes, ROOM), FIGDAWESA_MALFORMED, 1, 0) && bytes_kept(0));
    CHECK(ended(figdawesa_write(NULL, 0, lent_bytes, ROOM), FIGDAWESA_MISPLACED, 0, 0) && bytes_kept(0));
    CHECK(ended(figdawesa_write(form, 56, NULL, 0), FIGDAWESA_NO_ROOM, 0, 0));
    form[24] = -13;
    CHECK(ended(figdawesa_write(form, 56, lent_bytes, ROOM), FIGDAWESA_OUT_OF_RANGE, 4, 0) && bytes_kept(0));
}

static void lines(void)
{
    CHECK(stands(figdawesa_line(of(SHEET), strlen(SHEET), 1), 0, 24));
    CHECK(stands(figdawesa_line(of(SHEET), strlen(SHEET), 2), 25, 32));
    CHECK(stands(figdawesa_line(of(SHEET), strlen(SHEET), 6), 141, 32));
    CHECK(stands(figdawesa_line(of(SHEET), strlen(SHEET), 8), 199, 24));
    CHECK(stands(figdawesa_line(of(SHEET), strlen(SHEET) - 1, 8), 0, 0));
    CHECK(stands(figdawesa_line(of(SHEET), strlen(SHEET), 0), 0, 0));
    CHECK(stands(figdawesa_line(of(SHEET), strlen(SHEET), 9), 0, 0));
    CHECK(stands(figdawesa_line(of(SHEET), strlen(SHEET), SIZE_MAX), 0, 0));
    CHECK(stands(figdawesa_line(of("a\n\nbc\n"), 6, 2), 2, 0));
    CHECK(stands(figdawesa_line(of("a\n\nbc\n"), 6, 3), 3, 2));
    CHECK(stands(figdawesa_line(NULL, 0, 1), 0, 0));
}

static void evaluation(void)
{
    static const int32_t facts[] = {4, 7, 1, 0, 0, 4, 7, 2, 0, 0, 5, 8, 3, 0, 0};
    static const int32_t reversed[] = {4, 7, 2, 0, 0, 4, 7, 1, 0, 0};
    static const int32_t signals[] = {7, 1, 0, 0, 7, 2, 0, 0};
    static const int32_t beats[] = {8, 3, 0, 0};
    CHECK(ended(evaluate(1, facts, 15, 8), FIGDAWESA_DONE, 0, 2) && are(signals, 8) && words_kept(8));
    CHECK(ended(evaluate(2, facts, 15, ROOM), FIGDAWESA_DONE, 0, 1) && are(beats, 4) && words_kept(4));
    CHECK(ended(evaluate(3, facts, 5, ROOM), FIGDAWESA_DONE, 0, 1) && are(signals, 4) && words_kept(4));
    CHECK(ended(evaluate(2, facts, 10, ROOM), FIGDAWESA_DONE, 0, 0) && words_kept(0));
    CHECK(ended(evaluate(1, facts, 15, 7), FIGDAWESA_NO_ROOM, 0, 0) && words_kept(0));
    CHECK(ended(evaluate(0, facts, 15, ROOM), FIGDAWESA_NO_BLOCK, 0, 0) && words_kept(0));
    CHECK(ended(evaluate(4, facts, 15, ROOM), FIGDAWESA_NO_BLOCK, 0, 0) && words_kept(0));
    CHECK(ended(evaluate(SIZE_MAX, facts, 15, ROOM), FIGDAWESA_NO_BLOCK, 0, 0) && words_kept(0));
    CHECK(ended(evaluate(1, facts, 14, ROOM), FIGDAWESA_WRONG_FACT, 0, 0) && words_kept(0));
    CHECK(ended(evaluate(1, reversed, 10, ROOM), FIGDAWESA_FACT_ORDER, 0, 0) && words_kept(0));
    CHECK(ended(evaluate(1, words, (FIGDAWESA_FACTS + 1) * FIGDAWESA_FACT_WORDS, 0), FIGDAWESA_FACT_ORDER, 0, 0) && words_kept(0));
    CHECK(ended(evaluate(1, words, FIGDAWESA_FACTS * FIGDAWESA_FACT_WORDS, 0), FIGDAWESA_WRONG_FACT, 0, 0) && words_kept(0));
    CHECK(ended(evaluate(1, NULL, 0, ROOM), FIGDAWESA_DONE, 0, 0) && words_kept(0));
    mark();
    const char *bad = NO_SUCH_RELATION;
    CHECK(ended(figdawesa_evaluate(of(bad), strlen(bad), 0, facts, 1, lent_words, 0), FIGDAWESA_WRONG_COLUMNS, 6, 0) && words_kept(0));
    CHECK(ended(figdawesa_evaluate(of(SHEET), strlen(SHEET), 1, facts, 15, NULL, 0), FIGDAWESA_NO_ROOM, 0, 0));
    CHECK(ended(figdawesa_evaluate(NULL, 0, 1, facts, 15, lent_words, ROOM), FIGDAWESA_MISPLACED, 0, 0) && words_kept(0));
}

static void judging(void)
{
    static const int32_t facts[] = {4, 7, 1, 0, 0, 4, 7, 2, 0, 0};
    CHECK(outcome(judge(SHEET, FIGDAWESA_JUDGE_WORDS), FIGDAWESA_NOT_COVERED, 0, 0, 2, 7, 1) && are(facts, 10) && words_kept(10));
    CHECK(outcome(judge(QUESTION LIST VIEW, FIGDAWESA_JUDGE_WORDS), FIGDAWESA_COVERED, 0, 0, 0, 0, 0) && words_kept(0));
    CHECK(outcome(judge(CONTRARY, ROOM), FIGDAWESA_NO_LOG, 0, 0, 0, 0, 0) && words_kept(0));
    CHECK(outcome(judge(SHEET, FIGDAWESA_JUDGE_WORDS - 1), FIGDAWESA_REFUSED, FIGDAWESA_NO_ROOM, 0, 0, 0, 0) && words_kept(0));
    CHECK(outcome(judge(NO_SUCH_RELATION, ROOM), FIGDAWESA_REFUSED, FIGDAWESA_WRONG_COLUMNS, 6, 0, 0, 0) && words_kept(0));
    mark();
    CHECK(outcome(figdawesa_judge(NULL, 0, lent_words, ROOM), FIGDAWESA_REFUSED, FIGDAWESA_MISPLACED, 0, 0, 0, 0) && words_kept(0));
    CHECK(outcome(figdawesa_judge(of(SHEET), strlen(SHEET), NULL, 0), FIGDAWESA_REFUSED, FIGDAWESA_NO_ROOM, 0, 0, 0, 0));
}

/* Constants of seven digits, and values made up beside them. */
static void serials(void)
{
    static const char rows[] = QUESTION LIST VIEW "       5 9999998 1000000\n       5 9999998 9999999\n";
    static const char past[] = QUESTION LIST VIEW "       5 9999999 9999999\n       510000000       1\n";
    static const char made[] = "       1      -1\n       4       4      -1      -2\n       2 9999998\n       4       4 9999998      -2\n"
                               "       3      -1\n       4       4      -1      -2\n       5 9999998\n       5 9999999\n";
    static const int32_t facts[] = {4, 9999998, 1000000, 0, 0, 4, 9999998, 9999999, 0, 0};
    static const int32_t first[] = {3, 5, 9999998, 1000000, 0, 0, 0};
    static const int32_t last[] = {4, 10000000, 10000999, 0, 0};
    static const int32_t beyond[] = {4, 10000000, 10001000, 0, 0};
    int32_t form[56];
    CHECK(ended(read(rows, FIGDAWESA_READ_WORDS), FIGDAWESA_DONE, 0, 8) && memcmp(lent_words + 42, first, sizeof first) == 0);
    memcpy(form, lent_words, sizeof form);
    mark();
    CHECK(ended(figdawesa_write(form, 56, lent_bytes, FIGDAWESA_WRITE_BYTES), FIGDAWESA_DONE, 0, strlen(rows)));
    CHECK(memcmp(lent_bytes, rows, strlen(rows)) == 0 && bytes_kept(strlen(rows)));
    form[51] = 10000000;
    CHECK(ended(figdawesa_write(form, 56, lent_bytes, ROOM), FIGDAWESA_OUT_OF_RANGE, 8, 0));
    CHECK(ended(read(past, ROOM), FIGDAWESA_OUT_OF_RANGE, 8, 0) && words_kept(0));
    CHECK(ended(evaluate(1, last, 5, ROOM), FIGDAWESA_DONE, 0, 1) && are(last + 1, 4) && words_kept(4));
    CHECK(ended(evaluate(1, beyond, 5, ROOM), FIGDAWESA_WRONG_FACT, 0, 0) && words_kept(0));
    CHECK(outcome(judge(rows, FIGDAWESA_JUDGE_WORDS), FIGDAWESA_NOT_COVERED, 0, 0, 2, 9999998, 1000000) && are(facts, 10) && words_kept(10));
    CHECK(outcome(judge(made, FIGDAWESA_JUDGE_WORDS), FIGDAWESA_NOT_COVERED, 0, 0, 2, 9999999, 0) && words_kept(10));
    CHECK(lent_words[1] == 9999998 && 10000000 <= lent_words[2] && lent_words[2] <= 10000999);
    CHECK(lent_words[6] == 9999999 && 10000000 <= lent_words[7] && lent_words[7] <= 10000999);
}

/* Whether every place from one on is what a place without a sheet is. */
static int empty_from(const struct figdawesa_set_outcome *r, size_t from, size_t number)
{
    for (size_t k = from; k < FIGDAWESA_SHEETS; k++)
        if (!outcome(r->sheets[k], FIGDAWESA_REFUSED, number, 0, 0, 0, 0))
            return 0;
    return 1;
}

static int sent_back(struct figdawesa_set_outcome r, size_t number)
{
    return r.number == number && r.line == 0 && r.count == 0 && empty_from(&r, 0, number) && words_kept(0);
}

static struct figdawesa_set_outcome judge_set(const char *sheets, size_t n, const size_t *ends, size_t count, size_t room)
{
    mark();
    return figdawesa_judge_set(of(sheets), n, ends, count, lent_words, room);
}

static void judging_sets(void)
{
    static const int32_t facts[] = {4, 7, 1, 0, 0, 4, 7, 2, 0, 0};
    static const char sheets[] = SHEET NO_SUCH_RELATION QUESTION LIST VIEW CONTRARY SHEET;
    const size_t whole = strlen(SHEET), bad = whole + strlen(NO_SUCH_RELATION), covered = bad + strlen(QUESTION LIST VIEW);
    const size_t none = covered + strlen(CONTRARY), n = strlen(sheets);
    const size_t ends[] = {whole, bad, bad, covered, none, n};
    const size_t back[] = {bad, whole, n};
    size_t many[FIGDAWESA_SHEETS + 1] = {0};
    struct figdawesa_set_outcome r = judge_set(sheets, n, ends, 6, 6 * FIGDAWESA_JUDGE_WORDS);
    CHECK(r.number == FIGDAWESA_DONE && r.line == 0 && r.count == 6 && empty_from(&r, 6, FIGDAWESA_DONE));
    CHECK(outcome(r.sheets[0], FIGDAWESA_NOT_COVERED, 0, 0, 2, 7, 1) && are(facts, 10));
    CHECK(outcome(r.sheets[1], FIGDAWESA_REFUSED, FIGDAWESA_WRONG_COLUMNS, 6, 0, 0, 0));
    CHECK(outcome(r.sheets[2], FIGDAWESA_REFUSED, FIGDAWESA_MISPLACED, 0, 0, 0, 0));
    CHECK(outcome(r.sheets[3], FIGDAWESA_COVERED, 0, 0, 0, 0, 0));
    CHECK(outcome(r.sheets[4], FIGDAWESA_NO_LOG, 0, 0, 0, 0, 0));
    CHECK(outcome(r.sheets[5], FIGDAWESA_NOT_COVERED, 0, 0, 2, 7, 1));
    CHECK(memcmp(lent_words + 5 * FIGDAWESA_JUDGE_WORDS, facts, sizeof facts) == 0);
    for (size_t i = 0; i < 10; i++)
        lent_words[i] = lent_words[5 * FIGDAWESA_JUDGE_WORDS + i] = MARK;
    CHECK(words_kept(0));
    CHECK(sent_back(judge_set(sheets, n, ends, 6, 6 * FIGDAWESA_JUDGE_WORDS - 1), FIGDAWESA_NO_ROOM));
    CHECK(sent_back(judge_set(sheets, n - 1, ends, 6, ROOM), FIGDAWESA_WRONG_ENDS));
    CHECK(sent_back(judge_set(sheets, n, ends, 5, ROOM), FIGDAWESA_WRONG_ENDS));
    CHECK(sent_back(judge_set(sheets, n, back, 3, ROOM), FIGDAWESA_WRONG_ENDS));
    CHECK(sent_back(judge_set(sheets, n, back, 3, 0), FIGDAWESA_WRONG_ENDS));
    CHECK(sent_back(judge_set(sheets, n, NULL, 0, ROOM), FIGDAWESA_WRONG_ENDS));
    CHECK(sent_back(judge_set(NULL, 0, many, FIGDAWESA_SHEETS + 1, ROOM), FIGDAWESA_WRONG_ENDS));
    CHECK(sent_back(judge_set(NULL, 0, many, FIGDAWESA_SHEETS, FIGDAWESA_SHEETS * FIGDAWESA_JUDGE_WORDS - 1), FIGDAWESA_NO_ROOM));
    r = judge_set(NULL, 0, many, FIGDAWESA_SHEETS, FIGDAWESA_SHEETS * FIGDAWESA_JUDGE_WORDS);
    CHECK(r.number == FIGDAWESA_DONE && r.count == FIGDAWESA_SHEETS && empty_from(&r, 0, FIGDAWESA_MISPLACED) && words_kept(0));
    r = figdawesa_judge_set(NULL, 0, NULL, 0, NULL, 0);
    CHECK(r.number == FIGDAWESA_DONE && r.line == 0 && r.count == 0 && empty_from(&r, 0, FIGDAWESA_DONE));
}

static struct figdawesa_day_outcome judge_day(const char *sheets, size_t n, const size_t *ends, size_t count, size_t room, size_t page)
{
    mark();
    return figdawesa_judge_day(of(sheets), n, ends, count, lent_words, room, lent_bytes, page);
}

static int day_sent_back(struct figdawesa_day_outcome r, size_t number)
{
    return r.bytes == 0 && sent_back(r.set, number) && bytes_kept(0);
}

static void judging_days(void)
{
    static const int32_t facts[] = {4, 7, 1, 0, 0, 4, 7, 2, 0, 0};
    static const char sheets[] = NO_SUCH_RELATION SHEET QUESTION LIST VIEW CONTRARY;
    static const char page[] = "       1       9       4       0\n       2       1       0       2\n       3       0       0       0\n"
                               "       4       2       0       0\n       1       1       1       1       2\n";
    static const char none[] = "       0       0       0       0       0\n";
    const size_t bad = strlen(NO_SUCH_RELATION), whole = bad + strlen(SHEET), covered = whole + strlen(QUESTION LIST VIEW), n = strlen(sheets);
    const size_t ends[] = {bad, whole, covered, n};
    const size_t words = 4 * FIGDAWESA_JUDGE_WORDS;
    size_t many[FIGDAWESA_SHEETS + 1] = {0};
    struct figdawesa_day_outcome r = judge_day(sheets, n, ends, 4, words, FIGDAWESA_PAGE_BYTES);
    CHECK(r.set.number == FIGDAWESA_DONE && r.set.line == 0 && r.set.count == 4 && empty_from(&r.set, 4, FIGDAWESA_DONE));
    CHECK(outcome(r.set.sheets[0], FIGDAWESA_REFUSED, FIGDAWESA_WRONG_COLUMNS, 6, 0, 0, 0));
    CHECK(outcome(r.set.sheets[1], FIGDAWESA_NOT_COVERED, 0, 0, 2, 7, 1));
    CHECK(memcmp(lent_words + FIGDAWESA_JUDGE_WORDS, facts, sizeof facts) == 0);
    CHECK(r.bytes == strlen(page) && memcmp(lent_bytes, page, strlen(page)) == 0 && bytes_kept(strlen(page)));
    CHECK(day_sent_back(judge_day(sheets, n, ends, 4, words, FIGDAWESA_PAGE_BYTES - 1), FIGDAWESA_NO_ROOM));
    CHECK(day_sent_back(judge_day(sheets, n, ends, 4, words - 1, ROOM), FIGDAWESA_NO_ROOM));
    CHECK(day_sent_back(judge_day(sheets, n - 1, ends, 4, words, 0), FIGDAWESA_WRONG_ENDS));
    CHECK(day_sent_back(judge_day(NULL, 0, NULL, 0, 0, FIGDAWESA_PAGE_BYTES - 1), FIGDAWESA_NO_ROOM));
    CHECK(day_sent_back(judge_day(NULL, 0, many, FIGDAWESA_SHEETS + 1, ROOM, ROOM), FIGDAWESA_WRONG_ENDS));
    r = judge_day(NULL, 0, NULL, 0, 0, FIGDAWESA_PAGE_BYTES);
    CHECK(r.set.number == FIGDAWESA_DONE && r.set.count == 0 && empty_from(&r.set, 0, FIGDAWESA_DONE) && words_kept(0));
    CHECK(r.bytes == strlen(none) && memcmp(lent_bytes, none, strlen(none)) == 0 && bytes_kept(strlen(none)));
    r = judge_day(NULL, 0, many, FIGDAWESA_SHEETS, FIGDAWESA_SHEETS * FIGDAWESA_JUDGE_WORDS, FIGDAWESA_PAGE_BYTES);
    CHECK(r.set.count == FIGDAWESA_SHEETS && r.bytes == FIGDAWESA_PAGE_BYTES && bytes_kept(FIGDAWESA_PAGE_BYTES) && words_kept(0));
    r = figdawesa_judge_day(NULL, 0, NULL, 0, NULL, 0, NULL, 0);
    CHECK(r.bytes == 0 && r.set.number == FIGDAWESA_NO_ROOM && empty_from(&r.set, 0, FIGDAWESA_NO_ROOM));
}

static void texts(void)
{
    static const char text[] = "q(s,t): Sig(s,t)\nl(s,t): Beat(s,t)\nv(s,t): Sig(s,t) = (7,1); (7,2)\n";
    static const char descending[] = "q(s,t): Sig(s,t)\nl(s,t): Beat(s,t)\nv(s,t): Sig(s,t) = (7,2); (7,1)\n";
    static const char columns[] = "q(s,t): Sig(s,t)\nl(s,t): Beat(s)\n";
    static const char said[] = "not covered: (7,1) is missing. Log: Sig(7,1), Sig(7,2)\n";
    static uint8_t room[FIGDAWESA_TEXT_BYTES + 1];
    struct figdawesa_text_outcome r;
    mark();
    r = figdawesa_sheet_of((const uint8_t *)text, strlen(text), lent_bytes, FIGDAWESA_WRITE_BYTES);
    CHECK(r.expected == 0 && r.relation == 0 && r.number == 0 && r.line == 0 && r.text_line == 0 && r.bytes == strlen(SHEET));
    CHECK(memcmp(lent_bytes, SHEET, strlen(SHEET)) == 0 && bytes_kept(strlen(SHEET)));
    mark();
    r = figdawesa_sheet_of((const uint8_t *)text, strlen(text), lent_bytes, FIGDAWESA_WRITE_BYTES - 1);
    CHECK(r.expected == 0 && r.number == FIGDAWESA_NO_ROOM && r.line == 0 && r.text_line == 0 && r.bytes == 0 && bytes_kept(0));
    r = figdawesa_sheet_of((const uint8_t *)descending, strlen(descending), lent_bytes, ROOM);
    CHECK(r.expected == 0 && r.number == FIGDAWESA_NOT_ABOVE && r.line == 8 && r.text_line == 3 && r.bytes == 0 && bytes_kept(0));
    r = figdawesa_sheet_of((const uint8_t *)columns, strlen(columns), lent_bytes, ROOM);
    CHECK(r.expected != 0 && r.relation == 5 && r.number == 0 && r.line == 0 && r.text_line == 2 && r.bytes == 0 && bytes_kept(0));
    memset(room, MARK, sizeof room);
    struct figdawesa_ended e = figdawesa_text_of((const uint8_t *)SHEET, strlen(SHEET), room, FIGDAWESA_TEXT_BYTES - 1);
    CHECK(e.number == FIGDAWESA_NO_ROOM && e.line == 0 && e.count == 0 && room[0] == MARK);
    e = figdawesa_text_of((const uint8_t *)SHEET, strlen(SHEET), room, FIGDAWESA_TEXT_BYTES);
    CHECK(e.number == FIGDAWESA_DONE && e.line == 0 && e.count > 0 && room[e.count] == MARK && room[FIGDAWESA_TEXT_BYTES] == MARK);
    r = figdawesa_sheet_of(room, e.count, lent_bytes, ROOM);
    CHECK(r.bytes == strlen(SHEET) && memcmp(lent_bytes, SHEET, strlen(SHEET)) == 0);
    memset(room, MARK, sizeof room);
    CHECK(figdawesa_answer((const uint8_t *)text, strlen(text), room, FIGDAWESA_TEXT_BYTES - 1) == 0 && room[0] == MARK);
    CHECK(figdawesa_answer((const uint8_t *)text, strlen(text), room, FIGDAWESA_TEXT_BYTES) == strlen(said));
    CHECK(memcmp(room, said, strlen(said)) == 0 && room[strlen(said)] == MARK);
    memset(room, MARK, sizeof room);
    CHECK(figdawesa_answer((const uint8_t *)SHEET, strlen(SHEET), room, FIGDAWESA_TEXT_BYTES) == strlen(said) && memcmp(room, said, strlen(said)) == 0);
    CHECK(figdawesa_answer(NULL, 0, NULL, 0) == 0);
}

/* The calls by a table. */

static void own_table(void)
{
    mark();
    CHECK(ended(figdawesa_own_table(lent_bytes, FIGDAWESA_OWN_TABLE_BYTES - 1), FIGDAWESA_NO_ROOM, 0, 0) && bytes_kept(0));
    CHECK(ended(figdawesa_own_table(NULL, 0), FIGDAWESA_NO_ROOM, 0, 0));
    CHECK(ended(figdawesa_own_table(lent_bytes, FIGDAWESA_OWN_TABLE_BYTES), FIGDAWESA_DONE, 0, 330));
    CHECK(strlen(OWN) == 330 && memcmp(lent_bytes, OWN, 330) == 0 && bytes_kept(330));
}

static struct figdawesa_ended read_by(const char *table, const char *sheet, size_t room)
{
    mark();
    return figdawesa_read_by_table(of(table), strlen(table), of(sheet), strlen(sheet), lent_words, room);
}

static void tables(void)
{
    static char most[FIGDAWESA_TABLE_BYTES + 34];
    for (int n = 1; n <= FIGDAWESA_RELATIONS + 1; n++)
        snprintf(most + 33 * (n - 1), 34, "%8d       2       0       0\n", n);
    CHECK(ended(read_by(most, SHEET, ROOM), FIGDAWESA_WRONG_TABLE, 33, 0) && words_kept(0));
    most[FIGDAWESA_TABLE_BYTES + 1] = 0;
    CHECK(ended(read_by(most, SHEET, ROOM), FIGDAWESA_WRONG_TABLE, 33, 0) && words_kept(0));
    most[FIGDAWESA_TABLE_BYTES] = 0;
    CHECK(ended(read_by(most, SHEET, ROOM), FIGDAWESA_DONE, 0, 8) && words_kept(56));
    most[FIGDAWESA_TABLE_BYTES - 1] = 0;
    CHECK(ended(read_by(most, SHEET, ROOM), FIGDAWESA_WRONG_TABLE, 32, 0) && words_kept(0));
    CHECK(ended(read_by("", SHEET, ROOM), FIGDAWESA_WRONG_TABLE, 0, 0) && words_kept(0));
    CHECK(ended(read_by("\n", SHEET, ROOM), FIGDAWESA_WRONG_TABLE, 1, 0) && words_kept(0));
    CHECK(ended(read_by("       1       2       0\n", SHEET, ROOM), FIGDAWESA_WRONG_TABLE, 1, 0) && words_kept(0));
    CHECK(ended(read_by("       1       2       0      +0\n", SHEET, ROOM), FIGDAWESA_WRONG_TABLE, 1, 0) && words_kept(0));
    CHECK(ended(read_by("       1       5       0       0\n", SHEET, ROOM), FIGDAWESA_WRONG_TABLE, 1, 0) && words_kept(0));
    CHECK(ended(read_by("       1       2       0       1\n", SHEET, ROOM), FIGDAWESA_WRONG_TABLE, 1, 0) && words_kept(0));
    CHECK(ended(read_by(SMALL "       4       3       0       0\n", SHEET, ROOM), FIGDAWESA_WRONG_TABLE, 3, 0) && words_kept(0));
    CHECK(ended(read_by(SMALL "       3       2       0       1\n", SHEET, ROOM), FIGDAWESA_WRONG_TABLE, 3, 0) && words_kept(0));
    CHECK(ended(read_by(SMALL "       3       3       0       2\n", SHEET, ROOM), FIGDAWESA_WRONG_TABLE, 3, 0) && words_kept(0));
    mark();
    CHECK(ended(figdawesa_read_by_table(NULL, 0, NULL, 0, NULL, 0), FIGDAWESA_WRONG_TABLE, 0, 0));
}

static struct figdawesa_ended write_by(const char *table, const int32_t *form, size_t n, size_t room)
{
    mark();
    return figdawesa_write_by_table(of(table), strlen(table), form, n, lent_bytes, room);
}

static void reading_and_writing_by_tables(void)
{
    static const int32_t form[] = {3, 1, -1, -2, 0, 0, 0, 5, 4, 11, -1, -2, -3, 0, 3, 2, -1, -2, 0, 0, 0, 5, 4, 12, -1,
                                   -2, -3, 0, 4, 3, -1, -2, -3, 0, 0, 5, 4, 11, -1, -2, -3, 0, 4, 5, 7, 1, 4, 0, 0};
    CHECK(ended(read_by(CLUB, MEASURED, FIGDAWESA_READ_WORDS), FIGDAWESA_DONE, 0, 7) && are(form, 49) && words_kept(49));
    CHECK(ended(read_by(CLUB, MEASURED, FIGDAWESA_READ_WORDS - 1), FIGDAWESA_NO_ROOM, 0, 0) && words_kept(0));
    CHECK(ended(read_by(BROKEN, MEASURED, ROOM), FIGDAWESA_WRONG_TABLE, 2, 0) && words_kept(0));
    CHECK(ended(read_by(BROKEN, NO_LIST, 0), FIGDAWESA_WRONG_TABLE, 2, 0) && words_kept(0));
    CHECK(ended(read_by(OWN, MEASURED, ROOM), FIGDAWESA_WRONG_COLUMNS, 2, 0) && words_kept(0));
    CHECK(ended(read_by(SMALL, SHEET, ROOM), FIGDAWESA_WRONG_COLUMNS, 2, 0) && words_kept(0));
    CHECK(ended(read_by(CLUB, NO_SUCH_RELATION, ROOM), FIGDAWESA_WRONG_COLUMNS, 6, 0) && words_kept(0));
    CHECK(ended(write_by(CLUB, form, 49, FIGDAWESA_WRITE_BYTES), FIGDAWESA_DONE, 0, strlen(MEASURED)));
    CHECK(memcmp(lent_bytes, MEASURED, strlen(MEASURED)) == 0 && bytes_kept(strlen(MEASURED)));
    CHECK(ended(write_by(CLUB, form, 49, FIGDAWESA_WRITE_BYTES - 1), FIGDAWESA_NO_ROOM, 0, 0) && bytes_kept(0));
    CHECK(ended(write_by(BROKEN, form, 49, ROOM), FIGDAWESA_WRONG_TABLE, 2, 0) && bytes_kept(0));
    CHECK(ended(write_by(BROKEN, form, 48, 0), FIGDAWESA_WRONG_TABLE, 2, 0) && bytes_kept(0));
    CHECK(ended(write_by(OWN, form, 49, ROOM), FIGDAWESA_WRONG_COLUMNS, 2, 0) && bytes_kept(0));
}

static struct figdawesa_ended evaluate_by(const char *table, const char *sheet, size_t block, const int32_t *facts, size_t n, size_t room)
{
    mark();
    return figdawesa_evaluate_by_table(of(table), strlen(table), of(sheet), strlen(sheet), block, facts, n, lent_words, room);
}

/* Keys and parents are not asked for. */
static void evaluation_by_tables(void)
{
    static const int32_t facts[] = {11, 7, 1, 4, 0, 11, 7, 1, 5, 0, 12, 8, 2, 3, 0};
    static const int32_t beyond[] = {13, 7, 1, 4, 0}, unfilled[] = {12, 7, 1, 4, 1};
    static const int32_t measured[] = {7, 1, 0, 0}, checked[] = {8, 2, 0, 0}, listed[] = {7, 1, 4, 0, 7, 1, 5, 0};
    CHECK(ended(evaluate_by(CLUB, MEASURED, 1, facts, 15, 4), FIGDAWESA_DONE, 0, 1) && are(measured, 4) && words_kept(4));
    CHECK(ended(evaluate_by(CLUB, MEASURED, 2, facts, 15, ROOM), FIGDAWESA_DONE, 0, 1) && are(checked, 4) && words_kept(4));
    CHECK(ended(evaluate_by(CLUB, MEASURED, 3, facts, 15, ROOM), FIGDAWESA_DONE, 0, 2) && are(listed, 8) && words_kept(8));
    CHECK(ended(evaluate_by(CLUB, MEASURED, 3, facts, 15, 7), FIGDAWESA_NO_ROOM, 0, 0) && words_kept(0));
    CHECK(ended(evaluate_by(CLUB, MEASURED, 4, facts, 15, ROOM), FIGDAWESA_NO_BLOCK, 0, 0) && words_kept(0));
    CHECK(ended(evaluate_by(CLUB, MEASURED, 1, beyond, 5, ROOM), FIGDAWESA_WRONG_FACT, 0, 0) && words_kept(0));
    CHECK(ended(evaluate_by(CLUB, MEASURED, 1, unfilled, 5, ROOM), FIGDAWESA_WRONG_FACT, 0, 0) && words_kept(0));
    CHECK(ended(evaluate_by(OWN, SHEET, 1, facts, 15, ROOM), FIGDAWESA_WRONG_FACT, 0, 0) && words_kept(0));
    CHECK(ended(evaluate_by(BROKEN, MEASURED, 1, facts, 15, ROOM), FIGDAWESA_WRONG_TABLE, 2, 0) && words_kept(0));
    CHECK(ended(evaluate_by(BROKEN, NO_LIST, 9, facts, 14, 0), FIGDAWESA_WRONG_TABLE, 2, 0) && words_kept(0));
}

static struct figdawesa_outcome judge_by(const char *table, const char *sheet, size_t room)
{
    mark();
    return figdawesa_judge_by_table(of(table), strlen(table), of(sheet), strlen(sheet), lent_words, room);
}

static int missing_714(struct figdawesa_outcome r, size_t count)
{
    return r.verdict == FIGDAWESA_NOT_COVERED && r.number == 0 && r.line == 0 && r.count == count && r.missing[0] == 7 && r.missing[1] == 1
        && r.missing[2] == 4 && r.missing[3] == 0;
}

static void judging_by_tables(void)
{
    static const int32_t measured[] = {11, 7, 1, 4, 0}, checked[] = {12, 7, 1, 4, 0};
    static const int32_t both[] = {11, 7, 1, 4, 0, 12, 7, 1, 4, 0}, twice[] = {11, 7, 1, 4, 0, 11, 7, 1, 5, 0};
    CHECK(outcome(judge_by(CLUB, MEASURED, FIGDAWESA_JUDGE_WORDS), FIGDAWESA_NOT_COVERED, 0, 0, 1, 7, 1) && are(measured, 5) && words_kept(5));
    CHECK(missing_714(judge_by(CLUB, WORN, ROOM), 2) && are(both, 10) && words_kept(10));
    CHECK(outcome(judge_by(CLUB, TWICE, ROOM), FIGDAWESA_NO_LOG, 0, 0, 0, 0, 0) && words_kept(0));
    CHECK(outcome(judge_by(LOOSE, TWICE, ROOM), FIGDAWESA_NOT_COVERED, 0, 0, 2, 4, 0) && are(twice, 10) && words_kept(10));
    CHECK(outcome(judge_by(CLUB, CHECKED, ROOM), FIGDAWESA_COVERED, 0, 0, 0, 0, 0) && words_kept(0));
    CHECK(missing_714(judge_by(LOOSE, CHECKED, ROOM), 1) && are(checked, 5) && words_kept(5));
    CHECK(outcome(judge_by(CLUB, MEASURED, FIGDAWESA_JUDGE_WORDS - 1), FIGDAWESA_REFUSED, FIGDAWESA_NO_ROOM, 0, 0, 0, 0) && words_kept(0));
    CHECK(outcome(judge_by(OWN, MEASURED, ROOM), FIGDAWESA_REFUSED, FIGDAWESA_WRONG_COLUMNS, 2, 0, 0, 0) && words_kept(0));
    CHECK(outcome(judge_by(BROKEN, MEASURED, ROOM), FIGDAWESA_REFUSED, FIGDAWESA_WRONG_TABLE, 2, 0, 0, 0) && words_kept(0));
    CHECK(outcome(judge_by("", NO_LIST, 0), FIGDAWESA_REFUSED, FIGDAWESA_WRONG_TABLE, 0, 0, 0, 0) && words_kept(0));
}

static int taken(const struct figdawesa_set_outcome *r, size_t count)
{
    return r->number == FIGDAWESA_DONE && r->line == 0 && r->count == count && empty_from(r, count, FIGDAWESA_DONE);
}

/* Whether each of the four sheets below is what the club's table, or the broken one, makes of it. */
static int four_judged(const struct figdawesa_set_outcome *r)
{
    return taken(r, 4) && outcome(r->sheets[0], FIGDAWESA_COVERED, 0, 0, 0, 0, 0)
        && outcome(r->sheets[1], FIGDAWESA_REFUSED, FIGDAWESA_WRONG_COLUMNS, 4, 0, 0, 0)
        && outcome(r->sheets[2], FIGDAWESA_NOT_COVERED, 0, 0, 1, 7, 1) && outcome(r->sheets[3], FIGDAWESA_NO_LOG, 0, 0, 0, 0, 0);
}

static int four_refused(const struct figdawesa_set_outcome *r)
{
    for (size_t k = 0; k < 4; k++)
        if (!outcome(r->sheets[k], FIGDAWESA_REFUSED, FIGDAWESA_WRONG_TABLE, 2, 0, 0, 0))
            return 0;
    return taken(r, 4);
}

/* The one fact of the four stands in the third stretch; nothing else is changed. */
static int fact_alone(void)
{
    static const int32_t measured[] = {11, 7, 1, 4, 0};
    int32_t *const third = lent_words + 2 * FIGDAWESA_JUDGE_WORDS;
    if (memcmp(third, measured, sizeof measured) != 0)
        return 0;
    for (size_t i = 0; i < 5; i++)
        third[i] = MARK;
    return words_kept(0);
}

static void judging_sets_and_days_by_tables(void)
{
    static const char no_13[] = QUESTION "       2      -1      -2\n       4      13      -1      -2\n";
    static const char page[] = "       1       0       0       0\n       2       9       4       0\n       3       1       0       1\n"
                               "       4       2       0       0\n       1       1       1       1       1\n";
    static const char refused_page[] = "       1       9      15       0\n       2       9      15       0\n       3       9      15       0\n"
                                       "       4       9      15       0\n       0       0       0       4       0\n";
    static char sheets[2048];
    const size_t covered = strlen(CHECKED), bad = covered + strlen(no_13), measured = bad + strlen(MEASURED), n = measured + strlen(TWICE);
    const size_t ends[] = {covered, bad, measured, n}, room = 4 * FIGDAWESA_JUDGE_WORDS;
    snprintf(sheets, sizeof sheets, "%s%s%s%s", CHECKED, no_13, MEASURED, TWICE);
    const uint8_t *const club = of(CLUB), *const broken = of(BROKEN), *const all = of(sheets);
    mark();
    struct figdawesa_set_outcome r = figdawesa_judge_set_by_table(club, strlen(CLUB), all, n, ends, 4, lent_words, room);
    CHECK(four_judged(&r) && fact_alone());
    mark();
    r = figdawesa_judge_set_by_table(broken, strlen(BROKEN), all, n, ends, 4, lent_words, room);
    CHECK(four_refused(&r) && words_kept(0));
    CHECK(sent_back(figdawesa_judge_set_by_table(broken, strlen(BROKEN), all, n, ends, 4, lent_words, room - 1), FIGDAWESA_NO_ROOM));
    CHECK(sent_back(figdawesa_judge_set_by_table(broken, strlen(BROKEN), all, n, ends, 3, lent_words, 0), FIGDAWESA_WRONG_ENDS));
    r = figdawesa_judge_set_by_table(NULL, 0, NULL, 0, NULL, 0, NULL, 0);
    CHECK(taken(&r, 0));
    struct figdawesa_day_outcome d;
    d = figdawesa_judge_day_by_table(club, strlen(CLUB), all, n, ends, 4, lent_words, room, lent_bytes, FIGDAWESA_PAGE_BYTES);
    CHECK(four_judged(&d.set) && fact_alone());
    CHECK(d.bytes == strlen(page) && memcmp(lent_bytes, page, strlen(page)) == 0 && bytes_kept(strlen(page)));
    mark();
    d = figdawesa_judge_day_by_table(broken, strlen(BROKEN), all, n, ends, 4, lent_words, room, lent_bytes, FIGDAWESA_PAGE_BYTES);
    CHECK(four_refused(&d.set) && words_kept(0));
    CHECK(d.bytes == strlen(refused_page) && memcmp(lent_bytes, refused_page, d.bytes) == 0 && bytes_kept(d.bytes));
    mark();
    d = figdawesa_judge_day_by_table(broken, strlen(BROKEN), all, n, ends, 4, lent_words, room, lent_bytes, FIGDAWESA_PAGE_BYTES - 1);
    CHECK(day_sent_back(d, FIGDAWESA_NO_ROOM));
    d = figdawesa_judge_day_by_table(broken, strlen(BROKEN), all, n, ends, 3, lent_words, room, lent_bytes, 0);
    CHECK(day_sent_back(d, FIGDAWESA_WRONG_ENDS));
}

static int made(struct figdawesa_text_outcome r, size_t number, size_t line, size_t text_line, size_t count)
{
    return r.expected == 0 && r.relation == 0 && r.number == number && r.line == line && r.text_line == text_line && r.bytes == count;
}

static struct figdawesa_text_outcome sheet_by(const char *table, const char *text, size_t room)
{
    mark();
    return figdawesa_sheet_of_by_table(of(table), strlen(table), of(text), strlen(text), lent_bytes, room);
}

/* Room for words, and whether they are these and all behind them is as it was. */
static uint8_t said[FIGDAWESA_TEXT_BYTES + 1];

static int says(const char *wanted, size_t n)
{
    if (n != strlen(wanted) || memcmp(said, wanted, n) != 0)
        return 0;
    for (size_t i = n; i < sizeof said; i++)
        if (said[i] != MARK)
            return 0;
    return 1;
}

static struct figdawesa_ended text_by(const char *table, const char *sheet, size_t room)
{
    memset(said, MARK, sizeof said);
    return figdawesa_text_of_by_table(of(table), strlen(table), of(sheet), strlen(sheet), said, room);
}

static size_t answer_by(const char *table, const char *given, size_t room)
{
    memset(said, MARK, sizeof said);
    return figdawesa_answer_by_table(of(table), strlen(table), of(given), strlen(given), said, room);
}

static void texts_by_tables(void)
{
    static const char case_said[] = "not covered: (7,1) is missing. Log: R11(7,1,4)\n";
    static const char refusal[] = "refused: cause 15 at line 2: a line of the table is not right, or the table has none\n";
    static const char none[] = "refused: cause 15: a line of the table is not right, or the table has none\n";
    const size_t room = FIGDAWESA_TEXT_BYTES;
    CHECK(made(sheet_by(CLUB, MEASURED_TEXT, FIGDAWESA_WRITE_BYTES), FIGDAWESA_DONE, 0, 0, strlen(MEASURED)));
    CHECK(memcmp(lent_bytes, MEASURED, strlen(MEASURED)) == 0 && bytes_kept(strlen(MEASURED)));
    CHECK(made(sheet_by(CLUB, MEASURED_TEXT, FIGDAWESA_WRITE_BYTES - 1), FIGDAWESA_NO_ROOM, 0, 0, 0) && bytes_kept(0));
    CHECK(made(sheet_by(OWN, MEASURED_TEXT, ROOM), FIGDAWESA_WRONG_COLUMNS, 2, 1, 0) && bytes_kept(0));
    CHECK(made(sheet_by(BROKEN, MEASURED_TEXT, ROOM), FIGDAWESA_WRONG_TABLE, 2, 0, 0) && bytes_kept(0));
    CHECK(made(sheet_by(BROKEN, "q(", 0), FIGDAWESA_WRONG_TABLE, 2, 0, 0) && bytes_kept(0));
    CHECK(ended(text_by(CLUB, MEASURED, room), FIGDAWESA_DONE, 0, strlen(MEASURED_TEXT)) && says(MEASURED_TEXT, strlen(MEASURED_TEXT)));
    CHECK(ended(text_by(CLUB, MEASURED, room - 1), FIGDAWESA_NO_ROOM, 0, 0) && says("", 0));
    CHECK(ended(text_by(OWN, MEASURED, room), FIGDAWESA_WRONG_COLUMNS, 2, 0) && says("", 0));
    CHECK(ended(text_by(BROKEN, MEASURED, room), FIGDAWESA_WRONG_TABLE, 2, 0) && says("", 0));
    CHECK(ended(text_by(BROKEN, NO_LIST, 0), FIGDAWESA_WRONG_TABLE, 2, 0) && says("", 0));
    CHECK(says(case_said, answer_by(CLUB, MEASURED_TEXT, room)));
    CHECK(says(case_said, answer_by(CLUB, MEASURED, room)));
    CHECK(says(refusal, answer_by(BROKEN, MEASURED_TEXT, room)));
    CHECK(says(refusal, answer_by(BROKEN, MEASURED, room)));
    CHECK(says(none, answer_by("", MEASURED, room)));
    CHECK(says("", answer_by(CLUB, MEASURED, room - 1)) && says("", answer_by(BROKEN, MEASURED, room - 1)));
}

int main(void)
{
    reading();
    writing();
    lines();
    evaluation();
    judging();
    serials();
    judging_sets();
    judging_days();
    texts();
    own_table();
    tables();
    reading_and_writing_by_tables();
    evaluation_by_tables();
    judging_by_tables();
    judging_sets_and_days_by_tables();
    texts_by_tables();
    printf("C: %d checks, %d failed\n", checks, failures);
    return failures == 0 ? EXIT_SUCCESS : EXIT_FAILURE;
}
