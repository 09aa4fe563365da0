/* Figdawesa from C: sheets read and written, their lines, evaluation, the verdict on cover, the verdicts of a page's whole set, and the
 * page to print for it; sheets as texts, and what comes of them in words. All go by the library's own table of relations, or by a club's.
 *
 * Link crates/figdawesa/out/libfigdawesa.a, which `rt lib` in crates/figdawesa writes, for x86-64 Linux. Of the C library it needs memcpy,
 * memmove and memset, and nothing else. README.md says what a sheet is, docs/PROMISES.md what each call promises.
 *
 * For every call:
 *
 *   - A pointer is followed by its length, which counts elements: bytes for uint8_t, words for int32_t, ends for size_t. The caller sees to it that so
 *     many elements can be read there, and can be written where the pointer is not const. Where a length is 0 the pointer is not used, and
 *     may be null.
 *   - What is written to (`out`, `page`) overlaps nothing else that is passed. Inputs may overlap each other; they are never written.
 *   - No length and no content of what is passed is an error of the caller's: the answer is then a refusal.
 *   - A refusal changes nothing. Otherwise the results stand at the front of `out`, and what follows them is as it was. (Of a set each sheet
 *     has a stretch of `out`, of which this holds.)
 *   - Nothing is kept between calls, and nothing is allocated. Threads can call at the same time, each with an `out` (and `page`) of its own.
 *   - Stack: give the thread that calls figdawesa_judge, figdawesa_judge_set, figdawesa_judge_day or figdawesa_answer, or one of these by a table,
 *     256 KiB or more. No proof speaks of the stack; it is measured.
 */
#ifndef FIGDAWESA_H
#define FIGDAWESA_H

#include <stddef.h>
#include <stdint.h>

#ifdef __cplusplus
extern "C" {
#endif

/* ---- Sizes */

#define FIGDAWESA_SHEET_BYTES 8192    /* a sheet's bytes, at most */
#define FIGDAWESA_READ_WORDS 749      /* the words that figdawesa_read wants, and the number form's words, at most */
#define FIGDAWESA_WRITE_BYTES 5243    /* the bytes that figdawesa_write wants */
#define FIGDAWESA_JUDGE_WORDS 1260    /* the words that figdawesa_judge wants, and figdawesa_judge_set for each sheet */
#define FIGDAWESA_SHEETS 16           /* sheets of a set, at most */
#define FIGDAWESA_PAGE_BYTES 569      /* the bytes that figdawesa_judge_day wants for the page */
#define FIGDAWESA_TEXT_BYTES 16384    /* the bytes that figdawesa_text_of and figdawesa_answer want */
#define FIGDAWESA_TABLE_BYTES 1056    /* a table's bytes, at most: 32 lines of 33 */
#define FIGDAWESA_OWN_TABLE_BYTES 330 /* the bytes that figdawesa_own_table wants, and the own table's bytes */
#define FIGDAWESA_RELATIONS 32        /* relations of a table, at most */
#define FIGDAWESA_FACTS 256           /* facts given to figdawesa_evaluate, at most */
#define FIGDAWESA_LINE_WORDS 7        /* a line in the number form: how many fields it has, and the fields, filled up with 0 to six */
#define FIGDAWESA_FACT_WORDS 5        /* a fact: its relation and its values, filled up with 0 to four */
#define FIGDAWESA_ANSWER_WORDS 4      /* an answer: its values, filled up with 0 to four */

/* ---- Relations
 *
 * A table says which relations there are. It is 1 to 32 lines, one for each relation, and byte 10 closes a line. A line has four fields of eight
 * bytes, as in a sheet:
 *
 *   - the relation's number: 1 in the first line, and one more in each line after it;
 *   - how many columns it has, 1 to 4;
 *   - its key columns, fewer than its columns, 0 for none: rows of a log that are alike in the first so many are alike in all;
 *   - its parent, 0 for none: a relation of a line before, with as many columns and no parent of its own, that has each row of this one.
 *
 * The library's own table has ten lines, which figdawesa_own_table writes. Number, name and columns, and below them keys and parents:
 *
 *   1 Rower(rower, crew)            6 Noise(strap, tick)
 *   2 Strap(strap)                  7 Pulse(strap, tick, rate)
 *   3 Worn(strap, session, rower)   8 Coach(coach, crew)
 *   4 Sig(strap, tick)              9 Seat(rower, session, boat, seat)
 *   5 Beat(strap, tick)            10 Pause(session)
 *
 * 3 (Worn) and 7 (Pulse) have two key columns, 5 (Beat) and 6 (Noise) have the parent 4 (Sig).
 *
 * Texts, and what is said in words, call relations 1 to 10 by these names, whatever the table; a text gives each of them the columns that stand here. A
 * relation beyond the ten goes by its number: R11.
 */

/* ---- Refusals, by number; the line that is returned stands behind the colon.
 *
 * Of a set 14 comes before everything else and 13 follows it; each sheet of a set that is taken then has its own.
 * Where a table is given, 15 comes before all else of a sheet, a number form or a text; each sheet of a set that is taken has it then.
 * After it the first that holds is returned, in this order: 1; words not by sevens; for one line after the other 2 to 7, then 9; a question or a
 * list that is missing; 8, head by head; 10; the facts' word count; fact by fact 11, then 12; 13. The table decides on 4 and 11. */

enum {
    FIGDAWESA_DONE = 0,          /* nothing is refused */
    FIGDAWESA_TOO_LONG = 1,      /* a sheet over 8,192 bytes, a number form over 749 words: line 0 */
    FIGDAWESA_MALFORMED = 2,     /* a line or a field that is malformed, an unclosed last line: its line; words not by sevens: line 0 */
    FIGDAWESA_MISPLACED = 3,     /* no kind, out of place, or a wrong field count: its line; question or lists missing: line 0 */
    FIGDAWESA_WRONG_COLUMNS = 4, /* no such relation, or its columns not met: the atom's line */
    FIGDAWESA_OUT_OF_RANGE = 5,  /* a term out of range, a variable in a row: its line */
    FIGDAWESA_TOO_MANY = 6,      /* more atoms, lists, views or rows than there may be: the line of the first beyond */
    FIGDAWESA_WRONG_LENGTH = 7,  /* a list's head unlike the question's in length, or a row unlike its head: its line */
    FIGDAWESA_UNSAFE_HEAD = 8,   /* a block without atoms, or with a variable that only its head has: the head's line */
    FIGDAWESA_NOT_ABOVE = 9,     /* a row that is not above the one before: its line */
    FIGDAWESA_NO_BLOCK = 10,     /* no such block: line 0 */
    FIGDAWESA_WRONG_FACT = 11,   /* fact words not by fives; a fact that is none by its relation, values or filling: line 0 */
    FIGDAWESA_FACT_ORDER = 12,   /* more than 256 facts, or facts that do not ascend: line 0 */
    FIGDAWESA_NO_ROOM = 13,      /* `out` or `page` is too short: line 0 */
    FIGDAWESA_WRONG_ENDS = 14,   /* more than 16 sheets, an end below the one before, a last end that is not the byte count: line 0 */
    FIGDAWESA_WRONG_TABLE = 15   /* a line that no table has there, unclosed or a 33rd: the table's line; a table without bytes: line 0 */
};

/* How a call ended. Nothing refused: number and line are 0. Refused: the number, the line from 1, or 0 where none is named, and count 0. */
struct figdawesa_ended {
    size_t number;
    size_t line;
    size_t count;
};

/* A part of the sheet's bytes. */
struct figdawesa_stretch {
    size_t start;
    size_t length;
};

/* ---- Verdicts */

enum {
    FIGDAWESA_COVERED = 0,     /* some log gives exactly the listed rows, and each such log gives some list each answer of the question */
    FIGDAWESA_NOT_COVERED = 1, /* some such log gives the question an answer that it gives no list */
    FIGDAWESA_NO_LOG = 2,      /* no log gives exactly the listed rows */
    FIGDAWESA_REFUSED = 9      /* the sheet is sent back, by number and line */
};

/* A judgement. Number and line are 0 unless the verdict is 9. Count and missing are 0 unless the verdict is 1: then `count` facts stand in
 * `out`, and `missing` is the least of the question's answers that every list lacks there, filled up with 0 to four numbers. */
struct figdawesa_outcome {
    size_t verdict;
    size_t number;
    size_t line;
    size_t count;
    size_t missing[4];
};

/* The judgements of a set. Taken: number and line are 0, `count` is how many sheets it has, and `sheets` has their judgements, in the
 * sheets' order. Refused: the number, line 0, and count 0. Every place of `sheets` that no sheet has, all 16 of them after a refusal, holds
 * verdict 9 with the set's number, 0 where it is taken, and 0 in everything else. */
struct figdawesa_set_outcome {
    size_t number;
    size_t line;
    size_t count;
    struct figdawesa_outcome sheets[FIGDAWESA_SHEETS];
};

/* The judgements of a set, and how many bytes its page has; 0 where the set is refused. */
struct figdawesa_day_outcome {
    struct figdawesa_set_outcome set;
    size_t bytes;
};

/* What became of a text. Its sheet has `bytes` bytes, and everything else is 0. Or it was not understood: `expected` says by one of README's numbers what was
 * expected in line `text_line` of the text, and `relation` in which relation, 0 where none is meant. Or its sheet is refused: the number and the line of the sheet, and
 * the line of the text in which that one begins, 0 where none is named. Or the table is: 15, the table's line, and 0 for the text's. */
struct figdawesa_text_outcome {
    size_t expected;
    size_t relation;
    size_t number;
    size_t line;
    size_t text_line;
    size_t bytes;
};

/* ---- The calls, by the library's own table */

/* A sheet's bytes to its number form: `count` lines of seven words at the front of `out`. At most 749 words are written.
 * Refused by 1 to 9, and then by 13 where out_words is below 749, however short the sheet is. */
struct figdawesa_ended figdawesa_read(const uint8_t *sheet, size_t sheet_bytes, int32_t *out, size_t out_words);

/* A number form to its sheet's bytes: `count` bytes at the front of `out`. At most 5,243 bytes are written.
 * Refused by 1 to 9, and then by 13 where out_bytes is below 5,243, however short the form is. */
struct figdawesa_ended figdawesa_write(const int32_t *words, size_t word_count, uint8_t *out, size_t out_bytes);

/* Where line `number`, counted from 1, stands in the sheet: its own bytes, without the byte 10 that closes it. Start and length are 0
 * for a line that is not there or is not closed. Bytes of any length and content are taken, a sheet or not. */
struct figdawesa_stretch figdawesa_line(const uint8_t *sheet, size_t sheet_bytes, size_t number);

/* The answers that given facts give a block of the sheet: `count` answers of four words at the front of `out`, ascending, each once, and
 * no others. Block 1 is the question, then come the lists, then the views. Facts ascend, each once, with values from 0 to 10,000,999.
 * Refused by 1 to 9, then by 10, then by 11 and 12, and then by 13 exactly where the answers do not fit. */
struct figdawesa_ended figdawesa_evaluate(const uint8_t *sheet, size_t sheet_bytes, size_t block, const int32_t *facts, size_t fact_words,
                                          int32_t *out, size_t out_words);

/* Whether the sheet's lists, one to four, together cover its question. Verdicts 0 and 2 write nothing. Verdict 1 writes `count` facts of
 * five words at the front of `out`, ascending, each once: a log that gives exactly the listed rows, shows that the lists do not cover, and
 * has no fact to spare.
 * Which logs count goes by the table's keys and parents. By the own table relation 4 (Sig) has each row of relations 5 (Beat) and 6 (Noise), and
 * rows of relation 3 (Worn), and of relation 7 (Pulse), that are alike in the first two columns are alike in the third. figdawesa_evaluate asks
 * for neither.
 * There are at most 252 facts, by any table, so at most 1,260 words are written; their values are numbers of the sheet, or made up from 10,000,000 to
 * 10,000,999.
 * Verdict 9: refused by 1 to 9, and then by 13 where out_words is below 1,260, whatever the verdict would be. */
struct figdawesa_outcome figdawesa_judge(const uint8_t *sheet, size_t sheet_bytes, int32_t *out, size_t out_words);

/* The judgements of a page's whole set of sheets. `bytes` holds them one after the other, and `ends` says where each ends, so the sheet at
 * place k, counted from 0, has the bytes from ends[k - 1], or 0 for the first, up to ends[k]. Two equal ends are a sheet without bytes.
 * Each sheet gets the judgement that figdawesa_judge gives it alone with the 1,260 words from word k * 1,260 of `out`, a refusal included; it
 * changes no word outside these, and words past the last stretch are as they were.
 * The set is refused by 14, and then by 13 where out_words is below 1,260 for each sheet. A set of no sheets and no bytes is taken. */
struct figdawesa_set_outcome figdawesa_judge_set(const uint8_t *bytes, size_t byte_count, const size_t *ends, size_t sheets, int32_t *out,
                                                 size_t out_words);

/* The same, and the page to print for the set: `bytes` bytes at the front of `page`. A line for each sheet has four fields, its place from 1,
 * its verdict, its refusal's number or 0, and its fact count. A closing line has five: how many sheets had verdict 0, 1, 2 and 9, and the sum
 * of the fact counts. A field is eight bytes, as in a sheet, and byte 10 closes a line. With n sheets the page has 33 * n + 41 bytes.
 * Refused by 14, and then by 13 where out_words is below 1,260 for each sheet or page_bytes below 569, however many sheets there are. */
struct figdawesa_day_outcome figdawesa_judge_day(const uint8_t *bytes, size_t byte_count, const size_t *ends, size_t sheets, int32_t *out,
                                                 size_t out_words, uint8_t *page, size_t page_bytes);

/* The sheet of a text: `bytes` bytes at the front of `out`. At most 5,243 bytes are written, and none where there is no sheet. What is expected is told first; a
 * sheet is refused as figdawesa_write refuses it, by 13 where out_bytes is below 5,243. */
struct figdawesa_text_outcome figdawesa_sheet_of(const uint8_t *text, size_t text_bytes, uint8_t *out, size_t out_bytes);

/* The text of a sheet: `count` bytes at the front of `out`. Refused by 1 to 9, and then by 13 where out_bytes is below 16,384. */
struct figdawesa_ended figdawesa_text_of(const uint8_t *sheet, size_t sheet_bytes, uint8_t *out, size_t out_bytes);

/* What comes of a sheet or a text, in words: its verdict, with the missing answer and the case, or why there is none. How many bytes stand at the front of `out`;
 * 0, and nothing is written, where out_bytes is below 16,384. */
size_t figdawesa_answer(const uint8_t *given, size_t given_bytes, uint8_t *out, size_t out_bytes);

/* The own table's bytes: `count` is 330, and they stand at the front of `out`. Refused by 13 where out_bytes is below 330. */
struct figdawesa_ended figdawesa_own_table(uint8_t *out, size_t out_bytes);

/* ---- The same by a table's bytes. With those of the own table each call gives what it gives above. */

/* figdawesa_read by a table: refused by 15 first. */
struct figdawesa_ended figdawesa_read_by_table(const uint8_t *table, size_t table_bytes, const uint8_t *sheet, size_t sheet_bytes, int32_t *out,
                                               size_t out_words);

/* figdawesa_write by a table: refused by 15 first. */
struct figdawesa_ended figdawesa_write_by_table(const uint8_t *table, size_t table_bytes, const int32_t *words, size_t word_count, uint8_t *out,
                                                size_t out_bytes);

/* figdawesa_evaluate by a table: refused by 15 first. */
struct figdawesa_ended figdawesa_evaluate_by_table(const uint8_t *table, size_t table_bytes, const uint8_t *sheet, size_t sheet_bytes,
                                                   size_t block, const int32_t *facts, size_t fact_words, int32_t *out, size_t out_words);

/* figdawesa_judge by a table: verdict 9 by 15 first. */
struct figdawesa_outcome figdawesa_judge_by_table(const uint8_t *table, size_t table_bytes, const uint8_t *sheet, size_t sheet_bytes,
                                                  int32_t *out, size_t out_words);

/* figdawesa_judge_set by a table. The set is refused by 14 and 13 alone; in one that is taken, each sheet has verdict 9 by 15 where the table is refused. */
struct figdawesa_set_outcome figdawesa_judge_set_by_table(const uint8_t *table, size_t table_bytes, const uint8_t *bytes, size_t byte_count,
                                                          const size_t *ends, size_t sheets, int32_t *out, size_t out_words);

/* figdawesa_judge_day by a table. As above; the page of a set that is taken is written, and shows 9 and 15 for each sheet where the table is refused. */
struct figdawesa_day_outcome figdawesa_judge_day_by_table(const uint8_t *table, size_t table_bytes, const uint8_t *bytes, size_t byte_count,
                                                          const size_t *ends, size_t sheets, int32_t *out, size_t out_words, uint8_t *page,
                                                          size_t page_bytes);

/* figdawesa_sheet_of by a table: refused by 15 before the text is looked at. */
struct figdawesa_text_outcome figdawesa_sheet_of_by_table(const uint8_t *table, size_t table_bytes, const uint8_t *text, size_t text_bytes,
                                                          uint8_t *out, size_t out_bytes);

/* figdawesa_text_of by a table: refused by 15 first. */
struct figdawesa_ended figdawesa_text_of_by_table(const uint8_t *table, size_t table_bytes, const uint8_t *sheet, size_t sheet_bytes,
                                                  uint8_t *out, size_t out_bytes);

/* figdawesa_answer by a table: that a table is refused is said in words too. */
size_t figdawesa_answer_by_table(const uint8_t *table, size_t table_bytes, const uint8_t *given, size_t given_bytes, uint8_t *out,
                                 size_t out_bytes);

#ifdef __cplusplus
}
#endif

#if defined(__STDC_VERSION__) && __STDC_VERSION__ >= 201112L
_Static_assert(sizeof(size_t) == 8, "the archive is for x86-64");
#endif

#endif
