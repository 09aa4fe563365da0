/* Judges the sheet of README.md, and prints the verdict, the missing answer and the facts. */
#include <stdio.h>
#include <string.h>

#include "figdawesa.h"

/* All signals are asked for, all beats are listed, and one view has all signals, of which two are listed. */
static const char sheet[] =
    "       1      -1      -2\n"
    "       4       4      -1      -2\n"
    "       2      -1      -2\n"
    "       4       5      -1      -2\n"
    "       3      -1      -2\n"
    "       4       4      -1      -2\n"
    "       5       7       1\n"
    "       5       7       2\n";

static const struct {
    const char *name;
    size_t columns;
} relations[] = {
    {"Rower", 2}, {"Strap", 1}, {"Worn", 3}, {"Sig", 2}, {"Beat", 2}, {"Noise", 2}, {"Pulse", 3}, {"Coach", 2}, {"Seat", 4}, {"Pause", 1},
};

static void print_missing(const size_t *values, size_t columns)
{
    printf("missing: (");
    for (size_t i = 0; i < columns; i++)
        printf("%s%zu", i == 0 ? "" : ", ", values[i]);
    printf(")\n");
}

static void print_fact(const int32_t *fact)
{
    printf("%s(", relations[fact[0] - 1].name);
    for (size_t i = 1; i <= relations[fact[0] - 1].columns; i++)
        printf("%s%d", i == 1 ? "" : ", ", (int)fact[i]);
    printf(")\n");
}

int main(void)
{
    const uint8_t *bytes = (const uint8_t *)sheet;
    size_t length = strlen(sheet);
    int32_t facts[FIGDAWESA_JUDGE_WORDS];
    struct figdawesa_outcome result = figdawesa_judge(bytes, length, facts, FIGDAWESA_JUDGE_WORDS);

    switch (result.verdict) {
    case FIGDAWESA_COVERED:
        printf("covered\n");
        return 0;
    case FIGDAWESA_NO_LOG:
        printf("no log\n");
        return 0;
    case FIGDAWESA_NOT_COVERED:
        printf("not covered\n");
        /* The question's head is line 1: a kind and a field of eight bytes for each column. */
        print_missing(result.missing, figdawesa_line(bytes, length, 1).length / 8 - 1);
        for (size_t i = 0; i < result.count; i++)
            print_fact(facts + i * FIGDAWESA_FACT_WORDS);
        return 0;
    default:
        printf("refused by %zu in line %zu\n", result.number, result.line);
        return 1;
    }
}
