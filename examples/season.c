/* Repairs the three tables of a season under one allowance of choices. Built with the static library (see the README):
 *
 *     gcc -Icrates/fitter_c/include examples/season.c target/staticlib/libfitter.a -o season
 */
#include "fitter.h"

#include <inttypes.h>
#include <stdio.h>

/* The packed tables, end to end and with nothing between: each says by its counts how long it is. */
static const uint8_t season[] = {
    /* page-notes: 3 states, 4 steps, 5 nodes, 1 proposition. No stretch of pages with a note open is endless. */
    3, 4, 5, 1,
    1, 0, 0,  0, 1, 0,  0, 1, 0,
    0, 1, 1,  1, 0, 2,  1, 2, 3,  2, 2, 4,
    0, 0, 0,  2, 0, 0,  9, 0, 1,  3, 2, 0,  8, 0, 3,
    /* The same pages and the same rule, without the step from 1 to 0 that ends a note: no repair. */
    3, 3, 5, 1,
    1, 0, 0,  0, 1, 0,  0, 1, 0,
    0, 1, 1,  1, 2, 3,  2, 2, 4,
    0, 0, 0,  2, 0, 0,  9, 0, 1,  3, 2, 0,  8, 0, 3,
    /* page-notes once more. */
    3, 4, 5, 1,
    1, 0, 0,  0, 1, 0,  0, 1, 0,
    0, 1, 1,  1, 0, 2,  1, 2, 3,  2, 2, 4,
    0, 0, 0,  2, 0, 0,  9, 0, 1,  3, 2, 0,  8, 0, 3,
};

/* What to lend. The lists lie end to end, so there is a byte for each step of all tables, 4 + 3 + 4. The work buffers
 * are used again for each table, so they have as many entries as the table with the largest V needs, and V is worked
 * out from the counts and the kinds of the nodes (fitter.h): for page-notes, with n = 3 and e = 4, it is e + n = 7, and
 * n = 3 for each node of the kinds 0, 2 and 3, and n + n (e + 3 n) = 42 for each of the kinds 9 and 8: 100. The other
 * table, with e = 3, needs less. Who would not work them out lends 8 * 128 for the lists, 223392 for the work and 8
 * for the answers: enough for every parcel. */
enum { TABLES = 3, LISTS = 4 + 3 + 4, WORK = 7 + 3 * 3 + 2 * 42, ALLOWANCE = 20 };

static const char *name(uint32_t number)
{
    return number == 0 ? "found" : number == 14 ? "none" : "spent";
}

int main(void)
{
    static uint8_t lists[LISTS], bytes[WORK];
    static uint32_t words[WORK];
    static const size_t steps[TABLES] = {4, 3, 4};
    fitter_answer answers[TABLES];
    uint32_t tables;
    uint64_t left;
    uint32_t refusal = fitter_parcel(season, sizeof season, ALLOWANCE, lists, LISTS, bytes, WORK, words, WORK, answers,
                                     TABLES, &tables, &left);
    /* 17: these are not one to eight accepted tables; 10: a buffer is too short. Then nothing has been written. */
    if (refusal != 0) {
        printf("refused %" PRIu32 "\n", refusal);
        return 1;
    }
    /* The list of a table begins where that of the table before it ends, whether or not there is one. */
    const uint8_t *list = lists;
    for (uint32_t k = 0; k < tables; k++) {
        printf("table %" PRIu32 ": %s, %" PRIu64 " choices, price %" PRIu32, k, name(answers[k].number),
               answers[k].choices, answers[k].price);
        for (size_t j = 0; j < steps[k]; j++)
            if (answers[k].number == 0)
                printf("%s%d", j == 0 ? ", list " : " ", list[j]);
        printf("\n");
        list += steps[k];
    }
    printf("left: %" PRIu64 " choices\n", left);
    return 0;
}
