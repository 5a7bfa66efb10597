/* Reads a diagram's text on standard input, lowers the upper bounds of its sets by one limit at a time in a random order until no
 * limit lowers any, and prints the sizes that they end at. These are the settled sizes, in whatever order: the argument, a number,
 * gives another one. Prints refused=NUMBER,PLACE,ROUND where a bound ends below its lower bound, as the check says it. It is built
 * as embed.c is, see README.md. */
#include <inttypes.h>
#include <stdio.h>
#include <stdlib.h>

#include "legshorgan.h"

static uint8_t text[8192]; /* every valid text is shorter: LEGSHORGAN_MOST_TEXT bytes at most */
static uint32_t table[LEGSHORGAN_MOST_TABLE], bounds[LEGSHORGAN_MOST_SIZES], sizes[LEGSHORGAN_MOST_SIZES];
static uint64_t answer[4], state;

/* Prints the answer if it is a refusal, and says whether it is. */
static int refused(void) {
    if (answer[0] != 0)
        printf("refused=%" PRIu64 ",%" PRIu64 ",%" PRIu64 "\n", answer[0], answer[1], answer[2]);
    return answer[0] != 0;
}

/* A number below another, from the high bits of a linear congruential generator. */
static uint32_t below(uint32_t most) {
    state = state * 6364136223846793005u + 1442695040888963407u;
    return (uint32_t)((state >> 32) % most);
}

int main(int count, char **words) {
    state = count > 1 ? strtoull(words[1], NULL, 10) : 1;
    size_t length = fread(text, 1, sizeof text, stdin);
    legshorgan_read(text, length, table, LEGSHORGAN_MOST_TABLE, answer);
    if (refused()) return 1;
    size_t table_length = answer[3];
    legshorgan_start(table, table_length, bounds, LEGSHORGAN_MOST_SIZES, answer);
    size_t sets = answer[3];
    for (;;) {
        legshorgan_survey(table, table_length, bounds, sets, answer);
        if (answer[2] == 0) break;
        uint32_t limits = (uint32_t)answer[3];
        for (uint32_t i = 0; i < limits; i++) legshorgan_lower(table, table_length, below(limits), bounds, sets, answer);
    }
    /* The set and the round of a refusal come from the rounds. */
    legshorgan_check(table, table_length, sizes, sets, answer);
    if (refused()) return 1;
    for (size_t i = 0; i < sets; i++) printf("size=%" PRIu32 "\n", bounds[i]);
    return 0;
}
