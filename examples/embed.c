/* Reads a diagram's text on standard input and prints the rounds, the sizes of its sets and the number of cells of its population,
 * or refused=NUMBER,PLACE,ROUND. README.md says how to build it. */
#include <inttypes.h>
#include <stdio.h>

#include "legshorgan.h"

static uint8_t text[8192]; /* every valid text is shorter: LEGSHORGAN_MOST_TEXT bytes at most */
static uint32_t table[LEGSHORGAN_MOST_TABLE], sizes[LEGSHORGAN_MOST_SIZES], cells[LEGSHORGAN_MOST_CELLS];
static uint64_t answer[4];

/* Prints the answer if it is a refusal, and says whether it is. */
static int refused(void) {
    if (answer[0] != 0)
        printf("refused=%" PRIu64 ",%" PRIu64 ",%" PRIu64 "\n", answer[0], answer[1], answer[2]);
    return answer[0] != 0;
}

int main(void) {
    size_t length = fread(text, 1, sizeof text, stdin);
    legshorgan_read(text, length, table, LEGSHORGAN_MOST_TABLE, answer);
    if (refused()) return 1;
    size_t table_length = answer[3];
    legshorgan_check(table, table_length, sizes, LEGSHORGAN_MOST_SIZES, answer);
    if (refused()) return 1;
    printf("rounds=%" PRIu64 "\n", answer[2]);
    for (size_t i = 0; i < answer[3]; i++) printf("size=%" PRIu32 "\n", sizes[i]);
    legshorgan_populate(table, table_length, cells, LEGSHORGAN_MOST_CELLS, answer);
    if (refused()) return 1;
    printf("cells=%" PRIu64 "\n", answer[3]);
    return 0;
}
