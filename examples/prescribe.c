/* Reads a diagram's text on standard input and prints the cells of a population in which its first predicate has just four rows,
 * every other set as many members as it then can have: of each type its size and values, of each predicate its size and rows. Then
 * it asks for seven. Prints refused=NUMBER,PLACE,ROUND where there is no such population: 11, the set that is emptied and the round.
 * It is built as embed.c is, see README.md. Of examples/sample.txt, which has at most six rows:
 *
 *   set=3 wanted=4
 *   rounds=3
 *   cells=3,1,2,3,2,1,2,4,1,1,2,2,3,1,1,2
 *   set=3 wanted=7
 *   refused=11,3,3
 */
#include <inttypes.h>
#include <stdio.h>

#include "legshorgan.h"

static uint8_t text[8192]; /* every valid text is shorter: LEGSHORGAN_MOST_TEXT bytes at most */
static uint32_t table[LEGSHORGAN_MOST_TABLE], cells[LEGSHORGAN_MOST_CELLS];
static uint64_t answer[4];

/* Prints the answer if it is a refusal, and says whether it is. */
static int refused(void) {
    if (answer[0] != 0)
        printf("refused=%" PRIu64 ",%" PRIu64 ",%" PRIu64 "\n", answer[0], answer[1], answer[2]);
    return answer[0] != 0;
}

/* A population in which the set has just so many members. */
static void print(size_t table_length, uint32_t set, uint32_t wanted) {
    printf("set=%" PRIu32 " wanted=%" PRIu32 "\n", set, wanted);
    legshorgan_prescribe(table, table_length, set, wanted, cells, LEGSHORGAN_MOST_CELLS, answer);
    if (refused()) return;
    printf("rounds=%" PRIu64 "\ncells=", answer[2]);
    for (size_t i = 0; i < answer[3]; i++) printf("%s%" PRIu32, i > 0 ? "," : "", cells[i]);
    printf("\n");
}

int main(void) {
    size_t length = fread(text, 1, sizeof text, stdin);
    legshorgan_read(text, length, table, LEGSHORGAN_MOST_TABLE, answer);
    if (refused()) return 1;
    size_t table_length = answer[3];
    uint32_t set = table[1] + 1; /* behind the types */
    print(table_length, set, 4);
    print(table_length, set, 7);
    return 0;
}
