/* Reads a diagram's text on standard input and prints the average use of each of its groups, the rows of its predicate divided by
 * its combinations, as a whole number where it is one; nothing where there are no groups. Prints refused=NUMBER,PLACE,ROUND where a
 * set is emptied: 7, the set and the round. It is built as embed.c is, see README.md. Of examples/sample.txt, whose six rows have
 * three combinations in its one group:
 *
 *   set=6 whole=2
 *
 * With type=1,4,1,4,0,0 for its second type, pred=1,10,2,1 and freq=1,4 there are ten rows:
 *
 *   set=6 average=3.3333333333333335
 */
#include <inttypes.h>
#include <stdio.h>

#include "legshorgan.h"

static uint8_t text[8192]; /* every valid text is shorter: LEGSHORGAN_MOST_TEXT bytes at most */
static uint32_t table[LEGSHORGAN_MOST_TABLE];
static uint64_t answer[4];

/* Prints the answer if it is a refusal, and says whether it is. */
static int refused(void) {
    if (answer[0] != 0)
        printf("refused=%" PRIu64 ",%" PRIu64 ",%" PRIu64 "\n", answer[0], answer[1], answer[2]);
    return answer[0] != 0;
}

int main(void) {
    size_t length = fread(text, 1, sizeof text, stdin);
    legshorgan_read(text, length, table, LEGSHORGAN_MOST_TABLE, answer);
    if (refused()) return 1;
    size_t table_length = answer[3];
    uint32_t types = table[1], preds = table[2 + 6 * types], roles = table[table_length - 1];
    for (uint32_t set = types + preds + roles + 1;; set++) {
        double quotient = 0;
        legshorgan_average(table, table_length, set, &quotient, answer);
        if (answer[0] == 10) return 0; /* behind the last group */
        if (refused()) return 1;
        if (answer[2] == 0)
            printf("set=%" PRIu32 " whole=%" PRIu64 "\n", set, answer[3]);
        else
            printf("set=%" PRIu32 " average=%.17g\n", set, quotient);
    }
}
