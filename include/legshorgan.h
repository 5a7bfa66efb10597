/* Legshorgan for programs in C: the calls of crates/capi.
 *
 * Every text, table and list of cells is input, and every call ends. It allocates nothing and has no global state; of the stack it
 * takes up to about 126,000 bytes (measured). A refused call writes only its answer. An accepted one writes its result at the front
 * of the caller's array, and nothing behind it. The contracts in crates/capi/src/lib.rt say exactly what stands in the answer and in
 * that array afterwards.
 *
 * Each pointer is to an array of the length given beside it, the answer to four numbers, the quotient to one; it is aligned, and not
 * null even where the length is 0. What a call writes overlaps no other array of the same call.
 */
#ifndef LEGSHORGAN_H
#define LEGSHORGAN_H

#include <stddef.h>
#include <stdint.h>

#ifdef __cplusplus
extern "C" {
#endif

/* No diagram has a longer result. A shorter array does where the result fits into it. */
#define LEGSHORGAN_MOST_TABLE 900u    /* 1 + 1 + 32 * 6 + 1 + 32 * 4 + 96 * 5 + 48 * 2 + 1 numbers; 708 in diagram=1 */
#define LEGSHORGAN_MOST_SIZES 208u    /* 32 types, 32 predicates, 96 roles, 48 groups */
#define LEGSHORGAN_MOST_CELLS 524352u /* 32 and 32 sizes, 32 * 4096 values, 96 * 4096 values of rows */
#define LEGSHORGAN_MOST_TEXT 4553u    /* bytes; 3593 in diagram=1 */

/* The answer of legshorgan_read, check, populate and write:
 *   answer[0]  0: accepted; else the number of the refusal, 1 to 8
 *   answer[1]  its place: the line from 1 (1 to 6), the set from 1 (7), the length needed (8); 0 if accepted
 *   answer[2]  the rounds made if check or populate accepts; the round of a refusal 7; else 0
 *   answer[3]  the length of the result if accepted, else 0
 */

/* Reads a diagram's text into its table, at most LEGSHORGAN_MOST_TABLE numbers. Refuses with 1 to 6, then 8. */
void legshorgan_read(const uint8_t *text, size_t text_length, uint32_t *table, size_t table_length, uint64_t answer[4]);

/* Writes the settled size of each set of a table's diagram, types, predicates, roles and groups in file order, at most
 * LEGSHORGAN_MOST_SIZES numbers. Refuses with 1 to 6, 7 where a set is emptied, then 8. */
void legshorgan_check(const uint32_t *table, size_t table_length, uint32_t *sizes, size_t sizes_length, uint64_t answer[4]);

/* Writes the cells of the population of a table's diagram: of each type its size and values, of each predicate its size and rows,
 * at most LEGSHORGAN_MOST_CELLS numbers. Refuses like legshorgan_check. */
void legshorgan_populate(const uint32_t *table, size_t table_length, uint32_t *cells, size_t cells_length, uint64_t answer[4]);

/* A population in which one set has just so many: writes the cells of a population of a table's diagram, as legshorgan_populate does,
 * in which the set with this number (from 1: types, predicates, roles, groups, in file order) has exactly wanted members and every
 * other set as many as it then can have. Refuses with 1 to 6; 10 where no set has the number; 11 where no population of the diagram
 * has that many in that set; then 8.
 *   answer[0]  0: accepted; else the number of the refusal, 1 to 6, 10, 11 or 8
 *   answer[1]  its place: the line from 1 (1 to 6), the number that no set has (10), the emptied set from 1 (11), the length needed (8);
 *              0 if accepted
 *   answer[2]  the rounds made if accepted; the round of a refusal 11; else 0
 *   answer[3]  the length of the result if accepted, else 0
 */
void legshorgan_prescribe(const uint32_t *table, size_t table_length, uint32_t set, uint32_t wanted, uint32_t *cells,
                          size_t cells_length, uint64_t answer[4]);

/* The average use of a group: the settled size of its predicate divided by its own settled size. The group is asked for by its
 * set number (from 1: types, predicates, roles, groups, in file order). Refuses with 1 to 6; 10 where no group has the number; then
 * 7 where a set is emptied. Where it divides evenly the whole number stands in the answer; else *quotient is the double nearest to
 * the quotient, from one division of the two sizes (IEEE 754, ties to even). In every other case *quotient stays as it was.
 *   answer[0]  0: accepted; else the number of the refusal, 1 to 6, 10 or 7
 *   answer[1]  its place: the line from 1 (1 to 6), the number that no group has (10), the emptied set from 1 (7); 0 if accepted
 *   answer[2]  0 if the quotient is a whole number, 1 if it is not and stands in *quotient; the round of a refusal 7; else 0
 *   answer[3]  the whole number; else 0
 */
void legshorgan_average(const uint32_t *table, size_t table_length, uint32_t set, double *quotient, uint64_t answer[4]);

/* Writes the text of a table's diagram, at most LEGSHORGAN_MOST_TEXT bytes. Refuses with 1 to 6, then 8. */
void legshorgan_write(const uint32_t *table, size_t table_length, uint8_t *text, size_t text_length, uint64_t answer[4]);

/* Whether cells are a population that meets every constraint of a table's diagram. Writes only its answer:
 *   answer[0]  0: not refused; else 1 to 6 of the table, or 9 where the cells end early or run on
 *   answer[1]  the line from 1 (1 to 6), the index of the cell from 0 (9); 0 if not refused
 *   answer[2]  the lowest broken constraint, 1 to 11 for K1 to K11; 0 if none is broken
 *   answer[3]  the lowest number of a type (K1 to K4, K10) or a predicate (K5 to K9, K11) that breaks it; 0 if none does
 */
void legshorgan_validate(const uint32_t *table, size_t table_length, const uint32_t *cells, size_t cells_length, uint64_t answer[4]);

/* One limit at a time, on upper bounds of the sets that the caller keeps: legshorgan_start gives those that the rounds start from,
 * legshorgan_lower puts one limit to use on them, legshorgan_survey says whether any limit still lowers one. In whatever order the
 * limits come, where none lowers any more the bounds are the sizes that legshorgan_check writes; or one is below its lower bound,
 * just where legshorgan_check refuses with 7. Limits have numbers from 0, in the order of docs/FORMAT.md. */

/* Writes the upper bound of each set that the rounds start from, at most LEGSHORGAN_MOST_SIZES numbers. Refuses with 1 to 6, then 8.
 * The answer is as for legshorgan_read. */
void legshorgan_start(const uint32_t *table, size_t table_length, uint32_t *sizes, size_t sizes_length, uint64_t answer[4]);

/* The answer of legshorgan_lower and survey:
 *   answer[0]  0: accepted; else the number of the refusal, 1 to 6, 10 or 8
 *   answer[1]  its place: the line from 1 (1 to 6), the number that no limit has (10), the number of sets (8); 0 if accepted
 *   answer[2]  1 if a limit lowers an upper bound, else 0
 *   answer[3]  the number of sets (lower) or of limits (survey) if accepted, else 0
 */

/* Puts the limit with this number to use on the upper bounds at the front of sizes, which may be any numbers: where the limit's
 * value at these bounds is below the bound of the set that it limits, the bound becomes that value. Nothing else changes. Refuses
 * with 1 to 6; 10 where no limit has the number; 8 where sizes has fewer numbers than the diagram has sets. */
void legshorgan_lower(const uint32_t *table, size_t table_length, uint32_t number, uint32_t *sizes, size_t sizes_length,
                      uint64_t answer[4]);

/* Whether any limit lowers one of the upper bounds at the front of sizes, and how many limits there are. Writes only its answer.
 * Refuses with 1 to 6, then 8. */
void legshorgan_survey(const uint32_t *table, size_t table_length, const uint32_t *sizes, size_t sizes_length, uint64_t answer[4]);

#ifdef __cplusplus
}
#endif

#endif
