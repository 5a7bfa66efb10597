/* The calls of include/legshorgan.h in a version written by hand in C, for the benchmark alone. Arguments and answers are the
 * same. */
#ifndef BASELINE_H
#define BASELINE_H

#include <stddef.h>
#include <stdint.h>

void baseline_read(const uint8_t *text, size_t text_length, uint32_t *table, size_t table_length, uint64_t answer[4]);
void baseline_check(const uint32_t *table, size_t table_length, uint32_t *sizes, size_t sizes_length, uint64_t answer[4]);
void baseline_populate(const uint32_t *table, size_t table_length, uint32_t *cells, size_t cells_length, uint64_t answer[4]);
void baseline_prescribe(const uint32_t *table, size_t table_length, uint32_t set, uint32_t wanted, uint32_t *cells,
                        size_t cells_length, uint64_t answer[4]);
void baseline_average(const uint32_t *table, size_t table_length, uint32_t set, double *quotient, uint64_t answer[4]);
void baseline_write(const uint32_t *table, size_t table_length, uint8_t *text, size_t text_length, uint64_t answer[4]);
void baseline_validate(const uint32_t *table, size_t table_length, const uint32_t *cells, size_t cells_length, uint64_t answer[4]);
void baseline_start(const uint32_t *table, size_t table_length, uint32_t *sizes, size_t sizes_length, uint64_t answer[4]);
void baseline_lower(const uint32_t *table, size_t table_length, uint32_t number, uint32_t *sizes, size_t sizes_length,
                    uint64_t answer[4]);
void baseline_survey(const uint32_t *table, size_t table_length, const uint32_t *sizes, size_t sizes_length, uint64_t answer[4]);

#endif
