/* The library's peer in bench/run: those calls of include/pundaliket.h and include/sheets.h that are measured, in plain C, written from
 * documents 01 and 02 for speed. Proved by nothing; bench/run compares its answers on what it measures. */
#ifndef PLAIN_H
#define PLAIN_H

#include <stddef.h>
#include <stdint.h>

uint32_t plain_run(uint32_t mode, uint32_t rule, uint8_t *state, size_t state_length, const uint8_t *input, size_t input_length,
                   uint8_t *replies, size_t replies_length, uint8_t *report, size_t report_length);
uint32_t plain_event(uint32_t mode, uint32_t rule, uint8_t *state, size_t state_length, uint32_t kind, uint8_t byte);
uint32_t plain_words_to_f64(const uint8_t *words, size_t words_length, uint8_t *out, size_t out_length, uint64_t *number);
uint32_t plain_f64_to_words(uint32_t rule, const uint8_t *floats, size_t floats_length, uint8_t *out, size_t out_length, uint64_t *number);
uint32_t plain_sheets_run(uint32_t mode, uint32_t rule, uint8_t *state, size_t state_length, uint8_t *sheets, size_t sheets_length,
                          const uint8_t *input, size_t input_length, uint8_t *replies, size_t replies_length, uint8_t *report, size_t report_length);

#endif
