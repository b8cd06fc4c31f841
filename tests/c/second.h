/* The second opinion: the calls of include/pundaliket.h and include/sheets.h once more, written from documents 01 and 02 by
 * other means than the libraries, plain and slow; and the text of ./steps. It shares nothing with them but the documents. */
#ifndef SECOND_H
#define SECOND_H

#include <stddef.h>
#include <stdint.h>

/* ---- the calls, second_chip.c, second_floats.c, second_formula.c, second_sheets.c */

uint32_t second_event(uint32_t mode, uint32_t rule, uint8_t *state, size_t state_length, uint32_t kind, uint8_t byte);
uint32_t second_run(uint32_t mode, uint32_t rule, uint8_t *state, size_t state_length, const uint8_t *input, size_t input_length,
                    uint8_t *replies, size_t replies_length, uint8_t *report, size_t report_length);
uint32_t second_word_to_f32(uint32_t word, uint8_t *out, size_t out_length);
uint32_t second_f32_to_word(uint32_t bits, uint8_t *out, size_t out_length);
uint32_t second_words_to_f64(const uint8_t *words, size_t words_length, uint8_t *out, size_t out_length, uint64_t *number);
uint32_t second_f64_to_words(uint32_t rule, const uint8_t *floats, size_t floats_length, uint8_t *out, size_t out_length,
                             uint64_t *number);
uint32_t second_formula(const uint8_t *text, size_t text_length, const uint8_t *letters, size_t letters_length, uint8_t *file,
                        size_t file_length);
uint32_t second_sheets_run(uint32_t mode, uint32_t rule, uint8_t *state, size_t state_length, uint8_t *sheets, size_t sheets_length,
                           const uint8_t *input, size_t input_length, uint8_t *replies, size_t replies_length, uint8_t *report,
                           size_t report_length);
uint32_t second_sheets_figures(const uint8_t *sheets, size_t sheets_length, uint8_t *out, size_t out_length);

/* the word that plain evaluation of a formula gives under a rule; the text is one that second_formula takes */
uint32_t second_value(uint32_t rule, const uint8_t *text, size_t text_length, const uint8_t *letters);

/* what ./steps writes for a code, B and A under a rule, second_steps.c: so many bytes */
size_t second_steps(uint32_t rule, uint8_t code, uint32_t b, uint32_t a, char *text);

/* ---- words, second_words.c: what the calls above stand on */

enum { OVERFLOWS = 1, UNDERFLOWS = 2, ROOT_OF_LESS = 4, BY_ZERO = 8 };

/* what an operation makes: the word, 01's error field, carry or borrow */
struct result {
    uint32_t word, error, carry;
};

/* an operation under a rule on words of so many bits; one operand is A, and B is not looked at */
typedef struct result operation(uint32_t rule, int bits, uint32_t b, uint32_t a);

operation add, subtract, multiply, multiply_upper, divide, change_sign;
operation float_add, float_subtract, float_multiply, float_divide, float_root, float_change_sign;
operation float_of_fixed, fixed_of_float, push_pi;

int is_proper(uint32_t word);

/* an exact value: its sign, the binary digits of a whole number, the lowest first, and the exponent of the lowest */
enum { PLACES = 304 };
struct exact {
    int negative, unit;
    uint8_t digit[PLACES];
};

/* what a word, or a number of so many digits at a place, is worth */
void exact_of_word(struct exact *x, uint32_t word);
void exact_of_number(struct exact *x, int negative, uint64_t number, int place, int unit);

/* how many digits it has: it is at least 2^(n - 1 + unit) and below 2^(n + unit), or zero where n is 0 */
int length_of(const struct exact *x);

/* the word of an exact value under a rule; *lost, where it is asked for: whether the word has another value */
struct result word_of_exact(uint32_t rule, const struct exact *x, int *lost);

#endif
