/* What the C tests draw: numbers, words, states, records, lists of sheets, texts of formulas. All come from one seed. */
#ifndef DRAWN_H
#define DRAWN_H

#include <stddef.h>
#include <stdint.h>

/* what the next number is drawn from; not zero */
extern uint64_t seed;

uint32_t drawn(void);
uint32_t below(uint32_t n);

/* ---- words */

/* 2^k - 1, 2^k, 2^k + 1 and their opposites for every k up to the width: 102 words of 16 bits, 198 of 32 */
enum { EDGES_16 = 102, EDGES_32 = 198 };
uint32_t edge(int bits, uint32_t i);

/* the positive proper words that are not zero in order of magnitude, 2^23 of each exponent from -64 on, or their opposites */
uint32_t ranked(int negative, uint32_t rank);
enum { EXPONENTS = 128, FRACTIONS = 1 << 23 };

/* five fractions: the least, its neighbour, the half, the two greatest */
uint32_t some_fraction(uint32_t i);

/* any word, a proper one in three of four cases; a word as commands meet it, edges among them */
uint32_t any_word(void);
uint32_t drawn_word(void);

/* a word and up to 2^16 times less, so that numbers of every size occur */
uint32_t sized_word(void);

void put_word(uint8_t *to, uint32_t word);    /* the low byte first */
void put_operand(uint8_t *to, uint32_t word); /* the top byte first, as on the stack */

/* ---- states, records, lists */

/* 21 bytes: a state and an error memory, in one of four cases an empty one */
void draw_state(uint8_t *state);

/* a length that a state has, in one of ten cases any; a mode or a rule, in one of ten cases any number */
size_t drawn_length(void);
uint32_t drawn_choice(void);

/* a code that is carried, with either service bit, in one of eight cases any */
uint8_t drawn_code(void);

/* a record of the core; one of the core or of the sheets, whose kinds come in an order that closes sheets. The bytes that it has */
size_t draw_record(uint8_t *to);
size_t draw_any_record(uint8_t *to, unsigned turn);

/* 1,303 bytes: a list of sheets, in one of twenty cases a bad one */
void draw_list(uint8_t *list);

/* ---- formulas */

/* how a drawn formula grows: operations, minus signs and brackets beyond those that it needs; the words that it may need, how deep it
 * may nest; how it leans, from 4 on with many minus signs and brackets; whether its constants are proper */
struct growth {
    unsigned size, needs, deep, shape;
    int sound;
};

enum { TEXT = 320 };
size_t draw_formula(char *text, struct growth g);

/* a word for a letter or a constant */
uint32_t formula_word(int sound);

#endif
