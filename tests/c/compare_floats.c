/* Chip words and host floats: f32 both ways, and buffers of f64s. */
#include <string.h>

#include "../../include/pundaliket.h"
#include "compare.h"
#include "drawn.h"
#include "lent.h"
#include "second.h"

static struct slice input, out, second_out;

/* ---- f32: g->code is 1 inward */

static void convert(const struct group *g, uint32_t bits, size_t room)
{
    lend(&out, drawn() & 7, room, NULL);
    lend(&second_out, 0, room, NULL);
    uint32_t a = g->code ? pundaliket_f32_to_word(bits, out.at, room) : pundaliket_word_to_f32(bits, out.at, room);
    uint32_t b = g->code ? second_f32_to_word(bits, second_out.at, room) : second_word_to_f32(bits, second_out.at, room);
    if (!counted(a == b && same(&out, &second_out) && guarded(&out)))
        return;
    show_number("bits", bits);
    show_number("answer of the library", a);
    show_number("answer of the second ", b);
    show_both("out", out.at, second_out.at, room);
    show_number("guards of the library stand", (uint64_t)guarded(&out));
}

static void edges(const struct group *g, uint32_t i) { convert(g, edge(32, i), 4); }

/* every upper half, with four lower halves */
static void upper_halves(const struct group *g, uint32_t i)
{
    static const uint32_t lower[4] = { 0x0000, 0x0001, 0x8000, 0xFFFF };
    convert(g, i / 4 << 16 | lower[i % 4], 4);
}

/* every sign and exponent, 32 fractions of each, five of them edges */
static void exponents(const struct group *g, uint32_t i)
{
    uint32_t fraction = i % 32 < 5 ? some_fraction(i % 32) : below(FRACTIONS);
    convert(g, g->code ? i / 32 % 512 << 23 | fraction : ranked(i / 32 % 2 == 1, i / 64 % 128 * FRACTIONS + fraction), 4);
}

/* slices of 0 to 7 bytes */
static void slices(const struct group *g, uint32_t i) { convert(g, edge(32, i / 8), i % 8); }

static void drawn_bits(const struct group *g, uint32_t i)
{
    (void)i;
    convert(g, drawn(), 4);
}

/* ---- buffers: g->code is 1 inward */

enum { MOST = 256 };
static uint64_t entries[MOST];

/* the number beside the refusal has a guard on each side */
static uint64_t numbers[3];
static const uint64_t number_guard = 0x5A5A5A5A5A5A5A5A;

static void convert_buffer(const struct group *g, uint32_t rule, size_t n, size_t room)
{
    uint8_t content[8 * MOST];
    size_t size = g->code ? 8 : 4;
    uint64_t number = 7;
    for (size_t i = 0; i < n; i++)
        content[i] = (uint8_t)(entries[i / size] >> (8 * (i % size)));
    numbers[0] = numbers[1] = numbers[2] = number_guard;
    lend(&input, drawn() & 7, n, content);
    lend(&out, drawn() & 7, room, NULL);
    lend(&second_out, 0, room, NULL);
    uint32_t a = g->code ? pundaliket_f64_to_words(rule, input.at, n, out.at, room, numbers + 1) : pundaliket_words_to_f64(input.at, n, out.at, room, numbers + 1);
    uint32_t b = g->code ? second_f64_to_words(rule, content, n, second_out.at, room, &number) : second_words_to_f64(content, n, second_out.at, room, &number);
    int guards = numbers[0] == number_guard && numbers[2] == number_guard && guarded(&out) && guarded(&input) && holds(&input, content);
    if (!counted(a == b && numbers[1] == number && same(&out, &second_out) && guards))
        return;
    show_number("rule", rule);
    show_bytes("entries", content, n);
    show_number("answer of the library", a);
    show_number("answer of the second ", b);
    show_number("number of the library", numbers[1]);
    show_number("number of the second ", number);
    show_both("out", out.at, second_out.at, room);
    show_number("guards of the library stand", (uint64_t)guards);
}

static uint64_t f64_of(uint64_t sign, uint64_t field, uint64_t fraction) { return sign << 63 | field << 52 | fraction; }

/* 52 bits, in half of the cases 24 or 23 of them, in a quarter about the middle of two words */
static uint64_t drawn_fraction(void)
{
    uint64_t x = ((uint64_t)drawn() << 32 | drawn()) & 0xFFFFFFFFFFFFF;
    switch (below(4)) {
    case 0: return x & ~(uint64_t)0x0FFFFFFF;
    case 1: return x & ~(uint64_t)0x1FFFFFFF;
    case 2: return (x & ~(uint64_t)0x1FFFFFFF) + 0x0FFFFFFF + below(3);
    default: return x;
    }
}

/* an entry that is taken: a proper word; an f64 from 2^-65 on and below 2^62 */
static uint64_t taken(const struct group *g) { return g->code ? f64_of(below(2), 958 + below(127), drawn_fraction()) : ranked((int)below(2), drawn()); }

static uint64_t any_entry(const struct group *g)
{
    if (!g->code)
        return any_word();
    return below(8) ? taken(g) : f64_of(below(2), below(2048), drawn_fraction());
}

/* one entry that is tried among six that are taken */
static void among_others(const struct group *g, uint32_t rule, uint64_t tried, uint32_t place)
{
    for (uint32_t k = 0; k < 7; k++)
        entries[k] = k == place % 7 ? tried : taken(g);
    convert_buffer(g, rule, g->code ? 56 : 28, g->code ? 28 : 56);
}

/* words: the 198 edges; f64s: eight edges (zero, 2^-65, half a unit and three of them above 1, half a unit below 2^63, 2^63, infinity, the
 * last NaN) and two patterns on either side, either sign, both rules; each at each of seven places */
static void buffer_edges(const struct group *g, uint32_t i)
{
    static const uint64_t floats[8] = { 0x0000000000000000, 0x3BE0000000000000, 0x3FF0000010000000, 0x3FF0000030000000,
                                        0x43DFFFFFF0000000, 0x43E0000000000000, 0x7FF0000000000000, 0x7FFFFFFFFFFFFFFF };
    uint32_t j = i / 7;
    uint64_t tried = g->code ? (floats[j / 2 % 8] + j / 16 % 5 - 2) ^ (uint64_t)(j / 80 % 2) << 63 : edge(32, j);
    among_others(g, j % 2, tried, i);
}

/* words: every sign and exponent, 32 mantissas, with the leading one and without; f64s: every sign and exponent field, 16 fractions, ten of
 * them about the half behind 24 digits, both rules */
static void buffer_exponents(const struct group *g, uint32_t i)
{
    static const uint64_t fractions[10] = { 0x0000000000000, 0x0000000000001, 0x000000FFFFFFF, 0x0000010000000, 0x0000010000001,
                                            0x0000030000000, 0xFFFFFE0000000, 0xFFFFFEFFFFFFF, 0xFFFFFF0000000, 0xFFFFFFFFFFFFF };
    uint32_t k = i / 8192 % 16;
    uint64_t tried;
    if (g->code)
        tried = f64_of(i / 4096 % 2, i / 2 % 2048, k < 10 ? fractions[k] : drawn_fraction());
    else
        tried = (uint64_t)(i / 32 % 256) << 24 | (i % 32 < 10 ? i % 2 << 23 | some_fraction(i % 32) : drawn() & 0xFFFFFF);
    among_others(g, i % 2, tried, i);
}

/* every size up to a byte over eight entries, every room up to eight bytes over theirs, every rule; bad entries from one of nine places
 * on, at every second place, each refused for another reason */
static void buffer_slices(const struct group *g, uint32_t i)
{
    static const uint64_t bad[4] = { 0x7FF0000000000000, 0x43E0000000000000, 0x8000000000000000, 0x3BDFFFFFFFFFFFFF };
    uint32_t place = i % 9;
    for (uint32_t k = 0; k < 9; k++)
        entries[k] = k < place || (k - place) % 2 ? taken(g) : g->code ? bad[k % 4] : (uint64_t)(1 + k * 37 % 255) << 24 | some_fraction(k);
    if (g->code)
        convert_buffer(g, choice(i / 24354), i / 9 % 66, i / 594 % 41);
    else
        convert_buffer(g, 0, i / 9 % 34, i / 306 % 73);
}

/* one to eight entries, and in one of 64 cases 256; up to three bytes of room over */
static void drawn_buffers(const struct group *g, uint32_t i)
{
    uint32_t n = i % 64 ? 1 + i / 2 % 8 : MOST, any = below(4) == 0;
    for (uint32_t k = 0; k < n; k++)
        entries[k] = any ? any_entry(g) : taken(g);
    convert_buffer(g, i % 2, n * (g->code ? 8 : 4), n * (g->code ? 4 : 8) + below(4));
}

const struct group float_groups[] = {
    { "to_f32", "edges", 198, 0, edges, 0 },
    { "to_f32", "upper-halves", 4 * 65536, 0, upper_halves, 0 },
    { "to_f32", "exponents", 8192, 1, exponents, 0 },
    { "to_f32", "slices", 8 * 198, 0, slices, 0 },
    { "to_f32", "drawn", 100000, 1, drawn_bits, 0 },
    { "to_word", "edges", 198, 0, edges, 1 },
    { "to_word", "upper-halves", 4 * 65536, 0, upper_halves, 1 },
    { "to_word", "exponents", 16384, 1, exponents, 1 },
    { "to_word", "slices", 8 * 198, 0, slices, 1 },
    { "to_word", "drawn", 100000, 1, drawn_bits, 1 },
    { "to_f64", "edges", 7 * 198, 0, buffer_edges, 0 },
    { "to_f64", "exponents", 8192, 1, buffer_exponents, 0 },
    { "to_f64", "slices", 9 * 34 * 73, 0, buffer_slices, 0 },
    { "to_f64", "drawn", 32768, 1, drawn_buffers, 0 },
    { "to_words", "edges", 7 * 160, 0, buffer_edges, 1 },
    { "to_words", "exponents", 131072, 1, buffer_exponents, 1 },
    { "to_words", "slices", 9 * 66 * 41 * 4, 0, buffer_slices, 1 },
    { "to_words", "drawn", 65536, 1, drawn_buffers, 1 },
    { NULL, NULL, 0, 0, NULL, 0 },
};
