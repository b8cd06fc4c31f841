/* Commands that make a word of words, and those that move words, by the call for an event on a state with the operands on top. What
 * stands below them, status, service line, error memory, mode and the code's service bit are drawn. */
#include "../../include/pundaliket.h"
#include "compare.h"
#include "drawn.h"

/* ---- a command on B and A under a rule; of 16 bits both stand in the uppermost word */

static void on_state(uint32_t code, uint32_t rule, uint32_t top, uint32_t next)
{
    uint8_t state[PUNDALIKET_LONG_STATE_BYTES];
    draw_state(state);
    put_operand(state, top);
    put_operand(state + 4, next);
    state[PUNDALIKET_AT_PENDING] = 0;
    compare_event(below(2), rule, state, below(2) ? 19 : 21, PUNDALIKET_COMMAND, (uint8_t)(code | below(2) << 7));
}

static void narrow(const struct group *g, uint32_t b, uint32_t a) { on_state(g->code, below(2), a << 16 | (b & 0xFFFF), drawn_word()); }

/* the rule is that of the case's number, so that each pair has both */
static void wide(const struct group *g, uint32_t i, uint32_t b, uint32_t a) { on_state(g->code, i % 2, a, b); }

/* ---- fixed point */

static void edges_16(const struct group *g, uint32_t i) { narrow(g, edge(16, i / EDGES_16), edge(16, i % EDGES_16)); }

/* every A against eight B, every B against eight A: zero, the signs and the halves */
static void sweeps(const struct group *g, uint32_t i)
{
    static const uint32_t others[8] = { 0x0000, 0x0001, 0xFFFF, 0x7FFF, 0x8000, 0x8001, 0x00FF, 0x0100 };
    uint32_t all = i % 65536, other = others[i / 65536 % 8];
    if (i / 65536 < 8)
        narrow(g, other, all);
    else
        narrow(g, all, other);
}

static void all_16(const struct group *g, uint32_t i) { narrow(g, drawn(), i % 65536); }

static void drawn_16(const struct group *g, uint32_t i)
{
    (void)i;
    narrow(g, drawn(), sized_word() >> 16);
}

static void edges_32(const struct group *g, uint32_t i) { wide(g, below(2), edge(32, i / EDGES_32), edge(32, i % EDGES_32)); }

static void drawn_32(const struct group *g, uint32_t i) { wide(g, i, sized_word(), sized_word()); }

/* ---- float words; each pair under both rules */

/* zero, and five fractions at nine exponents with either sign: 91 words */
static uint32_t float_edge(uint32_t i)
{
    static const uint32_t exponents[9] = { 0, 1, 2, 40, 64, 65, 88, 126, 127 };
    return i == 0 ? 0 : ranked(i / 45 % 2 == 0, exponents[i / 5 % 9] * FRACTIONS + some_fraction(i));
}

static void float_edges(const struct group *g, uint32_t i) { wide(g, i, float_edge(i / 2 / 91), float_edge(i / 2 % 91)); }

/* exponents 0 to 127 apart, in the middle of their range; five fractions of each, like and unlike signs, either order */
static void distances(const struct group *g, uint32_t turn)
{
    uint32_t i = turn / 2, apart = i % 128, low = (127 - apart) / 2;
    uint32_t x = ranked(0, (low + apart) * FRACTIONS + some_fraction(i / 128));
    uint32_t y = ranked(i / 3200 % 2 == 1, low * FRACTIONS + some_fraction(i / 640));
    wide(g, turn, i / 6400 ? y : x, i / 6400 ? x : y);
}

/* a power of two, or the word before or after it, beside another, at every exponent, like and unlike signs */
static void neighbours(const struct group *g, uint32_t turn)
{
    uint32_t i = turn / 2, power = i % 128 * FRACTIONS;
    wide(g, turn, ranked(0, power + i / 128 % 3 - 1), ranked(i / 1152 % 2 == 1, power + i / 384 % 3 - 1));
}

/* every pair of exponents */
static void exponents(const struct group *g, uint32_t turn)
{
    uint32_t i = turn / 2;
    wide(g, turn, ranked((int)below(2), i % 128 * FRACTIONS + below(FRACTIONS)), ranked((int)below(2), i / 128 * FRACTIONS + below(FRACTIONS)));
}

/* half of free exponents, a quarter up to 31 apart, a quarter within 64 words of each other */
static void drawn_floats(const struct group *g, uint32_t i)
{
    uint32_t x = drawn(), y = drawn();
    if (i / 2 % 4 == 2)
        y = x + (below(63) - 31) * FRACTIONS + y % FRACTIONS;
    if (i / 2 % 4 == 3)
        y = x + below(64) - 32;
    wide(g, i, ranked((int)below(2), x), ranked((int)below(2), y));
}

/* a word of these digits, at most 24, and a drawn sign and exponent */
static uint32_t with_digits(uint32_t digits)
{
    while (digits < FRACTIONS)
        digits *= 2;
    return ranked((int)below(2), below(EXPONENTS) * FRACTIONS + digits % FRACTIONS);
}

/* an odd mantissa one exponent below another: sums half way between two words */
static void ties_of_sums(const struct group *g, uint32_t i)
{
    uint32_t high = 1 + below(126), b = ranked((int)below(2), high * FRACTIONS + below(FRACTIONS));
    uint32_t a = ranked((int)below(2), (high - 1) * FRACTIONS + (below(FRACTIONS) | 1));
    wide(g, i, i & 2 ? a : b, i & 2 ? b : a);
}

/* odd mantissas of 13 and of 12 digits: products of 25 digits are half way */
static void ties_of_products(const struct group *g, uint32_t i) { wide(g, i, with_digits(4097 + 2 * below(2048)), with_digits(2049 + 2 * below(1024))); }

/* a multiple of d over d, so that the quotient is a whole number of at most 12 digits, and one beside it */
static void exact_quotients(const struct group *g, uint32_t i)
{
    uint32_t d = (1u << (1 + below(11))) + 1, k = 1 + below(4095);
    wide(g, i, with_digits(k * d + (i & 2 ? 1 : 0)), with_digits(d));
}

/* B, A or both without bit 23 */
static void improper(const struct group *g, uint32_t i)
{
    uint32_t b = below(2) ? drawn() : edge(32, below(EDGES_32)), a = below(2) ? drawn() : edge(32, below(EDGES_32));
    wide(g, i, i / 2 % 3 == 1 ? b | FRACTIONS : b & ~(uint32_t)FRACTIONS, i / 2 % 3 == 0 ? a | FRACTIONS : a & ~(uint32_t)FRACTIONS);
}

/* ---- one word to another */

/* five fractions at every exponent, either sign */
static void float_fractions(const struct group *g, uint32_t turn)
{
    uint32_t i = turn / 2;
    wide(g, turn, drawn_word(), ranked(i / 640 % 2 == 1, i % 128 * FRACTIONS + some_fraction(i / 128)));
}

/* every whole number of 16 bits as a float word, and with a little, a half and nearly one added to its magnitude */
static void wholes(const struct group *g, uint32_t i)
{
    uint32_t w = i % 65536, magnitude = w < 32768 ? w : 65536 - w, behind, length = 0, exponent = 64;
    for (; length < 16 && magnitude >> length; length++)
        exponent++;
    behind = 1u << (24 - length);
    behind = i / 65536 == 1 ? 1 : i / 65536 == 2 ? behind / 2 : i / 65536 == 3 ? behind - 1 : 0;
    wide(g, i / 16, drawn_word(), magnitude == 0 ? 0 : ranked(w >= 32768, exponent * FRACTIONS + ((magnitude << (24 - length)) + behind) % FRACTIONS));
}

/* magnitudes from 2^-9 to 2^40 */
static void drawn_to_fix(const struct group *g, uint32_t i) { wide(g, i, drawn_word(), ranked((int)below(2), (56 + below(48)) * FRACTIONS + below(FRACTIONS))); }

/* numbers of 25 digits and up to six zeros behind them, either sign */
static void ties_of_integers(const struct group *g, uint32_t i)
{
    uint32_t n = (16777217 + 2 * below(FRACTIONS)) << below(7);
    wide(g, i, drawn_word(), below(2) ? n : 0 - n);
}

static void edges_one(const struct group *g, uint32_t i) { wide(g, i, drawn_word(), edge(32, i / 2)); }

static void drawn_one(const struct group *g, uint32_t i) { wide(g, i, drawn_word(), sized_word()); }

/* the squares of the numbers of 12 digits, at 63 exponents in turn, and the words beside them */
static void squares(const struct group *g, uint32_t turn)
{
    uint32_t i = turn / 2, q = (2048 + i % 2048) * (2048 + i % 2048), even = i % 63 * 2;
    uint32_t rank = even * FRACTIONS + (q >= FRACTIONS ? q - FRACTIONS : 2 * q);
    wide(g, turn, drawn_word(), ranked(0, rank + i / 2048 % 3 - 1));
}

/* one in eight is negative */
static void drawn_roots(const struct group *g, uint32_t i) { wide(g, i, drawn_word(), ranked(below(8) == 0, drawn())); }

static void moves(const struct group *g, uint32_t i) { wide(g, i, drawn_word(), drawn_word()); }

#define FIXED_16(name, code) { name, "edges", 102 * 102, 0, edges_16, code }, { name, "sweeps", 16 * 65536, 1, sweeps, code }, \
    { name, "drawn", 65536, 1, drawn_16, code }
#define FIXED_32(name, code) { name, "edges", 198 * 198, 0, edges_32, code }, { name, "drawn", 300000, 1, drawn_32, code }
#define FLOATS(name, code) { name, "edges", 2 * 91 * 91, 0, float_edges, code }, { name, "distances", 2 * 12800, 0, distances, code }, \
    { name, "neighbours", 2 * 2304, 0, neighbours, code }, { name, "exponents", 2 * 128 * 128, 1, exponents, code }, \
    { name, "drawn", 500000, 1, drawn_floats, code }, { name, "improper", 8192, 1, improper, code }

const struct group word_groups[] = {
    FIXED_16("SADD", 0x6C), FIXED_16("SSUB", 0x6D), FIXED_16("SMUL", 0x6E), FIXED_16("SMUU", 0x76), FIXED_16("SDIV", 0x6F),
    { "CHSS", "all", 2 * 65536, 0, all_16, 0x74 },
    { "POPS", "all", 65536, 0, all_16, 0x78 },
    { "PTOS", "all", 65536, 0, all_16, 0x77 },
    { "XCHS", "all", 65536, 0, all_16, 0x79 },
    FIXED_32("DADD", 0x2C), FIXED_32("DSUB", 0x2D), FIXED_32("DMUL", 0x2E), FIXED_32("DMUU", 0x36), FIXED_32("DDIV", 0x2F),
    { "CHSD", "edges", 2 * 198, 0, edges_one, 0x34 },
    { "CHSD", "drawn", 100000, 1, drawn_one, 0x34 },
    FLOATS("FADD", 0x10), { "FADD", "ties", 131072, 1, ties_of_sums, 0x10 },
    FLOATS("FSUB", 0x11), { "FSUB", "ties", 131072, 1, ties_of_sums, 0x11 },
    FLOATS("FMUL", 0x12), { "FMUL", "ties", 131072, 1, ties_of_products, 0x12 },
    FLOATS("FDIV", 0x13), { "FDIV", "exact", 8192, 1, exact_quotients, 0x13 },
    { "FIXD", "edges", 2 * 1280, 0, float_fractions, 0x1E },
    { "FIXD", "drawn", 100000, 1, drawn_to_fix, 0x1E },
    { "FIXS", "edges", 2 * 1280, 0, float_fractions, 0x1F },
    { "FIXS", "wholes", 4 * 65536, 0, wholes, 0x1F },
    { "FIXS", "drawn", 100000, 1, drawn_to_fix, 0x1F },
    { "FLTD", "edges", 2 * 198, 0, edges_one, 0x1C },
    { "FLTD", "ties", 65536, 1, ties_of_integers, 0x1C },
    { "FLTD", "drawn", 500000, 1, drawn_one, 0x1C },
    { "FLTS", "all", 2 * 65536, 0, all_16, 0x1D },
    { "CHSF", "edges", 2 * 198, 0, edges_one, 0x15 },
    { "CHSF", "drawn", 100000, 1, drawn_one, 0x15 },
    { "proper", "edges", 2 * 198, 0, edges_one, 0x1E },
    { "proper", "drawn", 100000, 1, drawn_one, 0x1E },
    { "SQRT", "edges", 2 * 1280, 0, float_fractions, 0x01 },
    { "SQRT", "squares", 2 * 6144, 0, squares, 0x01 },
    { "SQRT", "drawn", 500000, 1, drawn_roots, 0x01 },
    { "POPD", "drawn", 20000, 1, moves, 0x38 },
    { "PTOD", "drawn", 20000, 1, moves, 0x37 },
    { "XCHD", "drawn", 20000, 1, moves, 0x39 },
    { "POPF", "drawn", 20000, 1, moves, 0x18 },
    { "PTOF", "drawn", 20000, 1, moves, 0x17 },
    { "XCHF", "drawn", 20000, 1, moves, 0x19 },
    { "PUPI", "drawn", 20000, 1, moves, 0x1A },
    { "NOP", "drawn", 20000, 1, moves, 0x00 },
    { NULL, NULL, 0, 0, NULL, 0 },
};
