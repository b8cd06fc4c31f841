/* See drawn.h. */
#include <string.h>

#include "drawn.h"

uint64_t seed = 9511;

uint32_t drawn(void)
{
    seed ^= seed << 13;
    seed ^= seed >> 7;
    seed ^= seed << 17;
    return (uint32_t)(seed >> 32);
}

uint32_t below(uint32_t n) { return drawn() % n; }

uint32_t edge(int bits, uint32_t i)
{
    uint64_t near = ((uint64_t)1 << i / 6 % 33) + i / 2 % 3 - 1, word = i % 2 ? 0 - near : near;
    return (uint32_t)(bits == 16 ? word & 0xFFFF : word);
}

uint32_t ranked(int negative, uint32_t rank)
{
    uint32_t exponent = (rank / FRACTIONS + 64) % EXPONENTS;
    return (uint32_t)negative << 31 | exponent << 24 | FRACTIONS | rank % FRACTIONS;
}

uint32_t some_fraction(uint32_t i)
{
    static const uint32_t fractions[5] = { 0, 1, FRACTIONS / 2, FRACTIONS - 2, FRACTIONS - 1 };
    return fractions[i % 5];
}

uint32_t any_word(void) { return below(4) ? ranked((int)below(2), drawn()) : drawn(); }

static const uint32_t words[] = {
    0x00000000, 0x00000001, 0x00007FFF, 0x00008000, 0x0000FFFF, 0x7FFFFFFF, 0x80000000, 0x80000001,
    0xFFFFFFFF, 0x80008000, 0x00010001, 0x7FFF8000, 0x01800000, 0x02C00000, 0x81800000, 0xC0800000,
    0x40800000, 0x3FFFFFFF, 0xBFFFFFFF, 0x3F800000, 0x8FFFFE00, 0x90800000, 0x0FFFFFFF, 0x1FFFFFFF,
    0xA0800000, 0x9FFFFFFF, 0x00800000, 0x00FFFFFF, 0x007FFFFF, 0x00400000, 0x7F800000, 0x7FFFFFFE,
};

/* edge words, whole words, words of near exponents, improper words */
uint32_t drawn_word(void)
{
    switch (below(6)) {
    case 0: return words[below(sizeof words / sizeof words[0])];
    case 1: return drawn();
    case 2: return drawn() | 0x00800000;
    case 3: return (drawn() & 0x80FFFFFF) | 0x00800000 | below(24) << 24;
    case 4: return (drawn() & 0xFF000003) | 0x00800000;
    default: return (drawn() & 0x81FFFFFF) | 0x00800000;
    }
}

uint32_t sized_word(void) { return below(2) ? drawn() : drawn() / (1 + below(65536)); }

void put_word(uint8_t *to, uint32_t word)
{
    for (int i = 0; i < 4; i++)
        to[i] = (uint8_t)(word >> 8 * i);
}

void put_operand(uint8_t *to, uint32_t word)
{
    for (int i = 0; i < 4; i++)
        to[i] = (uint8_t)(word >> (24 - 8 * i));
}

void draw_state(uint8_t *state)
{
    for (int i = 0; i < 4; i++)
        put_operand(state + 4 * i, drawn_word());
    if (below(4) == 0) {
        memcpy(state + 4, state, 4);
        state[7] ^= (uint8_t)below(4);
    }
    state[16] = below(8) == 0;
    state[17] = (uint8_t)below(128);
    state[18] = (uint8_t)below(2);
    state[19] = below(4) ? (uint8_t)(2 + 2 * below(15)) : 0;
    state[20] = state[19] ? (uint8_t)(1 + below(below(4) ? 127 : 255)) : 0;
}

size_t drawn_length(void) { return below(10) ? (below(2) ? 19 : 21) : below(24); }

uint32_t drawn_choice(void) { return below(10) ? below(2) : drawn(); }

uint8_t drawn_code(void)
{
    static const uint8_t codes[] = {
        0x00, 0x01, 0x10, 0x11, 0x12, 0x13, 0x15, 0x17, 0x18, 0x19, 0x1A, 0x1C, 0x1D, 0x1E, 0x1F, 0x2C, 0x2D, 0x2E, 0x2F, 0x34,
        0x36, 0x37, 0x38, 0x39, 0x6C, 0x6D, 0x6E, 0x6F, 0x74, 0x76, 0x77, 0x78, 0x79,
    };
    return below(8) ? codes[below(sizeof codes)] | (uint8_t)(below(2) << 7) : (uint8_t)drawn();
}

static size_t put_head(uint8_t *to, uint32_t kind, size_t n)
{
    to[0] = (uint8_t)(2 + n);
    to[1] = 0;
    to[2] = (uint8_t)kind;
    to[3] = (uint8_t)(kind >> 8);
    return 4 + n;
}

size_t draw_record(uint8_t *to)
{
    uint32_t draw = below(18), kind = draw < 6 ? 1 : draw < 8 ? 2 : draw < 13 ? 3 : draw - 9, n = 0;
    if (kind == 1) {
        uint32_t word = drawn_word();
        n = below(4) ? 4 : below(3) ? 2 : 1 + below(below(4) ? 16 : 240);
        for (uint32_t i = 0; i < n; i++)
            to[4 + i] = i < 4 ? (uint8_t)(word >> (8 * i)) : (uint8_t)drawn();
    } else if (kind == 2) {
        n = 1;
        to[4] = below(3) ? (below(2) ? 4 : 2) : (uint8_t)(1 + below(below(4) ? 16 : 240));
    } else if (kind == 3) {
        n = 1;
        to[4] = drawn_code();
    }
    return put_head(to, kind, n);
}

size_t draw_any_record(uint8_t *to, unsigned turn)
{
    static const uint16_t order[8] = { 256, 257, 0, 257, 257, 0, 257, 258 };
    static const uint8_t slots[8] = { 0, 0, 0, 1, 2, 0, 3, 0 };
    uint32_t kind = below(8) ? order[turn % 8] : 256 + below(3);
    if (kind == 256) {
        put_word(to + 4, below(3) ? below(5) : drawn());
        return put_head(to, kind, 4);
    }
    if (kind == 257) {
        to[4] = below(8) ? slots[turn % 8] : (uint8_t)below(6);
        return put_head(to, kind, 1);
    }
    if (kind == 258)
        return put_head(to, kind, 0);
    if (below(2))
        return draw_record(to);
    put_word(to + 4, drawn_word());
    return put_head(to, 1, 4);
}

void draw_list(uint8_t *list)
{
    static const size_t places[3] = { 0, 1281, 1286 };
    for (size_t i = 0; i < 1303; i++)
        list[i] = (uint8_t)drawn();
    list[0] = (uint8_t)(below(2) ? 60 + below(5) : below(65));
    list[1281] = (uint8_t)below(2);
    list[1286] = (uint8_t)(below(2) ? 15 : below(16));
    if (below(20) == 0)
        list[places[below(3)]] = (uint8_t)drawn();
}

/* ---- formulas */

static size_t put_text(char *text, size_t n, char byte)
{
    if (n == TEXT)
        return n;
    text[n] = byte;
    return n + 1;
}

/* zero, of an exponent from -2 to 1, or of any; in one of eight cases, where it need not be sound, any word */
uint32_t formula_word(int sound)
{
    switch (below(8)) {
    case 0: return 0;
    case 1: return sound ? ranked((int)below(2), drawn()) : drawn();
    case 2: case 3: case 4: return ranked((int)below(2), 62 * FRACTIONS + below(4 * FRACTIONS));
    default: return ranked((int)below(2), drawn());
    }
}

static size_t put_leaf(char *text, size_t n, int sound)
{
    uint32_t word = formula_word(sound);
    if (below(8))
        return put_text(text, n, (char)('a' + below(8)));
    n = put_text(text, n, '#');
    for (int i = 28; i >= 0; i -= 4)
        n = put_text(text, n, "0123456789ABCDEF"[word >> i & 15]);
    return n;
}

/* how many of the operations go to the left: any, all but a few, a few, half */
static unsigned to_left(unsigned shape, unsigned rest)
{
    unsigned few = rest < 2 ? 0 : below(2);
    switch (shape % 4) {
    case 0: return below(rest + 1);
    case 1: return rest - few;
    case 2: return few;
    default: return rest / 2;
    }
}

/* a tree where a sum (0), a product (1) or a factor (2) is wanted */
static size_t put_tree(char *text, size_t n, unsigned wanted, struct growth g)
{
    struct growth left = g, right = g;
    unsigned rank = below(2), bracket = rank < wanted;
    if (g.size == 0)
        return put_leaf(text, n, g.sound);
    if (below(8) < (g.shape > 3 ? 6u : 2u)) {
        bracket = below(2);
        if (g.deep == 0)
            return put_leaf(text, n, g.sound);
        g.deep--;
        g.size--;
        n = put_tree(text, put_text(text, n, bracket ? '(' : '-'), bracket ? 0 : 2, g);
        return bracket ? put_text(text, n, ')') : n;
    }
    if (g.needs < 2 || (bracket && g.deep == 0))
        return put_leaf(text, n, g.sound);
    left.deep = right.deep = g.deep - bracket;
    left.size = to_left(g.shape, g.size - 1);
    right.size = g.size - 1 - left.size;
    right.needs--;
    n = bracket ? put_text(text, n, '(') : n;
    n = put_tree(text, n, rank, left);
    n = put_text(text, n, "+-*/"[2 * rank + below(2)]);
    n = put_tree(text, n, rank + 1, right);
    return bracket ? put_text(text, n, ')') : n;
}

size_t draw_formula(char *text, struct growth g) { return put_tree(text, 0, 0, g); }
