/* Single events on states: all 256 codes, half words, busy and bad states, error memories, histories. */
#include <string.h>

#include "../../include/pundaliket.h"
#include "compare.h"
#include "drawn.h"
#include "lent.h"
#include "second.h"

static struct slice ours, theirs;

void compare_event(uint32_t mode, uint32_t rule, const uint8_t *state, size_t length, uint32_t kind, uint8_t byte)
{
    lend(&ours, drawn() & 7, length, state);
    lend(&theirs, 0, length, state);
    uint32_t a = pundaliket_event(mode, rule, ours.at, length, kind, byte), b = second_event(mode, rule, theirs.at, length, kind, byte);
    if (!counted(a == b && same(&ours, &theirs) && guarded(&ours)))
        return;
    show_number("mode", mode);
    show_number("rule", rule);
    show_number("kind", kind);
    show_number("byte", byte);
    show_bytes("state before", state, length);
    show_number("answer of the library", a);
    show_number("answer of the second ", b);
    show_both("state", ours.at, theirs.at, length);
    show_number("guards of the library stand", (uint64_t)guarded(&ours));
}

/* ---- the words of the grid: fixed-point edges, float edges, an improper word */

enum { GRID = 24 };
static uint32_t grid(uint32_t i)
{
    static const uint32_t words[GRID] = {
        0x00000000, 0x00000001, 0xFFFFFFFF, 0x80000000, 0x80000001, 0x7FFFFFFF, 0x00008000, 0x00007FFF,
        0x80008000, 0x0001FFFF, 0xFFFF0000, 0x7FFF8000, 0x01800000, 0x81800000, 0x3FFFFFFF, 0xBFFFFFFE,
        0x40800000, 0xC0800000, 0x90800000, 0x8FFFFE00, 0x0FFFFF00, 0x1FFFFFFF, 0xA0800000, 0x01400000,
    };
    return words[i % GRID];
}

/* eight error memories: none, each error by itself, several; two of the codes are from 80 hex on */
static void remember(uint8_t *state, uint32_t i)
{
    static const uint8_t bits[8] = { 0x00, 0x02, 0x04, 0x08, 0x10, 0x1E, 0x0A, 0x14 };
    static const uint8_t codes[8] = { 0x00, 0x6C, 0x12, 0x01, 0x6F, 0x7F, 0x80, 0xFF };
    state[19] = bits[i % 8];
    state[20] = codes[i % 8];
}

/* every code on a state of 21 bytes with B and A given, a half word pending or not, busy or not */
static void on_grid(uint32_t i, uint32_t b, uint32_t a, uint8_t pending, uint8_t busy, size_t length)
{
    uint8_t state[21];
    draw_state(state);
    put_operand(state, a);
    put_operand(state + 4, b);
    state[16] = pending;
    state[17] |= busy;
    compare_event(below(2), below(2), state, length, 3, (uint8_t)i);
}

static void pairs(const struct group *g, uint32_t i)
{
    (void)g;
    on_grid(i, grid(i / 256 / GRID), grid(i / 256), 0, 0, below(2) ? 19 : 21);
}

static void half_words(const struct group *g, uint32_t i)
{
    (void)g;
    on_grid(i, grid(i / 256 + 1), grid(i / 256), 1, 0, below(2) ? 19 : 21);
}

static void busy(const struct group *g, uint32_t i)
{
    (void)g;
    on_grid(i, grid(i / 256 + 1), grid(i / 256), (uint8_t)below(2), 0x80, below(2) ? 19 : 21);
}

/* drawn states; in one of sixteen cases busy */
static void codes(const struct group *g, uint32_t i)
{
    uint8_t state[21];
    (void)g;
    draw_state(state);
    state[17] |= below(16) ? 0 : 0x80;
    compare_event(below(2), below(2), state, below(2) ? 19 : 21, 3, (uint8_t)i);
}

static void each_kind(const struct group *g, uint32_t i)
{
    uint8_t state[21];
    (void)g;
    draw_state(state);
    state[16] = below(4) == 0;
    compare_event(below(2), below(2), state, below(2) ? 19 : 21, 1 + i % 8, (uint8_t)drawn());
}

/* ---- error memories */

static void memory_pairs(const struct group *g, uint32_t i)
{
    uint8_t state[21];
    uint32_t j = i / 256;
    (void)g;
    draw_state(state);
    put_operand(state, grid(j));
    put_operand(state + 4, grid(j + 1 + j / GRID % 2 * 11));
    state[16] = 0;
    remember(state, j / 48 * 3);
    compare_event(below(2), i / 256 % 2, state, 21, 3, (uint8_t)i);
}

static void memory_half_words(const struct group *g, uint32_t i)
{
    uint8_t state[21];
    (void)g;
    draw_state(state);
    put_operand(state, grid(i / 256));
    state[16] = 1;
    remember(state, i / 256);
    compare_event(below(2), below(2), state, 21, 3, (uint8_t)i);
}

static void memory_kinds(const struct group *g, uint32_t i)
{
    uint8_t state[21];
    (void)g;
    draw_state(state);
    remember(state, i / 8);
    compare_event(below(2), below(2), state, 21, 1 + i % 8, (uint8_t)drawn());
}

/* all 65,536 pairs of bits and code, read and joined by an FDIV by zero */
static void all_memories(const struct group *g, uint32_t i)
{
    uint8_t state[21];
    (void)g;
    draw_state(state);
    put_operand(state, 0);
    put_operand(state + 4, 0x01800000);
    state[16] = 0;
    state[19] = (uint8_t)(i / 2);
    state[20] = (uint8_t)(i / 512);
    compare_event(below(2), below(2), state, 21, i % 2 ? 7 : 3, 0x93);
}

/* 32 events in turn, most of them commands, on 21 bytes and in a quarter on 19; one case */
static void histories(const struct group *g, uint32_t i)
{
    uint32_t mode = below(2), rule = below(2), a = 0, b = 0, kind = 0;
    uint8_t state[24], before[24], byte = 0;
    size_t length = i % 4 == 3 ? 19 : 21;
    int good = 1;
    (void)g;
    draw_state(state);
    lend(&ours, drawn() & 7, length, state);
    lend(&theirs, 0, length, state);
    for (int k = 0; k < 32 && good; k++) {
        static const uint8_t kinds[16] = { 3, 3, 3, 3, 3, 3, 3, 3, 3, 3, 3, 3, 7, 8, 5, 0 };
        uint32_t draw = below(16);
        kind = kinds[draw] ? kinds[draw] : 1 + below(8);
        byte = drawn_code();
        memcpy(before, ours.at, length);
        a = pundaliket_event(mode, rule, ours.at, length, kind, byte);
        b = second_event(mode, rule, theirs.at, length, kind, byte);
        good = a == b && same(&ours, &theirs) && guarded(&ours);
    }
    if (!counted(good))
        return;
    show_number("mode", mode);
    show_number("rule", rule);
    show_number("kind", kind);
    show_number("byte", byte);
    show_bytes("state before", before, length);
    show_number("answer of the library", a);
    show_number("answer of the second ", b);
    show_both("state", ours.at, theirs.at, length);
}

/* ---- kinds, lengths, modes and rules that are none */

/* kinds 0 to 9, and four that are not to be cut to a byte */
static uint32_t any_kind(uint32_t i)
{
    static const uint32_t far[4] = { 259, 263, 4294967041, 4294967047 };
    return i % 14 < 10 ? i % 14 : far[i % 14 - 10];
}

/* in four of five states a byte of the flags or of the memory is any; every mode, rule and kind */
static void faults(const struct group *g, uint32_t i)
{
    uint8_t state[24] = { 0 };
    (void)g;
    draw_state(state);
    if (i % 5)
        state[15 + i % 5 + (i % 5 == 4 ? below(2) : 0)] = (uint8_t)(below(2) ? drawn() : 1u << below(8));
    compare_event(choice(i / 70), choice(i / 280), state, drawn_length(), any_kind(i / 5), drawn_code());
}

/* 0 to 24 bytes of a state, with an empty memory and with one; every mode, rule and kind */
static void lengths(const struct group *g, uint32_t i)
{
    uint8_t state[24];
    (void)g;
    memset(state, 0, sizeof state);
    draw_state(state);
    remember(state, i / 350 % 2 * 3);
    compare_event(choice(i / 700), choice(i / 175), state, i % 25, any_kind(i / 25), drawn_code());
}

const struct group state_groups[] = {
    { "event", "grid", 24 * 24 * 256, 0, pairs, 0 },
    { "event", "half-words", 24 * 256, 0, half_words, 0 },
    { "event", "busy", 24 * 256, 0, busy, 0 },
    { "event", "codes", 512 * 256, 1, codes, 0 },
    { "event", "kinds", 8 * 8192, 1, each_kind, 0 },
    { "event", "faults", 5 * 14 * 16 * 16, 1, faults, 0 },
    { "event", "lengths", 25 * 14 * 8, 1, lengths, 0 },
    { "memory", "grid", 24 * 2 * 4 * 256, 0, memory_pairs, 0 },
    { "memory", "half-words", 24 * 256, 0, memory_half_words, 0 },
    { "memory", "kinds", 8 * 8192, 1, memory_kinds, 0 },
    { "memory", "all", 2 * 65536, 0, all_memories, 0 },
    { "memory", "histories", 16384, 1, histories, 0 },
    { NULL, NULL, 0, 0, NULL, 0 },
};
