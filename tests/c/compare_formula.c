/* Formulas: the call beside the second opinion, and the files that it writes run by the library, the word on top held to the second
 * opinion's value of the text. */
#include <string.h>

#include "../../include/pundaliket.h"
#include "compare.h"
#include "drawn.h"
#include "lent.h"
#include "second.h"

enum { MOST_FILE = 1700 };

static struct slice text, letters, file, second_file, state, replies, report;
static char drawn_text[TEXT + 8];
static uint8_t words[40];

/* the words of eight letters, and eight bytes past them */
static void draw_letters(int sound)
{
    for (int i = 0; i < 8; i++)
        put_operand(words + 4 * i, formula_word(sound));
    memset(words + 32, 0xA5, 8);
}

static uint32_t translate(size_t n, size_t letter_bytes, size_t room)
{
    lend(&text, drawn() & 7, n, (const uint8_t *)drawn_text);
    lend(&letters, drawn() & 7, letter_bytes, words);
    lend(&file, drawn() & 7, room, NULL);
    return pundaliket_formula(text.at, n, letters.at, letter_bytes, file.at, room);
}

static void compare_formula(size_t n, size_t letter_bytes, size_t room)
{
    uint32_t a = translate(n, letter_bytes, room), b;
    lend(&second_file, 0, room, NULL);
    b = second_formula((const uint8_t *)drawn_text, n, words, letter_bytes, second_file.at, room);
    int guards = guarded(&text) && guarded(&letters) && guarded(&file) && holds(&text, (const uint8_t *)drawn_text) && holds(&letters, words);
    if (!counted(a == b && same(&file, &second_file) && guards))
        return;
    show_bytes("text", (const uint8_t *)drawn_text, n);
    show_bytes("letters", words, letter_bytes);
    show_number("answer of the library", a);
    show_number("answer of the second ", b);
    show_both("file", file.at, second_file.at, room);
    show_number("guards of the library stand", (uint64_t)guards);
}

static void ample(size_t n, int sound)
{
    draw_letters(sound);
    compare_formula(n, 32, MOST_FILE);
}

/* ---- texts; in a quarter of the cases words need not be proper */

static size_t grow(uint32_t i, unsigned size, unsigned needs, unsigned deep, unsigned shape)
{
    struct growth g = { size, needs, deep, shape, i % 4 != 0 };
    return draw_formula(drawn_text, g);
}

/* up to eleven operations, needs up to six words, nested up to 18 deep */
static size_t small_tree(uint32_t i) { return grow(i, i % 12, 6, 18, i / 12 % 8); }

static void trees(const struct group *g, uint32_t i)
{
    (void)g;
    ample(small_tree(i), i % 4 != 0);
}

/* up to 127 operations, texts of up to 320 bytes */
static void large_trees(const struct group *g, uint32_t i)
{
    (void)g;
    ample(grow(i, i % 128, 3 + i / 128 % 4, 18, i / 512 % 4), i % 4 != 0);
}

/* mostly minus signs and brackets, up to 12 to 18 deep */
static void nested(const struct group *g, uint32_t i)
{
    (void)g;
    ample(grow(i, 12 + i % 16, 6, 12 + i / 16 % 7, 4 + i / 112 % 4), i % 4 != 0);
}

/* a byte removed, doubled, changed to one that may stand there or beside it, to the other case, to a blank, to any, put in, or the rest cut off */
static void damaged(const struct group *g, uint32_t i)
{
    static const char near[] = "abhi+-*/()#09AFGg@`f.,: B;[]xz~\0\x80\xE1\xFF";
    size_t n = small_tree(i / 4), at = below((uint32_t)n);
    char other = near[below(sizeof near - 1)];
    (void)g;
    switch (below(8)) {
    case 0: memmove(drawn_text + at, drawn_text + at + 1, --n - at); break;
    case 1: memmove(drawn_text + at + 1, drawn_text + at, n++ - at); break;
    case 2: drawn_text[at] = other; break;
    case 3: drawn_text[at] ^= 32; break;
    case 4: drawn_text[at] = ' '; break;
    case 5: drawn_text[at] = (char)drawn(); break;
    case 6: n = at; break;
    default: memmove(drawn_text + at + 1, drawn_text + at, n++ - at); drawn_text[at] = other; break;
    }
    ample(n, 1);
}

/* every text of one to five of nine bytes */
static void short_texts(const struct group *g, uint32_t i)
{
    size_t n = 1;
    uint32_t many = 9;
    (void)g;
    for (; i >= many; i -= many, many *= 9)
        n++;
    for (size_t k = 0; k < n; k++, i /= 9)
        drawn_text[k] = "ahi-+*()#"[i % 9];
    ample(n, 1);
}

/* 02's example with every byte at each of its 17 places */
static void one_byte(const struct group *g, uint32_t i)
{
    (void)g;
    memcpy(drawn_text, "(a-b)/c*#01800000", 17);
    drawn_text[i / 256] = (char)i;
    ample(17, 1);
}

/* so many bytes without brackets: a letter at the end and at every other place, a sign between, a minus in front where it is even */
static size_t flat_text(size_t n)
{
    for (size_t k = 0; k < n; k++)
        drawn_text[k] = (n - k) % 2 ? (char)('a' + below(8)) : "-+*/"[k == 0 ? 0 : below(4)];
    return n;
}

static void lengths(const struct group *g, uint32_t i)
{
    (void)g;
    ample(flat_text(i % 320), 1);
}

/* a formula that is refused for nothing but its room */
static size_t accepted(uint32_t i) { return grow(4 * i + 1, i % 48, 4, 16, i / 48 % 8); }

/* 9, 8, 5 and 1 bytes of file too few, just enough, 1 and 36 more, none */
static void rooms(const struct group *g, uint32_t i)
{
    static const int more[7] = { -9, -8, -5, -1, 0, 1, 36 };
    size_t n = accepted(i / 8);
    int size, room;
    (void)g;
    draw_letters(1);
    size = (int)(second_formula((const uint8_t *)drawn_text, n, words, 32, file.bytes, MOST_FILE) % 65536);
    room = i % 8 == 7 ? 0 : size + more[i % 8];
    compare_formula(n, 32, room < 0 ? 0 : (size_t)room);
}

/* letters of 0, 31, 32, 33 and 40 bytes, texts of lengths about the least and the most and grown ones, ample room and too little */
static void sizes(const struct group *g, uint32_t i)
{
    static const size_t bytes[6] = { 0, 31, 32, 33, 40, 32 }, lengths_of[8] = { 0, 1, 2, 64, 255, 256, 257, 258 };
    (void)g;
    draw_letters(1);
    compare_formula(i / 6 % 9 == 8 ? small_tree(i) : flat_text(lengths_of[i / 6 % 9]), bytes[i % 6], i / 54 % 2 ? 7 : MOST_FILE);
}

/* ---- files run */

/* from a drawn state with nothing pending, in either mode and under either rule: no refusal, the whole file taken, the value on top */
static void run_formula(size_t n)
{
    uint8_t before[21], told[9] = { 0 };
    uint32_t mode = below(2), rule = below(2), size, r, value, top;
    size_t room = 5 * 256;
    int good = 1;
    draw_letters(1);
    size = translate(n, 32, MOST_FILE);
    value = second_value(rule, (const uint8_t *)drawn_text, n, words);
    draw_state(before);
    before[16] = 0;
    lend(&state, drawn() & 7, below(2) ? 19 : 21, before);
    lend(&replies, drawn() & 7, room, NULL);
    lend(&report, drawn() & 7, 9, NULL);
    r = pundaliket_run(mode, rule, state.at, state.length, file.at, size % 65536, replies.at, room, report.at, 9);
    top = (uint32_t)state.at[0] << 24 | (uint32_t)state.at[1] << 16 | (uint32_t)state.at[2] << 8 | state.at[3];
    put_word(told + 1, size);
    for (size_t i = 0; i + 5 <= room && i < (report.at[5] | (size_t)report.at[6] << 8); i += 5)
        good = good && replies.at[i + 4] == 0;
    good = good && guarded(&state) && guarded(&replies) && guarded(&report) && guarded(&file);
    if (!counted(size < 65536 && r == 0 && top == value && memcmp(report.at, told, 5) == 0 && good))
        return;
    show_bytes("text", (const uint8_t *)drawn_text, n);
    show_bytes("letters", words, 32);
    show_number("mode", mode);
    show_number("rule", rule);
    show_number("answer of the translator", size);
    show_number("answer of the run", r);
    show_number("top by the library", top);
    show_number("top by the second ", value);
    show_bytes("report", report.at, 9);
}

/* texts that need up to four words */
static void runs(const struct group *g, uint32_t i)
{
    size_t n = accepted(i);
    (void)g;
    run_formula(n > 256 ? flat_text(1 + i % 256) : n);
}

static void long_runs(const struct group *g, uint32_t i)
{
    (void)g;
    run_formula(flat_text(193 + i % 64));
}

const struct group formula_groups[] = {
    { "formula", "trees", 16384, 1, trees, 0 },
    { "formula", "large-trees", 8192, 1, large_trees, 0 },
    { "formula", "nested", 8192, 1, nested, 0 },
    { "formula", "damaged", 32768, 1, damaged, 0 },
    { "formula", "short", 9 + 81 + 729 + 6561 + 59049, 0, short_texts, 0 },
    { "formula", "one-byte", 17 * 256, 0, one_byte, 0 },
    { "formula", "lengths", 4 * 320, 1, lengths, 0 },
    { "formula", "rooms", 8 * 1024, 1, rooms, 0 },
    { "formula", "sizes", 16 * 108, 1, sizes, 0 },
    { "formula", "runs", 32768, 1, runs, 0 },
    { "formula", "long-runs", 4096, 1, long_runs, 0 },
    { NULL, NULL, 0, 0, NULL, 0 },
};
