/* A C program over include/pundaliket.h, linked with the library. What must come is written out here: 01's example and bench values, each refusal of
 * 01's and 02's tables, roots, rounding, the error memory, buffers of f64s, formulas, that no byte beyond a lent slice is written, the
 * room that replies need, the stack that a call needs; and that words and floats come back from a round trip bit for bit.
 * Prints what differs and the stack used, then 'N checks, M failed'; ends with 1 if M is not 0. */
#include <stdio.h>
#include <string.h>

#include "../../include/pundaliket.h"
#include "checks.h"
#include "drawn.h"

static struct slice state, input, replies, report, out;

/* ---- round trips */

/* an f32 that is accepted, and a word that is, comes back bit for bit */
static uint32_t little(const uint8_t *p)
{
    return p[0] | (uint32_t)p[1] << 8 | (uint32_t)p[2] << 16 | (uint32_t)p[3] << 24;
}

static int comes_back(uint32_t x)
{
    uint8_t there[4], back[4];
    int good = pundaliket_f32_to_word(x, there, 4) != 0 || (pundaliket_word_to_f32(little(there), back, 4) == 0 && little(back) == x);
    return good && (pundaliket_word_to_f32(x, there, 4) != 0 || (pundaliket_f32_to_word(little(there), back, 4) == 0 && little(back) == x));
}

static void round_trips(void)
{
    for (uint32_t top = 0; top < 512; top++)
        for (unsigned k = 0; k < 48; k++)
            check(comes_back(top << 23 | (k < 5 ? some_fraction(k) : below(FRACTIONS))), "there and back, top bits", top);
}

/* ---- 01's example, and each refusal of the tables: what must come is written out here */

static const uint8_t zeros[PUNDALIKET_LONG_STATE_BYTES];

/* the mode and the rule of what is expected */
static uint32_t mode = PUNDALIKET_AM9511A, rule = PUNDALIKET_CUT;

/* runs a file from a state of sn bytes in some room: the refusal, the counts, and the guards */
static void expect_run_on(const char *what, const uint8_t *s, size_t sn, const uint8_t *file, size_t n, size_t room, uint32_t refusal,
                          size_t taken, const uint8_t *written, size_t count, const uint8_t *left)
{
    for (unsigned alignment = 0; alignment < 8; alignment++) {
        lend(&state, alignment, sn, s);
        lend(&input, 7 - alignment, n, file);
        lend(&replies, alignment, room, NULL);
        lend(&report, 7 - alignment, PUNDALIKET_REPORT_BYTES, NULL);
        uint32_t r = pundaliket_run(mode, rule, state.at, state.length, input.at, n, replies.at, room, report.at, report.length);
        const uint8_t numbers[PUNDALIKET_REPORT_BYTES] = {
            (uint8_t)refusal, (uint8_t)taken, (uint8_t)(taken >> 8), 0, 0, (uint8_t)count, (uint8_t)(count >> 8), 0, 0,
        };
        int rest = 1;
        for (size_t i = count; i < room; i++)
            rest = rest && replies.at[i] == UNTOUCHED;
        check(r == refusal, what, 1);
        check(holds(&report, numbers), what, 2);
        check(memcmp(replies.at, written, count) == 0 && rest, what, 3);
        check(holds(&state, left), what, 4);
        check(guarded(&state) && guarded(&input) && guarded(&replies) && guarded(&report) && holds(&input, file), what, 5);
    }
}

/* the same from a state of 19 bytes */
static void expect_run(const char *what, const uint8_t *s, const uint8_t *file, size_t n, size_t room, uint32_t refusal, size_t taken,
                       const uint8_t *written, size_t count, const uint8_t *left)
{
    expect_run_on(what, s, PUNDALIKET_STATE_BYTES, file, n, room, refusal, taken, written, count, left);
}

static void example_of_01(void)
{
    static const uint8_t file[] = {
        0x06, 0, 1, 0, 3, 0, 5, 0, 0x03, 0, 3, 0, 0x6C, 0x03, 0, 2, 0, 2, 0x02, 0, 4, 0,
    };
    static const uint8_t written[] = {
        3, 0, 129, 0, 0, 3, 0, 131, 0, 0, 5, 0, 130, 0, 0, 0x00, 0x08, 4, 0, 132, 0, 0, 0x00,
    };
    /* 0003 and 0005 are pushed, their sum 0008 is read; the last operand 0005 stands at the bottom, then 0008 */
    static const uint8_t left[] = { 0, 0, 0, 0, 0, 0, 0, 0, 0, 0, 0, 0, 0, 5, 0, 8, 0, 0, 0 };
    expect_run("example of 01", zeros, file, sizeof file, 65536, 0, sizeof file, written, sizeof written, left);
    expect_run("example of 01, just its room", zeros, file, sizeof file, sizeof written, 0, sizeof file, written, sizeof written, left);
}

/* ---- 01's bench values: B and A, the result, the status */

static void bench_values(void)
{
    static const struct {
        uint8_t code;
        int bits, result_bits;
        uint32_t b, a, r;
        uint8_t status;
    } rows[] = {
        { PUNDALIKET_CODE_SADD, 16, 16, 0x7FFF, 0x0001, 0x8000, 0x42 },
        { PUNDALIKET_CODE_SADD, 16, 16, 0x8000, 0x8000, 0x0000, 0x23 },
        { PUNDALIKET_CODE_SSUB, 16, 16, 0x0000, 0x0001, 0xFFFF, 0x41 },
        { PUNDALIKET_CODE_SMUL, 16, 16, 0x0100, 0x0100, 0x0000, 0x22 },
        { PUNDALIKET_CODE_SMUL, 16, 16, 0x8000, 0x0000, 0x8000, 0x42 },
        { PUNDALIKET_CODE_SDIV, 16, 16, 0xFFF9, 0x0002, 0xFFFD, 0x40 },
        { PUNDALIKET_CODE_SDIV, 16, 16, 0x0007, 0x0000, 0x0007, 0x10 },
        { PUNDALIKET_CODE_FDIV, 32, 32, 0x01800000, 0x02C00000, 0x7FAAAAAA, 0x00 },
        { PUNDALIKET_CODE_FADD, 32, 32, 0x01800000, 0xC0800000, 0x00FFFFFF, 0x00 },
        { PUNDALIKET_CODE_FMUL, 32, 32, 0x3FFFFFFF, 0x3FFFFFFF, 0x7EFFFFFE, 0x02 },
        { PUNDALIKET_CODE_FMUL, 32, 32, 0x40800000, 0x40800000, 0x7F800000, 0x04 },
        { PUNDALIKET_CODE_FIXS, 32, 16, 0, 0x8FFFFE00, 0x8001, 0x40 },
        { PUNDALIKET_CODE_FIXS, 32, 32, 0, 0x90800000, 0x90800000, 0x42 },
        { PUNDALIKET_CODE_FLTD, 32, 32, 0, 0x7FFFFFFF, 0x1FFFFFFF, 0x00 },
    };
    for (unsigned k = 0; k < sizeof rows / sizeof rows[0]; k++) {
        uint8_t before[PUNDALIKET_STATE_BYTES] = { 0 }, top[4];
        put_operand(before, rows[k].bits == 16 ? rows[k].a << 16 | rows[k].b : rows[k].a);
        put_operand(before + 4, rows[k].bits == 16 ? 0 : rows[k].b);
        put_operand(top, rows[k].result_bits == 16 ? rows[k].r << 16 : rows[k].r);
        lend(&state, k & 7, sizeof before, before);
        check(pundaliket_event(mode, rule, state.at, sizeof before, PUNDALIKET_COMMAND, rows[k].code) == 0, "bench value, answer", k);
        check(memcmp(state.at, top, (size_t)rows[k].result_bits / 8) == 0, "bench value", k);
        check(state.at[PUNDALIKET_AT_STATUS] == rows[k].status && guarded(&state), "bench value, status", k);
    }
}

/* a push of one byte, done, then a record that is answered or stops */
static void refusals_of_a_file(void)
{
    static const uint8_t pushed[] = { 7, 0, 0, 0, 0, 0, 0, 0, 0, 0, 0, 0, 0, 0, 0, 0, 1, 0, 0 };
    static const uint8_t improper[] = { 1, 0, 0, 0, 0, 0, 0, 0, 0, 0, 0, 0, 0, 0, 0, 0, 0, 0, 0 };
    static const uint8_t one[] = { 3, 0, 129, 0, 0 };
    static const uint8_t unknown[] = { 3, 0, 1, 0, 7, 3, 0, 3, 0, 0x0C }, unknown_replies[] = { 3, 0, 129, 0, 0, 3, 0, 131, 0, 1 };
    static const uint8_t derived[] = { 3, 0, 1, 0, 7, 3, 0, 3, 0, 0x82 }, derived_replies[] = { 3, 0, 129, 0, 0, 3, 0, 131, 0, 2 };
    static const uint8_t half[] = { 3, 0, 1, 0, 7, 3, 0, 3, 0, 0x00 }, half_replies[] = { 3, 0, 129, 0, 0, 3, 0, 131, 0, 3 };
    static const uint8_t not_proper[] = { 3, 0, 3, 0, 0x9E }, not_proper_replies[] = { 3, 0, 131, 0, 4 };
    static const uint8_t kind[] = { 3, 0, 1, 0, 7, 2, 0, 9, 0 }, wide_kind[] = { 3, 0, 1, 0, 7, 2, 0, 4, 1 };
    static const uint8_t cut[] = { 3, 0, 1, 0, 7, 3, 0, 1, 0 }, cut_length[] = { 3, 0, 1, 0, 7, 3 };
    static const uint8_t low[] = { 3, 0, 1, 0, 7, 1, 0 }, high[] = { 3, 0, 1, 0, 7, 243, 0, 1, 0 };
    static const uint8_t no_count[] = { 3, 0, 1, 0, 7, 3, 0, 2, 0, 0 }, status_pay[] = { 3, 0, 1, 0, 7, 3, 0, 4, 0, 0 };
    static const uint8_t pop[] = { 3, 0, 1, 0, 7, 3, 0, 2, 0, 2 };
    expect_run("refusal 1", zeros, unknown, sizeof unknown, 64, 0, 10, unknown_replies, 10, pushed);
    expect_run("refusal 2", zeros, derived, sizeof derived, 64, 0, 10, derived_replies, 10, pushed);
    expect_run("refusal 3", zeros, half, sizeof half, 64, 0, 10, half_replies, 10, pushed);
    expect_run("refusal 4", improper, not_proper, sizeof not_proper, 64, 0, 5, not_proper_replies, 5, improper);
    expect_run("refusal 5", zeros, kind, sizeof kind, 64, 5, 5, one, 5, pushed);
    expect_run("refusal 5, kind of two bytes", zeros, wide_kind, sizeof wide_kind, 64, 5, 5, one, 5, pushed);
    expect_run("refusal 6", zeros, cut, sizeof cut, 64, 6, 5, one, 5, pushed);
    expect_run("refusal 6, in the length", zeros, cut_length, sizeof cut_length, 64, 6, 5, one, 5, pushed);
    expect_run("refusal 7, length 1", zeros, low, sizeof low, 64, 7, 5, one, 5, pushed);
    expect_run("refusal 7, length 243", zeros, high, sizeof high, 64, 7, 5, one, 5, pushed);
    expect_run("refusal 7, pop of none", zeros, no_count, sizeof no_count, 64, 7, 5, one, 5, pushed);
    expect_run("refusal 7, payload", zeros, status_pay, sizeof status_pay, 64, 7, 5, one, 5, pushed);
    expect_run("refusal 8", zeros, pop, sizeof pop, 11, 8, 5, one, 5, pushed);
    expect_run("an empty file", pushed, zeros, 0, 0, 0, 0, one, 0, pushed);
}

/* the longest push and the longest pop: of 240 bytes the last 16 stay, the last on top, and 240 pops hand them out fifteen
 * times over; then one byte more than either takes */
static void longest_blocks(void)
{
    uint8_t file[244 + 5 + 5], written[5 + 245], left[PUNDALIKET_STATE_BYTES] = { 0 };
    memcpy(file, "\362\0\1\0", 4);
    for (unsigned i = 0; i < 240; i++)
        file[4 + i] = (uint8_t)(i * 11 + 5);
    memcpy(file + 244, "\3\0\2\0\360", 5);
    memcpy(file + 249, "\3\0\2\0\361", 5);
    memcpy(written, "\3\0\201\0\0\363\0\202\0\0", 10);
    for (unsigned i = 0; i < 16; i++)
        left[i] = file[4 + 239 - i];
    for (unsigned i = 0; i < 240; i++)
        written[10 + i] = left[i % 16];
    expect_run("a push of 240", zeros, file, 244, 5, 0, 244, written, 5, left);
    expect_run("a push and a pop of 240", zeros, file, 249, 250, 0, 249, written, 250, left);
    expect_run("a pop of 240, its room short by a byte", zeros, file, 249, 249, 8, 244, written, 5, left);
    expect_run("a pop of 241", zeros, file, 254, 1000, 7, 249, written, 250, left);
    file[244] = 243;
    expect_run("length 243", zeros, file, 254, 1000, 7, 244, written, 5, left);
}

static void refusals_of_the_call(void)
{
    static uint8_t long_file[PUNDALIKET_MOST_INPUT + 1];
    uint8_t bad[PUNDALIKET_STATE_BYTES] = { 0 };
    for (size_t i = 0; i + 4 <= PUNDALIKET_MOST_INPUT; i += 4)
        memcpy(long_file + i, "\2\0\4\0", 4);
    expect_run("refusal 9", zeros, long_file, sizeof long_file, 64, 9, 0, zeros, 0, zeros);
    for (int flag = 16; flag <= 18; flag++) {
        memset(bad, 0, sizeof bad);
        bad[flag] = flag == 17 ? 0x80 : 2;
        expect_run("refusal 13", bad, long_file, sizeof long_file, 64, 13, 0, zeros, 0, bad);
        lend(&state, 1, sizeof bad, bad);
        check(pundaliket_event(mode, rule, state.at, sizeof bad, 99, 0) == 13 * 256 && holds(&state, bad) && guarded(&state), "event 13", (unsigned)flag);
    }
    for (size_t n = 0; n < 24; n++) {
        lend(&state, 3, n, NULL);
        lend(&replies, 2, 64, NULL);
        lend(&report, 1, n, NULL);
        uint32_t r = pundaliket_run(mode, rule, state.at, 0, long_file, sizeof long_file, replies.at, 64, report.at, n);
        int kept = 1;
        for (size_t i = 0; i < n; i++)
            kept = kept && report.at[i] == UNTOUCHED;
        check(n == 9 ? r == 13 : r == 14 && kept, "refusal 14", (unsigned)n);
        check(guarded(&state) && guarded(&replies) && guarded(&report), "refusal 14, guards", (unsigned)n);
    }
}

static void expect_conversion(const char *what, int inward, uint32_t x, size_t n, uint32_t refusal, uint32_t result)
{
    for (unsigned alignment = 0; alignment < 8; alignment++) {
        lend(&out, alignment, n, NULL);
        uint32_t r = inward ? pundaliket_f32_to_word(x, out.at, n) : pundaliket_word_to_f32(x, out.at, n);
        int good = r == refusal && guarded(&out);
        for (size_t i = 0; i < n; i++)
            good = good && out.at[i] == (refusal ? UNTOUCHED : (uint8_t)(result >> (8 * i)));
        check(good, what, alignment);
    }
}

static void refusals_of_conversions(void)
{
    expect_conversion("one outward", 0, 0x01800000, 4, 0, 0x3F800000);
    expect_conversion("one inward", 1, 0x3F800000, 4, 0, 0x01800000);
    expect_conversion("minus the least outward", 0, 0xC0800000, 4, 0, 0x9F000000);
    expect_conversion("minus the least inward", 1, 0x9F000000, 4, 0, 0xC0800000);
    expect_conversion("the zero word", 0, 0, 4, 0, 0);
    expect_conversion("plus zero", 1, 0, 4, 0, 0);
    expect_conversion("refusal 4 of a conversion", 0, 0x01400000, 4, 4, 0);
    expect_conversion("refusal 4, a signed zero", 0, 0x80000000, 4, 4, 0);
    expect_conversion("refusal 8 before 4", 0, 0x01400000, 3, 8, 0);
    expect_conversion("refusal 8 before 10", 1, 0x7F800000, 5, 8, 0);
    expect_conversion("refusal 8, no bytes", 1, 0x3F800000, 0, 8, 0);
    expect_conversion("refusal 10, infinite", 1, 0xFF800000, 4, 10, 0);
    expect_conversion("refusal 10, not a number", 1, 0x7F800001, 4, 10, 0);
    expect_conversion("refusal 15, minus zero", 1, 0x80000000, 4, 15, 0);
    expect_conversion("refusal 8 before 15", 1, 0x80000000, 3, 8, 0);
    expect_conversion("refusal 11", 1, 0x5F000000, 4, 11, 0);
    expect_conversion("the largest", 1, 0x5EFFFFFF, 4, 0, 0x3FFFFFFF);
    expect_conversion("refusal 12", 1, 0x1EFFFFFF, 4, 12, 0);
    expect_conversion("refusal 12, subnormal", 1, 0x80000001, 4, 12, 0);
}

/* ---- buffers, request 13 of 02: what must come is written out here */

/* the number beside the refusal, with a guard on each side */
static uint64_t numbers[3];

static void lend_number(void) { numbers[0] = numbers[1] = numbers[2] = 0x5A5A5A5A5A5A5A5A; }
static int guarded_number(void) { return numbers[0] == 0x5A5A5A5A5A5A5A5A && numbers[2] == 0x5A5A5A5A5A5A5A5A; }

/* entries of so many bytes, little-endian */
static size_t lay(uint8_t *to, const uint64_t *entries, size_t n, size_t size)
{
    for (size_t i = 0; i < n; i++)
        for (size_t j = 0; j < size; j++)
            to[i * size + j] = (uint8_t)(entries[i] >> (8 * j));
    return n * size;
}

/* n bytes lent of a buffer of entries, and some room: the refusal, the number, the entries that are written and nothing else */
static void expect_buffer(const char *what, int inward, uint32_t how, const uint64_t *entries, size_t n, size_t room, uint32_t refusal,
                          uint64_t number, const uint64_t *results, size_t count)
{
    uint8_t content[64], left[80];
    size_t from = inward ? 8 : 4, to = inward ? 4 : 8;
    lay(content, entries, n / from + (n % from != 0), from);
    for (unsigned alignment = 0; alignment < 8; alignment++) {
        lend(&input, 7 - alignment, n, content);
        lend(&out, alignment, room, NULL);
        lend_number();
        uint32_t r = inward ? pundaliket_f64_to_words(how, input.at, n, out.at, room, numbers + 1)
                            : pundaliket_words_to_f64(input.at, n, out.at, room, numbers + 1);
        memset(left, UNTOUCHED, sizeof left);
        lay(left, results, count, to);
        check(r == refusal && numbers[1] == number && guarded_number(), what, 1);
        check(holds(&out, left) && guarded(&out), what, 2);
        check(holds(&input, content) && guarded(&input), what, 3);
    }
}

static void expect_out(const char *what, uint64_t word, uint64_t bits) { expect_buffer(what, 0, 0, &word, 4, 9, 0, 0, &bits, 1); }

/* one f64 under a rule: its word and whether it was rounded, or the refusal */
static void expect_in(const char *what, uint32_t how, uint64_t bits, uint32_t refusal, uint64_t word, uint64_t rounded)
{
    expect_buffer(what, 1, how, &bits, 8, 5, refusal, refusal ? 1 : rounded, &word, refusal == 0);
}

static void expect_both(const char *what, uint64_t bits, uint32_t refusal, uint64_t word, uint64_t rounded)
{
    expect_in(what, PUNDALIKET_CUT, bits, refusal, word, rounded);
    expect_in(what, PUNDALIKET_NEAREST, bits, refusal, word, rounded);
}

static void entries_of_buffers(void)
{
    expect_out("zero outward", 0, 0);
    expect_out("one outward", 0x01800000, 0x3FF0000000000000);
    expect_out("minus two and a half outward", 0x82A00000, 0xC004000000000000);
    expect_out("pi cut, outward", 0x02C90FDA, 0x400921FB40000000);
    expect_out("the largest outward", 0x3FFFFFFF, 0x43DFFFFFE0000000);
    expect_out("the least outward", 0x40800000, 0x3BE0000000000000);
    expect_out("minus the least but one binade, outward", 0xC0FFFFFF, 0xBBEFFFFFE0000000);
    expect_both("zero inward", 0, 0, 0, 0);
    expect_both("one inward", 0x3FF0000000000000, 0, 0x01800000, 0);
    expect_both("minus two and a half inward", 0xC004000000000000, 0, 0x82A00000, 0);
    expect_both("halfway, the even one below", 0x3FF0000010000000, 0, 0x01800000, 1);
    expect_in("past halfway, cut", PUNDALIKET_CUT, 0x3FF0000010000001, 0, 0x01800000, 1);
    expect_in("past halfway", PUNDALIKET_NEAREST, 0x3FF0000010000001, 0, 0x01800001, 1);
    expect_in("halfway, the even one above, cut", PUNDALIKET_CUT, 0x3FF0000030000000, 0, 0x01800001, 1);
    expect_in("halfway, the even one above", PUNDALIKET_NEAREST, 0x3FF0000030000000, 0, 0x01800002, 1);
    expect_both("before halfway", 0x3FF000002FFFFFFF, 0, 0x01800001, 1);
    expect_in("below two, cut", PUNDALIKET_CUT, 0x3FFFFFFFFFFFFFFF, 0, 0x01FFFFFF, 1);
    expect_in("below two", PUNDALIKET_NEAREST, 0x3FFFFFFFFFFFFFFF, 0, 0x02800000, 1);
    expect_in("a third, cut", PUNDALIKET_CUT, 0x3FD5555555555555, 0, 0x7FAAAAAA, 1);
    expect_in("minus a third", PUNDALIKET_NEAREST, 0xBFD5555555555555, 0, 0xFFAAAAAB, 1);
    expect_both("the largest inward", 0x43DFFFFFE0000000, 0, 0x3FFFFFFF, 0);
    expect_both("rounded to the largest", 0x43DFFFFFEFFFFFFF, 0, 0x3FFFFFFF, 1);
    expect_in("halfway to 2^63, cut", PUNDALIKET_CUT, 0x43DFFFFFF0000000, 0, 0x3FFFFFFF, 1);
    expect_in("refusal 11 by rounding", PUNDALIKET_NEAREST, 0x43DFFFFFF0000000, 11, 0, 0);
    expect_both("refusal 11, 2^63", 0xC3E0000000000000, 11, 0, 0);
    expect_both("refusal 11, the largest f64", 0x7FEFFFFFFFFFFFFF, 11, 0, 0);
    expect_both("the least inward", 0x3BE0000000000000, 0, 0x40800000, 0);
    expect_both("refusal 12, though the nearest word is the least", 0x3BDFFFFFFFFFFFFF, 12, 0, 0);
    expect_both("refusal 12, a field of 0", 0x800FFFFFFFFFFFFF, 12, 0, 0);
    expect_both("refusal 12, the least f64", 1, 12, 0, 0);
    expect_both("refusal 15", 0x8000000000000000, 15, 0, 0);
    expect_both("refusal 10, infinite", 0xFFF0000000000000, 10, 0, 0);
    expect_both("refusal 10, no number", 0x7FF0000000000001, 10, 0, 0);
}

static void refusals_of_buffers(void)
{
    static const uint64_t words[] = { 0x01800000, 0x82A00000, 0, 0x01400000, 0x00000001 };
    static const uint64_t bits[] = { 0x3FF0000000000000, 0xC004000000000000, 0 };
    static const uint64_t floats[] = { 0x3FF0000000000000, 0x3FF0000030000000, 0x3FD5555555555555, 0x43DFFFFFF0000000, 0x8000000000000000, 0x7FF0000000000000, 1 };
    static const uint64_t cut_to[] = { 0x01800000, 0x01800001, 0x7FAAAAAA, 0x3FFFFFFF }, near_to[] = { 0x01800000, 0x01800002, 0x7FAAAAAB };
    static const uint32_t none[] = { 2, 3, 255, 256, 257, 0x80000000, 0x80000001, 0xFFFFFFFF };
    expect_buffer("no words", 0, 0, words, 0, 3, 0, 0, bits, 0);
    expect_buffer("no words, no room", 0, 0, words, 0, 0, 0, 0, bits, 0);
    expect_buffer("three words, just their room", 0, 0, words, 12, 24, 0, 0, bits, 3);
    expect_buffer("three words, more room", 0, 0, words, 12, 31, 0, 0, bits, 3);
    expect_buffer("refusal 8 of words", 0, 0, words, 12, 23, 8, 0, bits, 0);
    expect_buffer("refusal 8 before 4", 0, 0, words, 16, 31, 8, 0, bits, 0);
    expect_buffer("refusal 4, the fourth", 0, 0, words, 20, 40, 4, 4, bits, 0);
    for (size_t n = 0; n < 20; n++)
        if (n % 4 != 0)
            expect_buffer("refusal 18 of words, before 8", 0, 0, words, n, 0, 18, 0, bits, 0);
    expect_buffer("no f64s", 1, 0, floats, 0, 3, 0, 0, cut_to, 0);
    expect_buffer("four f64s, cut", 1, PUNDALIKET_CUT, floats, 32, 17, 0, 3, cut_to, 4);
    expect_buffer("three f64s", 1, PUNDALIKET_NEAREST, floats, 24, 12, 0, 2, near_to, 3);
    expect_buffer("refusal 11, the fourth", 1, PUNDALIKET_NEAREST, floats, 56, 28, 11, 4, near_to, 0);
    expect_buffer("refusal 15, the fifth", 1, PUNDALIKET_CUT, floats, 56, 28, 15, 5, near_to, 0);
    expect_buffer("refusal 10, the first", 1, PUNDALIKET_CUT, floats + 5, 16, 8, 10, 1, near_to, 0);
    expect_buffer("refusal 12, the first", 1, PUNDALIKET_CUT, floats + 6, 8, 4, 12, 1, near_to, 0);
    expect_buffer("refusal 8 of f64s, before 11", 1, PUNDALIKET_NEAREST, floats, 32, 15, 8, 0, near_to, 0);
    for (size_t n = 0; n < 40; n++)
        if (n % 8 != 0)
            expect_buffer("refusal 18 of f64s, before 8", 1, PUNDALIKET_CUT, floats, n, 0, 18, 0, near_to, 0);
    for (unsigned k = 0; k < sizeof none / sizeof none[0]; k++) {
        expect_buffer("refusal 17", 1, none[k], floats, 24, 12, 17, 0, near_to, 0);
        expect_buffer("refusal 17 before 18", 1, none[k], floats, 25, 0, 17, 0, near_to, 0);
        expect_buffer("refusal 17, no f64s", 1, none[k], floats, 0, 0, 17, 0, near_to, 0);
    }
}

static void expect_event_on(const char *what, const uint8_t *s, size_t sn, uint32_t kind, uint8_t byte, uint32_t answer, const uint8_t *left)
{
    for (unsigned alignment = 0; alignment < 8; alignment++) {
        lend(&state, alignment, sn, s);
        uint32_t r = pundaliket_event(mode, rule, state.at, sn, kind, byte);
        check(r == answer && holds(&state, left) && guarded(&state), what, alignment);
    }
}

static void expect_event(const char *what, const uint8_t *s, uint32_t kind, uint8_t byte, uint32_t answer, const uint8_t *left)
{
    expect_event_on(what, s, PUNDALIKET_STATE_BYTES, kind, byte, answer, left);
}

/* the older part's reset, request 6 of 02: what must come is written out here */
static void older_reset(void)
{
    static const uint8_t file[] = { 2, 0, 5, 0, 3, 0, 1, 0, 0xEE, 2, 0, 5, 0, 3, 0, 2, 0, 1, 2, 0, 5, 0 };
    static const uint8_t written[] = { 3, 0, 133, 0, 0, 3, 0, 129, 0, 0, 3, 0, 133, 0, 0, 4, 0, 130, 0, 0, 1, 3, 0, 133, 0, 0 };
    static const uint8_t s[] = { 1, 2, 3, 4, 5, 6, 7, 8, 9, 10, 11, 12, 13, 14, 15, 16, 0, 0x23, 1, 0x12, 0x6F };
    static const uint8_t half[] = { 1, 2, 3, 4, 5, 6, 7, 8, 9, 10, 11, 12, 13, 14, 15, 16, 1, 0x23, 1, 0x12, 0x6F };
    static const uint8_t kept[] = { 1, 2, 3, 4, 5, 6, 7, 8, 9, 10, 11, 12, 13, 14, 15, 16, 0, 0, 0, 0, 0 };
    static const uint8_t aligned[] = { 2, 3, 4, 5, 6, 7, 8, 9, 10, 11, 12, 13, 14, 15, 0, 0, 0, 0, 0, 0, 0 };
    /* all stay; EE pushed, then words A to G, H zero; 1 popped, then words B to H of that, zero */
    static const uint8_t left[] = { 3, 4, 5, 6, 7, 8, 9, 10, 11, 12, 13, 14, 0, 0, 0, 0, 0, 0, 0, 0, 0 };
    static const uint32_t none[] = { 2, 3, 255, 256, 257, 0x80000000, 0x80000001, 0xFFFFFFFF };
    uint8_t bad[PUNDALIKET_STATE_BYTES] = { 0 };
    bad[PUNDALIKET_AT_PENDING] = 2;
    mode = PUNDALIKET_AM9511;
    for (size_t sn = 19; sn <= 21; sn += 2) {
        expect_event_on("older reset", s, sn, PUNDALIKET_RESET, 0xEE, 0, kept);
        expect_event_on("older reset, half word", half, sn, PUNDALIKET_RESET, 0xEE, 0, aligned);
        expect_run_on("older resets", s, sn, file, sizeof file, 64, 0, sizeof file, written, sizeof written, left);
        expect_run_on("older reset without room", s, sn, file, sizeof file, 4, 8, 0, zeros, 0, s);
    }
    expect_event("mode 1, then 13", bad, 99, 0, 13 * 256, bad);
    for (unsigned k = 0; k < sizeof none / sizeof none[0]; k++) {
        mode = none[k];
        expect_event_on("refusal 16", s, 21, PUNDALIKET_RESET, 0, 16 * 256, s);
        expect_event("refusal 16 before 13", bad, 99, 0, 16 * 256, bad);
        expect_run_on("refusal 16 of a run", s, 21, file, sizeof file, 64, 16, 0, zeros, 0, s);
        expect_run("refusal 16 of a run, before 13", bad, file, sizeof file, 64, 16, 0, zeros, 0, bad);
        lend(&report, 1, 8, NULL);
        check(pundaliket_run(mode, rule, state.at, 0, file, sizeof file, replies.at, 64, report.at, 8) == 14 && report.at[0] == UNTOUCHED && guarded(&report), "refusal 14 before 16", none[k]);
    }
    mode = PUNDALIKET_AM9511A;
}

static void events_of_each_kind(void)
{
    static const uint8_t s[] = { 1, 2, 3, 4, 5, 6, 7, 8, 9, 10, 11, 12, 13, 14, 15, 16, 0, 0x23, 1 };
    static const uint8_t pushed[] = { 0xEE, 1, 2, 3, 4, 5, 6, 7, 8, 9, 10, 11, 12, 13, 14, 15, 1, 0x23, 1 };
    static const uint8_t popped[] = { 2, 3, 4, 5, 6, 7, 8, 9, 10, 11, 12, 13, 14, 15, 16, 1, 1, 0x23, 1 };
    static const uint8_t exchanged[] = { 3, 4, 1, 2, 5, 6, 7, 8, 9, 10, 11, 12, 13, 14, 15, 16, 0, 0, 1 };
    static const uint8_t acknowledged[] = { 1, 2, 3, 4, 5, 6, 7, 8, 9, 10, 11, 12, 13, 14, 15, 16, 0, 0x23, 0 };
    expect_event("event push", s, PUNDALIKET_PUSH, 0xEE, 0, pushed);
    expect_event("event pop", s, PUNDALIKET_POP, 0xEE, 1, popped);
    expect_event("event command XCHS", s, PUNDALIKET_COMMAND, 0xF9, 0, exchanged);
    expect_event("event command, unknown", s, PUNDALIKET_COMMAND, 0x0C, 1 * 256, s);
    expect_event("event command, derived", s, PUNDALIKET_COMMAND, 0x8B, 2 * 256, s);
    expect_event("event command, the first derived", s, PUNDALIKET_COMMAND, 0x02, 2 * 256, s);
    expect_event("event command, half word", pushed, PUNDALIKET_COMMAND, 0x80, 3 * 256, pushed);
    expect_event("event command, improper", s, PUNDALIKET_COMMAND, 0x10, 4 * 256, s);
    expect_event("event status", s, PUNDALIKET_STATUS, 0xEE, 0x23, s);
    expect_event("event reset", s, PUNDALIKET_RESET, 0xEE, 0, zeros);
    expect_event("event acknowledge", s, PUNDALIKET_ACKNOWLEDGE, 0xEE, 0, acknowledged);
    expect_event("event of no kind", s, 0, 1, 5 * 256, s);
    expect_event("event recall, no memory", s, PUNDALIKET_RECALL, 0xEE, 0, s);
    expect_event("event forget, no memory", s, PUNDALIKET_FORGET, 0xEE, 0, s);
    expect_event("event of kind 9", s, 9, 1, 5 * 256, s);
    expect_event("event of kind 257", s, 257, 1, 5 * 256, s);
    expect_event("event of kind 2^32 - 1", s, 0xFFFFFFFF, 1, 5 * 256, s);
}

/* ---- SQRT, request 1 of 02: what must come is written out here, the roots by whole numbers of any length */

static const uint8_t root_codes[] = { 0x01, 0x81 };

/* SQRT of a, B to D below it, with the status and the service line that must not stay */
static void expect_root(const char *what, uint32_t a, int pending, uint8_t code, uint32_t answer, uint32_t r, int d_kept, uint8_t status)
{
    uint8_t before[PUNDALIKET_STATE_BYTES] = { 0, 0, 0, 0, 0x11, 0x12, 0x13, 0x14, 0x21, 0x22, 0x23, 0x24, 0x31, 0x32, 0x33, 0x34 };
    uint8_t left[PUNDALIKET_STATE_BYTES];
    for (int i = 0; i < 4; i++)
        before[i] = (uint8_t)(a >> (24 - 8 * i));
    before[16] = (uint8_t)pending;
    before[17] = 0x17;
    before[18] = code < 0x80;
    memcpy(left, before, sizeof left);
    if (answer == 0) {
        for (int i = 0; i < 4; i++)
            left[i] = (uint8_t)(r >> (24 - 8 * i));
        if (!d_kept)
            memset(left + 12, 0, 4);
        left[17] = status;
        left[18] = code >= 0x80;
    }
    expect_event(what, before, PUNDALIKET_COMMAND, code, answer, left);
}

/* ---- to the nearest, request 9 of 02: what must come is written out here, worked by hand from the words */

/* a command on B and A under a rule: the word on top and the status */
static void expect_rule(const char *what, uint32_t number, uint8_t code, uint32_t b, uint32_t a, uint32_t r, uint8_t status)
{
    uint8_t s[PUNDALIKET_STATE_BYTES] = { 0 };
    for (int i = 0; i < 4; i++) {
        s[i] = (uint8_t)(a >> (24 - 8 * i));
        s[4 + i] = (uint8_t)(b >> (24 - 8 * i));
    }
    lend(&state, code & 7, sizeof s, s);
    uint32_t answer = pundaliket_event(mode, number, state.at, sizeof s, PUNDALIKET_COMMAND, code);
    uint32_t top = (uint32_t)state.at[0] << 24 | (uint32_t)state.at[1] << 16 | (uint32_t)state.at[2] << 8 | state.at[3];
    check(answer == 0 && top == r && state.at[PUNDALIKET_AT_STATUS] == status && guarded(&state), what, number);
}

static void nearest(void)
{
    static const struct {
        uint8_t code;
        uint32_t b, a, cut;
        uint8_t status;
        uint32_t near;
        uint8_t near_status;
    } rows[] = {
        { 0x13, 0x01800000, 0x02C00000, 0x7FAAAAAA, 0x00, 0x7FAAAAAB, 0x00 }, /* 1 / 3 */
        { 0x10, 0x01800000, 0x69800000, 0x01800000, 0x00, 0x01800000, 0x00 }, /* 1 + 2^-24: half way, the even one below */
        { 0x10, 0x01800001, 0x69800000, 0x01800001, 0x00, 0x01800002, 0x00 }, /* half way, the even one above */
        { 0x10, 0x01800000, 0x69800001, 0x01800000, 0x00, 0x01800001, 0x00 }, /* a little over half */
        { 0x10, 0x01FFFFFF, 0x69800000, 0x01FFFFFF, 0x00, 0x02800000, 0x00 }, /* half way, carried into the next exponent */
        { 0x10, 0x3FFFFFFF, 0x27800000, 0x3FFFFFFF, 0x00, 0x40800000, 0x02 }, /* overflow by rounding alone */
        { 0x12, 0x40FFFFFE, 0x00800001, 0x3FFFFFFF, 0x04, 0x40800000, 0x00 }, /* underflow without rounding alone */
        { 0x11, 0x01800000, 0x69800000, 0x00FFFFFF, 0x00, 0x00FFFFFF, 0x00 }, /* 1 - 2^-24: exact */
        { 0x1C, 0, 0x7FFFFFFF, 0x1FFFFFFF, 0x00, 0x20800000, 0x00 },          /* FLTD of 2^31 - 1 */
        { 0x1C, 0, 0x80000001, 0x9FFFFFFF, 0x40, 0xA0800000, 0x40 },
        { 0x1C, 0, 0x01000001, 0x19800000, 0x00, 0x19800000, 0x00 },          /* 2^24 + 1: half way */
        { 0x1C, 0, 0x01000003, 0x19800001, 0x00, 0x19800002, 0x00 },
        { 0x1A, 0, 0, 0x02C90FDA, 0x00, 0x02C90FDB, 0x00 },                   /* PUPI */
        { 0x01, 0, 0x02C00000, 0x01DDB3D7, 0x00, 0x01DDB3D7, 0x00 },          /* the root of 3, 1.73205080.. */
        { 0x01, 0, 0x3FFFFFFF, 0x20B504F2, 0x00, 0x20B504F3, 0x00 },
        { 0x1E, 0, 0x02FFFFFF, 0x00000003, 0x00, 0x00000003, 0x00 },          /* FIXD cuts under either */
    };
    for (unsigned k = 0; k < sizeof rows / sizeof rows[0]; k++) {
        expect_rule("cut, row", PUNDALIKET_CUT, rows[k].code, rows[k].b, rows[k].a, rows[k].cut, rows[k].status);
        expect_rule("nearest, row", PUNDALIKET_NEAREST, rows[k].code, rows[k].b, rows[k].a, rows[k].near, rows[k].near_status);
    }
    static const uint8_t file[] = { 2, 0, 4, 0 };
    static const uint32_t none[] = { 2, 256, 257, 0x80000001, 0xFFFFFFFF };
    uint8_t bad[PUNDALIKET_STATE_BYTES] = { 0 };
    bad[PUNDALIKET_AT_PENDING] = 2;
    for (unsigned k = 0; k < sizeof none / sizeof none[0]; k++) {
        rule = none[k];
        expect_event("refusal 17", zeros, PUNDALIKET_STATUS, 0, 17 * 256, zeros);
        expect_event("refusal 17 before 13", bad, 99, 0, 17 * 256, bad);
        expect_run("refusal 17 of a run", zeros, file, sizeof file, 64, 17, 0, zeros, 0, zeros);
        expect_run("refusal 17 of a run, before 13", bad, file, sizeof file, 64, 17, 0, zeros, 0, bad);
        mode = 2;
        expect_event("refusal 16 before 17", zeros, PUNDALIKET_STATUS, 0, 16 * 256, zeros);
        expect_run("refusal 16 of a run, before 17", zeros, file, sizeof file, 64, 16, 0, zeros, 0, zeros);
        mode = PUNDALIKET_AM9511A;
    }
    rule = PUNDALIKET_CUT;
}

static void roots(void)
{
    static const struct {
        uint32_t word, root;
    } of[] = {
        { 0x01800000, 0x01800000 }, { 0x02800000, 0x01B504F3 }, { 0x03800000, 0x02800000 }, { 0x04900000, 0x02C00000 },
        { 0x7F800000, 0x00800000 }, { 0x00800000, 0x00B504F3 }, { 0x7E800000, 0x7FB504F3 }, { 0x07C80000, 0x04A00000 },
        { 0x3FFFFFFF, 0x20B504F2 }, { 0x3EFFFFFF, 0x1FFFFFFF }, { 0x3F800000, 0x20800000 }, { 0x3E800001, 0x1FB504F3 },
        { 0x40800000, 0x60B504F3 }, { 0x40FFFFFF, 0x60FFFFFF }, { 0x41800000, 0x61800000 }, { 0x41FFFFFF, 0x61B504F2 },
        { 0x01800001, 0x01800000 }, { 0x01800002, 0x01800000 }, { 0x01800003, 0x01800001 }, { 0x02FFFFFF, 0x01FFFFFF },
        { 0x02C90FDA, 0x01E2DFC4 }, { 0x7DCCCCCC, 0x7FA1E89A }, { 0x00FFFFFE, 0x00FFFFFE }, { 0x01FFFFFE, 0x01B504F2 },
    };
    static const uint32_t below_zero[] = { 0x81800000, 0x83800000, 0xBFFFFFFF, 0xC0800000, 0x80800000, 0xFFFFFFFF };
    static const uint32_t improper[] = { 0x00000001, 0x007FFFFF, 0x01400000, 0x80000000, 0x817FFFFF, 0xFF000000 };
    static const uint8_t file[] = { 6, 0, 1, 0, 0, 0, 0x80, 3, 3, 0, 3, 0, 0x81, 3, 0, 2, 0, 4, 2, 0, 4, 0 };
    static const uint8_t written[] = {
        3, 0, 129, 0, 0, 3, 0, 131, 0, 0, 7, 0, 130, 0, 0, 2, 0x80, 0, 0, 4, 0, 132, 0, 0, 0,
    };
    static const uint8_t left[] = { 0, 0, 0, 0, 0, 0, 0, 0, 0, 0, 0, 0, 2, 0x80, 0, 0, 0, 0, 1 };
    for (unsigned k = 0; k < sizeof root_codes; k++) {
        uint8_t code = root_codes[k];
        expect_root("root of zero", 0, 0, code, 0, 0, 0, 0x20);
        for (unsigned i = 0; i < sizeof of / sizeof of[0]; i++)
            expect_root("root", of[i].word, 0, code, 0, of[i].root, 0, 0x00);
        for (unsigned i = 0; i < sizeof below_zero / sizeof below_zero[0]; i++)
            expect_root("root of a negative word", below_zero[i], 0, code, 0, below_zero[i], 1, 0x48);
        for (unsigned i = 0; i < sizeof improper / sizeof improper[0]; i++) {
            expect_root("root, improper", improper[i], 0, code, 4 * 256, 0, 0, 0);
            expect_root("root, half word before improper", improper[i], 1, code, 3 * 256, 0, 0, 0);
        }
        expect_root("root, half word", 0x03800000, 1, code, 3 * 256, 0, 0, 0);
        expect_root("root, half word before a negative word", 0x81800000, 1, code, 3 * 256, 0, 0, 0);
    }
    expect_run("root in a file", zeros, file, sizeof file, 64, 0, sizeof file, written, sizeof written, left);
}

/* ---- the error memory, request 3 of 02: what must come is written out here */

/* a state of 21 bytes: the words B, A on top and nothing below them, pending, status, service, bits, code */
static void make_state(uint8_t *s, uint32_t b, uint32_t a, uint8_t pending, uint8_t status, uint8_t service, uint8_t bits, uint8_t code)
{
    memset(s, 0, PUNDALIKET_LONG_STATE_BYTES);
    for (int i = 0; i < 4; i++) {
        s[i] = (uint8_t)(a >> (24 - 8 * i));
        s[4 + i] = (uint8_t)(b >> (24 - 8 * i));
    }
    s[16] = pending;
    s[17] = status;
    s[18] = service;
    s[19] = bits;
    s[20] = code;
}

/* a command that is accepted, from each of three memories: what it leaves has this top and word below, status and error bits */
static void expect_error(const char *what, uint32_t b, uint32_t a, uint8_t code, uint32_t top, uint32_t next, uint8_t status, uint8_t error)
{
    static const struct {
        uint8_t bits, code;
    } stood[] = { { 0x00, 0x00 }, { 0x04, 0x12 }, { 0x1E, 0xFF } };
    uint8_t s[PUNDALIKET_LONG_STATE_BYTES], left[PUNDALIKET_LONG_STATE_BYTES];
    for (unsigned i = 0; i < 3; i++)
        for (unsigned sr = 0; sr < 2; sr++) {
            uint8_t first = stood[i].code ? stood[i].code : error ? code : 0;
            make_state(s, b, a, 0, 0x1E, (uint8_t)!sr, stood[i].bits, stood[i].code);
            make_state(left, next, top, 0, status, (uint8_t)sr, stood[i].bits | error, first);
            expect_event_on(what, s, 21, PUNDALIKET_COMMAND, (uint8_t)(code | sr << 7), 0, left);
            expect_event_on(what, s, 19, PUNDALIKET_COMMAND, (uint8_t)(code | sr << 7), 0, left);
        }
}

/* the status of the states below holds every error bit; it was set before and counts for nothing */
static void errors_remembered(void)
{
    static const uint32_t kinds[] = { PUNDALIKET_PUSH, PUNDALIKET_POP, PUNDALIKET_STATUS, PUNDALIKET_ACKNOWLEDGE };
    uint8_t s[PUNDALIKET_LONG_STATE_BYTES], left[PUNDALIKET_LONG_STATE_BYTES];
    expect_error("SMUL, overflow", 0, 0x01000100, 0x6E, 0, 0, 0x22, 0x02);
    expect_error("DDIV by zero", 7, 0, 0x2F, 7, 0, 0x10, 0x10);
    expect_error("FDIV by zero", 0x01800000, 0, 0x13, 0x01800000, 0, 0x10, 0x10);
    expect_error("SQRT of -1", 0, 0x81800000, 0x01, 0x81800000, 0, 0x48, 0x08);
    expect_error("FMUL, underflow", 0x40800000, 0x40800000, 0x12, 0x7F800000, 0, 0x04, 0x04);
    expect_error("FMUL, overflow", 0x3FFFFFFF, 0x3FFFFFFF, 0x12, 0x7EFFFFFE, 0, 0x02, 0x02);
    expect_error("FIXS, overflow", 0, 0x90800000, 0x1F, 0x90800000, 0, 0x42, 0x02);
    expect_error("CHSD, overflow", 0, 0x80000000, 0x34, 0x80000000, 0, 0x42, 0x02);
    expect_error("FMUL, no error", 0x01800000, 0x01800000, 0x12, 0x01800000, 0, 0x00, 0x00);
    expect_error("NOP", 7, 7, 0x00, 7, 7, 0x00, 0x00);
    for (unsigned pending = 0; pending < 2; pending++) {
        /* a command refused with 1, 2, and 3 or 4; reads; clearing; reset */
        make_state(s, 0x00400000, 0, (uint8_t)pending, 0x7F, 1, 0x12, 0x6F);
        expect_event_on("a refused command, 1", s, 21, PUNDALIKET_COMMAND, 0x0C, 1 * 256, s);
        expect_event_on("a refused command, 2", s, 21, PUNDALIKET_COMMAND, 0x02, 2 * 256, s);
        expect_event_on("a refused command, 3 or 4", s, 21, PUNDALIKET_COMMAND, 0x13, pending ? 3 * 256 : 4 * 256, s);
        expect_event_on("recall", s, 21, PUNDALIKET_RECALL, 0xEE, 0x12, s);
        expect_event_on("recall on 19 bytes", s, 19, PUNDALIKET_RECALL, 0xEE, 0, s);
        expect_event_on("forget on 19 bytes", s, 19, PUNDALIKET_FORGET, 0xEE, 0, s);
        expect_event_on("kind 9 on 21 bytes", s, 21, 9, 0xEE, 5 * 256, s);
        make_state(left, 0x00400000, 0, (uint8_t)pending, 0x7F, 1, 0, 0);
        expect_event_on("forget", s, 21, PUNDALIKET_FORGET, 0xEE, 0, left);
        expect_event_on("forget nothing", left, 21, PUNDALIKET_FORGET, 0xEE, 0, left);
        expect_event_on("recall nothing", left, 21, PUNDALIKET_RECALL, 0xEE, 0, left);
        expect_event_on("reset on 21 bytes", s, 21, PUNDALIKET_RESET, 0xEE, 0, zeros);
        /* the others leave the memory, whatever they do to the 19 bytes before it */
        for (unsigned k = 0; k < sizeof kinds / sizeof kinds[0]; k++) {
            lend(&state, k, 21, s);
            check(pundaliket_event(mode, rule, state.at, 21, kinds[k], 0xEE) < 256 && state.at[19] == 0x12 && state.at[20] == 0x6F, "memory kept by kind", kinds[k]);
            check(guarded(&state), "memory kept, guards", kinds[k]);
        }
    }
}

/* a push of 0007 and 0000, SDIV by zero with the service bit (code EF): 10 and 6F are remembered; SADD of 7FFF and 0001 adds
 * 02; status, recall, forget, recall */
static void memory_in_a_file(void)
{
    static const uint8_t file[] = {
        6, 0, 1, 0, 7, 0, 0, 0, 3, 0, 3, 0, 0xEF, 6, 0, 1, 0, 0xFF, 0x7F, 1, 0, 3, 0, 3, 0, 0x6C, 3, 0, 3, 0, 0x00,
        2, 0, 4, 0, 2, 0, 7, 0, 2, 0, 8, 0, 2, 0, 7, 0,
    };
    static const uint8_t written[] = {
        3, 0, 129, 0, 0, 3, 0, 131, 0, 0, 3, 0, 129, 0, 0, 3, 0, 131, 0, 0, 3, 0, 131, 0, 0,
        4, 0, 132, 0, 0, 0x00, 5, 0, 135, 0, 0, 0x12, 0x6F, 3, 0, 136, 0, 0, 5, 0, 135, 0, 0, 0x00, 0x00,
    };
    /* the sum 8000, the quotient 0007 below it, and SADD's operand 0001 at the bottom */
    static const uint8_t left[] = { 0x80, 0, 0, 7, 0, 0, 0, 0, 0, 0, 0, 0, 0, 0, 0, 1, 0, 0, 0, 0x12, 0x6F };
    static const uint8_t emptied[] = { 0x80, 0, 0, 7, 0, 0, 0, 0, 0, 0, 0, 0, 0, 0, 0, 1, 0, 0, 0, 0, 0 };
    static const uint8_t stood[] = { 0, 0, 0, 0, 0, 0, 0, 0, 0, 0, 0, 0, 0, 0, 0, 0, 0, 0, 0, 0x08, 0x01 };
    static const uint8_t joined[] = { 0x80, 0, 0, 7, 0, 0, 0, 0, 0, 0, 0, 0, 0, 0, 0, 1, 0, 0, 0, 0x1A, 0x01 };
    uint8_t written_joined[sizeof written];
    memcpy(written_joined, written, sizeof written);
    written_joined[36] = 0x1A;
    written_joined[37] = 0x01;
    for (size_t sn = 19; sn <= 21; sn += 2) {
        expect_run_on("a memory in a file", zeros, sn, file, 39, 64, 0, 39, written, 38, left);
        expect_run_on("a memory in a file, cleared", zeros, sn, file, sizeof file, 64, 0, sizeof file, written, sizeof written, emptied);
        expect_run_on("recall, its room short by a byte", zeros, sn, file, 39, 37, 8, 35, written, 31, left);
        expect_run_on("recall, just its room", zeros, sn, file, 39, 38, 0, 39, written, 38, left);
    }
    /* the memory that stood: of 21 bytes it is read, joined and kept, of 19 there is none */
    expect_run_on("a memory that stood", stood, 21, file, 39, 64, 0, 39, written_joined, 38, joined);
    expect_run_on("no memory that stood", stood, 19, file, 39, 64, 0, 39, written, 38, joined);
}

/* records of kinds 7 and 8 with a payload, kind 9, and kind 263, which is not to be cut to a byte; kind 7 in the half of a word */
static void records_of_the_memory(void)
{
    static const uint8_t recall_pay[] = { 3, 0, 1, 0, 7, 3, 0, 7, 0, 0 }, forget_pay[] = { 3, 0, 1, 0, 7, 3, 0, 8, 0, 0 };
    static const uint8_t kind_9[] = { 3, 0, 1, 0, 7, 2, 0, 9, 0 }, kind_263[] = { 3, 0, 1, 0, 7, 2, 0, 7, 1 };
    static const uint8_t half[] = { 3, 0, 1, 0, 7, 2, 0, 7, 0, 3, 0, 3, 0, 0xEF, 2, 0, 8, 0, 2, 0, 7, 0, 2, 0, 5, 0 };
    static const uint8_t reset[] = { 2, 0, 5, 0, 2, 0, 7, 0 }, reset_replies[] = { 3, 0, 133, 0, 0, 5, 0, 135, 0, 0, 0, 0 };
    static const uint8_t one[] = { 3, 0, 129, 0, 0 };
    static const uint8_t half_replies[] = {
        3, 0, 129, 0, 0, 5, 0, 135, 0, 0, 0x14, 0x93, 3, 0, 131, 0, 3, 3, 0, 136, 0, 0, 5, 0, 135, 0, 0, 0, 0, 3, 0, 133, 0, 0,
    };
    static const uint8_t stood[] = { 0, 0, 0, 0, 0, 0, 0, 0, 0, 0, 0, 0, 0, 0, 0, 0, 0, 0x5E, 1, 0x14, 0x93 };
    static const uint8_t pushed[] = { 7, 0, 0, 0, 0, 0, 0, 0, 0, 0, 0, 0, 0, 0, 0, 0, 1, 0x5E, 1, 0x14, 0x93 };
    static const uint8_t emptied[] = { 7, 0, 0, 0, 0, 0, 0, 0, 0, 0, 0, 0, 0, 0, 0, 0, 1, 0x5E, 1, 0, 0 };
    for (size_t sn = 19; sn <= 21; sn += 2) {
        expect_run_on("recall with a payload", stood, sn, recall_pay, sizeof recall_pay, 64, 7, 5, one, 5, pushed);
        expect_run_on("forget with a payload", stood, sn, forget_pay, sizeof forget_pay, 64, 7, 5, one, 5, pushed);
        expect_run_on("kind 9", stood, sn, kind_9, sizeof kind_9, 64, 5, 5, one, 5, pushed);
        expect_run_on("kind 263", stood, sn, kind_263, sizeof kind_263, 64, 5, 5, one, 5, pushed);
    }
    expect_run_on("recall in the half of a word", stood, 21, half, 9, 64, 0, 9, half_replies, 12, pushed);
    expect_run_on("forget in the half of a word", stood, 21, half, 22, 64, 0, 22, half_replies, 29, emptied);
    expect_run_on("reset in the half of a word", stood, 21, half, 26, 64, 0, 26, half_replies, 34, zeros);
    expect_run_on("reset with a memory", stood, 21, reset, sizeof reset, 64, 0, sizeof reset, reset_replies, sizeof reset_replies, zeros);
}

/* 13 by the length, with a memory and without, and by each of the 65,536 pairs of bits and code: 02 takes no bits and no code, or
 * some of bits 4 to 1 and any code that is not 0 */
static void refusals_of_a_memory(void)
{
    static const uint8_t reads[] = { 2, 0, 4, 0 }, told[] = { 4, 0, 132, 0, 0, 0x05 };
    uint8_t s[24];
    memset(s, 0, sizeof s);
    for (size_t k = 0; k < 50; k++) {
        size_t sn = k / 2;
        int good = sn == 19 || sn == 21;
        make_state(s, 0x01020304, 0x05060708, 1, 0x05, 1, k % 2 ? 0x10 : 0, k % 2 ? 0x6F : 0);
        expect_event_on("length of a state, event", s, sn, PUNDALIKET_STATUS, 0, good ? 0x05 : 13 * 256, s);
        expect_run_on("length of a state, run", s, sn, reads, sizeof reads, 64, good ? 0 : 13, good ? 4 : 0, told, good ? 6 : 0, s);
    }
    for (unsigned bits = 0; bits < 256; bits++)
        for (unsigned code = 0; code < 256; code++) {
            int good = bits == 0 ? code == 0 : bits <= 30 && bits % 2 == 0 && code != 0;
            s[19] = (uint8_t)bits;
            s[20] = (uint8_t)code;
            lend(&state, code & 7, 21, s);
            uint32_t r = pundaliket_event(mode, rule, state.at, 21, PUNDALIKET_RECALL, 0);
            check(r == (good ? bits : 13 * 256) && holds(&state, s) && guarded(&state), "memory of an event", bits << 8 | code);
            lend(&replies, bits & 7, 6, NULL);
            lend(&report, 0, 9, NULL);
            r = pundaliket_run(mode, rule, state.at, 21, reads, sizeof reads, replies.at, 6, report.at, 9);
            check(r == (good ? 0 : 13) && holds(&state, s) && guarded(&state) && report.at[0] == r && (replies.at[0] == UNTOUCHED) == !good,
                  "memory of a run", bits << 8 | code);
        }
}

/* a buffer of proper words comes back bit for bit, under either rule */
static void buffers_come_back(void)
{
    static uint8_t content[1024], there[2048];
    for (unsigned i = 0; i < 512; i++) {
        for (size_t k = 0; k < 256; k++)
            put_word(content + 4 * k, k % 16 == 0 ? 0 : ranked((int)below(2), drawn()));
        lend(&out, i & 7, 1024, NULL);
        check(pundaliket_words_to_f64(content, 1024, there, 2048, numbers + 1) == 0 && numbers[1] == 0, "words out", i);
        check(pundaliket_f64_to_words(i % 2, there, 2048, out.at, 1024, numbers + 1) == 0 && numbers[1] == 0 && holds(&out, content) && guarded(&out), "words out and back", i);
    }
}

/* ---- formulas, request 7 of 02 */

/* a is 1, b -1, c 2, d 1.5, e the least word, f the greatest, g minus the greatest, h improper: 01's float word, top byte first */
static const uint8_t words_of_letters[32] = { 0x01, 0x80, 0, 0, 0x81, 0x80, 0, 0, 0x02, 0x80, 0, 0, 0x01, 0xC0, 0, 0,
                                              0x40, 0x80, 0, 0, 0x3F, 0xFF, 0xFF, 0xFF, 0xBF, 0xFF, 0xFF, 0xFF, 0x01, 0x40, 0, 0 };

static void expect_formula(const char *text, size_t letters, size_t room, uint32_t answer, const uint8_t *file)
{
    uint8_t before[2048];
    memset(before, UNTOUCHED, sizeof before);
    if (answer < 65536)
        memcpy(before, file, answer);
    for (unsigned alignment = 0; alignment < 4; alignment++) {
        lend(&input, alignment, strlen(text), (const uint8_t *)text);
        lend(&state, alignment, letters, letters <= 32 ? words_of_letters : 0);
        lend(&out, alignment, room, 0);
        check(pundaliket_formula(input.at, input.length, state.at, letters, out.at, room) == answer, text, alignment);
        check(holds(&out, before) && guarded(&out) && guarded(&input) && guarded(&state), text, alignment);
    }
}

/* a text of n of one byte, then this */
static const char *many(char c, size_t n, const char *then)
{
    static char text[512];
    memset(text, c, n);
    memcpy(text + n, then, strlen(then) + 1);
    return text;
}

static void examples_of_formulas(void)
{
    /* 02's own: a, b, FSUB; c, FDIV; the constant, FMUL */
    static const uint8_t own[] = { 6, 0, 1, 0, 0, 0, 0x80, 0x01, 6, 0, 1, 0, 0, 0, 0x80, 0x81, 3, 0, 3, 0, 0x11, 6, 0, 1, 0, 0, 0, 0x80, 0x02,
                                   3, 0, 3, 0, 0x13, 6, 0, 1, 0, 0, 0, 0x80, 0x01, 3, 0, 3, 0, 0x12 };
    /* the minus binds to its factor: a, CHSF; b, FMUL */
    static const uint8_t minus[] = { 6, 0, 1, 0, 0, 0, 0x80, 0x01, 3, 0, 3, 0, 0x15, 6, 0, 1, 0, 0, 0, 0x80, 0x81, 3, 0, 3, 0, 0x12 };
    /* a, b, CHSF; FSUB */
    static const uint8_t less[] = { 6, 0, 1, 0, 0, 0, 0x80, 0x01, 6, 0, 1, 0, 0, 0, 0x80, 0x81, 3, 0, 3, 0, 0x15, 3, 0, 3, 0, 0x11 };
    static const uint8_t one[] = { 6, 0, 1, 0, 0, 0, 0x80, 0x01 };
    static const char *const outside[] = { "", "+a", "()", "#0180000", "a b", "a-", "a)", "(a", "aa", "i", "A", "#0180000a", "a*+b", "a//b", "--", "a\n" };
    expect_formula("(a-b)/c*#01800000", 32, 47, 47, own);
    expect_formula("(a-b)/c*#01800000", 32, 60, 47, own);
    expect_formula("(a-b)/c*#01800000", 32, 46, 33u << 16, 0);
    expect_formula("-a*b", 32, 26, 26, minus);
    expect_formula("a--b", 32, 26, 26, less);
    expect_formula("#01800000", 32, 8, 8, one);
    for (size_t i = 0; i < sizeof outside / sizeof outside[0]; i++)
        expect_formula(outside[i], 32, 100, 30u << 16, 0);
    expect_formula("a", 31, 100, 30u << 16, 0);
    expect_formula("a", 33, 100, 30u << 16, 0);
    expect_formula("a", 0, 100, 30u << 16, 0);
    expect_formula(many('(', 17, "a)))))))))))))))))"), 32, 100, 30u << 16, 0);
    expect_formula(many('(', 16, "a))))))))))))))))"), 32, 8, 8, one);
    expect_formula(many('-', 17, "a"), 32, 200, 30u << 16, 0);
    expect_formula(many('-', 16, "a"), 32, 87, 33u << 16, 0);
    /* 30 over the whole text before 31, 31 before 32, 32 before 33 */
    expect_formula("h+", 32, 0, 30u << 16, 0);
    expect_formula("h", 32, 0, 31u << 16, 0);
    expect_formula("#01400000", 32, 100, 31u << 16, 0);
    expect_formula("a-(b-(c-(d-h)))", 32, 0, 31u << 16, 0);
    expect_formula("a-(b-(c-(d-e)))", 32, 0, 32u << 16, 0);
    expect_formula("a-(b-(c-d))", 32, 0, 33u << 16, 0);
    expect_formula("(((a-b)-c)-d)-e", 32, 0, 33u << 16, 0);
}

/* ---- the room that the header names: with it 8 cannot come, with less it can */

static void room_for_replies(void)
{
    static uint8_t file[PUNDALIKET_MOST_INPUT];
    static uint32_t most[PUNDALIKET_MOST_INPUT + 1];
    /* of the records of 4 bytes a recall has the longest reply, 7, of those of 5 a pop of 240, 245; of those of 6 to 244, all pushes, any, 5 */
    for (size_t n = 0; n <= PUNDALIKET_MOST_INPUT; n++) {
        if (n > 0)
            most[n] = most[n - 1];
        if (n >= 4 && most[n - 4] + 7 > most[n])
            most[n] = most[n - 4] + 7;
        if (n >= 5 && most[n - 5] + 245 > most[n])
            most[n] = most[n - 5] + 245;
        check(most[n] == 245 * (n / 5) + (n % 5 == 4 ? 7 : 0), "replies to a file of", (unsigned)n);
    }
    check(most[PUNDALIKET_MOST_INPUT] == PUNDALIKET_MOST_REPLIES, "replies to the longest file", most[PUNDALIKET_MOST_INPUT]);
    for (size_t n = PUNDALIKET_MOST_INPUT; n > PUNDALIKET_MOST_INPUT - 8; n--) {
        size_t whole = n / 5 * 5;
        for (size_t i = 0; i < whole; i += 5)
            memcpy(file + i, "\3\0\2\0\360", 5);
        if (n % 5 == 4) {
            memcpy(file + whole, "\2\0\7\0", 4);
            whole += 4;
        }
        lend(&state, 0, PUNDALIKET_STATE_BYTES, zeros);
        lend(&report, 0, PUNDALIKET_REPORT_BYTES, NULL);
        lend(&replies, 0, most[n], NULL);
        check(pundaliket_run(mode, rule, state.at, state.length, file, whole, replies.at, most[n], report.at, report.length) == 0, "room enough", (unsigned)n);
        check(pundaliket_run(mode, rule, state.at, state.length, file, whole, replies.at, most[n] - 1, report.at, report.length) == 8, "room short by a byte", (unsigned)n);
    }
}

/* ---- the stack that a call needs. It runs last, when the loader has found memset, whose own few bytes are counted in. */

/* what the next call is lent */
static uint32_t lent_mode, lent_rule;
static uint8_t lent_state[PUNDALIKET_LONG_STATE_BYTES], lent_file[2304], lent_replies[65536], lent_report[PUNDALIKET_REPORT_BYTES], lent_out[4];
static size_t lent_length, lent_size;
static uint32_t lent_number;
static uint8_t lent_byte;

static void call_run(void)
{
    pundaliket_run(lent_mode, lent_rule, lent_state, lent_size, lent_file, lent_length, lent_replies, sizeof lent_replies, lent_report, sizeof lent_report);
}
static void call_event(void) { pundaliket_event(lent_mode, lent_rule, lent_state, lent_size, lent_number, lent_byte); }
static void call_word_to_f32(void) { pundaliket_word_to_f32(lent_number, lent_out, sizeof lent_out); }
static void call_f32_to_word(void) { pundaliket_f32_to_word(lent_number, lent_out, sizeof lent_out); }
static void call_words_to_f64(void) { pundaliket_words_to_f64(lent_file, 256, lent_replies, 512, numbers); }
static void call_f64_to_words(void) { pundaliket_f64_to_words(lent_number % 2, lent_file, 2048, lent_replies, 1024, numbers); }

static void call_formula(void) { pundaliket_formula(lent_file, lent_length, words_of_letters, 32, lent_replies, 2048); }

static void stack_of_a_call(void)
{
    for (unsigned i = 0; i < 4096; i++) {
        draw_state(lent_state);
        lent_size = i / 256 % 2 ? 19 : 21;
        lent_mode = i / 512 % 2;
        lent_rule = i / 1024 % 2;
        lent_number = i % 16 ? 3 : i / 16 % 10;
        lent_byte = (uint8_t)i;
        on_painted_stack(call_event);
    }
    for (unsigned i = 0; i < 512; i++) {
        draw_state(lent_state);
        lent_size = i % 2 ? 19 : 21;
        lent_mode = i / 2 % 2;
        lent_rule = i / 4 % 2;
        for (lent_length = 0; lent_length < 2000;)
            lent_length += draw_record(lent_file + lent_length);
        on_painted_stack(call_run);
        lent_number = drawn_word();
        on_painted_stack(call_word_to_f32);
        on_painted_stack(call_f32_to_word);
        for (size_t k = 0; k < 256; k++) {
            uint64_t entry = (uint64_t)(drawn() & 0x800FFFFF) << 32 | (uint64_t)(1023 - 64 + below(126)) << 52 | drawn();
            lay(lent_file + 8 * k, &entry, 1, 8);
        }
        on_painted_stack(call_f64_to_words);
        for (size_t k = 0; k < 64; k++)
            lent_file[4 * k + 2] |= 0x80;
        on_painted_stack(call_words_to_f64);
    }
    printf("stack: %u of %u bytes\n", (unsigned)deepest, (unsigned)PUNDALIKET_STACK_BYTES);
    check(deepest + deepest / 2 <= PUNDALIKET_STACK_BYTES, "stack of a call, and half as much again", (unsigned)deepest);
}

/* drawn formulas, and the deepest: 16 brackets, each behind a + and a *, round a constant */
static void stack_of_a_formula(void)
{
    deepest = 0;
    for (unsigned i = 0; i < 512; i++) {
        struct growth g = { i % 24, 6, 18, i / 24 % 8, 1 };
        lent_length = draw_formula((char *)lent_file, g);
        on_painted_stack(call_formula);
    }
    lent_length = 0;
    for (unsigned i = 0; i < 16; i++)
        lent_length += (size_t)sprintf((char *)lent_file + lent_length, "a+a*(");
    lent_length += (size_t)sprintf((char *)lent_file + lent_length, "#01800000))))))))))))))))");
    on_painted_stack(call_formula);
    printf("stack of a formula: %u of %u bytes\n", (unsigned)deepest, (unsigned)PUNDALIKET_FORMULA_STACK_BYTES);
    check(deepest + deepest / 2 <= PUNDALIKET_FORMULA_STACK_BYTES, "stack of a formula, and half as much again", (unsigned)deepest);
}

int main(void)
{
    round_trips();
    example_of_01();
    bench_values();
    refusals_of_a_file();
    longest_blocks();
    refusals_of_the_call();
    refusals_of_conversions();
    entries_of_buffers();
    refusals_of_buffers();
    events_of_each_kind();
    older_reset();
    nearest();
    roots();
    errors_remembered();
    memory_in_a_file();
    records_of_the_memory();
    refusals_of_a_memory();
    buffers_come_back();
    examples_of_formulas();
    room_for_replies();
    stack_of_a_call();
    stack_of_a_formula();
    printf("%u checks, %u failed\n", checks, failed);
    return failed != 0;
}
