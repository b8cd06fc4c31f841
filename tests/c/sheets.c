/* A C program over include/sheets.h, linked with both libraries. What must come is written out here: two units' sheets, each refusal of
 * request 11 of document 02 and their order, what a reset leaves, a file cut after each byte, figures (request 14), that no byte beyond a
 * lent slice is written, the stack that a call needs; that the core's replies and state are those of pundaliket_run with the sheets' kinds
 * struck out; and that figures do not depend on the order of the lines.
 * Prints what differs and the stack used, then 'N checks, M failed'; ends with 1 if M is not 0. */
#include <stdio.h>
#include <string.h>

#include "../../include/sheets.h"
#include "../../include/pundaliket.h"
#include "checks.h"
#include "drawn.h"

static struct slice state, sheets, input, replies, report, out, core_state, core_replies;

/* ---- what must come is written out here */

static const uint8_t zeros[SHEETS_BYTES];

static uint32_t mode = PUNDALIKET_AM9511A, rule = PUNDALIKET_CUT;

/* a file as it grows, the replies to it, and the list that it leaves */
static uint8_t file[PUNDALIKET_MOST_INPUT + 64], written[65536], left[SHEETS_BYTES];
static size_t length, count;

static void begin(const uint8_t *list)
{
    length = count = 0;
    memcpy(left, list, sizeof left);
}

/* a record of a kind with n bytes of payload, and the refusal in its reply; 255 where it is to stop the run */
static void record(uint32_t kind, const char *payload, size_t n, uint8_t answer)
{
    const uint8_t head[4] = { (uint8_t)(2 + n), 0, (uint8_t)kind, (uint8_t)(kind >> 8) };
    memcpy(file + length, head, 4);
    memcpy(file + length + 4, payload, n);
    length += 4 + n;
    if (answer == 255)
        return;
    const uint8_t reply[5] = { 3, 0, (uint8_t)(kind < 256 ? kind + 128 : kind), kind < 256 ? 0 : 0x81, answer };
    memcpy(written + count, reply, 5);
    count += 5;
}

static void push(uint32_t w)
{
    char bytes[4];
    put_word((uint8_t *)bytes, w);
    record(PUNDALIKET_PUSH, bytes, 4, 0);
}

static void open_sheet(uint32_t serial, uint8_t answer)
{
    char bytes[4];
    put_word((uint8_t *)bytes, serial);
    record(SHEETS_OPEN, bytes, 4, answer);
}

static void keep(uint8_t slot, uint8_t answer)
{
    const char byte = (char)slot;
    record(SHEETS_KEEP, &byte, 1, answer);
}

static void close_sheet(uint8_t answer) { record(SHEETS_CLOSE, "", 0, answer); }

/* a sheet of a serial with these words: pushed, kept, closed */
static void fill(uint32_t serial, const uint32_t *words)
{
    open_sheet(serial, 0);
    for (uint8_t slot = 0; slot < 4; slot++) {
        push(words[slot]);
        keep(slot, 0);
    }
}

static void line(uint8_t at, uint32_t serial, const uint32_t *words)
{
    uint8_t *to = left + SHEETS_AT_LINES + SHEETS_LINE_BYTES * at;
    put_word(to, serial);
    for (int k = 0; k < 4; k++)
        put_word(to + 4 + 4 * k, words[k]);
    left[SHEETS_AT_NUMBER] = (uint8_t)(at + 1);
}

/* the open sheet as the list's last bytes */
static void standing(uint32_t serial, uint8_t kept, const uint32_t *words)
{
    left[SHEETS_AT_OPEN] = 1;
    put_word(left + SHEETS_AT_SERIAL, serial);
    left[SHEETS_AT_KEPT] = kept;
    for (int k = 0; k < 4; k++)
        put_word(left + SHEETS_AT_WORDS + 4 * k, kept >> k & 1 ? words[k] : 0);
}

/* the file run from a reset chip on a list in some room: refusal, counts, replies, list and guards */
static void expect(const char *what, const uint8_t *list, size_t room, uint32_t refusal, size_t taken)
{
    for (unsigned alignment = 0; alignment < 8; alignment++) {
        lend(&state, alignment, PUNDALIKET_STATE_BYTES, zeros);
        lend(&sheets, 7 - alignment, SHEETS_BYTES, list);
        lend(&input, alignment, length, file);
        lend(&replies, 7 - alignment, room, NULL);
        lend(&report, alignment, PUNDALIKET_REPORT_BYTES, NULL);
        uint32_t r = sheets_run(mode, rule, state.at, state.length, sheets.at, sheets.length, input.at, length, replies.at, room, report.at, report.length);
        const uint8_t numbers[PUNDALIKET_REPORT_BYTES] = {
            (uint8_t)refusal, (uint8_t)taken, (uint8_t)(taken >> 8), 0, 0, (uint8_t)count, (uint8_t)(count >> 8), 0, 0,
        };
        int rest = 1;
        for (size_t i = count; i < room; i++)
            rest = rest && replies.at[i] == UNTOUCHED;
        check(r == refusal, what, 1);
        check(holds(&report, numbers), what, 2);
        check(memcmp(replies.at, written, count) == 0 && rest, what, 3);
        check(holds(&sheets, left), what, 4);
        check(guarded(&state) && guarded(&sheets) && guarded(&input) && guarded(&replies) && guarded(&report) && holds(&input, file), what, 5);
    }
}

static const uint32_t first[4] = { 0x01800000, 0x82A00000, 0x00000001, 0xFFFFFFFE };
static const uint32_t other[4] = { 0x12345678, 0x00000000, 0x80000000, 0x7FFFFFFF };

/* two units, the first serial once more, each with its own words; then one that is still open */
static void two_units(void)
{
    begin(zeros);
    fill(0x01020304, first);
    close_sheet(0);
    fill(70000, other);
    keep(0, 0); /* the last word overwrites the first */
    close_sheet(0);
    fill(0x01020304, other);
    close_sheet(0);
    open_sheet(9, 0);
    push(7);
    keep(2, 0);
    const uint32_t over[4] = { other[3], other[1], other[2], other[3] }, seven[4] = { 0, 0, 7, 0 };
    line(0, 0x01020304, first);
    line(1, 70000, over);
    line(2, 0x01020304, other);
    standing(9, 4, seven);
    expect("two units", zeros, 2000, 0, length);
    expect("two units, just their room", zeros, count, 0, length);
    mode = PUNDALIKET_AM9511, rule = PUNDALIKET_NEAREST;
    expect("two units, older part, nearest", zeros, 2000, 0, length);
    mode = PUNDALIKET_AM9511A, rule = PUNDALIKET_CUT;
}

/* 20 to 25, each before those behind it */
static void refusals_in_replies(void)
{
    begin(zeros);
    keep(9, 21);
    close_sheet(21);
    open_sheet(1, 0);
    open_sheet(2, 20);
    record(PUNDALIKET_PUSH, "\7", 1, 0);
    keep(4, 22);
    keep(255, 22);
    keep(3, 23);
    close_sheet(24);
    record(PUNDALIKET_PUSH, "\0", 1, 0);
    keep(0, 0);
    keep(1, 0);
    keep(3, 0);
    close_sheet(24);
    const uint32_t words[4] = { 0x00070000, 0x00070000, 0, 0x00070000 };
    standing(1, 11, words);
    expect("20 to 24", zeros, 2000, 0, length);
    /* a list of 64, whose lines stay as they are */
    uint8_t full[SHEETS_BYTES];
    for (size_t i = 0; i < sizeof full; i++)
        full[i] = (uint8_t)(i * 5 + 1);
    memset(full + SHEETS_AT_OPEN, 0, SHEETS_BYTES - SHEETS_AT_OPEN);
    full[SHEETS_AT_NUMBER] = SHEETS_MOST_LINES;
    begin(full);
    fill(5, first);
    close_sheet(25);
    standing(5, 15, first);
    expect("25", full, 2000, 0, length);
    /* one place free: the 64th enters, the next does not */
    full[SHEETS_AT_NUMBER] = SHEETS_MOST_LINES - 1;
    begin(full);
    fill(5, other);
    close_sheet(0);
    fill(6, first);
    close_sheet(25);
    line(63, 5, other);
    standing(6, 15, first);
    expect("the 64th and the next", full, 2000, 0, length);
    /* 24 before 25 */
    full[SHEETS_AT_NUMBER] = SHEETS_MOST_LINES;
    begin(full);
    open_sheet(5, 0);
    close_sheet(24);
    standing(5, 0, first);
    expect("24 before 25", full, 2000, 0, length);
}

/* a record that stops the run, behind an opening that is done */
static void expect_stop(const char *what, uint32_t kind, const char *payload, size_t n, size_t room, uint32_t refusal)
{
    begin(zeros);
    open_sheet(3, 0);
    record(kind, payload, n, 255);
    standing(3, 0, first);
    expect(what, zeros, room, refusal, 8);
}

static void refusals_of_a_file(void)
{
    static const uint32_t none[] = { 0, 9, 255, 259, 512, 0x8100, 0x8101, 0x8102, 0xFFFF };
    for (size_t i = 0; i < sizeof none / sizeof none[0]; i++)
        expect_stop("5", none[i], "", 0, 64, 5);
    expect_stop("7, opening of 3", SHEETS_OPEN, "abc", 3, 64, 7);
    expect_stop("7, opening of 5", SHEETS_OPEN, "abcde", 5, 64, 7);
    expect_stop("7, opening of none", SHEETS_OPEN, "", 0, 64, 7);
    expect_stop("7, keep of none", SHEETS_KEEP, "", 0, 64, 7);
    expect_stop("7, keep of 2", SHEETS_KEEP, "\0\0", 2, 64, 7);
    expect_stop("7, close of 1", SHEETS_CLOSE, "\0", 1, 64, 7);
    expect_stop("7 before 8", SHEETS_CLOSE, "\0", 1, 5, 7);
    expect_stop("5 before 8", 259, "", 0, 5, 5);
    expect_stop("8, opening", SHEETS_OPEN, "abcd", 4, 9, 8);
    expect_stop("8, keep", SHEETS_KEEP, "\7", 1, 9, 8);
    expect_stop("8, close", SHEETS_CLOSE, "", 0, 9, 8);
    /* a reset that is stopped drops nothing, one that is done drops the sheet */
    expect_stop("8, reset", PUNDALIKET_RESET, "", 0, 9, 8);
    begin(zeros);
    open_sheet(3, 0);
    keep(0, 0);
    record(PUNDALIKET_RESET, "", 0, 0);
    close_sheet(21);
    for (mode = 0; mode < 2; mode++)
        expect("reset", zeros, 64, 0, length);
    mode = 0;
    /* with none open 22 bytes are left as they were lent by all but an opening and a reset */
    uint8_t behind[SHEETS_BYTES];
    memset(behind, 0, sizeof behind);
    memset(behind + SHEETS_AT_SERIAL, 0xEE, SHEETS_BYTES - SHEETS_AT_SERIAL);
    behind[SHEETS_AT_KEPT] = 15;
    begin(behind);
    keep(0, 21);
    close_sheet(21);
    expect("none open", behind, 64, 0, length);
    record(PUNDALIKET_RESET, "", 0, 0);
    memset(left + SHEETS_AT_OPEN, 0, 22);
    expect("none open, reset", behind, 64, 0, length);
    begin(behind);
    open_sheet(0xABCDEF01, 0);
    standing(0xABCDEF01, 0, first);
    expect("opened on other bytes", behind, 64, 0, length);
}

/* one call on slices of these lengths: the refusal, and that only a report is written, of 14 nothing */
static void expect_away(const char *what, uint32_t m, uint32_t q, const uint8_t *s, size_t sn, const uint8_t *list, size_t ln, size_t n, size_t rn, uint32_t refusal)
{
    uint8_t numbers[16] = { (uint8_t)refusal };
    if (refusal == 14)
        memset(numbers, UNTOUCHED, sizeof numbers);
    lend(&state, 3, sn, s);
    lend(&sheets, 1, ln, list);
    lend(&input, 5, n, file);
    lend(&replies, 2, 64, NULL);
    lend(&report, 6, rn, NULL);
    check(sheets_run(m, q, state.at, sn, sheets.at, ln, input.at, n, replies.at, 64, report.at, rn) == refusal, what, (unsigned)refusal);
    int kept = memcmp(state.at, s, sn) == 0 && memcmp(sheets.at, list, ln) == 0 && memcmp(report.at, numbers, rn) == 0;
    for (size_t i = 0; i < 64; i++)
        kept = kept && replies.at[i] == UNTOUCHED;
    check(kept && guarded(&state) && guarded(&sheets) && guarded(&input) && guarded(&replies) && guarded(&report), what, 100);
}

static void refusals_of_the_call(void)
{
    static const size_t places[] = { SHEETS_AT_NUMBER, SHEETS_AT_OPEN, SHEETS_AT_KEPT };
    static const uint8_t most[] = { 64, 1, 15 };
    enum { LONG = PUNDALIKET_MOST_INPUT + 1 };
    uint8_t bad[SHEETS_BYTES + 1] = { 0 }, chip[PUNDALIKET_STATE_BYTES] = { 0 };
    memset(file, 0, sizeof file);
    chip[PUNDALIKET_AT_PENDING] = 2;
    bad[0] = 65;
    for (size_t rn = 0; rn < 12; rn++)
        if (rn != 9)
            expect_away("14 before all", 2, 2, chip, 19, bad, SHEETS_BYTES, LONG, rn, 14);
    expect_away("16 before 17", 2, 2, chip, 19, bad, SHEETS_BYTES, LONG, 9, 16);
    expect_away("16, not cut to a byte", 256, 0, zeros, 19, zeros, SHEETS_BYTES, 0, 9, 16);
    expect_away("17 before 13", 1, 2, chip, 19, bad, SHEETS_BYTES, LONG, 9, 17);
    expect_away("13 before 9, state", 1, 1, chip, 19, zeros, SHEETS_BYTES, LONG, 9, 13);
    expect_away("13, state of 20", 0, 0, zeros, 20, zeros, SHEETS_BYTES, 0, 9, 13);
    for (size_t k = 0; k < 3; k++)
        for (unsigned over = 0; over < 256; over++) {
            memset(bad, 0, sizeof bad);
            bad[places[k]] = (uint8_t)over;
            if (over > most[k])
                expect_away("13 before 9, sheets", 0, 1, zeros, 21, bad, SHEETS_BYTES, LONG, 9, 13);
            else
                expect_away("9", 0, 1, zeros, 21, bad, SHEETS_BYTES, LONG, 9, 9);
        }
    memset(bad, 0, sizeof bad);
    expect_away("13, a byte too few", 0, 0, zeros, 19, bad, SHEETS_BYTES - 1, 0, 9, 13);
    expect_away("13, a byte too many", 0, 0, zeros, 19, bad, SHEETS_BYTES + 1, 0, 9, 13);
    expect_away("13, no bytes", 0, 0, zeros, 19, bad, 0, 0, 9, 13);
    expect_away("an empty file", 0, 0, zeros, 19, bad, SHEETS_BYTES, 0, 9, 0);
}

/* ---- both libraries: in a file that ends with 0 the core's replies and state are those with the sheets' kinds struck out */

static size_t struck(uint8_t *to, const uint8_t *from, size_t n)
{
    size_t kept = 0;
    for (size_t at = 0, size; at < n; at += size) {
        size = 2u + from[at] + 256u * from[at + 1];
        if (from[at + 3] & 1)
            continue;
        memcpy(to + kept, from + at, size);
        kept += size;
    }
    return kept;
}

static void struck_out(void)
{
    static uint8_t bytes[65536], rest[65536];
    uint8_t s[24];
    for (unsigned i = 0; i < 1000; i++) {
        size_t n = 0;
        for (unsigned k = 0; k < i % 60; k++)
            n += draw_any_record(bytes + n, k);
        draw_state(s);
        lend(&state, i & 7, i % 2 ? 19 : 21, s);
        lend(&sheets, 0, SHEETS_BYTES, zeros);
        lend(&replies, 0, 16384, NULL);
        lend(&report, 0, 9, NULL);
        check(sheets_run(i / 2 % 2, i / 4 % 2, state.at, state.length, sheets.at, sheets.length, bytes, n, replies.at, 16384, report.at, 9) == 0, "a file that ends with 0", i);
        size_t answered = report.at[5] + 256u * report.at[6], own = struck(rest, replies.at, answered), m;
        memcpy(replies.at, rest, own);
        m = struck(rest, bytes, n);
        lend(&core_state, 0, state.length, s);
        lend(&core_replies, 0, 16384, NULL);
        check(pundaliket_run(i / 2 % 2, i / 4 % 2, core_state.at, core_state.length, rest, m, core_replies.at, 16384, report.at, 9) == 0, "struck out, ends with 0", i);
        check(report.at[5] + 256u * report.at[6] == own && memcmp(core_replies.at, replies.at, own) == 0 && same(&state, &core_state), "struck out", i);
    }
}

/* ---- the shift's figures, request 14 of 02 */

/* the figures of the list in `left`: four counts, and the text of the sum with `zeros` digits 0 before its others and 0s behind */
static void expect_figures(const char *what, uint8_t lines, uint8_t serials, uint8_t repeated, uint8_t improper, char sign, size_t zeros_before, const char *digits)
{
    uint8_t must[SHEETS_FIGURES_BYTES] = { lines, serials, repeated, improper, (uint8_t)sign };
    memset(must + SHEETS_AT_DIGITS, '0', SHEETS_SUM_DIGITS);
    memcpy(must + SHEETS_AT_DIGITS + zeros_before, digits, strlen(digits));
    for (unsigned alignment = 0; alignment < 8; alignment++) {
        lend(&sheets, alignment, SHEETS_BYTES, left);
        lend(&out, 7 - alignment, SHEETS_FIGURES_BYTES, NULL);
        check(sheets_figures(sheets.at, SHEETS_BYTES, out.at, out.length) == 0, what, 1);
        check(holds(&out, must) && guarded(&out), what, 2);
        check(holds(&sheets, left) && guarded(&sheets), what, 3);
    }
}

/* a line of a serial whose slot 0 has this word, and the other slots bytes that do not count */
static void counted(uint8_t at, uint32_t serial, uint32_t w)
{
    const uint32_t words[4] = { w, 0x01800000, 0x00400000, 0x81800000 };
    line(at, serial, words);
}

static void examples_of_figures(void)
{
    /* places past the number and the open sheet do not count */
    begin(zeros);
    memset(left + 1, 0x81, SHEETS_AT_KEPT - 1);
    left[SHEETS_AT_OPEN] = 1;
    expect_figures("no sheets", 0, 0, 0, 0, '+', 0, "");
    /* 5, 5, 5, 7: one, one, minus one and an improper word; 2^88 is a 1 before 22 digits */
    counted(0, 5, 0x01800000);
    counted(1, 5, 0x01800000);
    counted(2, 5, 0x81800000);
    counted(3, 7, 0x01400000);
    expect_figures("5, 5, 5, 7", 4, 2, 1, 1, '+', 25, "1");
    left[SHEETS_AT_NUMBER] = 3;
    expect_figures("5, 5, 5", 3, 1, 1, 0, '+', 25, "1");
    counted(3, 0x07000005, 0x81800000);
    counted(4, 6, 0x80000000);
    expect_figures("a sum of zero", 5, 3, 1, 1, '+', 0, "");
    counted(5, 5, 0x82A00000);
    expect_figures("minus two and a half", 6, 3, 1, 1, '-', 25, "28");
    counted(6, 7, 0xC0800000);
    expect_figures("and the least", 7, 4, 1, 1, '-', 25, "28000000000000000800000");
    counted(7, 8, 0x02A00000);
    expect_figures("minus the least", 8, 5, 1, 1, '-', 42, "8");
    /* 64 of the greatest: (2^24 - 1) * 2^133 */
    for (uint8_t i = 0; i < 64; i++)
        counted(i, 1000u * i, 0x3FFFFFFF);
    expect_figures("64 of the greatest", 64, 64, 0, 0, '+', 8, "1FFFFFE");
    for (uint8_t i = 0; i < 64; i++)
        counted(i, 1000u * (i % 32), 0xBFFFFFFF);
    expect_figures("64 of minus the greatest", 64, 32, 32, 0, '-', 8, "1FFFFFE");
}

static void refusals_of_figures(void)
{
    uint8_t list[SHEETS_BYTES + 8] = { 65 };
    for (size_t n = 0; n < 60; n++)
        for (size_t ln = SHEETS_BYTES - 1; ln <= SHEETS_BYTES + 1; ln++) {
            lend(&sheets, n & 7, ln, list);
            lend(&out, n & 7, n, NULL);
            int kept = sheets_figures(sheets.at, ln, out.at, n) == (n == SHEETS_FIGURES_BYTES ? 13 : 8) && guarded(&out) && guarded(&sheets);
            for (size_t i = 0; i < n; i++)
                kept = kept && out.at[i] == UNTOUCHED;
            check(kept, "figures, 8 then 13", (unsigned)n);
        }
}

/* each line changes places with a drawn one */
static void figures_in_another_order(void)
{
    uint8_t list[SHEETS_BYTES] = { 0 }, before[SHEETS_FIGURES_BYTES], after[SHEETS_FIGURES_BYTES], kept[SHEETS_LINE_BYTES];
    for (unsigned i = 0; i < 4000; i++) {
        do
            draw_list(list);
        while (list[SHEETS_AT_NUMBER] > 64 || list[SHEETS_AT_NUMBER] == 0 || list[SHEETS_AT_OPEN] > 1 || list[SHEETS_AT_KEPT] > 15);
        for (size_t k = 0; k < 64; k++) {
            put_word(list + SHEETS_AT_LINES + SHEETS_LINE_BYTES * k, below(40));
            put_word(list + SHEETS_AT_LINES + SHEETS_LINE_BYTES * k + 4, drawn_word());
        }
        check(sheets_figures(list, sizeof list, before, sizeof before) == 0, "figures of a drawn list", i);
        for (size_t k = 0; k < list[0]; k++) {
            uint8_t *a = list + SHEETS_AT_LINES + SHEETS_LINE_BYTES * k, *b = list + SHEETS_AT_LINES + SHEETS_LINE_BYTES * below(list[0]);
            memcpy(kept, a, sizeof kept);
            memmove(a, b, sizeof kept);
            memcpy(b, kept, sizeof kept);
        }
        check(sheets_figures(list, sizeof list, after, sizeof after) == 0 && memcmp(before, after, sizeof after) == 0, "figures in another order", i);
    }
}

/* ---- the stack that a call needs. It runs last, when the loader has found memset, whose own few bytes are counted in. */

static uint8_t lent_state[PUNDALIKET_LONG_STATE_BYTES], lent_list[SHEETS_BYTES], lent_file[8192], lent_replies[65536], lent_report[PUNDALIKET_REPORT_BYTES];
static size_t lent_length;
static unsigned lent_turn;

static void call_run(void)
{
    sheets_run(lent_turn / 2 % 2, lent_turn / 4 % 2, lent_state, lent_turn % 2 ? 19 : 21, lent_list, sizeof lent_list, lent_file, lent_length, lent_replies, sizeof lent_replies, lent_report, sizeof lent_report);
}

static void call_figures(void) { sheets_figures(lent_list, sizeof lent_list, lent_replies, SHEETS_FIGURES_BYTES); }

static void stack_of_a_call(void)
{
    for (lent_turn = 0; lent_turn < 512; lent_turn++) {
        draw_state(lent_state);
        draw_list(lent_list);
        unsigned k = 0;
        for (lent_length = 0; lent_length < 2000; k++)
            lent_length += draw_any_record(lent_file + lent_length, k);
        on_painted_stack(call_run);
        on_painted_stack(call_figures);
    }
    printf("stack: %u of %u bytes\n", (unsigned)deepest, (unsigned)SHEETS_STACK_BYTES);
    check(deepest + deepest / 2 <= SHEETS_STACK_BYTES, "stack of a call, and half as much again", (unsigned)deepest);
}

int main(void)
{
    two_units();
    refusals_in_replies();
    refusals_of_a_file();
    refusals_of_the_call();
    struck_out();
    examples_of_figures();
    refusals_of_figures();
    figures_in_another_order();
    stack_of_a_call();
    printf("%u checks, %u failed\n", checks, failed);
    return failed != 0;
}
