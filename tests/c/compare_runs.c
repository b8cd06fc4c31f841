/* Files of records through pundaliket_run. */
#include <string.h>

#include "../../include/pundaliket.h"
#include "compare.h"
#include "drawn.h"
#include "lent.h"
#include "second.h"

enum { AMPLE = 16384 };

static struct slice state, input, replies, report, second_state, second_replies, second_report;

void compare_run(uint32_t mode, uint32_t rule, const uint8_t *before, size_t length, const uint8_t *file, size_t n, size_t room, size_t told)
{
    lend(&state, drawn() & 7, length, before);
    lend(&input, drawn() & 7, n, file);
    lend(&replies, drawn() & 7, room, NULL);
    lend(&report, drawn() & 7, told, NULL);
    lend(&second_state, 0, length, before);
    lend(&second_replies, 0, room, NULL);
    lend(&second_report, 0, told, NULL);
    uint32_t a = pundaliket_run(mode, rule, state.at, length, input.at, n, replies.at, room, report.at, told);
    uint32_t b = second_run(mode, rule, second_state.at, length, file, n, second_replies.at, room, second_report.at, told);
    int guards = guarded(&state) && guarded(&input) && holds(&input, file) && guarded(&replies) && guarded(&report);
    if (!counted(a == b && same(&state, &second_state) && same(&replies, &second_replies) && same(&report, &second_report) && guards))
        return;
    show_number("mode", mode);
    show_number("rule", rule);
    show_bytes("state before", before, length);
    show_bytes("file", file, n);
    show_number("answer of the library", a);
    show_number("answer of the second ", b);
    show_both("state", state.at, second_state.at, length);
    show_both("replies", replies.at, second_replies.at, room);
    show_both("report", report.at, second_report.at, told);
    show_number("guards of the library stand", (uint64_t)guards);
}

/* ---- drawn files */

static uint8_t file[65536];

static size_t draw_file(unsigned records)
{
    size_t n = 0;
    for (unsigned k = 0; k < records; k++)
        n += draw_record(file + n);
    return n;
}

static void on_drawn_state(size_t n, size_t room)
{
    uint8_t s[21];
    draw_state(s);
    compare_run(below(2), below(2), s, below(2) ? 19 : 21, file, n, room, 9);
}

static void whole(const struct group *g, uint32_t i)
{
    (void)g;
    on_drawn_state(draw_file(1 + i % 24), AMPLE);
}

/* the file of a number; the next 128 cases have it too */
static size_t shared_file(uint32_t number, unsigned records)
{
    uint64_t own = seed;
    size_t n;
    seed = 2 * (uint64_t)number + 9511;
    for (int k = 0; k < 8; k++)
        drawn();
    n = draw_file(records);
    seed = own;
    return n;
}

static void cut(const struct group *g, uint32_t i)
{
    size_t n = shared_file(i / 128, 16);
    (void)g;
    on_drawn_state(i % 128 < n ? i % 128 : n, AMPLE);
}

static void small_rooms(const struct group *g, uint32_t i)
{
    (void)g;
    on_drawn_state(shared_file(i / 128, 16), i % 128);
}

static void damaged(const struct group *g, uint32_t i)
{
    size_t n = draw_file(1 + i % 8);
    (void)g;
    damage(file, n);
    on_drawn_state(n, AMPLE);
}

/* inputs of 12,264 to 12,303 bytes, ample room and the most that a file can need */
static void long_files(const struct group *g, uint32_t i)
{
    (void)g;
    draw_file(1200);
    on_drawn_state(12264 + i % 40, i % 4 ? AMPLE * 4 : PUNDALIKET_MOST_REPLIES);
}

/* every small file of drawn bytes: most are none */
static void small_files(const struct group *g, uint32_t i)
{
    size_t n = i % 12;
    (void)g;
    for (size_t k = 0; k < n; k++)
        file[k] = below(3) ? (uint8_t)below(10) : (uint8_t)drawn();
    on_drawn_state(n, below(40));
}

/* a record of 22 lengths, twelve kinds, eight first bytes, in a file one byte short, whole or one byte over; rooms of 4, 5, 6 and 7
 * bytes and ample */
static void edge_records(const struct group *g, uint32_t i)
{
    static const uint16_t lengths[22] = { 0, 1, 2, 3, 4, 5, 6, 7, 8, 9, 10, 11, 12, 17, 18, 19, 20, 21, 241, 242, 243, 258 };
    static const uint16_t kinds[12] = { 0, 1, 2, 3, 4, 5, 6, 7, 8, 9, 256, 263 };
    static const uint8_t bytes[8] = { 0, 1, 2, 16, 17, 240, 241, 255 };
    uint32_t length = lengths[i % 22], kind = kinds[i / 22 % 12];
    (void)g;
    memset(file, 0, 300);
    file[0] = (uint8_t)length;
    file[1] = (uint8_t)(length >> 8);
    file[2] = (uint8_t)kind;
    file[3] = (uint8_t)(kind >> 8);
    file[4] = bytes[i / 264 % 8];
    on_drawn_state(length + 1 + i / 2112 % 3, i / 6336 < 4 ? 4 + i / 6336 : AMPLE);
}

/* faults of the call: states, reports, modes and rules that are none, inputs too long, several at once */
static void faults(const struct group *g, uint32_t i)
{
    static const size_t reports[4] = { 8, 10, 0, 9 };
    uint8_t s[24] = { 0 };
    size_t n = draw_file(i / 16 % 2 ? 2400 : 4);
    (void)g;
    draw_state(s);
    if (i % 4)
        s[16 + below(5)] = (uint8_t)(below(2) ? drawn() : 1u << below(8));
    compare_run(choice(i / 128), choice(i / 512), s, i % 16 < 8 ? (i % 2 ? 19 : 21) : below(24), file, n > 12289 ? 12289 : n, 4096, reports[i / 32 % 4]);
}

const struct group run_groups[] = {
    { "run", "whole-files", 24576, 1, whole, 0 },
    { "run", "cut-files", 16384, 1, cut, 0 },
    { "run", "damaged-files", 32768, 1, damaged, 0 },
    { "run", "small-rooms", 16384, 1, small_rooms, 0 },
    { "run", "small-files", 32768, 1, small_files, 0 },
    { "run", "long-files", 400, 1, long_files, 0 },
    { "run", "edge-records", 22 * 12 * 8 * 3 * 5, 0, edge_records, 0 },
    { "run", "faults", 8192, 1, faults, 0 },
    { NULL, NULL, 0, 0, NULL, 0 },
};
