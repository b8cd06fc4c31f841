/* Module sheets: files of records through sheets_run, and the figures of lists. */
#include <string.h>

#include "../../include/pundaliket.h"
#include "../../include/sheets.h"
#include "compare.h"
#include "drawn.h"
#include "lent.h"
#include "second.h"

enum { AMPLE = 16384 };

static struct slice state, sheets, input, replies, report, second_state, second_sheets, second_replies, second_report;
static uint8_t file[65536], list[SHEETS_BYTES + 1];

static void compare_sheets(uint32_t mode, uint32_t rule, const uint8_t *before, size_t length, size_t lines, size_t n, size_t room, size_t told)
{
    lend(&state, drawn() & 7, length, before);
    lend(&sheets, drawn() & 7, lines, list);
    lend(&input, drawn() & 7, n, file);
    lend(&replies, drawn() & 7, room, NULL);
    lend(&report, drawn() & 7, told, NULL);
    lend(&second_state, 0, length, before);
    lend(&second_sheets, 0, lines, list);
    lend(&second_replies, 0, room, NULL);
    lend(&second_report, 0, told, NULL);
    uint32_t a = sheets_run(mode, rule, state.at, length, sheets.at, lines, input.at, n, replies.at, room, report.at, told);
    uint32_t b = second_sheets_run(mode, rule, second_state.at, length, second_sheets.at, lines, file, n, second_replies.at, room, second_report.at, told);
    int guards = guarded(&state) && guarded(&sheets) && guarded(&input) && holds(&input, file) && guarded(&replies) && guarded(&report);
    if (!counted(a == b && same(&state, &second_state) && same(&sheets, &second_sheets) && same(&replies, &second_replies)
                 && same(&report, &second_report) && guards))
        return;
    show_number("mode", mode);
    show_number("rule", rule);
    show_bytes("state before", before, length);
    show_bytes("open sheet before", list + SHEETS_AT_OPEN, 22);
    show_number("lines before", list[0]);
    show_bytes("file", file, n);
    show_number("answer of the library", a);
    show_number("answer of the second ", b);
    show_both("state", state.at, second_state.at, length);
    show_both("sheets", sheets.at, second_sheets.at, lines);
    show_both("replies", replies.at, second_replies.at, room);
    show_both("report", report.at, second_report.at, told);
    show_number("guards of the library stand", (uint64_t)guards);
}

/* ---- lists by number. Taken: empty (0); drawn, with 0 to 64 lines (1), 63 (2), 64 (3); every slot kept and 64 lines (4), 63 (5), none (6); none
 * open, and bytes behind (7). Not taken: 65 lines (8), from 128 on (9), open 2 (10), 255 (11), kept 16 (12), also with none open (13), one
 * byte too few (14), too many (15) */
static size_t make_list(uint32_t number)
{
    static const int lines[16] = { 0, -1, 63, 64, 64, 63, 0, -1, 65, -2, -1, -1, -1, -1, -1, -1 };
    static const int open[16] = { 0, -1, -1, -1, 1, 1, 1, 0, -1, -1, 2, 255, -1, 0, -1, -1 };
    static const int kept[16] = { 0, -1, -1, -1, 15, 15, 15, -1, -1, -1, -1, -1, 16, 255, -1, -1 };
    for (size_t i = 0; i < sizeof list; i++)
        list[i] = number ? (uint8_t)drawn() : 0;
    list[SHEETS_AT_NUMBER] = (uint8_t)(lines[number] == -1 ? (int)below(65) : lines[number] == -2 ? 128 + (int)below(128) : lines[number]);
    list[SHEETS_AT_OPEN] = (uint8_t)(open[number] == -1 ? (int)below(2) : open[number]);
    list[SHEETS_AT_KEPT] = (uint8_t)(kept[number] == -1 ? (int)below(16) : kept[number]);
    return number == 14 ? SHEETS_BYTES - 1 : number == 15 ? SHEETS_BYTES + 1 : SHEETS_BYTES;
}

/* ---- files */

static size_t draw_file(unsigned records)
{
    size_t n = 0;
    for (unsigned k = 0; k < records; k++)
        n += draw_any_record(file + n, k);
    return n;
}

/* the file of a number; the next 128 cases have it too */
static size_t shared_file(uint32_t number, unsigned records)
{
    uint64_t own = seed;
    size_t n;
    seed = 2 * (uint64_t)number + 9511;
    for (int k = 0; k < 8; k++)
        drawn();
    n = draw_file(records);
    seed = own;
    return n;
}

static void on_list(uint32_t number, size_t n, size_t room)
{
    uint8_t s[21];
    size_t lines = make_list(number);
    draw_state(s);
    compare_sheets(below(2), below(2), s, below(3) ? 21 : 19, lines, n, room, 9);
}

static void whole(const struct group *g, uint32_t i)
{
    (void)g;
    on_list(i % 8, draw_file(1 + i % 32), AMPLE);
}

static void cut(const struct group *g, uint32_t i)
{
    size_t n = shared_file(i / 128, 24);
    (void)g;
    on_list(i / 128 % 2, i % 128 < n ? i % 128 : n, AMPLE);
}

static void damaged(const struct group *g, uint32_t i)
{
    size_t n = draw_file(1 + i % 16);
    (void)g;
    damage(file, n);
    on_list(i % 8, n, AMPLE);
}

static void small_rooms(const struct group *g, uint32_t i)
{
    (void)g;
    on_list(i / 128 % 8, shared_file(i / 128, 32), i % 128);
}

/* inputs of 12,264 to 12,303 bytes */
static void long_files(const struct group *g, uint32_t i)
{
    (void)g;
    draw_file(2400);
    on_list(i % 3, 12264 + i % 40, 65536);
}

static void full_lists(const struct group *g, uint32_t i)
{
    (void)g;
    on_list(2 + i % 4, draw_file(24), AMPLE);
}

/* every list and state, a long input or a short one, reports, modes and rules, several at once */
static void faults(const struct group *g, uint32_t i)
{
    static const size_t reports[4] = { 8, 10, 9, 9 };
    uint8_t s[24] = { 0 };
    size_t lines = make_list(i % 16), n = draw_file(i / 128 % 2 ? 2600 : 4);
    (void)g;
    draw_state(s);
    if (i / 16 % 8 >= 4)
        s[16 + below(5)] = (uint8_t)drawn();
    compare_sheets(choice(i / 1024), choice(i / 4096), s, i / 16 % 8 == 3 ? below(24) : below(2) ? 19 : 21, lines, n > 12289 ? 12289 : n, 2048,
                   reports[i / 256 % 4]);
}

/* a record of twelve lengths, twelve kinds, four first bytes, in a file one byte short, whole or one over, on eight lists, with 4 or 5
 * bytes of replies */
static void edge_records(const struct group *g, uint32_t i)
{
    static const uint16_t lengths[12] = { 0, 1, 2, 3, 4, 5, 6, 7, 242, 243, 258, 262 };
    static const uint16_t kinds[12] = { 5, 1, 0, 512, 513, 33024, 33025, 33026, 255, 256, 257, 258 };
    static const uint8_t bytes[4] = { 0, 3, 4, 255 };
    uint32_t length = lengths[i % 12], kind = kinds[i / 12 % 12];
    (void)g;
    memset(file, 0, 300);
    file[0] = (uint8_t)length;
    file[1] = (uint8_t)(length >> 8);
    file[2] = (uint8_t)kind;
    file[3] = (uint8_t)(kind >> 8);
    file[4] = bytes[i / 144 % 4];
    on_list(i / 1728 % 8, length + 1 + i / 576 % 3, 4 + i / 13824);
}

/* ---- figures */

static struct slice out, second_out;

static void compare_figures(size_t lines, size_t room)
{
    lend(&sheets, drawn() & 7, lines, list);
    lend(&out, drawn() & 7, room, NULL);
    lend(&second_out, 0, room, NULL);
    uint32_t a = sheets_figures(sheets.at, lines, out.at, room), b = second_sheets_figures(list, lines, second_out.at, room);
    int guards = guarded(&sheets) && holds(&sheets, list) && guarded(&out);
    if (!counted(a == b && same(&out, &second_out) && guards))
        return;
    show_bytes("sheets", list, lines);
    show_number("answer of the library", a);
    show_number("answer of the second ", b);
    show_both("figures", out.at, second_out.at, room);
    show_number("guards of the library stand", (uint64_t)guards);
}

/* lines of few serials, in one of four lists all different; the word of slot 0 of each is drawn by a way: any; each second one the opposite of
 * the one before; any at the ends of the format; all the same there */
static void put_lines(uint32_t way)
{
    static const uint32_t ends[8] = { 0x3FFFFFFF, 0xBFFFFFFF, 0x40800000, 0xC0800000, 0x00000000, 0x3F800000, 0x80000000, 0x00FFFFFF };
    uint32_t serials = below(4) ? 24 : 0, before = 0, end = ends[below(8)];
    for (uint32_t line = 0; line < 64; line++) {
        uint8_t *at = list + SHEETS_AT_LINES + SHEETS_LINE_BYTES * line;
        uint32_t word = way == 0 ? any_word() : way == 1 ? line % 2 ? before ^ 0x80000000 : ranked(0, drawn()) : way == 2 ? ends[below(8)] : end;
        put_word(at, serials ? below(serials) : drawn());
        put_word(at + 4, word);
        before = word;
    }
}

static void figures(const struct group *g, uint32_t i)
{
    size_t lines = make_list(i % 8);
    put_lines(g->code == 2 ? 2 + i / 8 % 2 : g->code);
    compare_figures(lines, SHEETS_FIGURES_BYTES);
}

static void figures_refused(const struct group *g, uint32_t i)
{
    static const size_t rooms[4] = { 0, 52, 53, 54 };
    size_t lines = make_list(i % 16);
    (void)g;
    put_lines(0);
    compare_figures(lines, rooms[i / 16 % 4]);
}

const struct group sheet_groups[] = {
    { "sheets", "whole-files", 16384, 1, whole, 0 },
    { "sheets", "cut-files", 8192, 1, cut, 0 },
    { "sheets", "damaged-files", 16384, 1, damaged, 0 },
    { "sheets", "small-rooms", 8192, 1, small_rooms, 0 },
    { "sheets", "long-files", 200, 1, long_files, 0 },
    { "sheets", "full-lists", 8192, 1, full_lists, 0 },
    { "sheets", "faults", 16384, 1, faults, 0 },
    { "sheets", "edge-records", 12 * 12 * 4 * 3 * 8 * 2, 0, edge_records, 0 },
    { "figures", "drawn", 16384, 1, figures, 0 },
    { "figures", "cancelling", 8192, 1, figures, 1 },
    { "figures", "ends", 8192, 1, figures, 2 },
    { "figures", "refused", 2048, 1, figures_refused, 0 },
    { NULL, NULL, 0, 0, NULL, 0 },
};
