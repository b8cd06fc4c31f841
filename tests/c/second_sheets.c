/* Module sheets and the shift's figures. Each record goes to the chip first, as a file of its own on a state of 21 bytes: what the chip
 * turns away with 5 is the sheets' own where its kind is 256 to 258. The sum of the figures is made column by column, a column being
 * the hex digits of one weight of all the words, so that nothing is added up sheet by sheet. */
#include <string.h>

#include "second.h"

enum { SHEETS = 1303, LINE = 20, LINES = 64, OPEN = 1281, SERIAL = 1282, KEPT = 1286, WORDS = 1287, OPEN_BYTES = 22 };

static int is_list(const uint8_t *sheets, size_t length)
{
    return length == SHEETS && sheets[0] <= LINES && sheets[OPEN] <= 1 && sheets[KEPT] <= 15;
}

/* ---- the three kinds: the refusal in the reply, or what is done */

static uint8_t open_sheet(uint8_t *sheets, const uint8_t *serial)
{
    if (sheets[OPEN])
        return 20;
    memset(sheets + OPEN, 0, OPEN_BYTES);
    sheets[OPEN] = 1;
    memcpy(sheets + SERIAL, serial, 4);
    return 0;
}

static uint8_t keep_word(uint8_t *sheets, const uint8_t *chip, uint8_t slot)
{
    if (!sheets[OPEN])
        return 21;
    if (slot > 3)
        return 22;
    if (chip[16])
        return 23;
    for (int i = 0; i < 4; i++)
        sheets[WORDS + 4 * slot + i] = chip[3 - i];
    sheets[KEPT] |= (uint8_t)(1 << slot);
    return 0;
}

static uint8_t close_sheet(uint8_t *sheets)
{
    uint8_t *line = sheets + 1 + LINE * sheets[0];
    if (!sheets[OPEN])
        return 21;
    if (sheets[KEPT] != 15)
        return 24;
    if (sheets[0] == LINES)
        return 25;
    memcpy(line, sheets + SERIAL, 4);
    memcpy(line + 4, sheets + WORDS, 16);
    memset(sheets + OPEN, 0, OPEN_BYTES);
    sheets[0]++;
    return 0;
}

/* a whole record of one of them: why it stops the run, or 0 and its reply */
static uint32_t own_record(uint8_t *sheets, const uint8_t *chip, uint32_t kind, const uint8_t *record, size_t size, size_t room, uint8_t *reply)
{
    static const size_t sizes[3] = { 8, 5, 4 };
    const uint8_t front[4] = { 3, 0, (uint8_t)kind, (uint8_t)(kind >> 8 | 0x80) };
    if (size != sizes[kind - 256])
        return 7;
    if (room < 5)
        return 8;
    memcpy(reply, front, 4);
    reply[4] = kind == 256 ? open_sheet(sheets, record + 4) : kind == 257 ? keep_word(sheets, chip, record[4]) : close_sheet(sheets);
    return 0;
}

static uint32_t four(const uint8_t *p) { return p[0] | (uint32_t)p[1] << 8 | (uint32_t)p[2] << 16 | (uint32_t)p[3] << 24; }

static void put_four(uint8_t *p, size_t n)
{
    for (int i = 0; i < 4; i++)
        p[i] = (uint8_t)(n >> 8 * i);
}

uint32_t second_sheets_run(uint32_t mode, uint32_t rule, uint8_t *state, size_t state_length, uint8_t *sheets, size_t sheets_length,
                           const uint8_t *input, size_t input_length, uint8_t *replies, size_t replies_length, uint8_t *report,
                           size_t report_length)
{
    uint8_t chip[21] = { 0 }, own[9];
    size_t taken = 0, written = 0;
    /* an empty file tells 14, 16, 17 and the state's 13 */
    uint32_t refusal = second_run(mode, rule, state, state_length, input, 0, replies, 0, report, report_length);
    if (refusal)
        return refusal;
    if (!is_list(sheets, sheets_length))
        refusal = 13;
    else if (input_length > 12288)
        refusal = 9;
    memcpy(chip, state, state_length);
    while (taken < input_length && refusal == 0) {
        const uint8_t *record = input + taken;
        size_t left = input_length - taken, room = replies_length - written, size = left < 2 ? left : 2u + record[0] + 256u * record[1];
        uint32_t kind = left < 4 ? 0 : record[2] + 256u * record[3];
        size = size < left ? size : left;
        refusal = second_run(mode, rule, chip, sizeof chip, record, size, replies + written, room, own, sizeof own);
        if (refusal == 0 && kind == 5)
            memset(sheets + OPEN, 0, OPEN_BYTES);
        if (refusal == 5 && kind >= 256 && kind <= 258) {
            refusal = own_record(sheets, chip, kind, record, size, room, replies + written);
            put_four(own + 5, 5);
        }
        if (refusal == 0) {
            taken += size;
            written += four(own + 5);
        }
    }
    memcpy(state, chip, state_length);
    report[0] = (uint8_t)refusal;
    put_four(report + 1, taken);
    put_four(report + 5, written);
    return refusal;
}

/* ---- figures */

enum { FIGURES = 53, COLUMNS = 48 };

static uint32_t serial_of(const uint8_t *sheets, size_t line) { return four(sheets + 1 + LINE * line); }

static uint32_t word_of_line(const uint8_t *sheets, size_t line) { return four(sheets + 1 + LINE * line + 4); }

/* how many of the lines from one place up to another have this serial */
static size_t lines_like(const uint8_t *sheets, uint32_t serial, size_t from, size_t to)
{
    size_t n = 0;
    for (size_t i = from; i < to; i++)
        n += serial_of(sheets, i) == serial;
    return n;
}

/* the hex digits of a word's magnitude times 2^88, a column each; those of a word that is not proper are 0 */
static void hex_digits(uint32_t word, uint8_t *columns)
{
    struct exact x;
    exact_of_word(&x, word);
    for (int i = 0; i < COLUMNS; i++) {
        const uint8_t *d = x.digit + 4 * i;
        columns[i] = is_proper(word) ? (uint8_t)(8 * d[3] + 4 * d[2] + 2 * d[1] + d[0]) : 0;
    }
}

/* the sum, or its opposite, in digits from the last to the first; what is carried out of the highest is below zero where the sum is */
static int write_sum(const uint8_t *sheets, int sign, uint8_t *digits)
{
    uint8_t hex[LINES][COLUMNS];
    int carried = 0;
    for (size_t line = 0; line < sheets[0]; line++)
        hex_digits(word_of_line(sheets, line), hex[line]);
    for (int column = 0; column < COLUMNS; column++) {
        for (size_t line = 0; line < sheets[0]; line++)
            carried += word_of_line(sheets, line) >> 31 ? -sign * hex[line][column] : sign * hex[line][column];
        digits[COLUMNS - 1 - column] = (uint8_t)"0123456789ABCDEF"[(carried + 16 * 1024) % 16];
        carried = (carried + 16 * 1024) / 16 - 1024;
    }
    return carried < 0;
}

uint32_t second_sheets_figures(const uint8_t *sheets, size_t sheets_length, uint8_t *out, size_t out_length)
{
    size_t lines;
    if (out_length != FIGURES)
        return 8;
    if (!is_list(sheets, sheets_length))
        return 13;
    lines = sheets[0];
    memset(out, 0, 4);
    out[0] = sheets[0];
    for (size_t i = 0; i < lines; i++) {
        uint32_t serial = serial_of(sheets, i);
        int first = lines_like(sheets, serial, 0, i) == 0;
        out[1] += (uint8_t)first;
        out[2] += (uint8_t)(first && lines_like(sheets, serial, i + 1, lines) > 0);
        out[3] += !is_proper(word_of_line(sheets, i));
    }
    out[4] = '+';
    if (write_sum(sheets, 1, out + 5)) {
        out[4] = '-';
        write_sum(sheets, -1, out + 5);
    }
    return 0;
}
