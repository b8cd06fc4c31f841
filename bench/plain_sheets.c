/* Request 11 of document 02 in plain C. The core runs each stretch of its own records at once, on a state of 21 bytes;
 * between two stretches stands one record of kind 256, 257 or 258. */
#include <string.h>

#include "plain.h"

enum { STATE = 19, LONG_STATE = 21, PENDING = 16, REPORT = 9, MOST_INPUT = 12288 };
enum { SHEETS = 1303, LINE = 20, LINES = 64, OPEN = 1281, SERIAL = 1282, KEPT = 1286, WORDS = 1287, OPEN_BYTES = 22 };

static uint32_t pair(const uint8_t *p) { return p[0] | (uint32_t)p[1] << 8; }

static size_t four(const uint8_t *p) { return pair(p) | (size_t)pair(p + 2) << 16; }

/* the bytes up to the next whole record of the three kinds, or up to the file's end */
static size_t stretch(const uint8_t *in, size_t left)
{
    size_t at = 0;
    while (left - at >= 4) {
        uint32_t length = pair(in + at), kind = pair(in + at + 2);
        if (length < 2 || length > 242 || left - at - 2 < length)
            return left;
        if (kind >= 256 && kind <= 258)
            return at;
        at += 2 + length;
    }
    return left;
}

/* whether one of the records in the first n bytes is a reset */
static int has_reset(const uint8_t *in, size_t n)
{
    for (size_t at = 0; at < n; at += 2 + pair(in + at))
        if (pair(in + at + 2) == 5)
            return 1;
    return 0;
}

/* the refusal in the reply, and what is done where it is 0 */
static uint8_t enter(uint8_t *sheets, const uint8_t *state, uint32_t kind, const uint8_t *payload)
{
    uint8_t *open = sheets + OPEN;
    if (kind == 256) {
        if (open[0])
            return 20;
        memset(open, 0, OPEN_BYTES);
        open[0] = 1;
        memcpy(sheets + SERIAL, payload, 4);
        return 0;
    }
    if (open[0] == 0)
        return 21;
    if (kind == 257) {
        if (payload[0] > 3)
            return 22;
        if (state[PENDING])
            return 23;
        for (int i = 0; i < 4; i++)
            sheets[WORDS + 4 * payload[0] + i] = state[3 - i];
        sheets[KEPT] |= (uint8_t)(1 << payload[0]);
        return 0;
    }
    if (sheets[KEPT] != 15)
        return 24;
    if (sheets[0] == LINES)
        return 25;
    memcpy(sheets + 1 + LINE * sheets[0], sheets + SERIAL, 4);
    memcpy(sheets + 1 + LINE * sheets[0] + 4, sheets + WORDS, 16);
    sheets[0]++;
    memset(open, 0, OPEN_BYTES);
    return 0;
}

static int bad_sheets(const uint8_t *sheets, size_t n)
{
    return n != SHEETS || sheets[0] > LINES || sheets[OPEN] > 1 || sheets[KEPT] > 15;
}

uint32_t plain_sheets_run(uint32_t mode, uint32_t rule, uint8_t *state, size_t state_length, uint8_t *sheets, size_t sheets_length,
                          const uint8_t *input, size_t input_length, uint8_t *replies, size_t replies_length, uint8_t *report, size_t report_length)
{
    static const uint32_t payloads[3] = { 4, 1, 0 };
    uint8_t own[LONG_STATE] = { 0 };
    size_t taken = 0, written = 0;
    /* an empty file tells 14, 16, 17 and the state's 13 */
    uint32_t refusal = plain_run(mode, rule, state, state_length, input, 0, replies, 0, report, report_length);
    if (refusal)
        return refusal;
    if (bad_sheets(sheets, sheets_length))
        return report[0] = 13;
    if (input_length > MOST_INPUT)
        return report[0] = 9;
    memcpy(own, state, state_length);
    while (taken < input_length && refusal == 0) {
        const uint8_t *in = input + taken;
        size_t n = stretch(in, input_length - taken);
        if (n > 0) {
            refusal = plain_run(mode, rule, own, LONG_STATE, in, n, replies + written, replies_length - written, report, REPORT);
            if (has_reset(in, four(report + 1)))
                memset(sheets + OPEN, 0, OPEN_BYTES);
            taken += four(report + 1);
            written += four(report + 5);
        } else {
            uint32_t kind = pair(in + 2);
            if (pair(in) != 2 + payloads[kind - 256]) {
                refusal = 7;
            } else if (replies_length - written < 5) {
                refusal = 8;
            } else {
                uint8_t *out = replies + written;
                out[0] = 3;
                out[1] = 0;
                out[2] = (uint8_t)kind;
                out[3] = 0x81;
                out[4] = enter(sheets, own, kind, in + 4);
                taken += 4 + payloads[kind - 256];
                written += 5;
            }
        }
    }
    memcpy(state, own, state_length);
    report[0] = (uint8_t)refusal;
    for (int i = 0; i < 4; i++) {
        report[1 + i] = (uint8_t)(taken >> 8 * i);
        report[5 + i] = (uint8_t)(written >> 8 * i);
    }
    return refusal;
}
