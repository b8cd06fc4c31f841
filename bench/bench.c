/* Runs a record file from standard input, or one event, through the library or the plain C beside it, so many times.
 * bench library|plain file TURNS RECORDS   the file's first RECORDS records (0: all), each run from reset
 * bench library|plain sheets TURNS RECORDS   the same of a file with module sheets, each run on an empty list
 * bench library|plain event TURNS KIND BYTE   one event on a state that holds two float words
 * bench library|plain words TURNS ENTRIES   a buffer of so many words to f64s
 * bench library|plain doubles TURNS ENTRIES RULE   a buffer of so many f64s, each to be rounded, to words
 * Prints the last answer, the number beside it, and a number made of every byte that was left. */
#include "../include/pundaliket.h"
#include "../include/sheets.h"
#include "plain.h"

int printf(const char *format, ...);
long read(int file, void *to, size_t n);
void *memcpy(void *to, const void *from, size_t n);
void *memset(void *to, int byte, size_t n);

enum { ROOM = 65536, MOST = 12288 };

static uint8_t input[MOST], replies[ROOM], list[SHEETS_BYTES];
static const uint8_t filled[PUNDALIKET_STATE_BYTES] = { 0x01, 0xA0, 0, 0, 0x02, 0xC0, 0, 0, 0x03, 0x80 };

static uint32_t number(const char *p)
{
    uint32_t n = 0;
    for (; *p; p++)
        n = n * 10 + (uint32_t)(*p - '0');
    return n;
}

/* the bytes of the first so many records, or of all */
static size_t front(size_t length, uint32_t records)
{
    size_t at = 0;
    while (records > 0 && at + 2 <= length) {
        at += 2 + (size_t)input[at] + 256 * (size_t)input[at + 1];
        records--;
    }
    return at ? at : length;
}

/* entries of drawn mantissas: proper words, or f64s of which every one has more than 24 bits */
static size_t entries(uint32_t n, size_t size)
{
    uint32_t drawn = 1;
    for (size_t i = 0; i < n; i++)
        for (size_t k = 0; k < size; k++) {
            drawn = drawn * 1664525 + 1013904223;
            input[i * size + k] = (uint8_t)(drawn >> 24);
            if (size == 4 && k == 2)
                input[i * size + k] |= 0x80;
            if (size == 8 && k == 0)
                input[i * size + k] |= 1;
            if (size == 8 && k == 6)
                input[i * size + k] = 0xF0;
            if (size == 8 && k == 7)
                input[i * size + k] = 0x3F;
        }
    return n * size;
}

/* bytes joined to a number (FNV-1a) */
static uint32_t joined(uint32_t sum, const uint8_t *bytes, size_t n)
{
    for (size_t i = 0; i < n; i++)
        sum = (sum ^ bytes[i]) * 16777619;
    return sum;
}

int main(int count, char **words)
{
    uint8_t state[PUNDALIKET_STATE_BYTES] = { 0 }, report[PUNDALIKET_REPORT_BYTES] = { 0 };
    uint32_t result = 0, sum = 2166136261;
    uint64_t rounded = 0;
    if (count < 5)
        return 2;
    int library = words[1][0] == 'l';
    uint32_t turns = number(words[3]);
    if (words[2][0] == 'f') {
        long n = read(0, input, sizeof input);
        size_t length = front(n > 0 ? (size_t)n : 0, number(words[4]));
        for (; turns > 0; turns--) {
            for (size_t i = 0; i < sizeof state; i++)
                state[i] = 0;
            result = library
                ? pundaliket_run(0, 0, state, sizeof state, input, length, replies, ROOM, report, sizeof report)
                : plain_run(0, 0, state, sizeof state, input, length, replies, ROOM, report, sizeof report);
        }
    } else if (words[2][0] == 's') {
        long n = read(0, input, sizeof input);
        size_t length = front(n > 0 ? (size_t)n : 0, number(words[4]));
        for (; turns > 0; turns--) {
            memset(state, 0, sizeof state);
            memset(list, 0, sizeof list);
            result = library
                ? sheets_run(0, 0, state, sizeof state, list, sizeof list, input, length, replies, ROOM, report, sizeof report)
                : plain_sheets_run(0, 0, state, sizeof state, list, sizeof list, input, length, replies, ROOM, report, sizeof report);
        }
    } else if (words[2][0] == 'w') {
        size_t length = entries(number(words[4]), 4);
        for (; turns > 0; turns--)
            result = library ? pundaliket_words_to_f64(input, length, replies, ROOM, &rounded) : plain_words_to_f64(input, length, replies, ROOM, &rounded);
    } else if (words[2][0] == 'd') {
        size_t length = entries(number(words[4]), 8);
        uint32_t rule = count > 5 ? number(words[5]) : 0;
        for (; turns > 0; turns--)
            result = library ? pundaliket_f64_to_words(rule, input, length, replies, ROOM, &rounded)
                             : plain_f64_to_words(rule, input, length, replies, ROOM, &rounded);
    } else {
        uint32_t kind = number(words[4]);
        uint8_t byte = count > 5 ? (uint8_t)number(words[5]) : 0;
        for (; turns > 0; turns--) {
            memcpy(state, filled, sizeof state);
            result = library ? pundaliket_event(0, 0, state, sizeof state, kind, byte)
                             : plain_event(0, 0, state, sizeof state, kind, byte);
        }
    }
    sum = joined(sum, state, sizeof state);
    sum = joined(sum, list, sizeof list);
    sum = joined(sum, replies, sizeof replies);
    sum = joined(sum, report, sizeof report);
    printf("%u %u %08X\n", result, (unsigned)rounded, (unsigned)sum);
    return 0;
}
