/* Formulas by an operator stack. A sign waits until one comes that binds no more than it does. The operands' words stand on a stack
 * of their own: its greatest height is what the formula needs, and what is left on it is the formula's value. */
#include <string.h>

#include "second.h"

enum { MOST_TEXT = 256, MOST_DEPTH = 16, MOST_FILE = 8 * MOST_TEXT };

struct yard {
    char waiting[MOST_TEXT]; /* signs: ( that opened, + - * /, and ~ for a minus before a factor */
    uint32_t operands[MOST_TEXT];
    uint8_t file[MOST_FILE];
    size_t signs, deep, height, highest, size;
    uint32_t rule;
    int after_operand, improper;
};

static int binds(char sign) { return sign == '~' ? 3 : sign == '*' || sign == '/' ? 2 : sign == '+' || sign == '-' ? 1 : 0; }

static void write_record(struct yard *y, const uint8_t *record, size_t n)
{
    memcpy(y->file + y->size, record, n);
    y->size += n;
}

static void operand(struct yard *y, uint32_t word)
{
    const uint8_t record[8] = { 6, 0, 1, 0, (uint8_t)word, (uint8_t)(word >> 8), (uint8_t)(word >> 16), (uint8_t)(word >> 24) };
    write_record(y, record, 8);
    y->operands[y->height++] = word;
    y->highest = y->height > y->highest ? y->height : y->highest;
    y->improper |= !is_proper(word);
    y->after_operand = 1;
}

/* the last sign that waits becomes a command; a minus before a factor is worked on one operand, the others on two */
static void work(struct yard *y)
{
    static const struct {
        char sign;
        uint8_t code;
        operation *work;
    } signs[] = { { '+', 0x10, float_add }, { '-', 0x11, float_subtract }, { '*', 0x12, float_multiply }, { '/', 0x13, float_divide },
                  { '~', 0x15, float_change_sign } };
    uint8_t record[5] = { 3, 0, 3, 0, 0 };
    char sign = y->waiting[--y->signs];
    uint32_t a = y->operands[--y->height], b = 0;
    size_t i = 0;
    while (signs[i].sign != sign)
        i++;
    if (sign == '~')
        y->deep--;
    else
        b = y->operands[--y->height];
    record[4] = signs[i].code;
    write_record(y, record, 5);
    /* words that are not proper are refused afterwards, and have no value */
    y->operands[y->height++] = y->improper ? 0 : signs[i].work(y->rule, 32, b, a).word;
}

/* every sign behind the last bracket that binds as much or more */
static void settle(struct yard *y, int least)
{
    while (y->signs > 0 && binds(y->waiting[y->signs - 1]) >= least)
        work(y);
}

/* each of these says whether the text may go on */
static int opens(struct yard *y, char sign)
{
    y->waiting[y->signs++] = sign;
    return ++y->deep <= MOST_DEPTH;
}

static int closes(struct yard *y)
{
    settle(y, 1);
    if (y->signs == 0)
        return 0;
    y->signs--;
    y->deep--;
    return 1;
}

static int joins(struct yard *y, char sign)
{
    settle(y, binds(sign));
    y->waiting[y->signs++] = sign;
    y->after_operand = 0;
    return 1;
}

/* a constant's eight digits */
static int constant(struct yard *y, const uint8_t *digits, size_t left)
{
    static const char hex[] = "0123456789ABCDEF";
    uint32_t word = 0;
    for (size_t i = 0; i < 8; i++) {
        uint32_t value = 0;
        while (value < 16 && i < left && digits[i] != (uint8_t)hex[value])
            value++;
        if (i >= left || value == 16)
            return 0;
        word = 16 * word + value;
    }
    operand(y, word);
    return 1;
}

static void letter(struct yard *y, const uint8_t *letters, uint8_t name)
{
    const uint8_t *w = letters + 4 * (name - 'a');
    operand(y, (uint32_t)w[0] << 24 | (uint32_t)w[1] << 16 | (uint32_t)w[2] << 8 | w[3]);
}

/* reads a text of at most 256 bytes; whether it is a formula */
static int read_text(struct yard *y, uint32_t rule, const uint8_t *text, size_t n, const uint8_t *letters)
{
    memset(y, 0, sizeof *y);
    y->rule = rule;
    for (size_t i = 0; i < n; i++) {
        uint8_t c = text[i];
        int good = 1;
        if (y->after_operand) {
            good = c == ')' ? closes(y) : binds((char)c) == 1 || binds((char)c) == 2 ? joins(y, (char)c) : 0;
        } else if (c >= 'a' && c <= 'h') {
            letter(y, letters, c);
        } else if (c == '#') {
            good = constant(y, text + i + 1, n - i - 1);
            i += 8;
        } else {
            good = c == '(' || c == '-' ? opens(y, c == '-' ? '~' : '(') : 0;
        }
        if (!good)
            return 0;
    }
    if (!y->after_operand)
        return 0;
    settle(y, 1);
    return y->signs == 0;
}

uint32_t second_formula(const uint8_t *text, size_t text_length, const uint8_t *letters, size_t letters_length, uint8_t *file,
                        size_t file_length)
{
    struct yard y;
    if (letters_length != 32 || text_length < 1 || text_length > MOST_TEXT || !read_text(&y, 0, text, text_length, letters))
        return 30 * 65536;
    if (y.improper)
        return 31 * 65536;
    if (y.highest > 4)
        return 32 * 65536;
    if (y.size > file_length)
        return 33 * 65536;
    memcpy(file, y.file, y.size);
    return (uint32_t)y.size;
}

uint32_t second_value(uint32_t rule, const uint8_t *text, size_t text_length, const uint8_t *letters)
{
    struct yard y;
    return read_text(&y, rule, text, text_length, letters) ? y.operands[0] : 0;
}
