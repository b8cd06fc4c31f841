/* The text of ./steps. A step's line is not stepped to: after n bits of a multiplier the partial product is the other factor times
 * the multiplier modulo 2^n; with n digits of a quotient yet to be found what is left of the dividend is that modulo the divisor
 * times 2^n. */
#include <stdio.h>

#include "second.h"

static uint64_t power(int exponent) { return (uint64_t)1 << exponent; }

static int bits_in(uint64_t number)
{
    int n = 0;
    for (; number > 0; number /= 2)
        n++;
    return n;
}

static size_t line(char *text, int number, int left, uint64_t partial)
{
    return (size_t)sprintf(text, "%d %d %08X%08X\n", number, left, (unsigned)(partial >> 32), (unsigned)partial);
}

static size_t product_lines(char *text, uint64_t x, uint64_t y)
{
    size_t n = 0;
    for (int step = 1; step <= bits_in(y); step++)
        n += line(text + n, step, bits_in(y / power(step)), x * (y % power(step)));
    return n;
}

/* fewer than all digits where nothing is left before */
static size_t quotient_lines(char *text, uint64_t dividend, uint64_t divisor, int digits)
{
    size_t n = 0;
    uint64_t rest = dividend;
    for (int left = digits - 1; left >= 0 && rest > 0; left--) {
        rest = dividend % (divisor * power(left));
        n += line(text + n, digits - left, left, rest);
    }
    return n;
}

static uint64_t magnitude(int bits, uint32_t w) { return w >> (bits - 1) ? power(bits) - w : w; }

size_t second_steps(uint32_t rule, uint8_t code, uint32_t b, uint32_t a, char *text)
{
    int is_float = code == 0x12 || code == 0x13, bits = code & 0x40 ? 16 : 32, divides = code % 16 == 0xF || code == 0x13;
    operation *work = code == 0x12 ? float_multiply : code == 0x13 ? float_divide : divides ? divide : code % 16 == 6 ? multiply_upper : multiply;
    uint64_t least = power(bits - 1), x = is_float ? b % power(24) : magnitude(bits, b), y = is_float ? a % power(24) : magnitude(bits, a);
    struct result r;
    size_t n = 0;
    if (is_float && (!is_proper(b) || !is_proper(a)))
        return (size_t)sprintf(text, "refused 4\n");
    /* a row that names its operands has no steps */
    if ((!is_float && (b == least || a == least)) || (divides && a == 0))
        n = 0;
    else if (divides)
        n = is_float ? quotient_lines(text, x * power(25), y, 26) : quotient_lines(text, x, y, bits);
    else
        n = product_lines(text, x, y);
    r = work(rule, bits, b, a);
    return n
        + (size_t)sprintf(text + n, "word %0*X error %u status %02X\n", bits / 4, (unsigned)r.word, (unsigned)r.error,
                          (unsigned)((r.word >> (bits - 1)) << 6 | (r.word == 0) << 5 | r.error << 1));
}
