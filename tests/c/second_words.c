/* Words. Fixed point goes by columns of binary digits, and by sign and magnitude. A float word is the exact value's first 24
 * digits: a sum, difference or product is laid out whole, digit by digit, before anything is cut; a quotient is divided out
 * and a root tried digit by digit, and what is left over is compared with half a unit. */
#include <string.h>

#include "second.h"

/* ---- fixed point */

static unsigned digit_of(uint64_t number, int place) { return (unsigned)(number >> place & 1); }

static uint64_t power(int exponent) { return (uint64_t)1 << exponent; }

static uint32_t least(int bits) { return (uint32_t)power(bits - 1); }

static struct result result(uint64_t word, uint32_t error, uint32_t carry)
{
    struct result r = { (uint32_t)word, error, carry };
    return r;
}

/* Column by column. What goes into the column of the sign and what comes out of it differ where the sum does not fit. */
struct result add(uint32_t rule, int bits, uint32_t b, uint32_t a)
{
    uint32_t sum = 0, into = 0, carry = 0;
    (void)rule;
    for (int i = 0; i < bits; i++) {
        uint32_t column = digit_of(b, i) + digit_of(a, i) + carry;
        into = carry;
        sum |= column % 2 << i;
        carry = column / 2;
    }
    return result(sum, into != carry ? OVERFLOWS : 0, carry);
}

/* The same with borrows; 000 has overflow for every least A. */
struct result subtract(uint32_t rule, int bits, uint32_t b, uint32_t a)
{
    uint32_t difference = 0, into = 0, borrow = 0;
    (void)rule;
    for (int i = 0; i < bits; i++) {
        uint32_t column = 2 + digit_of(b, i) - digit_of(a, i) - borrow;
        into = borrow;
        difference |= column % 2 << i;
        borrow = column < 2;
    }
    return result(difference, into != borrow || a == least(bits) ? OVERFLOWS : 0, borrow);
}

static int is_negative(int bits, uint32_t w) { return w >= least(bits); }

static uint64_t magnitude(int bits, uint32_t w) { return is_negative(bits, w) ? power(bits) - w : w; }

/* a number of this sign and magnitude in two's complement, the low bits of it */
static uint64_t with_sign(int bits, int negative, uint64_t magnitude)
{
    uint64_t low = magnitude % power(bits);
    return negative && low != 0 ? power(bits) - low : low;
}

/* one is doubled while the other is halved */
static uint64_t product(uint64_t x, uint64_t y)
{
    uint64_t sum = 0;
    for (; y > 0; x *= 2, y /= 2)
        sum += y % 2 ? x : 0;
    return sum;
}

struct result multiply(uint32_t rule, int bits, uint32_t b, uint32_t a)
{
    int negative = is_negative(bits, b) != is_negative(bits, a);
    uint64_t p = product(magnitude(bits, b), magnitude(bits, a)), most = negative ? least(bits) : least(bits) - 1;
    (void)rule;
    if (a == least(bits) || b == least(bits))
        return result(least(bits), OVERFLOWS, 0);
    return result(with_sign(bits, negative, p), p > most ? OVERFLOWS : 0, 0);
}

/* The product of both signs together, over 2^n: of a negative one the magnitude is taken up to the next whole number. */
struct result multiply_upper(uint32_t rule, int bits, uint32_t b, uint32_t a)
{
    int negative = is_negative(bits, b) != is_negative(bits, a);
    uint64_t p = product(magnitude(bits, b), magnitude(bits, a));
    (void)rule;
    if (a == least(bits) || b == least(bits))
        return result(least(bits), OVERFLOWS, 0);
    return result(with_sign(bits, negative, p / power(bits) + (negative && p % power(bits) != 0)), 0, 0);
}

/* Long division of the magnitudes, a digit brought down at a time. */
struct result divide(uint32_t rule, int bits, uint32_t b, uint32_t a)
{
    uint64_t x = magnitude(bits, b), y = magnitude(bits, a), rest = 0, quotient = 0;
    (void)rule;
    if (a == 0)
        return result(b, BY_ZERO, 0);
    if (a == least(bits) || b == least(bits))
        return result(least(bits), OVERFLOWS, 0);
    for (int i = bits - 1; i >= 0; i--) {
        rest = 2 * rest + digit_of(x, i);
        quotient = 2 * quotient + (rest >= y);
        rest -= rest >= y ? y : 0;
    }
    return result(with_sign(bits, is_negative(bits, b) != is_negative(bits, a), quotient), 0, 0);
}

struct result change_sign(uint32_t rule, int bits, uint32_t b, uint32_t a)
{
    (void)rule, (void)b;
    return result(with_sign(bits, !is_negative(bits, a), magnitude(bits, a)), a == least(bits) ? OVERFLOWS : 0, 0);
}

/* ---- exact values */

int is_proper(uint32_t word) { return word == 0 || digit_of(word, 23); }

static int sign_of(uint32_t word) { return word >> 31 == 1; }

static uint64_t mantissa(uint32_t word) { return word % power(24); }

/* -64 to 63 */
static int exponent(uint32_t word)
{
    int e = (int)(word >> 24 & 0x7F);
    return e < 64 ? e : e - 128;
}

void exact_of_number(struct exact *x, int negative, uint64_t number, int place, int unit)
{
    memset(x, 0, sizeof *x);
    x->negative = negative;
    x->unit = unit;
    for (; number > 0; number /= 2, place++)
        x->digit[place] = number % 2;
}

/* times 2^88 every word's value is a whole number */
void exact_of_word(struct exact *x, uint32_t word) { exact_of_number(x, sign_of(word), mantissa(word), exponent(word) + 64, -88); }

int length_of(const struct exact *x)
{
    int n = PLACES;
    while (n > 0 && x->digit[n - 1] == 0)
        n--;
    return n;
}

/* A magnitude by the word below it: 24 digits m, their exponent, and where it lies on the way from m to m + 1. */
enum where { AT_IT, BELOW_THE_MIDDLE, IN_THE_MIDDLE, ABOVE_THE_MIDDLE };
struct kept {
    uint32_t m;
    int e;
    enum where where;
};

static struct kept first_digits(const struct exact *x)
{
    int n = length_of(x), half = n > 24 && x->digit[n - 25], rest = 0;
    struct kept k = { 0, n + x->unit, AT_IT };
    for (int i = n - 1; i >= n - 24; i--)
        k.m = 2 * k.m + (i >= 0 ? x->digit[i] : 0);
    for (int i = n - 26; i >= 0; i--)
        rest |= x->digit[i];
    k.where = half ? rest ? ABOVE_THE_MIDDLE : IN_THE_MIDDLE : rest ? BELOW_THE_MIDDLE : AT_IT;
    return k;
}

/* the word by a rule: m, or to the nearest m + 1 above the middle, and in it the even one; then the step of 128 */
static struct result word_of(uint32_t rule, int negative, struct kept k)
{
    uint32_t error = 0;
    if (k.m == 0)
        return result(0, 0, 0);
    if (rule == 1 && (k.where == ABOVE_THE_MIDDLE || (k.where == IN_THE_MIDDLE && k.m % 2 == 1)))
        k.m++;
    if (k.m == power(24)) {
        k.m /= 2;
        k.e++;
    }
    if (k.e > 63) {
        error = OVERFLOWS;
        k.e -= 128;
    } else if (k.e < -64) {
        error = UNDERFLOWS;
        k.e += 128;
    }
    return result((uint32_t)negative << 31 | (uint32_t)(k.e & 0x7F) << 24 | k.m, error, 0);
}

struct result word_of_exact(uint32_t rule, const struct exact *x, int *lost)
{
    struct kept k = first_digits(x);
    if (lost)
        *lost = k.where != AT_IT;
    return word_of(rule, x->negative, k);
}

/* ---- float words */

/* x + y of the magnitudes */
static void add_columns(struct exact *sum, const struct exact *x, const struct exact *y)
{
    int carry = 0;
    for (int i = 0; i < PLACES; i++) {
        int column = x->digit[i] + y->digit[i] + carry;
        sum->digit[i] = (uint8_t)(column & 1);
        carry = column >> 1;
    }
}

/* x - y of the magnitudes; whether y was the greater, and nothing came of it */
static int subtract_columns(struct exact *difference, const struct exact *x, const struct exact *y)
{
    int borrow = 0;
    for (int i = 0; i < PLACES; i++) {
        int column = 2 + x->digit[i] - y->digit[i] - borrow;
        difference->digit[i] = (uint8_t)(column & 1);
        borrow = column < 2;
    }
    return borrow;
}

/* like signs are added, of unlike ones the greater magnitude has the sign */
static struct result sum_of(uint32_t rule, const struct exact *b, const struct exact *a)
{
    struct exact sum;
    sum.unit = b->unit;
    sum.negative = b->negative;
    if (b->negative == a->negative) {
        add_columns(&sum, b, a);
    } else if (subtract_columns(&sum, b, a)) {
        sum.negative = a->negative;
        subtract_columns(&sum, a, b);
    }
    return word_of_exact(rule, &sum, NULL);
}

struct result float_add(uint32_t rule, int bits, uint32_t b, uint32_t a)
{
    struct exact x, y;
    (void)bits;
    exact_of_word(&x, b);
    exact_of_word(&y, a);
    return sum_of(rule, &x, &y);
}

struct result float_subtract(uint32_t rule, int bits, uint32_t b, uint32_t a)
{
    struct exact x, y;
    (void)bits;
    exact_of_word(&x, b);
    exact_of_word(&y, a);
    y.negative = !y.negative;
    return sum_of(rule, &x, &y);
}

/* times 2^176 */
struct result float_multiply(uint32_t rule, int bits, uint32_t b, uint32_t a)
{
    struct exact p;
    (void)bits;
    exact_of_number(&p, sign_of(b) != sign_of(a), product(mantissa(b), mantissa(a)), exponent(b) + exponent(a) + 128, -176);
    return word_of_exact(rule, &p, NULL);
}

/* 24 digits by long division, from the first that is 1; then twice what is left against the divisor */
struct result float_divide(uint32_t rule, int bits, uint32_t b, uint32_t a)
{
    uint64_t rest = mantissa(b), d = mantissa(a);
    struct kept k = { 0, exponent(b) - exponent(a) + 1, AT_IT };
    (void)bits;
    if (a == 0)
        return result(b, BY_ZERO, 0);
    if (b == 0)
        return result(0, 0, 0);
    if (rest < d) {
        rest *= 2;
        k.e--;
    }
    for (int i = 0; i < 24; i++) {
        k.m = 2 * k.m + (rest >= d);
        rest = 2 * (rest >= d ? rest - d : rest);
    }
    k.where = rest == 0 ? AT_IT : rest < d ? BELOW_THE_MIDDLE : rest == d ? IN_THE_MIDDLE : ABOVE_THE_MIDDLE;
    return word_of(rule, sign_of(b) != sign_of(a), k);
}

/* The value is x 2^(2k) with x of 47 or 48 digits: the root's 24 digits are tried from the highest on; x, four times, is then
 * held to the square of the odd number in the middle of 2m and 2m + 2. */
struct result float_root(uint32_t rule, int bits, uint32_t b, uint32_t a)
{
    int e = exponent(a), even = e % 2 == 0;
    uint64_t x = mantissa(a) * power(even ? 24 : 23), m = 0, middle;
    struct kept k = { 0, even ? e / 2 : (e + 1) / 2, AT_IT };
    (void)bits, (void)b;
    if (sign_of(a))
        return result(a, ROOT_OF_LESS, 0);
    if (a == 0)
        return result(0, 0, 0);
    for (int i = 23; i >= 0; i--)
        if ((m + power(i)) * (m + power(i)) <= x)
            m += power(i);
    middle = (2 * m + 1) * (2 * m + 1);
    k.m = (uint32_t)m;
    k.where = m * m == x ? AT_IT : 4 * x < middle ? BELOW_THE_MIDDLE : ABOVE_THE_MIDDLE;
    return word_of(rule, 0, k);
}

struct result float_change_sign(uint32_t rule, int bits, uint32_t b, uint32_t a)
{
    (void)rule, (void)bits, (void)b;
    return result(digit_of(a, 23) ? a ^ 0x80000000 : a, 0, 0);
}

struct result float_of_fixed(uint32_t rule, int bits, uint32_t b, uint32_t a)
{
    struct exact x;
    (void)b;
    exact_of_number(&x, is_negative(bits, a), magnitude(bits, a), 0, 0);
    return word_of_exact(rule, &x, NULL);
}

/* the digits from 2^0 on; where one stands at the place of a sign of `bits`, or above, A stays */
struct result fixed_of_float(uint32_t rule, int bits, uint32_t b, uint32_t a)
{
    struct exact x;
    uint64_t whole = 0;
    (void)rule, (void)b;
    exact_of_word(&x, a);
    for (int i = PLACES - 1; i >= -x.unit; i--) {
        whole = 2 * whole + x.digit[i];
        if (whole > 0 && i + x.unit >= bits - 1)
            return result(a, OVERFLOWS, 0);
    }
    return result(with_sign(bits, x.negative, whole), 0, 0);
}

/* 64 digits of pi, of which the first two are whole */
struct result push_pi(uint32_t rule, int bits, uint32_t b, uint32_t a)
{
    struct exact pi;
    (void)bits, (void)b, (void)a;
    exact_of_number(&pi, 0, 0xC90FDAA22168C234, 0, -62);
    return word_of_exact(rule, &pi, NULL);
}
