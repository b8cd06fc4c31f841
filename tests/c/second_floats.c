/* Host floats by their exact values. f32 and f64 are one format in two sizes: a sign, a field of the exponent, the digits behind
 * the leading one; a field of 0 has no leading one and the unit of a field of 1. */
#include "second.h"

struct format {
    int fields, fraction, bias;
};

static const struct format f32 = { 8, 23, 127 }, f64 = { 11, 52, 1023 };

static uint64_t little(const uint8_t *bytes, size_t n)
{
    uint64_t number = 0;
    while (n-- > 0)
        number = number << 8 | bytes[n];
    return number;
}

static void put_little(uint8_t *bytes, size_t n, uint64_t number)
{
    for (size_t i = 0; i < n; i++, number >>= 8)
        bytes[i] = (uint8_t)number;
}

/* the bits of a format for a word: the digit after the highest one is the fraction's first */
static uint64_t bits_of_word(struct format f, uint32_t word)
{
    struct exact x;
    uint64_t bits, n;
    exact_of_word(&x, word);
    n = (uint64_t)length_of(&x);
    if (n == 0)
        return 0;
    bits = (uint64_t)x.negative << f.fields | (n - 1 + (uint64_t)(x.unit + f.bias));
    for (int i = 1; i <= f.fraction; i++)
        bits = bits << 1 | (i < (int)n ? x.digit[n - 1 - (uint64_t)i] : 0);
    return bits;
}

/* the refusal, or the word and whether its value is another one */
struct entry {
    uint32_t refusal, word;
    int lost;
};

static struct entry word_of_bits(struct format f, uint32_t rule, uint64_t bits)
{
    struct entry e = { 0, 0, 0 };
    struct exact x;
    struct result r;
    uint64_t one = (uint64_t)1 << f.fraction, fraction = bits % one, field = bits / one % (1u << f.fields);
    int negative = (int)(bits / one >> f.fields);
    exact_of_number(&x, negative, field ? one + fraction : fraction, 0, (int)(field ? field : 1) - f.bias - f.fraction);
    r = word_of_exact(rule, &x, &e.lost);
    e.word = r.word;
    if (field == (1u << f.fields) - 1)
        e.refusal = 10;
    else if (length_of(&x) == 0)
        e.refusal = negative ? 15 : 0;
    else if (length_of(&x) + x.unit < -64)
        e.refusal = 12;
    else if (r.error == OVERFLOWS)
        e.refusal = 11;
    return e;
}

uint32_t second_word_to_f32(uint32_t word, uint8_t *out, size_t out_length)
{
    if (out_length != 4)
        return 8;
    if (!is_proper(word))
        return 4;
    put_little(out, 4, bits_of_word(f32, word));
    return 0;
}

uint32_t second_f32_to_word(uint32_t bits, uint8_t *out, size_t out_length)
{
    struct entry e = word_of_bits(f32, 0, bits);
    if (out_length != 4)
        return 8;
    if (e.refusal == 0)
        put_little(out, 4, e.word);
    return e.refusal;
}

uint32_t second_words_to_f64(const uint8_t *words, size_t words_length, uint8_t *out, size_t out_length, uint64_t *number)
{
    size_t n = words_length / 4;
    *number = 0;
    if (words_length % 4)
        return 18;
    if (out_length < 8 * n)
        return 8;
    for (size_t i = 0; i < n; i++)
        if (!is_proper((uint32_t)little(words + 4 * i, 4))) {
            *number = i + 1;
            return 4;
        }
    for (size_t i = 0; i < n; i++)
        put_little(out + 8 * i, 8, bits_of_word(f64, (uint32_t)little(words + 4 * i, 4)));
    return 0;
}

uint32_t second_f64_to_words(uint32_t rule, const uint8_t *floats, size_t floats_length, uint8_t *out, size_t out_length,
                             uint64_t *number)
{
    size_t n = floats_length / 8, lost = 0;
    *number = 0;
    if (rule > 1)
        return 17;
    if (floats_length % 8)
        return 18;
    if (out_length < 4 * n)
        return 8;
    for (size_t i = 0; i < n; i++) {
        struct entry e = word_of_bits(f64, rule, little(floats + 8 * i, 8));
        if (e.refusal) {
            *number = i + 1;
            return e.refusal;
        }
        lost += e.lost != 0;
    }
    for (size_t i = 0; i < n; i++)
        put_little(out + 4 * i, 4, word_of_bits(f64, rule, little(floats + 8 * i, 8)).word);
    *number = lost;
    return 0;
}
