/* steps EVERY: 1,600 calls of ./steps, or each EVERY-th of them. For each a line with its arguments (code, B, A and, in half of them,
 * the option for the other rule), the text that the second opinion says the program writes, and a dot. The operands are edges, drawn
 * ones, exact quotients and improper words. */
#include <stdio.h>

#include "drawn.h"
#include "second.h"

static const uint8_t codes[8] = { 0x6E, 0x76, 0x6F, 0x2E, 0x36, 0x2F, 0x12, 0x13 };

/* a word of these digits, at most 24 */
static uint32_t with_digits(uint32_t digits)
{
    while (digits < FRACTIONS)
        digits *= 2;
    return ranked((int)below(2), below(EXPONENTS) * FRACTIONS + digits % FRACTIONS);
}

int main(int count, char **words)
{
    static char text[4096];
    uint32_t every = count == 2 && words[1][0] > '0' && words[1][0] <= '9' ? (uint32_t)(words[1][0] - '0') : 1;
    for (uint32_t i = 0; i < 1600; i++) {
        uint8_t code = codes[i % 8];
        int bits = code & 0x40 ? 16 : 32, is_float = code < 0x20;
        uint32_t rule = below(2), b = below(2) ? edge(bits, below(EDGES_32)) : drawn(), a = below(2) ? edge(bits, below(EDGES_32)) : sized_word();
        if (is_float && below(16)) {
            b = below(16) ? ranked((int)below(2), drawn()) : 0;
            a = below(16) ? ranked((int)below(2), drawn()) : 0;
        }
        if (is_float && below(4) == 0) {
            uint32_t d = (1u << (1 + below(11))) + 1;
            b = with_digits((1 + below(4095)) * d);
            a = with_digits(d);
        }
        if (bits == 16) {
            b %= 65536;
            a %= 65536;
        }
        if (i % every)
            continue;
        text[second_steps(rule, code, b, a, text)] = 0;
        printf("%02X %0*X %0*X%s\n%s.\n", code, bits / 4, (unsigned)b, bits / 4, (unsigned)a, rule ? " --nearest" : "", text);
    }
    return 0;
}
