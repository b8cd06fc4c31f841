/* Runs a file of bus records from standard input, from reset, in the little memory that a card has: what was read is run, and what
 * the run left, a record that was cut or had no room, is run again with what is read next. Prints the replies as they come,
 * then the last refusal and the state. What is printed does not depend on how much is read at a time. */
#include <stdio.h>
#include <string.h>

#include "../../include/pundaliket.h"

static uint8_t input[512], replies[2048], report[PUNDALIKET_REPORT_BYTES];
static uint8_t state[PUNDALIKET_LONG_STATE_BYTES]; /* zeros: the state after a reset */

static void show(const uint8_t *bytes, size_t count)
{
    static unsigned printed;
    for (size_t i = 0; i < count; i++)
        printf(++printed % 32 ? "%02X" : "%02X\n", (unsigned)bytes[i]);
}

int main(void)
{
    size_t length = 0, taken;
    uint32_t refusal;
    do {
        for (int c = 0; length < sizeof input && (c = getchar()) != EOF;)
            input[length++] = (uint8_t)c;
        refusal = pundaliket_run(PUNDALIKET_AM9511A, PUNDALIKET_CUT, state, sizeof state, input, length, replies, sizeof replies, report,
                                 sizeof report);
        taken = report[1] | (size_t)report[2] << 8;
        show(replies, report[5] | (size_t)report[6] << 8);
        length -= taken;
        for (size_t i = 0; i < length; i++)
            input[i] = input[i + taken];
    } while (taken != 0);
    printf("\nend %u\n", (unsigned)refusal);
    show(state, sizeof state);
    printf("\n");
    return 0;
}
