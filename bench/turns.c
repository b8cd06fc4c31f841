/* Runs the file of standard input TURNS times from reset, by the library where LIBRARY is 1, else by plain C, to count instructions on
 * a target that has no arguments to give a program. */
#include <stdio.h>
#include <string.h>

#include "../include/pundaliket.h"
#include PLAIN

enum { ROOM = 65536 };

static uint8_t file[PUNDALIKET_MOST_INPUT], replies[ROOM];

int main(void)
{
    size_t length = 0;
    uint32_t refusal = 0;
    for (int c = 0; length < sizeof file && (c = getchar()) != EOF;)
        file[length++] = (uint8_t)c;
    for (int turn = 0; turn < TURNS; turn++) {
        uint8_t state[PUNDALIKET_STATE_BYTES] = { 0 }, report[PUNDALIKET_REPORT_BYTES];
        refusal |= LIBRARY ? pundaliket_run(0, 0, state, sizeof state, file, length, replies, ROOM, report, sizeof report)
                           : plain_run(0, 0, state, sizeof state, file, length, replies, ROOM, report, sizeof report);
    }
    printf("%u\n", (unsigned)refusal);
    return refusal != 0;
}
