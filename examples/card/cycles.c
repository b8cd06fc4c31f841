/* Drives the card by a script on standard input, a line for each cycle: its name and the byte written, -- for none.
 * Prints each line again with what came back: the data byte of a read cycle, SVREQ, the refusal. Beside the bus cycles:
 *   power-cut   the power goes and comes again; only the card's memory is left
 *   torn        the power goes inside a cycle: the place that does not count holds anything; then it comes again
 *   flagged     a fault in memory: the pending flag of the state that counts is 7
 *   changed     a fault in memory: a bit of the top byte of the stack, in the state that counts, is another
 *   unmarked    a fault in memory: a bit of the mark is another */
#include <stdio.h>
#include <string.h>

#include "card.h"

static const char *const cycles[] = { "write-data", "read-data", "write-command", "read-status", "reset", "svack" };

/* new memory holds FF throughout */
static struct card_memory memory;

/* the place that counts, or the other */
static struct card_place *place(int counts)
{
    return (memory.counts == CARD_FIRST) == counts ? &memory.first : &memory.second;
}

/* reads a word of the script; 0 at its end */
static int word(char *to, int room)
{
    int c = getchar(), n = 0;
    while (c == ' ' || c == '\n')
        c = getchar();
    for (; c != EOF && c != ' ' && c != '\n'; c = getchar())
        if (n < room - 1)
            to[n++] = (char)c;
    to[n] = 0;
    return n;
}

static int digit(char c) { return c <= '9' ? c - '0' : c - 'A' + 10; }

int main(void)
{
    char name[20], byte[4], shown[4];
    memset(&memory, 0xFF, sizeof memory);
    while (word(name, sizeof name) && word(byte, sizeof byte)) {
        struct card_answer answer = { 0, 0, 0 };
        uint8_t written = byte[0] == '-' ? 0 : (uint8_t)(16 * digit(byte[0]) + digit(byte[1]));
        int i = 0, read = 0;
        while (i < 6 && strcmp(name, cycles[i]) != 0)
            i++;
        if (i < 6) {
            answer = card_cycle(&memory, (enum card_cycle)i, written);
            read = i == CARD_READ_DATA || i == CARD_READ_STATUS;
        } else if (strcmp(name, "flagged") == 0) {
            place(1)->state[PUNDALIKET_AT_PENDING] = 7;
        } else if (strcmp(name, "changed") == 0) {
            place(1)->state[PUNDALIKET_AT_STACK] ^= 0x10;
        } else if (strcmp(name, "unmarked") == 0) {
            memory.counts ^= 0x10;
        } else {
            if (strcmp(name, "torn") == 0)
                memset(place(0)->state, 0x5A, PUNDALIKET_STATE_BYTES);
            answer = card_power_up(&memory);
        }
        sprintf(shown, read ? "%02X" : "--", (unsigned)answer.data);
        printf("%s %s %s %u %u\n", name, byte, shown, (unsigned)answer.service, (unsigned)answer.refusal);
    }
    return 0;
}
