/*
 * The skeleton of a card: a bus cycle comes in, the core does it, the data byte and the service line go out, and the
 * state lies in memory that keeps its bytes without power. It is C99, calls the library and nothing else, and waits
 * for nothing; the pins, PAUSE, END and the timing are the builder's. docs/CARD.md says what to add.
 *
 *     card_power_up(memory);
 *     for (;;) {
 *         wait for a cycle: CS with RD or WR low, RESET high, or SVACK low; hold PAUSE low;
 *         struct card_answer answer = card_cycle(memory, cycle, DB7 to DB0);
 *         in a read cycle drive DB7 to DB0 with answer.data; drive SVREQ with answer.service; let PAUSE go;
 *     }
 */
#ifndef CARD_H
#define CARD_H

#include "../../include/pundaliket.h"

/* The cycles, by the pins of the data sheet (CS low for the first four). */
enum card_cycle {
    CARD_WRITE_DATA,    /* C/D low, WR low: a byte is pushed */
    CARD_READ_DATA,     /* C/D low, RD low: a byte is popped */
    CARD_WRITE_COMMAND, /* C/D high, WR low: a command is given and done */
    CARD_READ_STATUS,   /* C/D high, RD low */
    CARD_RESET,         /* RESET high */
    CARD_SVACK          /* SVACK low */
};

/*
 * What survives a power cut: the state's 19 bytes with their check, in two places, and the mark of the place that counts. A
 * cycle writes the other place and then the mark, one byte: the power may go between two cycles and at any byte inside
 * one, and what counts is always the whole state after a cycle, never half of one joined to half of another.
 *
 * The check is the CRC-16 of the place's mark and the state (polynomial 1021 hex, from FFFF hex, high byte first). It sees
 * every change of up to three bits, every change within 16 bits in a row, and of all others all but one in 65,536. The two
 * marks differ in all eight bits. A state whose check does not fit is not used. No cycle reads the error memory; a card that is to
 * show it keeps the state's 21 bytes instead.
 */
enum { CARD_FIRST = 0x5A, CARD_SECOND = 0xA5, CARD_CHECK_BYTES = 2 };

struct card_place {
    uint8_t state[PUNDALIKET_STATE_BYTES];
    uint8_t check[CARD_CHECK_BYTES];
};

struct card_memory {
    struct card_place first, second;
    uint8_t counts; /* CARD_FIRST or CARD_SECOND */
};

/* What a cycle leaves. The chip has no pin for a refusal: the number is for a lamp or a log. */
struct card_answer {
    uint8_t data;    /* DB7 to DB0 in a read cycle, else 0 */
    uint8_t service; /* SVREQ, 1 for high */
    uint8_t refusal; /* 0, or why the cycle was turned away */
};

/*
 * To be called once when power comes, before the first cycle. Goes on with the state that was kept. Memory that holds
 * no state, as it does before its first use or after a fault, is set to the state after a reset, and the refusal is 13.
 */
struct card_answer card_power_up(volatile struct card_memory *memory);

/*
 * One bus cycle; `byte` is what the controller wrote. A refusal and what the card does with it:
 *
 * 1, 2   an unknown code, a derived function: the command is not done; stack, status and SVREQ stay. A controller that
 *        waits for SVREQ waits in vain, as for a chip that is not there, so the lamp is worth its hole.
 * 3      a command inside a word: the same. The controller lost or doubled a byte; it has to send a reset.
 * 4      a float operand is not proper: the same. The controller sent no float word.
 * 5      cannot come: each of the six cycles has its kind.
 * 13     the memory was damaged since the last cycle: the mark is neither, or the check does not fit. Nothing of it is used:
 *        the card stands as after a reset, the data byte is 0. The unit on the bench has to be measured anew.
 */
struct card_answer card_cycle(volatile struct card_memory *memory, enum card_cycle cycle, uint8_t byte);

#endif
