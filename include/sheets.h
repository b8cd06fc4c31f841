/*
 * Module sheets: a second library above Pundaliket's core. C99 and C++17.
 *
 * `./archive sheets x86-64 libsheets.a` writes the archive that links into x86-64 programs; for other processors it writes
 * others (docs/CARD.md). It holds what it needs of the core, so that a program needs libpundaliket.a beside it only for the
 * calls of pundaliket.h; both link into one program, in either order. It keeps no state between calls, takes no memory and
 * exports the functions declared here and nothing else.
 * It asks of the program: nothing.
 * That is of the archive for x86-64; `./archive --list` says what each of the others asks.
 *
 * A slice is lent as a pointer and the number of bytes behind it. The number has 64 bits on every processor, as it has in
 * the proofs. The caller's duties are C's own: that many bytes are there, so that on a processor of 32 bits no slice has
 * over 2^31 - 1; they may be written where the parameter is not const, and the slices of one call do not overlap. (An empty
 * slice still takes a pointer that is not null.) Everything else is checked: each call answers every input, with the
 * numbers below; docs/MANUAL.md has them in tables.
 */
#ifndef SHEETS_H
#define SHEETS_H

#include <stdint.h>

#ifdef __cplusplus
extern "C" {
#endif

/* The kinds of a record that this library adds to the core's 1 to 8 (pundaliket.h). */
enum {
    SHEETS_OPEN = 256, /* 4 bytes, the serial number, little-endian: opens a sheet for it, nothing kept, its words zero */
    SHEETS_KEEP = 257, /* one byte, the slot 0 to 3: keeps the 32-bit TOS there; a slot that was kept is overwritten */
    SHEETS_CLOSE = 258 /* nothing: the open sheet becomes the list's last line */
};

/*
 * The refusals inside the reply to these kinds; the run goes on, and `sheets` stays as it was. In this order, after 8: an opening
 * has 20 alone, a keep 21, 22, 23, a close 21, 24, 25. The numbers that end a run are the core's (pundaliket.h), of which 5
 * is for kinds that neither library has, 7 for these kinds' payloads too and 13 for bad `sheets` too.
 */
enum {
    SHEETS_ALREADY_OPEN = 20, /* an opening while a sheet is open, which stays open */
    SHEETS_NONE_OPEN = 21,    /* a keep or a close with none open */
    SHEETS_BAD_SLOT = 22,     /* a keep in a slot over 3 */
    SHEETS_HALF_WORD = 23,    /* a keep with a half word pending */
    SHEETS_NOT_KEPT = 24,     /* a close with a slot not kept; the sheet stays open */
    SHEETS_LIST_FULL = 25     /* a close with 64 sheets in the list; the sheet stays open */
};

/*
 * Sizes in bytes. A reply to these kinds has 5, and no record of theirs has fewer than 4, so the room that
 * PUNDALIKET_MOST_REPLIES names is enough here too. SHEETS_STACK_BYTES is the stack that a call needs below its caller's frame:
 * more by half, at least, than the most that was measured on any processor that ./archive compiles for, by calls on a painted
 * stack. tests/c/sheets.c measures it anew each time it runs.
 */
enum {
    SHEETS_BYTES = 1303,      /* the list and the open sheet; 1,303 zeros: an empty list, no sheet open */
    SHEETS_LINE_BYTES = 20,   /* a closed sheet: its serial, four words, slot 0 first, each four bytes little-endian */
    SHEETS_MOST_LINES = 64,   /* closed sheets that the list holds */
    SHEETS_REPLY_BYTES = 5,   /* a reply to one of these kinds */
    SHEETS_FIGURES_BYTES = 53, /* the figures of a list */
    SHEETS_SUM_DIGITS = 48,   /* the hex digits of their sum */
    SHEETS_STACK_BYTES = 2048 /* stack of a call */
};

/* Where each part of `sheets` begins. */
enum {
    SHEETS_AT_NUMBER = 0,    /* how many sheets are closed, 0 to 64 */
    SHEETS_AT_LINES = 1,     /* 64 places of 20 bytes, oldest first; places past the number stay as lent */
    SHEETS_AT_OPEN = 1281,   /* 1 while a sheet is open, else 0; then the 21 bytes behind it are not looked at, but for kept over 15 */
    SHEETS_AT_SERIAL = 1282, /* 4 bytes: the open sheet's serial, little-endian */
    SHEETS_AT_KEPT = 1286,   /* which of its slots were kept: bit k for slot k */
    SHEETS_AT_WORDS = 1287   /* 16 bytes: its words, slot 0 first, little-endian */
};

/* Where each of a list's figures stands. */
enum {
    SHEETS_AT_LINE_COUNT = 0, /* a byte: lines, that is, closed sheets */
    SHEETS_AT_SERIALS = 1,    /* a byte: different serials */
    SHEETS_AT_REPEATED = 2,   /* a byte: serials that stand on more than one line, each counted once */
    SHEETS_AT_IMPROPER = 3,   /* a byte: words of slot 0 that are not proper */
    SHEETS_AT_SIGN = 4,       /* + or -, plus for zero: the sign of the sum of the proper values of slot 0 */
    SHEETS_AT_DIGITS = 5      /* 48 digits, 0-9A-F, the highest first: the sum's magnitude times 2^88, exact */
};

/*
 * Runs a file of bus records in which the kinds above stand among the core's. Returns the refusal that ended the run, 0 at
 * the file's end. A file without them is run as by pundaliket_run; in one that ends with 0 the core's own replies and state are
 * those that pundaliket_run gives it with these kinds struck out.
 *
 * mode     PUNDALIKET_AM9511A or PUNDALIKET_AM9511 (0 or 1), as for pundaliket_run.
 * rule     PUNDALIKET_CUT or PUNDALIKET_NEAREST (0 or 1), as for pundaliket_run.
 * state    19 or 21 bytes, read and written: the chip before the run and after the last record done, as for pundaliket_run.
 * sheets   1,303 bytes, read and written. A close takes the open sheet into the list; it and a reset that is done, in either
 *          mode, a sheet open or not, leave the 22 bytes from SHEETS_AT_OPEN on zero.
 * input    the records, as for pundaliket_run. Read only.
 * replies  written from the front, one reply for each record done. To the kinds above: length 3, the kind with bit 15 set
 *          (8100, 8101, 8102 hex), one refusal byte. Bytes past the written ones stay as they were.
 * report   9 bytes, written: the refusal, bytes of whole records taken, bytes of replies written,
 *          each count four bytes little-endian. For 16, 17, 13 and 9 both counts are 0.
 *
 * Order: 14 (report not 9 bytes; nothing is written at all), 16 and 17 (mode, rule), 13 (state, then sheets: not 1,303 bytes,
 * number over 64, open over 1, kept over 15), 9; these four write the report alone. Then per record: fewer than two bytes left
 * (6), length range (7), bytes missing (6), kind (5), payload (7), room (8), and in its reply 1 to 4 of the core's
 * kinds, 20 to 25 of those above. A record that stops the run has no reply, is not counted, and leaves state and sheets as the records
 * before it did.
 */
uint32_t sheets_run(uint32_t mode, uint32_t rule, uint8_t *state, uint64_t state_length,
                    uint8_t *sheets, uint64_t sheets_length,
                    const uint8_t *input, uint64_t input_length,
                    uint8_t *replies, uint64_t replies_length,
                    uint8_t *report, uint64_t report_length);

/*
 * The figures of a list's closed sheets. Returns the refusal: 8 for `out` not 53 bytes, then 13 for bad `sheets`, as for
 * sheets_run. The order of the sheets makes no difference; 64 sheets always fit.
 *
 * sheets   1,303 bytes. Read only.
 * out      53 bytes, written on 0 alone: lines, serials, repeated and improper, a byte each, then the sum's sign and 48 hex digits.
 */
uint32_t sheets_figures(const uint8_t *sheets, uint64_t sheets_length, uint8_t *out, uint64_t out_length);

#ifdef __cplusplus
}
#endif

#endif
