/*
 * Pundaliket: the data path of the Am9511A arithmetic chip, as a library for the card's firmware. C99 and C++17.
 *
 * `./archive pundaliket x86-64 libpundaliket.a` writes the archive that links into x86-64 programs; for other processors it
 * writes others (docs/CARD.md). The archive keeps no state between calls, takes no memory and exports the functions declared
 * here and nothing else.
 * It asks of the program: nothing.
 * That is of the archive for x86-64; `./archive --list` says what each of the others asks.
 *
 * A slice is lent as a pointer and the number of bytes behind it. The number has 64 bits on every processor, as it has in
 * the proofs. The caller's duties are C's own: that many bytes are there, so that on a processor of 32 bits no slice has
 * over 2^31 - 1; they may be written where the parameter is not const, and the slices of one call do not overlap. (An empty
 * slice still takes a pointer that is not null.) Everything else is checked: each call answers every input, with the
 * numbers below; docs/MANUAL.md has them in tables.
 *
 * A header whose lengths are size_t compiles and links on a processor of 32 bits and is wrong there. A program that declares
 * one of the calls once more, with uint64_t, as examples/card/card.c does, does not compile with such a header.
 */
#ifndef PUNDALIKET_H
#define PUNDALIKET_H

#include <stdint.h>

#ifdef __cplusplus
extern "C" {
#endif

/* The refusals. 1 to 4 stand in a record's reply and the run goes on; 5 to 8 stop the run. */
enum {
    PUNDALIKET_DONE = 0,           /* done */
    PUNDALIKET_UNKNOWN_CODE = 1,   /* unknown command code; the state stays */
    PUNDALIKET_DERIVED_CODE = 2,   /* derived function, codes 02 to 0B hex (82 to 8B); the state stays */
    PUNDALIKET_HALF_WORD = 3,      /* a known command, NOP too, with a half word pending; the state stays */
    PUNDALIKET_IMPROPER = 4,       /* a float operand, or a word to be made an f32 or f64, is not proper; the state stays */
    PUNDALIKET_NO_SUCH_KIND = 5,   /* kind of record or event not 1 to 8 */
    PUNDALIKET_CUT_SHORT = 6,      /* the file ends inside a record */
    PUNDALIKET_BAD_LENGTH = 7,     /* length under 2 or over 242, payload wrong for the kind, pop count not 1 to 240 */
    PUNDALIKET_NO_ROOM = 8,        /* no room for this record's reply; or a conversion's slice is not 4 bytes; or no room
                                      for a buffer's entries */
    PUNDALIKET_INPUT_TOO_LONG = 9, /* input over 12,288 bytes; only the report is written */
    PUNDALIKET_NOT_FINITE = 10,    /* the f32 or f64 is infinite or not a number */
    PUNDALIKET_TOO_LARGE = 11,     /* finite f32 of magnitude 2^63 or more; finite f64 that is so once it has 24 bits */
    PUNDALIKET_TOO_SMALL = 12,     /* f32 or f64 not zero, of magnitude under 2^-65 as it is given */
    PUNDALIKET_BAD_STATE = 13,     /* state not 19 or 21 bytes, a flag over 1, busy set, bits of the error memory outside
                                      4 to 1, its code without bits or bits without a code; only a report is written */
    PUNDALIKET_BAD_REPORT = 14,    /* report not 9 bytes; nothing is written at all */
    PUNDALIKET_MINUS_ZERO = 15,    /* the f32 or f64 is minus zero */
    PUNDALIKET_BAD_MODE = 16,      /* mode neither 0 nor 1; only a report is written */
    PUNDALIKET_BAD_RULE = 17,      /* rule neither 0 nor 1; only a report, or a number, is written */
    PUNDALIKET_PART_ENTRY = 18,    /* a buffer's length is no whole number of entries */
    PUNDALIKET_NO_FORMULA = 30,    /* letters not 32 bytes; text empty, over 256 bytes, no formula, or nested over 16 deep */
    PUNDALIKET_IMPROPER_WORD = 31, /* a constant, or a letter of the text, is not proper */
    PUNDALIKET_DEEP_FORMULA = 32,  /* the formula needs over four words of the stack */
    PUNDALIKET_LONG_FORMULA = 33   /* no room for the whole file */
};

/*
 * The rules: how the exact result of FADD, FSUB, FMUL, FDIV, FLTD and SQRT, and an f64 that is to be a word, is brought to 24
 * bits. PUPI pushes pi by the same rule; FIXS and FIXD cut under either. The rule is not among the state's bytes.
 */
enum {
    PUNDALIKET_CUT = 0,    /* the bits behind the mantissa are cut off */
    PUNDALIKET_NEAREST = 1 /* the nearest word, of two the one with the even mantissa; over- and underflow are judged after it */
};

/* The modes: which part's reset. Nothing else differs, and the mode is not among the state's bytes. */
enum {
    PUNDALIKET_AM9511A = 0, /* a reset zeroes the stack */
    PUNDALIKET_AM9511 = 1   /* the older part: a reset keeps all 16 bytes; with a half word pending the top byte goes, and
                               two zeros come in at the bottom, so that the words below stand aligned again */
};

/* The kinds of a record and of a single event. */
enum {
    PUNDALIKET_PUSH = 1,        /* record: 1 to 240 bytes, pushed in order; event: the byte */
    PUNDALIKET_POP = 2,         /* record: one byte n, 1 to 240, the reply holds n bytes; event: one byte */
    PUNDALIKET_COMMAND = 3,     /* one command code */
    PUNDALIKET_STATUS = 4,      /* nothing; the reply holds the status byte */
    PUNDALIKET_RESET = 5,       /* nothing; the stack as the mode says, nothing pending, status 0, service line low,
                                   nothing remembered */
    PUNDALIKET_ACKNOWLEDGE = 6, /* nothing */
    PUNDALIKET_RECALL = 7,      /* nothing; the reply holds the error memory, its bits and its code; event: the bits */
    PUNDALIKET_FORGET = 8       /* nothing; the error memory is emptied */
};

/*
 * Sizes in bytes. With room for PUNDALIKET_MOST_REPLIES bytes of replies 8 cannot come from a run: a record of 5 bytes
 * is answered with at most 245 (a pop of 240), one of 4 with at most 7, so a file of n bytes needs 245 * (n / 5), and 7
 * more where n % 5 is 4. With less room a run that ends with 8 has done the records before: lend the rest of the file,
 * from the report's bytes taken on, and fresh room, and it goes on; with a state of 21 bytes the error memory does so too.
 * PUNDALIKET_STACK_BYTES (and of a formula PUNDALIKET_FORMULA_STACK_BYTES) is the stack that a call needs below its caller's
 * frame: more by half, at least, than the most that was measured on any processor that ./archive compiles for, by calls of
 * each kind on a painted stack. tests/c/test.c measures it anew each time it runs; docs/CARD.md has it for each processor.
 */
enum {
    PUNDALIKET_STATE_BYTES = 19,      /* stack, top first (16), pending 0 or 1, status, service 0 or 1; 19 zeros: reset */
    PUNDALIKET_LONG_STATE_BYTES = 21, /* the same and the error memory: its bits, its code; 21 zeros: reset */
    PUNDALIKET_REPORT_BYTES = 9,      /* refusal, bytes of whole records taken, bytes of replies written */
    PUNDALIKET_FLOAT_BYTES = 4,       /* what a conversion writes */
    PUNDALIKET_WORD_BYTES = 4,        /* an entry of a buffer of words */
    PUNDALIKET_F64_BYTES = 8,         /* an entry of a buffer of f64s */
    PUNDALIKET_MOST_INPUT = 12288,    /* the longest input */
    PUNDALIKET_MOST_REPLIES = 601965, /* replies to the longest input */
    PUNDALIKET_LETTERS_BYTES = 32,    /* the words of a formula's eight letters */
    PUNDALIKET_MOST_FORMULA = 1664,   /* the longest file of a formula */
    PUNDALIKET_STACK_BYTES = 2048,    /* stack of a call, but for a formula's */
    PUNDALIKET_FORMULA_STACK_BYTES = 6144 /* stack of pundaliket_formula, whose brackets nest */
};

/* Where each part of a state begins. */
enum {
    PUNDALIKET_AT_STACK = 0,    /* 16 bytes, top first; a word's most significant byte is nearest the top */
    PUNDALIKET_AT_PENDING = 16, /* 1 while a half word is pending: an odd number of bytes pushed and popped since reset */
    PUNDALIKET_AT_STATUS = 17,  /* the status byte, as below */
    PUNDALIKET_AT_SERVICE = 18, /* the service line, SVREQ */
    PUNDALIKET_AT_ERRORS = 19,  /* of 21 bytes: the error bits of every status since reset or FORGET, as in a status */
    PUNDALIKET_AT_CODE = 20     /* of 21 bytes: the code of the first command that set any, without bit 7; 0 if none */
};

/* The status byte. Each accepted command sets it afresh; bit 7, busy, is always 0. */
enum {
    PUNDALIKET_STATUS_SIGN = 0x40,           /* top bit of the new TOS */
    PUNDALIKET_STATUS_ZERO = 0x20,           /* the new TOS is all zero bits */
    PUNDALIKET_STATUS_ERRORS = 0x1E,         /* all four error bits */
    PUNDALIKET_STATUS_DIVIDE_BY_ZERO = 0x10, /* error 1000 */
    PUNDALIKET_STATUS_NEGATIVE_ROOT = 0x08,  /* error 0100: SQRT of a word below zero */
    PUNDALIKET_STATUS_UNDERFLOW = 0x04,      /* error 0010: the exponent stored is 128 too large */
    PUNDALIKET_STATUS_OVERFLOW = 0x02,       /* error 0001; of FADD to FDIV: the exponent stored is 128 too small */
    PUNDALIKET_STATUS_CARRY = 0x01           /* carry out of SADD, DADD; borrow of SSUB, DSUB */
};

/* The command codes. S: 16-bit words, D: 32-bit words, F: float words. B is the next on stack, A the top. */
enum {
    PUNDALIKET_CODE_SERVICE = 0x80, /* added to a code: the service line is high after the command, else low */
    PUNDALIKET_CODE_NOP = 0x00,  /* clears the status */
    PUNDALIKET_CODE_SQRT = 0x01, /* root of A */
    PUNDALIKET_CODE_FADD = 0x10, /* B + A */
    PUNDALIKET_CODE_FSUB = 0x11, /* B - A */
    PUNDALIKET_CODE_FMUL = 0x12, /* B x A */
    PUNDALIKET_CODE_FDIV = 0x13, /* B / A */
    PUNDALIKET_CODE_CHSF = 0x15, /* -A */
    PUNDALIKET_CODE_PTOF = 0x17, /* A copied on top */
    PUNDALIKET_CODE_POPF = 0x18, /* A to the bottom */
    PUNDALIKET_CODE_XCHF = 0x19, /* A and B change places */
    PUNDALIKET_CODE_PUPI = 0x1A, /* pi pushed: 02C90FDA, to the nearest 02C90FDB */
    PUNDALIKET_CODE_FLTD = 0x1C, /* 32-bit A to float */
    PUNDALIKET_CODE_FLTS = 0x1D, /* 16-bit A to float */
    PUNDALIKET_CODE_FIXD = 0x1E, /* float A to 32 bits */
    PUNDALIKET_CODE_FIXS = 0x1F, /* float A to 16 bits */
    PUNDALIKET_CODE_DADD = 0x2C,
    PUNDALIKET_CODE_DSUB = 0x2D,
    PUNDALIKET_CODE_DMUL = 0x2E, /* low half of B x A */
    PUNDALIKET_CODE_DDIV = 0x2F,
    PUNDALIKET_CODE_CHSD = 0x34,
    PUNDALIKET_CODE_DMUU = 0x36, /* upper half of B x A */
    PUNDALIKET_CODE_PTOD = 0x37,
    PUNDALIKET_CODE_POPD = 0x38,
    PUNDALIKET_CODE_XCHD = 0x39,
    PUNDALIKET_CODE_SADD = 0x6C,
    PUNDALIKET_CODE_SSUB = 0x6D,
    PUNDALIKET_CODE_SMUL = 0x6E,
    PUNDALIKET_CODE_SDIV = 0x6F,
    PUNDALIKET_CODE_CHSS = 0x74,
    PUNDALIKET_CODE_SMUU = 0x76,
    PUNDALIKET_CODE_PTOS = 0x77,
    PUNDALIKET_CODE_POPS = 0x78,
    PUNDALIKET_CODE_XCHS = 0x79
};

/*
 * A float word: sign, then a two's complement exponent e from -64 to 63, then a mantissa m of 24 bits. Its value is
 * m * 2^(e-24). It is proper if it is all zeros or its mantissa's top bit is set: 1.0 is 01800000, -2.5 is 82A00000.
 */
#define PUNDALIKET_FLOAT_SIGN 0x80000000u
#define PUNDALIKET_FLOAT_EXPONENT 0x7F000000u
#define PUNDALIKET_FLOAT_MANTISSA 0x00FFFFFFu
#define PUNDALIKET_FLOAT_TOP_BIT 0x00800000u

/*
 * Runs a file of bus records. Returns the refusal that ended the run, 0 at the file's end.
 *
 * mode     PUNDALIKET_AM9511A or PUNDALIKET_AM9511, for every reset in the file.
 * rule     PUNDALIKET_CUT or PUNDALIKET_NEAREST, for every float result in the file.
 * state    19 or 21 bytes, read and written: the chip before the run and after the last record done. Of 19 the error
 *          memory is empty at the start, and what the run remembers goes when it ends.
 * input    the records: length (2 bytes, little-endian, counts what follows), kind (2 bytes,
 *          little-endian), payload. Read only.
 * replies  written from the front, one reply for each record done: length, kind + 128, laid out as
 *          in a record, one refusal byte, data. Bytes past the written ones stay as they were.
 * report   9 bytes, written: the refusal, bytes of whole records taken, bytes of replies written,
 *          each count four bytes little-endian. For 16, 17, 13 and 9 both counts are 0.
 *
 * Order: 14, 16, 17, 13, 9. Then per record: fewer than two bytes left (6), length range (7), bytes
 * missing (6), kind (5), payload (7), room (8), and in its reply 1, 2, 3, 4. A record that stops
 * the run has no reply, is not counted, and leaves the state as the records before it did.
 */
uint32_t pundaliket_run(uint32_t mode, uint32_t rule, uint8_t *state, uint64_t state_length,
                        const uint8_t *input, uint64_t input_length,
                        uint8_t *replies, uint64_t replies_length,
                        uint8_t *report, uint64_t report_length);

/*
 * One bus event on a state. Returns 256 times the refusal plus the byte read, which is 0 where
 * there is none and in every refusal.
 *
 * mode     PUNDALIKET_AM9511A or PUNDALIKET_AM9511, the whole number.
 * rule     PUNDALIKET_CUT or PUNDALIKET_NEAREST, the whole number.
 * state    19 or 21 bytes, read and written. A refused event writes nothing. Of 19 the error memory reads 0.
 * kind     1 to 8 as above, the whole number (257 is no kind).
 * byte     the byte pushed or the command code, else ignored.
 *
 * Order: 16, 17, 13, 5, then 1, 2, 3, 4.
 */
uint32_t pundaliket_event(uint32_t mode, uint32_t rule, uint8_t *state, uint64_t state_length, uint32_t kind, uint8_t byte);

/*
 * The f32 of a chip word's value, always exact. Returns the refusal: 8, then 4.
 *
 * word     the 32 bits of the chip word.
 * out      4 bytes: the f32's bits, little-endian, written on 0 alone.
 */
uint32_t pundaliket_word_to_f32(uint32_t word, uint8_t *out, uint64_t out_length);

/*
 * The chip word of an f32's value, where there is one. Returns the refusal: 8, then 10, 15, 11, 12.
 *
 * bits     the 32 bits of the f32. Plus zero gives the zero word; each accepted f32, and each proper word, comes back from
 *          the other call bit for bit.
 * out      4 bytes: the word, little-endian, written on 0 alone.
 */
uint32_t pundaliket_f32_to_word(uint32_t bits, uint8_t *out, uint64_t out_length);

/*
 * Chip words as f64s, always exact. Returns the refusal: 18, then 8, then 4 for the first word that is not proper. The whole
 * buffer is looked through before the first byte is written, and on a refusal no byte of `out` is.
 *
 * words    4 bytes for each word, little-endian. Any number of them, none too.
 * out      8 bytes for each f64, little-endian, in the same order; what lies past them stays as it was.
 * number   always written: on 4 the first bad entry, counted from 1, else 0.
 */
uint32_t pundaliket_words_to_f64(const uint8_t *words, uint64_t words_length,
                                 uint8_t *out, uint64_t out_length, uint64_t *number);

/*
 * F64s as chip words: those that have a proper word's value become it, any other is brought to 24 bits by the rule. Returns the
 * refusal: 17, then 18, then 8, then 10, 15, 12 or 11 of the first f64 that is refused. 12 is judged by the magnitude that is
 * given, 11 by the one that the rule leaves. As above the whole buffer is looked through first. Words that were turned to f64s
 * come back bit for bit, under either rule.
 *
 * rule     PUNDALIKET_CUT or PUNDALIKET_NEAREST.
 * floats   8 bytes for each f64, little-endian. Any number of them, none too.
 * out      4 bytes for each word, little-endian, in the same order; what lies past them stays as it was.
 * number   always written: on 0 how many entries were brought to 24 bits, that is, changed; on 10, 15, 12 and 11 the first bad
 *          entry, counted from 1; else 0.
 */
uint32_t pundaliket_f64_to_words(uint32_t rule, const uint8_t *floats, uint64_t floats_length,
                                 uint8_t *out, uint64_t out_length, uint64_t *number);

/*
 * One formula, as `(a-b)/c*#01800000`, to a record file: each operand a push, each operation and each change of sign a command,
 * in postfix order. Run from any state with no half word pending, with room for its replies, the file ends with 0, every
 * record is answered 0, and the formula's value by the chip's operations lies on top. Returns 65,536 times the refusal plus
 * the bytes of the file, which are 0 in every refusal.
 *
 * text     1 to 256 bytes: products joined by + or -, of factors joined by * or /; a factor is a letter a to h, # and eight of
 *          0-9A-F, - and a factor, or a formula in brackets. No blanks. Brackets and minus signs nested at most 16 deep.
 * letters  32 bytes: the words of a to h, each word's top byte first.
 * file     written on 0 alone, from its front; at most 1,664 bytes (PUNDALIKET_MOST_FORMULA); the rest stays as it was.
 *
 * Order: 30, 31, 32, 33.
 */
uint32_t pundaliket_formula(const uint8_t *text, uint64_t text_length,
                            const uint8_t *letters, uint64_t letters_length,
                            uint8_t *file, uint64_t file_length);

#ifdef __cplusplus
}
#endif

#endif
