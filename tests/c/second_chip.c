/* The chip and files of records. The commands stand in one table: the names and codes of 001's Figure 8, and for each the stack
 * that it leaves, in letters: before it the eight 16-bit words are A B C D E F G H from the top down; afterwards R and r are the
 * result's upper and lower word (r alone where it has 16 bits) and 0 is a word of zeros. A record is done event by event. */
#include <string.h>

#include "second.h"

/* ---- the commands */

/* name and code; bits of the operands, and of the new top; how many operands must be proper; what is worked out; the stack
 * afterwards, and where it differs with an error set: then the top is the operand as it was, of its own width */
struct command {
    const char *name;
    uint8_t code;
    int bits, top;
    int proper;
    operation *work;
    const char *after, *after_error;
};

static const struct command commands[] = {
    { "SADD", 0x6C, 16, 16, 0, add, "rCDEFGHA", NULL },
    { "SSUB", 0x6D, 16, 16, 0, subtract, "rCDEFGHA", NULL },
    { "SMUL", 0x6E, 16, 16, 0, multiply, "rCDEFGH0", NULL },
    { "SMUU", 0x76, 16, 16, 0, multiply_upper, "rCDEFGH0", NULL },
    { "SDIV", 0x6F, 16, 16, 0, divide, "rCDEFGH0", NULL },
    { "DADD", 0x2C, 32, 32, 0, add, "RrEFGHAB", NULL },
    { "DSUB", 0x2D, 32, 32, 0, subtract, "RrEFGHAB", NULL },
    { "DMUL", 0x2E, 32, 32, 0, multiply, "RrEFGH00", NULL },
    { "DMUU", 0x36, 32, 32, 0, multiply_upper, "RrEFGH00", NULL },
    { "DDIV", 0x2F, 32, 32, 0, divide, "RrEFGH00", NULL },
    { "FADD", 0x10, 32, 32, 2, float_add, "RrEFGH00", NULL },
    { "FSUB", 0x11, 32, 32, 2, float_subtract, "RrEFGH00", NULL },
    { "FMUL", 0x12, 32, 32, 2, float_multiply, "RrEFGH00", NULL },
    { "FDIV", 0x13, 32, 32, 2, float_divide, "RrEFGH00", NULL },
    { "SQRT", 0x01, 32, 32, 1, float_root, "RrCDEF00", "ABCDEFGH" },
    { "NOP", 0x00, 32, 32, 0, NULL, "ABCDEFGH", NULL },
    { "FIXS", 0x1F, 32, 16, 1, fixed_of_float, "rCDEF000", "ABCDEF00" },
    { "FIXD", 0x1E, 32, 32, 1, fixed_of_float, "RrCDEF00", NULL },
    { "FLTS", 0x1D, 16, 32, 0, float_of_fixed, "RrBCDE00", NULL },
    { "FLTD", 0x1C, 32, 32, 0, float_of_fixed, "RrCDEF00", NULL },
    { "CHSS", 0x74, 16, 16, 0, change_sign, "rBCDEFGH", NULL },
    { "CHSD", 0x34, 32, 32, 0, change_sign, "RrCDEFGH", NULL },
    { "CHSF", 0x15, 32, 32, 0, float_change_sign, "RrCDEFGH", NULL },
    { "PTOS", 0x77, 16, 16, 0, NULL, "AABCDEFG", NULL },
    { "PTOD", 0x37, 32, 32, 0, NULL, "ABABCDEF", NULL },
    { "PTOF", 0x17, 32, 32, 0, NULL, "ABABCDEF", NULL },
    { "POPS", 0x78, 16, 16, 0, NULL, "BCDEFGHA", NULL },
    { "POPD", 0x38, 32, 32, 0, NULL, "CDEFGHAB", NULL },
    { "POPF", 0x18, 32, 32, 0, NULL, "CDEFGHAB", NULL },
    { "XCHS", 0x79, 16, 16, 0, NULL, "BACDEFGH", NULL },
    { "XCHD", 0x39, 32, 32, 0, NULL, "CDABEFGH", NULL },
    { "XCHF", 0x19, 32, 32, 0, NULL, "CDABEFGH", NULL },
    { "PUPI", 0x1A, 32, 32, 0, push_pi, "RrABCDEF", NULL },
};

/* SIN, COS, TAN, ASIN, ACOS, ATAN, LOG, LN, EXP, PWR */
static int is_derived(uint8_t code) { return code >= 0x02 && code <= 0x0B; }

/* ---- the chip */

struct chip {
    uint8_t stack[16];
    unsigned pending, status, service, errors, first_code;
};

enum { SHORT_STATE = 19, LONG_STATE = 21, ERROR_BITS = 0x1E };

/* whether the bytes are a state; past 19 the memory is empty */
static int read_chip(struct chip *c, const uint8_t *state, size_t length)
{
    if (length != SHORT_STATE && length != LONG_STATE)
        return 0;
    memcpy(c->stack, state, 16);
    c->pending = state[16];
    c->status = state[17];
    c->service = state[18];
    c->errors = length == LONG_STATE ? state[19] : 0;
    c->first_code = length == LONG_STATE ? state[20] : 0;
    return c->pending < 2 && c->service < 2 && c->status < 0x80 && (c->errors | ERROR_BITS) == ERROR_BITS
        && (c->errors == 0) == (c->first_code == 0);
}

static void write_chip(const struct chip *c, uint8_t *state, size_t length)
{
    const uint8_t behind[5] = { (uint8_t)c->pending, (uint8_t)c->status, (uint8_t)c->service, (uint8_t)c->errors, (uint8_t)c->first_code };
    memcpy(state, c->stack, 16);
    memcpy(state + 16, behind, length - 16);
}

static uint32_t word_at(const struct chip *c, int place, int bits)
{
    uint32_t word = 0;
    for (int i = 0; i < bits / 8; i++)
        word = word << 8 | c->stack[place + i];
    return word;
}

/* the stack by its letters */
static void lay_out(struct chip *c, const char *letters, uint32_t word)
{
    uint8_t before[16];
    memcpy(before, c->stack, 16);
    for (int i = 0; i < 8; i++) {
        int from = letters[i] - 'A', in_it = from >= 0 && from < 8;
        uint32_t cell = letters[i] == 'R' ? word >> 16 : letters[i] == 'r' ? word : 0;
        c->stack[2 * i] = in_it ? before[2 * from] : (uint8_t)(cell >> 8);
        c->stack[2 * i + 1] = in_it ? before[2 * from + 1] : (uint8_t)cell;
    }
}

/* the refusal, 0 if it is done */
static uint32_t command(struct chip *c, uint32_t rule, uint8_t byte)
{
    uint8_t code = byte & 0x7F;
    const struct command *k = commands, *end = commands + sizeof commands / sizeof commands[0];
    struct result r = { 0, 0, 0 };
    uint32_t a, b, top;
    int width;
    while (k < end && k->code != code)
        k++;
    if (k == end)
        return is_derived(code) ? 2 : 1;
    if (c->pending)
        return 3;
    a = word_at(c, 0, k->bits);
    b = word_at(c, k->bits / 8, k->bits);
    if ((k->proper >= 1 && !is_proper(a)) || (k->proper == 2 && !is_proper(b)))
        return 4;
    /* the conversions are told the width of the fixed-point word */
    if (k->work)
        r = k->work(rule, k->bits < k->top ? k->bits : k->top, b, a);
    width = r.error && k->after_error ? k->bits : k->top;
    lay_out(c, r.error && k->after_error ? k->after_error : k->after, r.word);
    top = word_at(c, 0, width);
    c->status = (top >> (width - 1)) << 6 | (uint32_t)(top == 0) << 5 | r.error << 1 | r.carry;
    if (code == 0x00)
        c->status = 0;
    c->service = byte >> 7;
    c->errors |= c->status & ERROR_BITS;
    if (c->errors && c->first_code == 0)
        c->first_code = code;
    return 0;
}

static void push(struct chip *c, uint8_t byte)
{
    for (int i = 15; i > 0; i--)
        c->stack[i] = c->stack[i - 1];
    c->stack[0] = byte;
    c->pending ^= 1;
}

static uint8_t pop(struct chip *c)
{
    uint8_t top = c->stack[0];
    for (int i = 0; i < 15; i++)
        c->stack[i] = c->stack[i + 1];
    c->stack[15] = top;
    c->pending ^= 1;
    return top;
}

/* the older part keeps the stack; of half a word the top byte goes to the bottom, and the bottom two are zero */
static void reset(struct chip *c, uint32_t mode)
{
    struct chip fresh = { { 0 }, 0, 0, 0, 0, 0 };
    if (mode == 1) {
        if (c->pending) {
            pop(c);
            c->stack[14] = c->stack[15] = 0;
        }
        memcpy(fresh.stack, c->stack, 16);
    }
    *c = fresh;
}

/* one event: the refusal, and the byte read; a recall reads the bits, and the code behind them */
struct answer {
    uint32_t refusal;
    uint8_t byte, next;
};

static struct answer event(struct chip *c, uint32_t mode, uint32_t rule, uint32_t kind, uint8_t byte)
{
    struct answer a = { 0, 0, 0 };
    switch (kind) {
    case 1: push(c, byte); break;
    case 2: a.byte = pop(c); break;
    case 3: a.refusal = command(c, rule, byte); break;
    case 4: a.byte = (uint8_t)c->status; break;
    case 5: reset(c, mode); break;
    case 6: c->service = 0; break;
    case 7: a.byte = (uint8_t)c->errors; a.next = (uint8_t)c->first_code; break;
    case 8: c->errors = c->first_code = 0; break;
    default: a.refusal = 5; break;
    }
    return a;
}

uint32_t second_event(uint32_t mode, uint32_t rule, uint8_t *state, size_t state_length, uint32_t kind, uint8_t byte)
{
    struct chip c;
    struct answer a;
    if (mode > 1)
        return 256 * 16;
    if (rule > 1)
        return 256 * 17;
    if (!read_chip(&c, state, state_length))
        return 256 * 13;
    a = event(&c, mode, rule, kind, byte);
    if (a.refusal)
        return 256 * a.refusal;
    write_chip(&c, state, state_length);
    return a.byte;
}

/* ---- files of records */

/* each kind: the least and the most bytes of payload, and of data in its reply; a pop's are as many as it says */
enum { AS_MANY = -1, MOST_BLOCK = 240 };
static const struct kind {
    int least, most, data;
} kinds[9] = { { 0, 0, 0 }, { 1, MOST_BLOCK, 0 }, { 1, 1, AS_MANY }, { 1, 1, 0 }, { 0, 0, 1 }, { 0, 0, 0 }, { 0, 0, 0 }, { 0, 0, 2 }, { 0, 0, 0 } };

/* why the record at the front stops the run, in 01's order, 0 if it does not; then its kind, payload and data */
static uint32_t judge(const uint8_t *in, size_t left, size_t room, uint32_t *kind, size_t *payload, size_t *data)
{
    size_t length;
    if (left < 2)
        return 6;
    length = in[0] + 256u * in[1];
    if (length < 2 || length > 2 + MOST_BLOCK)
        return 7;
    if (left < 2 + length)
        return 6;
    *kind = in[2] + 256u * in[3];
    *payload = length - 2;
    if (*kind < 1 || *kind > 8)
        return 5;
    if ((int)*payload < kinds[*kind].least || (int)*payload > kinds[*kind].most)
        return 7;
    *data = kinds[*kind].data == AS_MANY ? in[4] : (size_t)kinds[*kind].data;
    if (*kind == 2 && (*data < 1 || *data > MOST_BLOCK))
        return 7;
    return room < 5 + *data ? 8 : 0;
}

/* a reply to a record that is not stopped: an event for each byte pushed or popped */
static void answer_record(struct chip *c, uint32_t mode, uint32_t rule, uint32_t kind, const uint8_t *payload, size_t n, size_t data, uint8_t *out)
{
    size_t events = kind == 1 ? n : kind == 2 ? data : 1;
    struct answer a = { 0, 0, 0 };
    for (size_t i = 0; i < events; i++) {
        a = event(c, mode, rule, kind, kind == 1 || kind == 3 ? payload[i] : 0);
        if (i < data)
            out[5 + i] = a.byte;
    }
    if (kind == 7)
        out[6] = a.next;
    out[0] = (uint8_t)(3 + data);
    out[1] = 0;
    out[2] = (uint8_t)(128 + kind);
    out[3] = 0;
    out[4] = (uint8_t)a.refusal;
}

static uint32_t write_report(uint8_t *report, uint32_t refusal, size_t taken, size_t written)
{
    report[0] = (uint8_t)refusal;
    for (int i = 0; i < 4; i++) {
        report[1 + i] = (uint8_t)(taken >> 8 * i);
        report[5 + i] = (uint8_t)(written >> 8 * i);
    }
    return refusal;
}

uint32_t second_run(uint32_t mode, uint32_t rule, uint8_t *state, size_t state_length, const uint8_t *input, size_t input_length,
                    uint8_t *replies, size_t replies_length, uint8_t *report, size_t report_length)
{
    struct chip c;
    size_t taken = 0, written = 0;
    uint32_t refusal = 0;
    if (report_length != 9)
        return 14;
    if (mode > 1)
        return write_report(report, 16, 0, 0);
    if (rule > 1)
        return write_report(report, 17, 0, 0);
    if (!read_chip(&c, state, state_length))
        return write_report(report, 13, 0, 0);
    if (input_length > 12288)
        return write_report(report, 9, 0, 0);
    while (taken < input_length) {
        uint32_t kind = 0;
        size_t payload = 0, data = 0;
        refusal = judge(input + taken, input_length - taken, replies_length - written, &kind, &payload, &data);
        if (refusal)
            break;
        answer_record(&c, mode, rule, kind, input + taken + 4, payload, data, replies + written);
        taken += 4 + payload;
        written += 5 + data;
    }
    write_chip(&c, state, state_length);
    return write_report(report, refusal, taken, written);
}
