/* Document 01 in plain C, with requests 1 to 6, 9 and 13 of 02, as a firmware writer would have it: fast. The state is worked on where it
 * lies, as 19 bytes and two of error memory; fixed-point results are formed in 64-bit integers, float results in 64 bits with what falls
 * off kept as one low bit. */
#include "plain.h"

enum { PENDING = 16, STATUS = 17, SERVICE = 18, STATE = 19, MEMORY = 2, REPORT = 9, MOST_INPUT = 12288 };
enum { BITS = 0, CODE = 1, ERROR_BITS = 0x1E };
enum { OVERFLOW_ERROR = 1, UNDERFLOW_ERROR = 2, ROOT_ERROR = 4, DIVIDE_ERROR = 8 };

/* a word of two or four bytes, most significant first */
static uint32_t get(const uint8_t *p, int n)
{
    uint32_t w = (uint32_t)p[0] << 8 | p[1];
    return n == 2 ? w : w << 16 | (uint32_t)p[2] << 8 | p[3];
}

static void put(uint8_t *p, int n, uint32_t w)
{
    if (n == 4) {
        p[0] = (uint8_t)(w >> 24);
        p[1] = (uint8_t)(w >> 16);
        p += 2;
    }
    p[0] = (uint8_t)(w >> 8);
    p[1] = (uint8_t)w;
}

/* n of the stack's bytes from one place to another; the numbers are constants, so that these are moves of words */
#define MOVE(to, from, n) __builtin_memmove((to), (from), (n))
#define CLEAR(p, n) __builtin_memset((p), 0, (n))

/* n bytes pushed in order */
static void push(uint8_t *s, const uint8_t *p, uint32_t n)
{
    if (n == 4) {
        MOVE(s + 4, s, 12);
        put(s, 4, (uint32_t)p[3] << 24 | (uint32_t)p[2] << 16 | (uint32_t)p[1] << 8 | p[0]);
    } else if (n == 8) {
        MOVE(s + 8, s, 8);
        put(s + 4, 4, (uint32_t)p[3] << 24 | (uint32_t)p[2] << 16 | (uint32_t)p[1] << 8 | p[0]);
        put(s, 4, (uint32_t)p[7] << 24 | (uint32_t)p[6] << 16 | (uint32_t)p[5] << 8 | p[4]);
    } else {
        for (uint32_t i = 0; i < n; i++) {
            MOVE(s + 1, s, 15);
            s[0] = p[i];
        }
    }
    s[PENDING] ^= n & 1;
}

/* n bytes popped */
static void pop(uint8_t *s, uint8_t *out, uint32_t n)
{
    uint8_t t[4];
    if (n == 4) {
        MOVE(t, s, 4);
        MOVE(out, t, 4);
        MOVE(s, s + 4, 12);
        MOVE(s + 12, t, 4);
    } else {
        for (uint32_t i = 0; i < n; i++) {
            out[i] = t[0] = s[0];
            MOVE(s, s + 1, 15);
            s[15] = t[0];
        }
    }
    s[PENDING] ^= n & 1;
}

/* the status that an accepted command leaves, by the new top of n bytes */
static void settle(uint8_t *s, int n, uint32_t error, uint32_t carry, uint32_t sr)
{
    uint32_t top = get(s, n);
    s[STATUS] = (uint8_t)((s[0] & 0x80) >> 1 | (top == 0 ? 0x20 : 0) | error << 1 | carry);
    s[SERVICE] = (uint8_t)sr;
}

static int64_t extend(uint32_t w, int n)
{
    return n == 2 ? (int64_t)(w & 0x7FFF) - (int64_t)(w & 0x8000)
                  : (int64_t)(w & 0x7FFFFFFF) - (int64_t)(w & 0x80000000u);
}

/* add c, subtract d, multiply lower e, upper 6, divide f: the low digit of the code */
static void fixed(uint8_t *s, int n, uint32_t digit, uint32_t sr)
{
    uint32_t a = get(s, n), b = get(s + n, n), least = n == 2 ? 0x8000u : 0x80000000u;
    int64_t x = extend(a, n), y = extend(b, n), high = (int64_t)least - 1, low = -(int64_t)least;
    int64_t exact = 0;
    uint32_t error = 0, carry = 0;
    int kept = 0;
    if (digit == 0xC || digit == 0xD) {
        exact = digit == 0xC ? y + x : y - x;
        carry = digit == 0xC ? (uint32_t)((uint64_t)a + b > (uint64_t)high * 2 + 1) : b < a;
        error = exact > high || exact < low || (digit == 0xD && a == least);
        kept = 1;
    } else if (digit == 0xF && a == 0) {
        exact = y;
        error = DIVIDE_ERROR;
    } else if (a == least || b == least) {
        exact = low;
        error = OVERFLOW_ERROR;
    } else if (digit == 0xF) {
        exact = y / x;
    } else {
        exact = y * x;
        if (digit == 0x6)
            exact >>= n * 8;
        else
            error = exact > high || exact < low;
    }
    if (n == 2)
        MOVE(s, s + 2, 14);
    else
        MOVE(s, s + 4, 12);
    put(s, n, (uint32_t)(uint64_t)exact);
    put(s + 16 - n, n, kept ? a : 0);
    settle(s, n, error, carry, sr);
}

static int is_proper(uint32_t w) { return w == 0 || (w & 0x800000) != 0; }

static int exponent(uint32_t w) { return (int)(w >> 24 & 0x7F) - (int)(w >> 23 & 0x80); }

/* plus or minus magnitude times 2^e, cut to a word, or by rule 1 to the nearest, of two the even one */
static uint32_t cut(uint32_t rule, int minus, uint64_t magnitude, int e, uint32_t *error)
{
    if (magnitude == 0)
        return 0;
    int top = 63 - __builtin_clzll(magnitude);
    uint32_t m = (uint32_t)(top > 23 ? magnitude >> (top - 23) : magnitude << (23 - top));
    e += top + 1;
    if (rule && top > 23) {
        uint64_t lost = magnitude << (87 - top), half = (uint64_t)1 << 63;
        m += lost > half || (lost == half && m % 2 == 1);
        if (m == 0x1000000) {
            m = 0x800000;
            e++;
        }
    }
    if (e > 63) {
        *error = OVERFLOW_ERROR;
        e -= 128;
    } else if (e < -64) {
        *error = UNDERFLOW_ERROR;
        e += 128;
    }
    return (minus ? 0x80000000u : 0) | ((uint32_t)e & 0x7F) << 24 | m;
}

static uint32_t sum(uint32_t rule, uint32_t b, uint32_t a, uint32_t *error)
{
    if (a == 0 || b == 0)
        return a | b;
    if (exponent(b) < exponent(a)) {
        uint32_t t = a;
        a = b;
        b = t;
    }
    int apart = exponent(b) - exponent(a), e = exponent(b) - 62;
    uint64_t big = (uint64_t)(b & 0xFFFFFF) << 38, small = (uint64_t)(a & 0xFFFFFF) << 38;
    if (apart > 62)
        small = 1;
    else if (apart > 0)
        small = small >> apart | ((small << (64 - apart)) != 0);
    if ((a ^ b) >> 31 == 0)
        return cut(rule, b >> 31 != 0, big + small, e, error);
    if (big >= small)
        return cut(rule, b >> 31 != 0, big - small, e, error);
    return cut(rule, a >> 31 != 0, small - big, e, error);
}

static uint32_t product(uint32_t rule, uint32_t b, uint32_t a, uint32_t *error)
{
    return cut(rule, (a ^ b) >> 31 != 0, (uint64_t)(a & 0xFFFFFF) * (b & 0xFFFFFF), exponent(a) + exponent(b) - 48, error);
}

static uint32_t quotient(uint32_t rule, uint32_t b, uint32_t a, uint32_t *error)
{
    if (a == 0) {
        *error = DIVIDE_ERROR;
        return b;
    }
    uint64_t x = (uint64_t)(b & 0xFFFFFF) << 26, d = a & 0xFFFFFF;
    return cut(rule, (a ^ b) >> 31 != 0, x / d | (x % d != 0), exponent(b) - exponent(a) - 26, error);
}

static uint32_t floating(uint8_t *s, uint32_t rule, uint32_t code, uint32_t sr)
{
    uint32_t a = get(s, 4), b = get(s + 4, 4), r, error = 0;
    if (!is_proper(a) || !is_proper(b))
        return 4;
    switch (code) {
    case 0x10: r = sum(rule, b, a, &error); break;
    case 0x11: r = sum(rule, b, a ? a ^ 0x80000000u : 0, &error); break;
    case 0x12: r = product(rule, b, a, &error); break;
    default: r = quotient(rule, b, a, &error); break;
    }
    put(s, 4, r);
    MOVE(s + 4, s + 8, 8);
    CLEAR(s + 12, 4);
    settle(s, 4, error, 0, sr);
    return 0;
}

/* the greatest m of 24 bits whose square is not above x, for x from 2^46 on and below 2^48 */
static uint32_t whole_root(uint64_t x)
{
    uint64_t low = 0x800000, high = 0x1000000;
    while (high - low > 1) {
        uint64_t middle = (low + high) / 2;
        if (middle * middle > x)
            high = middle;
        else
            low = middle;
    }
    return (uint32_t)low;
}

/* the root by a rule: x is never half way, since (m + 1/2)^2 is no whole number */
static uint32_t root_by(uint32_t rule, uint64_t x)
{
    uint32_t m = whole_root(x);
    return m + (rule && x - (uint64_t)m * m > m);
}

/* SQRT: the value is a whole number of 47 or 48 bits times an even power of two, so the root is one of 24 */
static uint32_t root(uint8_t *s, uint32_t rule, uint32_t sr)
{
    uint32_t a = get(s, 4), error = 0;
    if (!is_proper(a))
        return 4;
    if (a >> 31) {
        settle(s, 4, ROOT_ERROR, 0, sr);
        return 0;
    }
    int e = exponent(a), shift = e % 2 ? 23 : 24;
    if (a)
        put(s, 4, cut(rule, 0, root_by(rule, (uint64_t)(a & 0xFFFFFF) << shift), (e - 24 - shift) / 2, &error));
    CLEAR(s + 12, 4);
    settle(s, 4, error, 0, sr);
    return 0;
}

/* FIXS (n = 2) and FIXD (n = 4) */
static uint32_t fix(uint8_t *s, int n, uint32_t sr)
{
    uint32_t a = get(s, 4);
    if (!is_proper(a))
        return 4;
    int e = exponent(a);
    CLEAR(s + 12, 4);
    if (e > (n == 2 ? 15 : 31)) {
        settle(s, 4, OVERFLOW_ERROR, 0, sr);
        return 0;
    }
    uint64_t m = a & 0xFFFFFF, whole = e <= 0 ? 0 : e <= 24 ? m >> (24 - e) : m << (e - 24);
    if (n == 2) {
        MOVE(s + 2, s + 4, 8);
        CLEAR(s + 10, 6);
    }
    put(s, n, a >> 31 ? 0u - (uint32_t)whole : (uint32_t)whole);
    settle(s, n, 0, 0, sr);
    return 0;
}

/* FLTS (n = 2) and FLTD (n = 4) */
static void flt(uint8_t *s, uint32_t rule, int n, uint32_t sr)
{
    int64_t x = extend(get(s, n), n);
    uint32_t error = 0, r = cut(rule, x < 0, (uint64_t)(x < 0 ? -x : x), 0, &error);
    if (n == 2)
        MOVE(s + 4, s + 2, 8);
    put(s, 4, r);
    CLEAR(s + 12, 4);
    settle(s, 4, 0, 0, sr);
}

static void change_sign(uint8_t *s, int n, uint32_t sr)
{
    uint32_t a = get(s, n), least = n == 2 ? 0x8000u : 0x80000000u;
    put(s, n, 0u - a);
    settle(s, n, a == least ? OVERFLOW_ERROR : 0, 0, sr);
}

static void change_float_sign(uint8_t *s, uint32_t sr)
{
    if (s[1] & 0x80)
        s[0] ^= 0x80;
    settle(s, 4, 0, 0, sr);
}

static void copy_top(uint8_t *s, int n, uint32_t sr)
{
    if (n == 2)
        MOVE(s + 2, s, 14);
    else
        MOVE(s + 4, s, 12);
    settle(s, n, 0, 0, sr);
}

static void roll(uint8_t *s, int n, uint32_t sr)
{
    uint32_t a = get(s, n);
    if (n == 2)
        MOVE(s, s + 2, 14);
    else
        MOVE(s, s + 4, 12);
    put(s + 16 - n, n, a);
    settle(s, n, 0, 0, sr);
}

static void exchange(uint8_t *s, int n, uint32_t sr)
{
    uint32_t a = get(s, n), b = get(s + n, n);
    put(s, n, b);
    put(s + n, n, a);
    settle(s, n, 0, 0, sr);
}

static void push_pi(uint8_t *s, uint32_t rule, uint32_t sr)
{
    MOVE(s + 4, s, 12);
    put(s, 4, rule ? 0x02C90FDB : 0x02C90FDA);
    settle(s, 4, 0, 0, sr);
}

/* unknown 1, derived 2, any other 0 */
static uint32_t known(uint32_t code)
{
    switch (code) {
    case 0x00: case 0x01: case 0x10: case 0x11: case 0x12: case 0x13: case 0x15: case 0x17:
    case 0x18: case 0x19: case 0x1A: case 0x1C: case 0x1D: case 0x1E: case 0x1F: case 0x2C:
    case 0x2D: case 0x2E: case 0x2F: case 0x34: case 0x36: case 0x37: case 0x38: case 0x39:
    case 0x6C: case 0x6D: case 0x6E: case 0x6F: case 0x74: case 0x76: case 0x77: case 0x78:
    case 0x79:
        return 0;
    default:
        return code >= 0x02 && code <= 0x0B ? 2 : 1;
    }
}

static uint32_t obey(uint8_t *s, uint32_t rule, uint8_t byte)
{
    uint32_t code = byte & 0x7F, sr = byte >> 7, refusal = known(code);
    int n = code & 0x40 ? 2 : 4;
    if (refusal)
        return refusal;
    if (s[PENDING])
        return 3;
    switch (code) {
    case 0x00: s[STATUS] = 0; s[SERVICE] = (uint8_t)sr; return 0;
    case 0x01: return root(s, rule, sr);
    case 0x10: case 0x11: case 0x12: case 0x13: return floating(s, rule, code, sr);
    case 0x15: change_float_sign(s, sr); return 0;
    case 0x17: case 0x37: case 0x77: copy_top(s, n, sr); return 0;
    case 0x18: case 0x38: case 0x78: roll(s, n, sr); return 0;
    case 0x19: case 0x39: case 0x79: exchange(s, n, sr); return 0;
    case 0x1A: push_pi(s, rule, sr); return 0;
    case 0x1C: flt(s, rule, 4, sr); return 0;
    case 0x1D: flt(s, rule, 2, sr); return 0;
    case 0x1E: return fix(s, 4, sr);
    case 0x1F: return fix(s, 2, sr);
    case 0x34: case 0x74: change_sign(s, n, sr); return 0;
    default: fixed(s, n, code & 0xF, sr); return 0;
    }
}

/* a command, and what the error memory keeps of it: the bits of each status, the code of the first that has any */
static uint32_t command(uint8_t *s, uint8_t *memory, uint32_t rule, uint8_t byte)
{
    uint32_t refusal = obey(s, rule, byte);
    uint8_t bits = s[STATUS] & ERROR_BITS;
    if (refusal == 0 && bits) {
        if (memory[BITS] == 0)
            memory[CODE] = byte & 0x7F;
        memory[BITS] |= bits;
    }
    return refusal;
}

static int bad_memory(const uint8_t *memory)
{
    return (memory[BITS] & ~ERROR_BITS) != 0 || (memory[BITS] == 0) != (memory[CODE] == 0);
}

static int bad_state(const uint8_t *s, size_t n)
{
    if (n != STATE && (n != STATE + MEMORY || bad_memory(s + STATE)))
        return 1;
    return s[PENDING] > 1 || s[SERVICE] > 1 || s[STATUS] > 0x7F;
}

/* a reset of the 19 bytes; the older part's leaves the stack, but for half a word */
static void reset(uint32_t mode, uint8_t *s)
{
    if (mode == 0) {
        CLEAR(s, STATE);
        return;
    }
    if (s[PENDING]) {
        MOVE(s, s + 1, 14);
        CLEAR(s + 14, 2);
    }
    CLEAR(s + PENDING, 3);
}

uint32_t plain_event(uint32_t mode, uint32_t rule, uint8_t *state, size_t state_length, uint32_t kind, uint8_t byte)
{
    if (mode > 1)
        return 16 * 256;
    if (rule > 1)
        return 17 * 256;
    if (bad_state(state, state_length))
        return 13 * 256;
    switch (kind) {
    case 1: push(state, &byte, 1); return 0;
    case 2: pop(state, &byte, 1); return byte;
    case 3: return 256 * (state_length == STATE ? obey(state, rule, byte) : command(state, state + STATE, rule, byte));
    case 4: return state[STATUS];
    case 5: reset(mode, state); CLEAR(state + STATE, state_length - STATE); return 0;
    case 6: state[SERVICE] = 0; return 0;
    case 7: return state_length == STATE ? 0 : state[STATE + BITS];
    case 8: CLEAR(state + STATE, state_length - STATE); return 0;
    default: return 5 * 256;
    }
}

/* what the record at the front is: 0 and its payload's length and its reply's data, or the refusal */
static uint32_t look(const uint8_t *in, size_t left, uint32_t *kind, uint32_t *payload, uint32_t *data)
{
    if (left < 2)
        return 6;
    uint32_t length = in[0] | (uint32_t)in[1] << 8;
    if (length < 2 || length > 242)
        return 7;
    if (left - 2 < length)
        return 6;
    *kind = in[2] | (uint32_t)in[3] << 8;
    *payload = length - 2;
    *data = 0;
    switch (*kind) {
    case 1: return *payload == 0 ? 7 : 0;
    case 2:
        if (*payload != 1 || in[4] < 1 || in[4] > 240)
            return 7;
        *data = in[4];
        return 0;
    case 3: return *payload == 1 ? 0 : 7;
    case 4: *data = 1; return *payload == 0 ? 0 : 7;
    case 7: *data = 2; return *payload == 0 ? 0 : 7;
    case 5: case 6: case 8: return *payload == 0 ? 0 : 7;
    default: return 5;
    }
}

static uint32_t away(uint8_t *report, uint32_t refusal)
{
    CLEAR(report, REPORT);
    report[0] = (uint8_t)refusal;
    return refusal;
}

uint32_t plain_run(uint32_t mode, uint32_t rule, uint8_t *state, size_t state_length, const uint8_t *input, size_t input_length,
                   uint8_t *replies, size_t replies_length, uint8_t *report, size_t report_length)
{
    if (report_length != REPORT)
        return 14;
    if (mode > 1)
        return away(report, 16);
    if (rule > 1)
        return away(report, 17);
    if (bad_state(state, state_length))
        return away(report, 13);
    if (input_length > MOST_INPUT)
        return away(report, 9);
    /* a state of 19 bytes has a memory beside it, which goes when the run ends */
    uint8_t beside[MEMORY] = { 0 }, *memory = state_length == STATE ? beside : state + STATE;
    size_t taken = 0, written = 0;
    uint32_t refusal = 0;
    while (taken < input_length) {
        const uint8_t *in = input + taken;
        uint8_t *out = replies + written;
        uint32_t kind = 0, payload = 0, data = 0, answer = 0;
        refusal = look(in, input_length - taken, &kind, &payload, &data);
        if (refusal == 0 && replies_length - written < 5 + data)
            refusal = 8;
        if (refusal)
            break;
        if (kind == 1) {
            push(state, in + 4, payload);
        } else if (kind == 2) {
            pop(state, out + 5, data);
        } else if (kind == 3) {
            answer = command(state, memory, rule, in[4]);
        } else if (kind == 4) {
            out[5] = state[STATUS];
        } else if (kind == 5) {
            reset(mode, state);
            CLEAR(memory, MEMORY);
        } else if (kind == 6) {
            state[SERVICE] = 0;
        } else if (kind == 7) {
            MOVE(out + 5, memory, MEMORY);
        } else {
            CLEAR(memory, MEMORY);
        }
        out[0] = (uint8_t)(3 + data);
        out[1] = 0;
        out[2] = (uint8_t)(kind + 128);
        out[3] = 0;
        out[4] = (uint8_t)answer;
        taken += 4 + payload;
        written += 5 + data;
    }
    report[0] = (uint8_t)refusal;
    for (int i = 0; i < 4; i++) {
        report[1 + i] = (uint8_t)(taken >> 8 * i);
        report[5 + i] = (uint8_t)(written >> 8 * i);
    }
    return refusal;
}

static void put_little(uint8_t *p, uint32_t w)
{
    for (int i = 0; i < 4; i++)
        p[i] = (uint8_t)(w >> 8 * i);
}

/* ---- buffers, request 13 of 02: an f64 is a sign, 11 bits of exponent plus 1023, 52 bits behind the leading one */

static uint32_t get_little(const uint8_t *p) { return p[0] | (uint32_t)p[1] << 8 | (uint32_t)p[2] << 16 | (uint32_t)p[3] << 24; }

uint32_t plain_words_to_f64(const uint8_t *words, size_t words_length, uint8_t *out, size_t out_length, uint64_t *number)
{
    size_t n = words_length / 4;
    *number = 0;
    if (words_length % 4 != 0)
        return 18;
    if (out_length / 8 < n)
        return 8;
    for (size_t i = 0; i < n; i++)
        if (!is_proper(get_little(words + 4 * i))) {
            *number = i + 1;
            return 4;
        }
    for (size_t i = 0; i < n; i++) {
        uint32_t w = get_little(words + 4 * i), high = 0;
        if (w != 0)
            high = (w & 0x80000000) | (uint32_t)(exponent(w) + 1022) << 20 | (w & 0x7FFFFF) >> 3;
        put_little(out + 8 * i, w << 29);
        put_little(out + 8 * i + 4, high);
    }
    return 0;
}

/* the word of an f64 and whether it is another value, or the refusal */
struct brought {
    uint32_t refusal, word, rounded;
};

static struct brought bring(uint32_t rule, uint64_t bits)
{
    struct brought b = { 0, 0, 0 };
    uint32_t field = (uint32_t)(bits >> 52) & 0x7FF, rest = (uint32_t)bits & 0x1FFFFFFF;
    uint32_t m = 0x800000 | ((uint32_t)(bits >> 29) & 0x7FFFFF);
    if (field == 0x7FF)
        b.refusal = 10;
    else if (bits << 1 == 0)
        b.refusal = bits == 0 ? 0 : 15;
    else if (field < 1023 - 65)
        b.refusal = 12;
    else {
        if (rule == 1 && rest + (m & 1) > 0x10000000 && ++m == 0x1000000) {
            m = 0x800000;
            field++;
        }
        if (field >= 1023 + 63)
            b.refusal = 11;
        b.word = (uint32_t)(bits >> 63) << 31 | ((field - 1022) & 0x7F) << 24 | m;
        b.rounded = rest != 0;
    }
    return b;
}

static uint64_t get_eight(const uint8_t *p) { return get_little(p) | (uint64_t)get_little(p + 4) << 32; }

uint32_t plain_f64_to_words(uint32_t rule, const uint8_t *floats, size_t floats_length, uint8_t *out, size_t out_length, uint64_t *number)
{
    size_t n = floats_length / 8, rounded = 0;
    *number = 0;
    if (rule > 1)
        return 17;
    if (floats_length % 8 != 0)
        return 18;
    if (out_length / 4 < n)
        return 8;
    for (size_t i = 0; i < n; i++) {
        struct brought b = bring(rule, get_eight(floats + 8 * i));
        if (b.refusal != 0) {
            *number = i + 1;
            return b.refusal;
        }
        rounded += b.rounded;
    }
    for (size_t i = 0; i < n; i++)
        put_little(out + 4 * i, bring(rule, get_eight(floats + 8 * i)).word);
    *number = rounded;
    return 0;
}
