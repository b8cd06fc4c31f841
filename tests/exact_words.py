"""Float words and what the chip does with them, worked out with exact fractions of whole numbers from documents 01 and 02.
What tests/decimals.py, tests/values.py and tests/states.py compare the programs with."""
from fractions import Fraction
from math import isqrt

OVERFLOW, UNDERFLOW, NEGATIVE_ROOT, BY_ZERO = 2, 4, 8, 16
MARK = {'cut': ' cut', 'nearest': ' rounded'}


def size88(word):
    """The magnitude of a word's value, m times 2^(e-24), as so many parts of 2^88 to one."""
    return (word & 0xFFFFFF) << ((word >> 24) + 64 & 127)


def proper(word):
    return word == 0 or bool(word & 0x800000)


def value(word):
    return Fraction(-size88(word) if word >> 31 else size88(word), 2 ** 88)


def kept(rule, k, d):
    """The mantissa and exponent of k / d over zero by a rule, the exponent unbounded, and whether they are exact."""
    e = k.bit_length() - d.bit_length()
    if (k >= d << e) if e >= 0 else (k << -e >= d):
        e += 1
    over, under = (k << 24 - e, d) if e <= 24 else (k, d << e - 24)
    m, rest = divmod(over, under)
    if rule == 'nearest' and (2 * rest > under or (2 * rest == under and m % 2)):
        m += 1
        if m == 1 << 24:
            m, e = 1 << 23, e + 1
    return m, e, rest == 0


def packed(negative, m, e):
    return (0x80000000 if negative else 0) | (e % 128) << 24 | m


def brought(rule, negative, k, d):
    """The word of the exact fraction k / d with its sign by a rule, and whether it is exact; or the refusal."""
    if k == 0:
        return 0, True
    if k << 65 < d:
        return 'refused 12'
    m, e, exact = kept(rule, k, d)
    if e > 63:
        return 'refused 11'
    return packed(negative, m, e), exact


def formed(rule, exact):
    """The word of an operation's exact result, and its error bits."""
    if exact == 0:
        return 0, 0
    m, e, _ = kept(rule, abs(exact.numerator), exact.denominator)
    return packed(exact < 0, m, e), OVERFLOW if e > 63 else UNDERFLOW if e < -64 else 0


def operated(rule, name, b, a):
    """What FADD, FSUB, FMUL, FDIV make of the proper words B and A: the word and its error bits."""
    x, y = value(b), value(a)
    if name == 'FDIV':
        return formed(rule, x / y) if y else (b, BY_ZERO)
    return formed(rule, {'FADD': x + y, 'FSUB': x - y, 'FMUL': x * y}[name])


def rooted(rule, a):
    """The root of a proper word, which is an error below zero. Its first 40 bits and one for what remains tell its place."""
    k, d = value(a).numerator, value(a).denominator
    if k < 0:
        return a, NEGATIVE_ROOT
    if k == 0:
        return 0, 0
    n = (k << 320) // d
    r = isqrt(n)
    return formed(rule, Fraction(2 * r + (0 if r * r == n and (k << 320) % d == 0 else 1), 2 << 160))


def exact_text(word):
    """The whole decimal expansion of a word's value: 10^88 parts to one hold it exactly."""
    size = size88(word)
    places = f'{(size % 2 ** 88) * 5 ** 88:088d}'.rstrip('0')
    return f'{"-" if word >> 31 and size else ""}{size >> 88}.{places or "0"}'


def short_line(rule, word):
    """The fewest places that give the word back, the nearer decimal where both do."""
    size, negative = size88(word), word >> 31 == 1
    for p in range(1, 28):
        low, rest = divmod(size * 10 ** p, 2 ** 88)
        for digits in (low + 1, low) if rest >= 2 ** 87 else (low, low + 1):
            got = brought(rule, negative, digits, 10 ** p)
            if not isinstance(got, str) and got[0] == word:
                text = f'{digits // 10 ** p}.{digits % 10 ** p:0{p}d}'
                return f'{word:08X} {"-" if negative else ""}{text}' + ('' if got[1] else MARK[rule])
    return None


def word_line(rule, form, word):
    if not proper(word):
        return f'{word:08X} {exact_text(word)} improper'
    return f'{word:08X} {exact_text(word)}' if form == 'exact' else short_line(rule, word)
