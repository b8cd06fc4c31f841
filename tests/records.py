"""What ./records must write and tell, by rules of its own, on drawn records and texts.

records.py COUNT PROGRAM..: COUNT drawn records, each told by the program, read back, and written from a text of this file's own making.
"""
import random
import subprocess
import sys
from fractions import Fraction

count, program = int(sys.argv[1]), sys.argv[2:]
draw = random.Random(9511)
MOST = 12288

NAMES = {}
for text, first in (('NOP SQRT SIN COS TAN ASIN ACOS ATAN LOG LN EXP PWR', 0x00), ('FADD FSUB FMUL FDIV', 0x10), ('CHSF', 0x15),
                    ('PTOF POPF XCHF PUPI', 0x17), ('FLTD FLTS FIXD FIXS', 0x1C), ('DADD DSUB DMUL DDIV', 0x2C), ('CHSD', 0x34),
                    ('DMUU PTOD POPD XCHD', 0x36), ('SADD SSUB SMUL SDIV', 0x6C), ('CHSS', 0x74), ('SMUU PTOS POPS XCHS', 0x76)):
    for i, name in enumerate(text.split()):
        NAMES[first + i] = name
PLAIN = {4: 'status', 5: 'reset', 6: 'acknowledge', 7: 'recall', 8: 'forget', 258: 'close'}


def record(kind, payload):
    return (2 + len(payload)).to_bytes(2, 'little') + kind.to_bytes(2, 'little') + payload


def float_word(rule, negative, value):
    """The word of an exact fraction, cut or rounded to 24 bits, ties to even."""
    if value == 0:
        return 0
    e = 0
    while value >= Fraction(2) ** e:
        e += 1
    while value < Fraction(2) ** (e - 1):
        e -= 1
    scaled = value * Fraction(2) ** (24 - e)
    m = scaled.numerator // scaled.denominator
    if rule == 'nearest':
        m = round(scaled)
        if m == 1 << 24:
            m, e = 1 << 23, e + 1
    return (int(negative) << 31) | (e % 128) << 24 | m


def drawn():
    """A record as bytes, and its text."""
    kind = draw.choice((1, 1, 1, 2, 3, 3, 3, 4, 5, 6, 7, 8, 256, 257, 258))
    if kind == 1:
        size = draw.randrange(1, 241) if draw.random() < 0.1 else draw.randrange(1, 17)
        payload = bytes(draw.getrandbits(8) for _ in range(size))
        words, at = [], 0
        while at < size:
            step = 4 if size - at >= 4 else 2 if size - at >= 2 else 1
            words.append(payload[at:at + step][::-1].hex().upper())
            at += step
        return record(1, payload), 'push ' + ' '.join(words)
    if kind == 2:
        n = draw.randrange(1, 241)
        return record(2, bytes([n])), f'pop {n}'
    if kind == 3:
        code = draw.getrandbits(8)
        name = NAMES.get(code & 127)
        return record(3, bytes([code])), f'command {code:02X}' if name is None else name + (' sr' if code & 128 else '')
    if kind == 256:
        serial = draw.getrandbits(draw.randrange(1, 33))
        return record(256, serial.to_bytes(4, 'little')), f'open {serial}'
    if kind == 257:
        slot = draw.getrandbits(8)
        return record(257, bytes([slot])), f'keep {slot}'
    return record(kind, b''), PLAIN[kind]


def drawn_push(rule):
    """A push of drawn words, bytes and decimals as a person may write it."""
    words, payload = [], b''
    while len(payload) < 230 and (not words or draw.random() < 0.7):
        sort = draw.randrange(4)
        if sort < 3:
            size = 1 << sort
            value = draw.getrandbits(8 * size)
            text = f'{value:0{2 * size}X}' if draw.random() < 0.5 else f'{value:0{2 * size}x}'
        else:
            places = draw.randrange(1, 10)
            whole, fraction, negative, size = draw.randrange(10 ** draw.randrange(1, 12)), draw.randrange(10 ** places), draw.random() < 0.5, 4
            text = f'{"-" if negative else ""}{whole}.{fraction:0{places}d}'
            value = float_word(rule, negative, Fraction(whole * 10 ** places + fraction, 10 ** places))
        words.append(text)
        payload += value.to_bytes(size, 'little')
    return record(1, payload), 'push ' + ' '.join(words)


def dressed(text):
    """The same line with other blanks, and a comment or none."""
    parts = text.split(' ')
    line = draw.choice(('', '', ' ', '\t')) + parts[0] + ''.join(draw.choice((' ', ' ', '\t', '  ')) + p for p in parts[1:])
    return line + draw.choice(('', '', ' ', '\t', ' # ' + text, '#')) + draw.choice(('\n', '\n', '\r\n', '\n\n', '\n# x\n'))


def run(arguments, given):
    return subprocess.run(program + arguments, input=given, stdout=subprocess.PIPE, check=True).stdout


cases = differ = 0


def compare(what, got, wanted, some):
    global cases, differ
    cases += some
    if got != wanted:
        differ += 1
        if differ <= 5:
            print(f'differs: {what}: {got[:200]!r}, and not {wanted[:200]!r}')


def files(make):
    """Files of records that a run takes."""
    left = count // 2
    while left > 0:
        records, size = [], 0
        while left > 0:
            one = make()
            if size + len(one[0]) > MOST:
                break
            records.append(one)
            size += len(one[0])
            left -= 1
        yield records


for records in files(drawn):
    file = b''.join(r for r, _ in records)
    told = ''.join(t + '\n' for _, t in records).encode()
    compare('told', run(['cut', 'read'], file), told + b'\nend\n', len(records))
    compare('read back', run(['cut', 'text'], told), file + b'\nend\n', 0)
    compare('dressed', run(['nearest', 'text'], ''.join(dressed(t) for _, t in records).encode()), file + b'\nend\n', 0)
for rule in ('cut', 'nearest'):
    for records in files(lambda: drawn_push(rule) if draw.random() < 0.8 else drawn()):
        text = ''.join(dressed(t) for _, t in records[:len(records)])
        compare('written', run([rule, 'text'], text.encode()), b''.join(r for r, _ in records) + b'\nend\n', len(records))
print(f'{cases} records, {differ} files differ')
sys.exit(1 if differ else 0)
