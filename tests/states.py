"""What `records trace` must tell of a run, worked out from documents 01 and 02 with exact fractions, against what it tells.

states.py COUNT PROGRAM..: COUNT drawn files of records, under both rules and both resets.
"""
import random
import subprocess
import sys

from exact_words import BY_ZERO, OVERFLOW, formed, operated, proper, rooted, value

count, program = int(sys.argv[1]), sys.argv[2:]
draw = random.Random(9511)

FIXED = {0x6C: 'ADD', 0x6D: 'SUB', 0x6E: 'MUL', 0x76: 'MUU', 0x6F: 'DIV', 0x2C: 'ADD', 0x2D: 'SUB', 0x2E: 'MUL', 0x36: 'MUU', 0x2F: 'DIV'}
FLOAT = {0x10: 'FADD', 0x11: 'FSUB', 0x12: 'FMUL', 0x13: 'FDIV'}
MOVES = {0x77: (2, 'PTO'), 0x37: (4, 'PTO'), 0x17: (4, 'PTO'), 0x78: (2, 'POP'), 0x38: (4, 'POP'), 0x18: (4, 'POP'), 0x79: (2, 'XCH'), 0x39: (4, 'XCH'), 0x19: (4, 'XCH')}
OTHERS = [0x00, 0x01, 0x15, 0x1A, 0x1C, 0x1D, 0x1E, 0x1F, 0x34, 0x74]
KNOWN = [*FIXED, *FLOAT, *MOVES, *OTHERS]
DERIVED = range(0x02, 0x0C)


def number(data):
    return int.from_bytes(data, 'big')


def signed(n, bits):
    return n - (1 << bits) if n >> bits - 1 else n


class Card:
    def __init__(self):
        self.stack, self.pending, self.status, self.service, self.memory = bytes(16), 0, 0, 0, (0, 0)

    def bytes(self):
        return self.stack + bytes((self.pending, self.status, self.service, *self.memory))

    def push(self, byte):
        self.stack, self.pending = bytes((byte,)) + self.stack[:15], 1 - self.pending

    def pop(self):
        self.stack, self.pending = self.stack[1:] + self.stack[:1], 1 - self.pending

    def reset(self, older):
        stack = self.stack[1:15] + bytes(2) if self.pending else self.stack
        self.stack = stack if older else bytes(16)
        self.pending, self.status, self.service, self.memory = 0, 0, 0, (0, 0)

    def command(self, rule, sent):
        """The refusal of a command, or 0."""
        code = sent % 128
        if code not in KNOWN:
            return 2 if code in DERIVED else 1
        if self.pending:
            return 3
        if not all(proper(number(self.stack[at:at + 4])) for at in ((0, 4) if code in FLOAT else (0,) if code in (0x01, 0x1E, 0x1F) else ())):
            return 4
        width, error, carry = self.obey(rule, code)
        top = self.stack[:width]
        self.status = 0 if code == 0 else (top[0] >> 7) * 64 + (not any(top)) * 32 + error + carry
        self.service = sent // 128
        errors = self.status & 0x1E
        self.memory = self.memory[0] | errors, self.memory[1] or (code if errors else 0)
        return 0

    def obey(self, rule, code):
        """Works a command; gives the bytes of the new top, the error bits and the carry."""
        s = self.stack
        if code in FIXED:
            return self.fixed(FIXED[code], 2 if code >= 0x60 else 4)
        if code in FLOAT:
            word, error = operated(rule, FLOAT[code], number(s[4:8]), number(s[:4]))
            self.stack = word.to_bytes(4, 'big') + s[8:] + bytes(4)
            return 4, error, 0
        if code in MOVES:
            n, name = MOVES[code]
            self.stack = {'PTO': s[:n] + s[:16 - n], 'POP': s[n:] + s[:n], 'XCH': s[n:2 * n] + s[:n] + s[2 * n:]}[name]
            return n, 0, 0
        if code == 0x00:
            return 4, 0, 0
        if code == 0x1A:
            self.stack = (0x02C90FDA if rule == 'cut' else 0x02C90FDB).to_bytes(4, 'big') + s[:12]
            return 4, 0, 0
        if code == 0x15:
            if s[1] >> 7:
                self.stack = bytes((s[0] ^ 0x80,)) + s[1:]
            return 4, 0, 0
        if code in (0x34, 0x74):
            n = 2 if code == 0x74 else 4
            least = s[:n] == b'\x80' + bytes(n - 1)
            self.stack = (-number(s[:n]) % 256 ** n).to_bytes(n, 'big') + s[n:]
            return n, OVERFLOW if least else 0, 0
        return self.converted(rule, code)

    def converted(self, rule, code):
        s = self.stack
        if code == 0x01:
            word, error = rooted(rule, number(s[:4]))
            if not error:
                self.stack = word.to_bytes(4, 'big') + s[4:12] + bytes(4)
            return 4, error, 0
        if code in (0x1C, 0x1D):
            n = 4 if code == 0x1C else 2
            word, _ = formed(rule, value(0) + signed(number(s[:n]), 8 * n))
            self.stack = word.to_bytes(4, 'big') + (s[4:12] + bytes(4) if n == 4 else s[2:10] + bytes(4))
            return 4, 0, 0
        n = 4 if code == 0x1E else 2
        v = value(number(s[:4]))
        whole = abs(v).numerator // abs(v).denominator
        if whole > 256 ** n // 2 - 1:
            self.stack = s[:12] + bytes(4)
            return 4, OVERFLOW, 0
        self.stack = ((whole if v >= 0 else -whole) % 256 ** n).to_bytes(n, 'big') + s[4:12] + bytes(8 - n)
        return n, 0, 0

    def fixed(self, name, n):
        s, bits, all_ = self.stack, 8 * n, 256 ** n
        ua, ub = number(s[:n]), number(s[n:2 * n])
        a, b, least = signed(ua, bits), signed(ub, bits), -all_ // 2
        bottom, error, carry = bytes(n), 0, 0
        if name in ('ADD', 'SUB'):
            exact = b + a if name == 'ADD' else b - a
            carry = int(ub + ua >= all_) if name == 'ADD' else int(ub < ua)
            r, bottom = exact, s[:n]
            error = OVERFLOW if not least <= exact < -least or (name, a) == ('SUB', least) else 0  # the second by 000, SSUB
        elif name == 'DIV' and a == 0:
            r, error = b, BY_ZERO
        elif least in (a, b):
            r, error = least, OVERFLOW
        elif name == 'DIV':
            r = abs(b) // abs(a) * (1 if (a < 0) == (b < 0) else -1)
        elif name == 'MUL':
            r = a * b
            error = 0 if least <= r < -least else OVERFLOW
        else:
            r = a * b // all_
        self.stack = (r % all_).to_bytes(n, 'big') + s[2 * n:] + bottom
        return n, error, carry


def drawn_bytes():
    sort = draw.random()
    if sort < 0.6:
        words = [draw.choice((draw.getrandbits(32) | 0x800000, draw.randrange(-30, 31) % 128 << 24 | 0x800000 | draw.getrandbits(23), draw.getrandbits(32), 0)) for _ in range(draw.choice((1, 1, 2)))]
        return b''.join(w.to_bytes(4, 'little') for w in words)
    if sort < 0.9:
        return b''.join(draw.choice((draw.getrandbits(16), draw.randrange(-9, 9) % 65536, 0x8000)).to_bytes(2, 'little') for _ in range(draw.choice((1, 2, 3))))
    return bytes(draw.getrandbits(8) for _ in range(draw.choice((1, 1, 3, 16, 20, 240))))


def drawn_record():
    sort = draw.random()
    if sort < 0.4:
        return 1, drawn_bytes()
    if sort < 0.5:
        return 2, bytes((draw.choice((1, 2, 4, 4, 16, 240)),))
    if sort < 0.92:
        return 3, bytes((draw.choice(KNOWN) + draw.choice((0, 0, 128)) if draw.random() < 0.95 else draw.getrandbits(8),))
    return draw.choice((4, 5, 6, 7, 8)), b''


def traced(rule, older, room=65536):
    """A drawn file, and the lines that its trace must have."""
    card, file, lines = Card(), b'', []
    while len(file) < 3000 and draw.random() < 0.97:
        kind, payload = drawn_record()
        if draw.random() < 0.003:
            return file + draw.choice((b'\x02\x00\x09\x00', b'\x01\x00\x01\x00', b'\x05', b'\x03\x00\x02\x00\xf1', b'\x09\x00\x01\x00\x01', b'\x03\x00\x04\x00\x00')), lines
        file += (2 + len(payload)).to_bytes(2, 'little') + kind.to_bytes(2, 'little') + payload
        if kind == 1:
            for byte in payload:
                card.push(byte)
        elif kind == 2:
            for _ in range(payload[0]):
                card.pop()
        elif kind == 3:
            card.command(rule, payload[0])
        elif kind == 5:
            card.reset(older)
        elif kind == 6:
            card.service = 0
        elif kind == 8:
            card.memory = 0, 0
        lines.append(f'{len(lines) + 1} ' + ' '.join(f'{b:02X}' for b in card.bytes()))
    return file, lines


states = differ = 0
for _ in range(count):
    rule, older = draw.choice(('cut', 'nearest')), draw.random() < 0.5
    file, lines = traced(rule, older)
    run = subprocess.run(program + ['--am9511'] * older + ['--nearest'] * (rule == 'nearest'), input=file, stdout=subprocess.PIPE, check=True)
    got, wanted = run.stdout.decode().split('\n'), lines + ['end', '']
    states += len(lines)
    if got != wanted:
        differ += 1
        where = next((i for i, pair in enumerate(zip(got, wanted)) if pair[0] != pair[1]), min(len(got), len(wanted)))
        print(f'differs: {rule}{" Am9511" * older} record {where + 1}: {got[where:where + 1]}, and not {wanted[where:where + 1]}, before it {got[where - 1:where]}')
print(f'{states} states of {count} files, {differ} differ')
sys.exit(1 if differ else 0)
