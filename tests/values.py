"""What ./formula --value must tell, worked out with exact fractions, against what it tells.

values.py COUNT COMMAND: COUNT drawn formulas, with decimals, words and letters, under both rules.
"""
import random
import subprocess
import sys

from exact_words import brought, operated, short_line

count, command = int(sys.argv[1]), sys.argv[2]
draw = random.Random(39)
NAMES = {'+': 'FADD', '-': 'FSUB', '*': 'FMUL', '/': 'FDIV'}


def drawn_decimal():
    """A text and its exact fraction, never one that has no word."""
    places = draw.randrange(1, 12)
    digits = draw.randrange(10 ** draw.randrange(1, 13))
    return f'{digits // 10 ** places}.{digits % 10 ** places:0{places}d}', digits, 10 ** places


def drawn_word():
    return draw.choice((draw.getrandbits(32) | 0x800000, draw.randrange(-20, 20) % 128 << 24 | 0x800000 | draw.getrandbits(23), 0))


def drawn(rule, letters, budget):
    """A formula as text, its rank (0 a sum, 1 a product, 2 a factor), the words of the stack that it needs, and its word."""
    if budget == 0 or draw.random() < 0.1:
        sort = draw.random()
        if sort < 0.4:
            text, k, d = drawn_decimal()
            return text, 2, 1, brought(rule, False, k, d)[0]
        if sort < 0.5:
            word = drawn_word()
            return f'#{word:08X}', 2, 1, word
        letter = draw.choice('abcdefgh')
        if letter not in letters:
            if draw.random() < 0.5:
                text, k, d = drawn_decimal()
                negative = draw.random() < 0.5
                letters[letter] = '-' * negative + text, brought(rule, negative, k, d)[0]
            else:
                word = drawn_word()
                letters[letter] = f'{word:08X}', word
        return letter, 2, 1, letters[letter][1]
    if draw.random() < 0.15:
        text, rank, need, word = drawn(rule, letters, budget - 1)
        return '-' + (text if rank == 2 else f'({text})'), 2, need, word ^ 0x80000000 if word & 0x800000 else word
    sign = draw.choice('+-*/')
    mine = 0 if sign in '+-' else 1
    left, right = drawn(rule, letters, budget - 1), drawn(rule, letters, budget // 2 if budget > 1 else 0)
    text = (left[0] if left[1] >= mine else f'({left[0]})') + sign + (right[0] if right[1] > mine else f'({right[0]})')
    return text, mine, max(left[2], right[2] + 1), operated(rule, NAMES[sign], left[3], right[3])[0]


cases = operations = differ = 0
while cases < count:
    rule, letters = draw.choice(('cut', 'nearest')), {}
    text, _, need, word = drawn(rule, letters, draw.randrange(1, 7))
    if need > 4 or len(text) > 120:
        continue
    cases += 1
    operations += sum(c in '+-*/' for c in text)
    given = [f'{letter}={told}' for letter, (told, _) in letters.items()]
    run = subprocess.run([command, *(['--nearest'] if rule == 'nearest' else []), '--value', '--', text, *given], stdout=subprocess.PIPE, stderr=subprocess.PIPE, text=True)
    if run.returncode or run.stdout != short_line(rule, word) + '\n':
        differ += 1
        print(f'differs: {rule} {text} {" ".join(given)}: {run.stdout.strip()}{run.stderr.strip()}, and not {short_line(rule, word)}')
print(f'{cases} formulas of {operations} operations and signs, {differ} differ')
sys.exit(1 if differ else 0)
