"""What ./word must tell, worked out with exact fractions of whole numbers from document 01's words, against what it tells.

decimals.py COUNT PROGRAM..: COUNT drawn words in short form, as many in exact form, as many drawn texts, under each rule,
and as many sums as the figures of sheets give them, a sign and 48 hex digits of the magnitude times 2^88.
"""
import random
import subprocess
import sys

from exact_words import MARK, brought, size88, word_line

count, program = int(sys.argv[1]), sys.argv[2:]
draw = random.Random(9511)
ROOM = 65536


def text_line(rule, text):
    body = text[1:] if text.startswith('-') else text
    whole, fraction = body.split('.')
    if int(whole) >= 10 ** 19 or int(fraction) >= 10 ** 19 or len(fraction) > 27:
        return None
    got = brought(rule, text.startswith('-'), int(whole + fraction), 10 ** len(fraction))
    return got if isinstance(got, str) else f'{got[0]:08X} {text}' + ('' if got[1] else MARK[rule])


def drawn_word():
    word = draw.getrandbits(32)
    if draw.random() < 0.9:
        word |= 0x800000
    if draw.random() < 0.2:
        word &= 0xFF800000 | (0xFFFFFF << draw.randrange(24)) & 0xFFFFFF
    return word


def drawn_text():
    sort = draw.random()
    if sort < 0.4:
        whole, places = draw.randrange(10 ** draw.randrange(1, 20)), draw.randrange(1, 20)
        fraction = draw.randrange(10 ** min(places, 19))
    elif sort < 0.8:
        whole, places = draw.randrange(10), draw.randrange(1, 28)
        fraction = draw.randrange(10 ** min(places, 18))
    else:
        places = draw.randrange(1, 28)
        k = (size88(drawn_word()) * 10 ** places >> 88) + draw.randrange(-1, 2)
        whole, fraction = divmod(max(k, 0), 10 ** places)
        if whole >= 10 ** 19 or fraction >= 10 ** 19:
            return drawn_text()
    return f'{"-" if draw.random() < 0.5 else ""}{whole}.{fraction:0{places}d}'


def drawn_sum():
    return f'{draw.choice("+-")}{draw.getrandbits(draw.randrange(193)) << draw.choice((0, 0, 30, 88)) & (1 << 192) - 1:048X}'


def sum_line(text):
    size = int(text[1:], 16)
    places = f'{(size % 2 ** 88) * 5 ** 88:088d}'.rstrip('0')
    return f'{"-" if text[0] == "-" and size else ""}{size >> 88}.{places or "0"}'


cases = differ = 0


def compare(rule, form, texts, wanted):
    """Runs the program on the texts, in parts that it reads at once, and counts where a line is another."""
    global cases, differ
    at = 0
    while at < len(texts):
        size, end = 0, at
        while end < len(texts) and size + len(texts[end]) + 1 <= ROOM:
            size += len(texts[end]) + 1
            end += 1
        run = subprocess.run(program + [rule, form], input='\n'.join(texts[at:end]) + '\n', stdout=subprocess.PIPE, text=True, check=True)
        lines = run.stdout.split('\n')[:-1]
        if lines[-1:] != ['end'] or len(lines) - 1 != end - at:
            sys.exit(f'the program wrote {len(lines)} lines for {end - at}')
        for text, line, right in zip(texts[at:end], lines, wanted[at:end]):
            cases += 1
            if line != right:
                differ += 1
                if differ <= 10:
                    print(f'differs: {rule} {form} {text}: {line}, and not {right}')
        at = end


for rule in ('cut', 'nearest'):
    for form in ('short', 'exact'):
        words = [drawn_word() for _ in range(count)]
        compare(rule, form, [f'{w:08X}' for w in words], [word_line(rule, form, w) for w in words])
    texts = [t for t in (drawn_text() for _ in range(count)) if len(t) <= 64]
    wanted = [text_line(rule, t) for t in texts]
    compare(rule, 'short', texts, wanted)
sums = [drawn_sum() for _ in range(count)]
compare('cut', 'sum', sums, [sum_line(t) for t in sums])
print(f'{cases} cases, {differ} differ')
sys.exit(1 if differ else 0)
