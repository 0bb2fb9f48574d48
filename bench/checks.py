#!/usr/bin/env python3
"""Counts what the checks of sets cost: the instructions a byte of whole nights, by one worker, and their growth with the guide.

usage: bench/checks.py [PROGRAM]     (crates/nighthub/out/nighthub if absent; valgrind is wanted)

Nights of 8 MB for the bundled setup and guides, in a fresh folder: as make_night.py makes them; the same with a tenth of the segments
of bodies at fault, or with the last segment of each body a stray; sets of 100,000 segments; interchanges of 240 bytes with one set;
sets of 75 bytes; and 4 MB of ship notices alone. Then files of one partner against a small guide and a large one: strays and the ends
of a loop against 20 and 2,000 nodes, the last of 10 and of 10,000 codes, sets of the last of 10 and of 1,000 guides, by the ratio of
their instructions without those of reading the guides.
"""
import os
import random
import re
import subprocess
import sys
import tempfile

from make_night import Sender, night
from night import ISA, PROGRAM, words_of

GS = b'GS*PO*%s*BOLT*20260228*0900*%d*X*005010~'
HEAD = [b'BEG*00*SA*PO100**20260228', b'REF*DP*100*SALES', b'DTM*002*20260228*0900']
LINE = [b'PO1*1*5*EA*2.50*TE*UP*012345678905', b'PID*F*08***BLUE CHAIR']
SIZE = 8_000_000


def sealed(number, body):
    return b'~'.join([b'ST*850*%04d' % number, *body, b'SE*%d*%04d' % (len(body) + 2, number)]) + b'~'


def interchange(number, *groups):
    """Of groups, each some sets."""
    text = ISA % (b'01', b'ACME', number)
    for at, sets in enumerate(groups, 1):
        text += GS % (b'ACME', at) + b''.join(sets) + b'GE*%d*%d~' % (len(sets), at)
    return text + b'IEA*%d*%09d~' % (len(groups), number)


def with_bodies(change):
    """A night whose segments of bodies are changed: `change` has the element separator, a body and what draws."""
    draw = random.Random(7)
    for text in night(SIZE):
        element, terminator = text[3:4], text[105:106]
        segments, body = [], []
        for segment in text.split(terminator):
            kind = segment.split(element)[0]
            if kind == b'SE':
                segments += change(element, body, draw)
                body = []
            if kind in (b'ISA', b'GS', b'ST', b'SE', b'GE', b'IEA', b''):
                segments.append(segment)
            else:
                body.append(segment)
        yield terminator.join(segments)


def tenth(element, body, draw):
    return [segment + element * 12 + b'X' if draw.random() < 0.1 else segment for segment in body]


def late(element, body, _):
    return body[:-1] + [b'QQ' + element + b'1']


def long_sets():
    for number in range(1, 4):
        yield interchange(number, [sealed(1, HEAD + LINE * 49_990)])


def small_interchanges():
    for number in range(1, SIZE // 240):
        yield interchange(number, [sealed(1, [HEAD[0], b'PO1*1*5*EA*2.50'])])


def short_sets():
    body = [HEAD[0], b'PO1*1*5*EA*2.50*TE']
    for number in range(1, SIZE // 75_000):
        yield interchange(number, [sealed(k, body) for k in range(1, 1001)])


def notices():
    sender, made = Sender(random.Random(5), 'ACME'), 0
    sender.kinds = {b'856': sender.kinds[b'856']}
    while made < SIZE // 2:
        text = sender.interchange()
        made += len(text)
        yield text


NIGHTS = [('orders and notices', lambda: night(SIZE)), ('a tenth of the segments at fault', lambda: with_bodies(tenth)),
          ('the last segment of each set a stray', lambda: with_bodies(late)), ('sets of 100,000 segments', long_sets),
          ('interchanges of 240 bytes', small_interchanges), ('sets of 75 bytes', short_sets),
          ('ship notices alone', notices)]


def instructions(words):
    """How many the program takes by one worker."""
    said = subprocess.run(['valgrind', '--tool=callgrind', '--callgrind-out-file=/dev/null', *words, '--workers', '1'],
                          capture_output=True, text=True)
    assert said.returncode in (0, 1), said.stderr
    return int(re.search(r'Collected : (\d+)', said.stderr)[1])


def write(folder, name, *parts):
    path = os.path.join(folder, name)
    with open(path, 'wb') as out:
        out.writelines(parts)
    return path


# one partner, which sends to itself
PARTNER = """[hub]
qualifier = "ZZ"
id = "HUB"
code = "HUB"
usage = "P"

[[partner]]
name = "ACME"
qualifier = "01"
id = "ACME"
code = "ACME"
element = "*"
component = ">"
repetition = "^"
terminator = "~"
cap = 1000
guides = [%s]

[[route]]
code = "BOLT"
to = "ACME"
"""


def guide(number, nodes):
    """A guide file for sets of a version of its own."""
    return f'name = "G{number}"\ngroup = "PO"\nset = "850"\nversion = "{number:06}"\nnodes = [{nodes}]\n'.encode()


def segment(name, rows='127 O AN 1 9'):
    return f'{{seg="{name}", min=0, max=999999, elements=["{rows}"]}}'


def name_of(k):
    """The id of a node: three letters or digits."""
    digits = '0123456789ABCDEFGHIJKLMNOPQRSTUVWXYZ'
    return 'QR'[k // 1296] + digits[k // 36 % 36] + digits[k % 36]


def row(count):
    return [guide(0, ',\n'.join(segment(name_of(k)) for k in range(count)))]


def loop(count):
    """A loop whose first child comes once, and any other as often as it likes."""
    first = segment(name_of(0)).replace('min=0, max=999999', 'min=1, max=1')
    others = ',\n'.join(segment(name_of(k)) for k in range(1, count))
    return [guide(0, f'{{loop="L1", min=0, max=999999, nodes=[{first},\n{others}]}}')]


def coded(count):
    return [guide(0, segment('REF', '127 O ID 1 9 = ' + ' '.join(f'C{k}' for k in range(count))))]


def several(count):
    return [guide(k, segment('REF')) for k in range(count)]


def one_set(count, *segments):
    return [list(segments) * (count // len(segments))]


# what is looked at, the guides by a number, the bodies of the sets, and a small and a large number
GROWTH = [('strays, nodes in a row', row, lambda _: one_set(100_000, b'X00*1'), 20, 1_990),
          ('first and last child of a loop', loop, lambda n: one_set(100_000, name_of(0).encode() + b'*1', name_of(n - 1).encode() + b'*1'),
           20, 1_990),
          ('the last code of a row', coded, lambda n: one_set(100_000, b'REF*C%d' % (n - 1)), 10, 10_000),
          ('sets of the last guide', several, lambda _: [[b'REF*1']] * 20_000, 10, 1_000)]


def spent(program, folder, guides, sets):
    """The instructions of sets of the last of some guides, without those of a file with no sets."""
    setup = write(folder, 'setup.toml', (PARTNER % ', '.join(f'"G{k}"' for k in range(len(guides)))).encode())
    counters = write(folder, 'counters.toml', b'version = 2\n')
    paths = [write(folder, f'{k}.toml', it) for k, it in enumerate(guides)]
    text = interchange(1, [sealed(k, body) for k, body in enumerate(sets, 1)]).replace(b'*005010~', b'*%06d~' % (len(guides) - 1))
    taken = []
    for made in (text, b''):
        path = write(folder, 'in.x12', made)
        taken.append(instructions(words_of(program, folder, path, setup, counters, paths)))
    return taken[0] - taken[1]


def main():
    program = sys.argv[1] if len(sys.argv) > 1 else PROGRAM
    with tempfile.TemporaryDirectory() as folder:
        for name, make in NIGHTS:
            path = write(folder, 'in.x12', *make())
            print(f'{name}: {instructions(words_of(program, folder, path)) / os.path.getsize(path):.1f} instructions a byte', flush=True)
        for name, guides, sets, *sizes in GROWTH:
            few, many = (spent(program, folder, guides(size), sets(size)) for size in sizes)
            print(f'{name}: {sizes[1]} take {many / few:.2f} times the instructions of {sizes[0]}', flush=True)


if __name__ == '__main__':
    main()
