#!/usr/bin/env python3
"""Prints how much memory a compiled guide takes against its file.

usage: bench/guide_memory.py [PROGRAM]     (crates/nighthub/out/nighthub if absent; GNU time is wanted)

The program's peak is taken with 10 copies of a guide and with 30, each of a name and version of its own: once with an input that isn't
there, so that the guides are read and no more, and once on a night of one set. What 20 copies add is what 20 guides take, read or
compiled. Beside it stands the peak while one guide is read. The guides are the house guides of examples/, and others up to the limits:
positions in a row, loops in a row and in one another (of the narrow ones all turns are kept), many elements, and many codes.
"""
import os
import re
import subprocess
import sys
import tempfile

from checks import PARTNER, guide, interchange, name_of, row, sealed, segment, write
from night import GUIDES, PROGRAM, words_of

FEW, MANY, RUNS = 10, 30, 3


def short(number, least=0):
    return f'{{seg="{name_of(number)}",min={least},max=1,elements=["1 O AN 1 9"]}}'


def loop_of(number, nodes):
    return f'{{loop="L{number % 1000}",min=0,max=1,nodes=[{",".join(nodes)}]}}'


def loops(count, width):
    """Loops in a row, of so many positions each."""
    return ',\n'.join(loop_of(k, [short(k * width + j, int(j == 0)) for j in range(width)]) for k in range(count))


def tree(width, depth, numbers):
    """A loop of one position and so many loops, of each of which the same is so."""
    number = next(numbers)
    below = [tree(width, depth - 1, numbers) for _ in range(width)] if depth > 1 else []
    return loop_of(number, [short(number, 1), *below])


def wide(count, rows):
    """Positions with so many elements."""
    text = ', '.join(['"127 O AN 1 9"'] * rows)
    return ',\n'.join(f'{{seg="{name_of(k)}", min=0, max=1, elements=[{text}]}}' for k in range(count))


def coded(count, codes):
    listed = ' '.join(str(k) for k in range(codes))
    return ',\n'.join(segment(name_of(k), f'127 O ID 1 9 = {listed}') for k in range(count))


MADE = [('20 positions', row(20)[0]), ('2,000 positions', row(2_000)[0]),
        ('2,000 short positions', guide(0, ',\n'.join(short(k) for k in range(2_000)))),
        ('62 loops of 31 positions', guide(0, loops(62, 31))), ('500 loops of 3 positions', guide(0, loops(500, 3))),
        ('loops in one another, two in each', guide(0, tree(2, 8, iter(range(1_000))))),
        ('loops in one another, three in each', guide(0, tree(3, 6, iter(range(1_000))))),
        ('50 positions of 40 elements', guide(0, wide(50, 40))), ('10,000 codes', guide(0, coded(1, 10_000))),
        ('300 positions of 30 codes', guide(0, coded(300, 30)))]


def copy(text, number):
    """The same guide under another name, for sets of another version."""
    text = re.sub(rb'name = "[^"]*"', b'name = "G%d"' % number, text, count=1)
    return re.sub(rb'version = "[^"]*"', b'version = "%06d"' % number, text, count=1)


def peak(program, folder, text, count, night):
    """The most memory in bytes with so many copies of a guide, the least of some runs."""
    paths = [write(folder, f'{k}.toml', copy(text, k)) for k in range(count)]
    setup = write(folder, 'setup.toml', (PARTNER % ', '.join(f'"G{k}"' for k in range(count))).encode())
    words = words_of(program, folder, night, setup, write(folder, 'counters.toml', b'version = 2\n'), paths)
    said = [subprocess.run(['time', '-f', '%M', *words, '--workers', '1'], stdout=subprocess.DEVNULL, stderr=subprocess.PIPE, text=True)
            for _ in range(RUNS)]
    assert all(it.returncode in ((0, 1) if os.path.exists(night) else (4,)) for it in said), said
    return min(int(it.stderr.split()[-1]) for it in said) * 1024


def main():
    program = sys.argv[1] if len(sys.argv) > 1 else PROGRAM
    with tempfile.TemporaryDirectory() as folder:
        night, none = write(folder, 'in.x12', interchange(1, [sealed(1, [b'REF*1'])])), os.path.join(folder, 'none.x12')
        base = peak(program, folder, guide(0, segment('REF')), 1, none)
        house = [(os.path.basename(path), open(path, 'rb').read()) for path in GUIDES]
        for name, text in house + MADE:
            read, whole = ((peak(program, folder, text, MANY, it) - peak(program, folder, text, FEW, it)) / (MANY - FEW) / len(text)
                           for it in (none, night))
            reading = (peak(program, folder, text, 1, none) - base) / len(text)
            print(f'{name}: {len(text)} bytes; its rows {read:.1f} times, compiled {whole - read:.1f} times more; while one is read '
                  f'{reading:.1f} times', flush=True)


if __name__ == '__main__':
    main()
