#!/usr/bin/env python3
"""Reads and checks large guide files and prints how long each took.

usage: bench/guides.py

A small program over guide_toml (bench/guide_check.txt, a Rattle source kept out of the gate by its name) is proved and
built in a fresh folder (some minutes; what stands proved in `crates/*/out` isn't proved again), and run on guides of 2,000
nodes: segments with an id each; segments with one id, told apart by the codes that they pick; and loops nested eight deep.
Then on guides with long lists of codes: one list of an element, without and with as many codes that aren't used, and two slots
of one id whose picks have no code in common.
"""
import os
import shutil
import subprocess
import tempfile

HERE = os.path.dirname(os.path.abspath(__file__))
HEAD = 'name = "BENCH"\ngroup = "PO"\nset = "850"\nversion = "005010"\nnodes = [\n'
LETTERS = 'BCDFHJKLMNOPQRTUVWXYZ'


def word(n):
    return LETTERS[n // 441 % 21] + LETTERS[n // 21 % 21] + LETTERS[n % 21]


def segment(name, least, extra='elements=["128 M ID 2 3"]'):
    return f'{{seg="{name}", min={least}, max=1, {extra}}},\n'


def one_id_each(count):
    return HEAD + ''.join(segment(word(n), 0) for n in range(count)) + ']\n'


def one_id_for_all(count):
    return HEAD + ''.join(segment('REF', 0, f'pick=["1 {word(n)}"], elements=["128 M ID 2 3"]')
                          for n in range(count)) + ']\n'


def nested(count):
    def level(depth, first):
        inner = '' if depth == 1 else level(depth - 1, first + 1)
        return f'{{loop="L{depth}", min=0, max=9, nodes=[\n{segment(word(first), 1)}{inner}]}},\n'
    return HEAD + ''.join(level(8, 8 * n) for n in range(count // 16)) + ']\n'


def codes(first, count):
    return ' '.join(f'{n:06d}' for n in range(first, first + count))


def one_list(count):
    return HEAD + segment('REF', 0, f'elements=["128 M ID 2 6 = {codes(0, count)}"]') + ']\n'


def two_lists(count):
    return HEAD + segment('REF', 0, f'elements=["128 M ID 2 6 = {codes(0, count)} ! {codes(count, count)}"]') + ']\n'


def rivals(count):
    return HEAD + ''.join(segment('REF', 0, f'pick=["1 {codes(first, count)}"], elements=["128 M ID 2 6"]')
                          for first in (0, count)) + ']\n'


def main():
    with tempfile.TemporaryDirectory() as folder:
        crates = os.path.join(folder, 'crates')
        for crate in ('hub_kinds', 'guide_tree', 'toml_keys', 'guide_toml'):
            shutil.copytree(os.path.join(HERE, '..', 'crates', crate), os.path.join(crates, crate))
        os.makedirs(os.path.join(crates, 'guide_check', 'src'))
        shutil.copy(os.path.join(HERE, 'guide_check.txt'), os.path.join(crates, 'guide_check', 'src', 'main.rt'))
        with open(os.path.join(folder, 'crates.txt'), 'w') as listed:
            listed.write('hub_kinds:\nguide_tree: hub_kinds\ntoml_keys: hub_kinds toml thiserror\n'
                         'guide_toml: toml_keys guide_tree hub_kinds toml thiserror\n'
                         'guide_check: guide_toml\n')
        open(os.path.join(folder, 'MODULE.bazel'), 'w').close()
        for name, text in (('2,000 segments, an id each', one_id_each(2000)),
                           ('2,000 segments, one id, other codes', one_id_for_all(2000)),
                           ('2,000 nodes, eight loops deep', nested(2000)),
                           ('10,000 codes', one_list(10_000)), ('10,000 codes and 10,000 unused', two_lists(10_000)),
                           ('40,000 codes', one_list(40_000)), ('40,000 codes and 40,000 unused', two_lists(40_000)),
                           ('rivals with 10,000 codes each', rivals(10_000)), ('20,000', rivals(20_000)),
                           ('40,000', rivals(40_000))):
            path = os.path.join(folder, 'guide.toml')
            with open(path, 'w') as out:
                out.write(text)
            said = subprocess.run(['rt', 'run', '--', path], cwd=os.path.join(crates, 'guide_check'),
                                  capture_output=True, text=True)
            told = [line for line in said.stdout.splitlines() if 'microseconds' in line]
            print(f'{name}: {told[0] if told else said.stdout + said.stderr}')


main()
