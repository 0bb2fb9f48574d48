#!/usr/bin/env python3
"""Runs a night by 1, 2 and 4 workers beside as many nights that know nothing of each other, and prints what both gain.

usage: bench/workers.py [PROGRAM [MB]]     (crates/nighthub/out/nighthub and 64 if absent)

The shares are nights of a half and a quarter of the bytes, each of them run by one worker of its own: nothing is merged, numbered or
written together, so that they gain what the machine can give at that moment. Runs of both kinds take turns. Of each the least seconds
of nine are taken, with the processor seconds, the page faults and the peak memory of that run.
"""
import os
import subprocess
import sys
import tempfile
import time

from make_night import write_night
from night import PROGRAM, words_of

WORKERS = (1, 2, 4)
RUNS = 9


def together(commands):
    """Seconds until all have ended, their processor seconds, page faults, and the peak memory of the largest in MB."""
    begun = time.perf_counter()
    children = [os.posix_spawn(words[0], words, os.environ, file_actions=[(os.POSIX_SPAWN_OPEN, 1, os.devnull, os.O_WRONLY, 0)])
                for words in commands]
    used = [os.wait4(child, 0)[2] for child in children]
    took = time.perf_counter() - begun
    return (took, sum(it.ru_utime + it.ru_stime for it in used), sum(it.ru_minflt for it in used),
            max(it.ru_maxrss for it in used) / 1024)


def main(words):
    program = os.path.abspath(words[0] if words else PROGRAM)
    size = int(words[1]) if len(words) > 1 else 64
    with tempfile.TemporaryDirectory() as folder:
        commands = {}
        for count in WORKERS:
            share = os.path.join(folder, f'{count}.x12')
            write_night(share, size // count)
            own = [os.path.join(folder, f'{count}-{number}') for number in range(count)]
            for it in own:
                os.mkdir(it)
            commands['shares', count] = [[*words_of(program, it, share), '--workers', '1'] for it in own]
            commands['workers', count] = [[*words_of(program, folder, os.path.join(folder, '1.x12')), '--workers', str(count)]]
        best = {}
        for _ in range(RUNS):
            for kind, command in commands.items():
                for it in command:
                    out = it[it.index('--out') + 1]
                    subprocess.run(['rm', '-rf', out], check=True)
                    os.mkdir(out)
                best[kind] = min(best.get(kind, (1e9,)), together(command))
        for count in WORKERS:
            for kind, what in (('workers', f'a night by {count} workers'), ('shares', f'{count} nights of a share each')):
                took, processor, faults, peak = best[kind, count]
                print(f'{what}: {took:.3f} s, {best[kind, 1][0] / took:.2f} times as fast as one, {processor:.2f} s of processors, '
                      f'{faults:,} page faults, peak {peak:.0f} MB')
            gains = [best[kind, 1][0] / best[kind, count][0] for kind in ('workers', 'shares')]
            print(f'  {gains[0] / gains[1]:.2f} of what the shares gain')


if __name__ == '__main__':
    main(sys.argv[1:])
