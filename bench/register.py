#!/usr/bin/env python3
"""Times the register of control numbers: so many workers record the places of an index, each once.

usage: bench/register.py [RUNS]

A small program over number_register and job_pool (bench/register.txt, kept out of the gate by its name, with the module `recording` of
the crate trial_workers and its proofs) is proved and built in a fresh folder (some minutes). It is run with 1 worker and with 4 over
texts of 200,000 sets, whose numbers rise or fall, and of 100,000 and 1,000,000 groups in one interchange; printed are the least times
and their ratio, and, where there is valgrind, the instructions a place with one worker."""
import os
import re
import shutil
import subprocess
import sys
import tempfile

TOP = os.path.join(os.path.dirname(os.path.abspath(__file__)), '..')
CRATES = ('hub_kinds', 'x12_bytes', 'x12_segs', 'isa_scan', 'cut_plan', 'env_marks', 'env_index', 'claim_desk', 'job_pool',
          'work_core', 'number_register')
PROGRAM = 'register_timer: job_pool number_register env_index hub_kinds\n'
HEADER = (b'ISA*00*          *00*          *01*ACME           *ZZ*HUB            '
          b'*260228*0900*^*00501*000000007*0*P*>~')


def of_sets(count, each, falls):
    parts = [HEADER]
    for group in range(1, count // each + 1):
        parts.append(b'GS*PO*ACME*BOLT*20260228*0900*%d*X*005010~' % group)
        for k in range(each):
            number = each - k if falls else k + 1
            parts.append(b'ST*850*%09d~SE*2*%09d~' % (number, number))
        parts.append(b'GE*%d*%d~' % (each, group))
    return b''.join(parts) + b'IEA*%d*000000007~' % (count // each)


def of_groups(count):
    groups = (b'GS*PO*ACME*BOLT*20260228*0900*%d*X*005010~GE*0*%d~' % (k, k) for k in range(count, 0, -1))
    return HEADER + b''.join(groups) + b'IEA*%d*000000007~' % count


TEXTS = (('1,000 groups of 200 sets, rising', lambda: of_sets(200_000, 200, False)),
         ('1,000 groups of 200 sets, falling', lambda: of_sets(200_000, 200, True)),
         ('one group of 200,000 sets, rising', lambda: of_sets(200_000, 200_000, False)),
         ('one group of 200,000 sets, falling', lambda: of_sets(200_000, 200_000, True)),
         ('100,000 groups, falling', lambda: of_groups(100_000)),
         ('1,000,000 groups, falling', lambda: of_groups(1_000_000)))


def build(folder):
    crates = os.path.join(folder, 'crates')
    for crate in CRATES:
        shutil.copytree(os.path.join(TOP, 'crates', crate), os.path.join(crates, crate))
    program, trial = os.path.join(crates, 'register_timer'), os.path.join(TOP, 'crates', 'trial_workers')
    os.makedirs(os.path.join(program, 'src'))
    shutil.copy(os.path.join(TOP, 'bench', 'register.txt'), os.path.join(program, 'src', 'main.rt'))
    shutil.copy(os.path.join(trial, 'src', 'recording.rt'), os.path.join(program, 'src'))
    for at, _, files in os.walk(os.path.join(trial, 'proofs', 'recording')):
        to = os.path.join(program, 'proofs', os.path.relpath(at, os.path.join(trial, 'proofs')))
        os.makedirs(to)
        for name in files:
            with open(os.path.join(at, name), encoding='utf-8') as it, open(os.path.join(to, name), 'w', encoding='utf-8') as out:
                out.write(it.read().replace('Rattle.trial_workers.', 'Rattle.register_timer.'))
    with open(os.path.join(TOP, 'crates.txt')) as listed, open(os.path.join(folder, 'crates.txt'), 'w') as out:
        out.writelines([line for line in listed if line.split(':')[0] in CRATES] + [PROGRAM])
    shutil.copy(os.path.join(TOP, 'HANDLES'), folder)
    open(os.path.join(folder, 'MODULE.bazel'), 'w').close()
    said = subprocess.run(['rt', 'run'], cwd=program, capture_output=True, text=True)
    built = os.path.join(program, 'out', 'register_timer')
    if not os.path.exists(built):
        sys.exit(said.stdout + said.stderr)
    return built


def took(built, text, workers):
    """How many places were recorded, and the microseconds."""
    places, recorded, time = subprocess.run([built, text, str(workers)], capture_output=True, text=True, check=True).stdout.split()
    assert places == recorded
    return int(places), int(time)


def instructions(built, text, places):
    if not shutil.which('valgrind'):
        return ''
    with tempfile.NamedTemporaryFile() as out:
        words = ['valgrind', '--tool=callgrind', f'--callgrind-out-file={out.name}', built, text, '1']
        subprocess.run(words, capture_output=True, check=True)
        said = subprocess.run(['callgrind_annotate', '--inclusive=yes', out.name], capture_output=True, text=True).stdout
    found = re.search(r'^ *([\d,]+) .*recording::recorded_of', said, re.M)
    return f', {int(found[1].replace(",", "")) / places:.0f} instructions a place' if found else ''


def main():
    runs = int(sys.argv[1]) if len(sys.argv) > 1 else 3
    with tempfile.TemporaryDirectory() as folder:
        built, text = build(folder), os.path.join(folder, 'text.x12')
        for name, make in TEXTS:
            with open(text, 'wb') as out:
                out.write(make())
            (places, one), (_, four) = (min(took(built, text, workers) for _ in range(runs)) for workers in (1, 4))
            print(f'{name}: {places} places, {one / 1000:.1f} ms, with 4 workers {four / one:.2f} times'
                  f'{instructions(built, text, places)}', flush=True)


if __name__ == '__main__':
    main()
