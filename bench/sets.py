#!/usr/bin/env python3
"""Checks whole sets by the built rules, compares faults and codes with those that this script works out by itself, and times them.

usage: bench/sets.py [SETS]

A small program over set_check (bench/set_check.txt and bench/set_check_proof.txt, kept out of the gate by their names) is proved
and built in a fresh folder (some minutes; what stands proved in `crates/*/out` isn't proved again). It checks each set twice, by the
guide and by the compiled guide. Faults, their elements, codes, whether a set is clean and its verdicts are compared with those that
follow from the rules as they are worded (set_rules.py), on random guides and sets (set_draws.py):
- all bodies of up to five segments of three small guides;
- SETS random sets or more (20,000 if absent), forty under each random guide: nested loops, bounds from 0 to 0 on, picks, a
  dictionary, random rows and conditions, tolerated codes; and sets without a guide;
- as many, twenty under each guide with a hierarchy, with dependencies or with both: HL slots with strict rows, others and none,
  numbers that are repeated, unknown, later or empty, needs and bans of slots and elements, several on one slot.
A guide that the check refuses as ambiguous is left out, and is to be ambiguous by the script too. Then, both ways, sets of 100,000
and of 1,000,000 segments are timed, and the growth of the processor time printed, and, where there is valgrind, the instructions of
each segment of clean orders of the house guide; then by compiled guides trees of 10,000 and 100,000 HL segments, orders with forty
dependencies and without, and segments by a row of 10,000 codes and of 10.
"""
import itertools
import os
import random
import re
import resource
import shutil
import statistics
import subprocess
import sys
import tempfile
from collections import Counter

from elements import IK403
from set_draws import guide_text, random_cases, ruled_cases, small_cases
from set_rules import IK304, codes_of, element, faults_of, is_ambiguous, verdict_of

HERE = os.path.dirname(os.path.abspath(__file__))
HOUSE = os.path.join(HERE, '..', 'examples', 'guides', 'h850.toml')
USES = ('set_check', 'guide_fast', 'env_index', 'guide_toml', 'guide_tree', 'hub_kinds', 'x12_segs', 'x12_bytes')
# by the guide as it is (`check_set`), and by its compiled one (`check_set_fast`)
WAYS = ('exact', 'compiled')
FRONT = (b'ISA*00*          *00*          *01*ACME           *ZZ*HUB            '
         b'*260228*0900*^*00501*000000007*0*P*>~GS*PO*ACME*BOLT*20260228*0900*12*X*005010~')
BACK = b'GE*1*12~IEA*1*000000007~'
RUNS = 5


def wanted_of(guide, made):
    """What the program is to print of a set, and its faults and verdict."""
    header, body, trailer = made
    faults = faults_of(guide, body) if guide else []
    codes, later = (codes_of(guide, faults, header, body, trailer, earlier) for earlier in (False, True))
    lines = ['set ' + ' '.join(str(list(element(header, k))) for k in (1, 2, 3))]
    for position, code, name, loop_id, number, told in faults:
        line = f'{position} {list(name.encode("latin-1"))} {list(loop_id.encode())} {code} {number}'
        if told:
            line += f' {told[0]} {told[1]} {told[2]} {told[3]} {list(told[4])} {list(told[5])}'
        lines.append(line)
    verdict = verdict_of(guide, faults, codes)
    lines += [' '.join(['codes', *codes]), 'clean ' + ('true' if not faults and not codes else 'false'),
              f'verdict {verdict} {verdict_of(guide, faults, later)}']
    return lines, faults, verdict


def set_text(made):
    header, body, trailer = made
    return b'~'.join([header, *body] + ([trailer] if trailer else [])) + b'~'


# the program

def crates_below(names, lines):
    """These crates and all that they stand on, as crates.txt lists them."""
    below = {line.split(':')[0]: line.split(':')[1].split() for line in lines if ':' in line}
    needed, left = set(), list(names)
    while left:
        name = left.pop()
        if name in below and name not in needed:
            needed.add(name)
            left += below[name]
    return needed


def build(folder):
    crates = os.path.join(folder, 'crates')
    with open(os.path.join(HERE, '..', 'crates.txt')) as listed:
        lines = [line.split('#')[0] for line in listed]
    needed = crates_below(USES, lines)
    for crate in sorted(needed):
        shutil.copytree(os.path.join(HERE, '..', 'crates', crate), os.path.join(crates, crate))
    program = os.path.join(crates, 'set_checker')
    os.makedirs(os.path.join(program, 'src'))
    shutil.copy(os.path.join(HERE, 'set_check.txt'), os.path.join(program, 'src', 'main.rt'))
    proof = os.path.join(program, 'proofs', 'check_interchange')
    os.makedirs(proof)
    shutil.copy(os.path.join(HERE, 'set_check_proof.txt'), os.path.join(proof, 'Answers.antt'))
    kept = [line.strip() for line in lines if line.split(':')[0] in needed]
    with open(os.path.join(folder, 'crates.txt'), 'w') as out:
        out.write('\n'.join(kept + [f'set_checker: {" ".join(USES)}', '']))
    open(os.path.join(folder, 'MODULE.bazel'), 'w').close()
    said = subprocess.run(['rt', 'run'], cwd=program, capture_output=True, text=True)
    built = os.path.join(program, 'out', 'set_checker')
    if not os.path.exists(built):
        sys.exit(said.stdout + said.stderr)
    return built


def write_case(folder, number, guide, sets):
    """A line for the program: the path of the guide, and that of an interchange with one group of these sets."""
    paths = [os.path.join(folder, f'{number}.{end}') for end in ('toml', 'x12')]
    with open(paths[0], 'w') as out:
        out.write(guide_text(guide) if guide else '')
    with open(paths[1], 'wb') as out:
        out.write(FRONT + b''.join(set_text(made) for made in sets) + BACK)
    return f'{paths[0] if guide else "-"} {paths[1]}\n'


def run(built, folder, cases):
    """What is printed, case by case and set by set; nothing of a guide that is refused. It is the same both ways."""
    listed = os.path.join(folder, 'cases')
    with open(listed, 'w') as out:
        out.writelines(write_case(folder, number, guide, sets) for number, (guide, sets) in enumerate(cases))
    said, compiled = (subprocess.run([built, way, listed], capture_output=True, text=True, check=True).stdout for way in WAYS)
    for one, other in zip(said.split('case\n'), compiled.split('case\n')):
        assert one == other, f'by the guide:\n{one}by the compiled guide:\n{other}'
    assert said == compiled
    parts = said.split('case\n')[1:]
    assert len(parts) == len(cases), (len(parts), len(cases))
    return [part.replace('\nset ', '\n\nset ').split('\n\n') for part in parts]


def compare(title, built, folder, cases):
    refused, seen, verdicts, clean = 0, Counter(), Counter(), 0
    for printed, (guide, sets) in zip(run(built, folder, cases), cases):
        is_refused = printed[0].startswith('refused')
        assert is_refused == (guide is not None and is_ambiguous(guide['nodes'])), guide_text(guide)
        if is_refused:
            refused += 1
            continue
        assert len(printed) == len(sets), (len(printed), len(sets))
        for told, made in zip(printed, sets):
            got, (wanted, faults, verdict) = told.splitlines(), wanted_of(guide, made)
            if got != wanted:
                beside = '\n'.join(f'{"  " if a == b else "! "}{a!s:60} {b}' for a, b in itertools.zip_longest(got, wanted))
                sys.exit(f'{guide_text(guide) if guide else "no guide"}\n{set_text(made)}\ngot, and wanted:\n{beside}')
            seen.update(f'IK403 {told[3]}' if told else f'IK304 {code}' for _, code, _, _, _, told in faults)
            verdicts[verdict] += 1
            clean += not faults
    print(f'{title}: {len(cases) - refused} guides, {refused} refused as ambiguous; {verdicts.total()} sets, {seen.total()} faults, '
          f'{clean} sets without one, verdicts ' + ', '.join(f'{name} {verdicts[name]}' for name in 'AER') + '; all equal, both ways')
    for name, order in (('IK304', IK304), ('IK403', IK403)):
        print(f'  {name}: ' + ', '.join(f'{code} {seen[f"{name} {code}"]}' for code in order if (name, code) != ('IK304', '8')),
              flush=True)


# what large sets cost

ORDER_HEAD = [b'BEG*00*SA*PO100**20260228', b'REF*DP*100*SALES', b'DTM*002*20260228*0900', b'N9*DP*100', b'MSG*HANDLE WITH CARE',
              b'N1*ST*NORTH STORE*92*0001', b'N3*1 MAIN STREET*SUITE 2', b'N4*NORTHTOWN*NY*10001*US']
SECOND_PARTNER = [b'N1*BT*SOUTH OFFICE*92*0002', b'N3*2 HIGH ROAD', b'N4*SOUTHTOWN*NY*10002*US']
ORDER_LINE = [b'PO1*1*5*EA*2.50*TE*UP*012345678905', b'PID*F*08***BLUE CHAIR']


def sealed(body):
    return b'ST*850*0001', body, b'SE*%d*0001' % (len(body) + 2)


def long_set(part, count):
    """A set of so many segments: an order's, then this part again and again."""
    return sealed(ORDER_HEAD + (part * count)[:count - 2 - len(ORDER_HEAD)])


def written(folder, text, name='timed'):
    path = os.path.join(folder, f'{name}.toml')
    with open(path, 'w') as out:
        out.write(text)
    return path


def counting(folder, guide, *sets, way='compiled'):
    """The words that have the program count the faults of sets by a guide file."""
    path, listed = os.path.join(folder, 'long.x12'), os.path.join(folder, 'cases')
    with open(path, 'wb') as out:
        out.write(FRONT + b''.join(set_text(made) for made in sets) + BACK)
    with open(listed, 'w') as out:
        out.write(f'{guide} {path}\n')
    return [way, listed, 'count']


def processor():
    """The processor seconds of all programs that were run so far."""
    used = resource.getrusage(resource.RUSAGE_CHILDREN)
    return used.ru_utime + used.ru_stime


def grow(built, folder, way):
    # the house guide, but for the greatest number of lines
    with open(HOUSE) as house:
        wide = written(folder, house.read().replace('max=99999,', 'max=999999,'))
    for name, part in (('clean lines', ORDER_LINE), ('an element wrong in each', [b'PO1*1*5*EA*2.50*TE*UP', b'PID*G']),
                       ('strays', [b'QQ*1']), ('one segment too often', ORDER_HEAD[:1]), ('one loop too often', ORDER_HEAD[3:5])):
        took, spent = [], []
        for count in (100_000, 1_000_000):
            words, before = counting(folder, wide, long_set(part, count), way=way), processor()
            said = [subprocess.run([built, *words], capture_output=True, text=True, check=True).stdout for _ in range(RUNS)]
            told = re.findall(r'(\d+) faults in (\d+) nanoseconds', ''.join(said))
            took.append(min(int(nanoseconds) for _, nanoseconds in told) / 1e6)
            spent.append((processor() - before) / RUNS)
        print(f'{way}, {name}: {took[1]:.0f} ms for 1,000,000 segments with {told[0][0]} faults, {took[0]:.1f} ms for 100,000, the least '
              f'of {RUNS} runs; the whole program {spent[1]:.2f} and {spent[0]:.3f} processor seconds: growth {spent[1] / spent[0]:.1f}',
              flush=True)


def median(built, folder, guide, sets, runs=RUNS):
    """Nanoseconds that the check of a set takes, which must be clean: the median over all sets and runs."""
    words = counting(folder, guide, *sets)
    said = ''.join(subprocess.run([built, *words], capture_output=True, text=True, check=True).stdout for _ in range(runs))
    told = re.findall(r'(\d+) faults in (\d+) nanoseconds', said)
    assert {count for count, _ in told} == {'0'}, told[:3]
    return statistics.median(int(nanoseconds) for _, nanoseconds in told)


HIERARCHY = """name = "BENCH"
group = "SH"
set = "856"
version = "005010"
hl = {pairs=["/S", "S/O", "O/O"], sequential=%s}
nodes = [{loop="HL", min=1, max=999999, nodes=[
 {seg="HL", min=1, max=1, elements=["628 M AN 1 99", "734 O AN 1 99", "735 M ID 1 2 = S O", "736 O ID 1 1 = 0 1"]}]}]
"""


def tree(numbers, parents):
    """A set of HL segments with these numbers, each but the first with a parent, named by its index."""
    named = set(parents)
    made = [b'HL*' + numbers[0] + b'**S*1']
    made += [b'HL*%s*%s*O*%d' % (numbers[n], numbers[above], n in named) for n, above in enumerate(parents, 1)]
    return sealed(made)


def counted(count):
    return [b'%d' % n for n in range(1, count + 1)]


def alike(count):
    """Numbers of 86 bytes that differ in the last six alone."""
    return [b'A' * 80 + b'%06d' % n for n in range(count)]


def scattered(draw, numbers):
    return tree(draw.sample(numbers, len(numbers)), [draw.randrange(n) for n in range(1, len(numbers))])


# what is special, whether HL01 counts, and the set with so many HL segments
TREES = [
    ('all name one parent', 'true', lambda count: tree(counted(count), [0] * (count - 1))),
    ('each names the one before', 'true', lambda count: tree(counted(count), range(count - 1))),
    ('each names the one before by 86 bytes, the first 80 always the same', 'false', lambda count: tree(alike(count), range(count - 1))),
    ('the same numbers in random order, each names an earlier one at random', 'false',
     lambda count: scattered(random.Random(7), alike(count))),
]


def grow_hierarchies(built, folder):
    for name, sequential, shape in TREES:
        guide = written(folder, HIERARCHY % sequential)
        few, many = (shape(count) for count in (10_000, 100_000))
        # by turns, so that both have the same work beside them
        took = [(median(built, folder, guide, [few], 1), median(built, folder, guide, [many], 1)) for _ in range(2 * RUNS + 1)]
        few_takes, many_takes = (statistics.median(one) for one in zip(*took))
        print(f'HL segments, {name}: {many_takes / 1e6:.1f} ms for 100,000, {few_takes / 1e6:.2f} ms for 10,000: growth '
              f'{many_takes / few_takes:.1f}', flush=True)
        if shutil.which('valgrind'):
            few, many = (instructions(built, counting(folder, guide, made)) for made in (few, many))
            print(f'  {few / 1e4:.0f} instructions a segment of 10,000, {many / 1e5:.0f} of 100,000: growth {many / few:.2f}', flush=True)


# slots with an element and the code that triggers; and what is asked, which the orders here keep
OF_MANY_SLOTS = ([('BEG', 1, '00'), ('REF', 1, 'DP'), ('DTM', 1, '002'), ('PO1', 3, 'EA'), ('PID', 1, 'F')],
                 [('need', 'PO1', 0), ('need', 'PO1', 2), ('need', 'PID', 1), ('ban', 'PID', 3), ('need', 'N1', 4), ('ban', 'CTT', 0),
                  ('ban', 'BEG', 4), ('need', 'MSG', 1)])
OF_ONE_SLOT = ([('PO1', 1, '1'), ('PO1', 2, '5'), ('PO1', 3, 'EA'), ('PO1', 4, '2.50'), ('PO1', 5, 'TE')],
               [('need', 'PO1', k) for k in range(8)])


def with_forty(text, triggers, targets):
    """The house guide of orders, each slot with its id for a label, and with forty dependencies that the orders here keep."""
    asked = [f'{{kind="{kind}", slot="{slot}", at={at}, codes=["{code}"], target="{target}", element={k}}}'
             for slot, at, code in triggers for kind, target, k in targets]
    assert len(set(asked)) == 40
    labelled = re.sub(r'seg="(\w+)",', r'seg="\1", label="\1",', text)
    return labelled.replace('nodes = [', 'depends = [\n' + ',\n'.join(asked) + ']\nnodes = [', 1)


def dear_dependencies(built, folder):
    with open(HOUSE) as house:
        text = house.read()
    plain = written(folder, text, 'plain')
    for name, asked in (('many slots', OF_MANY_SLOTS), ('one slot', OF_ONE_SLOT)):
        ruled = written(folder, with_forty(text, *asked), 'ruled')
        for count, copies in ((30, 2_000), (1_000, 100), (100_000, 1)):
            # by turns, so that both have the same work beside them
            made = [long_set(ORDER_LINE, count)] * copies
            took = [(median(built, folder, ruled, made, 1), median(built, folder, plain, made, 1)) for _ in range(RUNS)]
            ruled_takes, plain_takes = (statistics.median(one) for one in zip(*took))
            print(f'an order of {count} segments: {ruled_takes / 1e3:.1f} microseconds with forty dependencies of {name}, all triggered '
                  f'and kept, {plain_takes / 1e3:.1f} without: {ruled_takes / plain_takes:.2f} times', flush=True)
            if count < 100_000 and shutil.which('valgrind'):
                one, other = (instructions(built, counting(folder, guide, made[0])) for guide in (ruled, plain))
                print(f'  {one} and {other} instructions: {one / other:.2f} times', flush=True)


def instructions(built, words, clean=True):
    """How many instructions the program spends in the check, of a set that is clean or not."""
    said = subprocess.run(['valgrind', '--tool=callgrind', '--callgrind-out-file=/dev/null', '--toggle-collect=*checked_set*',
                           built, *words], capture_output=True, text=True, check=True)
    assert ('\n0 faults' in said.stdout) == clean, said.stdout
    return int(re.search(r'Collected : (\d+)', said.stderr)[1])


def clean(built, folder, way):
    if not shutil.which('valgrind'):
        return
    ordinary = sealed(ORDER_HEAD + SECOND_PARTNER + ORDER_LINE * 10 + [b'CTT*10'])
    used = instructions(built, counting(folder, HOUSE, ordinary, way=way)) / (len(ordinary[1]) + 2)
    print(f'{way}, a clean order of ten lines with a description, of two partners: {used:.0f} instructions a segment', flush=True)
    for name, part in (('lines with a description', ORDER_LINE), ('short lines', [b'PO1*1*5*EA*2.50'])):
        few, many = (instructions(built, counting(folder, HOUSE, long_set(part, count), way=way)) for count in (10_000, 100_000))
        print(f'{way}, a clean order, {name}: {many / 100_000:.0f} instructions a segment of 100,000, growth from 10,000 {many / few:.2f}',
              flush=True)


# a guide with many codes on a row, by which each segment of a set is judged

CODED = """name = "BENCH"
group = "PO"
set = "850"
version = "005010"
nodes = [{seg="REF", min=0, max=999999, elements=["127 M ID 1 9 = %s"]}]
"""


def many_codes(built, folder):
    if not shutil.which('valgrind'):
        return
    for what, last in (('the last of them', 0), ('none of them', 1)):
        used = []
        for count in (10, 10_000):
            guide = written(folder, CODED % ' '.join(f'C{n}' for n in range(count)))
            made = sealed([b'REF*C%d' % (count - 1 + last)] * 2_000)
            used.append(instructions(built, counting(folder, guide, made), clean=not last) / 2_000)
        print(f'{what} on a row of 10,000 codes: {used[1]:.0f} instructions a segment, of 10 codes {used[0]:.0f}: '
              f'{used[1] / used[0]:.2f} times', flush=True)


def main():
    count = int(sys.argv[1]) if len(sys.argv) > 1 else 20_000
    with tempfile.TemporaryDirectory() as folder:
        built = build(folder)
        compare('all bodies of up to five segments', built, folder, list(small_cases()))
        # more than half of the random guides are ambiguous, so three times as many are made
        compare('random sets under random guides', built, folder, list(random_cases(3 * count)))
        compare('random sets under random guides with a hierarchy or dependencies', built, folder, list(ruled_cases(3 * count)))
        for way in WAYS:
            grow(built, folder, way)
            clean(built, folder, way)
        grow_hierarchies(built, folder)
        dear_dependencies(built, folder)
        many_codes(built, folder)


if __name__ == '__main__':
    main()
