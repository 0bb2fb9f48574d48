#!/usr/bin/env python3
"""Checks the elements of segments by the built rules, and compares and times them.

usage: bench/elements.py [SLOTS]

A small program over elem_rules (bench/element_check.txt, a Rattle source kept out of the gate by its name) is proved and
built in a fresh folder (some minutes; what stands proved in `crates/*/out` isn't proved again). On SLOTS random slots (100 if
absent), each with 40 random segments, its faults are compared with those that this script works out from the rules by itself.
Then a segment whose second element is 999 occurrences of a composite is timed with 16 MB and with 1.6 MB, and the growth
printed; rows that may be repeated 999 times are compared with rows that may not be, and 3,000 conditions on one slot with 30,
on segments that meet them and on segments that break them. Last, where there is valgrind, the instructions and the requests for
memory of a clean segment of each slot of the house guides.
"""
import calendar
import itertools
import os
import random
import re
import shutil
import statistics
import string
import subprocess
import sys
import tempfile

HERE = os.path.dirname(os.path.abspath(__file__))
CRATES = ('x12_bytes', 'x12_segs', 'hub_kinds', 'guide_tree', 'toml_keys', 'guide_toml', 'elem_rules')
LISTED = '''x12_bytes:
x12_segs: x12_bytes memchr
hub_kinds:
guide_tree: hub_kinds
toml_keys: hub_kinds toml thiserror
guide_toml: toml_keys guide_tree hub_kinds toml thiserror
elem_rules: guide_tree hub_kinds x12_segs x12_bytes jiff memchr
element_check: elem_rules guide_tree guide_toml hub_kinds x12_segs x12_bytes
'''
HEAD = 'name = "BENCH"\ngroup = "PO"\nset = "850"\nversion = "005010"\n'
RUNS = 5
COPIES = 500
# a clean segment for each slot of the house guides, in their order
CLEAN = {
    'h850.toml': [b'BEG*00*SA*PO100**20260228', b'REF*DP*100*SALES', b'DTM*002*20260228*0900', b'N9*DP*100', b'MSG*HANDLE WITH CARE',
                  b'N1*ST*NORTH STORE*92*0001', b'N3*1 MAIN STREET*SUITE 2', b'N4*NORTHTOWN*NY*10001*US',
                  b'PO1*1*5*EA*2.50*TE*UP*012345678905', b'PID*F*08***BLUE CHAIR', b'CTT*3'],
    'h856.toml': [b'BSN*00*SHIP1*20260228*0900*0001', b'HL*2*1*O*1', b'LIN*1*UP*012345678905', b'SN1*1*5*EA', b'PRF*PO100',
                  b'TD5*B*2*ABCD*M', b'REF*DP*100*SALES', b'MAN*GM*00000000000000000001', b'DTM*011*20260228*0900',
                  b'N1*ST*NORTH STORE*92*0001'],
}
IK403 = ['1', '2', '3', '4', '5', '6', '7', '8', '9', '10', '12', '13', 'I6', 'I9', 'I10', 'I12', 'I13']


def empty(text):
    return not text.strip(b'>^')


def without_empty_end(parts):
    while parts and empty(parts[-1]):
        parts = parts[:-1]
    return parts


def exists(day):
    if not day.isdigit() or len(day) not in (6, 8):
        return False
    if len(day) == 6:
        day = b'20' + day
    year, month, number = int(day[:4]), int(day[4:6]), int(day[6:])
    return year >= 1 and 1 <= month <= 12 and 1 <= number <= calendar.monthrange(year, month)[1]


def is_time(text):
    if len(text) not in (4, 6, 7, 8):
        return False
    return int(text[:2]) <= 23 and int(text[2:4]) <= 59 and (len(text) == 4 or int(text[4:6]) <= 59)


def has_form(kind, wide, text):
    digits = b'0123456789'
    if kind in ('AN', 'ID'):
        return all(32 <= b <= 126 or wide and b >= 128 for b in text)
    if kind in ('DT', 'TM'):
        return all(b in digits for b in text)
    rest = text[1:] if text[:1] == b'-' else text
    if kind == 'R':
        return all(b in b'0123456789.' for b in rest) and rest.count(b'.') <= 1 and any(b in digits for b in rest)
    return len(rest) > 0 and all(b in digits for b in rest)


def value_fault(row, text):
    kind = row['type']
    if not has_form(kind, row['wide'], text):
        return '6'
    counted = text
    if kind == 'R' or kind[0] == 'N':
        counted = text.replace(b'-', b'').replace(b'.', b'')
    if len(counted) < row['min']:
        return '4'
    if len(counted) > row['max']:
        return '5'
    if row['used'] and text not in row['used']:
        return 'I6' if text in row['unused'] else '7'
    if kind == 'DT' and not exists(text):
        return '8'
    if kind == 'TM' and not is_time(text):
        return '9'
    return None


def element_faults(rows, conditions, segment):
    elements = without_empty_end(segment.split(b'*')[1:])
    found = set()

    def element(k):
        return elements[k - 1] if k <= len(elements) else b''

    def tell(k, component, repetition, code, reference, copy):
        found.add((k, component, repetition, code, reference, copy))

    if len(elements) > len(rows):
        tell(len(rows) + 1, 0, 0, '3', b'', element(len(rows) + 1))
    for k, row in enumerate(rows, 1):
        text = element(k)
        if row['kind'] == 'unused':
            if not empty(text):
                tell(k, 0, 0, 'I10', row['ref'], text)
            continue
        if empty(text):
            if row['needed']:
                tell(k, 0, 0, '1', row['ref'], b'')
            continue
        occurrences = without_empty_end(text.split(b'^'))
        if len(occurrences) > row['repeat']:
            tell(k, 0, row['repeat'] + 1, '12', row['ref'], occurrences[row['repeat']])
        for n, occurrence in enumerate(occurrences[:row['repeat']], 1):
            if empty(occurrence):
                continue
            shown = n if row['repeat'] > 1 else 0
            parts = without_empty_end(occurrence.split(b'>'))
            below = row['components'] if row['kind'] == 'composite' else [row]
            if len(parts) > len(below):
                tell(k, len(below) + 1, shown, '13', row['ref'], parts[len(below)])
                continue
            for m, part_row in enumerate(below, 1):
                part = parts[m - 1] if m <= len(parts) else b''
                at = m if row['kind'] == 'composite' else 0
                if part_row['kind'] == 'unused':
                    if part:
                        tell(k, at, shown, 'I10', part_row['ref'], part)
                elif not part:
                    if part_row['needed']:
                        tell(k, at, shown, '1', part_row['ref'], b'')
                else:
                    code = value_fault(part_row, part)
                    if code:
                        tell(k, at, shown, code, part_row['ref'], part)
    for letter, positions in conditions:
        present = [p for p in positions if not empty(element(p))]
        absent = [p for p in positions if p not in present]
        others = positions[1:]
        wrong = []
        if letter == 'P' and present:
            wrong = absent
        elif letter == 'R' and not present:
            wrong = positions[:1]
        elif letter == 'E':
            wrong = present[1:]
        elif letter == 'C' and positions[0] in present:
            wrong = absent
        elif letter == 'L' and positions[0] in present and not any(p in present for p in others):
            wrong = others[:1]
        for p in wrong:
            if letter == 'E':
                tell(p, 0, 0, '10', rows[p - 1]['ref'], element(p))
            else:
                tell(p, 0, 0, '2', rows[p - 1]['ref'], b'')
    return sorted(found, key=lambda f: (f[0], f[1], f[2], IK403.index(f[3])))


def random_code(draw):
    return bytes(draw.choice(b'AB0') for _ in range(draw.randint(1, 3)))


def random_simple(draw):
    least = draw.randint(1, 8)
    row = {'kind': 'simple', 'ref': random_reference(draw), 'needed': draw.random() < .4, 'repeat': 1, 'wide': draw.random() < .2,
           'type': draw.choice(['AN', 'ID', 'N0', 'N2', 'R', 'DT', 'TM']), 'min': least if draw.random() < .5 else 1,
           'max': draw.randint(least, 9), 'used': [], 'unused': []}
    if draw.random() < .4:
        row['used'] = [random_code(draw) for _ in range(draw.randint(1, 3))]
        if draw.random() < .6:
            row['unused'] = [random_code(draw) for _ in range(draw.randint(1, 3))]
    return row


def random_reference(draw):
    return b'' if draw.random() < .1 else b'%d' % draw.randint(1, 9999)


def random_row(draw):
    kind = draw.choice(['simple'] * 4 + ['composite'] * 3 + ['unused'])
    if kind == 'unused':
        return {'kind': kind, 'ref': random_reference(draw)}
    if kind == 'simple':
        row = random_simple(draw)
    else:
        row = {'kind': kind, 'ref': random_reference(draw), 'needed': draw.random() < .4, 'components': [
            {'kind': 'unused', 'ref': random_reference(draw)} if draw.random() < .2 else random_simple(draw)
            for _ in range(draw.randint(1, 3))]}
    row['repeat'] = draw.choice([1, 1, 2, 3])
    return row


def row_text(row, inner=False):
    reference = row['ref'].decode() or '-'
    if row['kind'] == 'unused':
        return f'{reference} N'
    use = 'M' if row['needed'] else 'O'
    repeat = f" x{row['repeat']}" if row['repeat'] > 1 and not inner else ''
    if row['kind'] == 'composite':
        return f'{reference} {use} C{repeat}' + ''.join(f' ; {row_text(c, True)}' for c in row['components'])
    text = f"{reference} {use} {row['type']} {row['min']} {row['max']}{repeat}{' wide' if row['wide'] else ''}"
    if row['used']:
        text += ' = ' + b' '.join(row['used']).decode()
        if row['unused']:
            text += ' ! ' + b' '.join(row['unused']).decode()
    return text


def random_conditions(draw, count):
    if count < 2:
        return []
    return [(draw.choice('PRECL'), draw.sample(range(1, count + 1), draw.randint(2, min(4, count))))
            for _ in range(draw.randint(0, 3))]


def random_value(draw):
    made = draw.randint(0, 6)
    if made == 0:
        return b'20%02d%02d%02d' % (draw.choice([24, 26]), draw.randint(0, 13), draw.choice([0, 1, 28, 29, 30, 31]))
    if made == 1:
        return b'%02d%02d' % (draw.randint(0, 25), draw.randint(0, 61)) + draw.choice([b'', b'59', b'60', b'001', b'0000', b'5'])
    if made == 2:
        return draw.choice([b'-', b'.', b'-.', b'-1.5', b'1..2', b'--1', b'00012', b'1.', b'.5', b'-0012', b'+1', b'1-'])
    if made == 3:
        return random_code(draw)
    if made == 4:
        return bytes(draw.choice(b'A \x7f\x80\xff\x1f') for _ in range(draw.randint(1, 4)))
    return bytes(draw.choice(b'0123456789') for _ in range(draw.randint(1, 9)))


def random_element(draw):
    if draw.random() < .25:
        return draw.choice([b'', b'', b'>', b'^', b'>^>'])
    text = b''
    for _ in range(draw.choice([1, 1, 1, 2, 3, 4])):
        parts = [b'' if draw.random() < .25 else random_value(draw) for _ in range(draw.choice([1, 1, 2, 3, 4]))]
        text += b'^' * (text != b'' or draw.random() < .1) + b'>'.join(parts)
    return text


def build(folder):
    crates = os.path.join(folder, 'crates')
    for crate in CRATES:
        shutil.copytree(os.path.join(HERE, '..', 'crates', crate), os.path.join(crates, crate))
    program = os.path.join(crates, 'element_check')
    os.makedirs(os.path.join(program, 'src'))
    shutil.copy(os.path.join(HERE, 'element_check.txt'), os.path.join(program, 'src', 'main.rt'))
    with open(os.path.join(folder, 'crates.txt'), 'w') as listed:
        listed.write(LISTED)
    open(os.path.join(folder, 'MODULE.bazel'), 'w').close()
    said = subprocess.run(['rt', 'run'], cwd=program, capture_output=True, text=True)
    built = os.path.join(program, 'out', 'element_check')
    if not os.path.exists(built):
        sys.exit(said.stdout + said.stderr)
    return built


def words_for(built, folder, slots, each, text):
    guide, path = os.path.join(folder, 'guide.toml'), os.path.join(folder, 'segments')
    with open(guide, 'w') as out:
        out.write(HEAD + 'nodes = [\n' + ',\n'.join(slots) + '\n]\n')
    with open(path, 'wb') as out:
        out.write(text)
    return [built, guide, str(each), path]


def run(built, folder, slots, each, text, *words):
    words = [*words_for(built, folder, slots, each, text), *words]
    return subprocess.run(words, capture_output=True, text=True, check=True).stdout


def segment_id(number):
    return ''.join(string.ascii_uppercase[n % 26] for n in (number // 676, number // 26, number))


def slot_text(number, rows, conditions):
    elements = ', '.join(f'"{row_text(row)}"' for row in rows)
    told = ', '.join(f'"{letter}{"".join("%02d" % p for p in positions)}"' for letter, positions in conditions)
    return f'{{seg="{segment_id(number)}", min=0, max=1, elements=[{elements}], conditions=[{told}]}}'


def random_night(count, each):
    """Slots as texts, segments, and the faults that are wanted, one a line."""
    draw = random.Random(5010)
    slots, segments, wanted = [], [], []
    for number in range(count):
        rows = [random_row(draw) for _ in range(draw.randint(0, 6))]
        conditions = random_conditions(draw, len(rows))
        slots.append(slot_text(number, rows, conditions))
        for _ in range(each):
            segment = b'*'.join([b'TST'] + [random_element(draw) for _ in range(draw.randint(0, len(rows) + 2))])
            segments.append(segment)
            wanted += [f'{len(segments)} {f[0]} {f[1]} {f[2]} {f[3]} {list(f[4])} {list(f[5])}'
                       for f in element_faults(rows, conditions, segment)]
    return slots, segments, wanted


def compare(built, folder, count):
    slots, segments, wanted = random_night(count, 40)
    got = run(built, folder, slots, 40, b'~'.join(segments) + b'~').splitlines()
    for a, b in itertools.zip_longest(got, wanted):
        if a != b:
            number = int((b or a).split()[0])
            sys.exit(f'{slots[(number - 1) // 40]}\n{segments[number - 1]}\ngot    {a}\nwanted {b}')
    print(f'{count} slots, {len(segments)} segments: {len(wanted)} faults, all equal')


def grow(built, folder):
    slot = '{seg="TST", min=1, max=1, elements=["1 M AN 1 9", "2 M C x999 ; 3 M AN 1 9999 ; 4 O AN 1 9999 ; 5 O R 1 9999"]}'
    least = []
    for size in (1_600_000, 16_000_000):
        part = size // 999 // 3 - 1
        occurrence = b'A' * part + b'>' + b'B' * part + b'>' + b'1' * part
        text = b'TST*X*' + b'^'.join([occurrence] * 999) + b'~'
        said = [run(built, folder, [slot], 1, text, 'count').strip() for _ in range(RUNS)]
        least.append(min(int(line.split()[-2]) for line in said))
        print(f'{len(text) / 1e6:.1f} MB: {least[-1] / 1e6:.1f} ms, the least of {RUNS} runs')
    print(f'growth from the smaller to the larger: {least[1] / least[0]:.1f}')


def median(built, folder, rows, conditions, segment):
    """Nanoseconds that the check of a segment takes: the median of many, the least of a few runs."""
    told = ', '.join(f'"{text}"' for text in conditions)
    rows = ', '.join(f'"{row}"' for row in rows)
    slot = f'{{seg="TST", min=0, max=1, elements=[{rows}], conditions=[{told}]}}'
    text = (segment + b'~') * COPIES
    return min(statistics.median(int(line.split()[-2]) for line in run(built, folder, [slot], COPIES, text, 'count').splitlines())
               for _ in range(RUNS))


def repeated(built, folder):
    for name, rows, segment in (
            ('clean', ['1 M AN 1 9@', '2 O ID 2 3@ = AB CD', '3 O R 1 9@', '4 O DT 8 8@'], b'TST*ABC*CD*1.5*20260228'),
            ('with faults', ['1 M AN 1 9@', '2 O ID 2 3@ = AB CD', '3 O R 1 9@', '4 O DT 8 8@'], b'TST**EF*1.x*20260230'),
            ('a composite', ['1 M C@ ; 2 M AN 1 9 ; 3 O AN 1 9', '4 O AN 1 9@'], b'TST*A>B*C')):
        once, often = (median(built, folder, [row.replace('@', repeat) for row in rows], [], segment) for repeat in ('', ' x999'))
        print(f'{name}: {often:.0f} ns where a row may be repeated 999 times, {once:.0f} where not: {often / once:.2f} times')


def listed(built, folder):
    draw = random.Random(40)
    rows = [f'{n} O AN 1 9' for n in range(1, 41)]
    for name, letters, segment in (
            ('all present', 'PRCL', b'TST' + b'*A' * 40), ('none present', 'PECL', b'TST*'),
            ('every second present', 'PRECL', b'TST' + b'*A*' * 20), ('one pair, broken', '', b'TST*A')):
        took = []
        for count in (30, 3000):
            drawn = [draw.choice(letters) + '%02d%02d' % tuple(draw.sample(range(1, 41), 2)) for _ in range(count)] if letters \
                else ['P0102'] * count
            took.append(median(built, folder, rows, drawn, segment))
        print(f'conditions, {name}: {took[1]:.0f} ns for 3,000, {took[0]:.0f} for 30: {took[1] / took[0]:.1f} times')


def instructions(words):
    """How many instructions the program spends in the check."""
    said = subprocess.run(['valgrind', '--tool=callgrind', '--callgrind-out-file=/dev/null', '--toggle-collect=*faults_of*',
                           *words], capture_output=True, text=True, check=True)
    if ' 0 faults' not in said.stdout:
        sys.exit(said.stdout)
    return int(re.search(r'Collected : (\d+)', said.stderr)[1])


def requests(words):
    """How often the whole program asks for memory."""
    said = subprocess.run(['valgrind', *words], capture_output=True, text=True, check=True).stderr
    return int(re.search(r'([\d,]+) allocs', said)[1].replace(',', ''))


def clean(built, folder):
    if not shutil.which('valgrind'):
        return
    spent = []
    for name, segments in CLEAN.items():
        with open(os.path.join(HERE, '..', 'examples', 'guides', name)) as guide:
            slots = re.findall(r'\{seg=.*?\]\}', guide.read())
        for slot, segment in zip(slots, segments, strict=True):
            spent.append(instructions(words_for(built, folder, [slot], 9, segment + b'~') + ['count']))
            two, three = (requests(words_for(built, folder, [slot], 9, (segment + b'~') * n) + ['count']) for n in (2, 3))
            print(f'{name} {segment.decode()}: {spent[-1]} instructions, {three - two} requests for memory')
    print(f'a clean segment: {statistics.mean(spent):.0f} instructions, the mean of {len(spent)}')


def main():
    with tempfile.TemporaryDirectory() as folder:
        built = build(folder)
        compare(built, folder, int(sys.argv[1]) if len(sys.argv) > 1 else 100)
        grow(built, folder)
        repeated(built, folder)
        listed(built, folder)
        clean(built, folder)


if __name__ == "__main__":
    main()
