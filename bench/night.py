#!/usr/bin/env python3
"""Runs nighthub over whole nights and over nights that somebody made to be slow, and prints what they cost.

usage: bench/night.py [PROGRAM]     (crates/nighthub/out/nighthub if absent)

Nights of 8, 16, 32 and 64 MB, of orders and ship notices for the bundled setup and guides (make_night.py), are made in a fresh
folder. For each: seconds (the least of five runs), megabytes a second, the ratio to counting the terminators of the same file, the
peak memory and its ratio to the input; then the growth from 8 to 64 MB. Where there is valgrind: the instructions a byte of the
night of 8 MB, and where they go, each function by itself and with all that it calls.

Then what is hostile, at two sizes, the greater ten times the smaller, with the growth of the processor time between them: it is to
be little more than 10 (n log n), never near 100.
"""
import os
import re
import shutil
import subprocess
import sys
import tempfile
import time

from make_night import write_night

HERE = os.path.dirname(os.path.abspath(__file__))
PROGRAM = os.path.join(HERE, '..', 'crates', 'nighthub', 'out', 'nighthub')
EXAMPLES = os.path.join(HERE, '..', 'examples')
GUIDES = [os.path.join(EXAMPLES, 'guides', name) for name in ('h850.toml', 'h856.toml')]
SETUP, COUNTERS = (os.path.join(EXAMPLES, 'night', name) for name in ('setup.toml', 'counters.toml'))
SIZES = (8, 16, 32, 64)
RUNS = 5
MOST = 98

ISA = b'ISA*00*          *00*          *%s*%-15s*ZZ*HUB            *260228*0900*^*00501*%09d*0*P*>~'
GS = b'GS*PO*%s*BOLT*20260228*0900*%d*X*005010~'
ORDER = b'BEG*00*SA*PO100**20260228~PO1*1*5*EA*2.50~'
LAUNCHER = """import os, sys, time
begun = time.perf_counter()
child = os.posix_spawn(sys.argv[1], sys.argv[1:], os.environ)
_, status, used = os.wait4(child, 0)
print(os.waitstatus_to_exitcode(status), time.perf_counter() - begun, used.ru_utime + used.ru_stime, used.ru_maxrss / 1024,
      file=sys.stderr)"""


def counted(path):
    """The seconds that reading the file and counting its terminators takes."""
    begun = time.perf_counter()
    with open(path, 'rb') as text:
        text.read().count(b'~')
    return time.perf_counter() - begun


def words_of(program, folder, path, setup=SETUP, counters=COUNTERS, paths=GUIDES):
    out = os.path.join(folder, 'out')
    shutil.rmtree(out, ignore_errors=True)
    os.mkdir(out)
    guides = [word for guide in paths for word in ('--guide', guide)]
    return [program, '--setup', setup, *guides, '--counters', counters, '--at', '202603011530', '--in', path, '--out', out]


def run(words):
    """Status, seconds, processor seconds and the peak memory in MB of 1,024 times 1,024 bytes."""
    said = subprocess.run([sys.executable, '-ISc', LAUNCHER, *words], stdout=subprocess.DEVNULL, stderr=subprocess.PIPE, text=True,
                          check=True).stderr.splitlines()[-1].split()
    return int(said[0]), *map(float, said[1:4])


def nights(program, folder):
    took = {}
    for size in SIZES:
        path = os.path.join(folder, f'{size}.x12')
        write_night(path, size)
        length, base = os.path.getsize(path), min(counted(path) for _ in range(RUNS))
        runs = [run(words_of(program, folder, path)) for _ in range(RUNS)]
        took[size], peak = min(seconds for _, seconds, _, _ in runs), max(peak for _, _, _, peak in runs)
        print(f'night of {length / 1e6:.1f} MB: {took[size]:.2f} s, {length / 1e6 / took[size]:.1f} MB a second, '
              f'{took[size] / base:.1f} times counting terminators, peak {peak:.0f} MB, {peak * 1048576 / length:.2f} times the input, '
              f'status {runs[0][0]}', flush=True)
    print(f'growth from {SIZES[0]} to {SIZES[-1]} MB: {took[SIZES[-1]] / took[SIZES[0]]:.1f} times', flush=True)


# where the instructions go

def instructions(program, folder):
    if not shutil.which('valgrind'):
        return
    path, profile = os.path.join(folder, f'{SIZES[0]}.x12'), os.path.join(folder, 'profile')
    length = os.path.getsize(path)
    said = subprocess.run(['valgrind', '--tool=callgrind', f'--callgrind-out-file={profile}', *words_of(program, folder, path)],
                          capture_output=True, text=True).stderr
    total = int(re.search(r'Collected : (\d+)', said)[1])
    print(f'instructions: {total / length:.1f} a byte')
    for title, flag in (('by itself', '--inclusive=no'), ('with all that it calls', '--inclusive=yes')):
        told = subprocess.run(['callgrind_annotate', flag, f'--threshold={MOST}', profile], capture_output=True, text=True).stdout
        lines = re.findall(r'^ *([\d,]+) \(.*?\) +\S*?:(\S.*?)(?: \[.*)?$', told, re.M)
        print(f'  {title}, a byte:')
        for count, name in lines[:24]:
            print(f'    {int(count.replace(",", "")) / length:6.1f}  {name}')
    sys.stdout.flush()


# what is hostile: each writes an input of so many parts

def interchange(out, number, parts, groups=1):
    out.write(ISA % (b'01', b'ACME', number))
    out.writelines(parts)
    out.write(b'IEA*%d*%09d~' % (groups, number))


def one_group(sets, count):
    return [GS % (b'ACME', 12), *sets, b'GE*%d*12~' % count]


def order(number, inner=ORDER, segments=4):
    return b'ST*850*%07d~%sSE*%d*%07d~' % (number, inner, segments, number)


def truncated(out, count):
    out.writelines(ISA % (b'01', b'ACME', k) for k in range(1, count + 1))


def truncated_groups(out, count):
    out.writelines(ISA % (b'01', b'ACME', k) + GS % (b'ACME', 12) + b'ST*850*0001~' for k in range(1, count + 1))


def refused(out, count):
    # IEA01 counts a group that isn't there: each is answered by a TA1
    for k in range(count):
        out.write(ISA % (b'01', b'ACME', k * 7919 % count) + b'IEA*1*%09d~' % (k * 7919 % count))


def many_groups(out, count):
    # IEA01 counts 99,999 groups at most
    for number in range(1, count // 50_000 + 1):
        interchange(out, number, (GS % (b'ACME', k) + b'GE*0*%d~' % k for k in range(50_000, 0, -1)), 50_000)


def one_number(out, count):
    for number in range(1, count // 50_000 + 1):
        interchange(out, number, (GS % (b'ACME', 7) + order(7) + b'GE*1*7~' for _ in range(50_000)), 50_000)


def uncounted_groups(out, count):
    interchange(out, 1, (GS % (b'ACME', k) + b'GE*0*%d~' % k for k in range(count, 0, -1)), count)


def long_order(out, count):
    interchange(out, 1, one_group([order(1, b'BEG*00*SA*PO100**20260228~' + b'PO1*1*5*EA*2.50~' * count, count + 3)], 1))


def long_head(out, count):
    interchange(out, 1, one_group([order(1, b'REF*DP*100*SALES~' * count, count + 2)], 1))


def long_stray(out, count):
    interchange(out, 1, one_group([order(1, b'QQ*1~' * count, count + 2)], 1))


def long_notice(out, count):
    body = b'BSN*00*SH1*20260228*0900~HL*1**S~' + b''.join(b'HL*%d*%d*O~' % (k, k % 7 + 1) for k in range(count, 1, -1))
    text = b'ST*856*0001~%sSE*%d*0001~' % (body, count + 3)
    interchange(out, 1, [(GS % (b'ACME', 12)).replace(b'PO', b'SH'), text, b'GE*1*12~'])


def long_segment(out, count):
    interchange(out, 1, one_group([order(1, b'BEG' + b'*1>2^3' * count + b'~', 3)], 1))


def mixed_sets(out, count):
    # 7,919 shares no factor with the powers of 10, so each number comes once
    interchange(out, 1, one_group((order(k * 7919 % count) for k in range(count)), count))


def twin_sets(out, count):
    interchange(out, 1, one_group((order(7) for _ in range(count)), count))


def mixed_interchanges(out, count):
    for k in range(count):
        interchange(out, k * 7919 % count, one_group([order(1)], 1))


def line_ends(out, count):
    interchange(out, 1, one_group([order(1, b'\r\n~' * count + ORDER, 4)], 1))


def partner(k):
    return b'P%06d' % k


def partners_night(out, count):
    for k in range(count):
        out.write(ISA % (b'ZZ', partner(k), 1) + GS % (partner(k), 1) + order(1) + b'GE*1*1~IEA*1*000000001~')


def write_setup(folder, count):
    """The setup and the counters of so many partners; each sends to the next but one."""
    paths = [os.path.join(folder, name) for name in ('setup.toml', 'counters.toml')]
    with open(paths[0], 'w') as out:
        out.write('[hub]\nqualifier = "ZZ"\nid = "HUB"\ncode = "HUB"\nusage = "P"\n')
        for k in range(count):
            name = partner(k).decode()
            out.write(f'[[partner]]\nname = "{name}"\nqualifier = "ZZ"\nid = "{name}"\ncode = "{name}"\nelement = "|"\n'
                      'component = ":"\nrepetition = "^"\nterminator = "!"\ncap = 9\nguides = ["H850"]\n')
        out.writelines(f'[[route]]\ncode = "{code}"\nto = "{partner(k).decode()}"\n'
                       for k, code in [(0, 'BOLT'), *((k, partner(k).decode()) for k in range(count))])
    with open(paths[1], 'w') as out:
        out.write('version = 2\n')
        out.writelines(f'[[counter]]\npartner = "{partner(k).decode()}"\ninterchange = 1\ngroup = 1\nset = 1\n' for k in range(count))
    return paths


HOSTILE = (('truncated interchanges', truncated, 100_000), ('truncated interchanges, each with an open set', truncated_groups, 50_000),
           ('refused interchanges, mixed numbers, each answered', refused, 100_000),
           ('groups, falling numbers', many_groups, 100_000), ('groups with an order, one number', one_number, 50_000),
           ('groups of one interchange, too many to be counted', uncounted_groups, 100_000), ('lines of one order', long_order, 9_000),
           ('segments of one order, all but twelve too many', long_head, 100_000),
           ('strays of one order', long_stray, 100_000), ('levels of one notice', long_notice, 9_900),
           ('elements of one segment', long_segment, 100_000), ('sets of one group, mixed numbers', mixed_sets, 100_000),
           ('sets of one group, one number', twin_sets, 100_000), ('interchanges, mixed numbers', mixed_interchanges, 40_000),
           ('empty segments of one order', line_ends, 100_000))


def timed(program, folder, path, *files):
    runs = [run(words_of(program, folder, path, *files)) for _ in range(2)]
    return min(spent for _, _, spent, _ in runs), max(peak for _, _, _, peak in runs)


def hostile(program, folder):
    path = os.path.join(folder, 'in.x12')
    for name, write, few in HOSTILE:
        told = []
        for count in (few, 10 * few):
            with open(path, 'wb') as out:
                write(out, count)
            told.append((os.path.getsize(path), *timed(program, folder, path)))
        show(f'{10 * few:,} {name}', told)
    told = []
    for count in (500, 5_000):
        with open(path, 'wb') as out:
            partners_night(out, count)
        told.append((os.path.getsize(path), *timed(program, folder, path, *write_setup(folder, count))))
    show('5,000 partners, each with an order', told)


def show(name, told):
    (_, before, _), (length, spent, peak) = told
    print(f'{name}: {length / 1e6:.1f} MB in {spent:.2f} processor seconds, {before:.3f} for a tenth: growth {spent / before:.1f}; '
          f'peak {peak:.0f} MB, {peak * 1048576 / length:.1f} times the input', flush=True)


def main():
    program = os.path.abspath(sys.argv[1] if len(sys.argv) > 1 else PROGRAM)
    if not os.access(program, os.X_OK):
        sys.exit(f'{program} is no program: build it first')
    with tempfile.TemporaryDirectory() as folder:
        nights(program, folder)
        instructions(program, folder)
        hostile(program, folder)


if __name__ == '__main__':
    main()
