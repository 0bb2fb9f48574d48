#!/usr/bin/env python3
"""What the dearest bytes that a partner can send cost: bench/dear.py [PROGRAM [MEGABYTES]]

Each night is the bundled order's interchange, whose one set is nothing but one segment again and again (or whose group is one small set
again and again), by the bundled guides and one worker; then sets of one REF, and strays, by a guide of 40 and of 2,000 segment positions
REF which `pick` tells apart. Prints for each the peak memory and the length of the outputs, as times the input, and
processor seconds a megabyte. The programs are those that stand, proved or not."""
import os
import resource
import subprocess
import sys
import tempfile

TOP = os.path.join(os.path.dirname(os.path.abspath(__file__)), "..")
PROGRAM = os.path.abspath(sys.argv[1] if sys.argv[1:] else os.path.join(TOP, "crates", "nighthub", "out", "nighthub"))
SIZE = int(float(sys.argv[2] if sys.argv[2:] else 2) * 1_000_000)
ISA = "ISA*00*          *00*          *01*ACME           *ZZ*HUB            *260228*0900*^*00501*000000007*0*P*>~"
PICKED = (40, 2000)


def interchange(group, body):
    return f"{ISA}GS*{group}*ACME*BOLT*20260228*0900*12*X*005010~{body}GE*1*12~IEA*1*000000007~"


def segments(group, st, segment):
    count = SIZE // len(segment)
    return interchange(group, f"ST*{st}*0001~{segment * count}SE*{count + 2}*0001~")


def sets(text):
    return interchange("PO", text * (SIZE // len(text)))


def picked_guide(count):
    """As H850, a guide of so many segment positions REF, each for a code of its own."""
    nodes = ",\n".join(f' {{seg="REF", min=0, max=9, pick=["1 C{k:04}"], elements=["128 M AN 1 5"]}}' for k in range(1, count + 1))
    return f'name = "H850"\ngroup = "PO"\nset = "850"\nversion = "005010"\nnodes = [\n{nodes}]\n'


NIGHTS = {
    "BEG~": segments("PO", 850, "BEG~"),
    "HL~": segments("SH", 856, "HL~"),
    "PO1~": segments("PO", 850, "PO1~"),
    "ST*850*1~": sets("ST*850*1~"),
    "ST and SE": sets("ST*850*0001~SE*2*0001~"),
    "strays of 4 bytes": segments("PO", 850, "ZZZ~"),
}
BY_PICKS = {count: {
    f"sets of the last of {count} REF": sets(f"ST*850*0001~REF*C{count:04}~SE*3*0001~"),
    f"strays among {count} REF": segments("PO", 850, "REF*C0000~"),
} for count in PICKED}


def night(name, text, order):
    with tempfile.TemporaryDirectory() as here:
        for file, content in (("in.x12", text), ("order.toml", order)):
            with open(os.path.join(here, file), "w", encoding="ascii") as it:
                it.write(content)
        os.mkdir(os.path.join(here, "out"))
        words = [PROGRAM, "--setup", f"{TOP}/examples/night/setup.toml", "--guide", f"{here}/order.toml",
                 "--guide", f"{TOP}/examples/guides/h856.toml", "--counters", f"{TOP}/examples/night/counters.toml",
                 "--at", "202603011530", "--workers", "1", "--in", f"{here}/in.x12", "--out", f"{here}/out"]
        before = resource.getrusage(resource.RUSAGE_CHILDREN)
        timed = subprocess.run(["/usr/bin/time", "-f", "%M", *words], capture_output=True, text=True)
        after = resource.getrusage(resource.RUSAGE_CHILDREN)
        peak = int(timed.stderr.split()[-1]) * 1024
        spent = after.ru_utime + after.ru_stime - before.ru_utime - before.ru_stime
        written = sum(os.path.getsize(os.path.join(here, "out", it)) for it in os.listdir(os.path.join(here, "out")))
        print(f"| `{name}` | {peak / len(text):.0f} | {written / len(text):.0f} | {spent / len(text) * 1e6:.2f} |", flush=True)


def main():
    with open(f"{TOP}/examples/guides/h850.toml", encoding="ascii") as it:
        order = it.read()
    print("| An interchange of nothing but | Memory | Outputs | Seconds a megabyte |\n|---|---|---|---|")
    for name, text in NIGHTS.items():
        night(name, text, order)
    for count, nights in BY_PICKS.items():
        for name, text in nights.items():
            night(name, text, picked_guide(count))


if __name__ == "__main__":
    main()
