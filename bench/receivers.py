#!/usr/bin/env python3
"""Compares what several receivers get with what each of them gets alone: bench/receivers.py [PROGRAM [SEED..]]

Each night of tests/nights is run with receivers picked at random for its routes and counters picked at random, and then once for each
partner with the routes that lead to this partner, to it alone. Its acknowledgments, its mailbox, its counters and the held lines that name
it have to be the same, byte for byte; its groups (GS06) and interchanges have to be numbered on from its counters; and the held lines of
a set have to stand in the order of its route. PROGRAM is crates/nighthub/out/nighthub if none is named. It needs Python 3.11. The last line
counts."""
import concurrent.futures as futures
import os
import random
import subprocess
import sys
import tempfile
import tomllib

TOP = os.path.join(os.path.dirname(os.path.abspath(__file__)), "..")
NIGHTS = os.path.join(TOP, "tests", "nights")
GREATEST = 999_999_999


def read(*path):
    with open(os.path.join(*path), encoding="latin-1", newline="") as it:
        return it.read()


def quoted(text):
    return '"' + text.replace("\\", "\\\\").replace('"', '\\"') + '"'


def routes_text(routes):
    return "".join(f"\n[[route]]\ncode = {quoted(code)}\nto = [{', '.join(map(quoted, to))}]\n" for code, to in routes.items())


def counters_text(counters):
    keys = ("interchange", "group", "set")
    rows = (f"\n[[counter]]\npartner = {quoted(name)}\n" + "".join(f"{key} = {row[key]}\n" for key in keys)
            for name, row in counters.items())
    return "version = 2\n" + "".join(rows)


def num(first, count):
    return (first - 1 + count) % GREATEST + 1


class Night:
    """What the program gives of a night: the lines of its report, its files, the next counters by partner."""

    def __init__(self, program, name, setup, counters):
        night = os.path.join(NIGHTS, name)
        with tempfile.TemporaryDirectory(prefix="nighthub-receivers-") as here:
            out = os.path.join(here, "out")
            os.mkdir(out)
            words = ["--at", "202603011530", "--in", os.path.join(night, "in.x12"), "--out", out]
            for guide in sorted(os.listdir(os.path.join(night, "guides"))):
                words += ["--guide", os.path.join(night, "guides", guide)]
            for option, text in (("setup", setup), ("counters", counters)):
                path = os.path.join(here, option)
                with open(path, "w", encoding="latin-1", newline="") as it:
                    it.write(text)
                words += [f"--{option}", path]
            done = subprocess.run([program, *words], stdin=subprocess.DEVNULL, capture_output=True, timeout=120)
            assert done.returncode in (0, 1) and not done.stderr, (name, done)
            self.files = {it: read(out, it) for it in os.listdir(out)}
        self.report = self.files["report.txt"].splitlines()
        self.next = {row.pop("partner"): row for row in tomllib.loads(self.files["counters.toml"])["counter"]}

    def told(self):
        """The lines of the report but those of held sets and the last one."""
        return [line for line in self.report if not line.startswith(("held ", "total "))]

    def held(self):
        """The held lines, each behind the number of the lines in front of it that are none."""
        place, lines = 0, []
        for line in self.report:
            if line.startswith("held "):
                lines.append((place, line))
            else:
                place += 1
        return lines


def differences(program, name, rng):
    text = read(NIGHTS, name, "setup.toml")
    setup = tomllib.loads(text)
    partners = [partner["name"] for partner in setup["partner"]]
    if not partners or not setup.get("route"):
        return
    head = text[: text.index("[[route]]")]
    routes = {row["code"]: rng.sample(partners, rng.randint(1, min(16, len(partners)))) for row in setup["route"]}
    counters = {it: {key: rng.choice([1, GREATEST - 1, rng.randint(1, GREATEST)]) for key in ("interchange", "group", "set")}
                for it in partners}
    night = Night(program, name, head + routes_text(routes), counters_text(counters))
    for partner in setup["partner"]:
        own, first = partner["name"], counters[partner["name"]]
        alone = Night(program, name, head + routes_text({code: [own] for code, to in routes.items() if own in to}), counters_text(counters))
        named = f" delimiter {own}"
        pairs = {
            "the report": (night.told(), alone.told()),
            "the acknowledgments": (night.files[f"{own}.ack"], alone.files[f"{own}.ack"]),
            "the mailbox": (night.files[f"{own}.box"], alone.files[f"{own}.box"]),
            "the counters": (night.next[own], alone.next[own]),
            "the held lines": tuple([it for it in lines if it[1].endswith(named)] for lines in (night.held(), alone.held())),
        }
        sent = night.files[f"{own}.ack"] + night.files[f"{own}.box"]
        segments = [segment.split(partner["element"]) for segment in sent.split(partner["terminator"])]
        for key, of, number in (("interchange", "IEA", lambda it: int(it[2])), ("group", "GS", lambda it: int(it[6]))):
            numbers = [number(it) for it in segments if it[0] == of]
            pairs[f"numbers of each {key}"] = (numbers, [num(first[key], k) for k in range(len(numbers))])
            pairs[f"the next {key}"] = (night.next[own][key], num(first[key], len(numbers)))
        yield from (f"{own}: {what}: {found!r}, not {wanted!r}" for what, (found, wanted) in pairs.items() if found != wanted)
    sets = {}
    for place, line in night.held():
        sets.setdefault((place, line.split()[2]), []).append(line.split()[3:])
    for lines in sets.values():
        names = [words[1] for words in lines if words[0] == "delimiter"]
        in_order = any([it for it in to if it in names] == names for to in routes.values())
        if lines != [["route"]] and not (len(names) == len(lines) and in_order):
            yield f"held in another order: {lines}"
    if f" held {len(night.held())} " not in night.report[-1]:
        yield f"held lines: {night.report[-1]}"


def main(words):
    program = os.path.abspath(words[0] if words else os.path.join(TOP, "crates", "nighthub", "out", "nighthub"))
    tasks = [(name, seed) for seed in (words[1:] or ["1"]) for name in sorted(os.listdir(NIGHTS))]
    with futures.ThreadPoolExecutor(os.cpu_count()) as pool:
        found = list(pool.map(lambda it: list(differences(program, it[0], random.Random(f"{it[0]} {it[1]}"))), tasks))
    for (name, seed), lines in zip(tasks, found):
        for line in lines:
            print(f"tests/nights/{name}, seed {seed}: {line}")
    failed = sum(map(bool, found))
    print(f"{len(tasks) - failed} passed, {failed} failed")
    return 1 if failed else 0


if __name__ == "__main__":
    sys.exit(main(sys.argv[1:]))
