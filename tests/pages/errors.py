"""The examples of docs/ERRORS.md: each status and each line on standard error."""
import os
import subprocess

from guides import SMALL, loop, nodes, segment
from trial import COUNTERS, EXAMPLES, H850, H856, INPUT, PROGRAM, SETUP, Page, night, room, run

TOTAL = "total interchanges 2 refused 0 groups 2 sets 2 accepted 2 held 0 outside 0\n"
USAGE = (2, "", "nighthub: usage\n")
NOWHERE = "/nowhere/file"
OPTIONS = ("--setup", "--counters", "--at", "--in", "--out")


def replaced(text, old, new):
    assert old in text, old
    return text.replace(old, new, 1)


def refusal(line, status=3, **given):
    """What a night says that is refused by one line, and what is wanted: the line alone, and no file."""
    return night(**given), (status, "", line, {})


def words_of(out, text=os.path.join(EXAMPLES, "night", "two_partners.x12"), at="202603011530"):
    night_of, guides_of = os.path.join(EXAMPLES, "night"), os.path.join(EXAMPLES, "guides")
    guides = [part for name in ("h850.toml", "h856.toml") for part in ("--guide", os.path.join(guides_of, name))]
    files = ["--setup", os.path.join(night_of, "setup.toml"), "--counters", os.path.join(night_of, "counters.toml")]
    return [*files, *guides, "--at", at, "--in", text, "--out", out]


def words(page, out):
    whole = words_of(out)
    page.want("a whole command line", run(whole), (0, TOTAL, ""))
    page.want("no word", run([]), USAGE)
    page.want("a word of no option", run(["--zeta"]), USAGE)
    for word in ("--help", "-h", "--version", "-V"):
        status, said, failed = run([word])
        page.want(word, (status, bool(said), failed), (0, True, ""))
    for option in OPTIONS:
        at = whole.index(option)
        pair, others = whole[at : at + 2], whole[:at] + whole[at + 2 :]
        page.want(f"no {option}", run(others), USAGE)
        page.want(f"{option} twice", run([*whole, *pair]), USAGE)
        page.want(f"{option} without a value", run([*others, option]), USAGE)
    page.want("no --guide", run([it for it in whole if it != "--guide" and not it.endswith(("h850.toml", "h856.toml"))]), USAGE)
    for more in (["--guide"], ["--threads", "4"], ["--inp", NOWHERE], ["-i", NOWHERE], [NOWHERE], [""], ["--", NOWHERE], ["--workers", "0"],
                 ["--workers", "65"], ["--workers", "four"], ["--workers", "4", "--workers", "4"], ["--piece", "0"], ["--piece", "4294967296"],
                 ["--piece", "53", "--piece", "53"]):
        page.want(f"and {' '.join(more)!r}", run([*whole, *more]), USAGE)
    for more in (["--workers", "64"], ["--piece", "1"], ["--piece", "4294967295"]):
        page.want(f"and {' '.join(more)}", run([*whole, *more]), (0, TOTAL, ""))
    page.want("help names each option", [it for it in (*OPTIONS, "--guide", "NAME.ack and NAME.box") if it not in run(["--help"])[1]], [])
    for at in ("202602291530", "20260301153", "2026030115300", "202603012400", "202603012430", "202603011560", "202613011530", "000001011530",
               "202600011530", "2026-3-11530", "20260301153x", "", "x"):
        page.want(f"--at {at}", run(words_of(out, at=at)), USAGE)
    page.want("the first moment", run(words_of(out, at="000101010000"))[0], 0)
    page.want("words that are no UTF-8", run([b"--in", b"\xff"]), USAGE)


def loops(depth):
    inner = ""
    for level in reversed(range(depth)):
        parts = [f'{{seg="N{level}", min=1, max=1, elements=["1 O AN 1 2"]}}', inner]
        inner = f'{{loop="L{level}", min=0, max=1, nodes=[{", ".join(filter(None, parts))}]}}'
    return nodes(inner)


def many(count):
    letters = "ABCDEFGHIJKLMNOPQRSTUVWXYZ0123456789"
    return nodes(*[segment(f"S{letters[at // 36 % 36]}{letters[at % 36]}" if at < 1296 else f"T{letters[at // 36 % 36]}{letters[at % 36]}",
                           element="1 O AN 1 2") for at in range(count)])


def guides(page):
    page.want("a guide that isn't there", *refusal(f"nighthub: guide {NOWHERE} 0\n", guides=[NOWHERE]))
    page.want("a folder as a guide", *refusal(f"nighthub: guide {EXAMPLES} 0\n", guides=[EXAMPLES]))
    page.want("a second guide that isn't there", *refusal(f"nighthub: guide {NOWHERE} 0\n", guides=[H850, NOWHERE]))
    refused = {
        "1": "name =",
        "2": "",
        "3": "name = 7",
        "4": "zeta = 1\nalpha = 1\n",
        "5.1": loops(9),
        "5.2": many(2001),
        "5.3": nodes(segment(least=2)),
        "5.4": nodes(loop(segment("N9", 1, 2))),
        "5.5": nodes(segment(), segment()),
        "5.6": SMALL.replace('"324 M AN 1 22"]', '"324 M AN 1 22"], conditions=["R02"]'),
    }
    for number, guide in refused.items():
        page.want(f"guide {number}", *refusal(f"nighthub: guide HERE/guide_0.toml {number}\n", guides=[guide]))
    for name, guide in (("loops nested eight deep", loops(8)), ("2,000 nodes", many(2000))):
        page.want(name, *refusal("nighthub: setup 4\n", guides=[guide]))


SETUP_FILES = {
    "not there": (NOWHERE, 0),
    "not TOML": ("hub=", 1),
    "no UTF-8": (b"\xff", 1),
    "empty": ("\n", 2),
    "a hub that is a number": ("hub=1", 3),
    "another usage": (replaced(SETUP, 'usage = "P"', 'usage = "X"'), 3),
    "a key of no setup": ("zeta=1", 4),
    "no receiver": (replaced(SETUP, 'to = "BOLT"', "to = []"), 3),
    "seventeen receivers": (replaced(SETUP, 'to = "BOLT"', f"to = {[f'P{k}' for k in range(17)]}"), 3),
    "a receiver that is a number": (replaced(SETUP, 'to = "BOLT"', "to = 7"), 3),
    "a list in a list of receivers": (replaced(SETUP, 'to = "BOLT"', 'to = [["BOLT"]]'), 3),
}
COUNTERS_FILES = {
    "not there": (NOWHERE, 0),
    "not TOML": ("hub=", 1),
    "no UTF-8": (b"\xff", 1),
    "empty": ("\n", 2),
    "another version": ("version=3", 3),
    "a key of no counters": ("zeta=1", 4),
    "a counter of groups in version 1": (replaced(COUNTERS, "version = 2", "version = 1"), 4),
    "none in version 2": (replaced(COUNTERS, "group = 1\n", ""), 2),
}
SETUPS = {
    "two partners of one name": (replaced(SETUP, 'name = "BOLT"', 'name = "ACME"'), 1),
    "two partners of one id": (replaced(SETUP, 'qualifier = "ZZ"\nid = "BOLT"', 'qualifier = "01"\nid = "ACME"'), 1),
    "a delimiter twice": (replaced(SETUP, 'component = ":"', 'component = "|"'), 2),
    "a dash": (replaced(SETUP, 'component = ":"', 'component = "-"'), 2),
    "a delimiter of two bytes": (replaced(SETUP, 'terminator = "!"', 'terminator = "!!"'), 2),
    "a code of one byte": (replaced(SETUP, 'code = "ACME"\nelement', 'code = "A"\nelement'), 3),
    "a name with a dash": (replaced(SETUP, 'name = "BOLT"', 'name = "BOLT-1"'), 3),
    "an id of sixteen bytes": (replaced(SETUP, 'id = "BOLT"', 'id = "BOLT567890123456"'), 3),
    "an id with a space behind": (replaced(SETUP, 'id = "BOLT"', 'id = "BOLT "'), 3),
    "a guide that wasn't given": (replaced(SETUP, 'guides = ["H850"]', 'guides = ["H999"]'), 4),
    "a route to nobody": (replaced(SETUP, 'to = "BOLT"', 'to = "CARL"'), 5),
    "one of two receivers is nobody": (replaced(SETUP, 'to = "BOLT"', 'to = ["BOLT", "CARL"]'), 5),
    "a receiver twice": (replaced(SETUP, 'to = "BOLT"', 'to = ["BOLT", "ACME", "BOLT"]'), 5),
    "a code with two routes": (SETUP + '\n[[route]]\ncode = "BOLT"\nto = "ACME"\n', 5),
    "a cap over the greatest": (replaced(SETUP, "cap = 2", "cap = 100000"), 7),
    "no cap": (replaced(SETUP, "cap = 2", "cap = 0"), 7),
}
ROW = '\n[[counter]]\npartner = "{}"\ninterchange = 1\ngroup = 1\nset = 1\n'
COUNTERS_OF_SETUPS = {
    "a counter of 0": replaced(COUNTERS, "set = 1", "set = 0"),
    "a counter of groups of 0": replaced(COUNTERS, "group = 1", "group = 0"),
    "a counter of groups that is too great": replaced(COUNTERS, "group = 1", "group = 1000000000"),
    "counters of nobody": COUNTERS + ROW.format("CARL"),
    "counters twice": COUNTERS + ROW.format("BOLT"),
}


def setups(page):
    for name, (setup, number) in SETUP_FILES.items():
        page.want(f"setup file: {name}", *refusal(f"nighthub: setup file {number}\n", setup=setup))
    for name, (counters, number) in COUNTERS_FILES.items():
        page.want(f"counters file: {name}", *refusal(f"nighthub: counters file {number}\n", counters=counters))
    for name, (setup, number) in SETUPS.items():
        page.want(f"setup: {name}", *refusal(f"nighthub: setup {number}\n", setup=setup))
    for name, counters in COUNTERS_OF_SETUPS.items():
        page.want(f"setup: {name}", *refusal("nighthub: setup 6\n", counters=counters))
    page.want("counters of version 1", night(counters=replaced(COUNTERS.replace("group = 1\n", ""), "version = 2", "version = 1"))[:3], (0, TOTAL, ""))
    page.want("two guides of one name", *refusal("nighthub: setup 4\n", guides=[H850, H850]))
    both, again = replaced(SETUP, 'guides = ["H850"]', 'guides = ["H850", "X850"]'), H850.replace('name = "H850"', 'name = "X850"')
    page.want("two guides for one set", *refusal("nighthub: setup 4\n", setup=both, guides=[H850, H856, again]))


def first_refusals(page):
    """Of several wrong files the first is reported: the guides in their order, the setup, the counters, what they make, the input."""
    cap = replaced(SETUP, "cap = 2", "cap = 0")
    for name, line, given in (
        ("a guide before another", f"guide {NOWHERE} 0", {"guides": [NOWHERE, ""], "setup": NOWHERE, "text": NOWHERE}),
        ("a guide before the setup", "guide HERE/guide_1.toml 2", {"guides": [H850, ""], "setup": NOWHERE, "counters": NOWHERE, "text": NOWHERE}),
        ("the setup before the counters", "setup file 2", {"setup": "\n", "counters": NOWHERE, "text": NOWHERE}),
        ("the counters before what is made", "counters file 2", {"setup": cap, "counters": "\n", "text": NOWHERE}),
        ("what is made before the input", "setup 7", {"setup": cap, "text": NOWHERE}),
    ):
        page.want(f"first: {name}", *refusal(f"nighthub: {line}\n", **given))


def input_and_output(page, out):
    page.want("bytes outside", night(text="HELLO" + INPUT)[:3], (1, TOTAL.replace("outside 0", "outside 5"), ""))
    page.want("no input", *refusal("nighthub: input\n", 4, text=NOWHERE))
    page.want("a folder as input", *refusal("nighthub: input\n", 4, text=EXAMPLES))
    page.want("no folder", night(out=NOWHERE)[:3], (5, "", "nighthub: output ACME.ack\n"))
    with open("/dev/full", "wb") as full:
        done = subprocess.run([PROGRAM, "--version"], stdout=full, stderr=subprocess.PIPE)
    page.want("no room on standard output", (done.returncode, done.stderr), (5, b"nighthub: output stdout\n"))
    long = os.path.join(out, "long.x12")
    # an interchange that goes on and on stands in memory as a whole
    with open(long, "wb") as it:
        it.write(INPUT[:106].encode())
        it.truncate(268435456)
    limit = ["bash", "-c", 'ulimit -v 131072; exec "$@"', "bash"]
    little = subprocess.run([*limit, PROGRAM, *words_of(out, text=long)], capture_output=True)
    page.want("no memory", (little.returncode, little.stdout, little.stderr), (6, b"", b"nighthub: memory\n"))
    with open(long, "wb") as it:
        it.truncate(4294967296)
    page.want("a byte too many", run(words_of(out, text=long)), (4, "", "nighthub: input too long\n"))
    os.remove(long)
    with subprocess.Popen(["cat", os.path.join(EXAMPLES, "night", "two_partners.x12")], stdout=subprocess.PIPE) as piped:
        done = subprocess.run([PROGRAM, *words_of(out, text="/dev/stdin")], stdin=piped.stdout, capture_output=True)
    page.want("a pipe", (done.returncode, done.stdout), (0, TOTAL.encode()))


def examples():
    page = Page("ERRORS.md")
    out, let_go = room()
    words(page, out)
    guides(page)
    setups(page)
    first_refusals(page)
    input_and_output(page, out)
    let_go()
    return page
