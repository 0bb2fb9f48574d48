"""The words of nighthub_explain: each code in the words that docs/ACKNOWLEDGMENT.md has for it, the examples in words, and its statuses."""
import os
import re
import subprocess
import tempfile

from trial import EXAMPLES, TOP, Page

EXPLAIN = os.path.join(TOP, "crates", "nighthub_explain", "out", "nighthub_explain")
PROGRAM = os.path.abspath(os.environ.get("NIGHTHUB_EXPLAIN", EXPLAIN))
ISA = "ISA*00*          *00*          *ZZ*HUB            *01*ACME           *260301*1530*^*00501*000000001*0*P*>~"
# what the page says by the row before
IN_FULL = {"one whose": "a segment or element fault whose", "it has some": "the sender has guides with GS01"}
# a heading of the page, the element that has the code, and the segments by which it is told
TABLES = [
    ("## The interchange: TA1", "TA105", "TA1*000000007*260228*0900*{}~"),
    ("## The group's codes", "AK905", "AK9*R*1*1*0*{}~"),
    ("## The set: IK501", "IK502", "AK2*850*0001~IK5*R*{}~"),
    ("## Segments: IK304", "IK304", "AK2*850*0001~IK3*BEG*2**{}~IK5*R~"),
    ("## Elements: IK403", "IK403", "AK2*850*0001~IK3*BEG*2**8~IK4*1*353*{}~IK5*R~"),
]
ORDER = "interchange 1, group PO 12"
WHOLE = {
    "night/one_order": ["total ta1s 0 groups 1 sets 1 accepted 1"],
    "night/rejected": [
        f"{ORDER}: rejected (AK901 R)",
        f"{ORDER}, 850 001: rejected: SE02 isn't ST02, byte for byte (IK502 3)",
        f"{ORDER}, 850 001: rejected: SE01 isn't 1 to 10 digits equal to the number of segments, ST and SE among them (IK502 4)",
        f"{ORDER}, 850 001: rejected: ST02 has fewer than four bytes (IK502 7)",
        "total ta1s 0 groups 1 sets 1 accepted 0",
    ],
    "night/partly_accepted": [
        f"{ORDER}, 850 0002: rejected: SE01 isn't 1 to 10 digits equal to the number of segments, ST and SE among them (IK502 4)",
        f"{ORDER}: partly accepted (AK901 P)",
        "total ta1s 0 groups 1 sets 2 accepted 1",
    ],
    "night/ta1_asked_for": [
        "interchange 1, TA1 000000007: accepted (TA104 A): the interchange isn't refused (TA105 000)",
        "total ta1s 1 groups 1 sets 1 accepted 1",
    ],
    "night/cut_off": [
        "interchange 1, TA1 000000007: refused (TA104 R): no IEA: it was truncated (TA105 023)",
        "total ta1s 1 groups 0 sets 0 accepted 0",
    ],
    "three_guides/h855_rejected": [
        "interchange 1, group PR 12: rejected (AK901 R)",
        "interchange 1, group PR 12, 855 0001: rejected: segment 4 ACK in loop PO1, element 1 (668): "
        "ZZ is a code that the guide doesn't list (IK403 7)",
        "interchange 1, group PR 12, 855 0001: rejected: segment 4 ACK in loop PO1, element 3 (355): a condition asks for it (IK403 2)",
        "total ta1s 0 groups 1 sets 1 accepted 0",
    ],
    "three_guides/h860_rejected": [
        "interchange 1, group PC 12: rejected (AK901 R)",
        "interchange 1, group PC 12, 860 0001: rejected: segment 2 BCH, element 1 (353): "
        "01 is a code that the guide lists as not used, or no level below that of the HL's parent (IK403 I6)",
        "interchange 1, group PC 12, 860 0001: rejected: segment 3 POC in loop POC, element 5, component 1 (355): "
        "XX is a code that the guide doesn't list (IK403 7)",
        "total ta1s 0 groups 1 sets 1 accepted 0",
    ],
    "three_guides/h856_levels_rejected": [
        "interchange 1, group SH 12: rejected (AK901 R)",
        "interchange 1, group SH 12, 856 0001: rejected: before segment 12 in loop HLP: MAN is missing (IK304 3)",
        "total ta1s 0 groups 1 sets 1 accepted 0",
    ],
}
# a group without a GE, whose orders are accepted by themselves
FALLEN = "AK1*PO*12*005010~AK2*850*0001~IK5*A~AK2*850*0002~IK5*A~AK9*R*2*2*0*3~"
FALLEN_LINES = [
    f"{ORDER}: rejected: no GE (AK905 3)",
    f"{ORDER}, 850 0001: rejected with its group (IK501 A)",
    f"{ORDER}, 850 0002: rejected with its group (IK501 A)",
    "total ta1s 0 groups 1 sets 2 accepted 0",
]
REFUSED = [
    ("no word", [], 2, "usage: the following required arguments were not provided:  <NAME.ack>...; see --help"),
    ("a word of no option", ["-x"], 2, "usage: unexpected argument '-x' found; see --help"),
    ("no file", ["/nowhere/file"], 4, "input"),
    ("an order", [os.path.join(EXAMPLES, "night", "one_order.x12")], 4, "ST is 850: this isn't an acknowledgment"),
    ("no interchange", [os.path.join(EXAMPLES, "night", "setup.toml")], 4, "input 1"),
]


# a 999 that goes on, and what is printed of it
CUT = "ST*999*0001*005010X231~AK1*PO*12*005010~AK2*850*0001~IK5*R*4~"
CUT_LINES = [
    f"{ORDER}, 850 0001: rejected: SE01 isn't 1 to 10 digits equal to the number of segments, ST and SE among them (IK502 4)",
    "total ta1s 0 groups 0 sets 1 accepted 0",
]
ENDS = [
    ("a 999 without an SE", CUT, CUT_LINES, "the text ends inside a 999"),
    ("a segment without its end", CUT + "AK9*R*1*1*", CUT_LINES, "the text ends inside a segment"),
    ("nothing told yet", "ST*999*0001*005010X231~AK1*PO*12", [], "the text ends inside a segment"),
    ("a 997", "ST*997*0001~AK1*PO*12~AK2*850*0001~AK5*A~AK9*A*1*1*1~SE*6*0001~", [], "this is a 997, which is not read here"),
]


def run(words):
    """Status, standard output and standard error of a call."""
    done = subprocess.run([PROGRAM, *words], stdin=subprocess.DEVNULL, capture_output=True, timeout=120)
    return done.returncode, done.stdout.decode(), done.stderr.decode()


def rows(heading):
    """The codes of the tables under a heading of the page, each with what they mean here: one for each row."""
    with open(os.path.join(TOP, "docs", "ACKNOWLEDGMENT.md"), encoding="utf-8") as it:
        section = it.read().split(f"\n{heading}", 1)[1].split("\n## ", 1)[0]
    found = {}
    for code, cell in re.findall(r"^\| ([A-Z]? ?[A-Z]?\d+) \| ([^|]*) \|", section, re.M):
        cell = re.sub(r" \([^()]*`[^()]*\)", "", cell).replace("`", "")
        for short, full in IN_FULL.items():
            cell = cell.replace(short, full)
        found.setdefault(code, []).append(cell)
    return found


def agree(words, cells):
    """The words are what the page says, or its beginning; of two rows, the first and the end of the second."""
    first, more = cells[0], cells[1:]
    for cell in more:
        end = words.removeprefix(f"{first}, or ")
        if end == words or not cell.endswith(end):
            return False
    return bool(more) or first == words or (first.startswith(words) and first[len(words)] in ",:;")


def told(segments):
    """What is printed of these segments."""
    with tempfile.NamedTemporaryFile("w", suffix=".ack") as it:
        it.write(ISA + segments)
        it.flush()
        return run([it.name])


def codes(page):
    for heading, element, segments in TABLES:
        table = rows(heading)
        page.holds(f"{element}, its table", len(table) > 5, f"{len(table)} rows")
        for code, cells in table.items():
            text = told("AK1*PO*12*005010~" + segments.format(code.replace(" ", "*")))[1]
            said = re.search(rf": (?:[^:]*: )?(?:BEG )?((?:no IEA: )?[^:]*) \({element} {code.split()[-1]}\)", text)
            page.holds(f"{element} {code}", said and agree(said[1], cells), f"{text!r}, not {cells!r}")


def several(page):
    """Several files, each line with its file's name in front; one of them is cut off, and one isn't there."""
    names = [os.path.join(EXAMPLES, f"night/{it}.ack") for it in ("one_order", "rejected")]
    lines = [f"{name}: {it}" for name, key in zip(names, ("night/one_order", "night/rejected")) for it in WHOLE[key]]
    page.want("two files", run(names), (0, "".join(f"{it}\n" for it in lines), ""))
    with tempfile.NamedTemporaryFile("w", suffix=".ack") as it:
        it.write(ISA + CUT)
        it.flush()
        cut = [f"{it.name}: {line}" for line in CUT_LINES]
        page.want("three files", run([it.name, "/nowhere/file", names[0]]),
                  (4, "".join(f"{line}\n" for line in cut + lines[:1]),
                   f"nighthub_explain: {it.name}: the text ends inside a 999\nnighthub_explain: /nowhere/file: input\n"))


def examples():
    page = Page("ACKNOWLEDGMENT.md, in words")
    several(page)
    codes(page)
    for name, lines in WHOLE.items():
        page.want(name, run([os.path.join(EXAMPLES, f"{name}.ack")]), (0, "".join(f"{it}\n" for it in lines), ""))
    page.want("a group without a GE", told(FALLEN), (0, "".join(f"{it}\n" for it in FALLEN_LINES), ""))
    for name, segments, lines, why in ENDS:
        page.want(name, told(segments), (4, "".join(f"{it}\n" for it in lines), f"nighthub_explain: {why}\n"))
    asked = told("TA1*000000007*260228*0900*A*000~" + FALLEN)[1]
    page.holds("behind a TA1", "interchange 1 (TA1 000000007), group PO 12: rejected: no GE" in asked, asked)
    for name in ("h855", "h860", "h856_levels"):
        accepted = run([os.path.join(EXAMPLES, "three_guides", f"{name}_accepted.ack")])
        page.want(f"{name}, accepted", accepted, (0, "total ta1s 0 groups 1 sets 1 accepted 1\n", ""))
    with tempfile.NamedTemporaryFile("w", suffix=".ack") as it:
        page.want("an empty file", run([it.name]), (0, "no acknowledgments\n", ""))
    for name, words, status, line in REFUSED:
        page.want(name, run(words), (status, "", f"nighthub_explain: {line}\n"))
    return page
