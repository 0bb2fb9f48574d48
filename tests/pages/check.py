"""The examples of what nighthub_check says: each refusal of a guide, a setup file, a counters file and a setup, in words."""
import os
import subprocess
import tempfile

from errors import loops, many, replaced
from guides import DEPENDS, HEAD, SMALL, TWO, elements, loop, nodes, segment
from trial import COUNTERS, H850, H856, PROGRAM, SETUP, Page

CHECK = os.path.abspath(os.environ.get("NIGHTHUB_CHECK", os.path.join(os.path.dirname(PROGRAM), "..", "..", "nighthub_check", "out",
                                                                      "nighthub_check")))
OK = {"guide_0": "ok, 14 segments and loops", "guide_1": "ok, 12 segments and loops", "setup": "ok, 2 partners",
      "counters": "ok, 2 counters"}
ORDER = ("guide_0", "guide_1", "setup", "counters")


def run(words):
    done = subprocess.run([CHECK, *words], stdin=subprocess.DEVNULL, capture_output=True, timeout=120)
    return done.returncode, done.stdout.decode(errors="replace"), done.stderr.decode(errors="replace")


def check(all=False, **files):
    """Status, standard output and standard error of a check of files by their kinds; a text that begins with / is a file's name."""
    with tempfile.TemporaryDirectory(prefix="nighthub-page-") as here:
        words = ["--all"] if all else []
        for kind, given in files.items():
            path = given if isinstance(given, str) and given.startswith("/") else os.path.join(here, f"{kind}.toml")
            if path != given:
                with open(path, "wb") as it:
                    it.write(given if isinstance(given, bytes) else given.encode())
            words += ["--" + kind.split("_")[0], path]
        status, said, failed = run(words)
        return status, said.replace(here + "/", ""), failed


def lines(**said):
    return "".join(f"{kind}.toml: {text}\n" for kind, text in said.items())


REF = "segment 1 (REF): "
TWICE = "an element appears twice in a condition or in `pick`, or an earlier segment has its label"
ROW = "a text as \"128 M ID 2 3 = DP IA\", \"367 N\" or \"- O C ; 355 O ID 2 2\""
TYPE = "a type (AN, ID, N0 to N9, R, DT, TM)"
OPTIONS = "xN, wide, or = and codes, in this order"
NO_DEPENDENCY = "a dependency, or `hl`, that can't be"
BOTH = "segment 1 (REF) and segment 2 (REF) may come at one place, and both fit REF"

QUOTES = "a text in quotes isn't closed, or holds a byte that it can't hold"
NO_VALUE = "a value must be here: a text in quotes, a number without leading zeros, true, false, a list, a table"
# what is no TOML, and what is said of it
TOML = {
    "[hub": "line 1, column 5: the name of a table must be followed by ]: the file ends",
    "[[partner]\n": "line 1, column 11: the name of a list of tables must be followed by ]]: the line ends",
    "a = 1 2\n": f"line 1, column 5: {NO_VALUE}: 1 2",
    "a = 007\n": f"line 1, column 5: {NO_VALUE}: 007",
    'a = ["x" "y"]': 'line 1, column 10: a comma or ] must be here: "y"]',
    "a = {b=1 c=2}": "line 1, column 10: a comma or } must be here: c=2}",
    'a = "\\q"': 'line 1, column 7: the letter of an escape must follow \\: q"',
    "a = 1__0": "line 1, column 5: _ can only be between digits: 1__0",
    "a = 99999999999999999999": "line 1, column 5: the number is too large: 99999999999999999999",
    "a = 2026-13-01": "line 1, column 5: a date or time must be here: 2026-13-01",
    "a = 1\na.b = 2": "line 2, column 1: a key with a point continues after a value that isn't a table: a.b = 2",
    "= 1": "line 1, column 1: a key must be here, of letters, digits, - and _, or in quotes: = 1",
    'a = "x\ty\1"': f'line 1, column 9: {QUOTES}: \\x01"',
    "a = 'x\r\nb = 1": f"line 1, column 7: {QUOTES}: the line ends",
    "a = " + "[" * 100: "line 1, column 85: more than 80 lists or tables are nested: " + "[" * 20,
    "a = " + "=" * 100: f"line 1, column 5: {NO_VALUE}: " + "=" * 40,
}

GUIDES = {
    "not TOML": ('name = "A', f"line 1, column 10: {QUOTES}: the file ends"),
    "a line that is no TOML": (SMALL.replace('set = "850"', 'set "850"'), 'line 3, column 5: a key must be followed by =: "850"'),
    "a key twice": (SMALL + 'set = "850"\n', 'line 8, column 1: the key appears twice: set = "850"'),
    "no set": (SMALL.replace('set = "850"\n', ""), "`set` is missing"),
    "a set that is a number": (SMALL.replace('set = "850"', "set = 850"), "`set` is 850, and must be a text of 3 letters or digits"),
    "a guide for FA": (SMALL.replace('"PO"', '"FA"'), "`group` is \"FA\", and must be a text of two upper-case letters, and not FA"),
    "a key of no guide": ('colour = "red"\n' + SMALL, "`colour` isn't a key of its table"),
    "segment and loop at once": (nodes('{seg="REF", loop="N9", min=0, max=1}'),
                                 "node 1 (REF): `seg` is \"REF\", and must be a text, in a table that has `seg` or `loop`, and not both"),
    "a label on a loop": (nodes(loop("", 'label="X", ')), "node 1 (N9): `label` isn't a key of its table"),
    "no elements": (nodes('{seg="REF", min=0, max=1}'), "node 1 (REF): `elements` is missing"),
    "a second segment without elements": (nodes(segment(), '{seg="DTM", min=0, max=1}'), "node 2 (DTM): `elements` is missing"),
    "no elements in a loop": (nodes(loop('{seg="N9", min=1, max=1}')), "node 2 (N9): `elements` is missing"),
    "neither segment nor loop": (nodes('{min=0, max=1}'),
                                 "node 1: `seg` isn't a text, in a table that has `seg` or `loop`, and not both"),
    "a most that is a text": (nodes('{seg="REF", min=0, max="9", elements=["128 M ID 2 3"]}'),
                              "node 1 (REF): `max` is \"9\", and must be a number of 0 to 4294967295"),
    "8 tolerated": ('tolerate_segment = ["1", "8"]\n' + SMALL,
                    "text 2 of `tolerate_segment` is \"8\", and must be a code of IK304 but 8"),
    "a code of no element fault": ('tolerate_element = ["I7"]\n' + SMALL,
                                   "text 1 of `tolerate_element` is \"I7\", and must be a code of IK403"),
    "an id that is known in lower case": ('dictionary = ["per"]\n' + SMALL,
                                          "text 1 of `dictionary` is \"per\", and must be a segment's id"),
    "a level of three letters": ('hl = {pairs=["/S", "S/ABC"], sequential=true}\n' + SMALL,
                                 "`hl`: text 2 of `pairs` is \"S/ABC\", and must be two levels as \"/S\" or \"S/O\""),
    "a dependency's code of two words": (DEPENDS.replace('codes=["', 'codes=["A B", "') + SMALL,
                                         "dependency 1: text 1 of `codes` is \"A B\", and must be a code"),
    "a row that is no text": (nodes('{seg="REF", min=0, max=1, elements=["128 M ID 2 3", 128]}'),
                              f"node 1 (REF): text 2 of `elements` is 128, and must be {ROW}"),
    "a condition of one digit": (elements(*TWO, more=', conditions=["R0102", "P012"]'),
                                 "node 1 (REF): text 2 of `conditions` is \"P012\", and must be one of P, R, E, C, L and two digits "
                                 "for each element"),
    "a pick of no element": (elements(*TWO, more=', pick=["DP"]'),
                             "node 1 (REF): text 1 of `pick` is \"DP\", and must be an element's number and its codes"),
    "elements that are a text": (nodes('{seg="REF", min=0, max=1, elements="128 M ID 2 3"}'),
                                 "node 1 (REF): `elements` is \"128 M ID 2 3\", and must be a list of texts, each as "
                                 "\"128 M ID 2 3 = DP IA\", \"367 N\" or \"- O C ; 355 O ID 2 2\""),
    "loops nested nine deep": (loops(9), "loops are nested over 8 deep"),
    "2,001 nodes": (many(2001), "over 2000 nodes"),
    "least over most": (nodes(segment(least=2)), REF + "min 2 is over max 1"),
    "a million uses": (nodes(segment(most=1000000)), REF + "max 1000000 is over 999999"),
    "a loop's least over its most": (nodes(loop(segment("N9", 1, 1)).replace("min=0", "min=2")), "loop 1 (N9): min 2 is over max 1"),
    "an id in lower case": (nodes(segment("fob")), 'segment 1 (fob): "fob" isn\'t a segment id'),
    "ISA": (nodes(segment("ISA")), 'segment 1 (ISA): "ISA" isn\'t a segment id'),
    "41 elements": (elements(*["128 O ID 2 3"] * 41), REF + "41 elements are over 40"),
    "shortest 0": (elements("128 M ID 0 3"), REF + "element 1: shortest 0 is under 1"),
    "shortest over longest": (elements(*TWO, "128 M ID 5 4"), REF + "element 3: shortest 5 is over longest 4"),
    "longest 10,000": (elements("128 M AN 1 10000"), REF + "element 1: longest 10000 is over 9999"),
    "a thousand repeats": (elements("128 M ID 2 3 x1000"), REF + "element 1: x1000 is out of 1 to 999"),
    "no codes behind =": (elements("128 M ID 2 3 ="), REF + "element 1: a code is missing after ="),
    "no codes behind !": (elements("128 M ID 2 3 = DP !"), REF + "element 1: a code is missing after !"),
    "21 components": (elements("- M C" + " ; 128 O ID 2 3" * 21), REF + "element 1: 21 components are over 20"),
    "a component": (elements("- M C ; 128 N ; 128 M ID 0 3"), REF + "element 1: component 2: shortest 0 is under 1"),
    "first child twice": (nodes(loop(segment("N9", 1, 2))),
                          "loop 1 (N9): its first segment needs min 1 and max 1, and has min 1 and max 2"),
    "an empty loop": (nodes(loop("")), "loop 1 (N9): it has no node"),
    "a loop first in a loop": (nodes(loop(loop(segment("N9", 1, 1)))), "loop 1 (N9): its first node is a loop"),
    "positions over the rows": (elements(*TWO, more=', conditions=["R0203"]'), REF + "a condition names element 3 of 2"),
    "one position": (elements(*TWO, more=', conditions=["R02"]'), REF + "a condition names fewer than two elements"),
    "a position twice": (elements(*TWO, more=', conditions=["R0202"]'), REF + TWICE),
    "a pick over the rows": (elements(*TWO, more=', pick=["3 DP"]'), REF + "`pick` names element 3 of 2"),
    "a pick without codes": (elements(*TWO, more=', pick=["1"]'), REF + "`pick` has no code for element 1"),
    "a label twice": (nodes(segment(more='label="R", '), segment("DTM", more='label="R", ')),
                      "segment 2 (DTM): " + TWICE),
    "a hierarchy without HL": ('hl = {pairs=["/S"], sequential=true}\n' + SMALL, NO_DEPENDENCY),
    "a dependency on no slot": (DEPENDS + SMALL, NO_DEPENDENCY),
    "two that fit one segment": (nodes(segment(), segment()), BOTH),
    "two with a code in common": (nodes(segment(more='pick=["1 AB DP"], '), segment(more='pick=["1 DP IA"], ')),
                                  BOTH + " (element 1 = DP)"),
    "one that picks": (nodes(segment(more='pick=["1 AB DP"], '), segment()), BOTH + " (element 1 = AB)"),
}

ROWS = {
    "12345 M ID 2 3": "\"12345\" can't be here: expected a reference number of 1 to 4 digits, or -",
    "128 X ID 2 3": "\"X\" can't be here: expected M, O or N",
    "128 M XX 2 3": f"\"XX\" can't be here: expected {TYPE}, or C",
    "128 M ID x 3": "\"x\" can't be here: expected the shortest length",
    "128 M ID 2": "the longest length is missing",
    "128 M ID 2 3 ID": f"\"ID\" can't be here: expected {OPTIONS}",
    "128 M ID 2 3 wide x2": f"\"x2\" can't be here: expected {OPTIONS}",
    "128 M ID 2 3 = DP ;": "\";\" can't be here: expected nothing more",
    "128 M ID 2 3 = DP = IA": "\"=\" can't be here: expected a code, or ! and codes",
    "128 M ID 2 3 = DP ! IA ! L1": "\"!\" can't be here: expected a code",
    "128 N ID": "\"ID\" can't be here: expected nothing more",
    "- M C wide": "\"wide\" can't be here: expected xN, or ; and a component",
    "- M C ; 128 M ID 2 3 ; 355 O": f"component 2: {TYPE} is missing",
    "128  M ID 2 3": "a space too many can't be here: expected M, O or N",
    "128\\tM ID 2 3": "\"128\\u0009M\" can't be here: expected a reference number of 1 to 4 digits, or -",
}

HEADER = "a segment that the guide doesn't know is accepted, also one that begins with ISA: a receiver may read it as a header"
CODE = "segment 1 (REF): element 1: the code"
IDLE = "its id is in `dictionary` too, where it does nothing"
UNMET = "no set can meet this: "
NONE_STANDS = " is mandatory, and its type or its lengths allow none of its codes"

WARNED = {
    "an 850 in another group": (SMALL.replace('"PO"', '"SH"'), ["`group` is SH, and sets 850 usually come in groups PO"]),
    "a set whose group nobody knows": (SMALL.replace('"850"', '"940"'), []),
    "1 tolerated": ('tolerate_segment = ["1"]\n' + SMALL, [HEADER]),
    "6 tolerated, and ISA known": ('dictionary = ["ISA"]\ntolerate_segment = ["6"]\n' + SMALL, [HEADER]),
    "6 tolerated": ('dictionary = ["PER"]\ntolerate_segment = ["6"]\n' + SMALL, []),
    "ISA known": ('dictionary = ["ISA"]\ntolerate_segment = ["7"]\n' + SMALL, []),
    "an id that is known and used": ('dictionary = ["PER", "REF"]\n' + nodes(segment()), [f"{REF}{IDLE}"]),
    "ids that are known and used, one at two places, where 1 is tolerated": (
        'dictionary = ["DTM", "N9", "PER"]\ntolerate_segment = ["1"]\n'
        + nodes(segment("DTM"), segment(), loop(segment("N9", 1, 1) + ", " + segment("DTM"))),
        [HEADER, f"segment 1 (DTM): {IDLE}", f"segment 4 (N9): {IDLE}"]),
    "a comma": (elements("128 M ID 2 5 = DP,IA"), [f"{CODE} DP,IA has a comma or a stroke; write a space between codes"]),
    "a stroke": (elements("128 M ID 2 5 = DP IA|VN"), [f"{CODE} IA|VN has a comma or a stroke; write a space between codes"]),
    "a code too long": (elements("128 M ID 2 2 = DP DPX"), [f"{CODE} DPX is shorter or longer than the element may be"]),
    "a number too long": (elements("128 M N0 1 2 = -10 100"), [f"{CODE} 100 is shorter or longer than the element may be"]),
    "an element that no set can meet": (nodes(segment("REF", 1, 1, "128 M ID 2 2 = DPX")),
                                        [f"{UNMET}{REF}element 1{NONE_STANDS}", f"{CODE} DPX is shorter or longer than the element may be"]),
    "one that no set can meet in a mandatory loop": (
        nodes(loop(segment("N9", 1, 1, "128 M DT 8 8 = TODAY TOMORROW")).replace("min=0", "min=1")),
        [f"{UNMET}segment 2 (N9): element 1{NONE_STANDS}",
         "segment 2 (N9): element 1: the code TODAY has bytes that no value of the element's type has, or isn't a date or time",
         "segment 2 (N9): element 1: the code TODAY is shorter or longer than the element may be"]),
    "one that a set may leave out": (nodes(segment("REF", 0, 1, "128 M ID 2 2 = DPX")),
                                     [f"{CODE} DPX is shorter or longer than the element may be"]),
    "letters in a number": (elements("610 O N2 1 15 = AB"),
                            [f"{CODE} AB has bytes that no value of the element's type has, or isn't a date or time",
                             f"{CODE} AB is shorter or longer than the element may be"]),
    "a day that there is not": (elements("373 O DT 8 8 = 20260228 20260230"),
                                [f"{CODE} 20260230 has bytes that no value of the element's type has, or isn't a date or time"]),
    "a label of nobody": (nodes(segment(more='label="R", ')), ["segment 1 (REF): no dependency names its label R"]),
    "a dependency on a code that isn't there": (
        DEPENDS.replace('"P"', '"P", "X"')
        + nodes(segment("HL", 1, 1, '628 M AN 1 12", "734 O AN 1 12", "735 M ID 1 2 = S P', 'label="HL", '),
                segment("MAN", more='label="MAN", ')),
        ["dependency 1: the code X isn't one of element 3 of segment 1 (HL)"]),
    "a dependency of the second segment": (
        DEPENDS.replace('"P"', '"P", "X"')
        + nodes(segment(), segment("HL", 1, 1, '628 M AN 1 12", "734 O AN 1 12", "735 M ID 1 2 = S P', 'label="HL", '),
                segment("MAN", more='label="MAN", ')),
        ["dependency 1: the code X isn't one of element 3 of segment 2 (HL)"]),
    "a code used and not used": (elements("128 M ID 2 3 = DP ! DP"), [f"{CODE} DP is listed as used and as not used"]),
    "a pick of no code": (nodes(segment(element="128 M ID 2 3 = DP", more='pick=["1 DP IA"], ')),
                          [f"{CODE} IA of `pick` isn't one of the element's codes"]),
    "a component": (elements("- M C ; 128 M ID 2 2 = DP ; 128 M ID 2 2 = DP ! XXX"),
                    ["segment 1 (REF): element 1, component 2: the code XXX is shorter or longer than the element may be"]),
    "in a loop, two warnings": (nodes(loop(segment("N9", 1, 1, "128 M ID 2 2 = DP,IA"))),
                                ["segment 2 (N9): element 1: the code DP,IA has a comma or a stroke; write a space between codes",
                                 "segment 2 (N9): element 1: the code DP,IA is shorter or longer than the element may be"]),
}

FILES = {
    "no TOML": (b"hub=", f"line 1, column 5: {NO_VALUE}: the file ends"),
    "no UTF-8": (b"\xff", "line 1, column 1: no UTF-8: \\xFF"),
    "no UTF-8 in a comment, after a letter of two bytes": ("# a\n# \u00e9 ".encode() + b"\xe9\n", "line 2, column 6: no UTF-8: \\xE9"),
    "nothing": (b"", "`hub` is missing"),
    "a hub that is a number": (b"hub=1", "`hub` is 1, and must be a table, [hub]"),
    "two keys of no setup": (b"zeta=1\nalpha=1", "`alpha` isn't a key of its table"),
    "a key that would move the cursor": (b'"a\\u001b[1m\\nok" = 2\n', "`a\\x1B[1m\\x0Aok` isn't a key of its table"),
    "a partner without a cap": (replaced(SETUP, "cap = 1\n", ""), "partner 2 (BOLT): `cap` is missing"),
    "a cap that is a text": (replaced(SETUP, "cap = 1\n", "cap = \"1\"\n"),
                             "partner 2 (BOLT): `cap` is \"1\", and must be a number of 1 to 99999"),
    "a key of no partner": (replaced(SETUP, "cap = 1\n", "cap = 1\nphone = 5\n"), "partner 2 (BOLT): `phone` isn't a key of its table"),
    "another usage": (replaced(SETUP, 'usage = "P"', 'usage = "prod"'), "the hub: `usage` is \"prod\", and must be \"P\" or \"T\""),
    "a guide that is a number": (replaced(SETUP, 'guides = ["H850"]', 'guides = ["H850", 856]'),
                                 "partner 2 (BOLT): text 2 of `guides` is 856, and must be a text"),
    "a route to none": (replaced(SETUP, 'to = "BOLT"', "to = []"),
                        "route 2 (BOLT): `to` is a list of 0, and must be a text, or a list of 1 to 16 texts"),
}

COUNTER_FILES = {
    "no UTF-8": (b"\xff", "line 1, column 1: no UTF-8: \\xFF"),
    "nothing": (b"", "`version` is missing"),
    "version 3": (b"version = 3", "`version` is 3, and must be 1 or 2"),
    "a group in version 1": (COUNTERS.replace("version = 2", "version = 1"), "counter 1 (ACME): `group` isn't a key of its table"),
    "a counter without a group": (COUNTERS.replace("group = 1\n", "", 1), "counter 1 (ACME): `group` is missing"),
    "a counter that is a text": ("interchange = \"1\"".join(COUNTERS.rsplit("interchange = 1", 1)),
                                 "counter 2 (BOLT): `interchange` is \"1\", and must be a number of 1 to 999999999"),
}

OPEN = "read, and not judged, since another file is refused"
FORM = "15 letters, digits, -, ., _ or, inside, spaces"

SETUPS = {
    "two with one name": (replaced(SETUP, 'name = "BOLT"', 'name = "ACME"'),
                          "partner 1 (ACME): partner 2 has its name too"),
    "two with one qualifier and id": (replaced(replaced(SETUP, 'qualifier = "01"', 'qualifier = "ZZ"'), 'id = "ACME"', 'id = "BOLT"'),
                                      "partner 1 (ACME): partner 2 has its qualifier \"ZZ\" and id \"BOLT\" too"),
    "one delimiter for two": (replaced(SETUP, 'component = ":"', 'component = "|"'),
                              "partner 2 (BOLT): `element` and `component` are both \"|\""),
    "a delimiter of two bytes": (replaced(SETUP, 'terminator = "!"', 'terminator = "\\r\\n"'),
                                 "partner 2 (BOLT): `terminator` has 2 bytes, and needs one"),
    "a hyphen as a delimiter": (replaced(SETUP, 'component = ":"', 'component = "-"'),
                                "partner 2 (BOLT): `component` is \"-\", which may not delimit"),
    "a line feed between elements": (replaced(SETUP, 'element = "|"', 'element = "\\n"'),
                                     "partner 2 (BOLT): `element` is byte 10, which may not delimit"),
    "a code of one byte": (replaced(SETUP, 'code = "BOLT"', 'code = "B"'), f"partner 2 (BOLT): the code \"B\" isn't 2 to {FORM}"),
    "a space at an id's end": (replaced(SETUP, 'id = "BOLT"', 'id = "BOLT "'), f"partner 2 (BOLT): the id \"BOLT \" isn't 1 to {FORM}"),
    "a qualifier of three letters": (replaced(SETUP, 'qualifier = "ZZ"', 'qualifier = "ZZZ"'),
                                     "the hub: the qualifier \"ZZZ\" isn't two letters or digits"),
    "a name with a hyphen": (replaced(SETUP, 'name = "BOLT"', 'name = "BOLT-1"'),
                             "partner 2 (BOLT-1): the name \"BOLT-1\" isn't 1 to 20 letters or digits"),
    "a hub without an id": (replaced(SETUP, 'id = "HUB"', 'id = ""'), f"the hub: the id \"\" isn't 1 to {FORM}"),
    "a guide that isn't given": (replaced(SETUP, 'guides = ["H850"]', 'guides = ["H999"]'),
                                 "partner 2 (BOLT): \"H999\" isn't one of the guides given"),
    "a guide named twice": (replaced(SETUP, 'guides = ["H850"]', 'guides = ["H850", "H850"]'),
                            "partner 2 (BOLT): two of its guides are for the same sets"),
    "a route to nobody": (replaced(SETUP, 'to = "BOLT"', 'to = "CARL"'), "route 2 (BOLT): \"CARL\" isn't a partner"),
    "a route to one partner twice": (replaced(SETUP, 'to = "BOLT"', 'to = ["ACME", "BOLT", "BOLT"]'),
                                     "route 2 (BOLT): \"BOLT\" appears twice in `to`"),
    "two routes for one code": (SETUP + '\n[[route]]\ncode = "ACME"\nto = "BOLT"\n', "route 1 (ACME): route 3 has its code too"),
    "a route for a code of one byte": (SETUP + '\n[[route]]\ncode = "B"\nto = "BOLT"\n',
                                       f"route 3 (B): the code \"B\" isn't 2 to {FORM}"),
    "a cap of 0": (replaced(SETUP, "cap = 1", "cap = 0"), "partner 2 (BOLT): the cap 0 is out of 1 to 99999"),
}

ALIKE = "setup.toml: warning: partner 2 (acme): its name differs from that of partner 1 (ACME) in case alone"
COMMON = "which texts often hold: a set with it isn't delivered to this partner"
SETUP_WARNINGS = {
    "a comma between elements": (replaced(SETUP, 'element = "|"', 'element = ","'), f'partner 2 (BOLT): `element` is ",", {COMMON}'),
    "a stroke at segment ends": (replaced(SETUP, 'terminator = "!"', 'terminator = "/"'), f'partner 2 (BOLT): `terminator` is "/", {COMMON}'),
    "a partner without a route": (replaced(SETUP, 'to = "BOLT"', 'to = "ACME"'), "partner 2 (BOLT): no route leads to it"),
    "a guide of nobody": (replaced(SETUP, ', "H856"', ""), '"H856" is a guide that no partner names'),
}

COUNTERS_OF = {
    "a set counter of 0": ("set = 0".join(COUNTERS.rsplit("set = 1", 1)), "counter 2 (BOLT): `set` 0 is out of 1 to 999999999"),
    "an interchange counter of ten digits": (COUNTERS.replace("interchange = 1", "interchange = 1000000000", 1),
                                             "counter 1 (ACME): `interchange` 1000000000 is out of 1 to 999999999"),
    "counters of nobody": (COUNTERS.replace('"BOLT"', '"CARL"'), "counter 2 (CARL): \"CARL\" isn't a partner"),
    "counters of a partner twice": (COUNTERS.replace('"BOLT"', '"ACME"'), "counter 1 (ACME): counter 2 has its partner too"),
}


BAD_GUIDE = """name = "A-1"
group = "po"
set = "850"
version = "005010"
hl = {pairs=["S"], sequental=true}
nodes = [
 {seg="BEG", min=1, max="1", elements=["353 M ID 2 2", "x"]},
 {loop="N1", min=1, label="X", nodes=[{seg="N1", min=1, max=1, elements=[]}, {seg="N2", min=0, max=1, elements=[], conditions=["Q12"]}]},
]
"""
ALL_GUIDE = [
    '`name` is "A-1", and must be a text of 1 to 20 letters or digits',
    '`group` is "po", and must be a text of two upper-case letters, and not FA',
    "`hl`: `sequental` isn't a key of its table",
    '`hl`: text 1 of `pairs` is "S", and must be two levels as "/S" or "S/O"',
    "`hl`: `sequential` is missing",
    'node 1 (BEG): `max` is "1", and must be a number of 0 to 4294967295',
    'node 1 (BEG): text 2 of `elements` is "x": "x" can\'t be here: expected a reference number of 1 to 4 digits, or -',
    "node 2 (N1): `label` isn't a key of its table",
    "node 2 (N1): `max` is missing",
    'node 4 (N2): text 1 of `conditions` is "Q12", and must be one of P, R, E, C, L and two digits for each element',
]


def all_examples(page):
    """What --all says behind the first refusal."""
    whole = {"guide_0": H850, "guide_1": H856, "setup": SETUP, "counters": COUNTERS}
    page.want("--all, nothing to say", check(all=True, **whole), (0, lines(**OK), ""))

    def said(name, wanted, status=3, **files):
        page.want(f"--all, {name}", check(all=True, **files), (status, "".join(f"{it}\n" for it in wanted), ""))

    said("keys of a guide", [f"guide_0.toml: {it}" for it in ALL_GUIDE], guide_0=BAD_GUIDE)
    said("nodes of a guide", [
        "guide_0.toml: segment 1 (REF): min 2 is over max 1",
        "guide_0.toml: segment 1 (REF): a condition names element 3 of 1",
        "guide_0.toml: loop 2 (N9): its first segment needs min 1 and max 1, and has min 1 and max 2",
    ], guide_0=nodes(segment(least=2, more='conditions=["R0103"], '), loop(segment("N9", 1, 2))))
    keys = replaced(replaced(SETUP, 'usage = "P"', 'usage = "prod"'), "cap = 1\n", "cap = \"1\"\nphone = 5\n")
    said("keys of a setup", [
        'setup.toml: the hub: `usage` is "prod", and must be "P" or "T"',
        "setup.toml: partner 2 (BOLT): `phone` isn't a key of its table",
        'setup.toml: partner 2 (BOLT): `cap` is "1", and must be a number of 1 to 99999',
    ], setup=keys)
    rows = replaced(replaced(replaced(SETUP, "cap = 1\n", "cap = 0\n"), 'component = ":"', 'component = "|"'), 'to = "BOLT"', 'to = ["CARL", "BOLT", "BOLT"]')
    said("rows of a setup", [
        *lines(guide_0=OK["guide_0"], guide_1=OK["guide_1"]).splitlines(),
        "setup.toml: partner 2 (BOLT): `element` and `component` are both \"|\"",
        "setup.toml: partner 2 (BOLT): the cap 0 is out of 1 to 99999",
        'setup.toml: route 2 (BOLT): "CARL" isn\'t a partner',
        'setup.toml: route 2 (BOLT): "BOLT" appears twice in `to`',
        "counters.toml: ok, 2 counters",
    ], **{**whole, "setup": rows})
    numbers = COUNTERS.replace("interchange = 1", "interchange = 0", 1).replace("set = 1", "set = 1000000000", 1)
    said("rows of counters alone", [
        "counters.toml: counter 1 (ACME): `interchange` 0 is out of 1 to 999999999",
        "counters.toml: counter 1 (ACME): `set` 1000000000 is out of 1 to 999999999",
    ], counters=numbers)
    said("a setup that is left open", [
        "guide_0.toml: `nodes` is missing",
        f"setup.toml: {OPEN}",
        "setup.toml: partner 2 (BOLT): the cap 0 is out of 1 to 99999",
    ], guide_0=HEAD, setup=replaced(SETUP, "cap = 1\n", "cap = 0\n"))


def examples():
    page = Page("ERRORS.md")
    all_examples(page)
    for text, said in TOML.items():
        page.want(f"no TOML: {text}", check(setup=text), (3, lines(setup=said), ""))
    whole = {"guide_0": H850, "guide_1": H856, "setup": SETUP, "counters": COUNTERS}
    page.want("all files", check(**whole), (0, lines(**OK), ""))
    page.want("a guide alone", check(guide_0=H850), (0, lines(guide_0="ok, 14 segments and loops"), ""))
    page.want("a setup without counters", check(guide_0=H850, guide_1=H856, setup=SETUP),
              (0, lines(**{kind: OK[kind] for kind in ORDER[:3]}), ""))
    for name, words, said in (("no word", [], "no file is named"), ("a word of no option", ["--al"], "unexpected argument '--al' found"),
                              ("two setups", ["--setup", "a", "--setup", "b"], "the argument '--setup <FILE>' cannot be used multiple times"),
                              ("no file but --all", ["--all"], "no file is named")):
        page.want(name, run(words), (2, "", f"nighthub_check: usage: {said}; see --help\n"))
    for word in ("--help", "--version"):
        status, said, failed = run([word])
        page.want(word, (status, bool(said), failed), (0, True, ""))
    page.want("a guide that isn't there", check(guide_0="/nowhere/file"), (3, "/nowhere/file: it can't be read\n", ""))
    for name, (guide, said) in GUIDES.items():
        page.want(name, check(guide_0=guide), (3, lines(guide_0=said), ""))
    for row, said in ROWS.items():
        whole_text = row.replace("\\t", "\\u0009")
        page.want(f"a row: {row}", check(guide_0=elements(*TWO, row)),
                  (3, lines(guide_0=f"node 1 (REF): text 3 of `elements` is \"{whole_text}\": {said}"), ""))
    for name, (guide, said) in WARNED.items():
        status, text, failed = check(guide_0=guide)
        ok, *warnings = text.splitlines()
        page.want(f"warned of: {name}", (status, ok.startswith("guide_0.toml: ok, "), warnings, failed),
                  (0, True, [f"guide_0.toml: warning: {it}" for it in said], ""))
    for name, (setup, said) in FILES.items():
        page.want(f"a setup file: {name}", check(setup=setup), (3, lines(setup=said), ""))
    for name, (counters, said) in COUNTER_FILES.items():
        page.want(f"a counters file: {name}", check(counters=counters), (3, lines(counters=said), ""))
    for name, (setup, said) in SETUPS.items():
        page.want(f"a setup: {name}", check(**{**whole, "setup": setup}), (3, lines(**{**OK, "setup": said}), ""))
    for name, (setup, said) in SETUP_WARNINGS.items():
        page.want(f"warned of: {name}", check(**{**whole, "setup": setup}),
                  (0, lines(**{**OK, "setup": f"{OK['setup']}\nsetup.toml: warning: {said}"}), ""))
    small = {"setup": SETUP.replace('"BOLT"', '"acme"'), "counters": COUNTERS.replace('"BOLT"', '"acme"')}
    page.want("warned of: a name in other letters", check(**{**whole, **small}), (0, lines(**{**OK, "setup": f"{OK['setup']}\n{ALIKE}"}), ""))
    for name, (counters, said) in COUNTERS_OF.items():
        page.want(f"counters: {name}", check(**{**whole, "counters": counters}), (3, lines(**{**OK, "setup": OPEN, "counters": said}), ""))
    page.want("two guides with one name", check(guide_0=H850, guide_1=H850, setup=SETUP),
              (3, lines(guide_0="ok, 14 segments and loops", guide_1="ok, 14 segments and loops",
                        setup="partner 1 (ACME): \"H856\" isn't one of the guides given"), ""))
    page.want("a setup beside a guide that is refused", check(guide_0=HEAD, setup=SETUP),
              (3, lines(guide_0="`nodes` is missing", setup=OPEN), ""))
    page.want("each guide's own refusal", check(guide_0="name = 7", guide_1=H856, setup=b"", counters=b""),
              (3, lines(guide_0="`name` is 7, and must be a text of 1 to 20 letters or digits", guide_1="ok, 12 segments and loops",
                        setup="`hub` is missing", counters="`version` is missing"), ""))
    return page
