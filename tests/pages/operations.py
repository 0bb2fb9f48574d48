"""The examples of docs/OPERATIONS.md: the lines of the report, and the counters of the next night."""
from acknowledgment import ASKING, ISA, ORDER, REPORTS, interchange
from trial import COUNTERS, SETUP, Page, night

ONE = interchange(ORDER)
FIRST, SECOND, TOTAL = "interchange 1 at 0 from ACME control 000000007", "interchange 2 at 236 from ACME control 000000007", "total interchanges"
GROUP = "group PO 12 A sets 1 accepted 1"
STROKE = ONE.replace("PO100", "PO|7")
BOTH = SETUP.replace('to = "BOLT"', 'to = ["BOLT", "ACME"]')
REPORT = [
    ("accepted", ONE, [f"{FIRST} accepted", GROUP], "1 refused 0 groups 1 sets 1 accepted 1 held 0 outside 0"),
    ("answered", ONE.replace(ISA, ASKING), [f"{FIRST} accepted", "ta1 sent A 000", GROUP], "1 refused 0 groups 1 sets 1 accepted 1 held 0 outside 0"),
    ("refused and answered", ONE * 2, [f"{FIRST} accepted", GROUP, f"{SECOND} refused 9", "ta1 sent R 025"],
     "2 refused 1 groups 1 sets 1 accepted 1 held 0 outside 0"),
    ("ISA13 that isn't digits", ONE.replace("000000007", "00000000A"), ["interchange 1 at 0 from ACME control ? refused 2"],
     "1 refused 1 groups 0 sets 0 accepted 0 held 0 outside 0"),
    ("a sender who isn't known", ONE.replace("*01*ACME ", "*01*CARL "), ["interchange 1 at 0 from ? control 000000007 refused 8"],
     "1 refused 1 groups 0 sets 0 accepted 0 held 0 outside 0"),
    ("received TA1s and groups FA", f"{ASKING}TA1*000000001*260228*0900*A*000~{REPORTS}IEA*1*000000007~",
     [f"{FIRST} accepted", "ta1 sent A 000", "ta1 1", "group FA 5 listed sets 1"], "1 refused 0 groups 0 sets 0 accepted 0 held 0 outside 0"),
    ("a delimiter", STROKE, [f"{FIRST} accepted", GROUP, "held set 1 delimiter BOLT"], "1 refused 0 groups 1 sets 1 accepted 1 held 1 outside 0"),
    ("no route", ONE.replace("*BOLT*", "*CARL*"), [f"{FIRST} accepted", GROUP, "held set 1 route"],
     "1 refused 0 groups 1 sets 1 accepted 1 held 1 outside 0"),
]
NEXT = """version = 2

[[counter]]
partner = "ACME"
interchange = {}
group = {}
set = {}

[[counter]]
partner = "BOLT"
interchange = {}
group = {}
set = {}
"""
# the next counters of ACME and of BOLT
COUNTED = [
    ("an order", SETUP, ONE, (2, 2, 1, 2, 2, 2)),
    ("an order for two", BOTH, ONE, (3, 3, 2, 2, 2, 2)),
    ("an order for two, held for one", BOTH, STROKE, (3, 3, 2, 1, 1, 1)),
    ("a TA1 alone", SETUP, ONE[:-16], (2, 1, 1, 1, 1, 1)),
    ("a TA1 alone, then an order", SETUP, ONE[:-16] + ONE, (3, 2, 1, 2, 2, 2)),
]


def examples():
    page = Page("OPERATIONS.md")
    for name, text, lines, total in REPORT:
        wanted = "".join(f"{line}\n" for line in [*lines, f"{TOTAL} {total}"])
        page.want(name, night(text=text)[3].get("report.txt"), wanted.encode())
    for name, setup, text, counters in COUNTED:
        page.want(name, night(setup=setup, text=text)[3].get("counters.toml"), NEXT.format(*counters).encode())
    files = night(setup=BOTH, text=STROKE)[3]
    page.want("held for one of two", (b"PO|7" in files["ACME.box"], files["BOLT.box"]), (True, b""))
    numbers = night(setup=BOTH, text=ONE, counters=COUNTERS.replace("group = 1", "group = 999999999", 1))[3]
    page.want("a group number begins anew", (b"*999999999*X*005010X231~" in numbers["ACME.ack"], b"*1*X*005010~" in numbers["ACME.box"]), (True, True))
    first = night(counters="version = 1\n", text=ONE)[3]
    page.want("a first night's counters", first.get("counters.toml"), NEXT.format(2, 2, 1, 2, 2, 2).encode())
    return page
