"""The examples of docs/ACKNOWLEDGMENT.md: what stands in the acknowledgment of an interchange."""
from guides import HEAD
from trial import H850, H856, Page, example, night

ISA = "ISA*00*          *00*          *01*ACME           *ZZ*HUB            *260228*0900*^*00501*000000007*0*P*>~"
ORDERS, SHIPMENTS = (f"GS*{code}*ACME*BOLT*20260228*0900*12*X*005010~" for code in ("PO", "SH"))
BEG, LINE = "BEG*00*SA*PO100**20260228~", "PO1*1*5*EA*2.50~"


def interchange(sets, group=ORDERS, end="GE*1*12~"):
    return f"{ISA}{group}{sets}{end}IEA*1*000000007~"


def order(*segments, number="0001"):
    return f"ST*850*{number}~{''.join(segments)}SE*{len(segments) + 2}*{number}~"


ORDER = order(BEG, LINE)
LONG = f"REF*DP*7*{'A' * 81}~"
SHORT = ORDER.replace("0001", "001").replace("SE*4*001", "SE*5*0002")
SHIPMENT = "ST*856*0001~BSN*00*SH1*20260228*0900~{}SE*6*0001~"
LEVELS = SHIPMENT.format("HL*1**S*0~HL*2*3*O~HL*3*1*I~")
IN = "GS*IN*ACME*BOLT*20260228*0900*12*X*005010~"

GROUPS = [
    ("A", interchange(ORDER), "AK9*A*1*1*1~"),
    ("A, no sets", interchange("", end="GE*0*12~"), "AK9*A*0*0*0~"),
    ("E", interchange(order(BEG, LONG, LINE)), "AK9*E*1*1*1~"),
    ("P", interchange(ORDER + "ST*850*0002~" + BEG + LINE + "SE*5*0002~", end="GE*2*12~"), "AK9*P*2*2*1~"),
    ("R", interchange(ORDER.replace("SE*4", "SE*5")), "AK9*R*1*1*0~"),
    ("1", interchange("ST*810*0001~SE*2*0001~", group=IN), "AK9*R*1*1*0*1~"),
    ("2", interchange(ORDER, group=ORDERS.replace("005010", "004010")), "AK9*R*1*1*0*2~"),
    ("3", interchange(ORDER, end=""), "AK9*R*1*1*0*3~"),
    ("4", interchange(ORDER, end="GE*1*13~"), "AK9*R*1*1*0*4~"),
    ("5", interchange(ORDER, end="GE*2*12~"), "AK9*R*2*1*0*5~"),
    ("4 and 5", interchange(ORDER, end="GE*2*13~"), "AK9*R*2*1*0*4*5~"),
    ("numbers with noughts", interchange(ORDER, end="GE*1*0012~"), "AK9*A*1*1*1~"),
    ("19", f"{ISA}{(ORDERS + ORDER + 'GE*1*12~') * 2}IEA*2*000000007~", "AK9*R*1*1*0*19~"),
]
CONVENTION = [H850.replace("dictionary", 'convention = "CONV"\ndictionary'), H856]
SETS = [
    ("A", interchange(ORDER), "IK5*A~"),
    ("A, count with noughts", interchange(ORDER.replace("SE*4", "SE*0004")), "IK5*A~"),
    ("E", interchange(order(BEG, LONG, LINE)), "IK5*E*5~"),
    ("1", interchange("ST*860*0001~" + BEG + "SE*3*0001~"), "IK5*R*1~"),
    ("2", interchange("ST*850*0001~" + BEG + LINE), "IK5*R*2~"),
    ("3", interchange(ORDER.replace("SE*4*0001", "SE*4*0002")), "IK5*R*3~"),
    ("3, as text", interchange(ORDER.replace("SE*4*0001", "SE*4*1")), "IK5*R*3~"),
    ("4", interchange(ORDER.replace("SE*4", "SE*5")), "IK5*R*4~"),
    ("5", interchange(order(BEG, "REF*DP~", LINE)), "IK5*R*5~"),
    ("7", interchange(ORDER.replace("0001", "001")), "IK5*R*7~"),
    ("23", interchange(ORDER + ORDER, end="GE*2*12~"), "IK5*R*23~"),
    ("I5", interchange(order("BEG*01*SA*P1**20260228~", LINE)), "IK5*R*I5~"),
    ("several", interchange(SHORT + SHORT, end="GE*2*12~"), "IK5*R*3*4*7*23~"),
]
CONVENTIONS = [("I6", "*OTHER", "IK5*R*I6~"), ("the convention", "*CONV", "IK5*A~"), ("none", "", "IK5*A~"),
               ("a component separator alone", "*>", "IK5*A~"), ("a repetition separator alone", "*^", "IK5*A~"),
               ("the convention and a separator", "*CONV>", "IK5*R*I6~")]

TWO_PARTIES, PARTY = ("N1*ST*A~", "N1*BT*B~"), "N1*ST*A~"
SEGMENTS = [
    ("1", interchange(order(BEG, "REF*DP*7~", *TWO_PARTIES, "Q9*1~", LINE)), "IK3*Q9*6**1~"),
    ("3", interchange(order(BEG)), "IK3*PO1*3*PO1*3~"),
    ("4, not yet", interchange(order(BEG, "REF*DP*7~", *TWO_PARTIES, LINE)), "IK5*A~"),
    ("4", interchange(order(BEG, *TWO_PARTIES, "N1*VN*C~", LINE)), "IK3*N1*5*N1*4~"),
    ("5", interchange(order(BEG, LINE, LINE, LINE, "CTT*3~", "CTT*3~")), "IK3*CTT*7**5~"),
    ("6", interchange(order(BEG, "PER*IC~", LINE)), "IK3*PER*3**6~"),
    ("7", interchange(order(BEG, LINE, LINE, BEG)), "IK3*BEG*5**7~"),
    ("8", interchange(order("BEG*01*SA*P1**20260228~", LINE)), "IK3*BEG*2**8~"),
    ("I6", interchange(SHIPMENT.format("HL*1**S~HL*2*1*O~HL*3*2*P~"), group=SHIPMENTS), "IK3*MAN*6*HL*I6~"),
]

BEG_NODE = ('{seg="BEG", min=1, max=1, elements=["353 M ID 2 2", "92 M ID 2 2", "324 M AN 1 22", "328 O AN 1 30", '
            '"373 M DT 8 8"]}')
LABELLED = BEG_NODE.replace('seg="BEG"', 'seg="BEG", label="B"')
REF_NODE = '{seg="REF", min=0, max=1, pick=["1 IA"], elements=["128 M ID 2 3", "127 O AN 1 50"]}'
DTM_NODE = '{seg="DTM", min=0, max=0, elements=["374 M ID 3 3"]}'
LINES = ('{{loop="PO1", min=1, max=9, nodes=[{{seg="PO1", min=1, max=1, elements=["350 O AN 1 20", "330 M R 1 5", '
         '"355 M ID 2 2", "212 O R 1 9"]}},{{seg="PID", min={}, max=5, elements=["349 M ID 1 1"]}}]}}')
PARTIES = '{loop="N1", min=2, max=3, nodes=[{seg="N1", min=1, max=1, elements=["98 M ID 2 3", "93 O AN 1 60"]}]}'
THREE = '{seg="REF", min=0, max=1, elements=["128 M ID 2 3", "127 O AN 1 50", "352 O AN 1 80"], conditions=["E0203"]}'
TARGET = '{seg="REF", label="R", min=0, max=1, elements=["128 M ID 2 3", "127 O AN 1 50", "352 O AN 1 80"]}'


def guide(*nodes, depends=""):
    return [HEAD.replace("SMALL", "H850") + depends + f"nodes = [{','.join(nodes)}]\n", H856]


def depends(kind, target, element):
    return f'depends = [{{kind="{kind}", slot="B", at=1, codes=["00"], target="{target}", element={element}}}]\n'


BANNED = DTM_NODE.replace("max=0", "max=1").replace('seg="DTM"', 'seg="DTM", label="D"')
GUIDED = [
    ("IK304 2", guide(BEG_NODE, REF_NODE, LINES.format(0)), order(BEG, "REF*DP*7~", LINE), "IK3*REF*3**2~"),
    ("IK304 I4", guide(BEG_NODE, REF_NODE, DTM_NODE, LINES.format(0)), order(BEG, "REF*IA*7~", "DTM*002~", LINE), "IK3*DTM*4**I4~"),
    ("IK304 I7", guide(BEG_NODE, REF_NODE, PARTIES, LINES.format(0)), order(BEG, "REF*IA*7~", PARTY, LINE), "IK3*N1*5*N1*I7~"),
    ("IK304 I8", guide(BEG_NODE, REF_NODE, LINES.format(2)), order(BEG, "REF*IA*7~", LINE, "PID*F~"), "IK3*PID*6*PO1*I8~"),
    ("IK304 I9", guide(LABELLED, REF_NODE, BANNED, LINES.format(0), depends=depends("ban", "D", 0)),
     order(BEG, "REF*IA*7~", "DTM*002~", LINE), "IK3*DTM*4**I9~"),
    ("IK403 10", guide(BEG_NODE, THREE, LINES.format(0)), order(BEG, "REF*DP*A*B~", LINE), "IK4*3*352*10*B~"),
    ("IK403 I9", guide(LABELLED, TARGET, LINES.format(0), depends=depends("need", "R", 2)), order(BEG, "REF*DP~", LINE), "IK4*2*127*I9~"),
    ("IK403 I13", guide(LABELLED, TARGET, LINES.format(0), depends=depends("ban", "R", 3)), order(BEG, "REF*DP**B~", LINE),
     "IK4*3*352*I13*B~"),
]
ELEMENTS = [
    ("1", order("BEG**SA*P1**20260228~", LINE), "IK4*1*353*1~"),
    ("2", order(BEG, "REF*DP~", LINE), "IK4*2*127*2~"),
    ("3", order("BEG*00*SA*P1**20260228*X~", LINE), "IK4*6**3*X~"),
    ("4", order(BEG, "REF*D*7~", LINE), "IK4*1*128*4*D~"),
    ("5", order(BEG, "REF*DPXX*7~", LINE), "IK4*1*128*5*DPXX~"),
    ("6", order(BEG, "PO1*1*1.2.3*EA~"), "IK4*2*330*6*1.2.3~"),
    ("7", order("BEG*99*SA*P1**20260228~", LINE), "IK4*1*353*7*99~"),
    ("8", order("BEG*00*SA*P1**20260229~", LINE), "IK4*5*373*8*20260229~"),
    ("9", order(BEG, "DTM*002**2460~", LINE), "IK4*3*337*9*2460~"),
    ("12", order(BEG, PARTY, "N3*A^B~", LINE), "IK4*1>>2*166*12*B~"),
    ("13", order(BEG, PARTY, "N3*A>B~", LINE), "IK4*1>2*166*13*B~"),
    ("I6", order("BEG*01*SA*P1**20260228~", LINE), "IK4*1*353*I6*01~"),
    ("I10", order(BEG, LINE, "PID*F**X**DESC~"), "IK4*3*559*I10*X~"),
]
WHOLE = [("one_order", 0), ("rejected", 1), ("partly_accepted", 1), ("ta1_asked_for", 0), ("cut_off", 1)]

ASKING = ISA.replace("*0*P*>~", "*1*P*>~")
REPORTS = "GS*FA*ACME*HUB*20260228*0900*5*X*005010X231~ST*999*0001*005010X231~SE*2*0001~GE*1*5~"
WHOLE_ORDER = interchange(ORDER)
ALONE = "TA1*000000007*260228*0900*{}~IEA*0*00000000{}~"
TA1S = [
    ("A 000", WHOLE_ORDER.replace(ISA, ASKING), "*P*>~TA1*000000007*260228*0900*A*000~GS*FA*HUB*ACME*20260301*1530*1*X*005010X231~"),
    ("A 000, groups FA alone", f"{ASKING}{REPORTS}IEA*1*000000007~", ALONE.format("A*000", 1)),
    ("R 001", WHOLE_ORDER.replace("IEA*1*000000007", "IEA*1*000000008"), ALONE.format("R*001", 1)),
    ("R 021", WHOLE_ORDER.replace("IEA*1", "IEA*2"), ALONE.format("R*021", 1)),
    ("R 022", f"{ISA}REF*DP*7~IEA*0*000000007~", ALONE.format("R*022", 1)),
    ("R 023", WHOLE_ORDER[:-16], ALONE.format("R*023", 1)),
    ("R 024, a group", WHOLE_ORDER.replace("GS*PO", "GS*P"), ALONE.format("R*024", 1)),
    ("R 024, a set", WHOLE_ORDER.replace("ST*850*0001", "ST*850"), ALONE.format("R*024", 1)),
    ("R 025", WHOLE_ORDER * 2, ALONE.format("R*025", 2)),
]
UNANSWERED = {
    "ISA13 that isn't digits": WHOLE_ORDER.replace("000000007", "00000000A"),
    "ISA09 that isn't digits": WHOLE_ORDER[:-16].replace("*260228*", "*26022A*"),
    "ISA10 that isn't digits": WHOLE_ORDER[:-16].replace("*0900*^", "*09A0*^"),
    "a sender who isn't a partner": WHOLE_ORDER.replace("*01*ACME ", "*01*CARL "),
    "no group": f"{ASKING}IEA*0*000000007~",
    "groups FA that don't ask": f"{ISA}{REPORTS}IEA*1*000000007~",
}


def examples():
    page = Page("ACKNOWLEDGMENT.md")

    def shows(name, text, wanted, **how):
        found = night(text=text, **how)[3].get("ACME.ack", b"").decode()
        page.holds(name, wanted in found, f"no {wanted} in {found[found.find('AK1'):]!r}")

    for code, text, wanted in GROUPS:
        shows(f"group {code}", text, wanted)
    for code, text, wanted in SETS:
        shows(f"set {code}", text, wanted)
    for code, third, wanted in CONVENTIONS:
        shows(f"ST03, {code}", interchange(ORDER.replace("ST*850*0001", f"ST*850*0001{third}")), wanted, guides=CONVENTION)
    for code, text, wanted in SEGMENTS:
        shows(f"IK304 {code}", text, wanted)
    for code, guides, text, wanted in GUIDED:
        shows(code, interchange(text), wanted, guides=guides)
    for code, text, wanted in ELEMENTS:
        shows(f"IK403 {code}", interchange(text), wanted)
    for code, wanted in (("I6", "IK4*3*735*I6*I~"), ("I12", "IK4*2*734*I12*3~")):
        shows(f"hierarchy {code}", interchange(LEVELS, group=SHIPMENTS), wanted)
    for name, text, wanted in TA1S:
        shows(f"TA1 {name}", text, wanted)
    for name, text in UNANSWERED.items():
        found = night(text=text)[3]
        page.want(f"no answer: {name}", (found.get("ACME.ack"), found.get("BOLT.ack")), (b"", b""))
    for name, status in WHOLE:
        found = night(text=example(f"night/{name}.x12"))
        page.want(name, (found[0], found[3].get("ACME.ack")), (status, example(f"night/{name}.ack").encode()))
    return page
