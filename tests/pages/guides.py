"""The examples of docs/GUIDES.md: guide files that are accepted, and those that are refused, by their number; what the page's own guides for
qualifiers accept and reject; what a guide that tolerates unknown segments lets through."""
import re

from trial import COUNTERS, H850, H856, SETUP, TOP, Page, night

HEAD = 'name = "SMALL"\ngroup = "PO"\nset = "850"\nversion = "005010"\n'
SMALL = HEAD + 'nodes = [\n {seg="BEG", min=1, max=1, elements=["353 M ID 2 2 = 00", "92 M ID 2 2", "324 M AN 1 22"]},\n]\n'


def nodes(*list_of, more=""):
    return HEAD + more + "nodes = [\n " + ",\n ".join(list_of) + ",\n]\n"


def segment(seg="REF", least=0, most=1, element="128 M ID 2 3", more=""):
    return f'{{seg="{seg}", min={least}, max={most}, {more}elements=["{element}"]}}'


def elements(*rows, more=""):
    return nodes(f'{{seg="REF", min=0, max=1, elements=[{", ".join(f"{chr(34)}{it}{chr(34)}" for it in rows)}]{more}}}')


def loop(inner, label=""):
    return f'{{loop="N9", {label}min=0, max=1, nodes=[{inner}]}}'


TWO = ("128 M ID 2 3", "127 O AN 1 50")
DEPENDS = 'depends = [{kind="need", slot="HL", at=3, codes=["P"], target="MAN", element=0}]\n'
APART = segment(more='pick=["1 DP"], '), segment(more='pick=["1 IA VN"], ')

REFUSED = {
    "not TOML": ('name = "A', "1"),
    "no set": (SMALL.replace('set = "850"\n', ""), "2"),
    "a set that is a number": (SMALL.replace('set = "850"', "set = 850"), "3"),
    "a guide for FA": (SMALL.replace('"PO"', '"FA"'), "3"),
    "a key of no guide": ('colour = "red"\n' + SMALL, "4"),
    "segment and loop at once": (nodes('{seg="REF", loop="N9", min=0, max=1}'), "3"),
    "a label on a loop": (nodes(loop("", 'label="X", ')), "4"),
    "no elements": (nodes('{seg="REF", min=0, max=1}'), "2"),
    "a type that isn't there": (elements("128 M XX 2 3"), "3"),
    "two spaces": (elements("128  M ID 2 3"), "3"),
    "unused codes without used ones": (elements("128 M ID 2 3 ! XX"), "3"),
    "words in another order": (elements("128 M ID 2 3 wide x3"), "3"),
    "8 tolerated": ('tolerate_segment = ["8"]\n' + SMALL, "3"),
    "least over most": (nodes(segment(least=2)), "5.3"),
    "ISA": (nodes(segment("ISA")), "5.3"),
    "a million uses": (nodes(segment(most=1000000)), "5.3"),
    "least length 0": (elements("128 M ID 0 3"), "5.3"),
    "a thousand repeats": (elements("128 M ID 2 3 x1000"), "5.3"),
    "no codes behind =": (elements("128 M ID 2 3 ="), "5.3"),
    "first child twice": (nodes(loop(segment("N9", 1, 2))), "5.4"),
    "an empty loop": (nodes(loop("")), "5.4"),
    "positions over the rows": (elements(*TWO, more=', conditions=["R0203"]'), "5.6"),
    "one position": (elements(*TWO, more=', conditions=["R02"]'), "5.6"),
    "a position twice": (elements(*TWO, more=', conditions=["R0202"]'), "5.6"),
    "a pick without codes": (elements(*TWO, more=', pick=["1"]'), "5.6"),
    "a label twice": (nodes(segment(more='label="R", '), segment("DTM", more='label="R", ')), "5.6"),
    "a hierarchy without HL": ('hl = {pairs=["/S"], sequential=true}\n' + SMALL, "5.6"),
    "a dependency on no slot": (DEPENDS + SMALL, "5.6"),
    "two that fit one segment": (nodes(segment(), segment()), "5.5"),
    "41 elements": (elements(*["128 O ID 2 3"] * 41), "5.3"),
    "21 components": (elements("- O C" + " ; 128 O ID 2 3" * 21), "5.3"),
    "rivals with a mandatory one between": (nodes(segment(), segment("DTM", 1, 1), segment()), "5.5"),
    "a component that repeats": (elements("- O C ; 128 M ID 2 3 x2"), "3"),
    "a group in small letters": (SMALL.replace('"PO"', '"po"'), "3"),
    "a dash in the name": (SMALL.replace("SMALL", "SM-ALL"), "3"),
    "a number below 0": (nodes(segment()).replace("min=0", "min=-1"), "3"),
}

TAKEN = {
    "the small guide": SMALL,
    "picks that tell apart": nodes(*APART),
    "no use allowed": nodes(segment(most=0)),
    "999,999 uses": nodes(segment(most=999999)),
    "a composite that repeats": elements("- O C x2 ; 128 M ID 2 3 ; 127 O AN 1 50 ; 352 N"),
    "an element not used": elements("128 N"),
    "all that a row may say": elements("128 M ID 2 3 x2 wide = DP IA ! XX"),
    "no nodes": HEAD + "nodes = []\n",
    "40 elements": elements(*["128 O ID 2 3"] * 40),
    "20 components": elements("- O C" + " ; 128 O ID 2 3" * 20),
}


ISA = "ISA*00*          *00*          *01*ACME           *ZZ*HUB            *260228*0900*^*00501*000000007*0*P*>~"


def blocks():
    """The guides of the page whose nodes are segments REF, each after a BEG, under the name H850."""
    with open(f"{TOP}/docs/GUIDES.md", encoding="utf-8") as it:
        texts = re.findall(r"^```toml\n(nodes = \[\n.*?)^```", it.read(), re.M | re.S)
    head = HEAD.replace("SMALL", "H850")
    return [head + text.replace("nodes = [\n", 'nodes = [\n {seg="BEG", min=1, max=1, elements=["353 M ID 2 2"]},\n', 1) for text in texts]


def answer(guide, *references):
    """What the acknowledgment says of an order with these qualifiers, one a REF, from its IK3 or IK5 on."""
    segments = "".join(f"REF*{it}*1~" for it in references)
    text = f"{ISA}GS*PO*ACME*BOLT*20260228*0900*12*X*005010~ST*850*0001~BEG*00~{segments}SE*{len(references) + 3}*0001~GE*1*12~IEA*1*000000007~"
    acknowledgment = night(guides=[guide, H856], text=text)[3]["ACME.ack"].decode()
    return acknowledgment.split("AK2*850*0001~")[1].split("AK9")[0]


def qualifiers(page):
    fixed, loop_by_one = blocks()
    fixed = fixed.replace('"128 M ID 2 3"', '"128 M ID 2 3", "127 O AN 1 50"')
    page.want("DP, then IA, by two slots", answer(fixed, "DP", "IA"), "IK5*A~")
    page.want("IA, then DP, by two slots", "IK3*REF*4**7~" in answer(fixed, "IA", "DP"), True)
    for references in (("DP",), ("DP", "IA"), ("IA", "DP"), ("IA", "DP", "VN", "IA")):
        page.want(f"{references} by a loop", answer(loop_by_one, *references), "IK5*A~")
    for references in ((), ("IA",), ("DP", "DP")):
        page.want(f"{references} by a loop, rejected", "IK5*R" in answer(loop_by_one, *references), True)


def tolerated(page):
    """A segment with an empty one within it, which a receiver may read as a header."""
    stray = "ISA*00*          *00*     ~~    *01*ACME           *ZZ*HUB            *260228*0900*^*00501*000000009*0*P*>~"
    body = f"BEG*00*SA*PO1**20260228~PO1*1*5*EA*2.50~{stray}"
    text = f"{ISA}GS*PO*ACME*BOLT*20260228*0900*12*X*005010~ST*850*0001~{body}SE*6*0001~GE*1*12~IEA*1*000000007~"
    for name, guide, code in (("", H850, "IK5*R"), (" by a guide that tolerates 1", H850.replace("dictionary", 'tolerate_segment = ["1"]\ndictionary'), "IK5*E")):
        found = night(guides=[guide, H856], text=text, counters=COUNTERS, setup=SETUP)[3]
        page.want(f"a segment that begins with ISA{name}", (code in found["ACME.ack"].decode(), b"ISA|00" in found["BOLT.box"][10:]), (True, "E" in code))


def examples():
    page = Page("GUIDES.md")
    qualifiers(page)
    tolerated(page)
    for name, (guide, number) in REFUSED.items():
        page.want(name, night(guides=[guide])[:3], (3, "", f"nighthub: guide HERE/guide_0.toml {number}\n"))
    for name, guide in TAKEN.items():
        # the guide is taken, and then the setup lacks those that it names
        page.want(name, night(guides=[guide])[:3], (3, "", "nighthub: setup 4\n"))
    return page
