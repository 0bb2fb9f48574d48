"""Sample files of six families of transaction sets, as a supplier's or a buyer's test system sends them.

`FAMILIES` has for each ST01 its GS01, a bundled guide of the same set, and a function that draws a body. Two bodies of a family differ in
what is optional and how often, and have their segments in one order. `sample` makes a file of one set, `interchange` one of any sets.
"""
# element, component and repetition separator, terminator, and what comes after it
DELIMITERS = [("*", ">", "^", "~", ""), ("*", ":", "^", "~", "\r\n"), ("|", ">", "^", "\n", ""), ("\x1d", "\x1f", "\x1e", "\x1c", ""),
              ("|", ":", "#", "!", "\n")]
GOODS = ("GRANOLA BAR 6 CT", "DESK LAMP", "OAK TABLE 120 CM", "PAPER A4, 80 G", "CAF\xc9 MUG & SAUCER", "WALL CLOCK (24 H)")
ROADS = ("1 MAIN ST", "1301 SE 10TH ST", "9 MILL RD", "24 HARBOR WAY, DOCK 4")
TOWNS = (("BENTONVILLE", "AR", "72712"), ("DAYTON", "OH", "45402"), ("ALBANY", "NY", "12207-1001"))


def interchange(groups, number, delimiters=DELIMITERS[0], sender=("ZZ", "SUPPLIER"), usage="T"):
    """The bytes of an interchange of groups, each a GS01 and sets, each an ST01 and a body: segments as lists of elements, with components
    and repetitions divided by > and ^."""
    element, component, repetition, terminator, after = delimiters
    theirs = str.maketrans({"*": element, ">": component, "^": repetition})
    made = [["ISA", "00", " " * 10, "00", " " * 10, sender[0], f"{sender[1]:15}", "ZZ", f"{'HUB':15}", "260301", "0900", "^", "00501",
             f"{number:09}", "0", usage, ">"]]
    for at, (group, sets) in enumerate(groups):
        made.append(["GS", group, sender[1], "HUB", "20260301", "0900", number + at, "X", "005010"])
        for place, (kind, body) in enumerate(sets, 1):
            made += [["ST", kind, f"{place:04}"], *body, ["SE", len(body) + 2, f"{place:04}"]]
        made.append(["GE", len(sets), number + at])
    made.append(["IEA", len(groups), f"{number:09}"])
    return "".join("*".join(map(str, it)).translate(theirs) + terminator + after for it in made).encode("latin-1")


def sample(kind, draw, number, delimiters=DELIMITERS[0], sender=("ZZ", "SUPPLIER")):
    """A file with one set of a family, with a number from 0."""
    group, _, body = FAMILIES[kind]
    return interchange([(group, [(kind, body(draw, number))])], number + 1, delimiters, sender)


def date(draw):
    return f"2026{draw.randint(3, 12):02}{draw.randint(1, 28):02}"


def code(draw):
    """A product code of 12 digits."""
    return f"{draw.randint(10 ** 11, 10 ** 12 - 1)}"


def price(draw):
    return f"{draw.randint(1, 99)}.{draw.randint(0, 99):02}"


def some(draw, *segments):
    """The segments, or none of them."""
    return list(segments) if draw.random() < 0.5 else []


def party(draw, kind, name, address):
    """A party with a number of its own, with its address or without."""
    named = [["N1", kind, name, "92", f"{draw.randint(1, 9999):04}"]]
    return [*named, ["N3", draw.choice(ROADS)], ["N4", *draw.choice(TOWNS)]] if address else named


def order(draw, number):
    """A purchase order (850)."""
    body = [["BEG", "00", draw.choice(("SA", "NE")), f"45000{number:05}", "", date(draw)], ["REF", "DP", f"{draw.randint(1, 999):05}"]]
    body += some(draw, ["REF", "IA", f"{draw.randint(10000, 99999)}"]) + some(draw, ["PER", "BD", "J. ORTIZ", "TE", "4795550100"])
    body += some(draw, ["SAC", "A", "C310", "", "", draw.randint(100, 9999)]) + some(draw, ["ITD", "08", "15", "2", "", "30", "", "31"])
    body += [["DTM", "010", date(draw)]] + some(draw, ["DTM", "063", date(draw)])
    body += some(draw, ["N9", "L1", "SPECIAL INSTRUCTIONS"], *[["MSG", "DELIVER TO THE REAR ENTRANCE, HANDLE WITH CARE"]] * draw.randint(1, 3))
    body += [*party(draw, "BT", "MART STORES INC", False), *party(draw, "ST", f"MART DC {draw.randint(6000, 6999)}", True)]
    lines = draw.randint(1, 5)
    for line in range(1, lines + 1):
        body += [["PO1", line, draw.choice((12, 24, 144)), draw.choice(("EA", "CA")), price(draw), "", "UP", code(draw)],
                 ["PID", "F", "08", "", "", draw.choice(GOODS)], *some(draw, ["PO4", 12, 1, "EA"])]
    return [*body, ["CTT", lines], *some(draw, ["AMT", "GV", price(draw)])]


def answer(draw, number):
    """A purchase order acknowledgment (855)."""
    body = [["BAK", "00", draw.choice(("AC", "AD")), f"45000{number:05}", date(draw)], *some(draw, ["REF", "DP", f"{draw.randint(1, 999):05}"]),
            ["REF", "VN", f"V{number}"], *some(draw, ["DTM", "067", date(draw)]), *party(draw, "SU", "SUPPLIER", draw.random() < 0.3)]
    lines = draw.randint(1, 4)
    for line in range(1, lines + 1):
        sent = [draw.choice((12, 24)), "EA"]
        body += [["PO1", line, *sent, price(draw), "", "UP", code(draw)], *some(draw, ["PID", "F", "", "", "", draw.choice(GOODS)]),
                 ["ACK", draw.choice(("IA", "IQ", "IR")), *sent, *draw.choice(([], ["068", date(draw)]))]]
    return [*body, ["CTT", lines]]


def notice(draw, number):
    """A ship notice by shipment, order, pack and item (856)."""
    body = [["BSN", "00", f"S{number:06}", date(draw), "1015"], ["HL", 1, "", "S"], *some(draw, ["TD1", "CTN25", draw.randint(1, 40)]),
            ["TD5", "B", "2", draw.choice(("UPSN", "FDEG")), "M"], ["REF", "BM", f"BM{number}"], *some(draw, ["REF", "CN", f"1Z{number}"]),
            ["DTM", "011", date(draw)], *party(draw, "SF", "SUPPLIER", True), *party(draw, "ST", "MART DC 6094", False)]
    level = 1
    for ordered in range(draw.randint(1, 3)):
        level += 1
        above = level
        body += [["HL", level, 1, "O"], ["PRF", f"45000{number + ordered:05}"], *some(draw, ["REF", "DP", "00082"])]
        for _ in range(draw.randint(1, 3)):
            level += 1
            pack = level
            body += [["HL", pack, above, "P"], ["MAN", "GM", f"00{draw.randint(10 ** 17, 10 ** 18 - 1)}"]]
            for line in range(1, draw.randint(1, 3) + 1):
                level += 1
                body += [["HL", level, pack, "I"], ["LIN", line, "UP", code(draw)], ["SN1", line, draw.randint(1, 500), draw.choice(("EA", "CA"))]]
    return [*body, ["CTT", level]]


def change(draw, number):
    """A purchase order change (860)."""
    body = [["BCH", "04", "SA", f"45000{number:05}", "", draw.randint(1, 9), date(draw)], ["REF", "DP", "00082"],
            *some(draw, ["DTM", "010", date(draw)]), *party(draw, "ST", "MART DC 6094", False)]
    lines = draw.randint(1, 3)
    for line in range(1, lines + 1):
        body += [["POC", f"{line:03}", draw.choice(("QI", "QD", "AI")), draw.choice((24, 48)), draw.choice((12, 36)), "EA", price(draw), "", "UP",
                  code(draw)], *some(draw, ["PID", "F", "08", "", "", draw.choice(GOODS)])]
    return [*body, ["CTT", lines]]


def invoice(draw, number):
    """An invoice with taxes and charges in its lines and again in the summary (810)."""
    body = [["BIG", date(draw), f"INV{number:05}", date(draw), f"45000{number:05}"], ["REF", "DP", "00082"],
            *some(draw, ["REF", "BM", f"BM{number}"]), *party(draw, "SU", "SUPPLIER", True), *party(draw, "ST", "MART DC 6094", False),
            ["ITD", "08", "15", draw.choice(("", "2")), "", 30], ["DTM", "011", date(draw)]]
    lines = draw.randint(1, 4)
    for line in range(1, lines + 1):
        body += [["IT1", line, draw.choice((12, 24)), "EA", price(draw), "", "UP", code(draw)], *some(draw, ["TXI", "ST", price(draw)]),
                 *some(draw, ["SAC", "A", "C310", "", "", draw.randint(10, 999)])]
    return [*body, ["TDS", draw.randint(1000, 99999)], *some(draw, ["TXI", "ST", price(draw)]), *some(draw, ["CAD", "M", "", "", "UPSN"]),
            *some(draw, ["SAC", "C", "D240", "", "", draw.randint(10, 999)]), *some(draw, ["ISS", 2, "CA"]), ["CTT", lines]]


def inventory(draw, number):
    """An inventory advice: items, each with quantities in composite units (846)."""
    body = [["BIA", "00", "DD", f"R{number}", date(draw), "0600"], ["DTM", "007", date(draw)], *party(draw, "SU", "SUPPLIER", False)]
    lines = draw.randint(1, 6)
    for line in range(1, lines + 1):
        body += [["LIN", line, "UP", code(draw), *draw.choice(([], ["VN", f"AC-{line}"]))], *some(draw, ["PID", "F", "", "", "", draw.choice(GOODS)]),
                 ["QTY", "33", draw.randint(0, 500), draw.choice(("EA", "CA>12"))],
                 *some(draw, ["QTY", "29", draw.randint(0, 99), "EA"], *some(draw, ["DTM", "018", date(draw)]))]
    return [*body, *some(draw, ["CTT", lines])]


FAMILIES = {
    "810": ("IN", "recipes/h810.toml", invoice),
    "846": ("IB", "recipes/h846.toml", inventory),
    "850": ("PO", "h850.toml", order),
    "855": ("PR", "h855.toml", answer),
    "856": ("SH", "h856.toml", notice),
    "860": ("PC", "h860.toml", change),
}
