"""What nighthub_explain counts in a night's acknowledgments, beside what the night's report says of each partner's interchanges."""
import glob
import os
import re

import words
from trial import TOP, Page

NIGHTS = os.path.join(TOP, "tests", "nights")
NAMES = ("ta1s", "groups", "sets", "accepted")


def reported(lines):
    """By the report, for each partner: TA1s that it is sent, its groups, sets, and sets that are accepted."""
    found, sender = {}, None
    for line in lines:
        if it := re.match(r"interchange \d+ at \d+ from (\S+) ", line):
            sender = it[1]
        counts = found.setdefault(sender, [0, 0, 0, 0])
        if line.startswith("ta1 sent "):
            counts[0] += 1
        elif it := re.match(r"group \S+ \S+ [AEPR] sets (\d+) accepted (\d+)$", line):
            counts[1] += 1
            counts[2] += int(it[1])
            counts[3] += int(it[2])
    return found


def explained(paths, said):
    """By the lines of several files: the counts of each, 0 where it has no acknowledgments."""
    found = {path: None for path in paths}
    for line in said.splitlines():
        for path in paths:
            if line == f"{path}: no acknowledgments":
                found[path] = [0, 0, 0, 0]
            elif line.startswith(f"{path}: total "):
                counted = line.split()[-2 * len(NAMES):]
                found[path] = [int(it) for it in counted[1::2]] if tuple(counted[::2]) == NAMES else None
    return found


def untold(text):
    """The sets (AK903) of groups of which no set is told, since no guide is for the group."""
    sets, told = 0, False
    element, terminator = text[3:4], text[105:106]
    for segment in text.split(terminator) if text else []:
        parts = segment.strip(b"\r\n").split(element)
        if parts[0] == b"AK1":
            told = False
        elif parts[0] == b"AK2":
            told = True
        elif parts[0] == b"AK9" and not told:
            sets += int(parts[3])
    return sets


def examples():
    page = Page("ACKNOWLEDGMENT.md, totals")
    for night in sorted(glob.glob(os.path.join(NIGHTS, "*"))):
        paths = sorted(glob.glob(os.path.join(night, "given", "*.ack")))
        if not paths:
            continue
        with open(os.path.join(night, "given", "report.txt"), encoding="utf-8", errors="replace") as it:
            wanted = reported(it.read().splitlines())
        # a file by itself has no name in front
        status, said, failed = words.run(paths if len(paths) > 1 else paths * 2)
        for path, counts in explained(paths, said).items():
            partner = os.path.basename(path)[: -len(".ack")]
            with open(path, "rb") as it:
                ta1s, groups, sets, accepted = wanted.get(partner, [0, 0, 0, 0])
                those = [ta1s, groups, sets - untold(it.read()), accepted]
            page.want(f"{os.path.basename(night)}, {partner}", (status, counts, failed), (0, those, ""))
    return page
