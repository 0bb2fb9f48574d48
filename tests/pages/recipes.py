"""The recipes of docs/GUIDES.md: each guide of examples/guides/recipes with the nights that it accepts and rejects, also by try_guide."""
import glob
import os
import subprocess

import words
from trial import EXAMPLES, PROGRAM, SETUP, TOP, Page, night

RECIPES = os.path.join(EXAMPLES, "guides", "recipes")
# what stands in the acknowledgment of the night that is rejected
REJECTED = {"qualifiers": "IK3*REF*4*REF*8~IK4*2*127*4*42~", "h810": "IK3*TDS*8*TDS*3~", "h846": "IK3*QTY*6*QTY*8~IK4*1*673*7*99~"}


def read(name):
    with open(os.path.join(RECIPES, name), encoding="utf-8") as it:
        return it.read()


def tried(*files):
    script = os.path.join(EXAMPLES, "operations", "try_guide")
    done = subprocess.run([script, *files], stdin=subprocess.DEVNULL, capture_output=True, text=True, timeout=120,
                          env={**os.environ, "NIGHTHUB": PROGRAM, "NIGHTHUB_EXPLAIN": words.PROGRAM})
    return done.returncode, done.stdout, done.stderr


def examples():
    page = Page("GUIDES.md, recipes")
    names = sorted(os.path.basename(it)[: -len(".toml")] for it in glob.glob(f"{RECIPES}/*.toml"))
    page.want("the recipes", names, sorted(REJECTED))
    for name in names:
        guide = read(f"{name}.toml")
        own = SETUP.replace("H850", name.upper()).replace(f'"{name.upper()}", "H856"', f'"{name.upper()}"')
        for verdict, code, wanted in (("accepted", "A", f"IK5*A~AK9*A"), ("rejected", "R", REJECTED[name])):
            found = night(setup=own, guides=[guide], text=read(f"{name}_{verdict}.x12"))
            page.holds(f"{name}, {verdict}", wanted in found[3]["ACME.ack"].decode() and f"~AK9*{code}*" in found[3]["ACME.ack"].decode(), str(found))
            status, said, failed = tried(f"{RECIPES}/{name}.toml", f"{RECIPES}/{name}_{verdict}.x12")
            ends = "total interchanges 1 refused 0 groups 1 sets 1 accepted " + ("1" if code == "A" else "0")
            page.want(f"{name}, {verdict}, tried", (status, said.splitlines()[-1], failed), (0 if code == "A" else 1, ends, ""))
    house = os.path.join(EXAMPLES, "guides", "h850.toml")
    for name, status, line in (("cut_off", 1, "interchange 1 at 0 from SENDER control 000000007 refused 1"),
                               ("partly_accepted", 1, "interchange 1, group PO 12, 850 0002: rejected: SE01")):
        found = tried(house, os.path.join(EXAMPLES, "night", f"{name}.x12"))
        page.holds(f"{name}, tried", found[0] == status and found[1].startswith(line), str(found))
    setup = os.path.join(EXAMPLES, "night", "setup.toml")
    page.want("a file that is no interchange, tried", tried(house, setup),
              (78, "", f"try_guide: {setup} doesn't begin with the header of an interchange\n"))
    page.want("a guide that is none, tried", tried(setup, os.path.join(EXAMPLES, "night", "cut_off.x12"))[0], 3)
    page.want("no file, tried", tried(house), (78, "", "try_guide: it takes GUIDE FILE\n"))
    return page
