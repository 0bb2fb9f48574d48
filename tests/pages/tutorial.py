"""The commands of docs/TUTORIAL.md: each block is run as it stands, in one folder, and gives the lines that stand below it."""
import os
import tempfile

import check
import words
from trial import PROGRAM, TOP, Page, run_blocks

TRACK = os.path.join(TOP, "crates", "nighthub_track", "out", "nighthub_track")


def examples():
    page = Page("TUTORIAL.md")
    with tempfile.TemporaryDirectory(prefix="nighthub-tutorial-") as here:
        programs, desk = os.path.join(here, "programs"), os.path.join(here, "desk")
        os.mkdir(programs)
        os.mkdir(desk)
        for path in (PROGRAM, check.CHECK, words.PROGRAM, os.environ.get("NIGHTHUB_TRACK", TRACK)):
            os.symlink(os.path.abspath(path), os.path.join(programs, os.path.basename(path)))
        environment = {**os.environ, "PATH": programs + os.pathsep + os.environ["PATH"]}
        run_blocks(page, desk, environment, fails=("--out first",))
    page.holds("it has commands", page.passed + page.failed > 10, "it has few")
    return page
