"""The commands of docs/ONBOARDING.md: each block is run as it stands, in one folder, and gives the lines that stand below it."""
import os
import tempfile

import check
import words
from release import BESIDE
from trial import EXAMPLES, PROGRAM, Page, run_blocks

# what a desk may have set for its own nights
SET = ("CONFIG", "NIGHTS", "WORKERS")


def examples():
    page = Page("ONBOARDING.md")
    with tempfile.TemporaryDirectory(prefix="nighthub-onboarding-") as here:
        programs, desk = os.path.join(here, "programs"), os.path.join(here, "desk")
        os.mkdir(programs)
        os.mkdir(desk)
        os.symlink(EXAMPLES, os.path.join(desk, "examples"))
        for path in (PROGRAM, check.CHECK, words.PROGRAM, *BESIDE):
            os.symlink(os.path.abspath(path), os.path.join(programs, os.path.basename(path)))
        folders = (programs, os.path.join(EXAMPLES, "operations"), os.environ["PATH"])
        environment = {name: text for name, text in os.environ.items() if name not in SET and not name.startswith("NIGHTHUB")}
        run_blocks(page, desk, {**environment, "PATH": os.pathsep.join(folders)}, fails=("try_guide newco855.toml backorder.x12",))
    page.holds("it has commands", page.passed + page.failed > 20, "it has few")
    return page
