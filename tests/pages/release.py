"""A release as its user has it: the archive is made of the programs that stand, unpacked, and the commands of the pages are run in it."""
import glob
import os
import re
import shutil
import subprocess
import tempfile

import check
import words
from trial import PROGRAM, TOP, Page

# the programs beside those that the other pages run
BESIDE = [os.path.abspath(os.environ.get(name.upper(), os.path.join(TOP, "crates", name, "out", name)))
          for name in sorted(os.listdir(os.path.join(TOP, "crates")))
          if name.startswith("nighthub_") and name not in ("nighthub_check", "nighthub_explain")]
TOTAL = "total interchanges 2 refused 0 groups 2 sets 2 accepted 2 held 0 outside 0"


def bash(script, folder, **environment):
    done = subprocess.run(["bash", "-c", script], cwd=folder, stdin=subprocess.DEVNULL, capture_output=True, text=True, timeout=300,
                          env={**os.environ, **environment})
    return done.returncode, done.stdout, done.stderr


def commands(page, holds):
    """The first block of commands of a page that has these words."""
    with open(os.path.join(TOP, page), encoding="utf-8") as it:
        return next(block for block in re.findall(r"^```sh\n(.*?)^```", it.read(), re.M | re.S) if holds in block)


def described(page, prefix, name):
    """The manual page and the completion of a program or script have each word that it prints with --help."""
    status, said, failed = bash(f"bin/{name} --help", prefix)
    page.want(f"{name} --help", (status, failed, len(said.splitlines()) > 2), (0, "", True))
    manual = os.path.join(prefix, "share", "man", "man1", f"{name}.1")
    with open(manual, encoding="utf-8") as it:
        text = it.read().replace("\\-", "-")
    words = bash(f"source share/bash-completion/completions/{name} && complete -p {name}", prefix)[1]
    for word in sorted(set(re.findall(r"(?<![\w-])--[a-z][a-z-]*[a-z]", said))):
        page.holds(f"the manual page and completion of {name}", word in text and word in words, f"they lack {word}")
    if shutil.which("groff"):
        page.want(f"the manual page of {name}", bash(f"groff -man -ww -Tascii -z {manual}", prefix), (0, "", ""))


def examples():
    page = Page("OPERATIONS.md and README.md, in a release")
    with tempfile.TemporaryDirectory(prefix="nighthub-release-") as here:
        programs = os.path.join(here, "programs")
        os.mkdir(programs)
        for path in (PROGRAM, check.CHECK, words.PROGRAM, *BESIDE):
            shutil.copy(path, programs)
        made = subprocess.run([os.path.join(TOP, ".ci", "release"), programs, os.path.join(here, "dist")], capture_output=True, text=True)
        page.want("the archive is made", (made.returncode, made.stderr), (0, ""))
        archive = made.stdout.strip()
        bash(f"tar xzf {archive}", here)
        release = next(iter(glob.glob(os.path.join(here, "nighthub-*"))))
        page.want("its sums", bash("sha256sum --check --quiet --strict SHA256SUMS", release), (0, "", ""))
        page.holds("it names its commit", "\ncommit: " in open(os.path.join(release, "RELEASE"), encoding="utf-8").read(), "it doesn't")
        status, said, failed = bash(commands("README.md", "box.x12"), release)
        page.want("the commands of README", (status, said.splitlines()[0], failed),
                  (0, "total interchanges 1 refused 0 groups 1 sets 2 accepted 1 held 0 outside 0", ""))
        page.holds("an acknowledgment in words", said.splitlines()[1].startswith("interchange 1"), said)
        bash("rm -r out", release)
        page.want("the night of OPERATIONS", bash(commands("docs/OPERATIONS.md", "mkdir out"), release), (0, TOTAL + "\n", ""))
        page.want("a check of the bundled files", bash(
            "./nighthub_check --guide examples/guides/h850.toml --guide examples/guides/h856.toml --setup examples/night/setup.toml "
            "--counters examples/night/counters.toml", release)[0], 0)
        page.want("files gathered", bash(
            "cat /dev/null >none && ./nighthub_gather all.x12 examples/night/two_partners.x12 none examples/night/one_order.x12 && exit 9; "
            "[ $? = 1 ] && cmp all.x12 <(cat examples/night/two_partners.x12 examples/night/one_order.x12) && rm all.x12 none", release),
            (0, "examples/night/two_partners.x12: 2 interchanges, 461 bytes at 0\nnone: set aside: it is empty\nexamples/night/one_order.x12: 1 interchange, 236 bytes at 461\n"
             "total taken 2 truncated 0 set aside 1 bytes 697\n", ""))
        prefix = os.path.join(here, "prefix")
        page.want("./install without a prefix", bash("./install", release)[0], 1)
        page.want("./install", bash(f"./install {prefix} && ./install {prefix}", release)[0], 0)
        for name in sorted(os.listdir(os.path.join(prefix, "bin"))):
            described(page, prefix, name)
        hub = os.path.join(here, "hub")
        os.makedirs(os.path.join(hub, "guides"))
        shared = os.path.join(prefix, "share", "nighthub", "examples")
        for name, into in (("guides/h850.toml", "guides"), ("guides/h856.toml", "guides"), ("night/setup.toml", ""), ("night/counters.toml", "")):
            shutil.copy(os.path.join(shared, name), os.path.join(hub, into))
        os.mkdir(os.path.join(here, "sunday"))
        shutil.copy(os.path.join(release, "examples", "night", "two_partners.x12"), os.path.join(here, "sunday", "all.x12"))
        run = "\n".join(commands("docs/OPERATIONS.md", "nighthub_day init hub").splitlines()[:2])
        status, said, failed = bash(run, here, PATH=os.path.join(prefix, "bin") + os.pathsep + os.environ["PATH"])
        page.holds("a night of a hub, installed", (status, failed) == (0, "") and " is ready: hub/nights/000001-20260301/out, record " in said, f"{status} {said} {failed}")
    return page
