"""A page's examples as calls of the built program, and what they count."""
import os
import re
import shutil
import subprocess
import tempfile

TOP = os.path.join(os.path.dirname(os.path.abspath(__file__)), "..", "..")
EXAMPLES = os.path.abspath(os.path.join(TOP, "examples"))
PROGRAM = os.path.abspath(os.environ.get("NIGHTHUB", os.path.join(TOP, "crates", "nighthub", "out", "nighthub")))
AT = "202603011530"


def example(name):
    with open(os.path.join(EXAMPLES, name), encoding="utf-8") as it:
        return it.read()


SETUP, COUNTERS, INPUT = example("night/setup.toml"), example("night/counters.toml"), example("night/two_partners.x12")
H850, H856 = example("guides/h850.toml"), example("guides/h856.toml")


def run(words, **how):
    """Status, standard output and standard error of a call."""
    done = subprocess.run([PROGRAM, *words], stdin=subprocess.DEVNULL, capture_output=True, timeout=120, **how)
    return done.returncode, done.stdout.decode(errors="replace"), done.stderr.decode(errors="replace")


def night(setup=SETUP, guides=(H850, H856), counters=COUNTERS, text=INPUT, out=None, at=AT):
    """Status, standard output, standard error and files of a night; a text that begins with / is a file's name. The folder of its
    files is written HERE."""
    with tempfile.TemporaryDirectory(prefix="nighthub-page-") as here:

        def file_of(name, given):
            if isinstance(given, str) and given.startswith("/"):
                return given
            with open(os.path.join(here, name), "wb") as it:
                it.write(given if isinstance(given, bytes) else given.encode())
            return os.path.join(here, name)

        into = out or os.path.join(here, "out")
        if out is None:
            os.mkdir(into)
        words = ["--setup", file_of("setup.toml", setup), "--counters", file_of("counters.toml", counters), "--at", at]
        words += ["--in", file_of("in.x12", text), "--out", into]
        for number, guide in enumerate(guides):
            words += ["--guide", file_of(f"guide_{number}.toml", guide)]
        status, said, failed = run(words)
        files = {}
        for name in sorted(os.listdir(into)) if os.path.isdir(into) else []:
            with open(os.path.join(into, name), "rb") as it:
                files[name] = it.read()
        return status, said, failed.replace(here, "HERE"), files


class Page:
    """Counts the examples of a page, and prints those that the program answers otherwise."""

    def __init__(self, name):
        self.name, self.passed, self.failed = name, 0, 0

    def want(self, example_of, found, wanted):
        self.holds(example_of, found == wanted, f"{found!r}, not {wanted!r}")

    def holds(self, example_of, is_so, otherwise):
        self.passed, self.failed = self.passed + bool(is_so), self.failed + (not is_so)
        if not is_so:
            print(f"docs/{self.name}: {example_of}: {otherwise}")


def room():
    """A fresh folder, and how it is let go."""
    path = tempfile.mkdtemp(prefix="nighthub-page-")
    return path, lambda: shutil.rmtree(path, ignore_errors=True)


def blocks(name):
    """Each block of commands of a page of docs, with the indented lines that follow it, if some do."""
    with open(os.path.join(TOP, "docs", name), encoding="utf-8") as it:
        found = re.findall(r"^```sh\n(.*?)^```\n(?:\n((?:    [^\n]*\n)+))?", it.read(), re.M | re.S)
    return [(commands, re.sub(r"^    ", "", lines, flags=re.M)) for commands, lines in found]


def run_blocks(page, folder, environment, fails):
    """Runs the blocks of a page in a folder. Each prints the lines that follow it, and nothing on standard error; it ends with 1 if it has
    one of the words of `fails`, and else with 0."""
    for commands, lines in blocks(page.name):
        done = subprocess.run(["bash", "-c", commands], cwd=folder, stdin=subprocess.DEVNULL, capture_output=True, text=True, timeout=120,
                              env=environment)
        first = commands.splitlines()[0]
        page.want(first, (done.stdout, done.stderr), (lines, ""))
        page.want(f"{first}: its status", done.returncode, int(any(it in commands for it in fails)))
