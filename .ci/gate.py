"""What parts of the gate share: where things are, the words of a night, programs whose calls are counted or fail, and the last line."""
import os
import re
import subprocess
import tempfile
import tomllib

TOP = os.path.dirname(os.path.dirname(os.path.abspath(__file__)))
NIGHT, GUIDES = os.path.join(TOP, "examples", "night"), os.path.join(TOP, "examples", "guides")
NIGHTS = os.path.join(TOP, "tests", "nights")
AT = "202603011530"


def program_of(name, words=(), place=0):
    """The path of a program: the word at the place, or crates/NAME/out/NAME if there is none."""
    path = words[place] if len(words) > place else os.path.join(TOP, "crates", name, "out", name)
    return os.path.abspath(path)


def read(*path):
    with open(os.path.join(*path), "rb") as it:
        return it.read()


def words_of(night):
    """The options for the inputs of a folder of tests/nights, and the moment."""
    guides = os.path.join(night, "guides")
    words = [part for name in sorted(os.listdir(guides)) for part in ("--guide", os.path.join(guides, name))]
    for option, name in (("--setup", "setup.toml"), ("--counters", "counters.toml"), ("--in", "in.x12")):
        words += [option, os.path.join(night, name)]
    return [*words, "--at", AT]


def words_of_bundled(path=os.path.join(NIGHT, "two_partners.x12")):
    """The options for the bundled guides, setup and counters, the moment, and an input."""
    return ["--setup", f"{NIGHT}/setup.toml", "--guide", f"{GUIDES}/h850.toml", "--guide", f"{GUIDES}/h856.toml",
            "--counters", f"{NIGHT}/counters.toml", "--at", AT, "--in", path]


SUPPLIER = """[hub]
qualifier = "ZZ"
id = "HUB"
code = "HUB"
usage = "T"
[[partner]]
name = "SUPPLIER"
qualifier = "ZZ"
id = "SUPPLIER"
code = "SUPPLIER"
element = "*"
component = ">"
repetition = "^"
terminator = "~"
cap = 1
guides = ["{name}"]
"""


def written(path, text):
    """The path, where a text or bytes were written."""
    with open(path, "wb") as it:
        it.write(text if isinstance(text, bytes) else text.encode())
    return path


def answers(hub, work, guide, samples):
    """What the acknowledgment has of each sample from AK2 to IK5: all samples in one night with the guide, with an ISA13 each."""
    name = tomllib.loads(read(guide).decode())["name"]
    body = b"".join(text.replace(b"*000000001*0*T*", b"*%09d*0*T*" % number).replace(b"IEA*1*000000001~", b"IEA*1*%09d~" % number)
                    for number, text in enumerate(samples, 1))
    with tempfile.TemporaryDirectory(dir=work) as folder:
        out = os.path.join(folder, "out")
        os.mkdir(out)
        words = ["--setup", written(f"{folder}/setup.toml", SUPPLIER.format(name=name)), "--guide", guide, "--counters",
                 written(f"{folder}/counters.toml", "version = 2\n"), "--at", "202603011530", "--in", written(f"{folder}/in.x12", body), "--out", out]
        done = subprocess.run([hub, *words], stdin=subprocess.DEVNULL, capture_output=True, timeout=600)
        if done.returncode > 1:
            raise SystemExit(f"a night ends with {done}")
        return re.findall(r"AK2\*[^~]*~(?:IK[34]\*[^~]*~)*IK5\*[^~]*~", read(out, "SUPPLIER.ack").decode())


def library(folder):
    """Builds .ci/calls.c, and answers its path."""
    made = os.path.join(folder, "calls.so")
    subprocess.run(["cc", "-shared", "-fPIC", "-O1", "-o", made, os.path.join(TOP, ".ci", "calls.c"), "-ldl"], check=True)
    return made


def run_counted(words, made, cwd=None, **settings):
    """Runs a command with the library before it, by these settings of .ci/calls.c. Answers how it ended, and its calls as (kind, path)."""
    with tempfile.TemporaryFile() as told:
        environment = {**os.environ, "LD_PRELOAD": made, **{name: str(value) for name, value in settings.items()}}
        done = subprocess.run(words, env=environment, cwd=cwd, stdin=subprocess.DEVNULL, capture_output=True, timeout=120,
                              preexec_fn=lambda: os.dup2(told.fileno(), 9), pass_fds=(9,))
        told.seek(0)
        return done, [(line[:1], line[2:]) for line in told.read().decode().splitlines()]


class Count:
    """What passed and what failed."""

    def __init__(self):
        self.passed = self.failed = 0

    def add(self, what, wrong):
        """Counts a case by what is wrong with it, if anything is, which it prints."""
        self.passed, self.failed = self.passed + (not wrong), self.failed + bool(wrong)
        if wrong:
            print(f"{what}: {wrong}")

    def end(self):
        """Prints the last line, and answers the status."""
        print(f"{self.passed} passed, {self.failed} failed")
        return 1 if self.failed or not self.passed else 0


def state_of_crates():
    """How many files the crates of the current folder have, and the newest time of one."""
    found = [(len(names), max([os.stat(f"{at}/{name}").st_mtime_ns for name in names], default=0))
             for crate in os.listdir("crates") for part in ("src", "specs", "proofs") for at, _, names in os.walk(f"crates/{crate}/{part}")]
    return sum(count for count, _ in found), max((time for _, time in found), default=0), os.stat("crates.txt").st_mtime_ns


def sum_each_crate_once(rtlib):
    """Has the toolchain sum each crate once. It sums a library's files and those of the crates below it along each way that leads down to
    a crate; if crates list all that they use there are a million such ways, an hour of one processor. A crate's sum is worked out again
    only if a file of the crates has changed."""
    work_out, kept = rtlib.Crate.stamp, {}

    def stamp(crate):
        key = crate.folder, state_of_crates()
        if key not in kept:
            kept[key] = work_out(crate)
        return kept[key]

    rtlib.Crate.stamp = stamp


def list_below_once(rtlib):
    """Has the toolchain list the libraries below a crate once. It goes down each way that leads to a library: a hundred thousand ways, for
    the highest crate, at each question."""
    list_below = rtlib.Crate.below

    def below(crate):
        if not hasattr(crate, "listed_below"):
            crate.listed_below = list_below(crate)
        return list(crate.listed_below)

    rtlib.Crate.below = below
