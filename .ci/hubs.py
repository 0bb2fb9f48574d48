"""Hubs for parts of the gate: folders that are made hubs, calls of nighthub_day on them, and what these print. The first word of the part
that uses it is a folder that has the programs, in place of crates/*/out."""
import hashlib
import os
import shutil
import subprocess
import sys

from gate import GUIDES, NIGHT, TOP, Count, read

PROGRAMS = os.path.realpath(sys.argv[1]) if sys.argv[1:] else None


def path_of(program):
    return os.path.join(PROGRAMS, program) if PROGRAMS else os.path.join(TOP, "crates", program, "out", program)


def write(path, text):
    with open(path, "wb") as it:
        it.write(text)


def files_in(folder):
    """Each file of a folder by its path in it, with its bytes."""
    return {os.path.relpath(os.path.join(at, name), folder): read(at, name) for at, _, names in os.walk(folder) for name in names}


class Hubs:
    """Hubs below one folder, and the counts."""

    def __init__(self, work):
        self.work, self.count = work, Count()
        self.text = read(NIGHT, "two_partners.x12")
        self.inputs = []
        for k in range(1, 10):
            path = os.path.join(work, f"in{k}.x12")
            write(path, self.text.replace(b"000000007", b"00000%d007" % k).replace(b"000000003", b"00000%d003" % k))
            self.inputs.append(path)

    def day(self, *words, **more):
        return subprocess.run([path_of("nighthub_day"), *words], **{"stdin": subprocess.DEVNULL, "capture_output": True, "timeout": 300, **more})

    def hub(self, name, init=True):
        """A folder with the bundled setup, guides and counters, which is made a hub."""
        folder = os.path.join(self.work, name)
        os.makedirs(os.path.join(folder, "guides"))
        for file in ("setup.toml", "counters.toml"):
            shutil.copy(os.path.join(NIGHT, file), folder)
        for file in ("h850.toml", "h856.toml"):
            shutil.copy(os.path.join(GUIDES, file), os.path.join(folder, "guides"))
        if init:
            self.is_so(f"{name}: init", self.day("init", folder), 0, f"{folder} is a hub of no night\n")
        return folder

    def run(self, hub, moment, paths, *words, **more):
        """A run on a file, or on a list of files."""
        return self.day("run", hub, "--at", moment, *words, *([paths] if isinstance(paths, str) else paths), **more)

    def is_so(self, name, done, status, said="", told=""):
        """What a call gave: its status, and what it printed, each a text or a pattern."""
        out, err = done.stdout.decode("latin1"), done.stderr.decode("latin1")
        wrong = [text for text, wanted in ((out, said), (err, told)) if not (wanted.fullmatch(text) if hasattr(wanted, "fullmatch") else wanted == text)]
        self.count.add(name, "" if done.returncode == status and not wrong else f"status {done.returncode}, {out!r}, {err!r}")
        return out

    def ready(self, name, done, number, called, folder, status=0):
        """A night is kept: its line names the sum of its record."""
        night = os.path.join(folder, "nights", f"{number:06}-{called}")
        out = done.stdout.decode("latin1")
        wanted = ""
        if os.path.isdir(night):
            sum_of = hashlib.sha256(read(night, "night.toml")).hexdigest()
            wanted = (read(night, "guides.txt") + read(night, "files.txt") + read(night, "total")).decode() + f"night {number} ({called}) is ready: {night}/out, record {sum_of}\n"
        self.count.add(name, "" if (done.returncode, out, done.stderr) == (status, wanted, b"") and wanted else f"status {done.returncode}, {out!r}, {done.stderr!r}")
        return night

    def listed(self, name, night, paths, lines):
        """A night has a line and a sum for each file of its day."""
        self.count.add(f"{name}: files.txt", "" if read(night, "files.txt").decode() == lines else read(night, "files.txt").decode())
        sums = "".join(f"{hashlib.sha256(read(path)).hexdigest()}  {path}\n" for path in paths)
        self.count.add(f"{name}: files.sum", "" if read(night, "from", "files.sum").decode() == sums else read(night, "from", "files.sum").decode())

    def checks(self, name, hub, status=0):
        done = self.day("check", os.path.join(hub, "nights"))
        self.count.add(f"{name}: check", "" if done.returncode == status else f"status {done.returncode}, {done.stdout!r}, {done.stderr!r}")

    def holds(self, name, holds, said=""):
        self.count.add(name, "" if holds else said or "it isn't so")
