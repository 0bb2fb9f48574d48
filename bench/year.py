#!/usr/bin/env python3
"""What a run costs after many nights, as they are and archived: bench/year.py [NIGHTS [INTERCHANGES [KEEP [PROGRAM]]]]

Makes a hub of NIGHTS nights of INTERCHANGES interchanges each (40 and 10 if absent; a year is 365 1000), one after another by
`nighthub_day run`, then runs a small file on a copy of it, and on a copy that `nighthub_day archive --keep KEEP` (30 if absent) archived.
Prints of each run the seconds until it reads the files of the day, that is until it has looked at all nights, all its seconds, and its
processor seconds and peak memory; and of the archive what it took. To make the nights takes time with the square of their number. The
program is crates/nighthub_day/out/nighthub_day if none is named, proved or not."""
import contextlib
import datetime
import os
import pty
import shutil
import subprocess
import sys
import tempfile
import time

TOP = os.path.join(os.path.dirname(os.path.abspath(__file__)), "..")
NIGHTS, INTERCHANGES, KEEP = (int(sys.argv[k]) if len(sys.argv) > k else least for k, least in ((1, 40), (2, 10), (3, 30)))
PROGRAM = os.path.abspath(sys.argv[4] if len(sys.argv) > 4 else os.path.join(TOP, "crates", "nighthub_day", "out", "nighthub_day"))
LOOKED = b"reading the files of the day"


def interchanges(first, count):
    """Interchanges of one set each, of ACME and BOLT in turn, with these numbers."""
    with open(f"{TOP}/examples/night/two_partners.x12", "rb") as it:
        text = it.read()
    split = text.index(b"ISA|")
    kinds = (text[:split], b"000000007"), (text[split:], b"000000003")
    return b"".join(kinds[k % 2][0].replace(kinds[k % 2][1], b"%09d" % (first + k)) for k in range(count))


def words_of(hub, night, path):
    moment = datetime.datetime(2025, 1, 1, 22) + datetime.timedelta(days=night)
    return [PROGRAM, "run", hub, "--at", f"{moment:%Y%m%d%H%M}", "--name", f"{moment:%Y%m%d}", path]


def make_hub(folder):
    """A hub of many nights."""
    hub, path = os.path.join(folder, "hub"), os.path.join(folder, "in.x12")
    shutil.copytree(f"{TOP}/examples/guides", f"{hub}/guides", ignore=lambda _, names: [it for it in names if it not in ("h850.toml", "h856.toml")])
    shutil.copy(f"{TOP}/examples/night/setup.toml", hub)
    subprocess.run([PROGRAM, "init", hub], stdout=subprocess.DEVNULL, check=True)
    for night in range(NIGHTS):
        with open(path, "wb") as it:
            it.write(interchanges(1 + night * INTERCHANGES, INTERCHANGES))
        subprocess.run(words_of(hub, night, path), stdout=subprocess.DEVNULL, check=True)
    return hub


def timed(words):
    """Runs a command whose standard error is a terminal: seconds until it has looked at the nights, and to its end, and what it used."""
    ours, theirs = pty.openpty()
    begun, looked, shown = time.perf_counter(), None, b""
    child = os.posix_spawn(words[0], words, os.environ, file_actions=[(os.POSIX_SPAWN_OPEN, 1, os.devnull, os.O_WRONLY, 0), (os.POSIX_SPAWN_DUP2, theirs, 2)])
    os.close(theirs)
    # (a terminal that nobody writes to any more can't be read)
    with contextlib.suppress(OSError):
        while part := os.read(ours, 4096):
            shown += part
            if looked is None and LOOKED in shown:
                looked = time.perf_counter() - begun
    _, status, used = os.wait4(child, 0)
    took = time.perf_counter() - begun
    os.close(ours)
    if status:
        sys.exit(f"{words} ends with {os.waitstatus_to_exitcode(status)}: {shown}")
    return looked, took, used.ru_utime + used.ru_stime, used.ru_maxrss / 1024


def say(what, words):
    looked, took, processor, peak = timed(words)
    begins = "" if looked is None else f"{looked:.3f} s until it reads the files of the day, "
    print(f"{what}: {begins}{took:.3f} s in all, {processor:.3f} s of processors, peak {peak:.0f} MB", flush=True)


def main():
    with tempfile.TemporaryDirectory() as folder:
        hub, path = make_hub(folder), os.path.join(folder, "small.x12")
        with open(path, "wb") as it:
            it.write(interchanges(1 + NIGHTS * INTERCHANGES, 2))
        copy = shutil.copytree(hub, os.path.join(folder, "copy"))
        say(f"a run after {NIGHTS} nights of {INTERCHANGES} interchanges", words_of(copy, NIGHTS, path))
        say(f"archive --keep {KEEP}", [PROGRAM, "archive", hub, "--keep", str(KEEP)])
        say("a run after it", words_of(hub, NIGHTS, path))


if __name__ == "__main__":
    main()
