#!/usr/bin/env python3
"""Proves a crate with those below it, tells how far it is, and puts what is built where it is wanted: prove.py CRATE FILE LOG [FURTHER..]

Further crates that are named, with those below them, are proved with it. This works on a copy of all these without their must-fail edits. A program is
proved as the gate proves it, by `rt ci`, so `make check` takes from this machine's kept work what was proved here; the edits are left to it, since with
them this takes half as long again. Before its first proof `rt ci` reads all crates; meanwhile those that stand on no other are proved by a run of their
own, which the whole run takes from the kept work. A static library, which `rt ci` doesn't build, is proved by `rt all check` and built by `rt lib`.
RT_JOBS crates are proved side by side; what the prover says goes to LOG.
"""

import os
import pathlib
import re
import shutil
import signal
import subprocess
import sys
import tempfile
import threading
import time

TOP = pathlib.Path(__file__).resolve().parent.parent
ROW = re.compile(r"(\w+)([^:#]*):([^#]*)")
# The seconds of a processor that a proof takes to begin, and for each function, as measured on 2026-12-01. Their sum is what the first estimates rest on.
BEGIN, EACH = 17, 1.9
# So many of these seconds must be proved before this machine's own speed tells more than the measured one.
TRUSTED = 300
ENDED = re.compile(r"rt: (\w+) (proved|NOT PROVED|is kept)")
HEAD = re.compile(r"== (\w+)$")


def rows_of(text):
    """The rows of crates.txt by their crates."""
    found = map(ROW.match, text.splitlines())
    return {row[1]: row for row in found if row}


def below(names, rows):
    """Crates and those below them."""
    found, left = set(), list(names)
    while left:
        crate = left.pop()
        if crate in rows and crate not in found:
            found.add(crate)
            left += rows[crate][3].split()
    return found


def lowest(names, rows):
    """Those of the crates that stand on none of the others."""
    return sorted(name for name in names if names.isdisjoint(rows[name][3].split()))


def copy_crates(names, rows, room):
    """Copies the crates to the top of a repository of their own."""
    for name in names:
        shutil.copytree(TOP / "crates" / name, room / "crates" / name, symlinks=True, ignore=shutil.ignore_patterns("out", "must-fail"))
    shutil.copy(TOP / "HANDLES", room)
    (room / "crates.txt").write_text("".join(rows[name][0] + "\n" for name in rows if name in names))
    (room / ".git").mkdir()


def seconds_for(crate):
    """What the proof of a crate is expected to take of a processor."""
    files = [file for file in (crate / "src").rglob("*.rt") if "tests" not in str(file.relative_to(crate))]
    return BEGIN + EACH * sum(len(re.findall(r"\bfn \w", file.read_text())) for file in files)


def ended_in_ci(lines):
    """The crates whose proof ended, each with whether it is proved, by the lines of `rt ci`."""
    for ended in filter(None, map(ENDED.match, lines)):
        yield ended[1], ended[2] != "NOT PROVED"


def ended_in_all(lines):
    """The same by the lines of `rt all check`, which says nothing of a crate that is built already."""
    crate = None
    for line in lines:
        head = HEAD.match(line)
        if crate and (head or line.startswith("logic=")):
            yield crate, bool(head) or line.startswith("logic=proved")
            crate = None
        crate = head[1] if head else crate


class Progress:
    """How far the proof is."""

    def __init__(self, room, names, jobs):
        self.left = {name: seconds_for(room / "crates" / name) for name in names}
        self.count, self.jobs, self.done, self.began = len(names), jobs, 0, time.time()

    def tell(self, name, is_proved):
        """Tells that the proof of a crate ended."""
        if name not in self.left:
            return
        if not is_proved:
            print(f"not proved: {name}", flush=True)
            return
        self.done += self.left.pop(name)
        print(f"{self.count - len(self.left):3} of {self.count} proved: {name}, {self.rest()}", flush=True)

    def rest(self):
        """About how long the rest takes, by what the proved crates took of this machine."""
        took = (time.time() - self.began) * self.jobs
        minutes = sum(self.left.values()) * (took + TRUSTED) / (self.done + TRUSTED) / self.jobs / 60
        return f"about {minutes:.0f} minutes left" if minutes >= 1 else "less than a minute left"


def start(words, folder, progress):
    """Starts rt in a folder of the copy."""
    how = {"stdout": subprocess.PIPE, "stderr": subprocess.STDOUT, "text": True, "errors": "replace"}
    return subprocess.Popen(["rt", *words], cwd=folder, env={**os.environ, "RT_JOBS": str(progress.jobs)}, **how)


def hear(process, ended_in, log, progress):
    """Tells what rt proves, as it says so, and returns its status. However this ends, rt ends."""
    try:
        for name, is_proved in ended_in(noted(process.stdout, log)):
            progress.tell(name, is_proved)
        return process.wait()
    finally:
        process.terminate()
        process.wait()


def noted(lines, log):
    """The lines, each once it stands in the log."""
    for line in lines:
        log.write(line)
        log.flush()
        yield line


def prove_program(first, room, log, progress):
    """Proves all crates of the copy by `rt ci`, those named `first` at once, and returns its status."""
    early = start(["ci", *first], room, progress)
    threading.Thread(target=hear, args=(early, ended_in_ci, log, progress), daemon=True).start()
    try:
        return hear(start(["ci"], room, progress), ended_in_ci, log, progress)
    finally:
        early.terminate()


def prove(name, is_library, first, room, log, progress):
    """Proves and builds in the copy, and returns what was built, if all went well."""
    crate = room / "crates" / name
    if not is_library:
        status = prove_program(first, room, log, progress)
        built = crate / "out" / name
    else:
        status = hear(start(["all", "check", "--jobs", str(progress.jobs)], room, progress), ended_in_all, log, progress)
        status = status or hear(start(["lib"], crate, progress), ended_in_all, log, progress)
        built = crate / "out" / f"lib{name}.a"
    return built if not status and built.is_file() else None


def end(*_):
    """Ends the script, which takes away its copy first."""
    signal.signal(signal.SIGTERM, signal.SIG_IGN)
    sys.exit(143)


def main():
    name, file, log_file, further = sys.argv[1], pathlib.Path(sys.argv[2]).absolute(), pathlib.Path(sys.argv[3]), sys.argv[4:]
    signal.signal(signal.SIGTERM, end)
    rows = rows_of((TOP / "crates.txt").read_text())
    names, jobs = below([name, *further], rows), int(os.environ.get("RT_JOBS") or os.cpu_count())
    what = ", ".join([name, *further])
    print(f"{what} and what is below are proved, {len(names)} crates, {jobs} side by side; what the prover says goes to {log_file}", flush=True)
    with tempfile.TemporaryDirectory(prefix="ccsuite-proof-") as folder, open(log_file, "w") as log:
        room = pathlib.Path(folder).resolve()
        copy_crates(names, rows, room)
        progress = Progress(room, names, jobs)
        built = prove(name, "staticlib" in rows[name][2], lowest(names, rows), room, log, progress)
        if built:
            shutil.copy(built, f"{file}.new")
            os.replace(f"{file}.new", file)
            return 0
    print(f"{'Not proved' if progress.left else 'Proved, and not built'}: see {log_file}")
    return 1


if __name__ == "__main__":
    try:
        sys.exit(main())
    except KeyboardInterrupt:
        sys.exit(130)
