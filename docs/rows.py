#!/usr/bin/env python3
"""Shows rows of crates/cc_vectors, or compares what the built program makes of them with what is due.

rows.py NAME ..               lays out each row whose name has one of these in it: its steps, and below each what is due of it
rows.py --check PROGRAM       runs PROGRAM on all rows, and names each row of which it prints something else, with the first line that differs
rows.py --folder FOLDER ..    takes the rows of stdin and stdout in FOLDER
"""

import argparse
import pathlib
import subprocess
import sys

TOP = pathlib.Path(__file__).resolve().parent.parent
ROW = "row "
# the steps that print, and how the lines begin that each prints
RUN, CUT, LOW = ("run", "feed"), "|+=", "*"


def rows_of(text):
    """The rows of a text, by their names: the lines of each, and the remarks right above it."""
    rows, above, lines = {}, [], None
    for line in text.split("\n"):
        if line.startswith(ROW):
            name = line.removeprefix(ROW)
            if name in rows:
                sys.exit(f"two rows have the name {name}")
            lines = []
            rows[name] = (above, lines)
            above = []
        elif line.startswith("#"):
            above.append(line)
        elif lines is not None and line:
            lines.append(line)
    return rows


def take(due, step):
    """What a step prints, taken from the lines that are due."""
    word = step.replace("|", " ").split(" ")[0]
    if word == "run" or (word == "feed" and due and due[0] == step):
        end = next((at for at, line in enumerate(due) if line.startswith("err")), len(due) - 1)
        taken, due[: end + 1] = due[1 : end + 1], []
        return taken
    begins = {"cut": CUT, "low": LOW}.get(word)
    taken = []
    while begins and due and due[0][0] in begins:
        taken.append(due.pop(0))
    return taken


def lay_out(name, row, due):
    above, steps = row
    due = list(due)
    print(*above, ROW + name, sep="\n")
    for step in steps:
        print("   ", step)
        for line in take(due, step):
            print("        ", line)
    if due:
        print("    and of no step:", *due, sep="\n         ")
    print()


def show(names, rows, due):
    found = [name for name in rows if any(part in name for part in names)]
    for name in found:
        lay_out(name, rows[name], due.get(name, ([], []))[1])
    return 0 if found else f"no row has {' or '.join(names)} in its name"


def first_difference(due, got):
    """The first lines that differ, of what is due and of what was printed."""
    end = "the end of the row"
    for at in range(max(len(due), len(got))):
        pair = due[at] if at < len(due) else end, got[at] if at < len(got) else end
        if pair[0] != pair[1]:
            return pair
    return None


def check(program, folder, rows, due):
    """Runs the program on all rows, and names each that differs."""
    with open(folder / "stdin", "rb") as given:
        run = subprocess.run([program], stdin=given, stdout=subprocess.PIPE)
    got = rows_of(run.stdout.decode("utf-8", "backslashreplace"))
    wrong = 0
    for name in rows | due | got:
        if name not in rows or name not in due:
            difference = ("a row of stdin", "") if name in due else ("a row of stdout", "")
        else:
            difference = first_difference(due[name][1], got.get(name, ([], []))[1])
        if difference:
            wrong += 1
            print(f"{name}\n    due: {difference[0]}\n    got: {difference[1]}")
    print(f"{len(rows)} rows, {wrong} differ; the program ended with {run.returncode}")
    return 1 if wrong or run.returncode else 0


def main():
    parser = argparse.ArgumentParser(description=__doc__, formatter_class=argparse.RawDescriptionHelpFormatter)
    parser.add_argument("names", nargs="*", metavar="NAME")
    parser.add_argument("--check", metavar="PROGRAM")
    parser.add_argument("--folder", type=pathlib.Path, default=TOP / "crates/cc_vectors")
    words = parser.parse_args()
    rows = rows_of((words.folder / "stdin").read_text())
    due = rows_of((words.folder / "stdout").read_text())
    if words.check:
        return check(words.check, words.folder, rows, due)
    if words.names:
        return show(words.names, rows, due)
    parser.print_usage()
    return 2


if __name__ == "__main__":
    sys.exit(main())
