#!/usr/bin/env python3
"""Puts the rows that the scripts measured into the table of bench/README.md, in place of those that they had there: table.py

A script leaves its rows in build/bench, in a file of its name, a line each, with tabs between: the job, the number that was measured, its unit,
the number of the same run that it stands beside, what that is, and the aim. Here they get their ratio, and an aim that isn't met is called so. What a
frame takes is put into docs/SCALE.md too, with what an hour and an archive take by it.
"""

import pathlib
import re

TOP = pathlib.Path(__file__).resolve().parent.parent
README, SCALE, ROWS = TOP / "bench" / "README.md", TOP / "docs" / "SCALE.md", TOP / "build" / "bench"
# The frames of an hour at 29.97 frames a second, and the hours of the archive.
FRAMES, HOURS = 107_892, 100_000


def spelled(number):
    return f"{number:,.0f}" if number >= 100 else f"{number:.3g}"


def judged(aim, measured, unit, ratio):
    """An aim, `at most N` times what stands beside or `at most N UNIT`, and whether it isn't met, or nothing stands beside."""
    if not aim:
        return ""
    most, of = re.fullmatch(r"at most ([\d,.]+)(?: (.+))?", aim).groups()
    assert of in (None, unit), aim
    number = measured if of else ratio
    if number is None:
        return f"{aim}: not tried"
    return aim if round(number, 2) <= float(most.replace(",", "")) else f"{aim}: not met"


def row_of(script, line):
    job, measured, unit, beside, what, aim = line.split("\t")
    ratio = float(measured) / float(beside) if beside else None
    cells = [job, f"`{script}`", f"{spelled(float(measured))} {unit}", f"{spelled(float(beside))} {unit}, {what}" if beside else ""]
    cells += ["" if ratio is None else f"{ratio:.2f}" if ratio < 10 else f"{ratio:.0f}"]
    cells += [judged(aim, float(measured), unit, ratio)]
    return f"| {' | '.join(cells)} |".replace("  ", " ")


def put_rows(lines, script, rows):
    """The lines with a script's rows in the place of those that it had, or, where it had none, behind all others."""
    old = [place for place, line in enumerate(lines) if f" | `{script}` | " in line]
    behind = 1 + max(place for place, line in enumerate(lines) if re.match(r"\| .* \| `\w+\.sh` \|", line))
    at = old[0] if old else behind
    lines = [line for place, line in enumerate(lines) if place not in old]
    return lines[:at] + rows + lines[at:]


def put_scale(line, frames):
    """A line of docs/SCALE.md, with what the job takes now."""
    cells = line.split(" | ")
    nanoseconds = frames.get(cells[0].removeprefix("| ") + ", a frame")
    if nanoseconds is None:
        return line
    minutes = round(nanoseconds * FRAMES * HOURS / 60e9)
    time = f"{minutes // 60} h {minutes % 60} min" if minutes >= 60 else f"{minutes} min"
    return " | ".join([cells[0], f"{spelled(nanoseconds)} ns", f"{nanoseconds * FRAMES / 1e6:.0f} ms", time, *cells[4:]])


def main():
    lines, frames = README.read_text().splitlines(), {}
    for script in sorted(it.name for it in ROWS.iterdir()):
        measured = (ROWS / script).read_text().splitlines()
        rows = [row_of(script, it) for it in measured]
        lines = put_rows(lines, script, rows) if rows else lines
        frames |= {job: float(number) for job, number, unit, *_ in (it.split("\t") for it in measured) if unit == "ns"}
        print(*rows, sep="\n")
    README.write_text("\n".join(lines) + "\n")
    SCALE.write_text("\n".join(put_scale(it, frames) for it in SCALE.read_text().splitlines()) + "\n")


if __name__ == "__main__":
    main()
