#!/usr/bin/env python3
"""The list of crates in docs/ARCHITECTURE.md, made of crates.txt (groups and order) and of the crates' own first sentences.

    docs/crates.py           writes the list between its two marks
    docs/crates.py --check   ends with status 1 if the list isn't what would be written
"""
import pathlib
import re
import sys
import textwrap

ROOT = pathlib.Path(__file__).resolve().parent.parent
PAGE = ROOT / "docs" / "ARCHITECTURE.md"
BEGIN = "<!-- made by docs/crates.py -->\n"
END = "<!-- end -->\n"
WIDTH = 150


def first_sentence(crate):
    """The first sentence of a crate's documentation, which its library or its program begins with."""
    for name in ("lib.rt", "main.rt"):
        path = ROOT / "crates" / crate / "src" / name
        if path.exists():
            break
    words = []
    for line in path.read_text().splitlines():
        if not line.startswith("//! "):
            break
        words.append(line[3:].strip())
    text = " ".join(words)
    end = re.search(r"(?<!ST)\. (?=[A-Z`])|\.$", text)
    return text[: end.start()] if end else text


def crates_list():
    """The lines of the list: a heading for each group, and an item for each of its crates."""
    lines = []
    for line in (ROOT / "crates.txt").read_text().splitlines():
        if line.startswith("# a line for each crate"):
            continue
        if line.startswith("# "):
            name, _, what = line[2:].partition(": ")
            lines += ["", f"**{name[0].upper()}{name[1:]}**: {what}.", ""]
        elif line:
            crate = line.split(":")[0].split()[0]
            lines += textwrap.wrap(f"- `{crate}`: {first_sentence(crate)}.", WIDTH, subsequent_indent="  ",
                                   break_long_words=False, break_on_hyphens=False)
    return "\n".join(lines[1:]) + "\n"


def main():
    text = PAGE.read_text()
    before, rest = text.split(BEGIN)
    _, after = rest.split(END)
    made = before + BEGIN + "\n" + crates_list() + "\n" + END + after
    if "--check" in sys.argv[1:]:
        if made != text:
            sys.exit("docs/ARCHITECTURE.md: the list of crates isn't what docs/crates.py makes")
    else:
        PAGE.write_text(made)


if __name__ == "__main__":
    main()
