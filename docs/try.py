#!/usr/bin/env python3
"""Runs the commands that the documents show, and compares what they print: try.py PROGRAM

In a block of the kind `console`, a line that begins with `$ ` is a command, `> ` goes on with it, and the lines below are what it prints, to
standard output and error. The commands of a document are run by one bash, in a folder of its own with the folder examples/ in it, where
`ccsuite` is PROGRAM, and `ccsuite-subtitles` the script that is installed so. A word after `console` names a program that the block needs, a
package of Debian's Python (`python3-gi`) or an element of GStreamer (`x264enc`): if that isn't installed, the block is passed over.
`libccsuite.so` is build/libccsuite.so, which the commands find, and libgstccsuite.so, which GStreamer finds, is beside it.
"""

import pathlib
import re
import shutil
import subprocess
import sys
import tempfile

TOP = pathlib.Path(__file__).resolve().parent.parent
DOCUMENTS = ["README.md", "docs/MANUAL.md", "docs/COOKBOOK.md", "man/ccsuite.1"]
BLOCKS = {
    ".md": re.compile(r"^```console(.*)\n((?:.*\n)*?)```$", re.M),
    ".1": re.compile(r"^\.Bd -literal -offset indent()\n((?:.*\n)*?)\.Ed$", re.M),
}
PYTHON = "/usr/bin/python3"
MARK = "-- ended --"


def commands_of(block):
    """The commands of a block, each with what it is to print."""
    commands = []
    for line in block.splitlines():
        if line.startswith("$ "):
            commands.append([line[2:], ""])
        elif line.startswith("> ") and commands and not commands[-1][1]:
            commands[-1][0] += "\n" + line[2:]
        elif commands:
            commands[-1][1] += line + "\n"
    return commands


def is_installed(name):
    if name.startswith("python3-"):
        words = [PYTHON, "-c", f"import {name.removeprefix('python3-')}"]
        return bool(shutil.which(PYTHON)) and subprocess.run(words, stderr=subprocess.DEVNULL).returncode == 0
    if name in ("libccsuite.so", "libgstccsuite.so"):
        return (TOP / "build" / name).exists()
    if shutil.which(name) or not shutil.which("gst-inspect-1.0"):
        return bool(shutil.which(name))
    return subprocess.run(["gst-inspect-1.0", "--exists", name]).returncode == 0


def blocks_of(document):
    """The commands of each block that can be run here, and the names of programs that are missing."""
    commands, missing = [], set()
    for needs, block in BLOCKS[document.suffix].findall(document.read_text()):
        lacks = [it for it in needs.split() if not is_installed(it)]
        missing.update(lacks)
        commands += [] if lacks else commands_of(block)
    return commands, missing


def run(commands, program):
    """What each command prints, in one shell."""
    with tempfile.TemporaryDirectory() as folder:
        home = pathlib.Path(folder)
        shutil.copytree(TOP / "examples", home / "examples")
        shutil.copy(TOP / "examples" / "hello.csv", home)
        (home / ".bin").mkdir()
        (home / ".bin" / "ccsuite").symlink_to(program)
        (home / ".bin" / "ccsuite-subtitles").symlink_to(home / "examples" / "subtitles.py")
        # Each command sees the status of the one before.
        lines = [f"{command}\n{{ status=$?; echo '{MARK}'; (exit $status); }}\n" for command, _ in commands]
        script = f"exec 2>&1\nPATH={home}/.bin:$PATH\nexport LD_LIBRARY_PATH={TOP}/build GST_PLUGIN_PATH={TOP}/build\n" + "".join(lines)
        ran = subprocess.run(["bash", "-c", script], cwd=home, stdout=subprocess.PIPE, text=True, timeout=600)
        return ran.stdout.split(f"{MARK}\n")


def try_document(name, program):
    commands, missing = blocks_of(TOP / name)
    *printed, rest = run(commands, program)
    if len(printed) != len(commands):
        sys.exit(f"{name}: the shell ended behind\n{commands[len(printed) - 1][0]}\n{rest}")
    for (command, wanted), got in zip(commands, printed):
        if wanted != got:
            sys.exit(f"{name}: $ {command}\nprints\n{got}and not\n{wanted}")
    left = f", and blocks that need {', '.join(sorted(missing))} were passed over" if missing else ""
    print(f"{name}: {len(commands)} commands print what stands there{left}")


def main():
    program = pathlib.Path(sys.argv[1]).resolve()
    for name in DOCUMENTS:
        try_document(name, program)


if __name__ == "__main__":
    main()
