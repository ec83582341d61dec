#!/usr/bin/env python3
"""Types a line with a Tab in it into a bash in a terminal of its own, where ccsuite writes down what it reads: type.py COMPLETIONS LINE

What it read is printed. The line's file is one of the folder in which this is started.
"""

import os
import pathlib
import pty
import sys
import tempfile
import time


def type_line(completions, line, read):
    """Starts a bash, types the line into it, and waits up to ten seconds for what is read."""
    process, terminal = pty.fork()
    if process == 0:
        os.environ["TERM"] = "dumb"
        os.execvp("bash", ["bash", "--norc", "--noprofile", "-i"])
    ready = read.with_name("ready")
    os.write(terminal, f"source {completions}; ccsuite() {{ cat > {read}; }}; : > {ready}\n".encode())
    for awaited, typed in ((ready, f"{line}\n"), (read, "exit\n")):
        until = time.monotonic() + 10
        while not awaited.exists() and time.monotonic() < until:
            time.sleep(0.1)
        os.write(terminal, typed.encode())
    os.waitpid(process, 0)


def main():
    completions, line = sys.argv[1:]
    with tempfile.TemporaryDirectory() as folder:
        read = pathlib.Path(folder, "read")
        type_line(completions, line, read)
        print(read.read_text() if read.exists() else "nothing was read", end="")


if __name__ == "__main__":
    main()
