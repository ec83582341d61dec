#!/usr/bin/env python3
"""Tries the program at every place at which its surroundings can fail it: try.py PROGRAM [--quick] [COMMAND..]

Each command is run over short inputs, and

- each allocation is refused in turn: `out of memory`, status 4, nothing written, and none comes at a forbidden place (a command that reads words
  takes no memory once a byte of them was taken, any other none once a byte was written); with --quick, of the many of a receiver the first 60,
  the last 60 and each 29th between;
- each read fails in turn, over input in pieces of several sizes: `read fault`, status 2, and of the output what was due of the bytes before; and so
  each read of a cue list that is named, before a byte of the input is taken;
- each write fails in turn: `write fault`, status 3, and the writes before it stand; and a file that is full at each byte has just these bytes;
- each read and each write is short: nothing changes;
- the ends are closed, folders, full devices or closed pipes, and standard error fails too.

What is due comes from the run in which nothing fails, cut at its frames, and from what the manual says. `strace` makes a call fail by its number;
with the heap's threshold at 0, each allocation is one call of `mmap`. It prints a line for each command with the places tried, and ends with status
1 at the first run that differs.
"""

import io
import os
import pathlib
import re
import resource
import shutil
import signal
import subprocess
import sys
import tempfile
import threading
from dataclasses import dataclass, field

EXAMPLES = pathlib.Path(__file__).resolve().parent.parent / "examples"
sys.dont_write_bytecode = True
sys.path.insert(0, str(EXAMPLES))
import cdp  # noqa: E402

LINES = {2: b"read fault\n", 3: b"write fault\n", 4: b"out of memory\n"}
PROGRAM = str(pathlib.Path(sys.argv[1]).resolve())
QUICK, CHOSEN = "--quick" in sys.argv, [it for it in sys.argv[2:] if it != "--quick"]


@dataclass
class Ended:
    status: int
    out: bytes
    err: bytes
    calls: list = field(default_factory=list)


@dataclass
class Case:
    """The words of a command with an input and perhaps a list whose file is its last word, and how the whole run ends by the manual."""
    words: list
    given: bytes
    status: int = 0
    line: bytes = b""
    listed: bytes = None

    @property
    def reads_nothing(self):
        return self.words[:1] in (["load"], ["help"], ["version"]) or self.status == 1 or self.listed is not None and self.status in (7, 8) and self.words[0] not in ("dual", "xds", "fit")

    @property
    def streams(self):
        """Whether its input is taken, judged and put piece by piece, with no memory behind the first byte."""
        streaming = ("decode", "show", "conceal", "xds-show", "convert", "verify", "insert", "export", "import-mcc", "export-mcc")
        return bool(self.words) and self.words[0] in streaming

    def __str__(self):
        return f"{' '.join(self.words)!a} on {len(self.given)} bytes"


# ---- Running ---------------------------------------------------------------------------------------------------------------------

CALL = re.compile(r"^(read|write|mmap|mremap|brk|set_robust_list)\((.*)\)\s*= (-?\w+)(.*)$")


def calls_of(log):
    """The calls that strace wrote: name, arguments, result."""
    found = (CALL.match(line) for line in log.read_text(errors="replace").splitlines())
    return [(it[1], it[2], it[3]) for it in found if it]


def feed(end, given, size):
    """Writes the input in pieces, each of which is one read: a pipe of packets."""
    try:
        for place in range(0, len(given), size):
            os.write(end, given[place:place + size])
    except BrokenPipeError:
        pass
    finally:
        os.close(end)


def run(case, size=4096, inject=(), traced=False, **options):
    """A run over the input in pieces of a size, with calls that fail."""
    with tempfile.TemporaryDirectory() as folder:
        log = pathlib.Path(folder, "log")
        words = [PROGRAM, *case.words]
        if case.listed is not None:
            words.append(f"{folder}/list.csv")
            pathlib.Path(words[-1]).write_bytes(case.listed)
        if inject or traced:
            failing = [it for rule in inject for it in ("-e", f"inject={rule}")]
            heap = ["-E", "GLIBC_TUNABLES=glibc.malloc.mmap_threshold=0"]
            words = ["strace", "-o", str(log), *heap, "-e", "trace=read,write,mmap,mremap,brk,set_robust_list", *failing, *words]
        taken, end = os.pipe2(os.O_DIRECT | os.O_CLOEXEC)
        feeder = threading.Thread(target=feed, args=(end, case.given, size))
        how = {"stdin": taken, "stdout": subprocess.PIPE, "stderr": subprocess.PIPE, **options}
        ran = subprocess.Popen(words, restore_signals=False, **how)
        os.close(taken)
        feeder.start()
        out, err = ran.communicate(timeout=120)
        feeder.join()
        return Ended(ran.returncode, out or b"", err or b"", calls_of(log) if log.exists() else [])


def fail(case, place, ended, why):
    print(f"{case}: {place}: {why}\n  status {ended.status}, {len(ended.out)} bytes, {ended.err!r}\n  {ended.out[-200:]!r}")
    sys.exit(1)


def need(case, place, ended, status, out, line=None):
    """The run ended so, and not otherwise."""
    line = LINES.get(status, b"") if line is None else line
    if (ended.status, ended.err) != (status, line):
        fail(case, place, ended, f"status {status} and {line!r} are wanted")
    if ended.out != out:
        fail(case, place, ended, f"{len(out)} other bytes are wanted")


def numbers(calls, name, start):
    """The numbers of the calls of a name, as strace counts them, whose arguments begin so."""
    of_name = [arguments for called, arguments, _ in calls if called == name]
    return [number for number, arguments in enumerate(of_name, 1) if arguments.startswith(start)]


def reads_of_input(calls, takes):
    """The numbers of the reads of standard input that take bytes, or of those that ask for none: these see whether it is open."""
    reads = [arguments for called, arguments, _ in calls if called == "read"]
    return [number for number, arguments in enumerate(reads, 1) if arguments.startswith("0,") and arguments.endswith(", 0") != takes]


# ---- What is due -----------------------------------------------------------------------------------------------------------------

def packet_ends(words):
    """Where each ancillary packet of a words file ends, and the counter of the frame that it is, if it is one."""
    ends, place = [], 0
    while place + 12 <= len(words):
        frame = words[place + 7] == 0x61 and words[place + 9] == 0x01
        # The bytes of a frame begin at word 6, each in the second byte of its word, and its counter is bytes 5 and 6.
        counter = int.from_bytes(words[place + 23:place + 26:2], "big") if frame else None
        place += 2 * (7 + words[place + 11])
        ends.append((place, counter))
    return ends


def mcc_of(words):
    """The MCC file of the packets of words, in digits alone, each at a frame of its own."""
    text, start = b"File Format=MacCaption_MCC V1.0\n\nTime Code Rate=30\n\n", 0
    for frame, (end, _) in enumerate(packet_ends(words)):
        text += b"00:00:%02d:%02d\t" % divmod(frame, 30) + words[start + 7:end:2].hex().upper().encode() + b"\n"
        start = end
    return text


def due(case, whole, taken):
    """What is written of the first bytes of the input, if the next take fails."""
    taken = min(taken, len(case.given))
    if case.words[0] == "import-mcc":
        # The cases have no gaps: a packet is put of each line that has ended.
        lines = len(re.findall(rb"^\d.*\n", case.given[:taken], re.M))
        return whole.out[:([0] + [end for end, _ in packet_ends(whole.out)])[lines]]
    ends = [(end, counter) for end, counter in packet_ends(case.given) if end <= taken]
    counters = [counter for _, counter in ends if counter is not None]
    frames = len(counters)
    if case.words[0] == "xds-show":
        return b"".join(it[0] for it in re.finditer(rb"frame (\d+) .*\n", whole.out) if int(it[1]) < frames)
    if case.words[0] in ("decode", "conceal"):
        # `conceal` numbers frames by their counters, which stay below 65,536 in the cases here.
        behind = counters[-1] + 1 if counters and case.words[0] == "conceal" else frames
        blocks = re.finditer(rb"(?:frame|lost \d+ before) (\d+)\n(?:(?!frame|lost).*\n)*", whole.out)
        return b"".join(it[0] for it in blocks if int(it[1]) < behind)
    if case.words[0] == "convert":
        # A frame becomes two of 100 bytes.
        return whole.out[:200 * frames]
    if case.words[0] == "show":
        return whole.out if frames > int(case.words[1]) else b""
    if case.words[0] == "insert":
        # The packets of the cases keep their sizes.
        return whole.out[:ends[-1][0] if ends else 0]
    if case.words[0] == "export":
        return exported(whole.out, frames, time_of(case.words[1]))
    if case.words[0] == "export-mcc":
        # The head is eight lines, and each packet is one.
        return b"".join(whole.out.splitlines(keepends=True)[:8 + len(ends)])
    return b""


def time_of(text):
    """The frame of a time code without drop frame."""
    hours, minutes, seconds, frame = map(int, text.split(":"))
    return 108000 * hours + 1800 * minutes + 30 * seconds + frame


def exported(text, frames, start):
    """The text of SCC of its first frames: a stretch of pairs ends with the next one or the end."""
    head, *stretches = text.decode().split("\n\n")
    written = head + "\n\n"
    for place, stretch in enumerate(it for it in stretches if it):
        time, pairs = stretch.split("\t")
        left = frames - (time_of(time) - start)
        if left > 0:
            written += ("\n\n" if place else "") + time + "\t" + " ".join(pairs.split()[:left])
    return written.encode()


# ---- The trials, each of which gives the number of places that it tried ------------------------------------------------------------

def try_allocations(case, whole):
    """
    Each allocation refused in turn: the heap asks for it by one mmap, then by brk and one more mmap. Where a refused vector then asks for less
    and gets it, nothing changes; where all behind the refused one are refused too, the run has no memory.
    """
    started = [called for called, _, _ in whole.calls].index("set_robust_list")
    before = sum(1 for called, _, _ in whole.calls[:started] if called == "mmap")
    # The first is the heap's own cache.
    places = [it for it in numbers(whole.calls, "mmap", "NULL") if it > before + 1]
    if QUICK:
        places = [number for it, number in enumerate(places) if it < 60 or it >= len(places) - 60 or it % 29 == 0]
    for number in places:
        here = f"allocation {number - before - 1} refused"
        for last in (f"{number + 1}", ""):
            refused = (f"mmap:error=ENOMEM:when={number}" + (f"..{last}" if last else "+"), "brk:error=ENOMEM:when=2+", "mremap:error=ENOMEM")
            ended = run(case, inject=refused)
            if last and ended.status != 4:
                need(case, here, ended, whole.status, whole.out, whole.err)
            else:
                need(case, here, ended, 4, b"")
            if case.streams and ended.status == 4 and taken(ended):
                fail(case, here, ended, "memory is taken behind a byte of the input")
    return len(places)


def taken(ended):
    """Whether a byte of standard input was taken."""
    return any(called == "read" and arguments.startswith("0") and int(result) > 0 for called, arguments, result in ended.calls)


def try_takes(case, whole, sizes):
    tried = 0
    for size in sizes:
        plain = run(case, size, traced=True)
        need(case, f"pieces of {size}", plain, whole.status, whole.out, whole.err)
        for take, number in enumerate(reads_of_input(plain.calls, True)):
            ended = run(case, size, inject=(f"read:error=EIO:when={number}",))
            need(case, f"take {take} of pieces of {size} fails", ended, 2, due(case, whole, take * size))
            tried += 1
    for number in reads_of_input(whole.calls, False):
        need(case, "the input isn't open", run(case, inject=(f"read:error=EIO:when={number}",)), 2, b"")
        tried += 1
    return tried + try_takes_of_list(case, whole)


def try_takes_of_list(case, whole):
    """Each read of the list's file fails in turn; nothing of the input is taken then."""
    if case.listed is None:
        return 0
    of_input = numbers(whole.calls, "read", "0")
    places = [it for it in numbers(whole.calls, "read", "") if it not in of_input and it > loader_reads(whole)]
    for take, number in enumerate(places):
        ended = run(case, inject=(f"read:error=EIO:when={number}",))
        need(case, f"take {take} of the list fails", ended, 2, b"")
        if taken(ended):
            fail(case, f"take {take} of the list fails", ended, "the input is taken all the same")
    return len(places)


def loader_reads(whole):
    """How many reads the loader does, before the program itself begins."""
    started = [called for called, _, _ in whole.calls].index("set_robust_list")
    return sum(1 for called, _, _ in whole.calls[:started] if called == "read")


def try_puts(case, whole):
    """Each write fails in turn; is a write of nothing; is short, so that what strace kept from the file is missing."""
    writes = numbers(whole.calls, "write", "1,")
    pieces = [int(result) for called, arguments, result in whole.calls if called == "write" and arguments.startswith("1,")]
    for put, number in enumerate(writes):
        before = sum(pieces[:put])
        if case.words[0] in ("build", "dual", "xds", "import") and before % (100 if b",59.94," in case.given else 160):
            fail(case, f"put {put}", whole, "a frame is written in parts")
        for how in ("error=EIO", "error=ENOSPC", "retval=0"):
            need(case, f"put {put}, {how}", run(case, inject=(f"write:{how}:when={number}",)), 3, whole.out[:before])
        if pieces[put] > 1:
            ended = run(case, inject=(f"write:retval=1:when={number}",))
            need(case, f"put {put} of 1 byte", ended, whole.status, whole.out[:before] + whole.out[before + 1:], whole.err)
    return len(writes)


def try_full(case, whole):
    """A file that is full at each byte; of a long output at those of its beginning and its end."""
    rooms = [it for it in range(len(whole.out) + 1) if it <= 330 or it >= len(whole.out) - 170]
    with tempfile.NamedTemporaryFile() as file:
        for room in rooms:
            os.truncate(file.name, 0)

            def limit():
                signal.signal(signal.SIGXFSZ, signal.SIG_IGN)
                resource.setrlimit(resource.RLIMIT_FSIZE, (room, room))

            with open(file.name, "wb") as out:
                ended = run(case, preexec_fn=limit, stdout=out)
            ended.out = pathlib.Path(file.name).read_bytes()
            full = room < len(whole.out)
            need(case, f"room for {room} bytes", ended, 3 if full else whole.status, whole.out[:room], None if full else whole.err)
    return len(rooms)


def try_ends(case, whole):
    """Ends that are none."""
    reads = {} if case.reads_nothing else {"closed": None, "a folder": "/", "no memory of a process": "/proc/self/mem"}
    for name, path in reads.items():
        end = os.open(path, os.O_RDONLY) if path else subprocess.DEVNULL
        closing = {} if path else {"preexec_fn": lambda: os.close(0)}
        need(case, f"input {name}", run(case, stdin=end, **closing), 2, due(case, whole, 0))
    if case.listed is not None:
        for path in ("/", "/nowhere", ""):
            need(case, f"the list is '{path}'", run(Case([*case.words, path], case.given)), 2, b"")
    written = bool(whole.out)
    gone, closed = os.pipe()
    os.close(gone)
    puts = {
        "/dev/full": {"stdout": os.open("/dev/full", os.O_WRONLY)}, "a closed pipe": {"stdout": closed},
        "closed": {"preexec_fn": lambda: os.close(1)},
    }
    for name, how in puts.items():
        ended = run(case, **how)
        need(case, f"output {name}", ended, 3 if written else whole.status, b"", LINES[3] if written else whole.err)
    for name, how in {"/dev/full": {"stderr": os.open("/dev/full", os.O_WRONLY)}, "closed": {"preexec_fn": lambda: os.close(2)}}.items():
        need(case, f"error output {name}", run(case, **how), whole.status, whole.out, b"")
    return len(reads) + len(puts) + 2


def try_case(case, sizes):
    whole = run(case, traced=True)
    need(case, "nothing fails", whole, case.status, whole.out, case.line)
    if case.status in (5, 6, 7, 8, 11, 12) and not case.streams:
        need(case, "refused", whole, case.status, b"", case.line)
    if case.status == 0 and case.words[0] == "insert" and case.listed == b"ccsuite,1,29.97,3\n":
        need(case, "a list without captions into words without captions", whole, 0, case.given)
    places = {
        "allocations": try_allocations(case, whole), "takes": try_takes(case, whole, sizes), "puts": try_puts(case, whole),
        "bytes at which a file is full": try_full(case, whole), "ends": try_ends(case, whole),
    }
    return places


# ---- The commands ----------------------------------------------------------------------------------------------------------------

def example(name):
    return (EXAMPLES / name).read_bytes()


def built(text):
    return run(Case(["build"], text)).out


def with_field_two(words, pairs):
    """Words as `build` writes them, whose first frames have these pairs of field 2 in place of their own."""
    packets, place = bytearray(b"".join(cdp.from_words(io.BytesIO(words)))), 0
    for it in range(0, len(pairs), 2):
        end = place + packets[place + 2]
        packets[place + 13:place + 15] = pairs[it:it + 2]
        packets[end - 1] = -sum(packets[place:end - 1]) % 256
        place = end
    return b"".join(cdp.to_words(io.BytesIO(packets)))


def commands():
    """Each command with its cases, and the sizes of the pieces in which they are read."""
    usage = b"usage: ccsuite pairs|build|decode|show FRAME|verify CUES|insert CUES|import [TIME]|export TIME|cues|load N|dual CUES|xds PACKETS|xds-show|conceal|convert|import-mcc|export-mcc RATE TIME|fit N [CUES]|help|version\n"
    yield "usage", [Case(it, b"x", 1, usage) for it in ([], ["load", "0"], ["load", "03"], ["show"], ["show", "01"], ["pairs", "x"], ["xds-show", "x"], ["conceal", "x"], ["convert", "x"], ["import-mcc", "x"], ["export-mcc", "30", "00:00:00;00"], ["fit"], ["fit", "1001"], ["help", "x"], ["version", "1"], ["pairs", "\udcff"])], []
    hello = example("hello.csv")
    dense = hello.replace(b",0,7,20", b",0,6,20")
    clash = hello.replace(b",0,7,20", b",0,7,8")
    wrong = hello.replace(b"HI", "中".encode())
    words, silent = built(hello), built(b"ccsuite,1,29.97,3\n")
    foreign = bytes.fromhex("000003FF03FF01610102010102000164")
    mixed = foreign + silent[:160] + foreign * 2 + silent[160:]
    # The header of a service block, in the second byte of its triplet, passes the channel packet.
    overrun = silent[:42] + bytes.fromhex("02FF0102012001FE0222") + silent[52:160]
    flagged = silent[:320] + b"\x00\x01" + silent[322:]
    lists = [
        (dense, 8, b"no room: cue 1\n"), (clash, 7, b"rule Clash: cue 1\n"), (wrong, 6, b"malformed at record 3 field 5: NoCode\n"),
        (b"", 6, b"malformed at record 1 field 1: Field\n"), (b"ccsuite,1,30,1000001\n", 5, b"limit Frames\n"),
    ]
    double = example("double_rate.csv")
    off_slot = (double.replace(b",0,14,40", b",0,13,40"), 7, b"rule OffSlot: cue 1\n")
    yield "pairs", [Case(["pairs"], hello), Case(["pairs"], double), Case(["pairs"], *off_slot)] + [Case(["pairs"], *it) for it in lists], [1, 7, 4096]
    yield "build", [Case(["build"], hello), Case(["build"], double)] + [Case(["build"], *it) for it in lists], [1, 7, 4096]
    yield "cues", [Case(["cues"], hello)] + [Case(["cues"], *it) for it in lists[1:]] + [Case(["cues"], dense)], [1, 7, 4096]
    yield "fit", [
        Case(["fit", "45"], hello), Case(["fit", "1"], dense), Case(["fit", "0"], dense, 8, b"no room: cue 1\n"), Case(["fit", "0"], double),
    ] + [Case(["fit", "45"], *it) for it in lists[1:]], [1, 7, 4096]
    decode = ["decode"]
    yield "decode", [
        Case(decode, words), Case(decode, mixed), Case(decode, b""), Case(decode, words[:900], 6, b"malformed at byte 900: Truncated\n"),
        Case(decode, overrun, 6, b"malformed at byte 50: Overrun\n"), Case(decode, flagged, 6, b"malformed at byte 320: Flag\n"),
        Case(decode, example("damaged.words"), 6, b"malformed at byte 1628: Count\n"),
    ], [80, 160, 4000]
    yield "decode a byte at a time", [Case(decode, mixed)], [1, 2, 159]
    yield "show", [
        Case(["show", "12"], words), Case(["show", "0"], mixed), Case(["show", "3"], mixed, 10, b"short: 3 frames\n"),
        Case(["show", "2"], flagged, 6, b"malformed at byte 320: Flag\n"), Case(["show", "1"], flagged, 6, b"malformed at byte 320: Flag\n"),
    ], [16, 160, 4000]
    # The words of HI without frames 12 and 13.
    conceal, lossy = ["conceal"], words[:1920] + words[2240:]
    yield "conceal", [
        Case(conceal, lossy), Case(conceal, mixed), Case(conceal, b""), Case(conceal, lossy[:2100], 6, b"malformed at byte 2100: Truncated\n"),
        Case(conceal, flagged, 6, b"malformed at byte 320: Flag\n"),
    ], [80, 160, 4000]
    # Two packets, NEWS in frames 1 to 4 and A in frames 5 to 7, in the words of HI.
    xds_show, extended = ["xds-show"], with_field_two(words, bytes.fromhex("8080 0183 CE45 57D3 8FB0 0101 C180 8FAE"))
    yield "xds-show", [
        Case(xds_show, extended), Case(xds_show, mixed), Case(xds_show, b""), Case(xds_show, extended[:900], 6, b"malformed at byte 900: Truncated\n"),
        Case(xds_show, flagged, 6, b"malformed at byte 320: Flag\n"),
    ], [80, 160, 4000]
    convert, other = ["convert"], built(hello.replace(b"29.97", b"30"))
    yield "convert", [
        Case(convert, words), Case(convert, mixed), Case(convert, b""), Case(convert, words[:900], 6, b"malformed at byte 900: Truncated\n"),
        Case(convert, flagged, 6, b"malformed at byte 320: Flag\n"), Case(convert, words[:1600] + other, 13, b"misfit at frame 10: Rate 5\n"),
    ], [80, 160, 4000]
    late = hello.replace(b",0,7,20", b",0,8,20")
    differs = b"differs at frame 7: GridDiffers CC1\n"
    yield "verify", [
        Case(["verify"], words, listed=hello), Case(["verify"], words, 9, differs, late), Case(["verify"], words[:3200], 10, b"short: 20 frames\n", hello),
        Case(["verify"], words, 7, b"rule Clash: cue 1\n", clash), Case(["verify"], flagged, 6, b"malformed at byte 320: Flag\n", hello),
    ], [80, 160, 4000]
    three, four = b"ccsuite,1,29.97,3\n", b"ccsuite,1,29.97,4\n"
    yield "insert", [
        Case(["insert"], mixed, listed=three), Case(["insert"], mixed, 10, b"short: 3 frames\n", four), Case(["insert"], words, listed=hello),
        Case(["insert"], mixed, 8, b"no room: cue 1\n", dense), Case(["insert"], flagged, 6, b"malformed at byte 320: Flag\n", three),
    ], [80, 160, 4000]
    beside = hello.replace(b",0,7,20", b",0,18,24").replace(b"HI", b"OK")
    meets = b"rule FieldClash: cue 1 and cue 1\n"
    yield "dual", [
        Case(["dual"], hello, listed=beside), Case(["dual"], hello, 7, meets, hello), Case(["dual"], dense, 8, b"no room: cue 1\n", beside),
        Case(["dual"], hello, 11, b"no room in CUES: cue 1\n", beside.replace(b",0,18,", b",13,17,")),
        Case(["dual"], hello, 6, b"malformed at record 1 field 4: OtherList\n", b"ccsuite,1,29.97,31\n"), Case(["dual"], *lists[2], beside),
    ], [1, 7, 4096]
    fit = ["fit", "45"]
    yield "fit beside a list", [
        Case(fit, beside, listed=hello), Case(["fit", "11"], hello, listed=hello), Case(["fit", "8"], hello, 8, b"no room: cue 1\n", hello),
        Case(fit, beside, 11, b"no room in CUES: cue 1\n", dense), Case(fit, b"ccsuite,1,29.97,31\n", 6, b"malformed at record 1 field 4: OtherList\n", hello),
        Case(fit, *lists[2], hello),
    ], [1, 7, 4096]
    news = b"xds,2,1,3,NEWS\n"
    yield "xds", [
        Case(["xds"], hello, listed=news), Case(["xds"], hello.replace(b"CC1", b"CC3"), listed=news), Case(["xds"], hello, listed=b""),
        Case(["xds"], hello, 12, b"no room: packet 1\n", news.replace(b",2,", b",28,")), Case(["xds"], dense, 8, b"no room: cue 1\n", news),
        Case(["xds"], *lists[2], news),
    ], [1, 7, 4096]
    archive = example("archive.scc")
    yield "import", [
        Case(["import"], archive), Case(["import"], archive.replace(b";00", b";01").replace(b"02;01", b"00;01"), 6, b"malformed at byte 98: NoSuchTime\n"),
        Case(["import"], archive[1:], 6, b"malformed at byte 0: Header\n"), Case(["import"], archive.replace(b"942c", b"942", 1), 6, b"malformed at byte 113: SccSyntax\n"),
    ], [1, 7, 4096]
    export = ["export", "00:00:00:00"]
    yield "export", [
        Case(export, words), Case(export, mixed), Case(export, flagged, 6, b"malformed at byte 320: Flag\n"), Case(export, b""),
        Case(["export", "23:59:59:15"], words, 5, b"limit Day\n"),
    ], [80, 160, 4000]
    export_mcc, no_byte = ["export-mcc", "30", "00:00:00:00"], bytes.fromhex("000003FF03FF018001010101017702F9")
    yield "export-mcc", [
        Case(export_mcc, words), Case(export_mcc, mixed), Case(export_mcc, flagged, 6, b"malformed at byte 320: Flag\n"), Case(export_mcc, b""),
        Case(["export-mcc", "30", "23:59:59:15"], words, 5, b"limit Day\n"), Case(["export-mcc", "25", "00:00:00:00"], words, 9, b"differs at frame 0: WrongRate expected 3 seen 4\n"),
        Case(export_mcc, mixed + no_byte, 9, b"differs at frame 3: EightBits\n"),
    ], [80, 160, 4000]
    mcc = mcc_of(words)
    yield "import-mcc", [
        Case(["import-mcc"], mcc), Case(["import-mcc"], mcc[:-1]), Case(["import-mcc"], mcc[1:], 6, b"malformed at byte 0: Header\n"),
        Case(["import-mcc"], b"File", 6, b"malformed at byte 4: Header\n"), Case(["import-mcc"], mcc + b"x", 6, b"malformed at byte %d: MccSyntax\n" % len(mcc)),
    ], [160, 4096]
    yield "import-mcc a byte at a time", [Case(["import-mcc"], mcc_of(silent[:320]))], [1, 7]
    yield "load", [Case(["load", "3"], b"")], []
    yield "help and version", [Case(["help"], b""), Case(["help", "fit"], b""), Case(["version"], b"")], []


# ---- Limits ----------------------------------------------------------------------------------------------------------------------

def repeated(piece, size):
    """A piece over and over, up to a size, in parts that fit a pipe."""
    part = piece * (2 ** 20 // len(piece))
    for place in range(0, size, len(part)):
        yield part[:size - place]


def run_long(words, front, piece, size):
    """A run over an input of a size, which is never kept as a whole: a front, and then a piece over and over."""
    ran = subprocess.Popen([PROGRAM, *words], stdin=subprocess.PIPE, stdout=subprocess.PIPE, stderr=subprocess.PIPE)

    def write():
        try:
            ran.stdin.write(front)
            for part in repeated(piece, size - len(front)):
                ran.stdin.write(part)
            ran.stdin.close()
        except BrokenPipeError:
            pass

    feeder = threading.Thread(target=write)
    feeder.start()
    out, err = ran.stdout.read(), ran.stderr.read()
    feeder.join()
    return Ended(ran.wait(), out, err)


def cues_of(number):
    """A list of so many cues."""
    frames = 40 * number + 40
    cue = "pop,CC1,%d,%d,%d\nrun,15,0,white,HI\n"
    return (f"ccsuite,1,29.97,{frames}\n" + "".join(cue % (40 * it, 40 * it + 20, 40 * it + 30) for it in range(number))).encode()


def try_limits():
    """The last that is taken and the first that is refused."""
    hello = example("hello.csv")
    foreign = bytes.fromhex("000003FF03FF01610102010102000164")
    listing = run(Case(["cues"], hello)).out
    many = cues_of(20_000)
    longs = [
        (["cues"], hello, b"\n", 67_108_864, 0, listing, b""), (["cues"], hello, b"\n", 67_108_865, 5, b"", b"limit Bytes\n"),
        (["decode"], b"", foreign, 2 ** 31 - 16, 0, b"frames 0\n", b""), (["decode"], b"", foreign, 2 ** 31, 5, b"", b"limit Bytes\n"),
        (["cues"], many, b"\n", len(many), 0, many.replace(b"ccsuite,1,", b"ccsuite,2,", 1), b""), (["cues"], cues_of(20_001), b"\n", 0, 5, b"", b"limit Cues\n"),
        (["build"], b"ccsuite,1,30,1000001\n", b"\n", 0, 5, b"", b"limit Frames\n"),
    ]
    for words, front, piece, size, status, out, line in longs:
        need(Case(words, front), f"{size} bytes", run_long(words, front, piece, size), status, out, line)
    print(f"limits: {len(longs)} inputs at and behind them")


def main():
    if not shutil.which("strace"):
        sys.exit("strace is needed: apt-get install strace")
    for name, cases, sizes in commands():
        if CHOSEN and name not in CHOSEN:
            continue
        tried = {}
        for case in cases:
            for kind, places in try_case(case, sizes).items():
                tried[kind] = tried.get(kind, 0) + places
        print(f"{name}: {len(cases)} inputs; " + ", ".join(f"{places} {kind}" for kind, places in tried.items()), flush=True)
    if not CHOSEN:
        try_limits()


if __name__ == "__main__":
    main()
