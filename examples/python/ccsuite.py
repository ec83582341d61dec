"""Broadcast captions in Python: the library for C, libccsuite, by ctypes.

Whole runs are functions over bytes: `build` makes the words of a cue list, `decode` tells what a viewer sees of words, `verify` says whether they
show a list. `Builder`, `Receiver` and `Verifier` go frame by frame and are context managers:

    with ccsuite.Receiver() as receiver:
        for frame in receiver.frames(words):
            print(frame.number, receiver.changes(), end="")

A cue list, a list of packets, an SCC and an MCC file are texts (`str`, or `bytes` as UTF-8); words are bytes, two a word, the high byte first. What
the library refuses is an `Error`, which has its status, its place and its reason. An argument of the wrong type or range is Python's own `TypeError`
or `ValueError`.

The library is `libccsuite.so.0`, where the system finds it, or the file that the environment's CCSUITE_LIBRARY names. Objects may go from thread to
thread, and be used by several: each lets one call in at a time, and the interpreter runs on meanwhile. This module isn't proved, as the library is.
"""

from __future__ import annotations

import ctypes
import enum
import mmap
import os
import re
import threading
from collections.abc import Iterator
from ctypes import POINTER, byref, c_bool, c_char, c_size_t, c_uint8, c_uint32, c_uint64, c_void_p
from typing import Any, NamedTuple, TypeVar, Union

__all__ = [
    "Builder", "Cell", "Changed", "Error", "Frame", "Packet", "Rate", "Reason", "Receiver", "Status", "Verifier", "Window", "WindowCell", "build",
    "cc_data_from_words", "cdp_from_words", "conceal", "convert", "cues", "decode", "dual", "export_mcc", "export_scc", "import_mcc", "import_scc",
    "insert", "load", "pairs", "reason_of", "show", "verify", "version", "words_from_cc_data", "words_from_cdp", "xds", "xds_show",
]

LIBRARY = os.environ.get("CCSUITE_LIBRARY", "libccsuite.so.0")
try:
    _library = ctypes.CDLL(LIBRARY)
except OSError as error:
    raise ImportError(f"{LIBRARY} can't be loaded; the environment's CCSUITE_LIBRARY can name its file ({error})") from error

Bytes = Union[bytes, bytearray, memoryview]
Text = Union[str, bytes, bytearray, memoryview]


class Status(enum.IntEnum):
    """What a call answers: 0 to 13 are the exit statuses of the program `ccsuite`."""

    OK = 0
    ARGUMENT = 1
    READ_FAULT = 2
    ROOM = 3
    MEMORY = 4
    LIMIT = 5
    MALFORMED = 6
    RULE = 7
    NO_ROOM = 8
    DIFFERS = 9
    SHORT = 10
    NO_ROOM_BESIDE = 11
    NO_XDS_ROOM = 12
    MISFIT = 13
    CLOSED = 32
    END = 33
    FULL = 34
    NONE = 35


class Rate(enum.IntEnum):
    """Frames a second, by the codes of distribution packets (SMPTE ST 334-2)."""

    F23_976 = 1
    F24 = 2
    F25 = 3
    F29_97 = 4
    F30 = 5
    F50 = 6
    F59_94 = 7
    F60 = 8


LIMITS = ("", "Bytes", "Frames", "Cues", "Packet", "Day")
MISFITS = ("", "Rate", "Count", "One", "Two", "Many", "Changed")
COLOURS = ("white", "green", "blue", "cyan", "red", "yellow", "magenta")
CHANNELS = ("CC1", "CC2", "CC3", "CC4")
# More than all screens and windows together, each cell a run of its own, have as text.
SCREENS_ROOM = 32 << 20
# The most bytes of a frame's ancillary packet, of its distribution packet, of its triplets, and of the triplets of a packet that is read.
PACKET_ROOM, CDP_ROOM, CC_DATA_SIZE, CC_DATA_ROOM = 524, 255, 93, 244


_REPORT_NUMBERS = "status why limit misfit record field cue other packet frame channel service expected seen".split()


class _Report(ctypes.Structure):
    _fields_ = [*((name, c_uint32) for name in _REPORT_NUMBERS), ("place", c_uint64), ("written", c_uint64), ("wanted", c_uint64),
                ("reserved", c_uint64 * 7), ("text", c_char * 160)]


class _Fed(ctypes.Structure):
    _fields_ = [("used", c_size_t), ("place", c_uint64), ("ended", c_uint32), ("why", c_uint32), ("reserved", c_uint64 * 2)]


class _Reason(ctypes.Structure):
    _fields_ = [("name", c_char * 32), ("sentence", c_char * 128)]


class _Packet(ctypes.Structure):
    _fields_ = [("rate", c_uint32), ("counter", c_uint32), ("flags", c_uint32), ("reserved", c_uint32 * 5)]


class _Handle(ctypes.Structure):
    _fields_ = [("live", c_bool), ("at", c_void_p)]


class _Time(ctypes.Structure):
    _fields_ = [("hours", c_uint8), ("minutes", c_uint8), ("seconds", c_uint8), ("frames", c_uint8), ("drop_frame", c_bool)]


class _Frame(ctypes.Structure):
    _fields_ = [("number", c_uint64), ("missing", c_uint64), ("frames", c_uint32), ("reserved", c_uint32 * 3)]


class _Changed(ctypes.Structure):
    _fields_ = [("services", c_uint64), ("channels", c_uint32), ("reserved", c_uint32 * 3)]


class _Cell(ctypes.Structure):
    _fields_ = [("ch", c_uint32), ("colour", c_uint8), ("italic", c_uint8), ("underline", c_uint8), ("reserved", c_uint8)]


_SHADE, _EDGE = c_uint8 * 4, c_uint8 * 3
_WINDOW_NUMBERS = (
    "visible rows columns row_lock column_lock priority anchor relative vertical horizontal justify print scroll wrap effect effect_direction "
    "effect_speed border").split()


class _Window(ctypes.Structure):
    _fields_ = [*((name, c_uint8) for name in _WINDOW_NUMBERS), ("fill", _SHADE), ("border_colour", _EDGE), ("reserved", c_uint8 * 7)]


class _WindowCell(ctypes.Structure):
    _fields_ = [("ch", c_uint32), *((name, c_uint8) for name in "size font tag offset italic underline edge".split()),
                ("foreground", _SHADE), ("background", _SHADE), ("edge_colour", _EDGE), ("reserved", c_uint8 * 2)]


class Error(Exception):
    """What the library answers in place of a result. Its text is the line of the program.

    A field that the status doesn't carry is None. Records, fields, cues and packets are counted from 1, bytes and frames from 0."""

    status: Status
    reason: str | None  # of MALFORMED, RULE, DIFFERS, MISFIT and LIMIT, by the manual's name
    sentence: str | None  # of MALFORMED, RULE and DIFFERS: what is wrong
    place: int | None  # of MALFORMED: the byte at fault
    record: int | None  # of MALFORMED in a cue list
    field: int | None  # its field
    cue: int | None  # of RULE, NO_ROOM, NO_ROOM_BESIDE
    other: int | None  # of RULE: the other cue
    packet: int | None  # of NO_XDS_ROOM
    frame: int | None  # of DIFFERS, MISFIT; of SHORT the number of frames
    channel: str | None  # of DIFFERS, MISFIT: CC1 to CC4
    service: int | None  # of DIFFERS, MISFIT: 1 to 63
    expected: int | None  # of DIFFERS
    seen: int | None  # of DIFFERS, MISFIT
    written: bytes  # what was written before

    def __init__(self, status: int, text: str = "", written: bytes = b"", **fields: int | str | None):
        self.status = Status(status)
        super().__init__(text or self.status.name.lower().replace("_", " "))
        self.written = written
        for name in ("reason", "sentence", "place", "record", "field", "cue", "other", "packet", "frame", "channel", "service", "expected", "seen"):
            setattr(self, name, fields.get(name))


def _error_of(report: _Report, written: bytes = b"") -> Error:
    status, fields = Status(report.status), {}
    if status in (Status.LIMIT, Status.MISFIT):
        fields["reason"] = LIMITS[report.limit] if status == Status.LIMIT else MISFITS[report.misfit]
    elif report.why:
        fields |= reason_of(report.why)._asdict()
    if status == Status.MALFORMED and not report.record:
        fields["place"] = report.place
    if status in (Status.DIFFERS, Status.MISFIT, Status.SHORT):
        fields["frame"] = report.frame
    if report.channel:
        fields["channel"] = CHANNELS[report.channel - 1]
    # The numbers that a finding has come together; of the rest a zero means that there is none.
    told = " expected " in report.text.decode()
    for name in ("record", "field", "cue", "other", "packet", "service", "expected", "seen"):
        number = getattr(report, name)
        if number or told and name in ("expected", "seen"):
            fields[name] = number
    return Error(status, report.text.decode().rstrip("\n"), written, **fields)


# ---- Calls ------------------------------------------------------------------------------------------------------------------------------

_INPUT = [c_void_p, c_size_t]
_OUTPUT = [c_void_p, c_size_t, POINTER(_Report)]
_HANDLE = POINTER(_Handle)
_FRONT = [c_void_p, c_size_t, POINTER(c_size_t)]
_TAKEN = {
    "version": [], "reason_of": [c_uint32, POINTER(_Reason)], "words_from_cc_data": [*_INPUT, c_uint32, c_uint32, *_FRONT],
    "cc_data_from_words": [*_INPUT, *_FRONT, POINTER(_Packet)],
    **dict.fromkeys("words_from_cdp cdp_from_words".split(), [*_INPUT, *_FRONT]),
    **dict.fromkeys("pairs build cues decode conceal xds_show convert import import_mcc".split(), [*_INPUT, *_OUTPUT]),
    **dict.fromkeys("dual xds verify insert".split(), [*_INPUT, *_INPUT, *_OUTPUT]),
    "show": [*_INPUT, c_uint32, *_OUTPUT], "load": [c_uint32, *_OUTPUT], "export": [*_INPUT, POINTER(_Time), *_OUTPUT],
    "export_mcc": [*_INPUT, c_uint32, POINTER(_Time), *_OUTPUT],
    "builder_open": [*_INPUT, _HANDLE, POINTER(_Report)], **dict.fromkeys("builder_next builder_next_cc_data".split(), [_HANDLE, *_FRONT]),
    "receiver_open": [_HANDLE, c_bool], "receiver_feed": [_HANDLE, *_INPUT, POINTER(_Fed)], "receiver_finish": [_HANDLE, POINTER(_Fed)],
    "receiver_frame": [_HANDLE, POINTER(_Frame)], "receiver_cell": [_HANDLE, c_uint32, c_uint32, c_uint32, POINTER(_Cell)],
    "receiver_changed": [_HANDLE, POINTER(_Changed)], "receiver_window": [_HANDLE, c_uint32, c_uint32, POINTER(_Window)],
    "receiver_window_cell": [_HANDLE, c_uint32, c_uint32, c_uint32, c_uint32, POINTER(_WindowCell)],
    **dict.fromkeys("receiver_changes receiver_screens".split(), [_HANDLE, *_FRONT]),
    "receiver_feed_cc_data": [_HANDLE, *_INPUT, c_uint32, c_uint32, POINTER(_Fed)],
    "receiver_grid": [_HANDLE, c_uint32, POINTER(_Cell), c_size_t],
    "receiver_window_grid": [_HANDLE, c_uint32, c_uint32, POINTER(_WindowCell), c_size_t],
    "verifier_open": [*_INPUT, _HANDLE, POINTER(_Report)], "verifier_feed": [_HANDLE, *_INPUT, POINTER(_Fed)],
    "verifier_verdict": [_HANDLE, POINTER(_Report)],
    **dict.fromkeys("builder_close receiver_close verifier_close".split(), [_HANDLE]),
}


def _declared(name: str) -> Any:
    call = getattr(_library, f"ccsuite_{name}")
    call.argtypes, call.restype = _TAKEN[name], None if name.endswith("_close") else c_uint32
    return call


_CALLS = {name: _declared(name) for name in _TAKEN}


def _bytes_of(given: Text) -> bytes:
    """Bytes that stay as they are during a call."""
    if isinstance(given, str):
        return given.encode()
    return given if isinstance(given, bytes) else memoryview(given).tobytes()


def _address_of(given: bytes) -> int:
    return ctypes.cast(ctypes.c_char_p(given), c_void_p).value or 0


class _Room:
    """Room for what a call writes. Of its memory only what is written is taken."""

    def __init__(self, size: int):
        self.size, self._memory = size, mmap.mmap(-1, size)
        self.address = ctypes.addressof(c_char.from_buffer(self._memory))

    def front(self, written: int) -> bytes:
        return self._memory[:written]


def _number(name: str, value: int, least: int, most: int) -> int:
    if not least <= value <= most:
        raise ValueError(f"{name} {value} isn't {least} to {most}")
    return value


def _channel(name: str) -> int:
    if name not in CHANNELS:
        raise ValueError(f"{name!r} isn't CC1 to CC4")
    return CHANNELS.index(name) + 1


def _run(name: str, *given: Text, more: tuple[Any, ...] = ()) -> bytes:
    """What a whole run writes. It is run again if there was too little room, with as much as is wanted."""
    inputs = [_bytes_of(it) for it in given]
    words = [part for it in inputs for part in (_address_of(it), len(it))]
    size, status, report = 4 * sum(map(len, inputs)) + (1 << 16), Status.ROOM, _Report()
    while status == Status.ROOM:
        room = _Room(size)
        status = _CALLS[name](*words, *more, room.address, room.size, byref(report))
        size = report.wanted
    written = room.front(report.written)
    if status == Status.MEMORY:
        raise MemoryError("out of memory")
    if status != Status.OK:
        raise _error_of(report, written)
    return written


# ---- The library, its reasons, and packets of one frame -----------------------------------------------------------------------------------


class Reason(NamedTuple):
    """Why something is refused: its name, as the program writes it, and a sentence on it."""

    reason: str
    sentence: str


def version() -> tuple[int, int, int]:
    """The library's version."""
    number = _CALLS["version"]()
    return number >> 16, number >> 8 & 0xFF, number & 0xFF


def reason_of(number: int) -> Reason:
    """The reason of a number."""
    reason = _Reason()
    if _CALLS["reason_of"](number, byref(reason)) != Status.OK:
        raise ValueError(f"{number} is no reason's number")
    return Reason(reason.name.decode(), reason.sentence.decode())


class Packet(NamedTuple):
    """What a distribution packet says besides its triplets: the code of its rate, its number, and its flags."""

    rate: int
    counter: int
    flags: int


def _front(name: str, given: Bytes, room: int, before: tuple = (), behind: tuple = ()) -> bytes:
    """What a call on one packet writes."""
    data, out, written = _bytes_of(given), (c_uint8 * room)(), c_size_t()
    status = _CALLS[name](_address_of(data), len(data), *before, out, room, byref(written), *behind)
    if status != Status.OK:
        raise Error(status)
    return bytes(out[:written.value])


def words_from_cc_data(cc_data: Bytes, rate: int, counter: int) -> bytes:
    """The words of the packet that carries a frame's triplets, three bytes each, at a rate (`Rate`), with a number of 0 to 65,535."""
    return _front("words_from_cc_data", cc_data, PACKET_ROOM, (_number("rate", rate, 1, 8), _number("counter", counter, 0, 65_535)))


def cc_data_from_words(words: Bytes) -> tuple[bytes, Packet]:
    """The triplets that the words of one ancillary packet carry, and what else its distribution packet says."""
    packet = _Packet()
    cc_data = _front("cc_data_from_words", words, CC_DATA_ROOM, (), (byref(packet),))
    return cc_data, Packet(packet.rate, packet.counter, packet.flags)


def words_from_cdp(cdp: Bytes) -> bytes:
    """The words that carry a distribution packet, byte for byte."""
    return _front("words_from_cdp", cdp, PACKET_ROOM)


def cdp_from_words(words: Bytes) -> bytes:
    """The distribution packet that the words of one ancillary packet carry."""
    return _front("cdp_from_words", words, CDP_ROOM)


# ---- Whole runs -------------------------------------------------------------------------------------------------------------------------


def pairs(cue_list: Text) -> str:
    """A line for each frame of a cue list, of the byte pairs of both fields."""
    return _run("pairs", cue_list).decode()


def build(cue_list: Text) -> bytes:
    """The words of each frame of a cue list."""
    return _run("build", cue_list)


def cues(cue_list: Text) -> str:
    """The cue list as it is written, in version 2."""
    return _run("cues", cue_list).decode()


def dual(cue_list: Text, other: Text) -> bytes:
    """The words of two cue lists, the second one on CC2 and CC4."""
    return _run("dual", cue_list, other)


def xds(cue_list: Text, packets: Text) -> bytes:
    """The words of a cue list, with packets of extended data in the slots of field 2 that its captions leave free."""
    return _run("xds", cue_list, packets)


def decode(words: Bytes) -> str:
    """The screens and windows that change at each frame, and then the number of frames."""
    return _run("decode", words).decode()


def conceal(words: Bytes) -> str:
    """The same of words of which frames are missing, or whose bytes of line 21 have bad parity."""
    return _run("conceal", words).decode()


def xds_show(words: Bytes) -> str:
    """The packets of extended data that end in each frame, and then the number of frames."""
    return _run("xds_show", words).decode()


def convert(words: Bytes) -> bytes:
    """Words at 59.94 frames a second that show what words at 29.97 show."""
    return _run("convert", words)


def show(words: Bytes, frame: int) -> str:
    """All screens and windows at a frame, counted from 0."""
    return _run("show", words, more=(_number("frame", frame, 0, 0xFFFF_FFFF),)).decode()


def verify(words: Bytes, cue_list: Text) -> None:
    """Returns if words show what a cue list authors; else the first finding is the error."""
    _run("verify", words, cue_list)


def insert(words: Bytes, cue_list: Text) -> bytes:
    """The words with the list's captions in place of their own."""
    return _run("insert", words, cue_list)


def import_scc(scc: Text) -> bytes:
    """Words that carry the pairs of an SCC file, at 29.97 frames a second."""
    return _run("import", scc)


def import_mcc(mcc: Text) -> bytes:
    """The words of the packets of an MCC file."""
    return _run("import_mcc", mcc)


def _time_of(time: str) -> _Time:
    seen = re.fullmatch(r"(\d\d):(\d\d):(\d\d)([:;])(\d\d)", time, re.ASCII)
    if not seen:
        raise ValueError(f"{time!r} isn't a time code, HH:MM:SS:FF or HH:MM:SS;FF")
    hours, minutes, seconds, mark, frames = seen.groups()
    return _Time(int(hours), int(minutes), int(seconds), int(frames), mark == ";")


def export_scc(words: Bytes, time: str) -> str:
    """The SCC file of the field 1 of words, whose frame 0 has this time code: HH:MM:SS:FF, or HH:MM:SS;FF with drop frame."""
    return _run("export", words, more=(byref(_time_of(time)),)).decode()


def export_mcc(words: Bytes, rate: str, time: str) -> str:
    """The MCC file of all packets of words, whose time codes count at a rate: 24, 25, 30, 30DF, 50, 60 or 60DF."""
    seen, start = re.fullmatch(r"(24|25|30|50|60)(DF)?", rate), _time_of(time)
    if not seen or bool(seen[2]) != start.drop_frame:
        raise ValueError(f"{rate!r} isn't a rate of MCC that counts {time!r}")
    return _run("export_mcc", words, more=(int(seen[1]), byref(start))).decode()


def load(count: int) -> str:
    """Four lines on what comes of a list of 1 to 10,000 captions that the library makes, builds and shows."""
    return _run("load", more=(_number("count", count, 1, 10_000),)).decode()


# ---- What lives from one call to the next ------------------------------------------------------------------------------------------------


_Self = TypeVar("_Self", bound="_Open")


class _Open:
    """A handle of the library, closed at the end of a `with`, by `close`, or when nothing holds it any more."""

    _kind: str

    def __init__(self) -> None:
        self._handle, self._lock = _Handle(), threading.RLock()

    def _call(self, name: str, *more: Any) -> int:
        with self._lock:
            status: int = _CALLS[f"{self._kind}_{name}"](byref(self._handle), *more)
        return self._tried(status)

    def _tried(self, status: int) -> int:
        if status == Status.MEMORY:
            raise MemoryError("out of memory")
        if status == Status.CLOSED:
            raise Error(status, f"the {self._kind} is closed")
        if status in (Status.ARGUMENT, Status.FULL, Status.ROOM):
            raise Error(status)
        return status

    def _open(self, cue_list: Text) -> None:
        given, report = _bytes_of(cue_list), _Report()
        status = _CALLS[f"{self._kind}_open"](_address_of(given), len(given), byref(self._handle), byref(report))
        if status == Status.MEMORY:
            raise MemoryError("out of memory")
        if status != Status.OK:
            raise _error_of(report)

    def _feed(self, words: Bytes) -> Iterator[tuple[int, _Fed]]:
        """Feeds words to their end: a status and what was met for each call, which goes up to the end of an ancillary packet."""
        given = _bytes_of(words)
        start, at = _address_of(given), 0
        while at < len(given):
            fed = _Fed()
            status = self._call("feed", start + at, len(given) - at, byref(fed))
            yield status, fed
            at += fed.used

    def close(self) -> None:
        """Frees what it holds; a further call is refused as CLOSED, but a further `close` does nothing."""
        with self._lock:
            _CALLS[f"{self._kind}_close"](byref(self._handle))

    def __enter__(self: _Self) -> _Self:
        return self

    def __exit__(self, *_: object) -> None:
        self.close()

    def __del__(self) -> None:
        if hasattr(self, "_lock"):
            self.close()


class Builder(_Open):
    """The frames of a cue list, one after another: an iterator of ancillary packets, each the words of a frame."""

    _kind = "builder"

    def __init__(self, cue_list: Text):
        super().__init__()
        self._open(cue_list)

    def __iter__(self) -> Builder:
        return self

    def __next__(self) -> bytes:
        return self._next("next")

    def next_cc_data(self) -> bytes:
        """The triplets of the next frame, three bytes each, as many as the rate's frames have; StopIteration after the last one."""
        return self._next("next_cc_data")

    def _next(self, name: str) -> bytes:
        packet, written = (c_uint8 * PACKET_ROOM)(), c_size_t()
        if self._call(name, packet, PACKET_ROOM, byref(written)) == Status.END:
            raise StopIteration
        return bytes(packet[:written.value])


class Frame(NamedTuple):
    """A whole frame: how many came before it (of a concealing receiver its number by the counters), how many are missing right before it, and how many
    whole frames there are so far."""

    number: int
    missing: int
    frames: int


class Changed(NamedTuple):
    """What is shown otherwise than before: channels, CC1 to CC4, and services, 1 to 63."""

    channels: tuple[str, ...]
    services: tuple[int, ...]


class Cell(NamedTuple):
    """A cell of a channel that isn't empty."""

    character: str
    colour: str
    italic: bool
    underline: bool


class Window(NamedTuple):
    """A window of a service (CTA-708-E, DefineWindow and SetWindowAttributes); numbers as the library's header has them. Shades are opacity, red, green
    and blue, each 0 to 3, edges without opacity."""

    visible: bool
    rows: int
    columns: int
    row_lock: bool
    column_lock: bool
    priority: int
    anchor: int
    relative: bool
    vertical: int
    horizontal: int
    justify: int
    print: int
    scroll: int
    wrap: bool
    effect: int
    effect_direction: int
    effect_speed: int
    border: int
    fill: tuple[int, ...]
    border_colour: tuple[int, ...]


class WindowCell(NamedTuple):
    """A cell of a window that isn't empty (SetPenAttributes and SetPenColor); numbers as the library's header has them."""

    character: str
    size: int
    font: int
    tag: int
    offset: int
    italic: bool
    underline: bool
    edge: int
    foreground: tuple[int, ...]
    background: tuple[int, ...]
    edge_colour: tuple[int, ...]


_FLAGS = {"visible", "row_lock", "column_lock", "relative", "wrap", "italic", "underline"}


def _value_of(struct: ctypes.Structure, name: str) -> Any:
    value = getattr(struct, name)
    if isinstance(value, ctypes.Array):
        return tuple(value)
    return bool(value) if name in _FLAGS else value


def _cell_of(cell: _Cell) -> Cell | None:
    return Cell(chr(cell.ch), COLOURS[cell.colour], bool(cell.italic), bool(cell.underline)) if cell.ch else None


def _window_cell_of(cell: _WindowCell) -> WindowCell | None:
    return WindowCell(chr(cell.ch), *(_value_of(cell, name) for name in WindowCell._fields[1:])) if cell.ch else None


class Receiver(_Open):
    """Words in, in any pieces; cells, windows and texts of what they show.

    With `conceals` it is for a line that loses frames: it is reset where the counters jump, and shows a solid block for a byte of line 21 that has bad
    parity."""

    _kind = "receiver"

    def __init__(self, conceals: bool = False):
        super().__init__()
        self._tried(_CALLS["receiver_open"](byref(self._handle), bool(conceals)))
        self._text = _Room(SCREENS_ROOM)

    def frames(self, words: Bytes) -> Iterator[Frame]:
        """Feeds words to their end, and stops after each whole frame, so that what it shows can be read."""
        for status, fed in self._feed(words):
            if status == Status.MALFORMED:
                raise self._refused(fed)
            frame = self.frame() if fed.ended == 2 else None
            if frame:
                yield frame

    def feed(self, words: Bytes) -> int:
        """Feeds words to their end. Returns the number of frames that ended in them."""
        return sum(1 for _ in self.frames(words))

    def feed_cc_data(self, cc_data: Bytes, rate: int, counter: int) -> Frame:
        """Feeds a frame's triplets, at a rate (`Rate`), with a number of 0 to 65,535: a whole frame."""
        given, fed = _bytes_of(cc_data), _Fed()
        numbers = _number("rate", rate, 1, 8), _number("counter", counter, 0, 65_535)
        if self._call("feed_cc_data", _address_of(given), len(given), *numbers, byref(fed)) == Status.MALFORMED:
            raise self._refused(fed)
        frame = self.frame()
        assert frame
        return frame

    def finish(self) -> None:
        """Returns if the words may end here."""
        fed = _Fed()
        if self._call("finish", byref(fed)) == Status.MALFORMED:
            raise self._refused(fed)

    @staticmethod
    def _refused(fed: _Fed) -> Error:
        reason = reason_of(fed.why)
        return Error(Status.MALFORMED, f"malformed at byte {fed.place}: {reason.reason}", place=fed.place, **reason._asdict())

    def frame(self) -> Frame | None:
        """The last whole frame; None before the first one."""
        frame = _Frame()
        return None if self._call("frame", byref(frame)) == Status.NONE else Frame(frame.number, frame.missing, frame.frames)

    def cell(self, channel: str, row: int, column: int) -> Cell | None:
        """The displayed cell of a channel, CC1 to CC4, at a row, 1 to 15, and a column, 0 to 31; None if it is empty."""
        cell = _Cell()
        place = _number("row", row, 1, 15), _number("column", column, 0, 31)
        self._call("cell", _channel(channel), *place, byref(cell))
        return _cell_of(cell)

    def grid(self, channel: str) -> list[list[Cell | None]]:
        """All displayed cells of a channel: 15 rows of 32."""
        cells = (_Cell * (15 * 32))()
        self._call("grid", _channel(channel), cells, len(cells))
        return [[_cell_of(it) for it in cells[at:at + 32]] for at in range(0, len(cells), 32)]

    def window(self, service: int, id: int) -> Window | None:
        """The window of an id, 0 to 7, of a service, 1 to 63; None if there is none."""
        window = _Window()
        place = _number("service", service, 1, 63), _number("id", id, 0, 7)
        if self._call("window", *place, byref(window)) == Status.NONE:
            return None
        return Window(**{name: _value_of(window, name) for name in Window._fields})

    def window_cell(self, service: int, id: int, row: int, column: int) -> WindowCell | None:
        """Its cell at a row, 0 to 15, and a column, 0 to 63; None if it is empty or there is no window."""
        cell = _WindowCell()
        place = _number("service", service, 1, 63), _number("id", id, 0, 7), _number("row", row, 0, 15), _number("column", column, 0, 63)
        return None if self._call("window_cell", *place, byref(cell)) == Status.NONE else _window_cell_of(cell)

    def window_grid(self, service: int, id: int) -> list[list[WindowCell | None]] | None:
        """All its cells by rows; None if there is no window."""
        window, cells = self.window(service, id), (_WindowCell * (16 * 64))()
        if not window or self._call("window_grid", service, id, cells, len(cells)) == Status.NONE:
            return None
        starts = range(0, window.rows * window.columns, window.columns)
        return [[_window_cell_of(it) for it in cells[at:at + window.columns]] for at in starts]

    def changed(self) -> Changed:
        """What is shown otherwise than at the last call of this or of `changes`, or at the start: called once a frame, what changed in it."""
        seen = _Changed()
        self._call("changed", byref(seen))
        channels = tuple(name for bit, name in enumerate(CHANNELS) if seen.channels >> bit & 1)
        return Changed(channels, tuple(service for service in range(1, 64) if seen.services >> service & 1))

    def changes(self) -> str:
        """The text of what changed since the last call of this or of `changed`, or since the start: called once a frame, all that `decode` tells
        of it."""
        return self._text_of("changes")

    def screens(self) -> str:
        """The text of all that is shown."""
        return self._text_of("screens")

    def _text_of(self, name: str) -> str:
        written = c_size_t()
        with self._lock:
            self._call(name, self._text.address, self._text.size, byref(written))
            return self._text.front(written.value).decode()


class Verifier(_Open):
    """Words in, in any pieces; whether they show what a cue list authors."""

    _kind = "verifier"

    def __init__(self, cue_list: Text):
        super().__init__()
        self._open(cue_list)

    def feed(self, words: Bytes) -> None:
        """Feeds words to their end; the first finding, or the first word with which no words go on, is the error."""
        for status, _ in self._feed(words):
            if status != Status.OK:
                self.verdict()

    def verdict(self) -> None:
        """Returns if the words, which end here, show what the list authors."""
        report = _Report()
        if self._call("verdict", byref(report)) != Status.OK:
            raise _error_of(report)
