#!/usr/bin/python3
"""Subtitles to a cue list that has room: subtitles.py [FILE] > LIST

FILE (else standard input) is WebVTT if its first line says so, else SRT. Each subtitle becomes a pop-on caption on CC1, or wherever --on says: CC1,
CC3, and windows of the services S1 to S6. It is shown at its time, or, if its codes can't be sent before that, as few frames later as they need, at
most --late.

Lines of more than 32 columns are broken anew, at spaces, into as few rows as do and about as long. A block of rows stands in the middle, its last row
in row 15 or --row, or where {\\an1} to {\\an9} and WebVTT's line, position and align have it. Italics, underline and colours are kept as far as there
are pens. Subtitles that begin in one moment are one caption, and one that is shown when the next begins gives way. What is dropped, replaced or moved
is told in standard error, each kind once, with its first place, and in how many subtitles it is.

Nothing is written if FILE can't be read (status 1), if it has letters that a system has nothing like (1; --replace shows ? instead), or if
`ccsuite fit`, which looks for the times, refuses the list (its status). Standard error names the line.
"""

import argparse
import codecs
import csv
import functools
import html
import io
import itertools
import math
import pathlib
import re
import signal
import subprocess
import sys
import unicodedata
from fractions import Fraction
from typing import NamedTuple

NAME = pathlib.Path(sys.argv[0]).name
RATES = {"29.97": Fraction(30000, 1001), "30": Fraction(30), "59.94": Fraction(60000, 1001), "60": Fraction(60)}
COLUMNS, ROWS, WINDOW_ROWS = 32, 15, 12
NO_ROOM = 8
# What stands for a character that a system lacks, if taking its accents away doesn't do.
NEAREST = {
    "‘": "'", "’": "'", "‚": ",", "‛": "'", "`": "'", "´": "'", "“": '"', "”": '"', "„": '"', "‟": '"', "‹": "<", "›": ">", "–": "-", "—": "-",
    "―": "-", "‐": "-", "‑": "-", "−": "-", "·": ".", "⁄": "/", "♫": "♪", "♬": "♪", "♩": "♪", "€": "EUR", "×": "x", "œ": "oe", "Œ": "OE",
    "æ": "ae", "Æ": "AE", "ð": "d", "Ð": "D", "þ": "th", "Þ": "Th", "ł": "l", "Ł": "L", "đ": "d", "Đ": "D", "ı": "i", "ß": "ss",
}
# The colours of line 21's pens.
PENS = {
    "white": (255, 255, 255), "green": (0, 255, 0), "blue": (0, 0, 255), "cyan": (0, 255, 255), "red": (255, 0, 0), "yellow": (255, 255, 0),
    "magenta": (255, 0, 255),
}
# Other names of colours in subtitles.
NAMED = {
    **PENS, "lime": (0, 255, 0), "green": (0, 128, 0), "aqua": (0, 255, 255), "fuchsia": (255, 0, 255), "black": (0, 0, 0), "gray": (128, 128, 128),
    "grey": (128, 128, 128), "silver": (192, 192, 192), "maroon": (128, 0, 0), "navy": (0, 0, 128), "olive": (128, 128, 0), "purple": (128, 0, 128),
    "teal": (0, 128, 128), "orange": (255, 165, 0), "gold": (255, 215, 0), "pink": (255, 192, 203),
}


class Notes:
    """What is told at the end: each kind once, with the lines of the subtitles that have it."""

    def __init__(self):
        self.kinds = {}

    def add(self, line, kind):
        self.kinds.setdefault(kind, set()).add(line)

    def tell(self, name):
        for kind, lines in sorted(self.kinds.items(), key=lambda it: min(it[1])):
            tell(f"{name} line {min(lines)}: {kind}{f' ({len(lines)} subtitles in all)' if len(lines) > 1 else ''}")


def tell(text):
    print(text, file=sys.stderr)


def refuse(text, status=1):
    tell(text)
    sys.exit(status)


# ---- Reading ----------------------------------------------------------------------------------------------------------------------------


class Marks(NamedTuple):
    """How a letter is written; a colour is red, green and blue, each 0 to 255."""

    italic: bool = False
    underline: bool = False
    colour: tuple | None = None


class Place(NamedTuple):
    """Where a block of rows stands: which of its rows is meant, first, middle or last, and its row; which of its columns, left, centre or right, and its
    column; and to which side its rows are flush."""

    which: str
    row: Fraction
    side: str
    column: Fraction
    flush: str = "left"


class Subtitle(NamedTuple):
    """A subtitle: the line of its times in the file, its times in milliseconds, its place, and its lines, each of words of letters with their marks."""

    line: int
    start: int
    end: int
    place: Place
    lines: list

    def __str__(self):
        return " / ".join(" ".join("".join(letter for letter, _ in word) for word in line) for line in self.lines)


def decoded(data, encoding, name):
    """The lines of a file."""
    if encoding is None:
        encoding = "utf-16" if data[:2] in (b"\xff\xfe", b"\xfe\xff") else "utf-8-sig"
    try:
        return re.split(r"\r\n|\n|\r", data.decode(encoding))
    except UnicodeDecodeError as error:
        line = len(re.split(rb"\r\n|\n|\r", data[:error.start]))
        refuse(f"{name} line {line}: byte {data[error.start]:02X} isn't {error.encoding.upper()}; --encoding names another, as cp1252 or latin-1")


TIME = r"(?:(\d+):)?(\d{1,2}):(\d{1,2})[.,](\d{1,3})"


def times_of(line, number, name):
    """The times of a line of times, and what stands after them."""
    seen = re.match(rf"\s*{TIME}\s*-->\s*{TIME}(.*)", line)
    if not seen:
        refuse(f"{name} line {number}: no times are read in “{line.strip()}”")
    start, end = ((int(it[0] or 0) * 3600 + int(it[1]) * 60 + int(it[2])) * 1000 + int(it[3].ljust(3, "0"))
                  for it in (seen.groups()[:4], seen.groups()[4:8]))
    if end <= start:
        refuse(f"{name} line {number}: the subtitle ends before it begins: “{line.strip()}”")
    return start, end, seen[9].strip()


def cues_of_srt(lines, name):
    """Of each subtitle of SRT the line of its times, these, and its lines of text: up to the number and the times of the next one."""
    at = [number for number, line in enumerate(lines) if "-->" in line]
    for number, line in enumerate(lines[:at[0] if at else None], 1):
        if line.strip() and not line.strip().isdigit():
            refuse(f"{name} line {number}: “{line.strip()[:40]}” is neither the number nor the times of a subtitle")
    for number, after in itertools.zip_longest(at, at[1:]):
        text = lines[number + 1:after]
        if after and text and text[-1].strip().isdigit():
            text.pop()
        yield number + 1, times_of(lines[number], number + 1, name), text


def cues_of_vtt(lines, name, notes):
    """Of each cue of WebVTT the line of its times, these, and its lines of text."""
    number = 1
    for blank, block in itertools.groupby(lines, lambda it: not it.strip()):
        block, first = list(block), number
        number += len(block)
        at = next((place for place, line in enumerate(block[:2]) if "-->" in line), None)
        if at is not None:
            yield first + at, times_of(block[at], first + at, name), block[at + 1:]
        elif block[0].startswith(("STYLE", "REGION")):
            notes.add(first, f"{block[0].split()[0]} isn't kept")
        elif not blank and first > 1 and not block[0].startswith("NOTE"):
            notes.add(first, "text without times isn't shown")


def colour_of(name):
    """The colour of a name or of hexadecimal digits; None if there is none."""
    digits = re.fullmatch(r"#?([0-9a-f]{6}|[0-9a-f]{3})", name, re.I)
    if not digits:
        return NAMED.get(name.lower())
    pairs = re.findall("..", digits[1]) if len(digits[1]) == 6 else [2 * it for it in digits[1]]
    return tuple(int(it, 16) for it in pairs)


class Reader:
    """Reads the markup of a subtitle's text: letters with their marks, and its place if the text has one."""

    def __init__(self, line, place, row, is_vtt, notes):
        self.line, self.place, self.row, self.is_vtt, self.notes = line, place, row, is_vtt, notes
        self.italic = self.underline = False
        self.colours, self.letters = [None], []

    def read(self, text):
        for part in re.split(r"(<[^<>]*>|\{\\[^{}]*\})", unicodedata.normalize("NFC", text)):
            if part.startswith("{\\"):
                self.override(part)
            elif re.fullmatch(r"</?[A-Za-z][^<>]*>|</>" if not self.is_vtt else "<.*>", part, re.S):
                self.tag(part[1:-1])
            else:
                marks = Marks(self.italic, self.underline, self.colours[-1])
                seen = html.unescape(part) if self.is_vtt else part
                self.letters += [(it, marks) for it in seen if it.isspace() or unicodedata.category(it) not in ("Cc", "Cf")]
        return self

    def override(self, part):
        """An override of SubStation Alpha, as SRT files have them."""
        for word in part[2:-1].split("\\"):
            number = re.fullmatch(r"(an|i|u)(\d)", word)
            if number and number[1] == "an" and number[2] in "123456789":
                self.place = aligned(int(number[2]), self.row)
            elif number and number[1] == "i":
                self.italic = number[2] != "0"
            elif number and number[1] == "u":
                self.underline = number[2] != "0"
            else:
                self.notes.add(self.line, f"{{\\{re.match('[0-9]?[a-z]*', word)[0]}}} isn't kept")

    def tag(self, tag):
        seen = re.fullmatch(r"(/?)([a-z]*)([.][^\s]*)?(.*)", tag, re.I | re.S)
        closes, name = (bool(seen[1]), seen[2].lower()) if seen else (False, "")
        if name == "i":
            self.italic = not closes
        elif name == "u":
            self.underline = not closes
        elif closes and name in ("font", "c"):
            self.colours = self.colours[:-1] or [None]
        elif name == "font":
            self.font(seen[4])
        elif name == "c":
            self.colours.append(self.colours[-1])
        elif not closes and name:
            self.notes.add(self.line, f"<{name}> isn't kept")
        if seen and seen[3] and not closes:
            self.classes(seen[3][1:].split("."), name)

    def font(self, attributes):
        named = re.search(r"color\s*=\s*[\"']?\s*([#\w]+)", attributes, re.I)
        colour = colour_of(named[1]) if named else None
        self.colours.append(colour or self.colours[-1])
        if named and not colour:
            self.notes.add(self.line, f"the colour “{named[1]}” isn't known")
        if re.search(r"\b(face|size)\b", attributes, re.I):
            self.notes.add(self.line, "fonts and their sizes aren't kept")

    def classes(self, names, tag):
        for name in names:
            if tag == "c" and name in NAMED:
                self.colours[-1] = NAMED[name]
            else:
                self.notes.add(self.line, f"the class “{name}” isn't kept")


def parts_of(letters, is_between):
    return [list(part) for between, part in itertools.groupby(letters, lambda it: is_between(it[0])) if not between]


def lines_of(letters):
    """The lines of letters that aren't empty, each a list of words."""
    lines = [parts_of(line, lambda it: it.isspace() and it not in "\u00a0\u202f") for line in parts_of(letters, "\n".__eq__)]
    return [it for it in lines if it]


def aligned(number, row):
    """The place that {\\an1} to {\\an9} mean, as the keys of a number pad lie."""
    which, at = (("last", row), ("middle", 8), ("first", 1))[(number - 1) // 3]
    side, column = (("left", 0), ("centre", COLUMNS // 2), ("right", COLUMNS))[(number - 1) % 3]
    return Place(which, Fraction(at), side, Fraction(column))


def percent(text):
    seen = re.fullmatch(r"(\d+(?:\.\d+)?)%", text)
    return Fraction(seen[1]) if seen else None


def place_of(settings, row):
    """The place that WebVTT's settings mean. Line 21 has the middle 80 hundredths of the picture, in both directions."""
    flush = {"start": "left", "left": "left", "end": "right", "right": "right"}.get(settings.get("align"), "centre")
    position, _, anchor = settings.get("position", "").partition(",")
    side = {"line-left": "left", "start": "left", "line-right": "right", "end": "right", "center": "centre", "middle": "centre"}.get(anchor, flush)
    column = {"left": 0, "centre": COLUMNS // 2, "right": COLUMNS}[flush]
    if percent(position) is not None:
        column = (percent(position) - 10) * COLUMNS / 80
    line, _, anchor = settings.get("line", "").partition(",")
    which, at = "last", row
    if re.fullmatch(r"-?\d+", line):
        which, at = ("last", ROWS + 1 + int(line)) if line.startswith("-") else ("first", int(line) + 1)
    elif percent(line) is not None:
        edge = (percent(line) - 10) * ROWS / 80
        which, at = {"end": ("last", edge), "center": ("middle", edge + Fraction(1, 2))}.get(anchor, ("first", edge + 1))
    # A block in the middle has its rows begin together.
    return Place(which, Fraction(at), side, Fraction(column), "right" if flush == "right" else "left")


def place_of_settings(text, line, row, is_vtt, notes):
    """The place that stands after the times."""
    settings = dict(re.findall(r"(\w+):(\S+)", text))
    if not is_vtt:
        if settings:
            notes.add(line, "coordinates aren't kept")
        return aligned(2, row)
    for name in settings.keys() - {"line", "position", "align"}:
        notes.add(line, f"{name} isn't kept")
    return place_of(settings, row)


def read(data, options, name, notes):
    """The subtitles of a file that have a text, by their times."""
    lines = decoded(data, options.encoding, name)
    is_vtt = lines[0].startswith("WEBVTT")
    subtitles = []
    for line, (start, end, settings), text in cues_of_vtt(lines, name, notes) if is_vtt else cues_of_srt(lines, name):
        place = place_of_settings(settings, line, options.row, is_vtt, notes)
        reader = Reader(line, place, options.row, is_vtt, notes).read("\n".join(text))
        subtitle = Subtitle(line, start, end, reader.place, lines_of(reader.letters))
        if subtitle.lines:
            subtitles.append(subtitle)
        else:
            notes.add(line, "a subtitle has no text")
    if not subtitles:
        refuse(f"{name}: no subtitle is read")
    return sorted(subtitles, key=lambda it: it.start)


# ---- Letters ----------------------------------------------------------------------------------------------------------------------------


def run_ccsuite(words, text):
    """What `ccsuite` answers a list: its status, its output and its line."""
    ran = subprocess.run(["ccsuite", *words], input=text.encode(), capture_output=True)
    return ran.returncode, ran.stdout.decode(), ran.stderr.decode().strip()


def spelled(rate, frames, records):
    out = io.StringIO()
    csv.writer(out, lineterminator="\n").writerows([("ccsuite", 2, rate, frames), *records])
    return out.getvalue()


class Letters:
    """What a system, line 21 or windows, has codes for, as `ccsuite` says."""

    def __init__(self, system):
        self.system, self.known = system, {}

    def learn(self, letters):
        """Learns which of some letters, at most 32, there are."""
        head = [("pop", "CC1", 0, 90, 99), ("run", 1, 0, "white", "".join(letters))]
        if self.system == "S":
            head = [("share", 1, 31), ("win", 1, 0, 0, 90, 99, 0, 0, 0, 0, 1, 42, 0, 1, 1), ("run", 0, 0, "plain", "".join(letters))]
        has_all = run_ccsuite(["cues"], spelled("29.97", 120, head))[0] == 0
        if has_all or len(letters) == 1:
            self.known |= dict.fromkeys(letters, has_all)
        else:
            self.learn(letters[::2])
            self.learn(letters[1::2])

    def learn_all(self, letters):
        new = sorted(set(letters) - self.known.keys())
        for at in range(0, len(new), COLUMNS):
            self.learn(new[at:at + COLUMNS])

    @functools.cache
    def shown(self, letter):
        """What a system has for a letter: it, or what is like it; None if there is nothing."""
        if unicodedata.combining(letter):
            return ""
        plain = "".join(it for it in unicodedata.normalize("NFKD", letter) if not unicodedata.combining(it))
        near = [it for it in (letter, NEAREST.get(letter), plain, "".join(NEAREST.get(it, it) for it in plain)) if it]
        self.learn_all("".join(near[:1] if self.known.get(letter) else near))
        return next((it for it in near if all(self.known[one] for one in it)), None)


def replaced(subtitles, lane, letters, replace, name, notes):
    """The subtitles in the letters that a lane has."""
    seen = {letter for it in subtitles for letter, _ in itertools.chain(*itertools.chain(*it.lines))}
    letters.learn_all(seen)
    lacking = sorted(it for it in seen if letters.shown(it) is None)
    if lacking and not replace:
        kinds = sorted({unicodedata.name(it, "unnamed").split()[0] for it in lacking})
        line = next(it.line for it in subtitles if set(str(it)) & set(lacking))
        refuse(f"{name} line {line}: {lane} has no letters like {' '.join(lacking[:40])}{' ..' * (len(lacking) > 40)} ({', '.join(kinds)}); "
               "--replace shows ? in their place")
    shown = [it._replace(lines=[shown_words(line, it.line, lane, letters, notes) for line in it.lines]) for it in subtitles]
    return [it._replace(lines=list(filter(None, it.lines))) for it in shown if any(it.lines)]


def shown_words(words, *more):
    """Words in the letters that a lane has, but for those that have none but accents."""
    return list(filter(None, (shown_word(it, *more) for it in words)))


def shown_word(word, line, lane, letters, notes):
    """A word in the letters that a lane has."""
    given = []
    for letter, marks in word:
        shown = letters.shown(letter)
        shown = "?" if shown is None else shown
        if shown != letter and not letter.isspace():
            notes.add(line, f"{lane} has no “{letter}”, and shows “{shown}”")
        given += [(it, marks) for it in shown]
    return given


# ---- Rows and pens ----------------------------------------------------------------------------------------------------------------------


def width_of(words):
    return sum(map(len, words)) + len(words) - 1


def wrapped(words, width):
    """Words in rows of at most a width, each row as full as it can be."""
    rows = [[]]
    for word in words:
        if rows[-1] and width_of([*rows[-1], word]) > width:
            rows.append([])
        rows[-1].append(word)
    return rows


def broken(words):
    """Words in as few rows as do, the longest of which is as short as can be."""
    words = [word[at:at + COLUMNS] for word in words for at in range(0, len(word), COLUMNS)]
    fewest = len(wrapped(words, COLUMNS))
    return next(rows for width in range(max(map(len, words)), COLUMNS + 1) if len(rows := wrapped(words, width)) == fewest)


def begins_anew(words):
    """Whether a line is of another speaker, or a sound."""
    return words[0][0][0] in "-–—•>♪♫#[("


def rows_of(subtitle):
    """The rows of a subtitle, each a list of words. A line that is too long is broken together with the line below it."""
    texts = []
    for line in subtitle.lines:
        if texts and width_of(texts[-1]) > COLUMNS and not begins_anew(line):
            texts[-1] = texts[-1] + line
        else:
            texts.append(line)
    return [row for text in texts for row in broken(text)]


def pen_colour(colour, line, notes):
    """The pen that is nearest to a colour, however dark it is."""
    brightest = max(colour)
    if not brightest:
        notes.add(line, "black text is shown in white")
        return "white"
    bright = [it * 255 / brightest for it in colour]
    pen = min(PENS, key=lambda it: sum((one - other) ** 2 for one, other in zip(PENS[it], bright)))
    if PENS[pen] != colour:
        notes.add(line, f"the colour {'#%02x%02x%02x' % colour} is shown in {pen}")
    return pen


def line21_pens(word, line, notes):
    """The letters of a word with line 21's pens. If the pen is a code that takes a cell, the word has it as a whole."""
    colour = next((marks.colour for _, marks in word if marks.colour), None)
    pen = pen_colour(colour, line, notes) if colour else "white"
    italic = any(marks.italic for _, marks in word)
    if italic and pen != "white":
        notes.add(line, "italics of text in a colour aren't kept on line 21")
    pen = "white-i" if italic and pen == "white" else pen
    whole = any(marks.underline for _, marks in word) if pen != "white" else None
    return [(letter, pen + "-u" * (marks.underline if whole is None else whole)) for letter, marks in word]


def window_pens(word):
    """The letters of a word with the pens of windows, each with its own colour or none."""
    level = lambda it: (it + 42) // 85
    return [(letter, ("plain" + "-i" * marks.italic + "-u" * marks.underline, marks.colour and tuple(map(level, marks.colour)))) for letter, marks in word]


def is_underlined(pen):
    return (pen if isinstance(pen, str) else pen[0]).endswith("-u")


def takes_cell(pen):
    """Whether a pen's code takes the cell before its text: in windows none does."""
    return isinstance(pen, str) and pen not in ("white", "white-u")


def stretches_of(words, column):
    """The stretches of one pen of a row that begins at a column: column, pen and text. The space between two has the pen of that which isn't underlined,
    or is the cell of a code."""
    stretches = []
    for word in words:
        gap = " " if stretches else ""
        for pen, part in itertools.groupby(word, lambda it: it[1]):
            text = "".join(letter for letter, _ in part)
            if stretches and stretches[-1][1] == pen:
                stretches[-1][2] += gap + text
            elif gap and not takes_cell(pen) and is_underlined(stretches[-1][1]) and not is_underlined(pen):
                stretches.append([column, pen, gap + text])
            else:
                if gap and not takes_cell(pen):
                    stretches[-1][2] += gap
                stretches.append([column + len(gap), pen, text])
            column, gap = column + len(gap) + len(text), ""
    return stretches


class Block(NamedTuple):
    """Rows at a place: the first one's row, from 1, the column in which the widest begins, and that of the place."""

    place: Place
    top: int
    left: int
    column: Fraction
    width: int
    rows: list

    def column_of(self, words):
        return self.left + (self.width - width_of(words) if self.place.flush == "right" else 0)


def nearest(value):
    return math.floor(value + Fraction(1, 2))


def block_of(place, rows, taken):
    """A block as near to its place as there are rows, which it takes; None if there aren't any."""
    width, height = max(map(width_of, rows)), len(rows)
    top = nearest(place.row - {"first": 0, "middle": Fraction(height - 1, 2), "last": height - 1}[place.which])
    free = (it for it in range(1, ROWS + 2 - height) if not taken & set(range(it, it + height)))
    top = min(free, key=lambda it: abs(it - top), default=None)
    if top is None:
        return None
    taken |= set(range(top, top + height))
    before = {"left": Fraction(0), "centre": Fraction(width, 2), "right": Fraction(width)}[place.side]
    column = min(max(place.column, before), COLUMNS - width + before)
    return Block(place, top, math.floor(column - before), column, width, rows)


def blocks_of(group, name):
    """The blocks of the subtitles of one caption: one for each place."""
    places, taken = {}, set()
    for it in group:
        places.setdefault(it.place, []).extend(rows_of(it))
    blocks = [block_of(place, rows, taken) for place, rows in places.items()]
    if None in blocks:
        refuse(f"{name} line {group[0].line}: the caption has more rows than the {ROWS} of a screen: “{group[0]}”")
    return blocks


# ---- Cues -------------------------------------------------------------------------------------------------------------------------------


class Cue:
    """A cue: its first record but for its times, these, its runs, and its subtitles."""

    def __init__(self, head, times, tail, runs, group):
        self.head, self.tail, self.runs, self.group = head, tail, runs, group
        self.load, self.show, self.hide = times

    def records(self):
        return [(*self.head, self.load, self.show, self.hide, *self.tail), *self.runs]


class Lane:
    """Where captions go: a channel of line 21 or a service; the frames between two of its slots, and its first slot. Windows go with CC1."""

    def __init__(self, name, rate):
        self.name, self.is_service = name, name.startswith("S")
        self.rate, self.step = RATES[rate], 1 + (RATES[rate] > 31)
        self.first = int(self.step == 2 and name == "CC3")
        self.windows = itertools.cycle(range(8))

    def frame_of(self, milliseconds):
        """The nearest frame with a slot, above 0, so that a caption can be loaded before it."""
        frame = self.first + self.step * nearest((milliseconds * self.rate / 1000 - self.first) / self.step)
        return max(frame, self.first or self.step)

    def captions(self, subtitles, notes):
        """Each caption's SHOW, HIDE and subtitles. Between two of these frames there are two slots or none."""
        least, groups = 2 * self.step, []
        for it in subtitles:
            if groups and self.frame_of(it.start) < self.frame_of(groups[-1][0].start) + least:
                groups[-1].append(it)
                notes.add(it.line, "subtitles that begin together are one caption")
            else:
                groups.append([it])
        for group, after in itertools.zip_longest(groups, groups[1:]):
            show = self.frame_of(group[0].start)
            hide = max(show + least, *(self.frame_of(it.end) for it in group))
            limit = self.frame_of(after[0].start) if after else hide + least
            if hide > limit:
                notes.add(group[0].line, "a subtitle is hidden where the next one begins")
            yield show, limit if hide > limit - least else hide, group

    def cues_of(self, load, show, hide, group, name, notes):
        """The cues of a caption: a pop-on cue, or a window for each block."""
        blocks = blocks_of(group, name)
        if self.is_service:
            for block in blocks:
                if len(block.rows) > WINDOW_ROWS:
                    refuse(f"{name} line {group[0].line}: the caption has more rows than the {WINDOW_ROWS} of a window: “{group[0]}”")
                yield self.window(block, (load, show, hide), group)
            return
        runs = []
        for block in blocks:
            for row, words in enumerate(block.rows, block.top):
                pens = [line21_pens(word, group[0].line, notes) for word in words]
                runs += [("run", row, column, pen, text) for column, pen, text in stretches_of(pens, block.column_of(words))]
        yield Cue(("pop", self.name), (load, show, hide), (), runs, group)

    def window(self, block, times, group):
        """A cue of a window for a block, in the middle 32 of a wide picture's 42 columns."""
        runs = []
        for row, words in enumerate(block.rows):
            stretches = stretches_of([window_pens(it) for it in words], block.column_of(words) - block.left)
            for column, (pen, colour), text in stretches:
                runs.append(("run", row, column, pen, text))
                if colour:
                    runs.append(("colour", "0" + "".join(map(str, colour)), "0000", "000"))
        anchor = 6 * (block.place.which == "last") + ("left", "centre", "right").index(block.place.side)
        down = 5 * (block.top - 1 + len(block.rows)) - 1 if block.place.which == "last" else 5 * (block.top - 1)
        place = anchor, down, nearest(5 * (5 + block.column))
        head, tail = ("win", self.name[1:], next(self.windows)), (0, *place, len(block.rows), block.width, 0, 1, 1)
        return Cue(head, times, tail, runs, group)

    def cues(self, subtitles, name, notes):
        load = 0
        for show, hide, group in self.captions(subtitles, notes):
            yield from self.cues_of(load, show, hide, group, name, notes)
            load = show


def shares_of(lanes, rate):
    """The records of what of each frame's packet the services may use, all alike."""
    services = [it.name[1:] for it in lanes if it.is_service]
    room = 17 if RATES[rate] > 31 else 35
    share = min(31, room // len(services) - 1) if services else 0
    if services and share < 8:
        refuse(f"{NAME}: at {rate} frames a second there is room for {room // 9} services")
    return [("share", it, share) for it in services]


# ---- Times that have room ----------------------------------------------------------------------------------------------------------------


def fitted(head, cues, late):
    """The list in which each cue that has no room is shown as few frames later as it needs, at most `late`: the status, the list, and what was said."""
    rate, shares = head
    frames = max(it.hide for it in cues) + 60
    text = spelled(rate, frames, [*shares, *(record for it in cues for record in it.records())])
    return run_ccsuite(["fit", str(late)], text)


def shows_of(text):
    """SHOW of each cue of a list, in order."""
    return [int(it[3 if it[0] == "pop" else 4]) for it in csv.reader(io.StringIO(text)) if it[0] in ("pop", "win")]


def tell_refused(status, said, cues, late, name):
    """Tells why a list was refused, by the subtitle."""
    named = re.search(r"cue (\d+)", said)
    if not named:
        refuse(f"{name}: {said}", status)
    first = cues[int(named[1]) - 1].group[0]
    said = f"it has no room up to {late} frames after its time: give it more time or less text, or a greater --late" if status == NO_ROOM else said
    refuse(f"{name} line {first.line}: “{first}”: {said}", status)


def number(least, most):
    def read_number(text):
        if not text.isdecimal() or not least <= int(text) <= most:
            raise argparse.ArgumentTypeError(f"{text} isn't {least} to {most}")
        return int(text)
    return read_number


def words_of():
    parser = argparse.ArgumentParser(prog=NAME, description="SRT or WebVTT subtitles to a cue list that has room.")
    parser.add_argument("file", metavar="FILE", nargs="?", default="-", help="SRT or WebVTT; else standard input")
    parser.add_argument("--on", metavar="CC1|CC3|S1..S6", action="append", help="where the captions go: channels or services, CC1 if none is given")
    parser.add_argument("--rate", choices=RATES, default="29.97", help="frames a second, 29.97 if it isn't given")
    parser.add_argument("--row", metavar="ROW", type=number(1, ROWS), default=ROWS, help="the last row of captions, 15 if it isn't given")
    parser.add_argument("--late", metavar="FRAMES", type=number(0, 1000), default=45, help="the most that a caption comes late, 45 if it isn't given")
    parser.add_argument("--encoding", help="of FILE, as cp1252; UTF-8 if it isn't given, or UTF-16 by its mark")
    parser.add_argument("--replace", action="store_true", help="shows ? for letters that have nothing like them")
    parser.exit = lambda status=0, message=None: (message and sys.stderr.write(message), sys.exit(1 if status else 0))
    options = parser.parse_args()
    options.on = [name for it in options.on or ["CC1"] for name in it.split(",")]
    if len(set(options.on)) < len(options.on) or not all(re.fullmatch("CC[13]|S[1-6]", it) for it in options.on):
        parser.error("--on takes CC1, CC3 and S1 to S6, each once")
    try:
        codecs.lookup(options.encoding or "utf-8")
    except LookupError as error:
        parser.error(f"--encoding: {error}")
    return options


def main():
    options, notes = words_of(), Notes()
    name = "standard input" if options.file == "-" else options.file
    data = sys.stdin.buffer.read() if options.file == "-" else pathlib.Path(options.file).read_bytes()
    subtitles = read(data, options, name, notes)
    lanes = [Lane(it, options.rate) for it in options.on]
    systems = {"C": Letters("C"), "S": Letters("S")}
    cues = []
    for lane in lanes:
        shown = replaced(subtitles, lane.name, systems[lane.name[0]], options.replace, name, notes)
        cues += lane.cues(shown, name, notes)
    cues.sort(key=lambda it: it.show)
    wanted = [it.show for it in cues]
    status, text, said = fitted((options.rate, shares_of(lanes, options.rate)), cues, options.late)
    notes.tell(name)
    if status:
        tell_refused(status, said, cues, options.late, name)
    late = [(show - due, cue) for show, due, cue in zip(shows_of(text), wanted, cues) if show > due]
    if late:
        tell(f"{name} line {late[0][1].group[0].line}: {len(late)} of {len(cues)} captions are shown later than they say, "
             f"at most {max(it for it, _ in late)} frames")
    signal.signal(signal.SIGPIPE, signal.SIG_DFL)
    sys.stdout.buffer.write(text.encode())


if __name__ == "__main__":
    try:
        main()
    except FileNotFoundError as error:
        refuse(f"{NAME}: ccsuite isn't installed" if error.filename == "ccsuite" else f"{error.filename}: {error.strerror}")
    except OSError as error:
        refuse(f"{error.filename}: {error.strerror}")
