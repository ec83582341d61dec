#!/usr/bin/env python3
"""Tries the viewer in a headless Chromium: try.py PROGRAM [PICTURE]

The lists of examples/ are built and decoded by PROGRAM, of one of them frames are dropped for `conceal`, and viewer/windows.txt has a window of each
kind. Each text is opened in the page, by the file field or by a drop; at each frame that changes, and the one before, the cells that are drawn are
compared with the text, which is read here a second time. Positions, colours, keys, the line of time, the list of captions, lost frames, time codes,
subtitles, searching, playing and what takes room are compared with values worked out by hand. If ffmpeg is installed, a video each of whose pictures
has a brightness of its own is opened too, and the picture below the captions is that of the frame. PICTURE is written from the realistic programme.
"""

import base64
import html
import json
import os
import pathlib
import re
import shlex
import shutil
import subprocess
import sys
import tempfile
import time

HERE = pathlib.Path(__file__).parent
EXAMPLES = HERE.parent / "examples"
CHROMIUM = shutil.which("chromium") or shutil.which("chromium-browser") or shutil.which("google-chrome")

# What the page is told to do, and what it answers as a JSON text.
SCRIPT = """
const TEXTS = %s;
const wait = (milliseconds = 5) => new Promise(done => setTimeout(done, milliseconds));

function dropped(file) {
  const transfer = new DataTransfer();
  transfer.items.add(file);
  return transfer;
}

async function give(base64, byDrop) {
  const bytes = Uint8Array.from(atob(base64), it => it.charCodeAt(0));
  const transfer = dropped(new File([bytes], "text"));
  page.place.textContent = "waiting";
  if (byDrop) {
    dispatchEvent(new DragEvent("drop", { dataTransfer: transfer, cancelable: true }));
  } else {
    page.file.files = transfer.files;
    page.file.dispatchEvent(new Event("change"));
  }
  while (page.place.textContent === "waiting") await wait();
}

/** The box of an element in shares of the safe area. */
function boxIn(safe, element) {
  const [outer, inner] = [safe.getBoundingClientRect(), element.getBoundingClientRect()];
  return [(inner.left - outer.left) / outer.width, (inner.top - outer.top) / outer.height, inner.width / outer.width, inner.height / outer.height];
}

function cellsIn(safe, within) {
  return [...within.querySelectorAll(".cell")].map(cell => {
    const style = getComputedStyle(cell);
    return { row: +cell.dataset.row, col: +cell.dataset.col, letter: cell.textContent, colour: style.color, background: style.backgroundColor,
      italic: style.fontStyle === "italic", underline: style.boxShadow !== "none", box: boxIn(safe, cell) };
  });
}

function drawn() {
  return Object.fromEntries([...document.querySelectorAll("figure")].map(figure => {
    const safe = figure.querySelector(".safe");
    const windows = [...figure.querySelectorAll(".window")];
    return [figure.dataset.name, figure.className === "channel" ? cellsIn(safe, safe) : windows.map(it => {
      const style = getComputedStyle(it);
      return { id: +it.dataset.id, box: boxIn(safe, it), fill: style.backgroundColor, before: +style.zIndex, cells: cellsIn(safe, it),
        label: it.querySelector(".label").textContent };
    })];
  }));
}

function key(name, target = window) {
  target.dispatchEvent(new KeyboardEvent("keydown", { key: name, cancelable: true, bubbles: true }));
  return +page.frame.value;
}

function choose(rate, drop) {
  page.rate.value = rate;
  page.rate.dispatchEvent(new Event("change"));
  page.drop.checked = drop;
  page.drop.dispatchEvent(new Event("change"));
}

function goTo(frame) {
  page.frame.value = frame;
  page.frame.dispatchEvent(new Event("input"));
}

/** A table cell's texts: its own, and the small one below. */
function textsOf(cell) {
  return cell.firstChild ? [...cell.childNodes].map(it => it.textContent) : [""];
}

/** The rows of the list of captions, each with its channel or service, and whether it is marked. */
function listed() {
  return [...page.captions.querySelectorAll("tr")].map(row =>
    [row.closest("table").dataset.name, ...[...row.cells].flatMap(textsOf), row.className]);
}

/** The time codes of frames, each at a rate, from a time code of frame 0 on. */
function starts(wanted) {
  const told = wanted.map(([rate, drop, start, frame]) => {
    choose(rate, drop);
    page.start.value = start;
    page.start.dispatchEvent(new Event("input"));
    goTo(frame);
    return [page.code.textContent, listed()[0]?.[1], page.start.validity.valid];
  });
  page.start.value = "00:00:00:00";
  page.start.dispatchEvent(new Event("input"));
  return told;
}

/** The files that the list saves, each with its name. */
async function saves() {
  const [blobs, names, made] = [[], [], URL.createObjectURL];
  URL.createObjectURL = blob => (blobs.push(blob), "about:blank");
  HTMLAnchorElement.prototype.click = function () { names.push(this.download); };
  for (const button of page.captions.querySelectorAll("button")) button.click();
  URL.createObjectURL = made;
  return Promise.all(blobs.map(async (blob, place) => [names[place], await blob.text()]));
}

/** What is searched: the texts that are left in the list, what is told of them, and where the key Enter leads to from frame 0, twice. */
function searches(wanted) {
  return wanted.map(text => {
    page.search.value = text;
    page.search.dispatchEvent(new Event("input"));
    const left = [...page.captions.querySelectorAll("tr")].filter(it => !it.hidden).map(it => it.lastChild.textContent);
    goTo(0);
    return [left, page.found.textContent, key("Enter", page.search), key("Enter", page.search)];
  });
}

/** Without a rate: the list, the frame's time code, and what takes room. */
function unrated() {
  choose("", true);
  return [listed(), page.code.textContent, page.place.textContent, rooms()];
}

/** A video below the captions: at each frame the brightness of the picture, where it is gone to, and then while it plays, with the frame. */
async function films({ film, frames }) {
  const bytes = Uint8Array.from(atob(film), it => it.charCodeAt(0));
  page.film.files = dropped(new File([bytes], "film.mp4", { type: "video/mp4" })).files;
  page.film.dispatchEvent(new Event("change"));
  const light = () => document.querySelector(".picture canvas")?.getContext("2d").getImageData(20, 20, 1, 1).data[1];
  await new Promise(done => page.video.addEventListener("seeked", done, { once: true }));
  const at = [];
  for (const frame of frames) {
    goTo(frame);
    await new Promise(done => page.video.addEventListener("seeked", done, { once: true }));
    at.push(light());
  }
  const played = [];
  page.video.muted = true;
  key("Home");
  key(" ");
  for (const until = performance.now() + 1500; performance.now() < until; await wait(50)) played.push([+page.frame.value, light()]);
  return { at, played: played.slice(5), size: [page.video.videoWidth, page.video.videoHeight], fault: page.fault.textContent };
}

/** The time codes of frames, each at a rate. */
function codes(wanted) {
  return wanted.map(([rate, drop, frame]) => {
    choose(rate, drop);
    goTo(frame);
    return page.code.textContent;
  });
}

/** The frames that a click on each row leads to, and the key Enter on each. */
function clicks() {
  const rows = [...page.captions.querySelectorAll("tr")];
  return [rows.map(row => (row.click(), +page.frame.value)), rows.map(row => key("Enter", row))];
}

/** What is taken while a second plays from a frame on, in frames and by the clock, and whether it has stopped. */
async function playFrom(frame, how) {
  goTo(frame);
  const since = performance.now();
  how();
  await wait(1000);
  const played = [+page.frame.value - frame, (performance.now() - since) / 1000, page.play.textContent];
  if (page.play.textContent === "Stop") how();
  const stopped = +page.frame.value;
  await wait(200);
  return [...played, +page.frame.value === stopped];
}

async function plays(wanted) {
  const answers = [];
  for (const [rate, frame, by] of wanted) {
    choose(rate, true);
    answers.push(await playFrom(frame, () => (by === "Space" ? key(" ") : page.play.click())));
  }
  key(" ", page.rate);
  return [...answers, page.play.textContent];
}

/** Which parts of the page take room. */
function rooms() {
  return ["controls", "play", "dropping", "fault", "time", "shown", "captions"].filter(it => page[it].offsetHeight > 0);
}

/** The frames of so many at which the page tells that there is none, each with the rows of the list that are marked. */
function losses(frames) {
  return [...Array(frames).keys()].flatMap(frame => {
    goTo(frame);
    const safe = document.querySelector(".safe");
    const told = getComputedStyle(safe).visibility === "hidden" && getComputedStyle(safe.parentElement, "::after").content !== "none";
    return told ? [[frame, ...listed().filter(it => it.at(-1) === "now").map(it => it.at(-2))]] : [];
  });
}

/** The columns of the line of time that are marked. */
function marks() {
  const canvas = document.querySelector("canvas");
  if (!canvas.width) return { width: 0, columns: [] };
  const row = canvas.getContext("2d").getImageData(0, 15, canvas.width, 1).data;
  return { width: canvas.width, columns: [...Array(canvas.width).keys()].filter(it => row[4 * it + 3]) };
}

async function tryText({ text, frames, drop, keys, more }) {
  choose("29.97", true);
  const since = performance.now();
  await give(text, drop);
  const [took, at] = [performance.now() - since, []];
  for (const frame of frames) {
    goTo(frame);
    at.push(drawn());
  }
  const answer = { took, fault: page.fault.textContent, at, keys: keys.map(it => key(it)), marks: marks(), list: listed() };
  if (more) answer.more = await { codes, starts, saves, searches, unrated, films, clicks, plays, losses }[more[0]](more[1]);
  return { ...answer, rooms: rooms() };
}

addEventListener("load", async () => {
  const answers = [{ rooms: rooms() }];
  for (const text of TEXTS) answers.push(await tryText(text));
  const answer = document.createElement("pre");
  answer.id = "answer";
  answer.textContent = JSON.stringify(answers);
  document.body.append(answer);
});
"""


def run_page(script, *options):
    """What Chromium prints of the page with a script behind it."""
    with tempfile.TemporaryDirectory() as folder:
        page = pathlib.Path(folder, "page.html")
        page.write_text((HERE / "viewer.html").read_text().replace("</body>", f"<script>{script}</script></body>"))
        words = [CHROMIUM, "--headless", "--no-sandbox", "--disable-gpu", "--virtual-time-budget=60000", f"--user-data-dir={folder}/home"]
        ran = subprocess.run([*words, *options, page.as_uri()], capture_output=True, text=True, timeout=300)
        return ran.stdout


class Browser:
    """A Chromium in real time, in which a video is decoded: it takes commands over a pipe, each a JSON text with 00 at its end."""

    def __init__(self, page, folder):
        (taken, self.given), (self.taken, given) = os.pipe(), os.pipe()
        words = [CHROMIUM, "--headless", "--no-sandbox", "--disable-gpu", "--remote-debugging-pipe", f"--user-data-dir={folder}/home", page.as_uri()]
        script = f"exec {shlex.join(words)} 3<&{taken} 4>&{given}"
        self.process = subprocess.Popen(["bash", "-c", script], pass_fds=(taken, given), stderr=subprocess.DEVNULL)
        os.close(taken)
        os.close(given)
        self.number, self.read = 0, b""

    def tell(self, method, session=None, **parameters):
        """The answer to a command."""
        self.number += 1
        command = {"id": self.number, "method": method, "params": parameters} | ({"sessionId": session} if session else {})
        os.write(self.given, json.dumps(command).encode() + b"\0")
        while True:
            while b"\0" not in self.read:
                self.read += os.read(self.taken, 1 << 16) or sys.exit("Chromium ended")
            answer, self.read = self.read.split(b"\0", 1)
            if json.loads(answer).get("id") == self.number:
                return json.loads(answer)["result"]

    def page(self):
        """The session of the page, when its functions are there."""
        session = None
        while not session or self.run("typeof films", session) != "function":
            time.sleep(0.1)
            pages = [it for it in self.tell("Target.getTargets")["targetInfos"] if it["type"] == "page" and it["url"].startswith("file:")]
            if pages and not session:
                session = self.tell("Target.attachToTarget", targetId=pages[0]["targetId"], flatten=True)["sessionId"]
        return session

    def run(self, script, session):
        """What a script of the page answers."""
        answer = self.tell("Runtime.evaluate", session, expression=script, awaitPromise=True, returnByValue=True)
        assert "exceptionDetails" not in answer, answer
        return answer["result"].get("value")


def show_live(text, more):
    """What the page answers of a text in real time: the name of a function of SCRIPT, and what it is given."""
    with tempfile.TemporaryDirectory() as folder:
        page = pathlib.Path(folder, "page.html")
        page.write_text((HERE / "viewer.html").read_text().replace("</body>", f"<script>{SCRIPT % '[]'}</script></body>"))
        browser = Browser(page, folder)
        session = browser.page()
        opened = f'choose("29.97", true); open(Uint8Array.from(atob("{base64.b64encode(text).decode()}"), it => it.charCodeAt(0)));'
        answer = browser.run(f"{opened} {more[0]}({json.dumps(more[1])})", session)
        browser.tell("Browser.close")
        browser.process.wait()
        return answer


def show(texts):
    """The page's answer for each text."""
    given = [{**it, "text": base64.b64encode(it["text"]).decode()} for it in texts]
    found = re.search(r'<pre id="answer">(.*?)</pre>', run_page(SCRIPT % json.dumps(given), "--dump-dom"), re.S)
    return json.loads(html.unescape(found[1]))


# The text, read a second time. A screen is a list of cells, (row, column, letter, pen); a service's is a list of windows.

def runs_of(lines, count, fields):
    cells = []
    for _ in range(count):
        row, col, *pen, text = lines.pop(0).split(" ", 2 + fields)
        cells += [(int(row), int(col) + step, letter, pen) for step, letter in enumerate(text)]
    return cells


def screen_of(lines):
    name, count = lines.pop(0).split()
    if name.startswith("CC"):
        return name, runs_of(lines, int(count), 1)
    windows = []
    for _ in range(int(count)):
        head = lines.pop(0).split()
        windows.append((head, runs_of(lines, int(head[-1]), 10)))
    return name, windows


def changes_of(text):
    """Each frame that changes with all screens from then on, and the number of frames."""
    lines, screens, changes, frames, lost = text.decode().split("\n")[:-1], {}, [], None, 0
    while lines:
        word, number, *_ = lines.pop(0).split()
        if word == "lost":
            lost += int(number)
            continue
        if word == "frames":
            frames = int(number) + lost
            continue
        while lines and lines[0][0] in "CS":
            name, screen = screen_of(lines)
            screens = {**screens, name: screen}
        changes.append((int(number), screens))
    return changes, frames


COLOURS = {
    "white": (255, 255, 255), "green": (0, 255, 0), "blue": (0, 0, 255), "cyan": (0, 255, 255), "red": (255, 0, 0),
    "yellow": (255, 255, 0), "magenta": (255, 0, 255),
}


def css(red, green, blue, opacity=1):
    return f"rgb({red}, {green}, {blue})" if opacity == 1 else f"rgba({red}, {green}, {blue}, {opacity})"


def css_of_digits(digits):
    """A colour of DTVCC: its opacity, then red, green and blue in thirds."""
    opacity = {"0": 1, "1": 1, "2": 0.5, "3": 0}[digits[0]]
    return css(*(85 * int(it) for it in digits[1:]), opacity)


def close(one, other):
    return all(abs(a - b) < 0.002 for a, b in zip(one, other, strict=True))


def check_cells(where, drawn, cells, style_of, box_of):
    assert len(drawn) == len(cells), f"{where}: {len(drawn)} cells are drawn and {len(cells)} are in the text"
    for cell, (row, col, letter, pen) in zip(drawn, cells):
        here = f"{where}, row {row} column {col}"
        seen = [cell[it] for it in ("row", "col", "letter", "colour", "background", "italic", "underline")]
        assert seen == [row, col, letter, *style_of(pen)], f"{here}: {seen}"
        assert close(cell["box"], box_of(row, col)), f"{here}: {cell['box']}"


def style_of_line21(pen):
    colour, *marks = pen[0].split("-")
    return css(*COLOURS[colour]), css(0, 0, 0), "i" in marks, "u" in marks


def style_of_window(pen):
    _size, _font, _tag, _offset, italic, underline, _edge, front, back, _edge_colour = pen
    return css_of_digits(front), css_of_digits(back), italic == "1", underline == "1"


def check_service(where, drawn, windows):
    assert [it["id"] for it in drawn] == [int(head[0][1:]) for head, _ in windows], where
    for window, (head, cells) in zip(drawn, windows):
        rows, cols = int(head[7]), int(head[8])
        left, top, width, height = window["box"]
        assert window["fill"] == css_of_digits(head[head.index("fill") + 1]), f"{where}: {window['fill']}"
        assert window["before"] == 8 - int(head[head.index("pri") + 1]), where
        assert window["label"] == f"{where.split()[-1]} {head[0]}", f"{where}: {window['label']}"
        # A character takes 5 by 5 of the grid of 75 lines by 210 columns.
        assert close((width, height), (cols * 5 / 210, rows * 5 / 75)), f"{where}: {window['box']}"
        box_of = lambda row, col: (left + col * 5 / 210, top + row * 5 / 75, 5 / 210, 5 / 75)
        check_cells(f"{where} {head[0]}", window["cells"], cells, style_of_window, box_of)


def check_screens(where, drawn, screens):
    for name, found in drawn.items():
        wanted = screens.get(name, [])
        if name.startswith("CC"):
            check_cells(f"{where} {name}", found, wanted, style_of_line21, lambda row, col: (col / 32, (row - 1) / 15, 1 / 32, 1 / 15))
        else:
            check_service(f"{where} {name}", found, wanted)
    assert set(screens) <= set(drawn), where


def frames_of(text):
    """The frames that change, the one before each, and the last."""
    changes, frames = changes_of(text)
    wanted = {it for frame, _ in changes for it in (frame - 1, frame)} | {(frames or 1) - 1}
    first = 0 if frames is not None else changes[0][0]
    return sorted(it for it in wanted if it >= first)


def check_text(name, text, answer):
    changes, frames = changes_of(text)
    assert answer["fault"] == "", f"{name}: {answer['fault']}"
    for frame, drawn in zip(frames_of(text), answer["at"], strict=True):
        screens = next((screens for changed, screens in reversed(changes) if changed <= frame), {})
        check_screens(f"{name}, frame {frame}", drawn, screens)
    if frames is not None:
        width = answer["marks"]["width"]
        wanted = {int(frame / (frames - 1) * (width - 1) + 0.5) for frame, _ in changes}
        assert set(answer["marks"]["columns"]) == wanted, f"{name}: the line of time has {answer['marks']}"
    cells = sum(len(found) if screen.startswith("CC") else sum(len(it["cells"]) for it in found)
                for drawn in answer["at"] for screen, found in drawn.items())
    print(f"{name}: {len(changes)} frames change, {cells} cells drawn as the text says")


# Where the windows of windows.txt have their top left corners at frame 90, on the grid of 75 lines by 210 columns: (service, window, left, top).
CORNERS = [
    ("S1", 0, 10, 10), ("S1", 1, 95, 10), ("S1", 2, 185, 10),
    ("S1", 3, 10, 32), ("S1", 4, 92.5, 29.5), ("S1", 5, 180, 32),
    ("S1", 6, 10, 65), ("S1", 7, 80, 57.5), ("S63", 5, 175, 65),
]


def check_corners(answer):
    drawn = answer["at"][frames_of((HERE / "windows.txt").read_bytes()).index(90)]
    for service, number, left, top in CORNERS:
        box = next(it["box"] for it in drawn[service] if it["id"] == number)
        assert close(box[:2], (left / 210, top / 75)), f"{service} W{number}: {box}"
    print(f"windows.txt: {len(CORNERS)} windows stand at their anchors")


# Texts that are none, each with the line that is named and a word of what is said of it.
HELLO = b"frame 7\nCC1 1\n15 0 white HI\nframe 20\nCC1 0\nframes 30\n"
UNREAD = [
    (HELLO.replace(b"frame 7", b"frame 07"), 1, "frame F"),
    (HELLO.replace(b"CC1 1", b"CC1 2"), 4, "a run"),
    (HELLO.replace(b"CC1 1", b"CC5 1"), 2, "frame F"),
    (HELLO.replace(b"15 0", b"16 0"), 3, "the row"),
    (HELLO.replace(b"15 0", b"15 31"), 3, "32 columns"),
    (HELLO.replace(b"white", b"black"), 3, "a run"),
    (HELLO.replace(b"frame 20", b"frame 7"), 4, "frames rise"),
    (HELLO.replace(b"frames 30", b"frames 13"), 6, "14 frames came"),
    (HELLO.replace(b"frame 20", b"lost 12 before 20\nframe 20").replace(b"30", b"1"), 7, "2 frames came"),
    (HELLO.replace(b"frame 20", b"lost 0 before 20\nframe 20"), 4, "1 to 65,535"),
    (HELLO.replace(b"frame 20", b"lost 13 before 20\nframe 20"), 4, "stand behind"),
    (HELLO.replace(b"frame 20", b"lost 3 before 21\nframe 20"), 5, "frames rise"),
    (HELLO.replace(b"frame 20", b"lost 3 before 12\nlost 1 before 13\nframe 20"), 5, "stand behind"),
    (b"lost 5 before 5\nframes 1\n", 1, "stand behind"),
    (HELLO + b"\n", 7, "the last line"),
    (HELLO[:-1], 6, "no end"),
    (HELLO.replace(b"HI", b"H\xff"), 3, "UTF-8"),
    (b"frame 7\nCC3 0\nCC1 0\n", 3, "the order"),
    (b"frame 0\nCC1 2\n15 0 white AB\n15 1 white C\n", 4, "behind"),
    (b"frame 0\nS64 0\n", 2, "frame F"),
    (b"frame 0\nS1 1\n0 0 1 0 0 1 0 0 0 0222 0000 000 A\n", 3, "a window"),
    (b"frame 0\nS1 1\nW0 at 0 60 50 0 size 17 10 lock 1 1 pri 0 attr 0 0 3 0 0 0 0 fill 0000 border 0000 runs 0\n", 3, "16 rows"),
    (b"frame 0\nS1 1\nW0 at 0 60 50 0 size 1 1 lock 1 1 pri 0 attr 0 0 3 0 0 0 0 fill 0000 border 0000 runs 1\n"
     b"0 0 1 0 0 1 0 0 0 0222 0000 000 AB\n", 4, "1 columns"),
    (b"ccsuite,1,29.97,30\n", 1, "frame F"),
]


def check_unread(answers):
    for (text, line, word), answer in zip(UNREAD, answers, strict=True):
        said = answer["fault"]
        assert said.startswith(f"Not read: line {line}: ") and word in said, f"{text}: {said}"
    print(f"{len(UNREAD)} texts that are none: the line is named")


# Keys on HELLO from frame 29 on, each with the frame that it leads to.
KEYS = [
    ("Home", 0), ("ArrowLeft", 0), ("ArrowRight", 1), (".", 7), (".", 20), (".", 20), (",", 7), ("ArrowLeft", 6), (",", 6), ("End", 29),
    ("ArrowRight", 29), (",", 20),
]


# The captions of examples at 29.97 with drop frame: channel or service, window, first time and frame, time and frame of the end, text.
CAPTIONS = {
    "programme.csv": [
        ["CC1", "00:00:03;00", "90", "00:00:08;00", "240", "THE COUNCIL VOTED LATE ON MONDAY / TO REOPEN THE NORTH BRIDGES."],
        ["CC1", "00:00:10;00", "300", "00:00:15;00", "450", "ENGINEERS FOUND NO NEW CRACKS / (applause)"],
        ["CC3", "00:00:16;26", "506", "00:00:18;07", "547", ">> GOOD EVENING"],
        ["CC3", "00:00:18;07", "547", "00:00:26;20", "800", ">> GOOD EVENING / AND WELCOME."],
    ],
    "windows.csv": [
        ["S1", "W0", "00:00:02;00", "60", "00:00:08;00", "240", ">> GOOD EVENING. THE BRIDGES / ARE open AGAIN."],
        ["S1", "W1", "00:00:04;00", "120", "00:00:16;00", "480", "ROAD REPORT / NORTH AND SOUTH"],
        ["S1", "W2", "00:00:08;00", "240", "00:00:13;10", "400", "♪ (traffic passes) ♪"],
        ["S1", "W0", "00:00:13;10", "400", "00:00:18;00", "540", "ENGINEERS: “NO NEW CRACKS / IN ANY PIER…”"],
        ["S2", "W0", "00:00:02;00", "60", "00:00:08;00", "240", ">> BUENAS NOCHES. ¿LISTOS / PARA CRUZAR?"],
        ["S2", "W1", "00:00:08;00", "240", "00:00:13;10", "400", "♪ (pasa el tráfico) ♪"],
        ["S2", "W0", "00:00:14;00", "420", "00:00:18;20", "560", "LOS INGENIEROS: NINGUNA / GRIETA NUEVA."],
    ],
}
# Two letters a frame, one of them an extended character over the letter before it; then letters that are shown as a whole. The text ends open.
WRITTEN = (
    "frame 10\nCC2 1\n15 0 white A\nframe 11\nCC2 1\n15 0 white Á\nframe 13\nCC2 1\n15 0 white Á B\nframe 60\nCC2 0\n"
    "frame 100\nCC2 1\n15 0 white 3\nframe 130\nCC2 1\n15 0 white 2\nframe 160\nCC2 1\n15 0 white 2 GO\n"
).encode()
CAPTIONS_WRITTEN = [
    ["CC2", "00:00:00;10", "10", "00:00:02;00", "60", "Á B"], ["CC2", "00:00:03;10", "100", "00:00:04;10", "130", "3"],
    ["CC2", "00:00:04;10", "130", "00:00:05;10", "160", "2"], ["CC2", "00:00:05;10", "160", "", "2 GO"],
]


# What `conceal` tells of words with lost frames, and of words without that begin in the middle of a programme: frame 31,300 is the last of 900.
LOSSES = (
    "frame 7\nCC1 1\n15 0 white HI\nlost 3 before 15\nframe 15\nCC1 0\nlost 1 before 24\nframes 26\n"
).encode()
LISTED_LOSSES = [
    ["CC1", "00:00:00;07", "7", "00:00:00;15", "15", "HI"],
    ["Lost", "00:00:00;12", "12", "00:00:00;15", "15", "3 frames lost"], ["Lost", "00:00:00;23", "23", "00:00:00;24", "24", "1 frame lost"],
]
LOST_AT = [[12, "3 frames lost"], [13, "3 frames lost"], [14, "3 frames lost"], [23, "1 frame lost"]]
FROM_THE_MIDDLE = HELLO.replace(b"frame 7", b"frame 31290").replace(b"frame 20", b"frame 31300").replace(b"frames 30", b"frames 900")
ENDS_OF_IT = [("Home", 30401), ("End", 31300), (",", 31290), ("Home", 30401)]


def check_list(name, answer, wanted):
    rows = [row[:-1] for row in answer["list"]]
    assert rows == wanted, f"{name}: {rows}"


# Frames with their time codes: rate, drop frame, frame, code.
CODES = [
    ("29.97", True, 0, "00:00:00;00"), ("29.97", True, 1799, "00:00:59;29"), ("29.97", True, 1800, "00:01:00;02"),
    ("29.97", True, 17981, "00:09:59;29"), ("29.97", True, 17982, "00:10:00;00"), ("29.97", True, 107892, "01:00:00;00"),
    ("29.97", True, 2589407, "23:59:59;29"), ("29.97", True, 2589408, "00:00:00;00"), ("29.97", False, 1800, "00:01:00:00"),
    ("29.97", False, 107892, "00:59:56:12"), ("30", True, 1800, "00:01:00:00"), ("59.94", True, 3599, "00:00:59;59"),
    ("59.94", True, 3600, "00:01:00;04"), ("59.94", True, 35964, "00:10:00;00"), ("59.94", False, 3600, "00:01:00:00"),
    ("60", True, 215999, "00:59:59:59"), ("23.976", True, 1440, "00:01:00:00"), ("24", True, 86399, "00:59:59:23"),
    ("25", True, 90000, "01:00:00:00"), ("50", True, 49, "00:00:00:49"),
]
# The same with the time code of frame 0, and whether it is one.
STARTS = [
    ("29.97", True, "01:00:00;00", 1800, "01:01:00;02", True), ("29.97", True, "00:59:59:29", 1, "01:00:00;00", True),
    ("29.97", False, "00:59:59:29", 1, "01:00:00:00", True), ("29.97", True, "00:01:00;00", 1, "", False),
    ("29.97", True, "00:10:00;00", 1800, "00:11:00;02", True), ("29.97", False, "00:01:00:00", 1, "00:01:00:01", True),
    ("25", True, "10:00:00:00", 1500, "10:01:00:00", True), ("25", True, "23:59:59:24", 1, "00:00:00:00", True),
    ("25", True, "10:00:00:25", 1, "", False), ("59.94", True, "00:01:00;03", 1, "", False), ("59.94", True, "00:01:00;04", 1, "00:01:00;05", True),
    ("30", True, "24:00:00:00", 1, "", False), ("30", True, "9:00:00:00", 1, "", False),
]
# The subtitles of the realistic programme: a frame's time is its number times 1,001 / 30,000 seconds.
SAVED = [
    ["CC1.srt", "1\n00:00:03,003 --> 00:00:08,008\nTHE COUNCIL VOTED LATE ON MONDAY\nTO REOPEN THE NORTH BRIDGES.\n\n"
                "2\n00:00:10,010 --> 00:00:15,015\nENGINEERS FOUND NO NEW CRACKS\n(applause)\n\n"],
    ["CC3.srt", "1\n00:00:16,884 --> 00:00:18,252\n>> GOOD EVENING\n\n2\n00:00:18,252 --> 00:00:26,693\n>> GOOD EVENING\nAND WELCOME.\n\n"],
]
# What is searched in it: the texts that are left, what is told, and the frames that the key Enter leads to.
SEARCHED = [
    ("good", [">> GOOD EVENING", ">> GOOD EVENING / AND WELCOME."], "2 of 4", 506, 547), ("(APPL", ["ENGINEERS FOUND NO NEW CRACKS / (applause)"], "1 of 4", 300, 300),
    ("xyz", [], "0 of 4", 0, 0), ("", [it[5] for it in CAPTIONS["programme.csv"]], "", 90, 300),
]
# A rate, the frame to play from, and how; and the frames that a second has.
PLAYS = [("29.97", 0, "Space", 30000 / 1001), ("59.94", 100, "Space", 60000 / 1001), ("25", 200, "the button", 25)]


def check_plays(answer):
    *played, on_the_list = answer
    for (rate, frame, by, second), (frames, seconds, label, has_stopped) in zip(PLAYS, played, strict=True):
        assert abs(frames - seconds * second) < 3 and label == "Stop" and has_stopped, f"{rate} from {frame} by {by}: {frames} frames in {seconds} s"
    assert on_the_list == "Play", "the space key plays where it opens the list of rates"
    print(f"{len(PLAYS)} rates play in real time: {', '.join(f'{it[0]} frames in {it[1]:.2f} s' for it in played)}")


# What takes room, with texts that have little; at 30 frames a second there is no drop frame.
ROOMS = [
    (b"", []), (b"frames 30\n", ["controls", "play", "dropping"]), (b"frame 07\n", ["fault"]),
    (b"frame 7\nCC1 1\n15 0 white HI\n", ["controls", "dropping", "time", "shown", "captions"]),
    (HELLO, ["controls", "play", "dropping", "time", "shown", "captions"]),
]
UNRATED = ["controls", "time", "shown", "captions"]
ROOMS_AT_30 = ["controls", "play", "time", "shown", "captions"]


def words_of(program, name):
    return subprocess.run([program, "build"], input=(EXAMPLES / name).read_bytes(), capture_output=True, check=True).stdout


def decoded(program, name):
    return subprocess.run([program, "decode"], input=words_of(program, name), capture_output=True, check=True).stdout


def check_hand(texts, ask):
    """What a hand does: keys, clicks, a rate, playing; and what takes room."""
    _, keys, written, lost, middle, codes, clicks, plays = show([
        ask(HELLO, [29], True, [it for it, _ in KEYS]), ask(WRITTEN, [131]),
        ask(LOSSES, more=["losses", 30]), ask(FROM_THE_MIDDLE, keys=[it for it, _ in ENDS_OF_IT]), ask(b"frames 3000000\n", more=["codes", CODES]),
        ask(texts["windows.csv"], more=["clicks", None]), ask(b"frames 1000\n", more=["plays", PLAYS]),
    ])
    assert keys["keys"] == [it for _, it in KEYS], keys["keys"]
    print(f"{len(KEYS)} keys lead to their frames")
    check_list("written", written, CAPTIONS_WRITTEN)
    assert [row[-1] for row in written["list"]] == ["", "", "now", ""], written["list"]
    print(f"{sum(map(len, CAPTIONS.values())) + len(CAPTIONS_WRITTEN)} captions are listed with their times, and the one that is seen is marked")
    assert codes["more"] == [it[3] for it in CODES], codes["more"]
    print(f"{len(CODES)} frames have their time codes")
    assert clicks["more"] == [[int(row[3]) for row in CAPTIONS["windows.csv"]]] * 2, clicks["more"]
    print(f"{len(clicks['more'][0])} rows lead to their frames, by a click and by a key")
    check_plays(plays["more"])
    assert lost["more"] == LOST_AT, lost["more"]
    check_list("with lost frames", lost, LISTED_LOSSES)
    assert middle["keys"] == [it for _, it in ENDS_OF_IT], middle["keys"]
    print(f"{len(LOST_AT)} frames are lost, and told so; words from the middle of a programme are shown at their numbers")
    _, starts, saves, searches, unrated = show([
        ask(HELLO.replace(b"frames 30", b"frames 100000"), more=["starts", [it[:4] for it in STARTS]]), ask(texts["programme.csv"], more=["saves", None]),
        ask(texts["programme.csv"], more=["searches", [it[0] for it in SEARCHED]]), ask(HELLO, more=["unrated", None]),
    ])
    told = [(code, valid) for code, _, valid in starts["more"]]
    assert told == [it[4:] for it in STARTS], told
    assert all((row != "7") == valid for _, row, valid in starts["more"]), starts["more"]
    assert saves["more"] == SAVED, saves["more"]
    assert [tuple(it) for it in searches["more"]] == [it[1:] for it in SEARCHED], searches["more"]
    assert unrated["more"] == [[["CC1", "7", "20", "HI", "now"]], "", "of 30 frames; 2 change, the last one up to here is 7", UNRATED], unrated["more"]
    print(f"{len(STARTS)} time codes of frame 0 are followed or refused; {len(SAVED)} files of subtitles are saved; {len(SEARCHED)} texts are searched")
    *rooms, at_30 = show([*(ask(text) for text, _ in ROOMS), ask(HELLO, more=["codes", [["30", True, 0]]])])
    wanted = [[], *(it for _, it in ROOMS), ROOMS_AT_30]
    assert [it["rooms"] for it in (*rooms, at_30)] == wanted, [it["rooms"] for it in (*rooms, at_30)]
    print(f"{len(wanted)} pages: what they don't use takes no room")


def check_film():
    """A video of 60 pictures with B pictures: picture n has the brightness 16 + 3 n of luma, which is 1.164 times 3 n on a screen."""
    if not shutil.which("ffmpeg"):
        print("ffmpeg isn't installed: no video was opened")
        return
    with tempfile.TemporaryDirectory() as folder:
        film = pathlib.Path(folder, "film.mp4")
        pictures = ["-f", "lavfi", "-i", "color=size=64x48:rate=30000/1001,format=yuv420p,geq=lum='16+3*N':cb=128:cr=128", "-frames:v", "60"]
        coder = ["-c:v", "libx264", "-qp", "4", "-x264-params", "b-adapt=0:bframes=3:keyint=30", film]
        subprocess.run(["ffmpeg", "-v", "error", *pictures, *coder], check=True)
        text = base64.b64encode(film.read_bytes()).decode()
    frames = [0, 1, 2, 29, 30, 31, 58, 59, 12, 11, 10]
    answer = show_live(HELLO.replace(b"frames 30", b"frames 60"), ["films", {"film": text, "frames": frames}])
    assert answer["size"] == [64, 48] and not answer["fault"], answer
    seen = [round(it / 1.164 / 3) for it in answer["at"]]
    assert seen == frames, f"{seen} and not {frames}"
    assert answer["played"] and all(abs(round(light / 1.164 / 3) - frame) < 1 for frame, light in answer["played"]), answer["played"]
    print(f"{len(frames)} frames have their pictures of a video below the captions")


def check_long(ask):
    """A text of 20,000 captions with a loss behind every second one, which is opened in seconds."""
    captions = (f"frame {100 * it}\nCC1 1\n15 0 white CAPTION {it}\nframe {100 * it + 60}\nCC1 0\n" for it in range(20000))
    text = "".join(it + f"lost 3 before {100 * place + 70}\n" * (place % 2) for place, it in enumerate(captions))
    _, answer = show([ask(text.encode() + b"frames 2000000\n")])
    assert len(answer["list"]) == 30000 and answer["took"] < 10000, f"{len(answer['list'])} rows in {answer['took']} ms"
    print(f"20,000 captions and 10,000 losses are opened in {answer['took'] / 1000:.1f} s")


def main():
    if not CHROMIUM:
        print("no Chromium is installed: the viewer wasn't tried")
        return
    program = str(pathlib.Path(sys.argv[1]).resolve())
    texts = {it.name: decoded(program, it.name) for it in sorted(EXAMPLES.glob("*.csv")) if it.name != "packets.csv"}
    shown = subprocess.run([program, "show", "12"], input=words_of(program, "hello.csv"), capture_output=True, check=True).stdout
    whole = words_of(program, "programme.csv")
    concealed = subprocess.run([program, "conceal"], input=whole[:160 * 40] + whole[160 * 42:], capture_output=True, check=True).stdout
    texts |= {"windows.txt": (HERE / "windows.txt").read_bytes(), "show 12": shown, "programme.csv without frames 40 and 41": concealed}
    ask = lambda text, frames=(), drop=False, keys=(), more=None: {"text": text, "frames": frames, "drop": drop, "keys": keys, "more": more}
    _, *answers = show([ask(text, frames_of(text), place % 2 == 1) for place, text in enumerate(texts.values())])
    for (name, text), answer in zip(texts.items(), answers, strict=True):
        check_text(name, text, answer)
        if name == "windows.txt":
            check_corners(answer)
        if name in CAPTIONS:
            check_list(name, answer, CAPTIONS[name])
    check_unread(show([ask(text) for text, _, _ in UNREAD])[1:])
    check_hand(texts, ask)
    check_film()
    check_long(ask)
    if len(sys.argv) > 2:
        text = base64.b64encode(texts["programme.csv"]).decode()
        chosen = 'page.rate.value = "29.97"; page.start.value = "01:00:00;00";'
        script = f'{chosen} open(Uint8Array.from(atob("{text}"), it => it.charCodeAt(0))); go(555);'
        run_page(script, f"--screenshot={pathlib.Path(sys.argv[2]).resolve()}", "--window-size=1280,640")


if __name__ == "__main__":
    main()
