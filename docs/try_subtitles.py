#!/usr/bin/env python3
"""Tries examples/subtitles.py on files as they come: try_subtitles.py PROGRAM

Each file has what it is to give beside it, worked out by hand: the list, and what is told in standard error. Each list is also built by PROGRAM and
verified.
"""

import os
import pathlib
import random
import subprocess
import sys
import tempfile

SCRIPT = pathlib.Path(__file__).resolve().parent.parent / "examples" / "subtitles.py"
PYTHON = "/usr/bin/python3"
COUNCIL = "The council voted late on Monday to reopen the north bridges."


def srt(*subtitles):
    """An SRT file of subtitles, each its times and its text: the times of the first stand in line 2."""
    blocks = [f"{number}\n00:00:{start} --> 00:00:{end}\n{text}\n\n" for number, (start, end, text) in enumerate(subtitles, 1)]
    return "".join(blocks)


# Lists, at 30 frames a second if the words don't say another rate: what it is, words, text, standard error, the records below the first one.
LISTS = [
    ("one subtitle", "", srt(("02,000", "04,500", "Hello.")), "", """\
pop,CC1,0,60,135
run,15,13,white,Hello.
"""),
    ("a channel, a window, and another row", "--on CC3,S2 --row 13", srt(("02,000", "04,500", "Hello.")), "", """\
share,2,31
pop,CC3,0,60,135
run,13,13,white,Hello.
win,2,0,0,60,135,0,7,64,105,1,6,0,1,1
run,0,0,plain,Hello.
"""),
    # Field 2 has its slots in frames with an odd number: of 119.88 and 269.73 the nearest ones.
    ("field 2 at 59.94", "--on CC3 --rate 59.94", srt(("02,000", "04,500", "Hello.")), "", """\
pop,CC3,0,119,269
run,15,13,white,Hello.
"""),
    ("three services", "--on S1 --on S2 --on S3", srt(("02,000", "04,500", "A")), "", """\
share,1,10
share,2,10
share,3,10
win,1,0,0,60,135,0,7,74,105,1,1,0,1,1
run,0,0,plain,A
win,2,0,0,60,135,0,7,74,105,1,1,0,1,1
run,0,0,plain,A
win,3,0,0,60,135,0,7,74,105,1,1,0,1,1
run,0,0,plain,A
"""),
    ("lines longer than 32 columns, a word that is, and lines that are broken together", "",
     srt(("02,000", "04,000", COUNCIL), ("05,000", "09,000", "x" * 40), ("10,000", "13,000", "Little for time know being those like both\nthrough."),
         ("15,000", "18,000", "- Little for time know being those like both\n- Through.")), "", f"""\
pop,CC1,0,60,120
run,14,0,white,The council voted late on Monday
run,15,0,white,to reopen the north bridges.
pop,CC1,60,150,270
run,14,0,white,{"x" * 32}
run,15,0,white,{"x" * 8}
pop,CC1,150,300,390
run,14,3,white,Little for time know being
run,15,3,white,those like both through.
pop,CC1,300,450,540
run,13,5,white,- Little for time know
run,14,5,white,being those like both
run,15,5,white,- Through.
"""),
    ("a byte order mark, CR LF, and a line of spaces in a caption", "",
     "\ufeff" + srt(("02,000", "04,000", "- Ready?\n  \n- Ready.")).replace("\n", "\r\n"), "", """\
pop,CC1,0,60,120
run,14,12,white,- Ready?
run,15,12,white,- Ready.
"""),
    ("an empty line in a caption, and none between two", "", "1\n00:00:02,000 --> 00:00:03,000\nA\n\nB\n" + srt(("04,000", "05,000", "C")), "", """\
pop,CC1,0,60,90
run,14,15,white,A
run,15,15,white,B
pop,CC1,60,120,150
run,15,15,white,C
"""),
    ("tags", "--on CC1,S1",
     srt(("02,000", "04,000", '{\\an8}<font color="#ffff00">Is <i>this</i> <b>it</b>?</font>'),
         ("05,000", "07,000", 'A <u>b</u> "<i>c d</i>" e')), """\
FILE line 2: <b> isn't kept
FILE line 2: italics of text in a colour aren't kept on line 21
""", """\
share,1,31
pop,CC1,0,60,120
run,1,10,yellow,Is this it?
win,1,0,0,60,120,0,1,0,105,1,11,0,1,1
run,0,0,plain,Is\x20
colour,0330,0000,000
run,0,3,plain-i,this\x20
colour,0330,0000,000
run,0,8,plain,it?
colour,0330,0000,000
pop,CC1,60,150,210
run,15,10,white,A\x20
run,15,12,white-u,b
run,15,14,white-i,\"\"\"c d\"\" \"
run,15,20,white,e
win,1,1,60,150,210,0,7,74,105,1,11,0,1,1
run,0,0,plain,A\x20
run,0,2,plain-u,b
run,0,3,plain,\" \"\"\"
run,0,5,plain-i,c d
run,0,8,plain,\"\"\" e\"
"""),
    ("colours", "", srt(("02,000", "04,000", '<font color="red">A <u>b</u></font> c <font color=#806000>d</font>'),
                        ("05,000", "07,000", '<font color="black">e</font> <font color="mauve" face="x">f</font> g'),
                        ("08,000", "10,000", '<font color="cyan">' + "h" * 32 + "</font>")), """\
FILE line 2: the colour #806000 is shown in yellow
FILE line 6: the colour “mauve” isn't known
FILE line 6: fonts and their sizes aren't kept
FILE line 6: black text is shown in white
""", f"""\
pop,CC1,0,60,120
run,15,12,red,A
run,15,14,red-u,b
run,15,15,white, c
run,15,18,yellow,d
pop,CC1,60,150,210
run,15,13,white,e f g
pop,CC1,150,240,300
run,15,0,cyan,{"h" * 32}
"""),
    ("places by the keys of a number pad, and two at once", "", srt(("02,000", "04,000", "{\\an7}A\nB"), ("05,000", "07,000", "{\\an6}C\nD"),
                                                                   ("08,000", "10,000", "{\\an8}E"), ("08,000", "10,000", "F{\\pos(1,2)}")), """\
FILE line 16: {\\pos} isn't kept
FILE line 16: subtitles that begin together are one caption
""", """\
pop,CC1,0,60,120
run,1,0,white,A
run,2,0,white,B
pop,CC1,60,150,210
run,8,31,white,C
run,9,31,white,D
pop,CC1,150,240,300
run,1,15,white,E
run,15,15,white,F
"""),
    ("WebVTT: identifiers, notes, entities, classes, voices, times in a text", "", """\
WEBVTT - a film

NOTE the first scene

opening
00:02.000 --> 00:04.000 line:0 align:start
<v Fred>Fish &amp; chips &lt;3

00:00:05.000 --> 00:00:07.000
<i.loud>Now</i>, <00:00:05.500><c>or</c> never
""", """\
FILE line 6: <v> isn't kept
FILE line 9: the class “loud” isn't kept
""", """\
pop,CC1,0,60,120
run,1,0,white,Fish & chips <3
pop,CC1,60,150,210
run,15,9,white-i,\"Now, \"
run,15,14,white,or never
"""),
    # Row 15 begins at 10 + 80 * 14 / 15 = 84.67 hundredths of the picture's height, and column 16 at 50 of its width.
    ("WebVTT: places and colours", "", """\
WEBVTT

STYLE
::cue { color: red }

00:02.000 --> 00:04.000 line:84.66% position:10% align:start
<c.lime>A</c>

00:05.000 --> 00:07.000 line:-3 position:90% align:end size:50%
BCD
E

00:08.000 --> 00:10.000 line:100%,end position:50%,line-left
<c.yellow.bg_blue>F
""", """\
FILE line 3: STYLE isn't kept
FILE line 9: size isn't kept
FILE line 13: the class “bg_blue” isn't kept
""", """\
pop,CC1,0,60,120
run,15,0,green,A
pop,CC1,60,150,210
run,12,29,white,BCD
run,13,31,white,E
pop,CC1,150,240,300
run,15,16,yellow,F
"""),
    ("characters that a system lacks, one of them of two code points", "--on CC1,S1 --replace",
     srt(("02,000", "04,000", "♫ Łódź – 5 € ♫"), ("05,000", "07,000", "e\u0301té œuvre 中")), """\
FILE line 2: CC1 has no “♫”, and shows “♪”
FILE line 2: CC1 has no “Ł”, and shows “L”
FILE line 2: CC1 has no “ź”, and shows “z”
FILE line 2: CC1 has no “–”, and shows “-”
FILE line 2: CC1 has no “€”, and shows “EUR”
FILE line 2: S1 has no “♫”, and shows “♪”
FILE line 2: S1 has no “Ł”, and shows “L”
FILE line 2: S1 has no “ź”, and shows “z”
FILE line 2: S1 has no “–”, and shows “-”
FILE line 2: S1 has no “€”, and shows “EUR”
FILE line 6: CC1 has no “œ”, and shows “oe”
FILE line 6: CC1 has no “中”, and shows “?”
FILE line 6: S1 has no “中”, and shows “?”
""", """\
share,1,31
pop,CC1,0,60,120
run,15,8,white,♪ Lódz - 5 EUR ♪
win,1,0,0,60,120,0,7,74,105,1,16,0,1,1
run,0,0,plain,♪ Lódz - 5 EUR ♪
pop,CC1,60,150,210
run,15,10,white,été oeuvre ?
win,1,1,60,150,210,0,7,74,105,1,11,0,1,1
run,0,0,plain,été œuvre ?
"""),
    ("subtitles that overlap, begin together or out of order, and two without a text", "",
     srt(("02,000", "05,000", "A"), ("04,000", "06,000", "B"), ("06,500", "06,900", "<i> </i>"), ("07,000", "07,900", ""), ("10,000", "11,000", "E"),
         ("08,000", "09,000", "C"), ("08,000", "09,980", "D")), """\
FILE line 2: a subtitle is hidden where the next one begins
FILE line 10: a subtitle has no text (2 subtitles in all)
FILE line 26: subtitles that begin together are one caption
""", """\
pop,CC1,0,60,120
run,15,15,white,A
pop,CC1,60,120,180
run,15,15,white,B
pop,CC1,120,240,300
run,14,15,white,C
run,15,15,white,D
pop,CC1,240,300,330
run,15,15,white,E
"""),
    ("shorter than two frames, and one that begins a frame later", "", srt(("02,000", "02,010", "A"), ("02,034", "03,000", "B"), ("04,000", "04,001", "C")),
     "FILE line 6: subtitles that begin together are one caption\n", """\
pop,CC1,0,60,90
run,14,15,white,A
run,15,15,white,B
pop,CC1,60,120,122
run,15,15,white,C
"""),
    ("Latin-1", "--encoding latin-1", srt(("02,000", "04,000", "été")).encode("latin-1"), "", """\
pop,CC1,0,60,120
run,15,14,white,été
"""),
    ("UTF-16", "", srt(("02,000", "04,000", "été")).encode("utf-16"), "", """\
pop,CC1,0,60,120
run,15,14,white,été
"""),
    # `one` is shown in the slots of frames 60 and 61, and erased in those of 72 and 73: 10 slots before this, and 28 after it, are for two control
    # codes, two preambles and 30 pairs.
    ("too little time", "", srt(("02,000", "02,400", "one"), ("02,700", "04,000", COUNCIL)),
     "FILE line 6: 1 of 2 captions are shown later than they say, at most 21 frames\n", """\
pop,CC1,0,60,72
run,15,14,white,one
pop,CC1,60,102,120
run,14,0,white,The council voted late on Monday
run,15,0,white,to reopen the north bridges.
"""),
    # Back to back nothing is erased, and the one before is hidden later: the 38 slots are those from frame 62 on.
    ("too little time, back to back", "", srt(("02,000", "02,700", "one"), ("02,700", "04,000", COUNCIL)),
     "FILE line 6: 1 of 2 captions are shown later than they say, at most 19 frames\n", """\
pop,CC1,0,60,100
run,15,14,white,one
pop,CC1,60,100,120
run,14,0,white,The council voted late on Monday
run,15,0,white,to reopen the north bridges.
"""),
]

# Files without a list: what it is, words, text, status, standard error.
REFUSED = [
    ("too dense", "--late 20", srt(("02,000", "02,400", "one"), ("02,700", "04,000", COUNCIL)), 8,
     f"FILE line 6: “{COUNCIL}”: it has no room up to 20 frames after its time: give it more time or less text, or a greater --late\n"),
    ("an end before its begin", "", srt(("02,000", "04,000", "A"), ("06,000", "05,000", "B")), 1,
     "FILE line 6: the subtitle ends before it begins: “00:00:06,000 --> 00:00:05,000”\n"),
    ("more rows than a screen has", "", srt(("05,000", "06,000", "A\n" * 16)), 1,
     "FILE line 2: the caption has more rows than the 15 of a screen: “" + " / ".join("A" * 16) + "”\n"),
    ("more rows than a window has", "--on S1", srt(("05,000", "06,000", "A\n" * 13)), 1,
     "FILE line 2: the caption has more rows than the 12 of a window: “" + " / ".join("A" * 13) + "”\n"),
    ("past the most frames", "", "WEBVTT\n\n10:00:00.000 --> 10:00:02.000\nA\n", 5, "FILE: limit Frames\n"),
    ("a time without milliseconds", "", srt(("02,000", "04,000", "A"), ("05", "06", "B")), 1,
     "FILE line 6: no times are read in “00:00:05 --> 00:00:06”\n"),
    ("no subtitles", "", "\nHello.\n", 1, "FILE line 2: “Hello.” is neither the number nor the times of a subtitle\n"),
    ("an empty file", "", "", 1, "FILE: no subtitle is read\n"),
    ("WebVTT without a cue", "", "WEBVTT\n", 1, "FILE: no subtitle is read\n"),
    ("Latin-1", "", srt(("02,000", "04,000", "été")).encode("latin-1"), 1,
     "FILE line 3: byte E9 isn't UTF-8; --encoding names another, as cp1252 or latin-1\n"),
    ("letters of another script", "", srt(("02,000", "04,000", "Hello."), ("05,000", "07,000", "Привет")), 1,
     "FILE line 6: CC1 has no letters like П в е и р т (CYRILLIC); --replace shows ? in their place\n"),
    ("four services", "--on S1,S2,S3,S4", srt(("02,000", "04,000", "A")), 1, "subtitles.py: at 30 frames a second there is room for 3 services\n"),
]
# Words that aren't taken, and the end of standard error.
USAGE = [
    ("--on CC2", "--on takes CC1, CC3 and S1 to S6, each once"), ("--on CC1,CC1", "--on takes CC1, CC3 and S1 to S6, each once"),
    ("--late 1001", "argument --late: 1001 isn't 0 to 1000"), ("--row 0", "argument --row: 0 isn't 1 to 15"),
    ("--encoding klingon", "--encoding: unknown encoding: klingon"),
]


def convert(folder, words, text):
    """The script's answer for a file: its status, the list and what is told, in which the file is FILE."""
    path = pathlib.Path(folder, "file")
    path.write_bytes(text if isinstance(text, bytes) else text.encode())
    home = {**os.environ, "PATH": f"{folder}:{os.environ['PATH']}"}
    ran = subprocess.run([PYTHON, SCRIPT, *words.split(), path], env=home, capture_output=True, timeout=300)
    return ran.returncode, ran.stdout.decode(), ran.stderr.decode().replace(str(path), "FILE")


def verified(folder, text):
    """The words of a list, which show what it says."""
    path = pathlib.Path(folder, "list.csv")
    path.write_text(text)
    words = subprocess.run([f"{folder}/ccsuite", "build"], input=path.read_bytes(), capture_output=True, check=True).stdout
    said = subprocess.run([f"{folder}/ccsuite", "verify", path], input=words, capture_output=True)
    assert said.stdout == b"ok\n", said
    return words


def try_lists(folder):
    for case, words, text, told, records in LISTS:
        status, listed, said = convert(folder, f"--rate 30 {words}", text)
        assert (status, said) == (0, told), f"{case}: status {status}\n{said}"
        head, *rest = listed.splitlines(keepends=True)
        assert head.startswith(f"ccsuite,2,{'59.94' if '59.94' in words else '30'},") and "".join(rest) == records, f"{case}:\n{listed}"
        verified(folder, listed)
    print(f"subtitles.py: {len(LISTS)} files give the lists that stand here")


def try_refused(folder):
    for case, words, text, status, told in REFUSED:
        answer = convert(folder, f"--rate 30 {words}", text)
        assert answer == (status, "", told), f"{case}: {answer}"
    for words, told in USAGE:
        status, listed, said = convert(folder, words, "")
        assert (status, listed) == (1, "") and said.endswith(f"{told}\n"), (words, said)
    ran = subprocess.run([PYTHON, SCRIPT, "/none.srt"], capture_output=True, text=True)
    assert (ran.returncode, ran.stderr) == (1, "/none.srt: No such file or directory\n"), ran
    ran = subprocess.run([PYTHON, SCRIPT], input=srt(("02,000", "04,000", "A")), env={"PATH": "/none"}, capture_output=True, text=True)
    assert (ran.returncode, ran.stderr) == (1, "subtitles.py: ccsuite isn't installed\n"), ran
    print(f"subtitles.py: {len(REFUSED)} files are refused, by their lines, and {len(USAGE)} words")


def time_of(milliseconds):
    return f"{milliseconds // 3600000:02}:{milliseconds // 60000 % 60:02}:{milliseconds // 1000 % 60:02},{milliseconds % 1000:03}"


# A rate, what a second is of 1,001 or 1,000 of its frames, and the frames between two slots of CC1.
RATES = [("29.97", 30000, 1001, 1), ("30", 30000, 1000, 1), ("59.94", 60000, 1001, 2), ("60", 60000, 1000, 2)]


def try_programme(folder, rate, above, below, step):
    """200 captions of two rows of 30 letters, each shown for 2.9 s, in ten minutes."""
    rows = [(f"{number:03} says: the north bridge is", f"open again, and so is road {number:03}") for number in range(200)]
    text = "".join(f"{number + 1}\n{time_of(2001 + 2984 * number)} --> {time_of(4905 + 2984 * number)}\n{one}\n{other}\n\n"
                   for number, (one, other) in enumerate(rows))
    status, listed, said = convert(folder, f"--rate {rate} --on CC1,S1", text)
    assert (status, said, listed.count("pop,CC1,"), listed.count("win,1,")) == (0, "", 200, 200), f"{rate}: status {status}\n{said}"
    words = verified(folder, listed)
    seen = subprocess.run([f"{folder}/ccsuite", "decode"], input=words, capture_output=True, check=True, text=False).stdout.decode()
    for number, (one, other) in enumerate(rows):
        show, hide = (round((2001 + 2984 * number + more) * above / below / 1000 / step) * step for more in (0, 2904))
        assert f"frame {show}\nCC1 2\n14 1 white {one}\n15 1 white {other}\nS1 1\nW{number % 8} at 0 74 105 7 size 2 30 " in seen, (rate, number)
        assert f"frame {hide}\nCC1 0\nS1 0\n" in seen, (rate, number)


def film(seed):
    """800 subtitles at 17 letters a second, each for 0.84 s at least, many of them with two frames of a film between them and the next one."""
    chance, at, blocks = random.Random(seed), 5000, []
    words = "the of and to in is you that it he was for on are with as his they at be this have from or one had by word but not what all were".split()
    for number in range(1, 801):
        text = " ".join(chance.choice(words) for _ in range(chance.randint(1, 18)))
        end = at + max(840, len(text) * 1000 // 17)
        blocks.append(f"{number}\n{time_of(at)} --> {time_of(end)}\n{text[:1].upper()}{text[1:]}.\n\n")
        at = end + (84 if chance.random() < 0.7 else chance.randint(200, 4000))
    return "".join(blocks)


def try_films(folder):
    """Whole films at an ordinary speed: what has no room is shown later, none of it by more than what --late says if nothing is said."""
    for seed in range(2):
        status, listed, said = convert(folder, "", film(seed))
        assert status == 0 and listed.count("pop,CC1,") == 800, f"status {status}\n{said}"
        verified(folder, listed)
    print("subtitles.py: two films of 800 subtitles at 17 letters a second give lists that are accepted")


def main():
    with tempfile.TemporaryDirectory() as folder:
        pathlib.Path(folder, "ccsuite").symlink_to(pathlib.Path(sys.argv[1]).resolve())
        try_lists(folder)
        try_refused(folder)
        for rate in RATES:
            try_programme(folder, *rate)
        print(f"subtitles.py: 200 captions in ten minutes at {len(RATES)} rates are shown at their frames")
        try_films(folder)


if __name__ == "__main__":
    main()
