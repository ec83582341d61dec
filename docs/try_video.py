#!/usr/bin/env python3
"""Tries examples/video.py on videos of ffmpeg's making: try_video.py PROGRAM

Words of lists go into H.264 and MPEG-2 with B pictures, in TS, MP4, MOV and MXF, and come out again: PROGRAM verifies them, ffmpeg reads the
captions that stand here, worked out by hand, and pictures and sound are as they were. Captions that others wrote come out too: those of x264,
of ffmpeg's MPEG-2 encoder, and of GStreamer's x264enc, and a track of SMPTE ST 436 by GStreamer's mxfmux. And what can't be done is refused. Where
ffmpeg or Debian's python3-gst-1.0 isn't installed, nothing is tried.
"""

import os
import pathlib
import re
import shutil
import subprocess
import sys
import tempfile

TOP = pathlib.Path(__file__).resolve().parent.parent
PYTHON = "/usr/bin/python3"
H264 = "-c:v libx264 -preset veryfast -x264-params b-adapt=0:bframes=3:keyint=48 -threads 2"
MPEG2 = "-c:v mpeg2video -b:v 1M -bf 2 -g 12"
INTERLACED = "-flags +ilme+ildct"

# Each list with its rate and its number of frames, and the videos that it goes into: more pictures than frames, a kind of file, a coder.
WAYS = [
    ("programme", "30000/1001", 900, [(3, "ts", H264), (0, "mp4", H264)]),
    ("windows", "30000/1001", 600, [(1, "mp4", H264), (0, "mxf", MPEG2), (0, "mov", f"{H264} {INTERLACED}")]),
    ("double_rate", "60000/1001", 60, [(0, "ts", H264), (7, "mp4", H264), (0, "ts", MPEG2)]),
    ("english", "30000/1001", 300, [(0, "ts", f"{MPEG2} {INTERLACED}")]),
]

# What ffmpeg reads of CC1: a frame's time is its number times 1,001 / 30,000 seconds, or half of that.
PROGRAMME = """\
00:00:03,003 --> 00:00:08,008 THE COUNCIL VOTED LATE ON MONDAY / TO REOPEN THE NORTH BRIDGES.
00:00:10,010 --> 00:00:15,015 ENGINEERS FOUND NO NEW CRACKS / (applause)
"""
# The frames 14 to 40 at 59.94: 0.2336 and 0.6673 seconds. A time in TS is a 90,000th of a second, and ffmpeg rounds twice.
DOUBLE_RATE = "00:00:00,234 --> 00:00:00,668 HI\n"


def run(*words, **more):
    return subprocess.run(words, check=True, stdout=subprocess.PIPE, **more).stdout


def ffmpeg(*words):
    return run("ffmpeg", "-v", "error", "-y", *words)


def video(way, path, stdin=None):
    """Runs video.py: its status, its output and what it tells."""
    ran = subprocess.run([PYTHON, TOP / "examples/video.py", way, path], input=stdin, capture_output=True)
    return ran.returncode, ran.stdout, ran.stderr.decode()


def make_clip(path, rate, pictures, coder):
    """A video of moving pictures, with sound if the file is TS or MP4."""
    sound = "-f lavfi -i sine=440 -c:a aac -ac 1 -shortest".split() if path.suffix in (".ts", ".mp4") else []
    inputs = ["-f", "lavfi", "-i", f"testsrc2=size=160x96:rate={rate}", *sound[:4]]
    ffmpeg(*inputs, *coder.split(), *sound[4:], "-frames:v", str(pictures), path)
    assert b"B" in run("ffprobe", "-v", "error", "-select_streams", "v", "-show_entries", "frame=pict_type", "-of", "csv=p=0", path), path


def sums_of(path):
    """The sums of a file's decoded pictures, and its sound as it is coded, which in TS GStreamer begins with the first picture."""
    pictures = ffmpeg("-i", path, "-map", "0:v", "-f", "framemd5", "-").decode()
    sound = ffmpeg("-i", path, "-map", "0:a", "-c", "copy", "-f", "data", "-") if path.suffix in (".ts", ".mp4") else b""
    return [line.split()[-1] for line in pictures.splitlines() if line[0] != "#"], sound


def read_by_ffmpeg(path):
    """The captions that ffmpeg reads in a video, a line each."""
    blocks = ffmpeg("-f", "lavfi", "-i", f"movie={path}[out+subcc]", "-map", "0:1", "-f", "srt", "-").decode().strip().split("\n\n")
    rows = [re.sub(r"<.*?>|\{.*?\}|\\h|\r", "", block).split("\n") for block in blocks]
    return "".join(f"{time} {' / '.join(text)}\n" for _, time, *text in rows)


def words_of(folder, name):
    return run("ccsuite", "build", stdin=open(TOP / f"examples/{name}.csv"))


def out_of(path):
    status, words, told = video("out", path)
    assert status == 0, told
    return words


def is_verified(name, words):
    return subprocess.run(["ccsuite", "verify", TOP / f"examples/{name}.csv"], input=words, capture_output=True).stdout == b"ok\n"


def try_way(folder, name, rate, frames, pictures, kind, coder):
    clip, captioned = folder / f"clip.{kind}", folder / f"captioned.{kind}"
    make_clip(clip, rate, frames + pictures, coder)
    status, written, told = video("into", clip, words_of(folder, name))
    assert status == 0, f"{name} {kind}: {told}"
    captioned.write_bytes(written)
    words = out_of(captioned)
    assert is_verified(name, words), f"{name} {kind} {coder}"
    (pictures, sound), (kept, heard) = sums_of(clip), sums_of(captioned)
    assert kept == pictures and sound.endswith(heard) and len(heard) >= 0.9 * len(sound), f"{name} {kind}: other pictures or other sound"
    wanted = {"programme": PROGRAMME, "double_rate": DOUBLE_RATE}.get(name)
    assert not wanted or read_by_ffmpeg(captioned) == wanted, read_by_ffmpeg(captioned)
    return captioned


def try_others(folder, captioned):
    """The captions of other writers: each is made of a video that ffmpeg or GStreamer decodes."""
    copies = [folder / name for name in ("x264.mp4", "mpeg2.ts", "x264enc.ts")]
    ffmpeg("-i", captioned, "-map", "0:v", *H264.split(), copies[0])
    ffmpeg("-i", captioned, "-map", "0:v", *MPEG2.split(), copies[1])
    decoded = f"filesrc location={captioned} ! tsdemux ! h264parse ! avdec_h264"
    run("gst-launch-1.0", "-q", *f"{decoded} ! x264enc speed-preset=veryfast bframes=2 ! mpegtsmux ! filesink location={copies[2]}".split())
    for copy in copies:
        assert is_verified("programme", out_of(copy)), copy
    print(f"video.py: the captions of {len(copies)} other writers come out")


def try_track(folder):
    packets, clip, track = folder / "windows.cdp", folder / "clip.ts", folder / "track.mxf"
    packets.write_bytes(run("python3", TOP / "examples/cdp.py", "from-words", input=words_of(folder, "windows")))
    make_clip(clip, "30000/1001", 600, MPEG2)
    form = "closedcaption/x-cea-708,format=cdp,framerate=30000/1001"
    pictures = f"filesrc location={clip} ! tsdemux ! mpegvideoparse ! queue ! mxfmux name=file ! filesink location={track}"
    run("gst-launch-1.0", "-q", *f"{pictures} filesrc location={packets} blocksize=73 ! {form} ! queue ! file.vanc_sink_0".split())
    assert out_of(track) == words_of(folder, "windows")
    print("video.py: a track of SMPTE ST 436 gives the words that went into it")


def try_anew(folder, captioned):
    """Captions in place of those that a video has."""
    other = folder / "other.ts"
    other.write_bytes(video("into", captioned, words_of(folder, "english"))[1])
    assert is_verified("english", out_of(other)[:300 * 160])
    assert out_of(other)[300 * 160:].count(bytes.fromhex("02FC01800180")) == 603, "after the words a picture still has captions"
    print("video.py: a video's captions give way to others")


def try_left_out(folder):
    """The track of time codes of MP4, which GStreamer's demuxer doesn't give."""
    clip, timed = folder / "clip.mp4", folder / "timed.mp4"
    make_clip(clip, "30000/1001", 40, H264)
    ffmpeg("-i", clip, "-c", "copy", "-timecode", "01:00:00:00", timed)
    status, _, told = video("into", timed, words_of(folder, "hello"))
    assert status == 0 and told.endswith("; data unknown is left out\n"), told
    print("video.py: a stream that doesn't come along is named")


def try_refused(folder):
    clip, other, matroska, coded_order = [folder / it for it in ("clip.ts", "other.mp4", "clip.mkv", "clip.mxf")]
    make_clip(clip, "30000/1001", 40, H264)
    ffmpeg("-i", clip, "-c:v", "mpeg4", "-an", other)
    ffmpeg("-i", clip, "-c", "copy", matroska)
    ffmpeg("-i", clip, "-c", "copy", "-an", coded_order)
    hello = words_of(folder, "hello")
    for path, words, wanted in [
        (clip, words_of(folder, "double_rate"), "video.py: frame 0 of the words is at 59.94 and the video at 29.97\n"),
        (clip, hello + hello, "video.py: the words have 60 frames, and the video 40 pictures\n"),
        (clip, hello[:-1], "malformed at byte 4799: Truncated\n"),
        (other, hello, "video.py: captions go into H.264 and MPEG-2, and not into mpeg4\n"),
        (matroska, hello, "video.py: a file of the kind matroska isn't written: TS, MP4, MOV and MXF are\n"),
        # GStreamer's demuxer tells the times of H.264 in MXF in the order in which the pictures are coded.
        (coded_order, hello, "video.py: ffmpeg reads other captions in picture 1 of what was written\n"),
        (folder / "none.ts", hello, f"video.py: {folder}/none.ts can't be read\n"),
    ]:
        status, written, told = video("into", path, words)
        assert (status != 0, written, told) == (True, b"", wanted), told
    print("video.py: seven times something is wrong, and nothing is written")


def main():
    if not shutil.which("ffmpeg") or not shutil.which(PYTHON) or subprocess.run([PYTHON, "-c", "import gi"], stderr=subprocess.DEVNULL).returncode:
        print("ffmpeg or python3-gst-1.0 isn't installed: video.py wasn't tried")
        return
    with tempfile.TemporaryDirectory() as name:
        folder = pathlib.Path(name)
        (folder / "ccsuite").symlink_to(pathlib.Path(sys.argv[1]).resolve())
        os.environ["PATH"] = f"{folder}:{os.environ['PATH']}"
        ways = [try_way(folder, name, rate, frames, *way) for name, rate, frames, list_ways in WAYS for way in list_ways]
        print(f"video.py: {len(ways)} videos with captions are verified, and their pictures and sound are as they were")
        captioned = try_way(folder, *WAYS[0][:3], *WAYS[0][3][0])
        try_others(folder, captioned)
        try_anew(folder, captioned)
        try_track(folder)
        try_left_out(folder)
        try_refused(folder)


if __name__ == "__main__":
    main()
