#!/usr/bin/env python3
"""Tries the elements of examples/gstreamer in pipelines: try.py PROGRAM

build/libgstccsuite.so makes the captions of lists, whose distribution packets are those of PROGRAM's words; they go into the pictures of a real encoder, by
cccombiner, and come out again: by GStreamer's decoder and ccsuitecheck, and, if ffmpeg is there, by video.py and PROGRAM. Lists and captions that aren't
right are refused. If GStreamer or the plugin isn't there, nothing is tried, and what is missing is told.
"""

import os
import pathlib
import re
import shutil
import subprocess
import sys
import tempfile

TOP = pathlib.Path(__file__).resolve().parent.parent.parent
EXAMPLES = TOP / "examples"
PYTHON = "/usr/bin/python3"
# Each list with its rate and its number of frames.
LISTS = [("programme", "30000/1001", 900), ("windows", "30000/1001", 600), ("double_rate", "60000/1001", 60), ("english", "30000/1001", 300)]
ENCODERS = [("x264enc", "x264enc tune=zerolatency speed-preset=ultrafast ! h264parse", "h264parse ! avdec_h264")]


def launch(*pipeline):
    """A pipeline's status and what it tells, on the captions' side."""
    words = " ! ".join(pipeline).split()
    ran = subprocess.run(["gst-launch-1.0", "-m", *words], capture_output=True, text=True, timeout=60)
    return ran.returncode, ran.stdout + ran.stderr


def run(*words, **more):
    return subprocess.run(words, check=True, stdout=subprocess.PIPE, **more).stdout


def has_element(name):
    return subprocess.run(["gst-inspect-1.0", "--exists", name]).returncode == 0


def verdict_of(told):
    """The status and the line that ccsuitecheck tells."""
    seen = re.search(r'ccsuitecheck, status=\(uint\)(\d+), text=\(string\)(?:"(.*?)"|(\S+)), frame', told)
    assert seen, told
    return int(seen[1]), (seen[2] or seen[3]).replace("\\ ", " ")


def try_packets(folder, program):
    """The distribution packets of a list are those of the program's words, and pass as they are."""
    for name, _, _ in LISTS:
        wanted = run(PYTHON, EXAMPLES / "cdp.py", "from-words", input=run(program, "build", input=(EXAMPLES / f"{name}.csv").read_bytes()))
        for form in ("cdp", "cc_data"):
            source, check = (f"{it} location={EXAMPLES}/{name}.csv" for it in ("ccsuitebuild", "ccsuitecheck"))
            status, told = launch(source, f"closedcaption/x-cea-708,format={form}", check, f"filesink location={folder}/made")
            assert status == 0 and verdict_of(told) == (0, "ok"), told
            assert form == "cc_data" or (folder / "made").read_bytes() == wanted, name
    print(f"gstreamer: the captions of {len(LISTS)} lists are those of the program, and are found to be right")


def try_refused(folder, program):
    hello, other, longer = EXAMPLES / "hello.csv", EXAMPLES / "english.csv", folder / "longer.csv"
    longer.write_text(hello.read_text().replace("29.97,30", "29.97,40"))
    for source, check, wanted in [
        ("ccsuitebuild", f"ccsuitecheck location={hello}", "No cue list is given: set location"),
        ("ccsuitebuild location=/none.csv", f"ccsuitecheck location={hello}", "No such file or directory"),
        (f"ccsuitebuild location={EXAMPLES}/packets.csv", f"ccsuitecheck location={hello}", "packets.csv: malformed at record 1 field 1: Field"),
        (f"ccsuitebuild location={hello}", f"ccsuitecheck location={longer}", "longer.csv: short: 30 frames"),
        (f"ccsuitebuild location={other}", f"ccsuitecheck location={hello}", "hello.csv: differs at frame 7: GridDiffers CC1"),
    ]:
        status, told = launch(source, check, "fakesink")
        assert status != 0 and wanted in told, told
    status, told = launch(f"ccsuitebuild location={other}", f"ccsuitecheck fail=false location={hello}", "fakesink")
    assert status == 0 and verdict_of(told) == (9, "differs at frame 7: GridDiffers CC1"), told
    # Distribution packets of which the third one has another checksum, all of one length.
    packets = bytearray(run(PYTHON, EXAMPLES / "cdp.py", "from-words", input=run(program, "build", input=hello.read_bytes())))
    packets[3 * packets[2] - 1] ^= 1
    (folder / "damaged").write_bytes(packets)
    status, told = launch(f"filesrc location={folder}/damaged blocksize={packets[2]}", "closedcaption/x-cea-708,format=cdp,framerate=30000/1001",
                          f"ccsuitecheck location={hello}", "fakesink")
    assert status != 0 and verdict_of(told) == (6, "malformed: no distribution packet"), told
    print("gstreamer: lists and captions that aren't right are told")


def try_encoder(folder, program, name, rate, frames, encoder, decoder):
    """Captions through an encoder, in pictures of the list's rate."""
    path, listed = folder / "captioned.ts", EXAMPLES / f"{name}.csv"
    picture = f"videotestsrc num-buffers={frames} ! video/x-raw,format=I420,width=160,height=96,framerate={rate}"
    captions = f"ccsuitebuild location={listed} ! closedcaption/x-cea-708,format=cc_data ! combine.caption"
    status, told = launch(f"{captions} {picture}", f"cccombiner schedule=false name=combine ! {encoder}", "mpegtsmux", f"filesink location={path}")
    assert status == 0, told
    status, told = launch(f"filesrc location={path} ! tsdemux ! {decoder} ! ccextractor name=extract ! fakesink async=false extract.caption",
                          f"ccsuitecheck location={listed}", "fakesink async=false")
    assert status == 0 and verdict_of(told) == (0, "ok"), (name, told)
    if shutil.which("ffmpeg"):
        words = run(PYTHON, EXAMPLES / "video.py", "out", path, stderr=subprocess.DEVNULL)
        assert run(program, "verify", listed, input=words) == b"ok\n", name


def missing():
    """What isn't there that is needed."""
    if not shutil.which("gst-launch-1.0"):
        return "gst-launch-1.0 isn't installed"
    if not (TOP / "build" / "libgstccsuite.so").exists():
        return "build/libgstccsuite.so isn't built: GStreamer's headers are missing (libgstreamer1.0-dev)"
    return next((f"GStreamer's {it} isn't installed" for it in ("cccombiner", "ccextractor", "x264enc", "avdec_h264") if not has_element(it)), None)


def main():
    program = pathlib.Path(sys.argv[1]).resolve()
    os.environ["GST_PLUGIN_PATH"] = str(TOP / "build")
    lacks = missing()
    if lacks:
        print(f"gstreamer: {lacks}: the elements weren't tried")
        return
    with tempfile.TemporaryDirectory() as name:
        folder = pathlib.Path(name)
        os.environ["GST_REGISTRY"] = str(folder / "registry")
        try_packets(folder, program)
        try_refused(folder, program)
        for listed in LISTS:
            for _, encoder, decoder in ENCODERS:
                try_encoder(folder, program, *listed, encoder, decoder)
        print(f"gstreamer: the captions of {len(LISTS)} lists come through an encoder, and out again")


if __name__ == "__main__":
    main()
