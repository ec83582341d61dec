#!/usr/bin/python3
"""Captions out of a video file, and into one: video.py out FILE > WORDS | video.py into VIDEO < WORDS > FILE

`out` writes the words of the captions that a video carries, a packet for each picture in the order in which they are shown: what MPEG-2 has in
its user data and H.264 in its SEI (ATSC A/53), in any file that Debian's ffmpeg reads, or what an MXF file has in a track of ancillary data (SMPTE
ST 436). If a picture has no captions, its frame has none. Triplets that don't count fill a packet up to the number of its rate.

`into` writes VIDEO, in the same kind of file (TS, MP4, MOV or MXF), with the captions of words: frame f of these goes to picture f of H.264 or
MPEG-2, as A/53, in place of what it has. No picture and no sound is coded anew; a stream that doesn't come along is named. Debian's GStreamer reads
and writes the file (python3-gst-1.0, gstreamer1.0-plugins-base, -good and -bad). `ccsuite decode` tries the words before, and ffmpeg reads the
captions of what was written. The words have the video's rate, and no more frames than it has pictures. If something is wrong, standard error says
what, and nothing is written.
"""

import collections
import fractions
import io
import itertools
import os
import pathlib
import re
import shutil
import signal
import subprocess
import sys
import tempfile

sys.dont_write_bytecode = True
from cdp import ancillary_of, from_words  # noqa: E402

# video.py, or ccsuite-video where it is installed
NAME = pathlib.Path(sys.argv[0]).name
# by the code of SMPTE ST 334-2: frames a second, and triplets a frame
RATES = {
    1: (fractions.Fraction(24000, 1001), 25), 2: (fractions.Fraction(24), 25), 3: (fractions.Fraction(25), 24),
    4: (fractions.Fraction(30000, 1001), 20), 5: (fractions.Fraction(30), 20), 6: (fractions.Fraction(50), 12),
    7: (fractions.Fraction(60000, 1001), 10), 8: (fractions.Fraction(60), 10),
}
FILLER = bytes.fromhex("FA0000")
NULL_PAIRS = [bytes.fromhex("FC8080"), bytes.fromhex("FD8080")]
A53 = b"GA94\x03"  # ATSC, and cc_data
COUNTRY = b"\xb5\x00\x31"  # the United States, and ATSC's number as a provider
START = b"\x00\x00\x01"
# by ffprobe's name of a kind of file
MUXERS = {"mpegts": "mpegtsmux", "mov": "qtmux", "mp4": "mp4mux", "mxf": "mxfmux"}


def tell(text):
    print(f"{NAME}: {text}", file=sys.stderr)


def refuse(text):
    tell(text)
    sys.exit(1)


# ---- Distribution packets ---------------------------------------------------------------------------------------------------------------


def packet_of(rate, number, triplets):
    """The distribution packet of a frame; one without triplets has the null pairs of its fields."""
    if not triplets:
        triplets = NULL_PAIRS if rate < 7 else NULL_PAIRS[number % 2:][:1]
    triplets = triplets + [FILLER] * (RATES[rate][1] - len(triplets))
    counter = (number % 65536).to_bytes(2, "big")
    body = bytes((rate << 4 | 0xF, 0x43)) + counter + bytes((0x72, 0xE0 | len(triplets))) + b"".join(triplets) + b"\x74" + counter
    packet = b"\x96\x69" + bytes((len(body) + 4,)) + body
    return packet + bytes((-sum(packet) % 256,))


def sections_of(packet):
    """The sections of a distribution packet, each from its identifier on."""
    at = 7
    while at < len(packet) - 4:
        kind, second = packet[at], packet[at + 1]
        size = {0x71: 5, 0x72: 2 + 3 * (second & 0x1F), 0x73: 2 + 7 * (second & 0xF)}.get(kind, 2 + second)
        yield packet[at:at + size]
        at += size


def triplets_of(packet):
    """The triplets of a distribution packet."""
    parts = [it[2:] for it in sections_of(packet) if it[0] == 0x72]
    return [part[at:at + 3] for part in parts for at in range(0, len(part), 3)]


# ---- out: what ffmpeg reads -------------------------------------------------------------------------------------------------------------


def run_ffprobe(*words):
    """The parts of what ffprobe tells, each the text of a section, as they come."""
    with subprocess.Popen(["ffprobe", "-v", "error", *words], stdout=subprocess.PIPE, text=True) as ran:
        for _, part in itertools.groupby(ran.stdout, lambda it: it.startswith("[/")):
            yield "".join(part)
    if ran.returncode:
        refuse("ffprobe can't read the file")


def fields_of(text):
    return dict(re.findall(r"^([\w:]+)=(.*)$", text, re.M))


def streams_of(file):
    """The fields of each stream that ffprobe tells, in their order."""
    words = ["-show_entries", "stream=index,codec_type,codec_name,avg_frame_rate,r_frame_rate:stream_tags=data_type", file]
    return [fields_of(it) for it in run_ffprobe(*words) if "[STREAM]" in it]


def kinds_of(file):
    """How many streams of each kind a file has."""
    return collections.Counter(f"{it['codec_type']} {it.get('codec_name', 'of another kind')}" for it in streams_of(file))


def video_of(file):
    """The fields of the first video stream, and the code of its rate."""
    videos = [it for it in streams_of(file) if it["codec_type"] == "video"]
    if not videos:
        refuse("the file has no video")
    for name in ("avg_frame_rate", "r_frame_rate"):
        counted, seconds = map(int, videos[0][name].split("/"))
        for code, (rate, _) in RATES.items():
            if seconds and abs(counted / seconds / rate - 1) < 0.0003:
                return videos[0], code
    refuse(f"no distribution packet has the video's rate, {videos[0]['avg_frame_rate']}")


def bytes_of(text):
    """The bytes that ffprobe tells of a packet."""
    return bytes.fromhex("".join(re.findall(r"^[0-9a-f]{8}: ((?:[0-9a-f]{2,4} ?)+)", text, re.M)))


def picture_captions(file):
    """The triplets of each picture, in the order in which they are shown: ffmpeg decodes them, and passes on each one's captions."""
    with tempfile.TemporaryDirectory() as folder:
        link = pathlib.Path(folder, "video")
        link.symlink_to(pathlib.Path(file).resolve())
        graph = f"movie={link},scale=2:2:flags=neighbor,format=gray[out+subcc]"
        triplets, pictures = [], 0
        for text in run_ffprobe("-f", "lavfi", "-i", graph, "-show_entries", "packet=stream_index,data", "-show_data"):
            stream, data = fields_of(text).get("stream_index"), bytes_of(text)
            if stream == "0" and pictures:
                yield triplets
            if stream == "0":
                triplets, pictures = [], pictures + 1
            elif stream:
                triplets = [data[at:at + 3] for at in range(0, len(data), 3)]
        if pictures:
            yield triplets


def ancillary_packets(unit):
    """The data of each ancillary packet of eight-bit words of an edit unit of SMPTE ST 436, from its DID on."""
    at = 2
    for _ in range(int.from_bytes(unit[:2], "big")):
        coding, count = unit[at + 3], int.from_bytes(unit[at + 6:at + 10], "big")
        if coding in (4, 5, 6, 10, 11, 12):
            yield unit[at + 14:at + 14 + count]
        at += 14 + count * int.from_bytes(unit[at + 10:at + 14], "big")


def track_captions(file, index):
    """The triplets of each edit unit of an ancillary track."""
    for text in run_ffprobe("-select_streams", index, "-show_entries", "packet=stream_index,data", "-show_data", file):
        if "stream_index" in text:
            packets = [it[3:3 + it[2]] for it in ancillary_packets(bytes_of(text)) if it[:2] == b"\x61\x01"]
            yield [triplet for packet in packets for triplet in triplets_of(packet)]


def out(file):
    """Writes the words of a file's captions."""
    video, rate = video_of(file)
    tracks = [it["index"] for it in streams_of(file) if it.get("TAG:data_type") == "vbi_vanc_smpte_436M"]
    frames = track_captions(file, tracks[0]) if tracks else picture_captions(file)
    captioned = number = 0
    for number, triplets in enumerate(frames, 1):
        captioned += bool(triplets)
        if len(triplets) > 31:
            refuse(f"picture {number - 1} has {len(triplets)} triplets, and a distribution packet has room for 31")
        sys.stdout.buffer.write(ancillary_of(packet_of(rate, number - 1, triplets)))
    source = "track of ancillary data" if tracks else f"{video['codec_name']} pictures"
    tell(f"{source} at {float(RATES[rate][0]):.5g}: {number} frames, {captioned} of them with captions")


# ---- into: units of an elementary stream ------------------------------------------------------------------------------------------------


def units_of(data):
    """What stands before the first start code of a picture's data, and its units: each what stands after a start code, up to the next."""
    before, *units = data.split(START)
    return before, units


def joined(before, units):
    return before + b"".join(START + it for it in units)


def cc_data_of(triplets):
    """A unit's A53 and its cc_data."""
    return A53 + bytes((0xC0 | len(triplets), 0xFF)) + b"".join(triplets) + b"\xff"


def mpeg2_with(data, triplets):
    """The data of an MPEG-2 picture with these captions: user data before its first slice."""
    before, units = units_of(data)
    units = [it for it in units if not it.startswith(b"\xb2" + A53)]
    first = next((at for at, unit in enumerate(units) if 0x01 <= unit[0] <= 0xAF), None)
    if triplets and first is not None:
        units.insert(first, b"\xb2" + cc_data_of(triplets))
    return joined(before, units)


def sei_number(body, at):
    """A number of an SEI message, and the place after it: FF counts on."""
    value = 0
    while body[at] == 0xFF:
        value, at = value + 0xFF, at + 1
    return value + body[at], at + 1


def sei_messages(unit):
    """The messages of an SEI unit, each its kind and its bytes."""
    body, at = unit[1:].replace(b"\0\0\x03", b"\0\0").rstrip(b"\0"), 0
    while at < len(body) - 1:
        kind, at = sei_number(body, at)
        size, at = sei_number(body, at)
        yield kind, body[at:at + size]
        at += size


def sei_of(messages):
    """An SEI unit of messages, in which 03 stands after two zeros that 00 to 03 follow."""
    body = b""
    for kind, message in messages:
        for value in (kind, len(message)):
            body += b"\xff" * (value // 0xFF) + bytes((value % 0xFF,))
        body += message
    return b"\x06" + re.sub(b"\0\0(?=[\0-\3])", b"\0\0\x03", body + b"\x80")


def without_captions(unit):
    """An H.264 unit without the captions that it has; None if it has nothing else."""
    if unit[0] & 0x1F != 6:
        return unit
    messages = list(sei_messages(unit))
    others = [(kind, message) for kind, message in messages if kind != 4 or not message.startswith(COUNTRY + A53)]
    if len(others) == len(messages):
        return unit
    return sei_of(others) if others else None


def h264_with(data, triplets):
    """The data of an H.264 picture with these captions: a unit of SEI before its first slice."""
    before, units = units_of(data)
    units = [it for it in map(without_captions, units) if it]
    first = next((at for at, unit in enumerate(units) if unit[0] & 0x1F in (1, 2, 5, 14)), None)
    if triplets and first is not None:
        units.insert(first, sei_of([(4, COUNTRY + cc_data_of(triplets))]))
    return joined(before, units)


# ---- into: what GStreamer reads and writes ----------------------------------------------------------------------------------------------


def muxer_of(file):
    """The muxer that writes a file of the same kind."""
    form = fields_of("".join(run_ffprobe("-show_entries", "format=format_name:format_tags=major_brand", file)))
    kind = form["format_name"].split(",")[0]
    if form.get("TAG:major_brand", "qt").strip() != "qt":
        kind = "mp4"
    if kind not in MUXERS:
        refuse(f"a file of the kind {kind} isn't written: TS, MP4, MOV and MXF are")
    return MUXERS[kind]


def pass_through(file, change, muxer=None):
    """Runs a file through GStreamer, which `out` does without."""
    try:
        from passage import Passage
    except (ImportError, ValueError) as error:
        refuse(f"GStreamer for Python isn't installed (Debian's python3-gst-1.0): {error}")
    Passage(file, change, refuse, muxer).run()


def numbers_of(file):
    """The number of each picture by its time."""
    times = []

    def note(time, data):
        times.append(time)
        return data

    pass_through(file, note)
    if None in times or len(set(times)) < len(times):
        refuse("not each picture has a time of its own")
    return {time: number for number, time in enumerate(sorted(times))}


def captions_of(words, rate):
    """The triplets of each frame of words, which are tried, and have this rate."""
    if not shutil.which("ccsuite"):
        refuse("ccsuite isn't installed")
    tried = subprocess.run(["ccsuite", "decode"], input=words, stdout=subprocess.DEVNULL)
    if tried.returncode:
        sys.exit(tried.returncode)
    packets = list(from_words(io.BytesIO(words)))
    for number, packet in enumerate(packets):
        if packet[3] >> 4 != rate:
            refuse(f"frame {number} of the words is at {float(RATES[packet[3] >> 4][0]):.5g} and the video at {float(RATES[rate][0]):.5g}")
        if len(triplets_of(packet)) > 31:
            refuse(f"frame {number} of the words has more than the 31 triplets that a picture takes")
    return [triplets_of(it) for it in packets]


def into(file):
    """Writes a file with the captions of words."""
    video, rate = video_of(file)
    with_captions = {"h264": h264_with, "mpeg2video": mpeg2_with}.get(video["codec_name"])
    if not with_captions:
        refuse(f"captions go into H.264 and MPEG-2, and not into {video['codec_name']}")
    muxer = muxer_of(file)
    captions = captions_of(sys.stdin.buffer.read(), rate)
    numbers = numbers_of(file)
    if len(captions) > len(numbers):
        refuse(f"the words have {len(captions)} frames, and the video {len(numbers)} pictures")
    given = len(captions)
    captions += [[]] * (len(numbers) - given)
    with tempfile.TemporaryDirectory() as folder:
        written = pathlib.Path(folder, "written")
        pass_through(file, lambda time, data: with_captions(data, captions[numbers[time]]), (muxer, str(written)))
        for number, (seen, wanted) in enumerate(itertools.zip_longest(picture_captions(written), captions)):
            if seen != wanted:
                refuse(f"ffmpeg reads other captions in picture {number} of what was written")
        left_out = kinds_of(file) - kinds_of(written)
        with open(written, "rb") as result:
            shutil.copyfileobj(result, sys.stdout.buffer)
    rest = "".join(f"; {it} is left out" for it in left_out.elements())
    tell(f"{len(numbers)} {video['codec_name']} pictures, not coded anew, the first {given} with the words' captions{rest}")


def main():
    command = {"out": out, "into": into}.get(sys.argv[1] if len(sys.argv) == 3 else None)
    if command is None:
        sys.exit(f"usage: {NAME} out FILE > WORDS | {NAME} into VIDEO < WORDS > FILE")
    signal.signal(signal.SIGPIPE, signal.SIG_DFL)
    if not shutil.which("ffprobe"):
        refuse("ffmpeg isn't installed")
    if not os.access(sys.argv[2], os.R_OK):
        refuse(f"{sys.argv[2]} can't be read")
    command(sys.argv[2])


if __name__ == "__main__":
    main()
