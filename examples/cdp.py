#!/usr/bin/python3
"""Distribution packets (SMPTE ST 334-2) out of a words file, and back: cdp.py from-words | to-words

`from-words` writes the distribution packet of each ancillary packet 61/01, back to back, and reads past other packets. It is for words that
`ccsuite decode` answers with status 0: it tries nothing but that the last packet is whole. `to-words` puts each distribution packet into an
ancillary packet 61/01. Both go from packet to packet, so they stand in a pipe that lives on.
"""

import pathlib
import signal
import sys


# Of a byte as a word of ten bits: bit 8, which is even parity, and the two high bits, of which bit 9 is the inverse of bit 8.
PARITY = bytes(it.bit_count() % 2 for it in range(256))
HIGH = bytes(1 if it.bit_count() % 2 else 2 for it in range(256))


def take(file, size):
    data = file.read(size)
    if len(data) < size:
        sys.exit("the last packet isn't whole")
    return data


def from_words(words):
    """The distribution packets of a file of words, one after the other."""
    while start := words.read(2):
        head = start + take(words, 10)
        kind, count = (head[7], head[9]), head[11]
        body = take(words, 2 * count + 2)
        if kind == (0x61, 0x01):
            yield body[1:-2:2]


def to_words(packets):
    """The words of each distribution packet of a file of them."""
    while start := packets.read(2):
        size = take(packets, 1)
        if start != b"\x96\x69" or size[0] < 3:
            sys.exit("a distribution packet begins with 96 69 and its length")
        yield ancillary_of(start + size + take(packets, size[0] - 3))


def ancillary_of(packet):
    """The ancillary packet that carries a distribution packet."""
    body = bytes((0x61, 0x01, len(packet))) + packet
    words = bytearray(2 * len(body))
    words[0::2], words[1::2] = body.translate(HIGH), body
    checksum = (sum(body) + 256 * sum(body.translate(PARITY))) & 0x1FF
    checksum |= ~checksum << 1 & 0x200
    return b"\x00\x00\x03\xff\x03\xff" + words + checksum.to_bytes(2, "big")


def main():
    convert = {"from-words": from_words, "to-words": to_words}.get(" ".join(sys.argv[1:]))
    if convert is None:
        sys.exit(f"usage: {pathlib.Path(sys.argv[0]).name} from-words | to-words")
    signal.signal(signal.SIGPIPE, signal.SIG_DFL)
    for packet in convert(sys.stdin.buffer):
        sys.stdout.buffer.write(packet)
        sys.stdout.buffer.flush()


if __name__ == "__main__":
    main()
