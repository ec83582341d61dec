"""Tests of ccsuite.py by the standard library alone: python3 -m unittest, in this folder. Expected values were worked out by hand."""

import gc
import pathlib
import re
import subprocess
import sys
import threading
import unittest

import ccsuite
from ccsuite import Cell, Changed, Error, Frame, Status

LISTS = pathlib.Path(__file__).resolve().parent.parent
HELLO = "ccsuite,1,29.97,30\npop,CC1,0,7,20\nrun,15,0,white,HI\n"
SHOWN = "frame 7\nCC1 1\n15 0 white HI\nframe 20\nCC1 0\nframes 30\n"
# The ancillary packet of its frame 0: flag, DID, SDID and count; the head of the distribution packet; 20 triplets; the footer; the checksum.
FRAME_0 = bytes.fromhex(
    "0000 03ff 03ff 0161 0101 0149" "0296 0269 0149 014f 0143 0200 0200 0272 01f4" "02fc 0194 0120 01fd 0180 0180"
    + "02fa 0200 0200" * 18 + "0274 0200 0200")


def refused(test, status, call, *arguments):
    """The error of a call that is refused with a status."""
    with test.assertRaises(Error) as caught:
        call(*arguments)
    test.assertEqual(caught.exception.status, status)
    return caught.exception


class WholeRuns(unittest.TestCase):
    def test_build(self):
        words = ccsuite.build(HELLO)
        self.assertEqual(len(words), 30 * 160)
        self.assertEqual(words[:len(FRAME_0)], FRAME_0)
        self.assertEqual(ccsuite.build(HELLO.encode()), words)

    def test_texts(self):
        words = ccsuite.build(HELLO)
        self.assertEqual(ccsuite.decode(words), SHOWN)
        self.assertEqual(ccsuite.conceal(memoryview(words)), SHOWN)
        self.assertEqual(ccsuite.show(bytearray(words), 7), "frame 7\nCC1 1\n15 0 white HI\n")
        self.assertEqual(ccsuite.xds_show(words), "frames 30\n")
        self.assertEqual(ccsuite.pairs(HELLO).splitlines()[:9:4], ["9420 8080", "9470 8080", "942F 8080"])
        self.assertEqual(ccsuite.cues(HELLO), HELLO.replace("ccsuite,1", "ccsuite,2"))
        self.assertEqual(ccsuite.load(1), "cues 1\nframes 210\nbytes 33600\nchanges 2\n")

    def test_more_room(self):
        """A thousand times the bytes of the list come out."""
        words = ccsuite.build("ccsuite,1,29.97,20000\n")
        self.assertEqual(len(words), 20000 * 160)

    def test_files(self):
        words = ccsuite.build(HELLO)
        scc = "Scenarist_SCC V1.0\n\n01:00:00;00\t9420 9420 94ae 94ae 9470 9470 c849 942f 942f\n\n01:00:00;20\t942c 942c\n\n"
        self.assertEqual(ccsuite.export_scc(words, "01:00:00;00"), scc)
        self.assertEqual(ccsuite.decode(ccsuite.import_scc(scc)), SHOWN.replace("frames 30", "frames 22"))
        mcc = ccsuite.export_mcc(words, "30DF", "01:00:00;00")
        self.assertIn("\n01:00:00:00\tT49S494F43ZZ72F4FC9420ROO74ZZ0BAB\n", mcc.replace("\r\n", "\n"))
        self.assertEqual(ccsuite.import_mcc(mcc), words)

    def test_two_lists(self):
        english, spanish = ((LISTS / f"{it}.csv").read_text() for it in ("english", "spanish"))
        both = ccsuite.decode(ccsuite.dual(english, spanish))
        self.assertIn("frame 60\nCC1 1\n15 0 white GOOD EVENING.\nframe 62\nCC2 1\n15 0 white BUENAS NOCHES.\n", both)
        told = ccsuite.xds_show(ccsuite.xds((LISTS / "programme.csv").read_bytes(), "xds,0,1,3,EVENING NEWS\n"))
        self.assertEqual(told, "frame 7 class 1 type 3 EVENING NEWS\nframes 900\n")

    def test_words_and_lists(self):
        words, silent = ccsuite.build(HELLO), ccsuite.build("ccsuite,1,29.97,30\n")
        self.assertIsNone(ccsuite.verify(words, HELLO))
        self.assertIsNone(ccsuite.verify(ccsuite.insert(silent, HELLO), HELLO))
        self.assertIsNone(ccsuite.verify(ccsuite.convert(words), (LISTS / "double_rate.csv").read_bytes()))


class Refusals(unittest.TestCase):
    def test_list(self):
        error = refused(self, Status.MALFORMED, ccsuite.build, HELLO.replace("15,0", "16,0"))
        self.assertEqual((str(error), error.reason, error.record, error.field), ("malformed at record 3 field 2: Field", "Field", 3, 2))
        self.assertEqual((error.place, error.cue, error.frame, error.written), (None, None, None, b""))
        error = refused(self, Status.RULE, ccsuite.build, HELLO.replace(",20", ",8"))
        self.assertEqual((str(error), error.reason, error.cue, error.other), ("rule Clash: cue 1", "Clash", 1, None))
        error = refused(self, Status.NO_ROOM, ccsuite.build, HELLO.replace(",7,", ",6,"))
        self.assertEqual((str(error), error.cue, error.reason), ("no room: cue 1", 1, None))
        error = refused(self, Status.LIMIT, ccsuite.build, "ccsuite,1,29.97,1000001\n")
        self.assertEqual((str(error), error.reason), ("limit Frames", "Frames"))

    def test_words(self):
        words = (LISTS / "damaged.words").read_bytes()
        error = refused(self, Status.MALFORMED, ccsuite.decode, words)
        self.assertEqual((str(error), error.reason, error.place), ("malformed at byte 1628: Count", "Count", 1628))
        self.assertTrue(error.sentence.endswith("."))
        self.assertEqual(error.written, b"frame 7\nCC1 1\n15 0 white HI\n")
        error = refused(self, Status.MALFORMED, ccsuite.decode, b"\1")
        self.assertEqual((error.reason, error.place), ("Truncated", 1))
        error = refused(self, Status.SHORT, ccsuite.show, ccsuite.build(HELLO), 30)
        self.assertEqual(error.frame, 30)

    def test_differs(self):
        words = ccsuite.build(HELLO)
        error = refused(self, Status.DIFFERS, ccsuite.verify, words, HELLO.replace(",7,", ",8,"))
        self.assertEqual((error.reason, error.frame, error.channel, error.expected), ("GridDiffers", 7, "CC1", None))
        error = refused(self, Status.DIFFERS, ccsuite.export_mcc, words, "25", "01:00:00:00")
        self.assertEqual((error.reason, error.expected, error.seen), ("WrongRate", 3, 4))
        twice = ccsuite.build((LISTS / "double_rate.csv").read_bytes())
        error = refused(self, Status.MISFIT, ccsuite.convert, twice)
        self.assertEqual((error.reason, error.frame, error.seen), ("Rate", 0, 7))

    def test_arguments(self):
        words = ccsuite.build(HELLO)
        for call in (
            lambda: ccsuite.show(words, -1), lambda: ccsuite.load(0), lambda: ccsuite.export_scc(words, "1:00"),
            lambda: ccsuite.export_mcc(words, "30", "01:00:00;00"), lambda: ccsuite.export_mcc(words, "29", "01:00:00:00"),
        ):
            self.assertRaises(ValueError, call)
        for given in (None, 5, ["words"]):
            self.assertRaises(TypeError, ccsuite.decode, given)
        refused(self, Status.ARGUMENT, ccsuite.export_scc, words, "00:01:00;00")


class Handles(unittest.TestCase):
    def test_builder(self):
        with ccsuite.Builder(HELLO) as builder:
            packets = list(builder)
            self.assertEqual(list(builder), [])
        self.assertEqual(b"".join(packets), ccsuite.build(HELLO))
        refused(self, Status.CLOSED, next, builder)
        builder.close()
        refused(self, Status.NO_ROOM, ccsuite.Builder, HELLO.replace(",7,", ",6,"))

    def test_receiver(self):
        words, texts = ccsuite.build(HELLO), []
        with ccsuite.Receiver() as receiver:
            self.assertIsNone(receiver.frame())
            for frame in receiver.frames(words[:1284]):
                texts.append(receiver.changes())
            self.assertEqual(frame, Frame(7, 0, 8))
            self.assertEqual(receiver.cell("CC1", 15, 1), Cell("I", "white", False, False))
            self.assertIsNone(receiver.cell("CC1", 15, 2))
            self.assertIsNone(receiver.cell("CC2", 15, 0))
            self.assertEqual(receiver.screens(), "frame 7\nCC1 1\n15 0 white HI\n")
            self.assertRaises(ValueError, receiver.cell, "CC1", 16, 0)
            self.assertRaises(ValueError, receiver.cell, "CC9", 15, 0)
            error = refused(self, Status.MALFORMED, receiver.finish)
            self.assertEqual((error.reason, error.place), ("Truncated", 1284))
            for piece in (words[at:at + 7] for at in range(1284, len(words), 7)):
                for _ in receiver.frames(piece):
                    texts.append(receiver.changes())
            receiver.finish()
            self.assertEqual(receiver.frame(), Frame(29, 0, 30))
        self.assertEqual("".join(texts) + "frames 30\n", SHOWN)
        refused(self, Status.CLOSED, receiver.screens)

    def test_changed(self):
        for name in ("windows.csv", "english.csv"):
            words, told = ccsuite.build((LISTS / name).read_bytes()), 0
            with ccsuite.Receiver() as receiver, ccsuite.Receiver() as texts:
                for _, _ in zip(receiver.frames(words), texts.frames(words)):
                    channels, services = receiver.changed()
                    lines = texts.changes().splitlines()
                    heads = [line.split()[0] for line in lines if line[0] in "CS"]
                    self.assertEqual([*channels, *(f"S{service}" for service in services)], heads)
                    told += bool(heads)
                self.assertEqual(receiver.changed(), Changed((), ()))
            self.assertGreater(told, 2)
            refused(self, Status.CLOSED, receiver.changed)

    def test_window(self):
        with ccsuite.Receiver() as receiver:
            self.assertEqual(receiver.feed(ccsuite.build((LISTS / "window.csv").read_bytes())[:101 * 160]), 101)
            window, cell = receiver.window(1, 0), receiver.window_cell(1, 0, 0, 4)
            self.assertIsNone(receiver.window(1, 1))
            self.assertIsNone(receiver.window(2, 0))
            self.assertIsNone(receiver.window_cell(1, 0, 0, 5))
            self.assertIsNone(receiver.window_cell(1, 1, 0, 0))
            self.assertIsNone(receiver.window_grid(1, 1))
            row, = receiver.window_grid(1, 0)
            self.assertEqual((len(row), row[4], row[5:]), (10, cell, [None] * 5))
        self.assertEqual((window.visible, window.rows, window.columns, window.vertical, window.horizontal), (True, 1, 10, 60, 50))
        self.assertEqual((window.anchor, window.row_lock, window.fill, window.border_colour), (0, True, (0, 0, 0, 0), (0, 0, 0)))
        self.assertEqual((cell.character, cell.size, cell.foreground, cell.background), ("O", 1, (0, 2, 2, 2), (0, 0, 0, 0)))

    def test_refused_words(self):
        with ccsuite.Receiver() as receiver:
            error = refused(self, Status.MALFORMED, receiver.feed, (LISTS / "damaged.words").read_bytes())
            self.assertEqual((str(error), error.reason, error.place), ("malformed at byte 1628: Count", "Count", 1628))
            self.assertEqual(receiver.screens(), "frame 9\nCC1 1\n15 0 white HI\n")
            refused(self, Status.MALFORMED, receiver.feed, b"\0")

    def test_concealing(self):
        words = ccsuite.build(HELLO)
        with ccsuite.Receiver(conceals=True) as receiver:
            receiver.feed(words[:12 * 160])
            self.assertEqual(list(receiver.frames(words[15 * 160:16 * 160])), [Frame(15, 3, 13)])
            self.assertEqual(receiver.screens(), "frame 15\n")

    def test_verifier(self):
        words = ccsuite.build(HELLO)
        with ccsuite.Verifier(HELLO) as verifier:
            verifier.feed(words[:1000])
            error = refused(self, Status.MALFORMED, verifier.verdict)
            self.assertEqual(error.reason, "Truncated")
            verifier.feed(words[1000:1600])
            self.assertEqual(refused(self, Status.SHORT, verifier.verdict).frame, 10)
            verifier.feed(words[1600:])
            self.assertIsNone(verifier.verdict())
        with ccsuite.Verifier(HELLO.replace(",7,", ",8,")) as verifier:
            error = refused(self, Status.DIFFERS, verifier.feed, words)
            self.assertEqual((error.frame, error.channel), (7, "CC1"))
            refused(self, Status.DIFFERS, verifier.verdict)
        refused(self, Status.CLOSED, verifier.verdict)
        refused(self, Status.RULE, ccsuite.Verifier, HELLO.replace(",20", ",8"))

    def test_threads(self):
        """Four threads take turns at one builder, and nothing is lost or taken twice."""
        with ccsuite.Builder("ccsuite,1,29.97,4000\n") as builder:
            taken = [[] for _ in range(4)]
            threads = [threading.Thread(target=it.extend, args=(builder,)) for it in taken]
            for it in threads:
                it.start()
            for it in threads:
                it.join()
        counters = sorted(int.from_bytes((packet[23], packet[25]), "big") for it in taken for packet in it)
        self.assertEqual(counters, list(range(4000)))

    def test_freed(self):
        for _ in range(200):
            ccsuite.Receiver().feed(ccsuite.build(HELLO))
        gc.collect()


class Packets(unittest.TestCase):
    # Frame 0 of HELLO: resume caption loading in field 1, null in field 2, and what doesn't count.
    TRIPLETS = bytes.fromhex("FC9420 FD8080" + "FA0000" * 18)

    def test_cc_data(self):
        words = ccsuite.build(HELLO)
        self.assertEqual(ccsuite.cc_data_from_words(words[:160]), (self.TRIPLETS, ccsuite.Packet(ccsuite.Rate.F29_97, 0, 0x43)))
        again = ccsuite.words_from_cc_data(self.TRIPLETS, ccsuite.Rate.F29_97, 258)
        self.assertEqual(ccsuite.cc_data_from_words(again), (self.TRIPLETS, ccsuite.Packet(4, 258, ccsuite.cc_data_from_words(again)[1].flags)))
        with ccsuite.Builder(HELLO) as builder:
            self.assertEqual(builder.next_cc_data(), self.TRIPLETS)
            self.assertEqual(next(builder), words[160:320])
        refused(self, Status.MALFORMED, ccsuite.cc_data_from_words, words[:159])
        refused(self, Status.ARGUMENT, ccsuite.words_from_cc_data, b"12", 4, 0)
        self.assertRaises(ValueError, ccsuite.words_from_cc_data, b"", 9, 0)

    def test_cdp(self):
        words = ccsuite.build(HELLO)[:160]
        cdp = ccsuite.cdp_from_words(words)
        self.assertEqual((len(cdp), cdp[:7].hex()), (73, "9669494f430000"))
        self.assertEqual(ccsuite.words_from_cdp(cdp), words)
        refused(self, Status.MALFORMED, ccsuite.words_from_cdp, cdp[:-1])

    def test_player(self):
        """A player is fed triplets, and draws whole grids."""
        with ccsuite.Builder(HELLO) as builder, ccsuite.Receiver() as receiver:
            for counter in range(8):
                self.assertEqual(receiver.feed_cc_data(builder.next_cc_data(), ccsuite.Rate.F29_97, counter).number, counter)
            grid = receiver.grid("CC1")
        self.assertEqual([len(it) for it in grid], [32] * 15)
        self.assertEqual([it and it.character for it in grid[14][:3]], ["H", "I", None])


class Module(unittest.TestCase):
    def test_version(self):
        header = (LISTS.parent / "library" / "ccsuite.h").read_text()
        self.assertEqual(ccsuite.version(), tuple(int(re.search(f"VERSION_{it} ([0-9]+)", header)[1]) for it in ("MAJOR", "MINOR", "PATCH")))

    def test_reasons(self):
        wanted = "Overrun Truncated NoSuchTime Backwards Field Order PastEnd OffSlot MccSyntax CounterJump EightBits"
        self.assertRaises(ValueError, ccsuite.reason_of, 18)
        self.assertEqual([ccsuite.reason_of(it).reason for it in (1, 13, 14, 17, 20, 22, 29, 31, 34, 40, 46)], wanted.split())

    def test_no_library(self):
        ran = subprocess.run([sys.executable, "-Bc", "import ccsuite"], cwd=pathlib.Path(__file__).parent, env={"CCSUITE_LIBRARY": "/none.so"},
                             capture_output=True, text=True)
        self.assertIn("ImportError: /none.so can't be loaded", ran.stderr)


if __name__ == "__main__":
    unittest.main()
