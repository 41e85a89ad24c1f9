"""The program `convert` as its users run it: the trace that it writes, what it refuses, and how long it takes.

`tools/build convert` makes target/bin/convert. `python3 tools/convert_test.py` runs these checks and fails on a difference.
"""

import os
import subprocess
import time
import unittest

ROOT = os.path.dirname(os.path.dirname(os.path.abspath(__file__)))
PROGRAM = os.path.join(ROOT, "target", "bin", "convert")
FRAMES = 131_072
RAGGED = "convert: the capture is not of whole frames of nine bytes (12)\n"
TOO_LONG = "convert: the capture is longer than 1179648 bytes (131072 frames)\n"


def frame(inputs=0, gates=0):
    """Seven bytes of inputs, two of gates."""
    return inputs.to_bytes(7, "big") + gates.to_bytes(2, "big")


def record(repeat, levels):
    """A tick record."""
    return bytes([1, 0, 11]) + repeat.to_bytes(2, "big") + levels


def convert(capture):
    """What the program writes for a capture: standard output, standard error."""
    done = subprocess.run([PROGRAM], input=capture, capture_output=True, check=True, timeout=60)
    return done.stdout, done.stderr.decode("ascii")


LOW = frame()
PULSE = frame(1, 1)
HIGH = frame((1 << 54) - 1, (1 << 12) - 1)


class Written(unittest.TestCase):
    """Traces."""

    def writes(self, capture, *records):
        self.assertEqual(convert(capture), (b"".join(records), ""))

    def test_nothing(self):
        self.writes(b"")

    def test_one_frame(self):
        self.writes(PULSE, bytes([1, 0, 11, 0, 1, 0, 0, 0, 0, 0, 0, 1, 0, 1]))

    def test_equal_neighbours_are_joined(self):
        self.writes(LOW + PULSE * 3 + HIGH + PULSE, record(1, LOW), record(3, PULSE), record(1, HIGH), record(1, PULSE))

    def test_one_line_parts_two_frames(self):
        for line in range(54):
            self.writes(LOW + frame(1 << line), record(1, LOW), record(1, frame(1 << line)))
        for line in range(12):
            self.writes(LOW + frame(0, 1 << line), record(1, LOW), record(1, frame(0, 1 << line)))

    def test_the_longest_repeats_come_first(self):
        self.writes(PULSE * 65_534, record(65_534, PULSE))
        self.writes(PULSE * 65_535, record(65_535, PULSE))
        self.writes(PULSE * 65_536, record(65_535, PULSE), record(1, PULSE))
        self.writes(PULSE * 131_071, record(65_535, PULSE), record(65_535, PULSE), record(1, PULSE))

    def test_as_many_frames_as_it_takes(self):
        """All different, so the trace is as long as it can be."""
        frames = [frame(k) for k in range(FRAMES)]
        self.writes(b"".join(frames), *(record(1, levels) for levels in frames))


class Refused(unittest.TestCase):
    """A sentence on standard error, and nothing written."""

    def refuses(self, capture, sentence):
        self.assertEqual(convert(capture), (b"", sentence))

    def bad_level(self, before, levels):
        self.refuses(LOW * before + levels, f"convert: frame {before}: a line that does not exist (6)\n")

    def test_not_of_whole_frames(self):
        for length in (1, 8, 10, 17, 9 * FRAMES - 1):
            self.refuses(bytes(length), RAGGED)

    def test_not_of_whole_frames_comes_first(self):
        self.refuses(bytes([0xFF] * 10), RAGGED)

    def test_lines_that_do_not_exist(self):
        for line in (54, 55):
            self.bad_level(17, frame(1 << line))
        for line in (12, 13, 14, 15):
            self.bad_level(17, frame(0, 1 << line))

    def test_the_first_bad_frame_is_told(self):
        self.bad_level(0, frame(1 << 54))
        self.bad_level(3, frame(1 << 54) + frame(0, 1 << 12))
        self.bad_level(FRAMES - 1, frame(0, 1 << 15))

    def test_too_long(self):
        for extra in (1, 9, 100_000):
            self.refuses(bytes(9 * FRAMES + extra), TOO_LONG)


class Streams(unittest.TestCase):
    """Standard input and output."""

    def test_input_in_pieces(self):
        with subprocess.Popen([PROGRAM], stdin=subprocess.PIPE, stdout=subprocess.PIPE) as child:
            for byte in LOW + PULSE + PULSE:
                child.stdin.write(bytes([byte]))
                child.stdin.flush()
                time.sleep(0.001)
            child.stdin.close()
            self.assertEqual(child.stdout.read(), record(1, LOW) + record(2, PULSE))

    def test_input_that_cannot_be_read(self):
        folder = os.open(ROOT, os.O_RDONLY)
        done = subprocess.run([PROGRAM], stdin=folder, capture_output=True, check=False, timeout=60)
        os.close(folder)
        self.assertEqual((done.stdout, done.stderr), (b"", b"convert: cannot read standard input\n"))

    def test_output_that_cannot_be_written(self):
        with open("/dev/full", "wb") as full:
            done = subprocess.run([PROGRAM], input=PULSE, stdout=full, stderr=subprocess.PIPE, check=False, timeout=60)
        self.assertEqual(done.stderr, b"convert: cannot write standard output\n")

    def test_a_stack_of_eight_megabytes(self):
        """The usual limit: both areas lie on the stack."""
        done = subprocess.run(["sh", "-c", f"ulimit -s 8192 && exec {PROGRAM}"], input=HIGH * FRAMES,
                              capture_output=True, check=True, timeout=60)
        self.assertEqual(done.stdout, record(65_535, HIGH) * 2 + record(2, HIGH))


class Time(unittest.TestCase):
    """It answers within seconds on the longest captures."""

    def test_most_frames(self):
        for capture in (PULSE * FRAMES, (LOW + PULSE) * (FRAMES // 2)):
            start = time.monotonic()
            convert(capture)
            self.assertLess(time.monotonic() - start, 5)


if __name__ == "__main__":
    unittest.main()
