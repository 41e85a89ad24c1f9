"""The program `rehearse` as its users run it: what it prints, what it leaves unread, and how long it takes.

`tools/build rehearse` makes target/bin/rehearse. `python3 tools/rehearse_test.py` runs these checks and fails on a difference.
"""

import os
import subprocess
import time
import unittest

ROOT = os.path.dirname(os.path.dirname(os.path.abspath(__file__)))
PROGRAM = os.path.join(ROOT, "target", "bin", "rehearse")
INPUT_BYTES = 65_536
ZEROS = " 0000" * 8


def write(address, word):
    """A write record."""
    return bytes([2, 0, 4]) + address.to_bytes(2, "big") + word.to_bytes(2, "big")


def ticks(repeat, inputs=0, gates=0):
    """A tick record."""
    return bytes([1, 0, 11]) + repeat.to_bytes(2, "big") + inputs.to_bytes(7, "big") + gates.to_bytes(2, "big")


def event(tag):
    """A record of an event tag."""
    return bytes([3, 0, 4]) + tag.to_bytes(4, "big")


def rehearse(trace):
    """The lines that the program prints for a trace on standard input."""
    done = subprocess.run([PROGRAM], input=trace, capture_output=True, check=True, timeout=60)
    return done.stdout.decode("ascii").split("\n")


def report(stop, offset, done=0, records=0, refused=0):
    """The first line."""
    return f"STOP {stop} NEXT {offset} TICKS {done} RECORDS {records} REFUSED {refused}"


class Printed(unittest.TestCase):
    """The four lines."""

    def test_example(self):
        trace = write(0x1000, 0x0D80) + write(0x0802, 1) + write(0x1108, 1) + ticks(1, 1, 1)
        self.assertEqual(
            rehearse(trace), [report("END", 35, 1, 4), "NEG" + ZEROS, "POS 0001" + " 0000" * 7, "OUT 3e", ""]
        )

    def test_nothing(self):
        self.assertEqual(rehearse(b""), [report("END", 0), "NEG" + ZEROS, "POS" + ZEROS, "OUT 3f", ""])

    def test_negative_block(self):
        """The last counter, on DOWN of input 53 and gate 11."""
        trace = write(0x107F, 0xB000 | 53 << 6 | 54) + write(0x0802, 0x800) + ticks(1, 1 << 53, 0x800)
        self.assertEqual(rehearse(trace)[1:3], ["NEG" + " 0000" * 7 + " 8000", "POS" + ZEROS])


class Records(unittest.TestCase):
    """Each check on a record, in the paper's order; a good record stands before it."""

    BEFORE = write(0x0800, 7)
    AT = 7

    def stops(self, stop, record):
        self.assertEqual(rehearse(self.BEFORE + record)[0], report(stop, self.AT, 0, 1))

    def passes(self, record, done, refused):
        trace = self.BEFORE + record
        self.assertEqual(rehearse(trace)[0], report("END", len(trace), done, 2, refused))

    def test_header_cut(self):
        self.stops(9, bytes([2]))
        self.stops(9, bytes([1, 0]))
        self.stops(9, bytes([0xFF]))

    def test_unknown_tag(self):
        for tag in (0, 4, 0x80, 0xFF):
            self.stops(7, bytes([tag, 0, 4, 0, 0, 0, 0]))
        self.stops(7, bytes([4, 0, 99]))

    def test_wrong_length(self):
        self.stops(8, bytes([1, 0, 10]) + bytes(10))
        self.stops(8, bytes([2, 0, 5]) + bytes(5))
        self.stops(8, bytes([3, 1, 4]) + bytes(4))
        self.stops(8, bytes([2, 0, 0]))

    def test_payload_cut(self):
        self.stops(9, ticks(1)[:-1])
        self.stops(9, write(0x0800, 1)[:3])
        self.stops(9, event(1)[:6])
        self.stops(9, ticks(0)[:-1])

    def test_repeat_zero(self):
        self.stops(10, ticks(0))
        self.stops(10, ticks(0, 1 << 55))

    def test_bad_level(self):
        self.passes(ticks(3, 1 << 54), 0, 1)
        self.passes(ticks(3, 0, 1 << 12), 0, 1)

    def test_calls_refused(self):
        self.passes(write(0x0000, 1), 0, 1)
        self.passes(write(0x0700, 1), 0, 1)
        self.passes(write(0x0A02, 0x1020), 0, 1)

    def test_calls_accepted(self):
        self.passes(event(0x12345678), 0, 0)
        self.passes(write(0x0A02, 0x101F), 0, 0)
        self.passes(ticks(65_535), 65_535, 0)

    def test_queue_full(self):
        one = write(0x0A02, 0x1000) + write(0x0A02, 0)
        self.assertEqual(rehearse(one * 16)[0], report("END", 16 * 14, 0, 32))
        self.assertEqual(rehearse(one * 17)[0], report("END", 17 * 14, 0, 34, 1))
        self.assertEqual(rehearse(one * 16 + ticks(1) + one)[0], report("END", 17 * 14 + 14, 1, 35))


class Budget(unittest.TestCase):
    """1,000,000 ticks."""

    def test_exactly_spent(self):
        trace = ticks(50_000) * 20
        self.assertEqual(rehearse(trace)[0], report("END", len(trace), 1_000_000, 20))

    def test_one_too_many(self):
        trace = ticks(50_000) * 20
        self.assertEqual(rehearse(trace + ticks(1))[0], report("SPENT", len(trace), 1_000_000, 20))

    def test_bad_level_before_the_budget(self):
        trace = ticks(50_000) * 20 + ticks(1, 1 << 54)
        self.assertEqual(rehearse(trace)[0], report("END", len(trace), 1_000_000, 21, 1))


class Input(unittest.TestCase):
    """Standard input."""

    def test_rest_is_left_unread(self):
        """70,000 bytes in a pipe: a second reader finds those after the first 65,536."""
        trace = (write(0x0800, 7) * 10_000)[:70_000]
        reader, writer = os.pipe()
        child = os.fork()
        if child == 0:
            os.close(reader)
            with os.fdopen(writer, "wb") as pipe:
                pipe.write(trace)
            os._exit(0)
        os.close(writer)
        done = subprocess.run([PROGRAM], stdin=reader, capture_output=True, check=True, timeout=60)
        with os.fdopen(reader, "rb") as pipe:
            rest = pipe.read()
        os.waitpid(child, 0)
        self.assertEqual(rest, trace[INPUT_BYTES:])
        whole = INPUT_BYTES // 7
        self.assertEqual(done.stdout.decode().split("\n")[0], report(9, 7 * whole, 0, whole))

    def test_rest_of_a_file_is_left_unread(self):
        with open(os.path.join(ROOT, "target", "rehearse-input"), "w+b") as file:
            file.write(bytes(70_000))
            file.flush()
            file.seek(0)
            subprocess.run([PROGRAM], stdin=file, capture_output=True, check=True, timeout=60)
            self.assertEqual(os.lseek(file.fileno(), 0, os.SEEK_CUR), INPUT_BYTES)
        os.remove(file.name)

    def test_input_in_pieces(self):
        trace = write(0x1000, 0x0D80) + write(0x0802, 1) + ticks(1, 1, 1)
        with subprocess.Popen([PROGRAM], stdin=subprocess.PIPE, stdout=subprocess.PIPE) as child:
            for byte in trace:
                child.stdin.write(bytes([byte]))
                child.stdin.flush()
                time.sleep(0.001)
            child.stdin.close()
            self.assertEqual(child.stdout.readline().decode(), report("END", len(trace), 1, 3) + "\n")

    def test_input_that_cannot_be_read(self):
        folder = os.open(ROOT, os.O_RDONLY)
        done = subprocess.run([PROGRAM], stdin=folder, capture_output=True, check=False, timeout=60)
        os.close(folder)
        self.assertEqual(done.stdout, b"")
        self.assertIn(b"cannot read standard input", done.stderr)


class Time(unittest.TestCase):
    """It answers within a few seconds on the largest legal traces."""

    def takes_at_most(self, seconds, trace):
        start = time.monotonic()
        rehearse(trace)
        self.assertLess(time.monotonic() - start, seconds)

    def test_most_ticks(self):
        patching = b"".join(write(0x1000 + c, c % 54 | 54 << 6) for c in range(128)) + write(0x0802, 1)
        self.takes_at_most(10, patching + ticks(50_000, 1, 1) * 20)

    def test_most_records(self):
        self.takes_at_most(10, ticks(213, 1, 1) * (INPUT_BYTES // 14))
        self.takes_at_most(10, write(0x1000, 0x0D80) * (INPUT_BYTES // 7))


if __name__ == "__main__":
    unittest.main()
