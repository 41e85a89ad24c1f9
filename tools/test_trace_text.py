"""Tests of trace_text.py: `python3 tools/test_trace_text.py` from the project's folder."""
import random
import subprocess
import sys
import tempfile
import unittest
from pathlib import Path

sys.path.insert(0, str(Path(__file__).parent))
import trace_text as tool  # noqa: E402

ROOT = Path(__file__).parent.parent
EXAMPLES = ROOT / "examples"
REHEARSE = ROOT / "target" / "bin" / "rehearse"
CONVERT = ROOT / "target" / "bin" / "convert"
FIRST = bytes.fromhex("02000410000D80" "02000408020001" "02000411080001" "01000B0001000000000000010001")

# Traces of a generator: whole, cut in the header, cut in the payload, with events and many test signals.
SAMPLES = [
    "0200040801e628020004090000010200040802000002",
    "020004080200000200040a0300000200040a04080001000b00010000000000000000000200040a04000001000b0001000000",
    "0200040802000101000b000100000000000000000001000b000100000000000000000101000b00030000000000000000"
    "010200040a010001030004ffff0477",
    "020004080208000200041022bdb60200041003bdf60200041075bdb80200041076bdb90200041038be93020004101bbf"
    "3b020004106bb4fc0200041067bf760200041023bdbe020004107cbdbf01000b0005000000000000000800",
]


def writes(*pairs):
    """The records of writes, put together by hand."""
    return b"".join(b"\x02\x00\x04" + a.to_bytes(2, "big") + w.to_bytes(2, "big") for a, w in pairs)


def tick(repeat, inputs, gates):
    """A tick record, put together by hand."""
    return b"\x01\x00\x0b" + repeat.to_bytes(2, "big") + inputs.to_bytes(7, "big") + gates.to_bytes(2, "big")


def packed(*lines):
    """The trace of some lines."""
    return tool.pack("\n".join(lines).encode())


class RoundTrips(unittest.TestCase):
    """Packing what unpack prints gives the same bytes."""

    def same(self, trace):
        self.assertEqual(tool.pack(tool.unpack(trace).encode()), trace, trace.hex())

    def random_trace(self, dice):
        """Records of all kinds at random addresses, inside and outside the map."""
        parts = []
        for _ in range(dice.randrange(12)):
            address = dice.choice([dice.randrange(65536), dice.choice(tool.REGISTERS).first, tool.RELOAD])
            parts.append(dice.choice([
                writes((address, dice.randrange(65536))),
                b"\x03\x00\x04" + dice.randbytes(4),
                tick(dice.randrange(1, 65536), dice.getrandbits(56) & dice.getrandbits(56), dice.getrandbits(16)),
                tick(dice.randrange(3), 1 << dice.randrange(56), 1 << dice.randrange(16)),
            ]))
        return b"".join(parts)

    def damaged(self, dice, trace):
        """The trace with a byte changed, its end cut, or bytes put in."""
        place = dice.randrange(len(trace) + 1)
        return dice.choice([
            trace[:place],
            trace[:place] + dice.randbytes(1) + trace[place + 1:],
            trace[:place] + dice.randbytes(dice.randrange(1, 4)) + trace[place:],
        ])

    def test_random_bytes(self):
        dice = random.Random(1)
        for _ in range(2000):
            self.same(dice.randbytes(dice.randrange(60)))

    def test_random_bytes_of_records(self):
        """Bytes 0, 1, 2, 3, 4 and 11 only, so that headers are often right."""
        dice = random.Random(2)
        for _ in range(2000):
            self.same(bytes(dice.choice([0, 0, 0, 1, 2, 3, 4, 4, 11, 11]) for _ in range(dice.randrange(60))))

    def test_random_traces_whole_and_damaged(self):
        dice = random.Random(3)
        for _ in range(1500):
            trace = self.random_trace(dice)
            self.same(trace)
            self.same(self.damaged(dice, trace))

    def test_every_cut(self):
        for end in range(len(FIRST) + 1):
            self.same(FIRST[:end])

    def test_samples_with_every_cut(self):
        for sample in SAMPLES:
            trace = bytes.fromhex(sample)
            for end in range(len(trace) + 1):
                self.same(trace[:end])

    def test_repeat_zero(self):
        self.same(tick(0, 1, 1) + FIRST)

    def test_every_tag_and_length(self):
        for tag in range(256):
            for length in (0, 3, 4, 5, 10, 11, 12, 65535):
                self.same(bytes([tag]) + length.to_bytes(2, "big") + bytes(range(12)))

    def test_long(self):
        self.same(random.Random(4).randbytes(70000))
        self.same(FIRST * 2000)


class Lines(unittest.TestCase):
    """Each line against words computed by hand."""

    def gives(self, lines, expected):
        self.assertEqual(packed(*lines).hex(" "), expected.hex(" "))

    def test_plain_lines(self):
        self.gives(["", "# nothing", "   "], b"")
        self.gives(["write 0x1000 0x0D80 # patched"], bytes.fromhex("02000410000D80"))
        self.gives(["write 4096 3456"], bytes.fromhex("02000410000D80"))
        self.gives(["event 0x00A51203"], bytes.fromhex("03000400A51203"))
        self.gives(["bytes 02 00 04 10 00 0d", "bytes FF"], bytes.fromhex("02000410000DFF"))
        self.gives(["write 0 1\r", "\twrite  0\t2"], writes((0, 1), (0, 2)))

    def test_tick(self):
        self.gives(["tick 1"], bytes.fromhex("01000B0001000000000000000000"))
        self.gives(["tick 65535 inputs 0,3,5-7"], bytes.fromhex("01000BFFFF000000000000E90000"))
        self.gives(["tick 0x10 gates 0-11"], bytes.fromhex("01000B0010000000000000000FFF"))
        self.gives(["tick 2 inputs 53 gates 2,7"], bytes.fromhex("01000B0002200000000000000084"))
        self.gives(["tick 2 gates 2,7 inputs 53"], bytes.fromhex("01000B0002200000000000000084"))
        self.gives(["tick 1 inputs 54-55 gates 12,15"], bytes.fromhex("01000B0001C00000000000009000"))

    def test_patch(self):
        self.gives(["patch 0 up 0 down ground gate 0"], writes((0x1000, 0x0D80)))
        self.gives(["patch 127 up ground down ground gate none"], writes((0x107F, 0xFDB6)))
        self.gives(["patch 20 up 4 down 5 gate 2"], writes((0x1014, 0x2144)))
        self.gives(["patch 1 up 53 down 1000kHz gate 11"], writes((0x1001, 0xBEF5)))

    def test_test_signals(self):
        names = ["10kHz", "99kHz", "100kHz", "990kHz", "1000kHz", "9900kHz", "10000kHz", "24900kHz", "25000kHz"]
        for value, name in enumerate(names, 55):
            self.gives([f"patch 0 up {name} down 0 gate 0"], writes((0x1000, value)))

    def test_group_keeps_the_other_three(self):
        self.gives(["group 20 1", "group 22 2", "group 23 15", "group 20 0", "group 24 7"],
                   writes((0x1605, 0x0001), (0x1605, 0x0201), (0x1605, 0xF201), (0x1605, 0xF200), (0x1606, 0x0007)))
        self.gives(["write 0x161F 0x1234", "group 125 9"], writes((0x161F, 0x1234), (0x161F, 0x1294)))

    def test_threshold(self):
        self.gives(["threshold 3 20 positive 5 negative -5"],
                   writes((0x8650, 5), (0x8651, 0), (0x8652, 0xFFFB), (0x8653, 0xFFFF)))
        self.gives(["threshold 31 127 positive 2147483647 negative -2147483648"],
                   writes((0xBFFC, 0xFFFF), (0xBFFD, 0x7FFF), (0xBFFE, 0), (0xBFFF, 0x8000)))
        self.gives(["threshold 0 0 positive 65536 negative -65537"],
                   writes((0x8000, 0), (0x8001, 1), (0x8002, 0xFFFF), (0x8003, 0xFFFE)))

    def test_reload_clears_trigger_first(self):
        self.gives(["reload 3 1"], writes((0x0A02, 0x1103)))
        self.gives(["reload 3 1", "reload 31 15"], writes((0x0A02, 0x1103), (0x0A02, 0x0103), (0x0A02, 0x1F1F)))
        self.gives(["reload 3 1", "write 0x0A02 0", "reload 4 1"],
                   writes((0x0A02, 0x1103), (0x0A02, 0), (0x0A02, 0x1104)))

    def test_reload_after_a_refused_request(self):
        """Dataset 32 is refused and stores nothing, so TRIGGER is still clear."""
        self.gives(["write 0x0A02 0x1020", "reload 0 0"], writes((0x0A02, 0x1020), (0x0A02, 0x1000)))

    def test_select_keeps_what_was_selected(self):
        self.gives(["select 0 positive 0", "select 0 positive 15", "select 0 positive 16"],
                   writes((0x1108, 0x0001), (0x1108, 0x8001), (0x1109, 0x0001)))
        self.gives(["select 5 negative 127"], writes((0x11A7, 0x8000)))
        self.gives(["select 1 gate-error 7", "select 1 gate-error 0"], writes((0x1130, 0x0080), (0x1130, 0x0081)))
        self.gives(["select 2 watchdog 53", "select 2 watchdog 17"], writes((0x1154, 0x0020), (0x1152, 0x0002)))
        self.gives(["select 3 forward 11"], writes((0x1175, 0x0800)))

    def test_gate_lines(self):
        self.gives(["mode 0 direct", "mode 11 direct", "mode 0 logic"],
                   writes((0x0802, 0x0001), (0x0802, 0x0801), (0x0802, 0x0800)))
        self.gives(["prepare 7 1", "prepare 2 1", "prepare 7 0"],
                   writes((0x0A03, 0x0080), (0x0A03, 0x0084), (0x0A03, 0x0004)))
        self.gives(["recover 7 1", "recover 7 0"], writes((0x0A04, 0x0080), (0x0A04, 0)))
        self.gives(["timeout 0 65535", "timeout 11 10"], writes((0x0804, 0xFFFF), (0x080F, 10)))

    def test_unused_bits_are_not_kept(self):
        self.gives(["write 0x0802 0xF001", "mode 1 direct"], writes((0x0802, 0xF001), (0x0802, 0x0003)))

    def test_control_lines(self):
        self.gives(["autoreset 1", "reset 1", "reset 0", "autoreset 0"],
                   writes((0x0801, 2), (0x0801, 3), (0x0801, 2), (0x0801, 0)))
        self.gives(["watchdog-timeout 1000"], writes((0x0800, 1000)))
        self.gives(["watchdog-reset 0 1", "watchdog-reset 17 1", "watchdog-reset 53 1", "watchdog-reset 0 0"],
                   writes((0x0810, 1), (0x0811, 2), (0x0813, 0x20), (0x0810, 0)))
        self.gives(["events on", "events off", "key 0x00A5"], writes((0x0A01, 1), (0x0A01, 0), (0x0A00, 0x00A5)))


class BadLines(unittest.TestCase):
    """Each bad line is named with what is wrong."""

    CASES = {
        "pach 1": 'unknown line "pach" (known: write, tick, event, bytes, patch,',
        "write 1": "expected: write ADDRESS WORD",
        "write 0x10000 0": "address 0x10000 is out of range (0 to 65535)",
        "write 0 -1": "word -1 is out of range (0 to 65535)",
        "write 10h 0": 'address "10h" is not a number (decimal, or hexadecimal with 0x)',
        "event": "expected: event TAG",
        "event 0x100000000": "tag 0x100000000 is out of range (0 to 4294967295)",
        "tick": "expected: tick REPEAT [inputs LIST] [gates LIST]",
        "tick 1 inputs": "expected: tick REPEAT [inputs LIST] [gates LIST]",
        "tick 1 lines 3": "expected: tick REPEAT [inputs LIST] [gates LIST]",
        "tick 1 inputs 1 inputs 2": "expected: tick REPEAT [inputs LIST] [gates LIST]",
        "tick 0": "repeat 0 stops a run (10); to rehearse that, write the record with bytes",
        "tick 65536": "repeat 65536 is out of range (1 to 65535)",
        "tick 1 inputs 56": "input 56 is out of range (0 to 55)",
        "tick 1 gates 16": "gate 16 is out of range (0 to 15)",
        "tick 1 inputs 7-5": "input range 7-5 runs backwards",
        "tick 1 inputs 1,,2": 'input "" is not a number',
        "bytes": "expected: bytes HEX HEX ..",
        "bytes 0x01": 'byte "0x01" is not two hexadecimal digits',
        "bytes 1": 'byte "1" is not two hexadecimal digits',
        "patch 1 up 2 down 3": "expected: patch COUNTER up SEL down SEL gate GATE",
        "patch 1 down 2 up 3 gate 0": "expected: patch COUNTER up SEL down SEL gate GATE",
        "patch 128 up 2 down 3 gate 0": "counter 128 is out of range (0 to 127)",
        "patch 1 up 54 down 3 gate 0": 'up "54" is no selection (0 to 53, ground, 10kHz, 99kHz,',
        "patch 1 up 2 down 1MHz gate 0": 'down "1MHz" is no selection (0 to 53, ground,',
        "patch 1 up 2 down 3 gate 12": 'gate "12" is no selection (0 to 11, none)',
        "group 1": "expected: group COUNTER GROUP",
        "group 1 16": "group 16 is out of range (0 to 15)",
        "threshold 32 0 positive 1 negative -1": "dataset 32 is out of range (0 to 31)",
        "threshold 0 0 positive 2147483648 negative -1": "positive 2147483648 is out of range",
        "threshold 0 0 positive 1 negative -2147483649": "negative -2147483649 is out of range",
        "threshold 0 0 negative 1 positive 1": "expected: threshold DATASET COUNTER positive N negative N",
        "reload 32 0": "dataset 32 is out of range (0 to 31)",
        "reload 0 16": "group 16 is out of range (0 to 15)",
        "select 6 positive 0": "output 6 is out of range (0 to 5)",
        "select 0 overflow 0": 'signal "overflow" is not one of negative, positive, gate-error, watchdog, forward',
        "select 0 positive 128": "counter 128 is out of range (0 to 127)",
        "select 0 watchdog 54": "input 54 is out of range (0 to 53)",
        "select 0 forward 12": "gate 12 is out of range (0 to 11)",
        "mode 0 open": "expected: mode GATE direct|logic",
        "mode 12 direct": "gate 12 is out of range (0 to 11)",
        "timeout 0 65536": "timeout 65536 is out of range (0 to 65535)",
        "prepare 0 2": "expected: prepare GATE 0|1",
        "recover 0": "expected: recover GATE 0|1",
        "watchdog-timeout -1": "timeout -1 is out of range (0 to 65535)",
        "watchdog-reset 54 1": "input 54 is out of range (0 to 53)",
        "autoreset on": "expected: autoreset 0|1",
        "reset": "expected: reset 0|1",
        "events 1": "expected: events on|off",
        "key 0x10000": "key 0x10000 is out of range (0 to 65535)",
    }

    def test_messages(self):
        for line, message in self.CASES.items():
            with self.subTest(line), self.assertRaises(tool.BadLine) as caught:
                packed("# first", "", line, "tick 1")
            self.assertTrue(str(caught.exception).startswith(f"line 3: {message}"), str(caught.exception))

    def test_every_form_has_a_bad_case(self):
        self.assertEqual(set(tool.FORMS) - {line.split()[0] for line in self.CASES}, set())

    def test_not_text(self):
        with self.assertRaisesRegex(tool.BadLine, "^line 2: not text in UTF-8$"):
            tool.pack(b"tick 1\n\xff\xfe\n")


class Names(unittest.TestCase):
    """What unpack says about a record."""

    def says(self, trace, *lines):
        self.assertEqual(tool.unpack(trace).splitlines(), list(lines))

    def test_first_example(self):
        self.says(FIRST,
                  "write 0x1000 0x0D80  # offset 0: input register of counter 0: up input 0, down ground, gate 0",
                  "write 0x0802 0x0001  # offset 7: gates in direct mode: 0",
                  "write 0x1108 0x0001  # offset 14: output 0 trips on positive overflow of counters 0 to 15: 0",
                  "tick 1 inputs 0 gates 0  # offset 21",
                  "# offset 35: end")

    def test_refused(self):
        self.says(writes((0x0803, 1), (0x0700, 1)) + tick(2, 1 << 54, 0) + tick(3, 0, 1 << 12),
                  "write 0x0803 0x0001  # offset 0: not in the map: refused 2",
                  "write 0x0700 0x0001  # offset 7: negative overflow of counters 0 to 15, read-only: refused 3",
                  "tick 2 inputs 54  # offset 14: level on a line that does not exist: refused 6",
                  "tick 3 gates 12  # offset 28: level on a line that does not exist: refused 6",
                  "# offset 42: end")

    def test_dataset_above_31(self):
        self.says(writes((0x0A02, 0x1120), (0x0A02, 0x0120)) + bytes.fromhex("03000400A51120"),
                  "write 0x0A02 0x1120  # offset 0: threshold reload: dataset 32, group 1, TRIGGER 1 "
                  "(refused 4 if TRIGGER was 0)",
                  "write 0x0A02 0x0120  # offset 7: threshold reload: dataset 32, group 1, TRIGGER 0",
                  "event 0x00A51120  # offset 14: key 0x00A5, reload dataset 32 into group 1 (refused 4 if taken)",
                  "# offset 21: end")

    def test_stops(self):
        for damage, stop in (("07", 9), ("070000", 7), ("020005", 8), ("02000410", 9), ("01000B" + "00" * 11, 10)):
            lines = tool.unpack(FIRST + bytes.fromhex(damage)).splitlines()
            self.assertEqual(lines[4], f"# offset 35: a run stops here with {stop} ({tool.STOPS[stop]})")
            self.assertTrue(lines[5].startswith("bytes "), lines[5])

    def test_events_and_other_words(self):
        self.says(bytes.fromhex("03000400A51203" "030004FFFF2081") + writes((0x0A02, 0x1103), (0x1605, 0x0201),
                                                                            (0x0813, 0xFF21), (0xBFFF, 0), (0x136B, 0), (0x0905, 1)),
                  "event 0x00A51203  # offset 0: key 0x00A5, reload dataset 3 into group 2",
                  "event 0xFFFF2081  # offset 7: key 0xFFFF, prepare gates 0,7",
                  "write 0x0A02 0x1103  # offset 14: threshold reload: dataset 3, group 1, TRIGGER 1",
                  "write 0x1605 0x0201  # offset 21: groups of counters 20 to 23: 1, 0, 2, 0",
                  "write 0x0813 0xFF21  # offset 28: watchdog resets of inputs 48 to 53: 48,53",
                  "write 0xBFFF 0x0000  # offset 35: dataset 31, counter 127: negative threshold, high word",
                  "write 0x136B 0x0000  # offset 42: raw count of input 53, high word, read-only: refused 3",
                  "write 0x0905 0x0001  # offset 49: waiting reload requests, read-only: refused 3",
                  "# offset 56: end")

    def test_size_of_the_map(self):
        """The map has 16,706 registers to read and write and 915 to read only, none twice."""
        writable = sum(r.last - r.first + 1 for r in tool.REGISTERS if r.writable)
        read_only = sum(r.last - r.first + 1 for r in tool.REGISTERS if not r.writable)
        self.assertEqual((writable, read_only), (16706, 915))
        addresses = {a for r in tool.REGISTERS for a in range(r.first, r.last + 1)}
        self.assertEqual(len(addresses), 16706 + 915)


class Commands(unittest.TestCase):
    """The program as a user starts it."""

    def start(self, given, *words):
        return subprocess.run([sys.executable, tool.__file__, *words], input=given, capture_output=True, check=False)

    def test_pack_and_unpack(self):
        text = self.start(FIRST, "unpack")
        self.assertEqual((text.returncode, text.stderr), (0, b""))
        trace = self.start(text.stdout, "pack")
        self.assertEqual((trace.returncode, trace.stdout, trace.stderr), (0, FIRST, b""))

    def test_bad_text(self):
        done = self.start(b"tick 1\ntick x\n", "pack")
        self.assertEqual((done.returncode, done.stdout), (2, b""))
        self.assertEqual(done.stderr, b'line 2: repeat "x" is not a number (decimal, or hexadecimal with 0x)\n')

    def test_usage(self):
        for words in ([], ["help"], ["pack", "file"]):
            done = self.start(b"", *words)
            self.assertEqual((done.returncode, done.stdout), (2, b""))
            self.assertIn(b"trace_text.py pack", done.stderr)

    def test_note_on_a_long_trace(self):
        done = self.start(b"tick 1\n" * 4682, "pack")
        self.assertEqual((done.returncode, len(done.stdout)), (0, 65548))
        self.assertEqual(done.stderr, b"note: 65548 bytes; rehearse runs the first 65536\n")


class Examples(unittest.TestCase):
    """The stored examples belong together."""

    def test_first(self):
        self.assertEqual((EXAMPLES / "first.trace").read_bytes(), FIRST)

    def test_traces_are_packed_texts(self):
        texts = sorted(EXAMPLES.glob("*.txt"))
        self.assertEqual(len(texts), 5)
        for text in texts:
            self.assertEqual(tool.pack(text.read_bytes()), text.with_suffix(".trace").read_bytes(), text.name)

    @unittest.skipUnless(REHEARSE.exists(), "rehearse is not built")
    def test_printed_lines(self):
        for trace in sorted(EXAMPLES.glob("*.trace")):
            done = subprocess.run([REHEARSE], input=trace.read_bytes(), capture_output=True, check=True)
            self.assertEqual(done.stdout, trace.with_suffix(".out").read_bytes(), trace.name)


@unittest.skipUnless(REHEARSE.exists(), "rehearse is not built")
class Neighbour(unittest.TestCase):
    """Section 1 shows the same after every tick, whatever section 2 does."""

    def shown_by_section_1(self, name):
        """After each tick line: both overflow bits of counter 20, and output 0."""
        lines, shown = (EXAMPLES / name).read_text().splitlines(), []
        for place in (i for i, line in enumerate(lines, 1) if line.startswith("tick ")):
            done = subprocess.run([REHEARSE], input=packed(*lines[:place]), capture_output=True, check=True)
            _, negative, positive, output = (line.split() for line in done.stdout.splitlines())
            shown.append((int(negative[2], 16) >> 4 & 1, int(positive[2], 16) >> 4 & 1, int(output[1], 16) & 1))
        return shown

    def test_same_after_every_tick(self):
        alone = self.shown_by_section_1("two_sections.txt")
        self.assertEqual(alone[-3:], [(0, 1, 0)] * 3)
        self.assertEqual(alone[:-3], [(0, 0, 1)] * (len(alone) - 3))
        self.assertEqual(self.shown_by_section_1("two_sections_neighbour_changed.txt"), alone)


@unittest.skipUnless(REHEARSE.exists() and CONVERT.exists(), "rehearse or convert is not built")
class Guide(unittest.TestCase):
    """Every command of the user guide prints what the guide shows below it."""

    def commands(self):
        """Each command (after `$`) with the indented lines that follow it."""
        found = []
        for line in (ROOT / "docs" / "USER-GUIDE.md").read_text().splitlines():
            if line.startswith("    $ "):
                found.append((line[6:], []))
            elif line.startswith("    ") and found and found[-1]:
                found[-1][1].append(line[4:])
            else:
                found.append(())
        return [pair for pair in found if pair]

    def test_commands(self):
        self.assertGreater(len(self.commands()), 15)
        with tempfile.TemporaryDirectory() as folder:
            for part in ("docs", "examples", "tools", "target"):
                (Path(folder) / part).symlink_to(ROOT / part)
            for command, lines in self.commands():
                done = subprocess.run(command, shell=True, cwd=folder, text=True, check=False,
                                      stdout=subprocess.PIPE, stderr=subprocess.STDOUT)
                self.assertEqual(done.stdout.splitlines(), lines, command)


if __name__ == "__main__":
    unittest.main()
