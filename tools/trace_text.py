"""Turns a rehearsal written as text into a trace, and a trace into text.

    python3 tools/trace_text.py pack   < rehearsal.txt > rehearsal.trace
    python3 tools/trace_text.py unpack < rehearsal.trace

FORMS below has every line that the text may hold; docs/USER-GUIDE.md explains
them. Packing what unpack prints gives the same bytes, for every byte string.
A bad line is named on standard error, with exit status 2 and no output.
"""
import re
import sys
from typing import Callable, NamedTuple

TICK, WRITE, EVENT = 0x01, 0x02, 0x03
PAYLOAD_BYTES = {TICK: 11, WRITE: 4, EVENT: 4}
HEADER_BYTES = 3
PROGRAM_BYTES = 65536

COUNTERS, INPUTS, GATES, OUTPUTS, DATASETS, GROUPS = 128, 54, 12, 6, 32, 16
# A tick record has room for these, so that a level on a missing line can be rehearsed.
INPUT_BITS, GATE_BITS = 56, 16

WATCHDOG_TIMEOUT, COUNTERS_CONTROL, GATE_MODE = 0x0800, 0x0801, 0x0802
GATE_TIMEOUT, WATCHDOG_RESET = 0x0804, 0x0810
EVENT_KEY, EVENT_CONTROL, RELOAD, PREPARE, RECOVER = 0x0A00, 0x0A01, 0x0A02, 0x0A03, 0x0A04
INPUT, OUTPUT, GROUP, MEMORY = 0x1000, 0x1100, 0x1600, 0x8000

RESET_BIT, AUTORESET_BIT, TRIGGER = 0x0001, 0x0002, 0x1000
GROUND, NO_GATE = 54, 15
TEST_SIGNALS = {f"{f}kHz": 55 + i for i, f in enumerate((10, 99, 100, 990, 1000, 9900, 10000, 24900, 25000))}
SELECTIONS = {"ground": GROUND, **TEST_SIGNALS}

# Signal of a select line: first word in the output's block, how many there are, what they are.
SIGNALS = {
    "negative": (0x00, COUNTERS, "counter"),
    "positive": (0x08, COUNTERS, "counter"),
    "gate-error": (0x10, GATES, "gate"),
    "watchdog": (0x11, INPUTS, "input"),
    "forward": (0x15, GATES, "gate"),
}
STOPS = {7: "unknown record tag", 8: "length wrong for the tag", 9: "header or payload cut", 10: "repeat 0"}


class BadLine(Exception):
    """A line of text that cannot be packed; its message says why."""


# ---- The register map


class Register(NamedTuple):
    """A run of registers: addresses, used bits, whether it takes writes, name of register k.

    Where each bit stands for one counter, input or gate, `lowest` is the number of the first one.
    """

    first: int
    last: int
    mask: int
    writable: bool
    name: Callable[[int], str]
    lowest: int | None = None


def span(thing: str, width: int, most: int) -> Callable[[int], str]:
    """A name such as `positive overflow of counters 16 to 31` for register k."""
    return lambda k: f"{thing} {width * k} to {min(width * k + width, most) - 1}"


def fixed(name: str) -> Callable[[int], str]:
    """The same name for every register of a run."""
    return lambda k: name


def selection_registers(output: int) -> list[Register]:
    """The 22 registers that say which signals trip an output."""
    base, to = OUTPUT + 0x20 * output, f"output {output} trips on"
    return [
        Register(base, base + 0x07, 0xFFFF, True, span(f"{to} negative overflow of counters", 16, COUNTERS), 0),
        Register(base + 0x08, base + 0x0F, 0xFFFF, True, span(f"{to} positive overflow of counters", 16, COUNTERS), 0),
        Register(base + 0x10, base + 0x10, 0x0FFF, True, fixed(f"{to} errors of gates"), 0),
        Register(base + 0x11, base + 0x13, 0xFFFF, True, span(f"{to} watchdog errors of inputs", 16, INPUTS), 0),
        Register(base + 0x14, base + 0x14, 0x003F, True, fixed(f"{to} watchdog errors of inputs 48 to 53"), 48),
        Register(base + 0x15, base + 0x15, 0x0FFF, True, fixed(f"{to} low forwarded gate inputs"), 0),
    ]


def memory_name(word: int) -> str:
    """The name of a word of the threshold memory."""
    part = ("positive threshold, low word", "positive threshold, high word",
            "negative threshold, low word", "negative threshold, high word")[word % 4]
    return f"dataset {word // 512}, counter {word % 512 // 4}: {part}"


REGISTERS = [
    Register(0x0630, 0x0635, 0x0FFF, True, span("LED states of modules", 2, 12)),
    Register(0x0638, 0x063D, 0xFFFF, False, span("IDs of modules", 2, 12)),
    Register(0x0700, 0x0707, 0xFFFF, False, span("negative overflow of counters", 16, COUNTERS)),
    Register(0x0708, 0x070F, 0xFFFF, False, span("positive overflow of counters", 16, COUNTERS)),
    Register(0x0710, 0x0710, 0x0FFF, False, fixed("gate errors")),
    Register(0x0711, 0x0714, 0xFFFF, False, span("watchdog errors of inputs", 16, INPUTS)),
    Register(0x0717, 0x0717, 0x0FFF, False, fixed("gate inputs")),
    Register(0x0718, 0x0718, 0x0FFF, False, fixed("gate outputs")),
    Register(0x0719, 0x0719, 0x003F, False, fixed("interlock outputs")),
    Register(0x071A, 0x071C, 0xFFFF, False, span("states of gates", 4, GATES)),
    Register(WATCHDOG_TIMEOUT, 0x0800, 0xFFFF, True, fixed("watchdog timeout, in 128 ticks")),
    Register(COUNTERS_CONTROL, 0x0801, 0x0003, True, fixed("RESET (bit 0) and AUTORESET (bit 1)")),
    Register(GATE_MODE, 0x0802, 0x0FFF, True, fixed("gates in direct mode"), 0),
    Register(GATE_TIMEOUT, 0x080F, 0xFFFF, True, lambda k: f"timeout of gate {k}, in 16,384 ticks"),
    Register(WATCHDOG_RESET, 0x0812, 0xFFFF, True, span("watchdog resets of inputs", 16, INPUTS), 0),
    Register(0x0813, 0x0813, 0x003F, True, fixed("watchdog resets of inputs 48 to 53"), 48),
    Register(0x0900, 0x0901, 0xFFFF, False, lambda k: f"last event tag, {('low', 'high')[k]} word"),
    Register(0x0902, 0x0902, 0xFFFF, False, fixed("last accepted tag")),
    Register(0x0903, 0x0903, 0x0003, False, fixed("loader state")),
    Register(0x0904, 0x0904, 0x007F, False, fixed("last counter handled by the loader")),
    Register(0x0905, 0x0905, 0x001F, False, fixed("waiting reload requests")),
    Register(EVENT_KEY, 0x0A00, 0xFFFF, True, fixed("event key")),
    Register(EVENT_CONTROL, 0x0A01, 0x0001, True, fixed("events on (bit 0)")),
    Register(RELOAD, 0x0A02, 0x1FFF, True, fixed("threshold reload")),
    Register(PREPARE, 0x0A03, 0x0FFF, True, fixed("prepare bits of gates"), 0),
    Register(RECOVER, 0x0A04, 0x0FFF, True, fixed("recover bits of gates"), 0),
    Register(INPUT, 0x107F, 0xFFFF, True, lambda k: f"input register of counter {k}"),
    *(register for output in range(OUTPUTS) for register in selection_registers(output)),
    Register(0x1200, 0x12FF, 0xFFFF, False, lambda k: f"count of counter {k // 2}, {('low', 'high')[k % 2]} word"),
    Register(0x1300, 0x136B, 0xFFFF, False, lambda k: f"raw count of input {k // 2}, {('low', 'high')[k % 2]} word"),
    Register(GROUP, 0x161F, 0xFFFF, True, span("groups of counters", 4, COUNTERS)),
    Register(0x1800, 0x19FF, 0xFFFF, False, lambda k: f"loaded thresholds of counter {k // 4}"),
    Register(MEMORY, 0xBFFF, 0xFFFF, True, memory_name),
]


def register_at(address: int) -> Register | None:
    """The registers that hold this address, or None where the map has none."""
    return next((r for r in REGISTERS if r.first <= address <= r.last), None)


# ---- Reading parts of a line


def number(what: str, text: str, least: int, most: int) -> int:
    """A number within its range, decimal or hexadecimal with 0x."""
    if not re.fullmatch(r"-?[0-9]{1,40}|0x[0-9A-Fa-f]{1,40}", text):
        raise BadLine(f'{what} "{text}" is not a number (decimal, or hexadecimal with 0x)')
    value = int(text, 16 if text.startswith("0x") else 10)
    if not least <= value <= most:
        raise BadLine(f"{what} {text} is out of range ({least} to {most})")
    return value


def index(what: str, text: str, count: int) -> int:
    """The number of one of `count` things, which are numbered from 0."""
    return number(what, text, 0, count - 1)


def word16(what: str, text: str) -> int:
    """A 16-bit word."""
    return number(what, text, 0, 0xFFFF)


def bits_of_list(what: str, text: str, count: int) -> int:
    """The bits of a list such as 0,3,5-7."""
    bits = 0
    for part in text.split(","):
        first, dash, last = part.partition("-")
        low = index(what, first, count)
        high = index(what, last, count) if dash else low
        if high < low:
            raise BadLine(f"{what} range {part} runs backwards")
        bits |= (1 << high + 1) - (1 << low)
    return bits


def selection(what: str, text: str) -> int:
    """The six bits that select an input, ground or a test signal."""
    if text in SELECTIONS:
        return SELECTIONS[text]
    if not re.fullmatch("[0-9]{1,9}", text) or int(text) >= INPUTS:
        raise BadLine(f'{what} "{text}" is no selection (0 to {INPUTS - 1}, {", ".join(SELECTIONS)})')
    return int(text)


def gate_selection(text: str) -> int:
    """The four bits that select a gate or none."""
    if text == "none":
        return NO_GATE
    if not re.fullmatch("[0-9]{1,9}", text) or int(text) >= GATES:
        raise BadLine(f'gate "{text}" is no selection (0 to {GATES - 1}, none)')
    return int(text)


def arguments(form: str, words: list[str]) -> list[str]:
    """What stands in a line where its form has a name in capitals or a choice such as on|off."""
    pattern = form.split()
    fits = len(words) == len(pattern) and all(
        wanted.isupper() or word in wanted.split("|") for wanted, word in zip(pattern, words))
    if not fits:
        raise BadLine(f"expected: {form}")
    return [word for wanted, word in zip(pattern, words) if wanted.isupper() or "|" in wanted]


# ---- Lines that become records. `kept` has the words that earlier lines have written, by address.


def record(tag: int, *fields: tuple[int, int]) -> bytes:
    """A record of the given tag; each field is a number and its size in bytes."""
    payload = b"".join(value.to_bytes(size, "big") for value, size in fields)
    return bytes([tag]) + len(payload).to_bytes(2, "big") + payload


def takes(kept: dict[int, int], address: int, word: int) -> bool:
    """Whether the crate stores this word (a full queue, refusal 5, is not looked at)."""
    register = register_at(address)
    if register is None or not register.writable:
        return False
    asks = address == RELOAD and word & TRIGGER and not kept.get(RELOAD, 0) & TRIGGER
    return not (asks and word & 0xFF >= DATASETS)


def write(kept: dict[int, int], address: int, word: int) -> bytes:
    """A write record; the word is kept for later lines."""
    if takes(kept, address, word):
        kept[address] = word & register_at(address).mask
    return record(WRITE, (address, 2), (word, 2))


def put(kept: dict[int, int], address: int, mask: int, value: int) -> bytes:
    """A write record that changes the bits of the mask and leaves the others as earlier lines set them."""
    return write(kept, address, kept.get(address, 0) & ~mask | value)


def put_bit(kept: dict[int, int], first: int, bit: int, on: bool) -> bytes:
    """A write record that changes one bit of a block of registers, 16 bits in each."""
    mask = 1 << bit % 16
    return put(kept, first + bit // 16, mask, mask if on else 0)


def write_line(kept, address, word):
    """Any word to any address."""
    return write(kept, word16("address", address), word16("word", word))


def event_line(kept, tag):
    """An event tag: key, command, parameter."""
    return record(EVENT, (number("tag", tag, 0, 0xFFFFFFFF), 4))


def tick_line(kept, words):
    """Ticks with the named lines high and all others low."""
    levels = {"inputs": 0, "gates": 0}
    counts = {"inputs": INPUT_BITS, "gates": GATE_BITS}
    rest = words[2:]
    names = rest[0::2]
    if len(words) < 2 or len(rest) % 2 or any(name not in levels for name in names) or len(set(names)) < len(names):
        raise BadLine(f"expected: {FORMS['tick'][0]}")
    if re.fullmatch("0+|0x0+", words[1]):
        raise BadLine("repeat 0 stops a run (10); to rehearse that, write the record with bytes")
    repeat = number("repeat", words[1], 1, 0xFFFF)
    for name, text in zip(names, rest[1::2]):
        levels[name] = bits_of_list(name[:-1], text, counts[name])
    return record(TICK, (repeat, 2), (levels["inputs"], 7), (levels["gates"], 2))


def bytes_line(kept, words):
    """Raw bytes; what they write is not kept for later lines."""
    if len(words) < 2:
        raise BadLine(f"expected: {FORMS['bytes'][0]}")
    for text in words[1:]:
        if not re.fullmatch(r"[0-9A-Fa-f]{2}", text):
            raise BadLine(f'byte "{text}" is not two hexadecimal digits')
    return bytes(int(text, 16) for text in words[1:])


def patch_line(kept, counter, up, down, gate):
    """A counter's input register: bits 5-0 up, 11-6 down, 15-12 gate."""
    word = selection("up", up) | selection("down", down) << 6 | gate_selection(gate) << 12
    return write(kept, INPUT + index("counter", counter, COUNTERS), word)


def group_line(kept, counter, group):
    """A counter's group, four bits of a register that it shares with three others."""
    n = index("counter", counter, COUNTERS)
    shift = 4 * (n % 4)
    return put(kept, GROUP + n // 4, 0xF << shift, index("group", group, GROUPS) << shift)


def threshold_line(kept, dataset, counter, positive, negative):
    """A counter's four words of a dataset in the threshold memory."""
    first = MEMORY + 512 * index("dataset", dataset, DATASETS) + 4 * index("counter", counter, COUNTERS)
    least, most = -(1 << 31), (1 << 31) - 1
    pair = (number("positive", positive, least, most), number("negative", negative, least, most))
    words = [value >> shift & 0xFFFF for value in pair for shift in (0, 16)]
    return b"".join(write(kept, first + i, word) for i, word in enumerate(words))


def reload_line(kept, dataset, group):
    """A reload request; TRIGGER is cleared first if an earlier line has set it."""
    word = TRIGGER | index("group", group, GROUPS) << 8 | index("dataset", dataset, DATASETS)
    cleared = put(kept, RELOAD, TRIGGER, 0) if kept.get(RELOAD, 0) & TRIGGER else b""
    return cleared + write(kept, RELOAD, word)


def select_line(kept, output, signal, which):
    """One more signal that trips an output."""
    if signal not in SIGNALS:
        raise BadLine(f'signal "{signal}" is not one of {", ".join(SIGNALS)}')
    start, count, what = SIGNALS[signal]
    block = OUTPUT + 0x20 * index("output", output, OUTPUTS)
    return put_bit(kept, block + start, index(what, which, count), True)


def gate_bit_line(address):
    """A line that changes a gate's bit in a register."""
    return lambda kept, gate, value: put_bit(kept, address, index("gate", gate, GATES), value in ("1", "direct"))


def control_line(mask):
    """A line that changes RESET or AUTORESET."""
    return lambda kept, value: put(kept, COUNTERS_CONTROL, mask, mask * int(value))


def timeout_line(kept, gate, timeout):
    """A gate's timeout, in 16,384 ticks."""
    return write(kept, GATE_TIMEOUT + index("gate", gate, GATES), word16("timeout", timeout))


def watchdog_reset_line(kept, line, value):
    """An input's watchdog reset bit."""
    return put_bit(kept, WATCHDOG_RESET, index("input", line, INPUTS), value == "1")


# Every line of the text: its form, and the function that gives its records.
FORMS = {
    "write": ("write ADDRESS WORD", write_line),
    "tick": ("tick REPEAT [inputs LIST] [gates LIST]", tick_line),
    "event": ("event TAG", event_line),
    "bytes": ("bytes HEX HEX ..", bytes_line),
    "patch": ("patch COUNTER up SEL down SEL gate GATE", patch_line),
    "group": ("group COUNTER GROUP", group_line),
    "threshold": ("threshold DATASET COUNTER positive N negative N", threshold_line),
    "reload": ("reload DATASET GROUP", reload_line),
    "select": ("select OUTPUT SIGNAL NUMBER", select_line),
    "mode": ("mode GATE direct|logic", gate_bit_line(GATE_MODE)),
    "timeout": ("timeout GATE N", timeout_line),
    "prepare": ("prepare GATE 0|1", gate_bit_line(PREPARE)),
    "recover": ("recover GATE 0|1", gate_bit_line(RECOVER)),
    "watchdog-timeout": ("watchdog-timeout N", lambda kept, n: write(kept, WATCHDOG_TIMEOUT, word16("timeout", n))),
    "watchdog-reset": ("watchdog-reset INPUT 0|1", watchdog_reset_line),
    "autoreset": ("autoreset 0|1", control_line(AUTORESET_BIT)),
    "reset": ("reset 0|1", control_line(RESET_BIT)),
    "events": ("events on|off", lambda kept, value: write(kept, EVENT_CONTROL, int(value == "on"))),
    "key": ("key WORD", lambda kept, key: write(kept, EVENT_KEY, word16("key", key))),
}


def pack_line(kept: dict[int, int], line: str) -> bytes:
    """The bytes of one line of text."""
    words = line.split("#")[0].split()
    if not words:
        return b""
    if words[0] not in FORMS:
        raise BadLine(f'unknown line "{words[0]}" (known: {", ".join(FORMS)})')
    form, handle = FORMS[words[0]]
    if handle in (tick_line, bytes_line):
        return handle(kept, words)
    return handle(kept, *arguments(form, words))


def pack(text: bytes) -> bytes:
    """The trace of a text."""
    kept, trace = {}, bytearray()
    for place, line in enumerate(text.split(b"\n"), 1):
        try:
            trace += pack_line(kept, line.decode("utf-8"))
        except UnicodeDecodeError:
            raise BadLine(f"line {place}: not text in UTF-8") from None
        except BadLine as problem:
            raise BadLine(f"line {place}: {problem}") from None
    return bytes(trace)


# ---- From a trace to text


def stop_at(trace: bytes, offset: int) -> int:
    """The number with which a run stops at the record here, or 0 if the record is whole."""
    left = trace[offset:offset + HEADER_BYTES + max(PAYLOAD_BYTES.values())]
    if len(left) < HEADER_BYTES:
        return 9
    if left[0] not in PAYLOAD_BYTES:
        return 7
    length = PAYLOAD_BYTES[left[0]]
    if int.from_bytes(left[1:3], "big") != length:
        return 8
    if len(left) < HEADER_BYTES + length:
        return 9
    return 10 if left[0] == TICK and left[3:5] == b"\0\0" else 0


def list_of_bits(bits: int) -> str:
    """A list such as 0,3,5-7 for the bits that are set."""
    parts, i = [], 0
    while bits >> i:
        first = i
        while bits >> i & 1:
            i += 1
        if i > first:
            parts.append(str(first) if i == first + 1 else f"{first}-{i - 1}")
        i += 1
    return ",".join(parts)


def tick_text(payload: bytes) -> tuple[str, str]:
    """The line of a tick record and what is to be said about it."""
    inputs, gates = int.from_bytes(payload[2:9], "big"), int.from_bytes(payload[9:], "big")
    line = f"tick {int.from_bytes(payload[:2], 'big')}"
    line += f" inputs {list_of_bits(inputs)}" if inputs else ""
    line += f" gates {list_of_bits(gates)}" if gates else ""
    missing = inputs >> INPUTS or gates >> GATES
    return line, "level on a line that does not exist: refused 6" if missing else ""


def selection_name(value: int) -> str:
    """A selection in plain words."""
    return next((name for name, v in SELECTIONS.items() if v == value), f"input {value}")


def word_meaning(register: Register, address: int, word: int) -> str:
    """What a word says, for the registers that are hard to read in hexadecimal."""
    if INPUT <= address < INPUT + COUNTERS:
        gate = word >> 12
        gates = f"gate {gate}" if gate < GATES else "no gate"
        return f": up {selection_name(word & 63)}, down {selection_name(word >> 6 & 63)}, {gates}"
    if GROUP <= address < GROUP + COUNTERS // 4:
        return ": " + ", ".join(str(word >> shift & 15) for shift in (0, 4, 8, 12))
    if address == RELOAD:
        refused = " (refused 4 if TRIGGER was 0)" if word & TRIGGER and word & 255 >= DATASETS else ""
        return f": dataset {word & 255}, group {word >> 8 & 15}, TRIGGER {word >> 12 & 1}{refused}"
    if register.lowest is not None:
        shift = register.lowest + 16 * (address - register.first)
        return ": " + (list_of_bits((word & register.mask) << shift) or "none")
    return ""


def write_text(payload: bytes) -> tuple[str, str]:
    """The line of a write record and the register's name."""
    address, word = int.from_bytes(payload[:2], "big"), int.from_bytes(payload[2:], "big")
    line, register = f"write 0x{address:04X} 0x{word:04X}", register_at(address)
    if register is None:
        return line, "not in the map: refused 2"
    name = register.name(address - register.first)
    if not register.writable:
        return line, f"{name}, read-only: refused 3"
    return line, name + word_meaning(register, address, word)


def event_text(payload: bytes) -> tuple[str, str]:
    """The line of an event record and its command."""
    tag = int.from_bytes(payload, "big")
    command, parameter = tag >> 12 & 15, tag & 0xFFF
    gates = list_of_bits(parameter) or "none"
    refused = " (refused 4 if taken)" if tag & 255 >= DATASETS else ""
    meaning = {
        1: f"reload dataset {tag & 255} into group {tag >> 8 & 15}{refused}",
        2: f"prepare gates {gates}",
        3: f"recover gates {gates}",
        4: "set all counts to 0",
    }.get(command, "do nothing")
    return f"event 0x{tag:08X}", f"key 0x{tag >> 16:04X}, {meaning}"


def undecoded(trace: bytes, offset: int, stop: int) -> list[str]:
    """What is left of a trace from a record that stops a run, as raw bytes."""
    lines = [f"# offset {offset}: a run stops here with {stop} ({STOPS[stop]})"]
    for start in range(offset, len(trace), 16):
        lines.append(f"bytes {trace[start:start + 16].hex(' ').upper()}  # offset {start}")
    return lines


def unpack(trace: bytes) -> str:
    """The text of a trace, which pack turns into the same bytes."""
    texts = {TICK: tick_text, WRITE: write_text, EVENT: event_text}
    lines, offset = [], 0
    while offset < len(trace):
        stop = stop_at(trace, offset)
        if stop:
            lines += undecoded(trace, offset, stop)
            break
        after = offset + HEADER_BYTES + PAYLOAD_BYTES[trace[offset]]
        line, remark = texts[trace[offset]](trace[offset + HEADER_BYTES:after])
        lines.append(f"{line}  # offset {offset}" + (f": {remark}" if remark else ""))
        offset = after
    lines.append(f"# offset {len(trace)}: end")
    return "\n".join(lines) + "\n"


# ---- The commands


def main(arguments_given: list[str]) -> int:
    """Packs or unpacks standard input; 0 if all went well, else 2."""
    if arguments_given not in (["pack"], ["unpack"]):
        print(__doc__, file=sys.stderr)
        return 2
    given = sys.stdin.buffer.read()
    if arguments_given == ["unpack"]:
        sys.stdout.write(unpack(given))
        return 0
    try:
        trace = pack(given)
    except BadLine as problem:
        print(problem, file=sys.stderr)
        return 2
    if len(trace) > PROGRAM_BYTES:
        print(f"note: {len(trace)} bytes; rehearse runs the first {PROGRAM_BYTES}", file=sys.stderr)
    sys.stdout.buffer.write(trace)
    return 0


if __name__ == "__main__":
    sys.exit(main(sys.argv[1:]))
