"""Questions to a program that answers.rattle was built with, in the notation that an edit's third line has:

    script 06 03, 03 05 log=4                   the bytes as a script on a fresh port, with a log of 4 bytes (else 240)
    calls 06 03, 03 05 on half=5 edge=1         the commands as direct calls, on the port that differs from a fresh one in these places of the array; `none`
                                                is no command
    printout 06 03                              what the program prints for the script
    sci3_fresh length=57                        an array of 57 numbers
    within due=1 next=5 half=5 left=3           a function of a crate; arguments that are 0 are left out
    long waits=3                                a script of 3 waits of 65535 halves, a power cycle and as many again

Numbers of a script are hexadecimal bytes, `07*300` is a byte 300 times; all other numbers are decimal. An enum is its number and its values, as in the
exported array (crates/capi/specs/State.antt)."""
import dataclasses, re, struct

FORMAT = ("synchronous", "data", "parity", "odd", "stops", "half_bit")
DUE = ("due", "next")
TX = ("tag", *FORMAT, "word", "cell", *DUE, "loaded")
RX = (*FORMAT, "value", "position", "parity_so_far", "error", *DUE)


def under(name, parts):
    return tuple(f"{name}.{p}" for p in parts)


# The exported array, the greatest number of each place, and a fresh port's.
PLACES = (
    "spcr smr brr scr tdr ssr rdr semr ircr seen module main sub reset_mode half high edge".split()
    + [*under("holding", ("tag", "byte")), *under("tx", TX), *under("rx", ("tag", *RX))]
    + ["uart", "bit_start", "input", "input_clock", "sck", *under("sync_next", DUE), "transmitted", "received"]
    + ["remaining", "system", "watch"]
)
B, W = 255, 2**32 - 1
MOST = [B] * 10 + [1] * 4 + [W, 1, 1, 1, B] + [5, 1, B, 1, 1, B, W, 65535, B, 1, W, 1] + [1, 1, B, 1, 1, B, W, B, B, 1, B, 1, W]
MOST += [1, W, 1, 1, 1, 1, W] + [2**64 - 1] * 2 + [65535] + [2**64 - 1] * 2
FRESH = [0xC0, 0, 255, 0, 255, 0x84, 0, 0, 0, 0, 0, 0, 0, 0, 0, 1, 0] + [0] * 14 + [0] * 13 + [1, 0, 1, 1, 1, 0, 0, 0, 0] + [256, 0, 0]
PLACE = {name: i for i, name in enumerate(PLACES)}
ARRAY = [*PLACES, "place 56"]  # of an array that is one number too long

# Functions: the number that answers.rattle knows them by, arguments, results. A script's or a buffer's bytes come last.
READ = ("fault", "value", "next")
RATE = ("clock", "rate", "tolerance")
FUNCTIONS = {
    "record_line": (5, ("kind", "answer", "ssr", "level", "interrupt", "cause"), "text"),
    "end_line": (6, ("length",), "text"),
    "refused_line": (7, ("number", "offset"), "text"),
    "hex_digit": (8, ("n",), ("digit",)),
    "read_number": (9, ("at",), READ),
    "read_operand": (10, ("at", "max"), READ),
    "Kind::operands": (11, ("kind",), ("operands", "first", "second")),
    "read_command": (12, ("at",), ("fault", "kind", "a", "b", "next")),
    "u8::from(Fault)": (13, ("fault",), ("number",)),
    "Command::kind": (14, ("kind", "a", "b"), ("number",)),
    "write_number": (15, ("length", "at", "value"), ("full", "end")),
    "write_command": (16, ("length", "at", "kind", "a", "b"), ("full", "end")),
    "fits": (17, ("length", "at", "n"), ("fits",)),
    "Format::new": (18, ("smr", "semr"), FORMAT),
    "Format::stop": (19, FORMAT, ("cell",)),
    "Format::cells": (20, FORMAT, ("cells",)),
    "Format::valid": (21, FORMAT, ("valid",)),
    "Format::word": (22, (*FORMAT, "value"), ("word",)),
    "Format::holds": (23, (*FORMAT, "word"), ("holds",)),
    "within": (24, (*DUE, "half", "left"), ("halves",)),
    "due_valid": (25, (*DUE, "half"), ("valid",)),
    "Tx::next": (26, TX, DUE),
    "Tx::synchronous": (27, TX, ("clocked",)),
    "Tx::valid": (28, (*TX, "half"), ("valid",)),
    "Rx::falling": (29, RX, ("falling",)),
    "Rx::starting": (30, RX, ("starting",)),
    "Rx::last_bit": (31, RX, ("last",)),
    "Rx::armed": (32, (*FORMAT, "half"), RX),
    "Rx::clocked": (33, FORMAT, RX),
    "Rx::parity_error": (34, (*RX, "high"), ("error",)),
    "Rx::stopped": (35, (*RX, "high"), RX),
    "Rx::valid": (36, (*RX, "half"), ("valid",)),
    "u8::from(Refusal)": (37, ("refusal",), ("number",)),
    "level_number": (38, ("driven", "high"), ("level",)),
    "read_full": (39, ("length", "piece"), ("bytes",)),
    "command_of": (40, ("kind", "a", "b"), ("kind", "a", "b")),
    "rx_next": (41, ("tag", *RX), DUE),
    "rx_synchronous": (42, ("tag", *RX), ("clocked",)),
    "rx_valid": (43, ("tag", *RX, "half"), ("valid",)),
    "long": (44, ("waits",), ("number", "length")),
    "u8::from(sci::Refusal)": (45, ("refusal",), ("number",)),
    # a direct call on a fresh port or state with these fields; 256 and the number where it is refused
    "Port::direct": (46, ("kind", "a", "b", "module", "main", "half"), ("answer", "half")),
    "Sci::direct": (47, ("kind", "a", "b", "module", "main", "half"), ("answer", "half", "remaining")),
    "nearest_rate": (48, RATE, ("refusal", "select", "semr", "cell", "brr", "numerator", "denominator")),
    "rate_line": (49, RATE, "text"),
    # the three arguments' bytes one after the other, and how long the first two are
    "rate": (50, ("clock_length", "rate_length"), "text"),
    "sci3_rate": (51, RATE, ("answer", "SMR", "SEMR", "BRR", "numerator", "denominator")),
}
OPERANDS = {1: 1, 2: 2, 3: 1, 4: 1, 5: 2, 6: 1, 8: 1, 9: 1}
LOG = 240
RECORD = 6  # a record's bytes


@dataclasses.dataclass(frozen=True)
class Question:
    """`given` has an argument's or a place's number where it is not 0 or a fresh port's; `body` is a script's bytes."""

    form: str
    given: tuple = ()
    body: bytes = b""
    length: int = len(PLACES)
    log: int = LOG

    def numbers(self):
        given = dict(self.given)
        if self.form in FUNCTIONS:
            names = FUNCTIONS[self.form][1]
            if not set(given) <= set(names):
                raise KeyError(self.form)
            return [given.get(name, 0) for name in names]
        if self.form == "printout":
            return []
        if self.form == "sci3_fresh":
            return [self.length]
        state = []
        if given or self.length != len(PLACES):
            state = (FRESH + [0] * 64)[: self.length]
            for name, n in given.items():
                if PLACE[name] < self.length:
                    state[PLACE[name]] = n
        if self.form == "script":
            return [len(state), *state, self.log]
        return [len(state), *state, *(n for command in commands(self.body)[0] for n in command)]

    def packed(self):
        op = {"calls": 1, "script": 2, "sci3_fresh": 3, "printout": 4}.get(self.form) or FUNCTIONS[self.form][0]
        body = b"" if self.form == "calls" else self.body
        numbers = self.numbers()
        return struct.pack(f"<BHH{len(numbers)}Q", op, len(numbers), len(body), *numbers) + body

    def size(self):
        """What is read sooner is smaller: fewer places given, fewer commands, then smaller numbers."""
        calls = commands(self.body)[0]
        numbers = sum(n for _, n in self.given) + sum(sum(c) for c in calls)
        return (len(self.given), self.length != len(PLACES), len(calls), self.log != LOG, len(self.body), numbers, sum(self.body))

    def __str__(self):
        words = [self.form]
        if self.form in ("script", "calls", "printout"):
            words.append(in_hex(self.body) or "none")
        elif self.body:
            words.append(in_hex(self.body))
        if self.form == "script" and self.log != LOG:
            words.append(f"log={self.log}")
        if self.length != len(PLACES) or self.form == "sci3_fresh":
            words.append(f"length={self.length}")
        if self.given and self.form in ("calls", "script"):
            words.append("on")
        return " ".join(words + [f"{name}={n}" for name, n in self.given])


def parsed(text):
    """The question of a notation; LookupError or ValueError where it is none."""
    form, *words = text.replace(",", "").split()
    given, body, more = [], b"", {}
    for word in words:
        name, _, n = word.partition("=")
        if n and name in ("log", "length") and form not in FUNCTIONS:
            more[name] = int(n)
        elif n:
            given.append((name, int(n)))
        elif word not in ("on", "none"):
            byte, _, times = word.partition("*")
            body += bytes([int(byte, 16)]) * int(times or 1)
    question = Question(form, tuple(given), body, **more)
    question.packed()  # fails where a name is not known
    return question


def in_hex(body):
    if len(body) > 64 and len(set(body)) == 1:
        return f"{body[0]:02X}*{len(body)}"
    whole, rest = commands(body)
    pieces = [encoded(command) for command in whole] + ([rest] if rest else [])
    return ", ".join(piece.hex(" ").upper() for piece in pieces)


def number(n):
    out = bytearray()
    while n > 127:
        out.append(n % 128 + 128)
        n //= 128
    return bytes(out + bytes([n]))


def encoded(command):
    return b"".join(number(n) for n in command[: 1 + OPERANDS.get(command[0], 0)])


def commands(body):
    """The commands of a script as kind and two operands, whatever their size, and the bytes that are none."""
    found, at = [], 0

    def take(at):
        n = shift = 0
        while at < len(body):
            n, shift, at = n | (body[at] & 127) << shift, shift + 7, at + 1
            if body[at - 1] < 128:
                return n, at
        return None, at

    while at < len(body):
        kind, next_at = take(at)
        command = [kind]
        for _ in range(OPERANDS.get(kind, 0)):
            n, next_at = take(next_at)
            command.append(n)
        if None in command or max(command) > W or encoded(command) != body[at:next_at]:
            return found, body[at:]
        found.append(tuple(command + [0, 0])[:3])
        at = next_at
    return found, b""


def record(six):
    kind, answer, ssr, level, interrupt, cause = six
    return f"{kind:X} {answer:02X} {ssr:02X} {'01-'[level] if level < 3 else level} {interrupt} {cause}"


def answered(question, answer):
    """What an answer says, as names and values, what a reader looks at first before the rest."""
    if question.form == "printout":
        text = answer.decode("latin1")
        return [*((f"line {i + 1}", line) for i, line in enumerate(text.splitlines())), ("its text", text)]
    if question.form in FUNCTIONS:
        names = FUNCTIONS[question.form][2]
        if names == "text":
            return [("its text", answer.decode("latin1"))]
        numbers = struct.unpack_from(f"<{min(len(names), len(answer) // 8)}Q", answer)
        return [*zip(names, numbers), ("the buffer", answer[8 * len(numbers):].hex())]
    if question.form == "script":
        return of_script(question, answer)
    numbers = struct.unpack(f"<{len(answer) // 8}Q", answer)
    if question.form == "sci3_fresh":
        return [("its answer", numbers[0]), *zip(ARRAY, numbers[1:])]
    calls = len(numbers) - question.length - 2
    said = [f"refused {n - 256}" if n >= 256 else f"{n:02X}" for n in numbers[:calls:2]]
    return [
        *((f"answer {i + 1}", s) for i, s in enumerate(said)),
        *((f"cause {i + 1}", n) for i, n in enumerate(numbers[1:calls:2])),
        ("sci3_pins", numbers[calls]),
        ("sci3_interrupt", numbers[calls + 1]),
        *zip(ARRAY, numbers[calls + 2:]),
    ]


def of_script(question, answer):
    numbers = struct.unpack_from(f"<{4 + question.length}Q", answer)
    log = answer[8 * len(numbers):]
    end, at, used, length = numbers[:4]
    whole = min(used, len(log)) // RECORD
    return [
        *((f"record {i + 1}", record(log[RECORD * i:RECORD * (i + 1)])) for i in range(whole)),
        ("its end", f"refused {end} at {at}" if end else "end" if at == 0 else f"end at {at}"),
        ("used", used),
        ("its length", length),
        *((f"log byte {i}", b) for i, b in enumerate(log)),
        *zip(ARRAY, numbers[4:]),
    ]


def difference(question, right, wrong):
    """What differs, in words."""
    facts = answered(question, right)
    if wrong is None:
        name, value = next((f for f in facts if f[0] == "its end"), facts[0])
        return f"{name} is {shown(value)}, and the wrong program breaks off"
    other = dict(answered(question, wrong))
    for name, value in facts:
        if name in other and other[name] != value:
            return f"{name} is {shown(value)}, not {shown(other[name])}"
    name, value = next(f for f in facts if f[0] not in other)
    return f"{name} is {shown(value)}, and the wrong program has none"


def shown(value):
    return repr(value) if isinstance(value, str) and not value.isprintable() else str(value)


def holds(question, answer, text):
    """Whether what the right program does in this text is what it does."""
    facts = [] if answer is None else answered(question, answer)
    return any(text.startswith(f"{name} is {shown(value)}, ") for name, value in facts)
