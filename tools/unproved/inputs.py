"""Looks for a question that two programs answer otherwise, and makes it small."""
import random

from program import ask
from questions import FORMAT, FRESH, FUNCTIONS, LOG, MOST, PLACE, PLACES, RECORD, Question, answered, commands, encoded

REGISTERS = SPCR, SMR, BRR, SCR, TDR, SSR, RDR, SEMR, IRCR = 0xFF91, 0xFF98, 0xFF99, 0xFF9A, 0xFF9B, 0xFF9C, 0xFF9D, 0xFFA6, 0xFFA7
LIMIT, TOTAL = 4_000_000_000, 281_474_976_710_656
PART = 2500  # questions asked at once
CYCLES = (0, 1, 2, 15, 16, 17, 32, 63, 64, 65, 255, 256, 257, 512, 4096, 65535)
WAITS = (0, 1, 2, 3, 4, 8, 15, 16, 17, 20, 31, 32, 33, 64, 100, 160, 288, 319, 320, 321, 352, 384, 416, 447, 448, 449, 450, 1000, 65535)
MODES = (0, 0, 0, 0x20, 0x30, 0x24, 0x64, 0x74, 0x48, 0x08, 0x28, 0x68, 0x40, 0x80, 0x80, 0x90, 0x01, 0x81, 0x10, 0x04)
ENABLES = (0x20, 0x10, 0x30, 0x30, 0x70, 0xF4, 0x22, 0x12, 0x32, 0x31, 0x33, 0)
BYTES = (0, 1, 0x55, 0xA5, 0x7F, 0x80, 0xFE, 0xFF, 0xBF, 0x10, 0x20, 0x30, 0x78, 0xC7)
EDGES = (0, 1, 2, 3, 7, 8, 9, 15, 16, 17, 31, 32, 127, 128, 129, 255, 256, 16383, 16384, 65535, 65536, 2097151, 2097152, 268435455, 268435456, 2**32 - 1)


# ---- calls
def word_on_line(r, mark):
    """A word as lines and waits, now and then with a wrong cell."""
    cell = r.choice((32, 32, 16))
    cells = [0, *(r.randrange(2) for _ in range(r.choice((5, 7, 8, 8, 9)))), 1, 1]
    if r.random() < 0.3:
        cells[r.choice((0, -1, -2))] ^= 1
    return [step for c in cells for step in ((4, c ^ (not mark), 0), (3, cell, 0))]


def a_call(r):
    kind = r.choice((1, 1, 2, 2, 2, 3, 3, 3, 3, 4, 4, 5, 5, 6, 7, 8, 8, 9) * 4 + (0, 10))
    if kind == 1:
        return (1, r.choice((SSR, SSR, RDR, *REGISTERS, 0xFF97, 0xFF9E, 0xFFA5, 65536)), 0)
    if kind == 2:
        address = r.choice((TDR, TDR, SSR, SCR, *REGISTERS, 0xFF90))
        return (2, address, r.choice({SMR: MODES, SCR: ENABLES}.get(address) or (*BYTES, r.randrange(257))))
    if kind == 3:
        return (3, r.choice((*WAITS, r.randrange(500))), 0)
    if kind in (8, 9):
        return (kind, r.choice((*CYCLES, r.randrange(600), 65536)), 0)
    if kind == 6:
        return (6, r.choice((3, 3, 3, 2, 0, 1, 5, 7, 11, 15, 16)), 0)
    levels = [r.choice((0, 1, 0, 1, 2)) for _ in range(2)]
    return {4: (4, levels[0], 0), 5: (5, *levels)}.get(kind, (kind, 0, 0))


def a_list(r):
    """The port set up in some way, and then words, edges of the clock pin, and calls of any kind."""
    spcr = r.choice((0x10, 0x10, 0x13, 0x12, 0x11, 0))
    power, semr = r.choice((3, 3, 3, 3, 5, 7, 2)), r.choice((0, 0, 8))
    calls = [(6, power, 0), (2, SPCR, spcr), (2, SMR, r.choice(MODES)), (2, SEMR, semr), (2, SCR, r.choice(ENABLES))]
    calls = [c for c in calls if r.random() < 0.9]
    for _ in range(r.randrange(1, 14)):
        odds = r.random()
        if odds < 0.1:
            calls += word_on_line(r, not spcr & 1)
        elif odds < 0.25:
            calls += [step for _ in range(r.choice((2, 8, 9))) for step in ((5, 0, r.randrange(2)), (5, 1, r.randrange(2)))]
        else:
            calls.append(a_call(r))
    return calls


def body(calls):
    return b"".join(encoded(c) for c in calls)


def broken(r, script):
    """A script of any bytes, mostly near this one."""
    out = bytearray(script)
    for _ in range(r.choice((0, 1, 1, 2))):
        odds, at = r.random(), r.randrange(len(out) + 1)
        if odds < 0.3:
            del out[at:]
        elif odds < 0.6:
            out[at:at] = bytes.fromhex(r.choice(("80", "00", "FFFFFFFF0F", "FFFFFFFF10", "80808000", "808080808001", "08", "0A", "8001")))
        elif at < len(out):
            out[at] = r.choice((0, 1, 2, 3, 4, 5, 6, 7, 8, 9, 10, 127, 128, 129, r.randrange(256)))
    return bytes(out)


# ---- states
def a_format(r):
    smr = r.choice(MODES)
    clocked, five, seven = smr & 0x80, smr & 4, smr & 0x40
    data = 8 if clocked or not (five or seven) else 5 if five else 7
    parity = not clocked and smr & 0x20 and (not five or seven)
    return [int(bool(clocked)), data, int(bool(parity)), int(bool(smr & 16)), 2 if smr & 8 else 1, r.choice((16, 32))]


def word_of(form, value):
    clocked, data, parity, odd, stops, _ = form
    bits = value % 2**data
    return value if clocked else bits << 1 | (parity & (bits.bit_count() + odd)) << data + 1 | (1 << stops) - 1 << data + 1 + parity


def busy(r, state):
    """A sender or a receiver that passes the field test, whether or not a run leads there, or whose cell or position just fails it."""
    form, half = a_format(r), state[PLACE["half"]]
    due = [int(not form[0]), 0 if form[0] else half + r.choice((1, 2, 16, 448))]
    if r.random() < 0.5:
        tag = r.choice((1, 1, 2, 3, 4, 5))
        cell = r.randrange(9 if form[0] else 2 + form[1] + form[2]) if tag == 4 else 0
        due = [0, 0] if tag == 1 else [1, half + r.choice((1, 32, 448))] if tag < 4 else due
        state[PLACE["tx.tag"]:PLACE["tx.loaded"] + 1] = [tag, *form, word_of(form, r.choice(BYTES)), cell, *due, int(tag == 5)]
    else:
        position = r.randrange(-1, 9) if form[0] else r.randrange(-3, form[1] + form[2] + 2)
        state[PLACE["rx.tag"]:PLACE["rx.next"] + 1] = [1, *form, r.choice(BYTES), position + 128, r.randrange(2), r.choice((0, 0, 8)), *due]


def altered(r, state):
    """Places of a state moved: near the limit, due halves near what the field test takes, single places to anything."""
    state = list(state)
    if r.random() < 0.4:
        busy(r, state)
    half = state[PLACE["half"]]
    if r.random() < 0.2:
        by = LIMIT - r.choice((0, 1, 2, 31, 32, 447, 448, -1)) - half
        for name in ("half", "bit_start", "tx.next", "rx.next", "sync_next.next"):
            if name in ("half", "bit_start") or state[PLACE[name] - 1]:
                state[PLACE[name]] = min(max(state[PLACE[name]] + by, 0), MOST[PLACE[name]])
        half = state[PLACE["half"]]
    for _ in range(r.choice((0, 1, 1, 2, 3))):
        name = r.choice(PLACES)
        i = PLACE[name]
        if name.endswith("next"):
            state[i] = min(half + r.choice((0, 1, 2, 447, 448, 449)), MOST[i])
        elif name in ("transmitted", "received"):
            state[i] = 2**64 - 1
        elif name in ("system", "watch"):
            state[i] = max(TOTAL + r.choice((1, 0, -1, -2, -16, -300)), 0)
        elif name == "remaining":
            state[i] = r.choice((0, 1, 2, 255, 256, 257))
        elif name == "rx.position":
            state[i] = 128 + r.choice((-3, -2, -1, 0, 1, 5, 6, 7, 8, 9, 10, 11))
        elif name == "bit_start":
            state[i] = max(half + r.choice((-1, 0, 1)), 0)
        else:
            anything = r.randrange(MOST[i] + 1) if MOST[i] < 65536 else half
            other = r.choice((state[i] ^ 1 << r.randrange(8), r.choice((0, 1, 5, 7, 8, 9, 16, 32, MOST[i])), anything))
            state[i] = other % (MOST[i] + 1)
    return state


def given_of(state):
    return tuple((name, n) for name, n, fresh in zip(PLACES, state, FRESH) if n != fresh)


# ---- arguments of functions
def arguments(r, form):
    """Numbers near where a function's answer changes: first of any argument, then as its name asks."""
    given = {}
    names = FUNCTIONS[form][1]
    half = r.choice((0, 5, 100, LIMIT, 2**32 - 2))
    for name in names:
        given[name] = r.choice((*EDGES, r.randrange(256)))
    given.update(smr=r.randrange(256), semr=r.choice((0, 8, 255)), high=r.randrange(2), half=half, left=r.choice((0, 1, 3, 448)))
    given.update(zip(FORMAT, a_format(r)))
    given.update(due=r.randrange(2), next=min(half + r.choice((0, 1, 2, 3, 448, 449)), 2**32 - 1), tag=r.randrange(6 if form.startswith("Tx") else 2))
    given.update(position=128 + r.choice((-3, -2, -1, 0, 1, 4, 5, 6, 7, 8, 9, 10)), parity_so_far=r.randrange(2), error=r.choice((0, 8, 16)))
    given.update(cell=r.choice((0, 1, 6, 7, 8, 9, 10)), loaded=r.randrange(2))
    if r.random() < 0.4:
        name = r.choice(names)
        given[name] = r.choice(EDGES)
    given["word"] = r.choice((0x2AA, 0x602, 0x402, 0x7E, 0xFE, 0x300, 0xA5, r.randrange(65536)))
    if form in ("fits", "write_number", "write_command"):
        given["length"], given["at"] = r.randrange(12), r.randrange(14)
        given["n"] = r.choice((0, 1, 2, r.randrange(14)))
    if form in ("write_command", "Command::kind"):
        given["kind"] = r.randrange(1, 10)
    if form in ("command_of", "Kind::operands", "u8::from(Fault)", "u8::from(Refusal)", "u8::from(sci::Refusal)"):
        given[names[0]] = r.randrange(12)
    if form.startswith("read"):
        given["at"] = r.randrange(4)
    if form in ("nearest_rate", "rate_line", "sci3_rate"):
        given.update(a_rate(r))
    if form == "rate":
        given["clock_length"], given["rate_length"] = r.randrange(9), r.randrange(5)
    return tuple((name, given[name]) for name in names if given[name])


def a_rate(r):
    """A clock, a rate and a tolerance: often a rate that a setting gives, or one near it."""
    rate = r.choice((1, 2, 3, 300, 1200, 9600, 115200, 1000000, r.randrange(1, 1000)))
    clock = rate * r.choice((1, 16, 64)) * r.choice((16, 32)) * r.randrange(1, 257) + r.choice((0, 0, 1, -1, rate, 16 * rate))
    return {"clock": r.choice((clock, clock, 64, 540672, r.randrange(20000002))), "rate": rate, "tolerance": r.choice((0, 1, 100, 9999, 10000, 10001))}


class Inputs:
    """Questions in families, each with the right program's answers: scripts and calls on a fresh port first, then printouts, given states, arrays that
    are no state, and functions."""

    def __init__(self, right):
        self.right = right
        self.families = []
        r = random.Random(3)
        lists = [body(a_list(r)) for _ in range(5000)]
        short = [body(a_call(r) for _ in range(r.randrange(1, 4))) for _ in range(1000)]
        scripts = [Question("script", body=s if r.random() < 0.7 else broken(r, s), log=r.choice((LOG, LOG, LOG, r.randrange(12)))) for s in lists + short]
        self.add(scripts)
        calls = [Question("calls", body=s) for s in lists + short]
        self.add(calls)
        printouts = [Question("printout", body=q.body) for q in scripts[:1500]]
        printouts += [Question("printout", body=b"\x07" * n) for n in (0, 1, 2, 16383, 16384, 16385)]
        self.add(printouts)
        states = [[n for _, n in answered(q, a)][-len(FRESH):] for q, _, a in self.families[1][:5000]]
        assert [n for _, n in answered(Question("calls"), ask(right, [Question("calls").packed()])[0])][-len(FRESH):] == FRESH
        self.add([self.on(r, altered(r, s)) for s in states * 2])
        self.add([Question(form, length=n) for form in ("script", "calls", "sci3_fresh") for n in (len(FRESH) - 1, len(FRESH) + 1, len(FRESH))])
        self.add([Question(form, ((name, most + 1),)) for form in ("script", "calls") for name, most in zip(PLACES, MOST) if most < 2**64 - 1])
        self.add([Question(form) for form in FUNCTIONS] + [self.of(r, form) for form in FUNCTIONS if form != "long" for _ in range(500)])
        self.add([Question("long", (("waits", n),)) for n in (1, 32768, 32769)])

    def add(self, questions):
        packed = [q.packed() for q in questions]
        self.families.append(list(zip(questions, packed, ask(self.right, packed))))

    @staticmethod
    def on(r, state):
        calls = body(a_call(r) for _ in range(r.randrange(4)))
        return Question(r.choice(("script", "calls", "calls")), given_of(state), calls)

    @staticmethod
    def of(r, form):
        script = broken(r, body(a_call(r) for _ in range(2))) if form.startswith("read") else b""
        if form == "rate":
            script = bytes(r.choice(b"0123456789999/:- ") for _ in range(r.randrange(16)))
        return Question(form, arguments(r, form), script)

    def shown(self, wrong):
        """The smallest question that is found, with both answers; None if there is none."""
        for family in self.families:
            for start in range(0, len(family), PART):
                part = family[start:start + PART]
                answers = ask(wrong, [packed for _, packed, _ in part])
                found = [(q, a, b) for (q, _, a), b in zip(part, answers) if a != b]
                if found:
                    # A wrong answer says more than none.
                    return self.smaller(wrong, min(found, key=lambda f: (f[2] is None, f[0].size())))
        return None

    def smaller(self, wrong, found):
        """The same difference in fewer words, as long as there are any."""
        broke = found[2] is None
        while True:
            tries = sorted(dict.fromkeys(q for q in fewer(found[0]) if q.size() < found[0].size()), key=Question.size)
            packed = [q.packed() for q in tries]
            answers = zip(tries, ask(self.right, packed), ask(wrong, packed))
            better = [f for f in answers if f[1] != f[2] and f[1] is not None and (broke or f[2] is not None)]
            if not better:
                return found
            found = better[0]


# ---- questions like one, with less in them
def less(n):
    return [m for m in (0, 1, n // 2, n - 1, n & n - 1, n - 32, n - 8) if 0 <= m < n]


def fewer(q):
    def but(**changes):
        return Question(**{**vars(q), **changes})

    if len(q.body) > 1000:
        yield from (but(body=q.body[:n]) for n in (0, 1, len(q.body) // 2, len(q.body) - 1))
        return
    yield from fewer_calls(q, but)
    yield from (but(body=q.body[:n]) for n in (len(q.body) // 2, len(q.body) * 3 // 4, len(q.body) - 8) if n > 0)
    for i, b in enumerate(q.body[:40]):
        yield from (but(body=q.body[:i] + some + q.body[i + 1:]) for some in (b"", *(bytes([m]) for m in less(b))))
    for i, (name, n) in enumerate(q.given):
        yield from (but(given=q.given[:i] + some + q.given[i + 1:]) for some in ((), *(((name, m),) for m in less(n) if m)))
    yield from earlier(q, but)
    if q.log != LOG:
        yield but(log=LOG)


def fewer_calls(q, but):
    """Without some of the commands, and then perhaps with as much less of the log; two waits as one; smaller operands."""
    whole, rest = commands(q.body)
    for size in {len(whole) // 2, 4, 2, 1} - {0}:
        for at in range(len(whole)):
            kept = body(whole[:at] + whole[at + size:]) + rest
            yield but(body=kept)
            if q.log >= RECORD * size:
                yield but(body=kept, log=q.log - RECORD * size)
    for i in range(len(whole) - 1):
        if whole[i][0] == whole[i + 1][0] == 3:
            yield but(body=body([*whole[:i], (3, whole[i][1] + whole[i + 1][1], 0), *whole[i + 2:]]) + rest)
    for i, command in enumerate(whole):
        for k in (1, 2):
            for n in less(command[k]):
                yield but(body=body([*whole[:i], (*command[:k], n, *command[k + 1:]), *whole[i + 1:]]) + rest)


def earlier(q, but):
    """The same at another time: all halves of a state less by as much, or the half count more and a wait less."""
    given = dict(q.given)
    halves = [name for name in given if name.split(".")[-1] in ("half", "next", "bit_start")]
    least = min((given[name] for name in halves if name != "bit_start"), default=0)
    for by in {least, least - 1, least // 2, 1} - {0}:
        if least:
            moved = ((name, n - by if name in halves else n) for name, n in q.given)
            yield but(given=tuple((name, n) for name, n in moved if n > 0))
    whole, rest = commands(q.body)
    if "half" in given and len(whole) == 1 and whole[0][0] == 3:
        for by in {whole[0][1], whole[0][1] - 1, 1}:
            if 0 < by <= whole[0][1]:
                later = tuple((name, n + by if name == "half" else n) for name, n in q.given)
                yield but(given=later, body=body([(3, whole[0][1] - by, 0)]))
