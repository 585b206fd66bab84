#!/usr/bin/env python3
"""A model of pushes that keep a tally, from docs/01-scope.md and docs/02-change-requests.md, T-01
("the papers"), and from the readings of T-01 that docs/DECISIONS.md has.

`python3 model.py` checks the model against answers worked out by hand from the papers
(hand_checks), then writes `stdin` and `stdout` beside this file; with `--check` it compares
them with the files that are there. Nothing is random.

Part 1  the model (frames, the push, the tally)
Part 2  the line protocol of the test program
Part 3  answers worked out by hand
Part 4  the cases, in groups

Refusal 6 is in the model and in no case: it needs 16,000,019 bytes lent, and a program has a stack of 8 MB.
"""

import hashlib
import os
import struct
import sys

HERE = os.path.dirname(os.path.abspath(__file__))
sys.dont_write_bytecode = True         # nothing is left beside the others
sys.path.insert(0, os.path.join(HERE, "..", "case_lines"))
import files

# ---------------------------------------------------------------------------
# Part 1: the model
# ---------------------------------------------------------------------------

MAGICS = [bytes.fromhex(m) for m in ("d3f26e5b", "d20d52b1", "cf9538ae", "dc8e640e")]
PAYLOAD_LIMIT = 8_000_000
STREAM_LIMIT = 16_000_018
NUMBERS = 514                          # frames of 256 types, bytes of 256 types, and both totals
FRAMES, BYTES = 512, 513               # the places of the totals
MOST = 2 ** 63 - 1                     # what a total may reach
TOP = 2 ** 64 - 1


class Refused(Exception):
    def __init__(self, number, a=0, b=0):
        self.values = (number, a, b, 0)


def word(four):
    return int.from_bytes(four, "little")


def walk(network, stream):
    """The frames that bytes begin with, as (type, encoding), and the rest."""
    frames = []
    while len(stream) >= 9:
        length = word(stream[5:9])
        if stream[:4] != MAGICS[network]:
            raise Refused(4, word(MAGICS[network]), word(stream[:4]))
        if length > PAYLOAD_LIMIT:
            raise Refused(5, length, PAYLOAD_LIMIT)
        if len(stream) < 9 + length:
            break
        frames.append((stream[4], stream[:9 + length]))
        stream = stream[9 + length:]
    return frames, stream


def take_in(store, held, data, out, tally):
    """The tests before the append, in order."""
    needed = min(held + len(data), TOP)
    if held > len(store):
        raise Refused(18, held)
    if held + len(data) > STREAM_LIMIT:
        raise Refused(6, needed, STREAM_LIMIT)
    if held + len(data) > len(store):
        raise Refused(17, needed)
    if held + len(data) > len(out):
        raise Refused(16, needed)
    if len(tally) < NUMBERS:
        raise Refused(16, NUMBERS)
    if max(tally[FRAMES], tally[BYTES]) + held + len(data) > MOST:
        raise Refused(20)


def push(network, store, held, data, out, tally):
    """The answer: what was delivered, or the refusal; then the held count. `store`, `out` and `tally`
    change as the papers say."""
    try:
        take_in(store, held, data, out, tally)
    except Refused as refusal:
        return refusal.values, [], held
    store[held:held + len(data)] = data
    try:
        frames, rest = walk(network, bytes(store[:held + len(data)]))
    except Refused as refusal:
        return refusal.values, [], held + len(data)
    encodings = b"".join(encoding for kind, encoding in frames)
    out[:len(encodings)] = encodings
    store[:len(rest)] = rest
    for kind, encoding in frames:
        tally[kind] = min(tally[kind] + 1, TOP)
        tally[256 + kind] = min(tally[256 + kind] + len(encoding), TOP)
    tally[FRAMES] += len(frames)
    tally[BYTES] += len(encodings)
    return None, frames, len(rest)


# ---------------------------------------------------------------------------
# Part 2: the line protocol
# ---------------------------------------------------------------------------

ROOM = 210_000                         # the program's longest store, output and input
TALLY_ROOM = 520                       # its longest tally
LINE_ROOM = 20_000
GIVEN = 4                              # added to the network if a held count is given
SHOWN = 800                            # the held bytes that are shown


def total(some):
    value = 0
    for byte in some:
        value = value % 4_294_967_291 * 257 + byte
    return value


FILL = bytes(i % 251 + 1 for i in range(ROOM))


def fill(size):
    return bytearray(FILL[:size])


class Push:
    """A push to ask for: its input is `data`, or so many zeros if that is empty. No `held`: the count answered before. No
    `out`: an output that is long enough for what the case holds by then."""

    def __init__(self, data=b"", zeros=0, held=None, out=None, tally=NUMBERS, network=0):
        assert not (data and zeros)
        self.data, self.zeros, self.held, self.out, self.tally, self.network = data, zeros, held, out, tally, network
        self.input = data + bytes(zeros)

    def line(self, out):
        given = self.held is not None
        return struct.pack("<BQHIHI", self.network + GIVEN * given, self.held if given else 0, self.tally, out,
                           len(self.data), self.zeros) + self.data


def start_line(store, numbers):
    pairs = b"".join(struct.pack("<HQ", place, value) for place, value in sorted(numbers.items()))
    return struct.pack("<IH", store, len(numbers)) + pairs


def answer(line):
    data = bytes.fromhex(line)
    size, pairs = struct.unpack("<IH", data[:6])
    at = 6
    numbers = [0] * TALLY_ROOM
    for _ in range(pairs):
        place, value = struct.unpack("<HQ", data[at:at + 10])
        numbers[place] = value
        at += 10
    store = fill(size)
    held = 0
    said = []
    while at < len(data):
        head, given, lent, out, count, zeros = struct.unpack("<BQHIHI", data[at:at + 21])
        some = data[at + 21:at + 21 + count] if count else bytes(zeros)
        assert len(data) >= at + 21 + count
        at += 21 + count
        output, tally = fill(out), numbers[:lent]
        refusal, frames, held = push(head % GIVEN, store, given if head >= GIVEN else held, some, output, tally)
        numbers[:lent] = tally
        said += ["taken"] if refusal is None else ["refused", *refusal]
        said += [len(frames), sum(len(encoding) for kind, encoding in frames), held]
        said += ["sums", total(output), total(store), "totals", *numbers[FRAMES:BYTES + 1]]
    shown = bytes(store[:held][:SHOWN]).hex() if held and size else "-"
    said += ["held", shown, "tally"]
    for place, value in enumerate(numbers):
        if value != 0:
            said += [place, value]
    return " ".join(str(part) for part in said)


# ---------------------------------------------------------------------------
# Part 3: answers worked out by hand, from the papers' tests in order and T-01's sentences
# ---------------------------------------------------------------------------

def hand_checks():
    done = [0]

    def same(got, expected):
        assert got == expected, (got, expected)
        done[0] += 1

    def op(store, numbers, *pushes):
        """The answer without its sums. Outputs are 40 bytes if none is named."""
        line = start_line(store, numbers) + b"".join(p.line(40 if p.out is None else p.out) for p in pushes)
        words = answer(line.hex()).split()
        kept = [w for i, w in enumerate(words) if "sums" not in words[max(i - 2, 0):i + 1]]
        return " ".join(kept)

    X = bytes.fromhex
    verack, ping = X("d3f26e5b0100000000"), X("d3f26e5b02080000000102030405060708")
    # The fill is 01 02 03 .., the sum is by hand for two bytes and for a one before zeros.
    same(bytes(fill(4)), X("01020304"))
    same(total(b"\x01\x02"), 259)
    same(total(bytes([1, 0, 0, 0, 0, 0])), 17_348_299_270)         # 257 x 257 x 257 x 257 is 67,503,110 over, x 257
    # Document 01's example: a verack, a ping, two bytes held.
    same(op(40, {}, Push(verack + ping + X("d3f2"))),
         "taken 2 26 2 totals 2 26 held d3f2 tally 1 1 2 1 257 9 258 17 512 2 513 26")
    # The same in three pushes; the tally goes on, and so does a second stream on regtest.
    same(op(40, {}, Push(verack[:8]), Push(verack[8:] + ping[:1]), Push(ping[1:]),
            Push(X("cf9538aeff01000000aa"), network=2)),
         "taken 0 0 8 totals 0 0 taken 1 9 1 totals 1 9 taken 1 17 0 totals 2 26 taken 1 10 0 totals 3 36 held - "
         "tally 1 1 2 1 255 1 257 9 258 17 511 10 512 3 513 36")
    # 4 after a frame: nothing is counted, 18 are held, and 19 after the next byte. The magics as words: 5b6e is 23,406 and
    # f2d3 is 62,163; 5c6e is 256 more.
    same(op(40, {}, Push(verack + X("d3f26e5c0100000000")), Push(b"\xaa")),
         "refused 4 1533997779 1550774995 0 0 0 18 totals 0 0 refused 4 1533997779 1550774995 0 0 0 19 totals 0 0 "
         "held d3f26e5b0100000000d3f26e5c0100000000aa tally")
    # 5 after a frame: 8,000,001 is 7a1201.
    same(op(40, {}, Push(verack + X("d3f26e5b0101127a00"))),
         "refused 5 8000001 8000000 0 0 0 18 totals 0 0 held d3f26e5b0100000000d3f26e5b0101127a00 tally")
    # Both totals at the edge: 2^63 - 1 is 9223372036854775807, and the frame has nine bytes.
    edge = 9_223_372_036_854_775_798
    same(op(40, {513: edge}, Push(verack), Push(), Push(b"\xd3")),
         "taken 1 9 0 totals 1 9223372036854775807 taken 0 0 0 totals 1 9223372036854775807 "
         "refused 20 0 0 0 0 0 0 totals 1 9223372036854775807 held - tally 1 1 257 9 512 1 513 9223372036854775807")
    same(op(40, {512: edge}, Push(verack)), "taken 1 9 0 totals 9223372036854775799 9 held - "
         "tally 1 1 257 9 512 9223372036854775799 513 9")
    for place in (512, 513):
        both = "9223372036854775799 0" if place == 512 else "0 9223372036854775799"
        same(op(40, {place: edge + 1}, Push(verack)),
             "refused 20 0 0 0 0 0 0 totals %s held - tally %d 9223372036854775799" % (both, place))
    # Held bytes count too: seven are held, two come.
    same(op(40, {513: edge}, Push(verack[:7]), Push(verack[7:])),
         "taken 0 0 7 totals 0 9223372036854775798 taken 1 9 0 totals 1 9223372036854775807 "
         "held - tally 1 1 257 9 512 1 513 9223372036854775807")
    same(op(40, {513: edge + 1}, Push(verack[:7]), Push(verack[7:])),
         "taken 0 0 7 totals 0 9223372036854775799 refused 20 0 0 0 0 0 7 totals 0 9223372036854775799 "
         "held d3f26e5b010000 tally 513 9223372036854775799")
    # 18, 17, 16 and 16 for the tally, each with a tally that is full; the store is never changed.
    full = {512: 2 ** 64 - 1}
    behind = "totals 18446744073709551615 0 held 01 tally 512 18446744073709551615"
    same(op(1, full, Push(held=2)), "refused 18 2 0 0 0 0 2 " + behind)
    same(op(1, full, Push(b"\xd3", held=1, out=0)), "refused 17 2 0 0 0 0 1 " + behind)
    same(op(2, full, Push(b"\xd3", held=1, out=1, tally=0)), "refused 16 2 0 0 0 0 1 " + behind)
    same(op(2, full, Push(b"\xd3", held=1, out=2, tally=513)), "refused 16 514 0 0 0 0 1 " + behind)
    same(op(2, full, Push(b"\xd3", held=1, out=2)), "refused 20 0 0 0 0 0 1 " + behind)
    # Nothing wraps: totals of 2^64 - 1 are full, and a number by type stays at 2^64 - 1 if they leave room.
    same(op(40, {1: 2 ** 64 - 1, 2: 1, 512: 2 ** 64 - 1, 513: 2 ** 64 - 1}, Push(verack)),
         "refused 20 0 0 0 0 0 0 totals 18446744073709551615 18446744073709551615 held - "
         "tally 1 18446744073709551615 2 1 512 18446744073709551615 513 18446744073709551615")
    same(op(40, {1: 2 ** 64 - 1, 257: 2 ** 64 - 9}, Push(verack), Push(verack)),
         "taken 1 9 0 totals 1 9 taken 1 9 0 totals 2 18 held - "
         "tally 1 18446744073709551615 257 18446744073709551615 512 2 513 18")
    # A payload's length is its four bytes: 65,536 zeros.
    same(op(70_000, {}, Push(X("d3f26e5b0d00000100")), Push(zeros=65_536, out=70_000)),
         "taken 0 0 9 totals 0 0 taken 1 65545 0 totals 1 65545 held - tally 13 1 269 65545 512 1 513 65545")
    # Refusal 6, which no case has: held 8, input 16,000,011, and a tally that is short and full.
    same(push(0, bytearray(16), 8, bytes(16_000_011), bytearray(), []), ((6, 16_000_019, 16_000_018, 0), [], 8))
    return done[0]


# ---------------------------------------------------------------------------
# Part 4: the cases
# ---------------------------------------------------------------------------

LINES = []
ANSWERS = {}         # of each line
GROUPS = []          # [name, first line (from 1), count]


def group(name):
    GROUPS.append([name, len(LINES) + 1, 0])


def recount(pushes, numbers, got):
    """T-01's claims about a list of pushes, from their inputs and answers alone: the tally is a recount of the frames that
    were delivered, and these with the held bytes are the bytes received. A held count of 0 that is given begins a stream."""
    words = got.split()
    expected = list(numbers)
    received = b""                     # of this stream, without the frames that were delivered
    at = 0
    for p in pushes:
        number = 0 if words[at] == "taken" else int(words[at + 1])
        at += 1 if number == 0 else 5
        frames, size, held = map(int, words[at:at + 3])
        at += 9                        # and the sums and totals
        assert p.held in (None, 0)
        if p.held == 0:
            received = b""
        if number in (0, 4, 5):
            received += p.input
        assert number == 0 or frames == size == 0
        before = len(received)
        for _ in range(frames):
            length = 9 + word(received[5:9])
            expected[received[4]] += 1
            expected[256 + received[4]] += length
            received = received[length:]
        expected[FRAMES] += frames
        expected[BYTES] += size
        assert before - len(received) == size and len(received) == held
    return expected


def case(*pushes, store=None, numbers=None, counted=True):
    """Pushes on one store and one tally. `counted`: the claims are asserted of it."""
    numbers = numbers or {}
    assert all(place < TALLY_ROOM for place in numbers)
    lengths = [len(p.input) for p in pushes]
    if store is None:
        store = sum(lengths) + 3
    outs = [sum(lengths[:i + 1]) + 2 if p.out is None else p.out for i, p in enumerate(pushes)]
    assert max([store] + lengths + outs) <= ROOM and all(p.tally <= TALLY_ROOM for p in pushes)
    line = (start_line(store, numbers) + b"".join(p.line(out) for p, out in zip(pushes, outs))).hex()
    assert len(line) <= 2 * LINE_ROOM, len(line)
    if line not in ANSWERS:            # a line that another group has already is left out
        ANSWERS[line] = answer(line)
        LINES.append(line)
        GROUPS[-1][2] += 1
    if counted:
        start = [numbers.get(place, 0) for place in range(TALLY_ROOM)]
        expected = recount(pushes, start, ANSWERS[line])
        shown = ANSWERS[line].split(" tally")[1].split()
        there = dict(zip(map(int, shown[::2]), map(int, shown[1::2])))
        assert [there.get(place, 0) for place in range(TALLY_ROOM)] == expected
    return ANSWERS[line]


def refusals(got):
    """The number of each push's refusal, or 0."""
    words = got.split()
    return [int(words[i + 1]) if w == "refused" else 0 for i, w in enumerate(words) if w in ("taken", "refused")]


def blob(tag, size):
    out = b""
    i = 0
    while len(out) < size:
        out += hashlib.sha256(("%s %d" % (tag, i)).encode()).digest()
        i += 1
    return out[:size]


class Draw:
    """Numbers that look random, the same on every run."""

    def __init__(self, tag):
        self.tag, self.turn = tag, 0

    def below(self, n):
        self.turn += 1
        return int.from_bytes(blob("%s %d" % (self.tag, self.turn), 8), "little") % n

    def pick(self, some):
        return some[self.below(len(some))]


def frame(kind, payload=b"", network=0):
    return MAGICS[network] + bytes([kind]) + struct.pack("<I", len(payload)) + payload


def cut(stream, places, network=0, **more):
    """Pushes of a stream, cut at some places."""
    ends = [0] + sorted(places) + [len(stream)]
    return [Push(stream[a:b], network=network, **more) for a, b in zip(ends, ends[1:])]


def type_cases():
    group("each of 256 types")
    for kind in range(256):
        network = kind % 4
        payload = blob("type %d" % kind, kind * 7 % 23)
        case(Push(frame(kind, payload, network), network=network))

    group("256 types together")
    kinds = list(range(256))
    for order in (kinds, kinds[::-1], kinds[128:] + kinds[:128], [k * 37 % 256 for k in kinds]):
        case(Push(b"".join(frame(k) for k in order)))
        case(*[Push(b"".join(frame(k, blob(k, k % 5)) for k in order[i:i + 32])) for i in range(0, 256, 32)])
    case(*[Push(frame(k, network=3), network=3) for k in kinds])
    case(Push(b"".join(frame(k // 2, b"\x07") for k in kinds)))
    case(Push(b"".join(frame(k // 16 * 17) for k in kinds)), Push(b"".join(frame(k // 16 * 17, b"ab") for k in kinds)))

    group("some types together")
    for kind in range(0, 256, 15):
        other = 255 - kind
        stream = b"".join(frame(k, blob(k, k % 4)) for k in (kind, other, kind, (kind + 1) % 256, kind, other))
        case(Push(stream))
        case(*cut(stream, [len(stream) // 3, len(stream) // 2]))
        case(Push(stream), Push(stream), Push(stream[:-1]), Push(stream[-1:]))
    for kind in (0, 1, 2, 127, 128, 254, 255):                     # numbers by type that are there already
        for value in (1, 255, 2 ** 32 - 1, 2 ** 32, 2 ** 62):
            case(Push(frame(kind, b"abc") * 3), numbers={kind: value, 256 + kind: value - 1, (kind + 1) % 256: 5})


def state_before(some, turn):
    """The tally and the held count before a push of a list, from zeros."""
    store, tally, held = bytearray(200), [0] * NUMBERS, 0
    for data in some[:turn]:
        held = push(0, store, held, data, bytearray(200), tally)[2]
    return tally, held


def full_cases():
    group("totals at 2^63 - 1")
    one, two = frame(1), frame(2, b"12345678") + frame(3, b"1")
    lists = ([b""], [b"", b""], [one[:5]], [one], [one[:8], one[8:]], [one[:3], one[3:6], b"", one[6:]], [two],
             [two[:20], two[20:]], [one + two[:9], b"", two[9:] + one[:1]], [one, one[:4], one[4:] + two], [two + one[:8], b""])
    for some in lists:
        for turn in range(len(some)):                              # the push that the totals are set for
            grown, held = state_before(some, turn)
            for more in (-2, -1, 0, 1, 2):
                for places in ((FRAMES,), (BYTES,), (FRAMES, BYTES)):
                    value = {p: MOST - held - len(some[turn]) - grown[p] + more for p in places}
                    got = case(*map(Push, some), Push(), numbers=value)
                    assert more > 0 or refusals(got)[turn] == 0
                    assert more <= 0 or 20 in refusals(got)[:turn + 1]

    group("totals over 2^63 - 1")
    for value in (MOST, MOST + 1, MOST + 2, 2 ** 63 + 2 ** 62, TOP - 18, TOP - 17, TOP - 9, TOP - 8, TOP - 1, TOP):
        for places in ((FRAMES,), (BYTES,), (FRAMES, BYTES)):
            for some in ([b""], [one], [one[:4], one[4:]], [b"\xd3"], [two[:1], b""]):
                got = case(*map(Push, some), numbers=dict.fromkeys(places, value))
                assert refusals(got)[0] == (0 if value == MOST and some[0] == b"" else 20)
    for value in (MOST, MOST - 5):                                 # a held count that is given, with nothing put
        for held in (0, 1, 4, 5, 6, 8):
            for place in (FRAMES, BYTES):
                case(Push(held=held), Push(), numbers={place: value}, store=12, counted=False)
                case(Push(b"\x01", held=held), Push(held=0), numbers={place: value - 1}, store=12, counted=False)

    group("numbers by type at 2^64 - 1")
    for kind, other in ((1, 2), (0, 255), (255, 0)):
        numbers = {kind: TOP, other: 1, 256 + kind: TOP, 256 + other: 9}
        for totals in ({FRAMES: TOP}, {BYTES: TOP}, {FRAMES: TOP, BYTES: TOP}, {FRAMES: MOST + 1, BYTES: 0}, {}):
            for some in ([frame(kind)], [frame(other)], [frame(kind) + frame(other), frame(kind)], [b""]):
                case(*map(Push, some), numbers={**numbers, **totals}, counted=False)
    for kind in (0, 7, 255):
        for value in (TOP - 40, TOP - 20, TOP - 19, TOP - 11, TOP - 10, TOP - 9, TOP - 2, TOP - 1, TOP):
            some = frame(kind, b"a")                               # ten bytes
            for place in (kind, 256 + kind):
                case(Push(some), numbers={place: value}, counted=False)
                case(Push(some + some), Push(frame((kind + 1) % 256)), numbers={place: value}, counted=False)
                case(Push(some), Push(some), Push(some), numbers={place: value}, counted=False)


def refusal_cases():
    group("refusals before 20")
    # Held bytes are five of a verack; 4 more complete it. Each condition by itself and with each other.
    verack = frame(1)
    for given in (0, 1):                                           # 18
        for long in (0, 1):                                        # 17
            for out in (9, 8, 0):                                  # 16
                for lent in (0, 513, 514, 515):                # 16 for the tally
                    for place, value in ((FRAMES, 0), (FRAMES, MOST - 8), (BYTES, MOST - 8), (BYTES, MOST - 9)):
                        more = b"x" * 20 if long else b""
                        asked = Push(verack[5:] + more, held=21 if given else None, out=out + len(more), tally=lent)
                        got = case(Push(verack[:5], out=5), asked, Push(verack[5:], held=5, out=20, tally=514),
                                   Push(held=0, out=0), store=20, numbers={place: value}, counted=False)
                        short, full = out < 9 or lent < 514, value == MOST - 8
                        assert refusals(got)[1] == (18 if given else 17 if long else 16 if short else 20 if full else 0)

    group("18, 17 and 16 by their lengths")
    for store in (0, 1, 9, 10):
        for held in (0, 1, store, store + 1, 2 ** 32, 2 ** 63 - 1, 2 ** 63, TOP - 8, TOP):
            for some in (b"", verack, b"12345678"):
                case(Push(some, held=held, out=20), Push(held=0), store=store, numbers={BYTES: TOP}, counted=False)
    for n in range(12):
        some = verack + frame(2, b"z")[:3]                         # 12 bytes
        case(Push(some, out=n), Push(some[:n], out=n), Push(some[n:], out=12), store=12)
        case(Push(some), Push(some[:n]), Push(b""), store=n, counted=True)
        case(Push(some[:n]), Push(some[n:], out=n), Push(some[n:], out=12), Push(some, out=14), Push(some, out=15), store=15)

    group("tallies by length")
    for lent in (0, 1, 2, 255, 256, 257, 511, 512, 513, 514, 515, 516, 519, 520):
        for some in ([b""], [verack], [verack[:4], verack[4:]], [frame(255, b"abc") + frame(0)]):
            for behind in ({514: 1}, {514: TOP, 515: TOP, 519: TOP}, {FRAMES: MOST, 514: 3}):
                case(*[Push(s, tally=lent) for s in some], *[Push(s) for s in some], numbers=behind)


def header_cases():
    group("4 and 5 after frames")
    good = frame(2, b"12345678")
    bad_headers = [b"\xd3\xf2\x6e\x5c\x01\0\0\0\0", b"\xd3\xf2\x6f\x5b\x01\0\0\0\0", b"\xd3\xf3\x6e\x5b\x01\0\0\0\0",
                   b"\xd2\xf2\x6e\x5b\x01\0\0\0\0", frame(1, network=1), frame(1, network=2), frame(1, network=3), bytes(9),
                   b"\xff" * 9, MAGICS[0] + b"\x01\x01\x12\x7a\x00", MAGICS[0] + b"\xff\xff\xff\xff\xff",
                   MAGICS[0] + b"\x02\x00\x00\x00\x80", MAGICS[0] + b"\x02\x01\x12\x7a\x01",
                   MAGICS[1] + b"\x02\x01\x12\x7a\x00"]
    for bad in bad_headers:
        number = 5 if bad[:4] == MAGICS[0] else 4
        for before in (b"", good, good + frame(7), frame(9) * 30):
            got = case(Push(before + bad), Push(b"\x01"), Push(), Push(good), Push(good, held=0), numbers={2: 5})
            assert refusals(got) == [number] * 4 + [0]
            got = case(Push(good), Push(before), Push(bad[:8]), Push(bad[8:] + good), Push(b"", held=0), Push(before + good[:3]))
            assert refusals(got) == [0, 0, 0, number, 0, 0]
    for before in (b"", good, good * 2, good * 12):                # 8,000,000 is no bad header: it is waited for
        case(Push(before + MAGICS[0] + b"\x0d\x00\x12\x7a\x00"), Push(b"abc"), Push())
    for bad in (bad_headers[0], bad_headers[9]):                   # cut at every place
        stream = good + frame(5, b"\x00") + bad + good
        for place in range(len(stream) + 1):
            case(*cut(stream, [place]), Push(good[:5]))

    group("4 and 5 beside other refusals")
    for bad in (bad_headers[0], bad_headers[9]):
        number = 5 if bad[:4] == MAGICS[0] else 4
        some = good + bad                                          # 26 bytes
        for place in (FRAMES, BYTES):
            for more in (0, 1):
                got = case(Push(some), Push(), Push(b"\x01"), numbers={place: MOST - 26 + more})
                assert refusals(got) == ([20, 0, 0] if more else [number, number, 20])
            got = case(Push(some), Push(b"\x01", out=26), Push(b"\x01", tally=513), Push(b"\x01" * 5), Push(b"\x01"),
                       Push(good, held=0), store=30, numbers={place: MOST - 27})
            assert refusals(got) == [number, 16, 16, 17, number, 0]
        case(Push(some, out=25), Push(some, tally=513), Push(some), Push(held=31), Push(good, held=0), store=30, counted=False)


def stream_cases():
    group("a tally carried on to other streams")
    for a in range(4):
        for b in range(4):
            for rest in (0, 1, 8):
                one, two = frame(a * 60, blob(a, 5), a), frame(b * 60 + 1, blob(b, 3), b)
                case(Push(one * 2 + one[:rest], network=a), Push(two + two[:4], held=0, network=b), Push(two[4:], network=b),
                     Push(one, held=0, network=a), store=60)
        case(Push(frame(1, network=a) + frame(1, network=(a + 1) % 4), network=a), Push(held=0, network=a),
             Push(frame(1, network=a), network=a), Push(frame(2, b"x", a) * 2, held=0, network=a))

    group("streams cut at every place")
    streams = [frame(0, b"") + frame(255, b"abc") + frame(0, b"12") + frame(13)[:4],
               frame(2, b"12345678") + frame(2, b"12345678") + frame(3, b"12345678", 0), frame(6) * 5]
    for network, stream in enumerate(streams):
        stream = stream.replace(MAGICS[0], MAGICS[network])
        for place in range(len(stream) + 1):
            case(*cut(stream, [place], network))
        for width in range(1, 12):
            case(*cut(stream, range(width, len(stream), width), network))
        for place in range(0, len(stream), 2):
            case(*cut(stream, [place, place, (place * 5 + 3) % len(stream)], network))

    group("long payloads")
    for size in (254, 255, 256, 257, 65_534, 65_535, 65_536, 65_537, 131_072, 200_000):
        head = MAGICS[1] + bytes([size % 251]) + struct.pack("<I", size)
        case(Push(head, network=1), Push(zeros=size, network=1))
        case(Push(frame(4, b"", 1) + head + b"ab", network=1), Push(zeros=size - 3, network=1),
             Push(b"c" + frame(4, b"", 1), network=1))
    head = MAGICS[0] + b"\x00" + struct.pack("<I", 70_000)
    case(Push(frame(0) + head), Push(zeros=60_000), Push(zeros=10_000), Push(head), Push(zeros=70_000))
    for more in (0, 1):
        case(Push(head), Push(zeros=70_000), numbers={BYTES: MOST - 70_009 + more})

    group("streams by draw")
    for turn in range(300):
        draw = Draw("stream %d" % turn)
        network = turn % 4
        kinds = [draw.below(256) for _ in range(1 + draw.below(4))]
        stream = b""
        for i in range(draw.below(14)):
            stream += frame(draw.pick(kinds), blob((turn, i), draw.pick((0, 0, 1, 5, 8, 20))), network)
        end = draw.below(6)
        if end < 4:
            stream += frame(9, b"z" * 9, network)[:draw.below(12)]
        if end == 4:
            stream += frame(9, b"", (network + 1) % 4)
        places = [draw.below(len(stream) + 1) for _ in range(draw.below(7))]
        numbers = {}
        if draw.below(3) == 0:
            numbers[draw.pick((FRAMES, BYTES))] = MOST - draw.below(2 * len(stream) + 1)
        if draw.below(3) == 0:
            numbers[draw.pick(kinds)] = draw.below(2 ** 40)
        pushes = cut(stream, places, network)
        for p in pushes:                                           # some are too short for it
            if draw.below(6) == 0:
                p.out = draw.below(len(stream) + 1)
            if draw.below(20) == 0:
                p.tally = draw.pick((0, 512, 513))
        case(*pushes, store=draw.below(2 * len(stream) + 2) if draw.below(5) == 0 else len(stream) + 1, numbers=numbers)


def cases():
    group("no push, and empty pushes")
    case()
    case(numbers={0: 1, 255: 2, 256: 3, 511: TOP, 512: 5, 513: 6, 514: 7, 519: 8}, store=0)
    for store in (0, 5):
        for count in (1, 2, 3):
            case(*[Push(out=0)] * count, store=store)
    type_cases()
    full_cases()
    refusal_cases()
    header_cases()
    stream_cases()


def main(check):
    checks = hand_checks()
    cases()
    files.put_cases(HERE, LINES, [ANSWERS[line] for line in LINES], (12, 2 * LINE_ROOM), "a-z0-9 -", check)
    files.say(checks, GROUPS, len(LINES))


if __name__ == "__main__":
    main(sys.argv[1:] == ["--check"])
