#!/usr/bin/env python3
"""A model of rights by role, from docs/01-scope.md and docs/02-change-requests.md, T-02 ("the papers"), and from the readings
of T-02 that docs/DECISIONS.md has.

`python3 model.py` checks the model against answers worked out by hand from the papers (hand_checks), then writes `stdin` and
`stdout` beside this file; with `--check` it compares them with the files that are there. Nothing is random. What reading and
writing again answer if no role is named, and some payloads, are those of packet_cases/model.py and rewrite_cases/model.py,
which were written from the papers too: here stands what T-02 adds.

Part 1  the model (terms, rights, the calls that take terms)
Part 2  the line protocol of the test program
Part 3  answers worked out by hand
Part 4  the cases, in groups
"""

import functools
import hashlib
import importlib.util
import os
import struct
import sys

HERE = os.path.dirname(os.path.abspath(__file__))
sys.dont_write_bytecode = True         # nothing is left beside the others
sys.path.insert(0, os.path.join(HERE, "..", "case_lines"))
import files


def load(name):
    spec = importlib.util.spec_from_file_location(name, os.path.join(HERE, "..", name, "model.py"))
    module = importlib.util.module_from_spec(spec)
    spec.loader.exec_module(module)
    return module


rewrites = load("rewrite_cases")
packets = rewrites.packets
Refused, Long = packets.Refused, packets.Long

# ---------------------------------------------------------------------------
# Part 1: the model
# ---------------------------------------------------------------------------

ROLES = 8
OTHER = 30                             # the bit of every type byte that is not known
FULL = 2 ** 31 - 1                     # bits 0 to 30
TOP = 2 ** 64 - 1


@functools.lru_cache(None)
def granted_bits(terms):
    """The bits of the role that terms name: no terms name the full mask, fewer than nine numbers grant nothing."""
    if not terms:
        return set(range(31))
    role = terms[0]
    if role > 7:
        raise Refused(21)
    mask = terms[1 + role] if len(terms) >= 9 else 0
    return {bit for bit in range(31) if mask & 2 ** bit}


def may_send(terms, kind):
    """21, then 22; by the type alone."""
    if (kind if kind < 30 else OTHER) not in granted_bits(terms):
        raise Refused(22)


def types_granted(terms):
    return len(granted_bits(terms))


def first_three(packet):
    """The first numbers of a packet, as a row has them."""
    values = list(packet.values)
    if packet.name == "raw":
        values = values[1:]                       # where it starts, and how long it is
    if packet.name == "getblocktxn":
        values = values[1:] + values[:1]          # the count and the first place go before the hash
    if packet.name == "feefilter":
        values[0] %= 2 ** 64                      # two's complement
    return (values + [0, 0, 0])[:3]


# The calls if no role is named. Each answers three numbers.

def read(kind, payload):
    return first_three(packets.read_fields(kind, payload))


LISTED = {5: 1, 6: 2, 7: 2, 8: 2, 9: 3, 10: 3, 11: 4, 24: 6}       # the codes of fields


def listing(kind, payload):
    packet = packets.read_fields(kind, payload)
    if kind not in LISTED:
        return [0, 0, 0]
    return first_three(packet)[:2] + [LISTED[kind]]


def item(kind, payload, place):
    name, values = packets.item(kind, payload, place)
    return (list(values) + [0, 0])[:3]


def sought(payload):
    """What the program seeks: the hash of the second inventory item, if the count takes one byte."""
    return payload[41:73] if len(payload) >= 73 else bytes(32)


def find(kind, payload):
    wanted = sought(payload)
    if not packets.find(kind, payload, wanted):
        return [0, 0, 0]
    places = [i for i, (name, values) in enumerate(packets.read_fields(kind, payload).items)
              if payload[values[1]:values[1] + 32] == wanted]
    assert len(places) == 1            # document 01 leaves open which of several is answered
    return [1, places[0], 0]


def packet(kind, payload, out):
    return first_three(packets.read_packet(kind, payload, out))


def indexes(payload, out):
    return [packets.indexes(payload, out), 0, 0]


def numbers(kind, payload, out):
    """The numbers of all addresses or inventory items; 16 last."""
    items = packets.read_fields(kind, payload).items
    values = [value for name, some in items if name in ("address", "inventory") for value in some]
    if len(out) < len(values):
        raise Refused(16, len(values))
    out[:len(values)] = values
    return [len(values), 0, 0]


def rewrite(kind, payload, out):
    return [rewrites.rewrite(kind, payload, out), 0, 0]


# ---------------------------------------------------------------------------
# Part 2: the line protocol
# ---------------------------------------------------------------------------

LINE_ROOM = 2_000
PAYLOAD_ROOM = 8_000_001
TERMS_ROOM = 12
TEXT, NUMBERS, OUT, INDEXES = 4, 7, 40, 3          # what the program lends
ALL, TABLE = 0, 1                                  # the kinds of cases


def row(call, *given):
    """The four numbers of an answer."""
    try:
        return [0] + list(call(*given))
    except Refused as refusal:
        return list(refusal.args)


@functools.lru_cache(None)
def unnamed(kind, payload, place):
    """The rows of all calls about a payload if no role is named, and what was lent; of each call its name, its row and what
    was lent for it as it is shown."""
    text, some, out = bytearray(b"\xaa" * TEXT), [7] * NUMBERS, bytearray(b"\xaa" * OUT)
    return [("read", row(read, kind, payload), ""),
            ("listing", row(listing, kind, payload), ""),
            ("item", row(item, kind, payload, place), ""),
            ("find", row(find, kind, payload), ""),
            ("numbers", row(numbers, kind, payload, some), " ".join(map(str, some))),
            ("packet", row(packet, kind, payload, text), text.hex()),
            ("rewrite", row(rewrite, kind, payload, out), out.hex())]


@functools.lru_cache(None)
def unnamed_indexes(payload):
    out = [7] * INDEXES
    return row(indexes, payload, out), " ".join(map(str, out))


LENT = {"numbers": " ".join(["7"] * NUMBERS), "packet": "aa" * TEXT, "rewrite": "aa" * OUT}
CALLS = ("read", "listing", "item", "find", "packet", "numbers", "rewrite")


def send(terms, kind):
    return row(lambda: may_send(terms, kind) or [0, 0, 0])


def ask(terms, kind, payload, place):
    """The rows of all calls that take a type, by name: `send`, then the others, which make the same test first and leave what
    is lent as it was."""
    sent = send(terms, kind)
    if sent[0]:
        return sent, [(name, sent, LENT.get(name, "")) for name in CALLS]
    return sent, unnamed(kind, payload, place)


def ask_indexes(terms, payload):
    """`indexes` takes a payload of type 24."""
    sent = send(terms, 24)
    return (sent, " ".join(["7"] * INDEXES)) if sent[0] else unnamed_indexes(payload)


def sheet(terms):
    return row(lambda: [types_granted(terms), 0, 0])


def words(*parts):
    return " ".join(str(p) for part in parts for p in (part if isinstance(part, list) else [part]) if str(p) != "")


def all_calls(terms, kind, payload, place):
    sent, others = ask(terms, kind, payload, place)
    rows = {name: words(name, four, lent) for name, four, lent in others}
    return words("send", sent, "sheet", sheet(terms), rows["read"], rows["listing"], rows["item"], rows["find"],
                 "indexes", *ask_indexes(terms, payload), rows["numbers"], rows["packet"], rows["rewrite"])


@functools.lru_cache(None)
def unnamed_digits(kind, payload, place):
    by_name = {name: four[0] for name, four, lent in unnamed(kind, payload, place)}
    return sum(by_name[name] * 100 ** i for i, name in enumerate(reversed(CALLS)))


def digits(terms, kind, payload, place):
    """Two digits a call, `send` first: the number of its refusal, or 0."""
    number = send(terms, kind)[0]
    return int(str(number) * (1 + len(CALLS))) if number else unnamed_digits(kind, payload, place)


def table(terms, payload, place):
    said, before = [], None
    for kind in range(256):
        value = digits(terms, kind, payload, place)
        if value != before:
            said += [kind, value]
        before = value
    return words("sheet", sheet(terms), "indexes", *ask_indexes(terms, payload), "types", said)


def compact(value):
    if value < 253:
        return bytes([value])
    if value < 2 ** 16:
        return b"\xfd" + struct.pack("<H", value)
    if value < 2 ** 32:
        return b"\xfe" + struct.pack("<I", value)
    return b"\xff" + struct.pack("<Q", value)


def line_of(what, terms, kind, payload, place):
    assert len(terms) <= TERMS_ROOM
    front = b"".join(compact(number) for number in terms)
    front = bytes([len(front)]) + front
    if not isinstance(payload, Long):
        payload = Long(payload, 0)
    assert payload.length <= PAYLOAD_ROOM
    line = struct.pack("<BBQQQ", what, kind, place, len(front + payload.front), payload.zeros) \
        + front + payload.front + payload.back
    assert len(line) <= LINE_ROOM
    return line.hex()


@functools.lru_cache(None)
def around(before, zeros, behind):
    """A payload around its zeros; one object for each, since a long one takes time to compare."""
    return before + bytes(zeros) + behind


def parts_of(line):
    """A case as the program takes it from a line."""
    data = bytes.fromhex(line)
    what, kind, place, before, zeros = struct.unpack("<BBQQQ", data[:26])
    rest = data[26:]
    given, payload = rest[1:1 + rest[0]], rest[1 + rest[0]:]
    at, terms = 0, []
    while at < len(given):
        width = {253: 2, 254: 4, 255: 8}.get(given[at], 0)
        terms.append(int.from_bytes(given[at + 1:at + 1 + width], "little") if width else given[at])
        at += 1 + width
    front = before - 1 - rest[0]
    return what, tuple(terms), kind, around(payload[:front], zeros, payload[front:]), place


def answer(line):
    what, terms, kind, payload, place = parts_of(line)
    return all_calls(terms, kind, payload, place) if what == ALL else table(terms, payload, place)


# ---------------------------------------------------------------------------
# Part 3: answers worked out by hand, from T-02's sentences and document 01's table
# ---------------------------------------------------------------------------

HAND = []            # the lines that they are of


def hand_checks():
    done = [0]

    def same(got, expected):
        assert got == expected, (got, expected)
        done[0] += 1

    def op(what, terms, kind=0, payload=b"", place=0):
        line = line_of(what, terms, kind, payload, place)
        assert parts_of(line)[1] == tuple(terms)
        HAND.append(line)
        return answer(line)

    def rights(terms, kind):
        """What one frame and the sheet get."""
        return op(ALL, terms, kind).split(" read")[0]

    def whole(role, *masks):
        """A role, the masks of the first roles, and none for the others."""
        return [role] + list(masks) + [0] * (ROLES - len(masks))

    X = bytes.fromhex
    all_aa = " packet %s aaaaaaaa rewrite %s " + "aa" * 40
    # No terms: the full mask. Roles 0 and 7; type 29 has its own bit, 30 and 255 share bit 30.
    same(rights([], 200), "send 0 0 0 0 sheet 0 31 0 0")
    same(rights(whole(0, 2 ** 29), 29), "send 0 0 0 0 sheet 0 1 0 0")
    same(rights(whole(0, 2 ** 29), 30), "send 22 0 0 0 sheet 0 1 0 0")
    same(rights(whole(0, 2 ** 30), 29), "send 22 0 0 0 sheet 0 1 0 0")
    same(rights(whole(0, 2 ** 30), 30), "send 0 0 0 0 sheet 0 1 0 0")
    same(rights(whole(7, 0, 0, 0, 0, 0, 0, 0, 2 ** 30 + 1), 255), "send 0 0 0 0 sheet 0 2 0 0")
    # Bit 31 grants nothing, not even type 31, and counts nothing; nor do the bits behind it.
    same(rights(whole(0, 2 ** 31), 31), "send 22 0 0 0 sheet 0 0 0 0")
    same(rights(whole(0, TOP), 31), "send 0 0 0 0 sheet 0 31 0 0")
    same(rights(whole(0, TOP - FULL), 0), "send 22 0 0 0 sheet 0 0 0 0")
    # Role 8 and what looks like role 0 in its last bytes, by the count too.
    for role in (8, 2 ** 8, 2 ** 32, TOP):
        same(rights([role] + [FULL] * 8, 1), "send 21 0 0 0 sheet 21 0 0 0")
    # Cut terms: a role and no mask; with its own and one more; with all but the last. Masks whose role was forgotten.
    same(rights([0], 1), "send 22 0 0 0 sheet 0 0 0 0")
    same(rights([1, FULL, FULL], 1), "send 22 0 0 0 sheet 0 0 0 0")
    same(rights([0] + [FULL] * 7, 1), "send 22 0 0 0 sheet 0 0 0 0")
    same(rights([FULL] * 8, 1), "send 21 0 0 0 sheet 21 0 0 0")
    same(rights([0] + [FULL] * 8, 1), "send 0 0 0 0 sheet 0 31 0 0")
    # A ping of one byte too few and none, granted and not, and by no role: 1, 22, 21, the lent bytes as they were.
    one = "1 0 7 0"
    same(op(ALL, whole(0, 2 ** 2), 2, X("00")),
         "send 0 0 0 0 sheet 0 1 0 0 read %s listing %s item %s find %s indexes 22 0 0 0 7 7 7 numbers %s 7 7 7 7 7 7 7"
         % ((one,) * 5) + all_aa % (one, one))
    for terms, no, ones in ((whole(0, FULL - 4), "22 0 0 0", "0 30 0 0"), (whole(8, FULL), "21 0 0 0", "21 0 0 0")):
        its = "1 0 31 0" if terms[0] == 0 else no          # one byte as a getblocktxn, whose hash has 32
        same(op(ALL, terms, 2, X("00")),
             "send %s sheet %s read %s listing %s item %s find %s indexes %s 7 7 7 numbers %s 7 7 7 7 7 7 7"
             % (no, ones, no, no, no, no, its, no) + all_aa % (no, no))
    # 5 is last of the three: a ping of 8,000,001 bytes.
    long, five = Long(b"", 8_000_001), "5 8000001 8000000 0"
    for terms, no in ((whole(0, FULL), five), (whole(0, FULL - 4), "22 0 0 0"), (whole(8, FULL), "21 0 0 0")):
        words_of = op(ALL, terms, 2, long).split(" ")
        same(words_of[words_of.index("read") + 1:][:4], no.split())
        same(words_of[words_of.index("rewrite") + 1:][:4], no.split())
    # Two inventory items under role 3, whose mask is bit 6: the second, its hash at 1 + 36 + 4.
    two = X("02" "01000000" + "11" * 32 + "02000000" + "22" * 32)
    same(op(ALL, whole(3, 0, 0, 0, 64), 6, two, 1),
         "send 0 0 0 0 sheet 0 1 0 0 read 0 2 1 0 listing 0 2 1 2 item 0 2 41 0 find 0 1 1 0 indexes 22 0 0 0 7 7 7 "
         "numbers 0 4 0 0 1 5 2 41 7 7 7 packet 0 2 1 0 aaaaaaaa rewrite 16 73 0 0 " + "aa" * 40)
    # A reject of ping with the reason 'hi', masked, under role 1; and of five letters, which there is no room for.
    same(op(ALL, whole(1, 0, 2 ** 15), 15, X("02" "11" "02" "e8e9")).split(" numbers ")[1],
         "0 0 0 0 7 7 7 7 7 7 7 packet 0 2 17 3 6869aaaa rewrite 0 5 0 0 0211026869" + "aa" * 35)
    same(op(ALL, whole(1, 0, 2 ** 15), 15, X("02" "11" "05" "6869686968")).split(" packet ")[1],
         "16 5 0 0 aaaaaaaa rewrite 0 8 0 0 0211056869686968" + "aa" * 32)
    # Tables. Nothing granted; verack alone, of no bytes: it has no item, 19.
    same(op(TABLE, whole(0, 0)), "sheet 0 0 0 0 indexes 22 0 0 0 7 7 7 types 0 2222222222222222")
    same(op(TABLE, whole(0, 2)), "sheet 0 1 0 0 indexes 22 0 0 0 7 7 7 types 0 2222222222222222 1 1900000000 2 2222222222222222")
    same(op(TABLE, whole(2, 0, 0, 2 ** 30)), "sheet 0 1 0 0 indexes 22 0 0 0 7 7 7 types 0 2222222222222222 30 1900000000")
    same(op(TABLE, [8]), "sheet 21 0 0 0 indexes 21 0 0 0 7 7 7 types 0 2121212121212121")
    same(op(TABLE, [], 0, long), "sheet 0 31 0 0 indexes 5 8000001 8000000 0 7 7 7 types 0 5050505050505")
    # Type 24 of 35 bytes: a hash, two differences, 3 and 0, so 3 and 4.
    same(op(TABLE, whole(0, 2 ** 24), 0, bytes(32) + X("020300")),
         "sheet 0 1 0 0 indexes 0 2 0 0 3 4 7 types 0 2222222222222222 24 0 25 2222222222222222")
    return done[0]


# ---------------------------------------------------------------------------
# Part 4: the cases
# ---------------------------------------------------------------------------

LINES = []
ANSWERS = {}         # of each line
GROUPS = []          # [name, first line (from 1), count]


def group(name):
    GROUPS.append([name, len(LINES) + 1, 0])


def add(line):
    if line not in ANSWERS:            # a line that another group has already is left out
        ANSWERS[line] = answer(line)
        LINES.append(line)
        GROUPS[-1][2] += 1
    return ANSWERS[line]


def case(terms, kind, payload, place=0):
    return add(line_of(ALL, terms, kind, payload, place))


def types(terms, payload=b"", place=0):
    return add(line_of(TABLE, terms, 0, payload, place))


def masks_of(role, own, others):
    """Terms that name a role, its mask, and the same mask for every other."""
    return [role] + [own if r == role else others for r in range(ROLES)]


def some(tag, bits=64):
    """A number that looks like any other, the same on every run."""
    return int.from_bytes(hashlib.sha256(tag.encode()).digest()[:8], "little") % 2 ** bits


def runs(got):
    """The digits of each of the 256 types that a table shows."""
    shown = list(map(int, got.split(" types ")[1].split()))
    starts = shown[::2] + [256]
    return [value for i, value in enumerate(shown[1::2]) for _ in range(starts[i], starts[i + 1])]


ABOVE = [8, 9, 15, 16, 31, 64, 255, 256, 257, 2 ** 16, 2 ** 16 + 7, 2 ** 31, 2 ** 32 - 1, 2 ** 32, 2 ** 32 + 7, 2 ** 63,
         TOP - 7, TOP]
LONG = Long(b"", 8_000_001)


def payloads():
    """By what reading as the type refuses it, or 0: the type, the payload, a place."""
    X = bytes.fromhex
    zeros = bytes(32)
    inv2 = X("02") + X("01000000") + b"\x11" * 32 + X("02000000") + b"\x22" * 32
    version = packets.version(b"hi").data
    address = packets.addr(1).data
    found = []

    def put(number, kind, payload, place=0):
        found.append((number, kind, payload, place))

    for kind in (1, 4, 12, 16, 19):
        put(19, kind, b"")
        put(3, kind, b"\0")
    for kind, size in ((2, 8), (3, 8), (21, 8), (22, 9), (26, 64)):
        put(19, kind, bytes(range(255, 255 - size, -1)), 3)
        put(1, kind, bytes(size - 1))
        put(3, kind, bytes(size + 2))
    for number, payload in ((19, version), (1, version[:-1]), (1, version[:50]), (3, version + b"\1"),
                            (16, packets.version(b"hello").data)):
        put(number, 0, payload)
    for number, payload in ((19, X("02" "11" "02" "e8e9")), (1, X("0e0000")), (3, X("02110000")), (1, X("021105")),
                            (16, X("02" "11" "05" "6869686968")), (19, X("0e" "10" "00") + b"\x33" * 32)):
        put(number, 15, payload)
    for number, payload, place in ((0, address, 0), (19, address, 1), (1, address[:-1], 0), (2, X("fd0a00"), 0),
                                   (3, address + b"\0", 0), (7, X("fde903"), 0), (19, b"\0", 0)):
        put(number, 5, payload, place)
    for kind in (6, 7, 8):
        for number, payload, place in ((0, inv2, 1), (19, inv2, 2), (19, inv2, TOP), (1, inv2[:-1], 0), (2, X("fe01000000"), 0),
                                       (3, inv2 + b"\0\0", 0), (7, X("fd51c3"), 0), (0, inv2[:1].replace(b"\2", b"\1") + inv2[1:37], 0)):
            put(number, kind, payload, place)
    for kind in (9, 10):
        for number, payload, place in ((0, b"\1" + b"\x44" * 32 + zeros, 0), (19, b"\0" + zeros, 0), (1, b"\0" + zeros[1:], 0),
                                       (2, X("ff0100000000000000"), 0), (3, b"\0" + zeros + b"\0", 0), (7, X("fd51c3"), 0)):
            put(number, kind, payload, place)
    for number, payload, place in ((0, b"\1" + packets.blob("a header", 236), 0), (19, b"\0", 0), (1, b"\1", 0),
                                   (2, X("fdfc00"), 0), (3, X("0000"), 0), (7, X("fdd107"), 0)):
        put(number, 11, payload, place)
    for number, tail, place in ((0, "03030004", 2), (19, "03030004", 3), (19, "00", 0), (1, "", 0), (1, "01", 0), (2, "fd0100", 0),
                                (2, "01fd0300", 0), (3, "0000", 0), (7, "fd1741", 0), (7, "01fe00000100", 0),
                                (9, "02fdffff00", 0), (16, "0400000000", 0)):
        put(number, 24, zeros + X(tail), place)
    for kind in (13, 14, 17, 18, 20, 23, 25, 27, 28, 29, 30, 31, 63, 127, 128, 255):
        put(19, kind, b"\xde\xad", 0)
        put(19, kind, b"", 0)
    for kind in list(range(32)) + [255]:
        put(5, kind, LONG)
    return found


def first_refusal(number, got):
    """Whether a call of a case answered the refusal; 16 is the text's or the indexes', 19 an item's."""
    words_of = got.split(" ")
    name = {16: "packet", 19: "item"}.get(number, "read")
    answered = int(words_of[words_of.index(name) + 1])
    return answered == number or (number == 16 and int(words_of[words_of.index("indexes") + 1]) == 16)


def without_rights(got):
    """An answer without its sheet, and without `indexes`, which is of type 24."""
    parts = got.split(" ")
    sheet_at, indexes_at, numbers_at = parts.index("sheet"), parts.index("indexes"), parts.index("numbers")
    return parts[:sheet_at] + parts[sheet_at + 5:indexes_at] + parts[numbers_at:]


def refused_by(number, got):
    """Whether every call that takes the type answered that refusal and nothing that was lent changed."""
    row_of = "%d 0 0 0" % number
    expected = ("send %s read %s listing %s item %s find %s numbers %s 7 7 7 7 7 7 7 packet %s aaaaaaaa rewrite %s "
                % ((row_of,) * 8) + "aa" * OUT)
    return " ".join(without_rights(got)) == expected


def cases():
    group("answers worked out by hand")
    for line in HAND:
        add(line)

    # -- A bit alone is seen at its type alone, whatever all other roles have; and so is the bit that is missing.
    group("every role, every type: masks of one bit, others all")
    for role in range(ROLES):
        for bit in range(31):
            got = runs(types(masks_of(role, 2 ** bit, FULL)))
            assert [kind for kind in range(256) if got[kind] < 10 ** 14] == (list(range(30, 256)) if bit == 30 else [bit])
    group("every role, every type: masks without one bit, others none")
    for role in range(ROLES):
        for bit in range(31):
            types(masks_of(role, FULL - 2 ** bit, 0))
    group("every role, every type: none, all, bit 31 alone, bits from 31 on")
    for role in range(ROLES):
        for own in (0, FULL, 2 ** 31, 2 ** 32, 2 ** 63, TOP - FULL, TOP, TOP - 2, FULL + 2 ** 31, 1 + 2 ** 31, 2 ** 30 + 2 ** 31):
            for others in (0, TOP):
                got = types(masks_of(role, own, others))
                assert got == types(masks_of(role, own % 2 ** 31, others))
                assert got == types(masks_of(role, own % 2 ** 31, TOP - others))
    same = types([])
    for role in range(ROLES):
        assert types(masks_of(role, FULL, 0)) == same

    # -- 21 first, whatever a mask or the payload says.
    group("roles above 7")
    for role in ABOVE:
        for masks in ([], [FULL] * 8, [TOP] * 11, [0] * 8):
            for payload in (b"", LONG):
                got = types([role] + masks, payload)
                assert got.startswith("sheet 21 0 0 0 indexes 21 ") and got.endswith(" types 0 2121212121212121")

    # -- Each refusal of a payload: under no terms, granted, not granted, and by no role.
    group("payloads under no terms, a granted role, one that is not granted, and none")
    seen = set()
    for number, kind, payload, place in payloads():
        bit = 2 ** min(kind, 30)
        role = some("role %d %d" % (number, kind), 3)
        plain = case([], kind, payload, place)
        assert number == 0 or first_refusal(number, plain), (number, kind, plain)
        granted = case(masks_of(role, bit, FULL - bit), kind, payload, place)
        assert without_rights(granted) == without_rights(plain)
        assert refused_by(22, case(masks_of(role, TOP - bit, TOP), kind, payload, place))
        above = ABOVE[some("above %d %d" % (number, kind)) % len(ABOVE)]
        assert refused_by(21, case([above] + [TOP] * 8, kind, payload, place))
        seen.add(number)
    assert seen == {0, 1, 2, 3, 5, 7, 9, 16, 19}

    # -- 22 before 5 and 5 behind it, by all calls and types.
    group("8,000,001 bytes, and 8,000,000, by every type")
    for role in range(ROLES):
        for own in (0, FULL, some("five %d" % role), 2 ** 30, 2 ** 6 + 2 ** 24, 2 ** 31):
            got = runs(types(masks_of(role, own, TOP - own), LONG))
            permitted = [bool(own & 2 ** min(kind, 30)) for kind in range(256)]
            assert got == [5050505050505 if may else 2222222222222222 for may in permitted]
        types(masks_of(role, 2 ** 1 + 2 ** 4 + 2 ** 16, FULL), Long(b"", 8_000_000))

    # -- From one to eight numbers grant nothing, and the numbers behind the ninth are not looked at.
    group("terms of every length")
    for role in range(ROLES):
        for size in range(TERMS_ROOM + 1):
            terms = [role] + [FULL] * 8 + [TOP, 0, 8]
            got = types(terms[:size])
            assert ("sheet 0 0 0 0" in got) == (1 <= size < 9)
            types(masks_of(role, 2 ** 30 + 2 ** role, TOP)[:size], b"\0")
            types(masks_of(role, 0, TOP)[:size], b"\0")
        own = some("behind %d" % role)
        for behind in ([], [0], [TOP], [role, own], [8, TOP, 0]):
            assert types(masks_of(role, own, 0) + behind) == types(masks_of(role, own, 0))

    # -- Sheets.
    group("sheets of masks that look random, with bits from 31 on")
    for role in range(ROLES):
        for i in range(25):
            terms = [role] + [some("sheet %d %d %d" % (role, i, r)) for r in range(ROLES)]
            got = types(terms, packets.blob("payload %d" % i, i))
            assert got.startswith("sheet 0 %d 0 0 " % bin(terms[1 + role] % 2 ** 31).count("1"))

    # -- Another role's mask.
    group("another role's mask changed")
    for role in range(ROLES):
        own = some("own %d" % role)
        payload = bytes(32) + b"\0"
        first = types(masks_of(role, own, 0), payload)
        for other in range(ROLES):
            for mask in (FULL, TOP - own, own):
                terms = masks_of(role, own, 0)
                terms[1 + other] = mask
                if other != role:
                    assert types(terms, payload) == first
                    terms[0] = other
                    types(terms, payload)

    # -- Granting: a frame that was permitted is answered alike after every further bit.
    group("bits granted one by one")
    for role in range(ROLES):
        order = sorted(range(32), key=lambda bit: some("order %d %d" % (role, bit)))
        others = [some("others %d %d" % (role, r)) for r in range(ROLES)]
        before = [2222222222222222] * 256
        own = 0
        for bit in order:
            own += 2 ** bit
            others[role] = own
            now = runs(types([role] + others, b"\0\1"))
            assert all(was in (2222222222222222, new) for was, new in zip(before, now))
            assert (before == now) == (bit == 31)
            before = now
        assert before == runs(types([], b"\0\1"))

    # -- Items and payloads that read, under each role.
    group("ordinary payloads under every role")
    for number, kind, payload, place in payloads():
        if number in (0, 16, 19):
            plain = case([], kind, payload, place)
            for role in range(ROLES):
                if (role + kind) % 3 == 0:
                    assert case(masks_of(role, TOP, 0), kind, payload, place) == plain


def main(check):
    checks = hand_checks()
    cases()
    files.put_cases(HERE, LINES, [ANSWERS[line] for line in LINES], (54, 2 * LINE_ROOM), "a-z0-9 ", check)
    files.say(checks, GROUPS, len(LINES))


if __name__ == "__main__":
    main(sys.argv[1:] == ["--check"])
