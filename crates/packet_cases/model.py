#!/usr/bin/env python3
"""A model of packet reading, written from docs/01-scope.md ("the paper").

`python3 model.py` checks the model against answers worked out by hand from the
paper (hand_checks), then writes `stdin` and `stdout` beside this file; with
`--check` it compares them with the files that are there. Nothing is random. Every line of `stdout` is `answer(line)` of the same line of `stdin`:
the reader below works it out from the digits, nothing is written by hand.

Part 1  the model (the reader, the item by place, the finder, the indexes)
Part 2  the line protocol of the test program
Part 3  builders of payloads, for the cases
Part 4  answers worked out by hand
Part 5  the cases, in groups
"""

import hashlib
import os
import sys

HERE = os.path.dirname(os.path.abspath(__file__))
sys.dont_write_bytecode = True         # nothing is left beside the module
sys.path.insert(0, os.path.join(HERE, "..", "case_lines"))
import files

# ---------------------------------------------------------------------------
# Part 1: the model
# ---------------------------------------------------------------------------

PAYLOAD_LIMIT = 8_000_000
# Field codes, the value c of refusal 7.
ADDRESS, INVENTORY, LOCATOR, HEADER, INDEX_COUNT, INDEX = 1, 2, 3, 4, 5, 6
LIMIT = {ADDRESS: 1_000, INVENTORY: 50_000, LOCATOR: 50_000, HEADER: 2_000,
         INDEX_COUNT: 16_662, INDEX: 65_535}
EMPTY = {1: "verack", 4: "getaddr", 12: "sendheaders", 16: "mempool", 19: "filterclear"}
# Carried types (13, 14, 23, 25, 27) and raw ones: both give their payload as raw bytes.
RAW = {13, 14, 23, 25, 27} | {17, 18, 20, 28, 29} | set(range(30, 256))
HASHED_REJECTS = (13, 14, 28, 29)


class Refused(Exception):
    """A refusal: a number and values a, b, c; 0 where a value is not named."""

    def __init__(self, number, a=0, b=0, c=0):
        super().__init__(number, a, b, c)
        self.line = "refused %d %d %d %d" % (number, a, b, c)


class Reader:
    def __init__(self, payload):
        self.payload = payload
        self.place = 0

    def take(self, width):
        """One read. It fails at the place where it began (1: offset, missing)."""
        missing = self.place + width - len(self.payload)
        if missing > 0:
            raise Refused(1, self.place, missing)
        start = self.place
        self.place += width
        return self.payload[start:self.place]

    def skip(self, width):
        """One read of which only the place is wanted."""
        start = self.place
        self.take(width)
        return start

    def number(self, width):
        return int.from_bytes(self.take(width), "little")

    def compact(self):
        """Two reads: the first byte, then the bytes after it. Always the shortest."""
        first = self.number(1)
        if first < 253:
            return first
        width = {253: 2, 254: 4, 255: 8}[first]
        value = self.number(width)
        shorter_holds = {2: 252, 4: 0xffff, 8: 0xffffffff}[width]
        if value <= shorter_holds:
            raise Refused(2, 8 * width)
        return value

    def limited(self, code):
        """A compact size with a limit; over it is 7, before anything behind it is read."""
        value = self.compact()
        if value > LIMIT[code]:
            raise Refused(7, value, LIMIT[code], code)
        return value


def read_address(r):
    """The values of one address: time, services, ip (two halves), port, place of the key."""
    time = r.number(8)
    services = r.number(4)
    r.number(4)                                   # reserved, not kept
    kind = r.number(1)
    host = r.take(36)
    ip = host[:16] if kind == 0 else bytes(16)
    port = r.number(2)
    key_place = r.skip(33)
    return [time, services,
            int.from_bytes(ip[:8], "little"), int.from_bytes(ip[8:], "little"),
            port, key_place]


class Packet:
    def __init__(self, name, values=(), items=(), text=None):
        self.name = name
        self.values = list(values)     # printed after the name
        self.items = list(items)       # (name, values) of each item, in order
        self.text = text               # (start, length) of an agent or reason


def read_fields(kind, payload):
    """5; fields left to right; 3. (16 is the caller's: it depends on the output.)"""
    if len(payload) > PAYLOAD_LIMIT:
        raise Refused(5, len(payload), PAYLOAD_LIMIT)
    r = Reader(payload)
    packet = read_by_type(kind, r)
    left = len(payload) - r.place
    if left:
        raise Refused(3, left)
    return packet


def read_by_type(kind, r):
    if kind in RAW:
        start = r.place
        length = len(r.take(len(r.payload) - r.place))
        return Packet("raw", [kind, start, length])
    if kind in EMPTY:
        return Packet(EMPTY[kind])
    if kind == 0:
        version = r.number(4)
        services = r.number(4)
        r.number(4)                               # reserved, not kept
        time = r.number(8)
        address = read_address(r)
        nonce = r.number(8)
        length = r.number(1)
        start = r.skip(length)
        height = r.number(4)
        no_relay = 1 if r.number(1) == 1 else 0   # true only for 1
        return Packet("version",
                      [version, services, time] + address + [nonce, start, length, height, no_relay],
                      text=(start, length))
    if kind in (2, 3):
        return Packet({2: "ping", 3: "pong"}[kind], [r.number(8)])
    if kind == 5:
        count = r.limited(ADDRESS)
        first = r.place
        items = [("address", read_address(r)) for _ in range(count)]
        return Packet("addr", [count, first], items)
    if kind in (6, 7, 8):
        count = r.limited(INVENTORY)
        first = r.place
        items = [("inventory", [r.number(4), r.skip(32)]) for _ in range(count)]
        return Packet({6: "inv", 7: "getdata", 8: "notfound"}[kind], [count, first], items)
    if kind in (9, 10):
        count = r.limited(LOCATOR)
        first = r.place
        items = [("hash", [r.skip(32)]) for _ in range(count)]
        stop = r.skip(32)                         # no item
        return Packet({9: "getblocks", 10: "getheaders"}[kind], [count, first, stop], items)
    if kind == 11:
        count = r.limited(HEADER)
        first = r.place
        items = [("header", [r.skip(236)]) for _ in range(count)]
        return Packet("headers", [count, first], items)
    if kind == 15:
        rejected = r.number(1)
        code = r.number(1)
        length = r.number(1)
        start = r.skip(length)
        hash_place = r.skip(32) if rejected in HASHED_REJECTS else "-"
        return Packet("reject", [rejected, code, start, length, hash_place], text=(start, length))
    if kind == 21:
        rate = r.number(8)
        return Packet("feefilter", [rate - (1 << 64) if rate >> 63 else rate])
    if kind == 22:
        return Packet("sendcmpct", [r.number(1), r.number(8)])
    if kind == 24:
        hash_place = r.skip(32)
        count = r.limited(INDEX_COUNT)
        first = r.place
        items = []
        for place in range(count):
            difference = r.limited(INDEX)         # 7 before 9
            index = difference if place == 0 else items[-1][1][0] + difference + 1
            if index > 65_535:
                raise Refused(9)
            items.append(("index", [index]))
        return Packet("getblocktxn", [hash_place, count, first], items)
    if kind == 26:
        return Packet("getproof", [r.skip(32), r.skip(32)])
    raise AssertionError(kind)


def read_packet(kind, payload, out):
    """The packet; its agent or reason masked into the front of `out`. 16 comes last,
    and no refusal changes a byte of `out`."""
    packet = read_fields(kind, payload)
    if packet.text is not None:
        start, length = packet.text
        if len(out) < length:
            raise Refused(16, length)
        for i in range(length):
            out[i] = payload[start + i] & 0x7f
    return packet


def item(kind, payload, place):
    """The item at a place: the payload's own refusal first (16 is none), then 19."""
    packet = read_fields(kind, payload)
    if place >= len(packet.items):
        raise Refused(19)
    return packet.items[place]


def find(kind, payload, wanted):
    """Whether the hash stands among the inventory items of a payload that reads."""
    packet = read_fields(kind, payload)
    return any(name == "inventory" and payload[values[1]:values[1] + 32] == wanted
               for name, values in packet.items)


def indexes(payload, out):
    """All indexes of a getblocktxn payload into the front of `out`; 16 last."""
    packet = read_fields(24, payload)
    if len(out) < len(packet.items):
        raise Refused(16, len(packet.items))
    for i, (_, (index,)) in enumerate(packet.items):
        out[i] = index
    return len(packet.items)


# ---------------------------------------------------------------------------
# Part 2: the line protocol
# ---------------------------------------------------------------------------

def words(*parts):
    """Words with single spaces; an empty part leaves nothing behind."""
    return " ".join(str(p) for p in parts if str(p) != "")


def filled(rest):
    """What a long case is about: how many of the bytes given stand before the zeros, how
    many zeros, the bytes given."""
    before = int.from_bytes(rest[:8], "little")
    zeros = int.from_bytes(rest[8:16], "little")
    given = rest[16:]
    return given[:before] + bytes(zeros) + given[before:]


def answer(line):
    data = bytes.fromhex(line)
    operation, kind = data[0], data[1]
    n = int.from_bytes(data[2:10], "little")
    rest = data[10:]
    if operation >= 4:                 # 4 to 7 are 0 to 3, of a long case
        operation, rest = operation - 4, filled(rest)
    if operation == 0:
        out = bytearray(b"\xaa" * n)
        try:
            packet = read_packet(kind, rest, out)
            head = words(packet.name, *packet.values)
        except Refused as refusal:
            head = refusal.line
        return words(head, "text", out.hex())
    if operation == 1:
        try:
            name, values = item(kind, rest, n)
            return words(name, *values)
        except Refused as refusal:
            return refusal.line
    if operation == 2:
        try:
            return "found" if find(kind, rest[32:], rest[:32]) else "nowhere"
        except Refused as refusal:
            return refusal.line
    if operation == 3:
        out = [7] * n
        try:
            count = indexes(rest, out)
            return words("indexes", count, *out[:count], "rest", *out[count:])
        except Refused as refusal:
            return words(refusal.line, "rest", *out)
    raise AssertionError(operation)


def line_of(operation, kind, n, rest):
    return (bytes([operation, kind]) + n.to_bytes(8, "little") + rest).hex()


# ---------------------------------------------------------------------------
# Part 3: builders. A Build notes where each read of the payload it makes begins
# and ends; the cuts are checked against these notes, apart from the reader.
# ---------------------------------------------------------------------------

class Build:
    def __init__(self):
        self.data = b""
        self.reads = []

    def put(self, some):
        self.reads.append((len(self.data), len(self.data) + len(some)))
        self.data += some
        return self

    def number(self, value, width):
        return self.put((value % (1 << (8 * width))).to_bytes(width, "little"))

    def compact(self, value, width=None):
        """In its shortest form, or in the form of `width` bytes after the first."""
        if width is None:
            width = 0 if value < 253 else 2 if value < 1 << 16 else 4 if value < 1 << 32 else 8
        if width == 0:
            return self.number(value, 1)
        self.number({2: 253, 4: 254, 8: 255}[width], 1)
        return self.number(value, width)

    def address(self, tag, time=None, services=None, reserved=0, host_kind=0, host=None,
                port=None, key=None):
        b = blob("address %s" % tag, 88)
        self.number(int.from_bytes(b[:8], "little") if time is None else time, 8)
        self.number(int.from_bytes(b[8:12], "little") if services is None else services, 4)
        self.number(reserved, 4)
        self.number(host_kind, 1)
        self.put(b[17:53] if host is None else host)
        self.number(int.from_bytes(b[53:55], "little") if port is None else port, 2)
        return self.put(b[55:88] if key is None else key)

    def inventory(self, kind, some_hash):
        return self.number(kind, 4).put(some_hash)

    def text(self, some):
        return self.number(len(some), 1).put(some)


class Long:
    """Bytes, zeros, bytes: what a short line gives of a payload of any length."""

    def __init__(self, front, zeros, back=b""):
        self.front, self.zeros, self.back = front, zeros, back
        self.length = len(front) + zeros + len(back)

    def rest(self):
        return (len(self.front).to_bytes(8, "little") + self.zeros.to_bytes(8, "little")
                + self.front + self.back)


def blob(tag, length):
    """Bytes that look like any others, the same on every run."""
    out = b""
    while len(out) < length:
        out += hashlib.sha256(("%s/%d" % (tag, len(out))).encode()).digest()
    return out[:length]


def h(tag):
    return blob("hash %s" % tag, 32)


def version(agent=b"", version=3, services=1, reserved=0, time=1_600_000_000, address=None,
            nonce=0x0807060504030201, height=10_000, no_relay=0):
    b = Build().number(version, 4).number(services, 4).number(reserved, 4).number(time, 8)
    b.address("version", **(address or {}))
    return b.number(nonce, 8).text(agent).number(height, 4).number(no_relay, 1)


def addr(count, width=None, claim=None):
    b = Build().compact(count if claim is None else claim, width)
    for i in range(count):
        b.address(i)
    return b


def inv(hashes, width=None, claim=None, kinds=(1, 2, 3, 4, 5, 6, 0, 7, 0xffffffff, 0x80000000)):
    b = Build().compact(len(hashes) if claim is None else claim, width)
    for i, some_hash in enumerate(hashes):
        b.inventory(kinds[i % len(kinds)], some_hash)
    return b


def locator(hashes, stop, width=None, claim=None):
    b = Build().compact(len(hashes) if claim is None else claim, width)
    for some_hash in hashes:
        b.put(some_hash)
    return b if stop is None else b.put(stop)


def headers(count, width=None, claim=None):
    b = Build().compact(count if claim is None else claim, width)
    for i in range(count):
        b.put(blob("header %d" % i, 236))
    return b


def reject(rejected, code, reason, some_hash=None):
    b = Build().number(rejected, 1).number(code, 1).text(reason)
    return b if some_hash is None else b.put(some_hash)


def getblocktxn(differences, width=None, claim=None):
    """A difference is a number, or (number, width) for a form of that width."""
    b = Build().put(h("block")).compact(len(differences) if claim is None else claim, width)
    for d in differences:
        b.compact(*(d if isinstance(d, tuple) else (d,)))
    return b


def differences_of(list_of_indexes):
    out = []
    for i, index in enumerate(list_of_indexes):
        out.append(index if i == 0 else index - list_of_indexes[i - 1] - 1)
    return out


def hashes(tag, count):
    return [h("%s %d" % (tag, i)) for i in range(count)]


# ---------------------------------------------------------------------------
# Part 4: answers worked out by hand, from the paper's table, its 'Worked bytes',
# its length card and its lists of fields
# ---------------------------------------------------------------------------

def hand_checks():
    X = bytes.fromhex

    def op(operation, kind, n, rest):
        return answer(line_of(operation, kind, n, rest))

    done = [0]

    def same(got, expected):
        assert got == expected, (got, expected)
        done[0] += 1

    def compact(digits):
        try:
            r = Reader(X(digits))
            value = r.compact()
            assert r.place == len(X(digits))
            return value
        except Refused as refusal:
            return refusal.line

    zeros32 = "00" * 32
    # The table's examples (rows that reading gives).
    same(op(0, 2, 0, X("00")), "refused 1 0 7 0 text")
    same(op(0, 6, 0, X("fd0a00")), "refused 2 16 0 0 text")
    same(op(0, 1, 0, X("00")), "refused 3 1 0 0 text")
    same(op(0, 5, 0, X("fde903")), "refused 7 1001 1000 1 text")
    same(op(0, 24, 0, X(zeros32 + "02" + "fdffff" + "00")), "refused 9 0 0 0 text")
    same(op(1, 6, 2, X("02" + ("01000000" + zeros32) * 2)), "refused 19 0 0 0")
    same(op(1, 6, 1, X("02" + ("01000000" + zeros32) * 2)), "inventory 1 41")
    # Row 5, by long cases, whose lines leave zeros out.
    def long(operation, kind, n, front, zeros, back=""):
        return op(operation + 4, kind, n, Long(X(front), zeros, X(back)).rest())

    same(long(0, 2, 0, "01", 5, "0203"), "ping %d text" % (1 + (2 << 48) + (3 << 56)))
    same(filled(Long(b"ab", 3, b"c").rest()), b"ab\0\0\0c")
    for kind in (1, 13, 30, 6):
        same(long(0, kind, 0, "", 8_000_001), "refused 5 8000001 8000000 0 text")
    same(long(1, 6, 0, "02", 8_000_000), "refused 5 8000001 8000000 0")
    same(long(2, 6, 0, zeros32, 8_000_001), "refused 5 8000001 8000000 0")
    same(long(3, 24, 1, zeros32, 7_999_969), "refused 5 8000001 8000000 0 rest 7")
    same(long(0, 255, 0, "", 8_000_000), "raw 255 0 8000000 text")
    same(long(0, 1, 0, "", 8_000_000), "refused 3 8000000 0 0 text")
    # Lists of 50,000 (c350) and 2,000 (07d0), their items from place 3 on: 3 + 36 x 49,999
    # and the kind, 3 + 32 x 49,999 and 3 + 32 x 50,000, 3 + 236 x 1,999.
    same(long(0, 6, 0, "fd50c3", 1_800_000), "inv 50000 3 text")
    same(long(1, 6, 49_999, "fd50c3", 1_800_000), "inventory 0 1799971")
    same(long(1, 6, 50_000, "fd50c3", 1_800_000), "refused 19 0 0 0")
    same(long(2, 6, 0, "11" * 32 + "fd50c3", 1_799_968, "11" * 32), "found")
    same(long(2, 6, 0, "11" * 32 + "fd50c3", 1_799_967, "11" * 32 + "00"), "nowhere")
    same(long(0, 9, 0, "fd50c3", 1_600_032), "getblocks 50000 3 1600003 text")
    same(long(1, 9, 49_999, "fd50c3", 1_600_032), "hash 1599971")
    same(long(0, 11, 0, "fdd007", 472_000), "headers 2000 3 text")
    same(long(1, 11, 1_999, "fdd007", 472_000), "header 471767")
    same(long(0, 6, 0, "fd50c3", 1_799_999), "refused 1 1799971 1 0 text")
    same(long(0, 6, 0, "fd51c3", 1_800_036), "refused 7 50001 50000 2 text")
    # Row 7's other codes, from the list of limits: counts of 50,001 (c351), 2,001 (07d1),
    # 16,663 (4117), an index of 65,536.
    same(op(0, 7, 0, X("fd51c3")), "refused 7 50001 50000 2 text")
    same(op(0, 10, 0, X("fd51c3")), "refused 7 50001 50000 3 text")
    same(op(0, 11, 0, X("fdd107")), "refused 7 2001 2000 4 text")
    same(op(0, 24, 0, X(zeros32 + "fd1741")), "refused 7 16663 16662 5 text")
    same(op(0, 24, 0, X(zeros32 + "01" + "fe00000100")), "refused 7 65536 65535 6 text")
    # Row 16, last: a reason of 2 into 1; 3 goes first.
    reject_hi = X("02" "11" "02" "6869")
    same(op(0, 15, 1, reject_hi), "refused 16 2 0 0 text aa")
    same(op(0, 15, 1, reject_hi + X("00")), "refused 3 1 0 0 text aa")
    same(op(0, 15, 3, reject_hi), "reject 2 17 3 2 - text 6869aa")
    same(op(0, 15, 2, X("02" "11" "02" "e8e9")), "reject 2 17 3 2 - text 6869")
    same(op(0, 15, 0, X("0e" "00" "00")), "refused 1 3 32 0 text")
    same(op(0, 15, 0, X("0e" "00" "00") + bytes(32)), "reject 14 0 3 0 3 text")
    # Worked bytes.
    same(compact("fc"), 252)
    same(compact("fdfd00"), 253)
    same(compact("fdfc00"), "refused 2 16 0 0")
    same(compact("fe00000100"), 65_536)
    same(compact("feffff0000"), "refused 2 32 0 0")
    same(compact("ffffffffff00000000"), "refused 2 64 0 0")
    same(compact("ff0000000001000000"), 4_294_967_296)
    three = X(zeros32 + "03" + "030004")
    same(op(3, 24, 5, three), "indexes 3 3 4 9 rest 7 7")
    same(op(3, 24, 3, three), "indexes 3 3 4 9 rest")
    same(op(3, 24, 2, three), "refused 16 3 0 0 rest 7 7")
    same(op(1, 24, 2, three), "index 9")
    same(op(0, 24, 0, three), "getblocktxn 0 3 33 text")
    same(op(3, 24, 1, X(zeros32 + "02" + "fdffff" + "00")), "refused 9 0 0 0 rest 7")
    same(op(0, 21, 0, X("ffffffffffffffff")), "feefilter -1 text")
    same(op(0, 21, 0, X("0000000000000080")), "feefilter -9223372036854775808 text")
    # No-relay `02` is false; the places of a version's fields, added up by hand:
    # 4+4+4+8 = 20, address 88 (key its last 33: 75), nonce 108, agent length 116.
    plain = X("03000000" "01000000" "00000000" "0500000000000000"
              "0600000000000000" "07000000" "00000000" "00"
              + "0100000000000000" "0200000000000000" + "00" * 20 + "3a2f" + "00" * 33
              + "0900000000000000" "01" "e1" "0b000000" "02")
    same(op(0, 0, 2, plain), "version 3 1 5 6 7 1 2 12090 75 9 117 1 11 0 text 61aa")
    same(op(0, 0, 0, plain[:-1] + X("01")), "refused 16 1 0 0 text")
    same(op(0, 0, 1, plain[:-1] + X("01")), "version 3 1 5 6 7 1 2 12090 75 9 117 1 11 1 text 61")
    same(op(0, 0, 1, plain[:-1]), "refused 1 122 1 0 text aa")
    # A header is one read of 236, a compact size two reads.
    same(op(0, 11, 0, X("01") + bytes(100)), "refused 1 1 136 0 text")
    same(op(0, 11, 0, X("fdd007")), "refused 1 3 236 0 text")
    same(op(0, 8, 0, X("fd")), "refused 1 1 2 0 text")
    same(op(0, 8, 0, X("")), "refused 1 0 1 0 text")
    # The finder; the stop hash is no item.
    one = X("01" "02000000" + "11" * 32)
    same(op(2, 7, 0, X("11" * 32) + one), "found")
    same(op(2, 7, 0, X("12" * 32) + one), "nowhere")
    same(op(2, 13, 0, X("11" * 32) + one), "nowhere")
    same(op(2, 7, 0, X("11" * 32) + one + X("00")), "refused 3 1 0 0")
    same(op(1, 9, 0, X("00") + bytes(32)), "refused 19 0 0 0")
    same(op(1, 10, 0, X("01") + bytes(64)), "hash 1")
    # The length card: both ends of each row are accepted, and what they end in.
    card = [
        (0, version(b"").data, 122), (0, version(b"a" * 255).data, 377),
        (5, addr(0).data, 1), (5, addr(1000).data, 88_003),
        (6, inv([]).data, 1), (7, bytes([253]) + X("50c3") + bytes(36 * 50_000), 1_800_003),
        (9, locator([], h("s")).data, 33), (10, bytes([253]) + X("50c3") + bytes(32 * 50_001), 1_600_035),
        (11, headers(0).data, 1), (11, headers(2000).data, 472_003),
        (15, reject(0, 0, b"").data, 3), (15, reject(13, 0, b"a" * 255, h("r")).data, 290),
        (24, getblocktxn([]).data, 33),
        (24, getblocktxn([253] * 193 + [0] * (16_662 - 193)).data, 17_083),
        (2, bytes(8), 8), (3, bytes(8), 8), (21, bytes(8), 8), (22, bytes(9), 9), (26, bytes(64), 64),
    ] + [(kind, b"", 0) for kind in EMPTY]
    for kind, payload, length in card:
        assert len(payload) == length, (kind, len(payload), length)
        read_packet(kind, payload, bytearray(255))
        done[0] += 1
    return done[0]


# ---------------------------------------------------------------------------
# Part 5: the cases
# ---------------------------------------------------------------------------

LINES = []
ANSWERS = {}         # of each line
GROUPS = []          # [name, first line (from 1), count]


def group(name):
    GROUPS.append([name, len(LINES) + 1, 0])


def case(operation, kind, n, rest):
    assert operation != 0 or n <= 300
    assert operation != 3 or (n <= 40 and kind == 24)
    if isinstance(rest, Long):
        assert 0 < rest.length <= 8_000_001 + (32 if operation == 2 else 0)
        operation, rest = operation + 4, rest.rest()
    rest = rest.data if isinstance(rest, Build) else rest
    line = line_of(operation, kind, n, rest)
    assert len(line) <= 40_000, (operation, kind, len(line))
    if line not in ANSWERS:            # a line that another group has already is left out
        ANSWERS[line] = answer(line)
        LINES.append(line)
        GROUPS[-1][2] += 1
    return ANSWERS[line]


def read(kind, rest, n=0):
    return case(0, kind, n, rest)


def get(kind, rest, place):
    return case(1, kind, place, rest)


def seek(kind, rest, wanted):
    if isinstance(rest, Long):
        return case(2, kind, 0, Long(wanted + rest.front, rest.zeros, rest.back))
    return case(2, kind, 0, wanted + (rest.data if isinstance(rest, Build) else rest))


def idx(rest, n):
    return case(3, 24, n, rest)


LISTS = (5, 6, 7, 8, 9, 10, 11, 24)
LIST_CODE = {5: ADDRESS, 6: INVENTORY, 7: INVENTORY, 8: INVENTORY, 9: LOCATOR, 10: LOCATOR,
             11: HEADER, 24: INDEX_COUNT}
# Bytes of an item, and the greatest lengths of the card.
WIDTH = {5: 88, 6: 36, 7: 36, 8: 36, 9: 32, 10: 32, 11: 236}
GREATEST = {5: 88_003, 6: 1_800_003, 7: 1_800_003, 8: 1_800_003, 9: 1_600_035, 10: 1_600_035, 11: 472_003}
TEXT_BYTES = bytes(range(1, 256))      # 255 bytes, half of them with the top bit set


def make_list(kind, count, width=None, claim=None):
    """A payload of a list type with `count` items behind the count `claim`."""
    if kind == 5:
        return addr(count, width, claim)
    if kind in (6, 7, 8):
        return inv(hashes("inv", count), width, claim)
    if kind in (9, 10):
        return locator(hashes("locator", count), h("stop"), width, claim)
    if kind == 11:
        return headers(count, width, claim)
    return getblocktxn([3, 0, 4, 250, 1, 0, 0, 2][:count] + [0] * (count - 8), width, claim)


def bare_list(kind, claim, width=None, behind=b""):
    """Only a count, and `behind` after it (type 24: the hash before)."""
    b = Build()
    if kind == 24:
        b.put(h("block"))
    return b.compact(claim, width).put(behind).data


def long_list(kind, count, claim=None, back=None):
    """A list of `count` items behind the count `claim`, zeros but for the first item and the
    last; what stands from the last on may be given."""
    front = bare_list(kind, count if claim is None else claim, behind=blob("first", WIDTH[kind]))
    if back is None:
        back = blob("last", WIDTH[kind]) + (h("stop") if kind in (9, 10) else b"")
    return Long(front, WIDTH[kind] * (count - 2), back)


def least(kind):
    if kind == 0:
        return version(b"")
    if kind in (2, 3, 21):
        return Build().number(0x1122334455667788, 8)
    if kind in LISTS:
        return make_list(kind, 0)
    if kind == 15:
        return reject(0, 0, b"")
    if kind == 22:
        return Build().number(1, 1).number(2, 8)
    if kind == 26:
        return Build().put(h("root")).put(h("key"))
    return Build()


# One payload of each type with fields, of ordinary size: its cuts and changes are cases.
def ordinary():
    return {
        0: version(b"/hsd:6/", services=0x11223344, reserved=0x55667788, no_relay=1),
        2: Build().number(0xf1f2f3f4f5f6f7f8, 8),
        3: Build().number(0x0102030405060708, 8),
        5: make_list(5, 1),
        6: make_list(6, 2),
        7: make_list(7, 1),
        8: make_list(8, 1),
        9: make_list(9, 1),
        10: make_list(10, 2),
        11: make_list(11, 1),
        15: reject(14, 0x10, b"dust \xe1", h("rejected")),
        21: Build().number(1000, 8),
        22: Build().number(1, 1).number(0x8000000000000001, 8),
        24: getblocktxn([3, 0, 4, 253, 60_000, 252]),
        26: Build().put(h("root")).put(h("key")),
    }


def all_cuts(operation, kind, n, build, before=b""):
    """Every prefix; the answer must be the one that the builder's notes give."""
    data = build.data
    for length in range(len(data)):
        start, end = next((s, e) for s, e in build.reads if e > length)
        got = case(operation, kind, n, before + data[:length])
        want = "refused 1 %d %d 0" % (start, end - length)
        assert got == want or got.startswith(want + " "), (kind, length, got, want)
    for more in (b"\x00", b"\xff"):
        got = case(operation, kind, n, before + data + more)
        assert got == "refused 3 1 0 0" or got.startswith("refused 3 1 0 0 "), (kind, got)


def cases():
    # -- Each row of the table that reading gives, its example first, and its neighbours.
    group("table rows")
    zeros = bytes(32)
    read(2, b"\x00")
    read(2, b"\x00", 3)
    read(6, b"\xfd\x0a\x00")
    read(1, b"\x00")
    read(5, b"\xfd\xe9\x03")
    read(24, zeros + b"\x02\xfd\xff\xff\x00")
    get(6, b"\x02" + bytes(72), 2)
    get(6, b"\x02" + bytes(72), 1)
    read(7, b"\xfd\x51\xc3")
    read(8, b"\xfd\x51\xc3")
    read(9, b"\xfd\x51\xc3")
    read(10, b"\xfd\x51\xc3")
    read(11, b"\xfd\xd1\x07")
    read(24, zeros + b"\xfd\x17\x41")
    read(24, zeros + b"\x01\xfe\x00\x00\x01\x00")
    read(15, b"\x02\x11\x02hi", 1)
    read(15, b"\x02\x11\x02hi", 2)
    idx(zeros + b"\x03\x03\x00\x04", 5)
    idx(zeros + b"\x03\x03\x00\x04", 2)
    idx(zeros + b"\x02\xfd\xff\xff\x00", 4)
    for operation in (1, 2):           # the same refusals from the item and the finder
        before = zeros if operation == 2 else b""
        for kind, payload in ((2, b"\x00"), (6, b"\xfd\x0a\x00"), (1, b"\x00"), (5, b"\xfd\xe9\x03"),
                              (7, b"\xfd\x51\xc3"), (9, b"\xfd\x51\xc3"), (11, b"\xfd\xd1\x07"),
                              (24, zeros + b"\xfd\x17\x41"), (24, zeros + b"\x01\xfe\x00\x00\x01\x00"),
                              (24, zeros + b"\x02\xfd\xff\xff\x00")):
            case(operation, kind, 0, before + payload)

    # -- Each of the 256 types at its least length, and one byte more or less than that.
    group("least lengths of 256 types")
    for kind in range(256):
        data = least(kind).data
        assert not read(kind, data, kind % 4).startswith("refused")
        if kind not in RAW:
            read(kind, data + b"\x01", 2)
        if data:
            read(kind, data[:-1], 2)

    # -- Raw and carried types with bytes: whatever they are, all of them are given.
    group("raw and carried bytes")
    for kind in sorted(RAW):
        read(kind, [b"\xff\x00\xfd\x0a\x00", b"\x01", b"\xfd" * 9, blob("raw", 64)][kind % 4], kind % 3)
    for kind in (13, 14, 23, 25, 27):
        read(kind, make_list(6, 2), 1)
        read(kind, b"\xff" * 10)
        read(kind, bytes(236))
    for kind in sorted(RAW)[:12] + [255]:
        read(kind, blob("raw long", 300))
    read(13, blob("block", 5990))

    # -- Lists as long as they may be, an item shorter and longer, and a byte shorter and longer.
    group("lists at their limit")
    for kind in WIDTH:
        limit, width = LIMIT[LIST_CODE[kind]], WIDTH[kind]
        full, under, over = [long_list(kind, limit + more) for more in (0, -1, 1)]
        assert full.length == GREATEST[kind]
        assert not read(kind, full).startswith("refused")
        for place in (0, 1, limit - 1, limit, 2 ** 64 - 1):
            assert (get(kind, full, place) == "refused 19 0 0 0") == (place >= limit)
        assert not read(kind, under).startswith("refused")
        for place in (limit - 2, limit - 1):
            assert (get(kind, under, place) == "refused 19 0 0 0") == (place >= limit - 1)
        want = "refused 7 %d %d %d" % (limit + 1, limit, LIST_CODE[kind])
        assert read(kind, over) == want + " text"
        assert get(kind, over, 0) == get(kind, over, limit) == want
        last = 236 if kind == 11 else 33 if kind == 5 else 32      # bytes of the last read
        for payload, want in (
                (long_list(kind, limit, back=full.back[:-1]), "refused 1 %d 1 0" % (full.length - last)),
                (long_list(kind, limit, back=full.back + b"\x00"), "refused 3 1 0 0"),
                (long_list(kind, limit - 1, claim=limit), "refused 1 "),
                (long_list(kind, limit + 1, claim=limit), "refused 3 %d 0 0" % width)):
            assert read(kind, payload).startswith(want)
            if kind in (5, 6, 9, 11):                              # one type of each form
                assert get(kind, payload, limit).startswith(want)
                assert seek(kind, payload, full.front[-32:]).startswith(want)
    group("finder, lists at their limit")
    for kind in WIDTH:
        limit = LIMIT[LIST_CODE[kind]]
        full, over = long_list(kind, limit), long_list(kind, limit + 1)
        for wanted in (full.front[-32:], full.back[-32:], bytes(32)):
            assert seek(kind, full, wanted) == ("found" if kind in (6, 7, 8) else "nowhere")
            assert seek(kind, over, wanted).startswith("refused 7 ")
        assert seek(kind, full, h("other")) == "nowhere"
        plain = Long(bare_list(kind, limit), GREATEST[kind] - 3)
        for wanted in (full.front[-32:], full.back[-32:]):         # nothing of an earlier line is left
            assert seek(kind, plain, wanted) == "nowhere"
    full = long_list(8, 50_000)
    for near in (full.front[-33:-1], full.back[-33:-1], full.back[-31:] + b"\x00", b"\x00" + full.back[-32:-1]):
        assert seek(8, full, near) == "nowhere"
    group("index lists at their limit")
    most = getblocktxn([0] * 16_662)
    read(24, most)
    for place in (0, 16_661, 16_662):
        get(24, most, place)
    idx(most, 40)
    read(24, getblocktxn([0] * 16_663))
    read(24, getblocktxn([1] * 16_662))
    read(24, getblocktxn([48_874] + [0] * 16_661))
    read(24, getblocktxn([48_873] + [0] * 16_661))
    under = Long(bare_list(24, 16_661), 16_661)
    assert read(24, under) == "getblocktxn 0 16661 35 text"
    for place in (16_660, 16_661):
        get(24, under, place)
    longest = Long(getblocktxn([253] * 193, claim=16_662).data, 16_662 - 193)
    assert longest.length == 17_083
    assert read(24, longest) == "getblocktxn 0 16662 35 text"
    for place in (16_661, 16_662):
        get(24, longest, place)
    idx(longest, 40)

    # -- The limit of a payload: a byte over it gives 5, whatever the type and the bytes, and before any other refusal.
    group("payload limit")
    for kind in range(256):
        assert read(kind, Long(b"", 8_000_001)) == "refused 5 8000001 8000000 0 text"
        got = read(kind, Long(b"", 8_000_000))
        assert got == "raw %d 0 8000000 text" % kind if kind in RAW else got.startswith("refused 3 "), got
    for kind in (0, 1, 2, 5, 6, 7, 8, 9, 10, 11, 13, 15, 17, 24, 26, 30, 255):
        for payload in (Long(b"", 8_000_001), Long(b"\x01", 8_000_000), Long(b"\x02", 7_999_998, b"\xff\xff")):
            assert payload.length == 8_000_001
            assert get(kind, payload, 0) == "refused 5 8000001 8000000 0"
            assert seek(kind, payload, zeros) == "refused 5 8000001 8000000 0"
        get(kind, Long(b"", 8_000_000), 0)
        seek(kind, Long(b"", 8_000_000), zeros)
        read(kind, Long(b"", 7_999_999), 2)
    for n in (0, 2):
        assert idx(Long(b"", 8_000_001), n).startswith("refused 5 8000001 8000000 0 rest")
        assert idx(Long(b"", 8_000_000), n).startswith("refused 3 7999967 0 0 rest")
    for kind, front, n, number in (
            (5, b"\xfd\xe9\x03", 0, 7), (6, b"\xfd\x51\xc3", 0, 7), (9, b"\xfd\x51\xc3", 0, 7), (11, b"\xfd\xd1\x07", 0, 7),
            (24, zeros + b"\xfd\x17\x41", 0, 7), (24, zeros + b"\x01\xfe\x00\x00\x01\x00", 0, 7), (6, b"\xfd\x0a\x00", 0, 2),
            (24, zeros + b"\x02\xfd\xff\xff\x00", 0, 9), (5, b"\xfd\xe8\x03", 0, 3), (6, b"\xfd\x50\xc3", 0, 3),
            (10, b"\xfd\x50\xc3", 0, 3), (11, b"\xfd\xd0\x07", 0, 3), (0, version(b"agent").data, 2, 3),
            (15, b"\x02\x11\x02hi", 1, 3)):
        assert read(kind, Long(front, 8_000_001 - len(front)), n).startswith("refused 5 8000001 8000000 0 ")
        assert read(kind, Long(front, 8_000_000 - len(front)), n).startswith("refused %d " % number)

    # -- The empty types with bytes behind.
    group("empty types with bytes")
    for kind in EMPTY:
        for count in (1, 2, 8, 36, 255):
            read(kind, blob("left", count), 1)

    # -- Long payloads of each type with fields.
    group("long payloads")
    for n in (255, 300):
        read(0, version(TEXT_BYTES, version=0xffffffff, services=0xffffffff, reserved=0xffffffff,
                        time=2 ** 64 - 1, nonce=2 ** 64 - 1, height=0xffffffff, no_relay=1,
                        address=dict(time=2 ** 64 - 1, services=0xffffffff, reserved=0xffffffff,
                                     host=b"\xff" * 36, port=0xffff, key=b"\xff" * 33)), n)
        read(15, reject(13, 255, TEXT_BYTES, h("long")), n)
        read(15, reject(255, 255, TEXT_BYTES), n)
    for kind in LISTS:
        for count in (2, 3 if kind == 11 else 5):
            assert not read(kind, make_list(kind, count), count % 3).startswith("refused")
        read(kind, make_list(kind, 2).data + b"\x00")
    for number in (0, 1, 255, 256, 2 ** 32, 2 ** 63, 2 ** 64 - 1, 0x0123456789abcdef):
        for kind in (2, 3):
            read(kind, number.to_bytes(8, "little"))
    for kind, count in ((5, 12), (6, 166), (10, 40), (11, 5)):
        read(kind, make_list(kind, count))
    for root, key in ((bytes(32), bytes(32)), (b"\xff" * 32, b"\xfd" * 32), (h("a"), h("b"))):
        read(26, root + key)
        read(26, root + key + b"\x00")
        read(26, root + key + root)

    # -- All cuts of one payload of each type that has fields, and one byte more.
    group("all cuts, reading")
    for kind, build in ordinary().items():
        assert not read(kind, build, 9).startswith("refused")
        all_cuts(0, kind, {0: 9, 15: 5}.get(kind, 0), build)   # 15: an output too short; 1, 3 go first
    all_cuts(0, 15, 1, reject(2, 1, b"no"))

    # -- Cuts at every border of longer ones (a byte before, at and after each read's end).
    group("cuts at borders")
    for kind, build in ((0, version(b"x" * 40)), (5, make_list(5, 2)), (7, make_list(7, 3)),
                        (9, make_list(9, 3)), (11, make_list(11, 2)), (15, reject(28, 2, b"y" * 30, h("c"))),
                        (24, getblocktxn([250, 253, 254, 1000, 0, 65_535 - 250 - 253 - 254 - 1000 - 5]))):
        assert not read(kind, build, 40).startswith("refused")
        for start, end in build.reads:
            for length in (end - 1, end, end + 1):
                if length < len(build.data):
                    s, e = next((s, e) for s, e in build.reads if e > length)
                    assert read(kind, build.data[:length], 2).startswith(
                        "refused 1 %d %d 0 " % (s, e - length))

    # -- Cuts, asked of the item, the finder and the indexes: the same refusals.
    group("all cuts, item, finder and indexes")
    for kind in (6, 24):
        all_cuts(1, kind, 0, ordinary()[kind])
    all_cuts(2, 8, 0, make_list(8, 2), before=hashes("inv", 1)[0])
    all_cuts(2, 24, 0, getblocktxn([1, 2, 300]), before=h("block"))
    all_cuts(3, 24, 6, ordinary()[24])
    all_cuts(3, 24, 0, getblocktxn([0, 300]))
    for kind, build in ordinary().items():        # and some cuts of each type
        for length in (0, 1, len(build.data) - 1):
            get(kind, build.data[:length], 0)
            seek(kind, build.data[:length], h("inv 0"))

    # -- Count limits: below and at the limit items are missing (1), over it is 7, whether
    #    or not items stand behind.
    group("count limits")
    for kind in LISTS:
        limit = LIMIT[LIST_CODE[kind]]
        for claim in (limit - 1, limit, limit + 1, 0xffff, 0x10000, 2 ** 32 - 1, 2 ** 32,
                      2 ** 32 + 1, 2 ** 64 - 1):
            got = read(kind, bare_list(kind, claim))
            assert got.startswith("refused %d " % (7 if claim > limit else 1)), got
            for behind in (b"\x00", blob("behind", 40)):
                got = read(kind, bare_list(kind, claim, behind=behind), 1)
                assert got.startswith("refused %d " % (7 if claim > limit else 1)), got
            got = read(kind, make_list(kind, 1, claim=claim))
            assert got.startswith("refused %d " % (7 if claim > limit else 1)), got
        for claim in (limit, limit + 1, 2 ** 64 - 1):
            get(kind, bare_list(kind, claim), 0)
            get(kind, make_list(kind, 1, claim=claim), 0)
            seek(kind, make_list(kind, 1, claim=claim), h("inv 0"))
            seek(kind, bare_list(kind, claim), h("inv 0"))
            if kind == 24:
                idx(bare_list(kind, claim), 3)
                idx(make_list(kind, 2, claim=claim), 3)

    # -- Counts that are not the number of items behind.
    group("counts against items")
    for kind in LISTS:
        for count, claim in ((1, 0), (2, 1), (2, 0), (1, 2), (2, 3), (0, 1), (1, 252)):
            assert read(kind, make_list(kind, count, claim=claim), 2).startswith(
                "refused %d " % (3 if claim < count else 1))
            if count == 1:
                get(kind, make_list(kind, count, claim=claim), 0)

    # -- Counts in each compact form, and every first byte.
    group("compact forms of counts")
    for kind in LISTS:
        for value, width in ((0, 0), (1, 0), (252, 0), (253, 2), (254, 2), (255, 2), (256, 2), (0xffff, 2),
                             (0x10000, 4), (0xffffffff, 4), (2 ** 32, 8), (2 ** 64 - 1, 8)):
            data = bare_list(kind, value, width)
            read(kind, data)
            for cut in range(1, width + 1):            # the bytes after the first, cut short
                got = read(kind, data[:len(data) - cut])
                assert got == "refused 1 %d %d 0 text" % (len(data) - width, cut), got
        for first in (0x7f, 0x80, 0xfb, 0xfc, 0xfd, 0xfe, 0xff):
            read(kind, bare_list(kind, first, 0))
    for first in range(256):
        read(6, bytes([first]))
        if first < 3 or first > 249:
            read(24, h("block") + bytes([first]))

    # -- Compact sizes that are not the shortest, of each width, at each place where one stands.
    group("not shortest, counts")
    long_forms = ((0, 2), (1, 2), (2, 2), (10, 2), (252, 2), (0, 4), (1, 4), (2, 4), (252, 4), (253, 4), (1000, 4),
                  (0xffff, 4), (0, 8), (1, 8), (2, 8), (252, 8), (253, 8), (0xffff, 8), (0x10000, 8), (50_001, 8),
                  (0xffffffff, 8))
    for kind in LISTS:
        for value, width in long_forms:
            want = "refused 2 %d 0 0" % (8 * width)
            assert read(kind, bare_list(kind, value, width)).startswith(want)
            if value == 1:                              # with the items there, all the same
                payload = make_list(kind, value, width=width)
                assert read(kind, payload, 1).startswith(want)
                assert get(kind, payload, 0) == want
                assert seek(kind, payload, h("inv 0")) == want
                if kind == 24:
                    assert idx(payload, 2).startswith(want)
    group("not shortest, differences")
    for value, width in ((0, 2), (4, 2), (252, 2), (0, 4), (253, 4), (0xffff, 4), (0, 8), (252, 8), (0xffff, 8),
                         (0x10000, 8), (0xffffffff, 8)):
        want = "refused 2 %d 0 0" % (8 * width)
        for differences in ([(value, width)], [5, (value, width)], [(value, width), 5], [1, (value, width), 2],
                            [65_535, (value, width)]):
            payload = getblocktxn(differences)
            assert read(24, payload).startswith(want)
            if len(differences) == 2:
                get(24, payload, 0)
                idx(payload, 2)
                seek(24, payload, h("block"))

    # -- Differences at and over 65,535 (7, code 6), sums at and over it (9), and which goes first.
    group("differences and sums")
    for differences in (
            [65_535], [65_536], [65_534], [65_537], [2 ** 32 - 1], [2 ** 32], [2 ** 63], [2 ** 64 - 1],
            [0, 65_534], [0, 65_535], [0, 65_536], [65_534, 0], [65_534, 1], [65_535, 0], [65_535, 65_535],
            [65_535, 65_536], [65_535, 2 ** 64 - 1], [1, 2 ** 64 - 1], [0, 2 ** 64 - 1], [1, 2 ** 64 - 2],
            [32_767, 32_767], [32_767, 32_768], [32_768, 32_767], [3, 0, 4], [0, 0, 0], [0, 0, 65_533],
            [0, 0, 65_534], [65_533, 0, 0], [65_533, 0, 1], [65_533, 1, 0], [65_535, 0, 0], [65_535, 0, 2 ** 64 - 1],
            [2 ** 64 - 1, 0], [65_536, 65_535], [252, 253, 254], [253, 252, 65_028], [253, 252, 65_027],
            [10_000] * 6, [10_000] * 7, [16_383] * 4, [16_383] * 3 + [16_384], [1] * 20):
        payload = getblocktxn(differences)
        read(24, payload)
        idx(payload, len(differences) + 1)
        get(24, payload, len(differences) - 1)
        get(24, payload, 0)
        read(24, payload.data + b"\x00")           # 7 and 9 before 3
        read(24, getblocktxn(differences, claim=len(differences) + 1))     # and before the end of bytes
        idx(getblocktxn(differences, claim=len(differences) + 1), len(differences))
    for count in (252, 253, 254, 300, 1_500):      # counts of one and of three bytes, accepted
        payload = getblocktxn([0] * count)
        read(24, payload)
        get(24, payload, count - 1)
        if count < 1_500:
            get(24, payload, count)
    for count in (253, 600):
        payload = getblocktxn(differences_of([100 * i for i in range(count)]))
        read(24, payload)
        get(24, payload, count // 2)
        get(24, payload, count - 1)
        read(24, payload.data + b"\x09")
        if count == 600:                           # the sum goes over far down the list
            for last, accepted in ((5_634, True), (5_635, False)):     # 59,900 + 5,634 + 1 = 65,535
                got = read(24, getblocktxn(differences_of([100 * i for i in range(count)]) + [last]))
                assert got.startswith("getblocktxn 0 601 35 " if accepted else "refused 9 0 0 0 "), got

    # -- Hosts: kind 0 keeps the ip, every other kind gives zeros; the reserved words go nowhere.
    group("hosts, services, reserved words")
    hosts = (blob("host", 36), bytes(16) + b"\xff" * 20, bytes(10) + b"\xff\xff\x7f\x00\x00\x01" + bytes(20),
             bytes(range(36)))
    for host_kind in (0, 1, 128, 255):
        for host in hosts:
            one = dict(host_kind=host_kind, host=host, port=12_038)
            read(0, version(b"", address=one))
            payload = Build().compact(1).address("host", **one)
            read(5, payload)
            get(5, payload, 0)
    payload = Build().compact(5)
    for i, host_kind in enumerate((0, 255, 0, 1, 0)):
        payload.address(i, host_kind=host_kind, reserved=i * 0x01010101)
    read(5, payload)
    for place in range(6):
        get(5, payload, place)
    for services in (0, 1, 0x80000000, 0xffffffff):
        for reserved in (0, 1, 0xffffffff):
            read(0, version(b"a", services=services, reserved=reserved), 1)
            read(0, version(b"a", address=dict(services=services, reserved=reserved)), 1)
            get(5, Build().compact(1).address("s", services=services, reserved=reserved), 0)
    for port in (0, 1, 255, 256, 12_038, 0x8000, 0xffff):
        read(0, version(address=dict(port=port)))
        get(5, Build().compact(1).address("p", port=port), 0)
    for number in (0, 1, 255, 2 ** 31, 2 ** 32 - 1):
        read(0, version(version=number))
        read(0, version(height=number))
    for number in (0, 1, 2 ** 32 - 1, 2 ** 32, 2 ** 63, 2 ** 64 - 1):
        read(0, version(time=number))
        read(0, version(nonce=number))
        read(0, version(address=dict(time=number)))
        get(5, Build().compact(1).address("t", time=number), 0)

    # -- No-relay: true only for 1.
    group("no-relay")
    for no_relay in (0, 1, 2, 3, 127, 128, 129, 254, 255):
        read(0, version(b"", no_relay=no_relay))
        read(0, version(b"\x01", height=0x01010101, no_relay=no_relay), 1)

    # -- Texts: top bits masked off; outputs exactly long enough, one too short, 0 and longer.
    group("texts and outputs")
    texts = (b"", b"a", b"\x80", b"\xff", b"\x00", b"/hsd:6.1.0/", bytes(b | 0x80 for b in b"/hsd:6.1.0/"),
             b"\xc3\xa9\xe2\x82\xac", b"\xaa\x2a\xaa", bytes(range(128, 168)), TEXT_BYTES, blob("text", 252),
             b"\xfd" * 253, blob("text", 254))
    for turn, text in enumerate(texts):
        forms = [(0, version(text, no_relay=1)), (15, reject(1, 64, text)), (15, reject(29, 1, text, h("t")))]
        sizes = {len(text), len(text) + 1, max(len(text) - 1, 0), 0, len(text) + 20}
        if len(text) > 250 and text != TEXT_BYTES:         # the long ones: fewer of them
            forms = [forms[turn % 3]]
            sizes = {len(text), len(text) - 1, 300}
        for n in sorted(sizes):
            for kind, payload in forms:
                got = read(kind, payload, n)
                assert got.startswith("refused 16 %d 0 0 text" % len(text)) == (n < len(text)), got
        for n in (0, len(text)):       # no text is written where reading is refused, and 16 goes last
            for kind, payload in [forms[turn % len(forms)]]:
                assert read(kind, payload.data + b"\x00\x01", n).startswith("refused 3 2 ")
                assert read(kind, payload.data[:-1], n).startswith("refused 1 ")
        for kind, payload in forms[:2]:    # 16 is no refusal of the item and the finder
            assert get(kind, payload, 0) == "refused 19 0 0 0"
            assert seek(kind, payload, h("t")) == "nowhere"
    for length in (0, 1, 5, 128, 252, 253, 254, 255):      # a length byte is no compact size
        read(15, bytes([1, 1, length]) + b"ab", 2)
        read(0, version(b"").data[:116] + bytes([length]) + b"abcdefgh", 300 if length == 255 else 4)
    for kind in (1, 2, 5, 6, 21, 24, 26, 13, 17, 200):     # an output for a packet without a text is left alone
        for n in (1, 40):
            read(kind, least(kind), n)
            read(kind, least(kind).data + b"\x00", n)

    # -- Rejects: a hash for 13, 14, 28, 29 and for no other type.
    group("rejects")
    for rejected in range(256):
        read(15, reject(rejected, rejected ^ 0x55, b""))
    for rejected in list(range(34)) + [45, 46, 60, 61, 127, 128, 141, 142, 156, 157, 254, 255]:
        read(15, reject(rejected, 1, b"", h("reject")))
        read(15, reject(rejected, 1, b"why", h("reject")), 4)
        read(15, reject(rejected, 1, b"why"), 3)
    for rejected in HASHED_REJECTS + (0, 12, 15, 27, 30, 255):
        for code in (0, 1, 16, 128, 255):
            read(15, reject(rejected, code, b"\xf7h\xf9", h("reject")), 3)
            read(15, reject(rejected, code, b"\xf7h\xf9"), 3)
        payload = reject(rejected, 1, b"xy", h("reject")).data
        for change in (-32, -31, -1, 0):
            read(15, payload[:len(payload) + change], 2)
        read(15, payload + b"\x00", 2)
        read(15, payload + payload, 2)
        read(15, payload, 1)                               # 16 only where it reads

    # -- Feefilter (signed) and sendcmpct.
    group("feefilter and sendcmpct")
    for rate in (0, 1, -1, 2, -2, 255, 256, -256, 1000, 2 ** 31, -2 ** 31, 2 ** 32, 2 ** 62, 2 ** 63 - 1, -2 ** 63,
                 -2 ** 63 + 1, 0x0102030405060708, -0x0102030405060708):
        payload = Build().number(rate, 8)
        assert read(21, payload) == "feefilter %d text" % rate
        read(21, payload.data[:7])
        read(21, payload.data + b"\xff")
    for mode in (0, 1, 2, 127, 128, 255):
        for number in (0, 1, 2, 2 ** 32, 2 ** 63, 2 ** 64 - 1):
            read(22, Build().number(mode, 1).number(number, 8))

    # -- Items by place.
    group("items of each list")
    # places that a shorter number, or a product with an item's width, would make small
    far = (2 ** 64 - 1, 2 ** 63, 2 ** 62, 2 ** 61, 2 ** 60, 2 ** 59, 2 ** 32, 2 ** 32 + 1, 2 ** 31, 2 ** 16, 256, 257)
    for kind in LISTS:
        for count in (0, 1, 2, 3 if kind == 11 else 5):
            payload = make_list(kind, count)
            for place in range(count + 1):
                got = get(kind, payload, place)
                assert got.startswith("refused 19 0 0 0") == (place >= count), got
            for place in far if count in (0, 1) else far[:1]:
                assert get(kind, payload, place) == "refused 19 0 0 0"
    for kind, count in ((5, 10), (6, 25), (9, 30), (11, 5)):
        payload = make_list(kind, count)
        get(kind, payload, count - 1)
    for kind in (8,):
        payload = inv(hashes("kinds", 10))                 # each kind number of `inv`
        for place in range(10):
            get(kind, payload, place)
    for kind in (9, 10):                                   # the stop hash is no item
        for count in (0, 1, 3):
            payload = locator([h("same")] * count, h("same"))
            get(kind, payload, count)
            if count:
                get(kind, payload, count - 1)

    group("items of types without items")
    for kind in range(256):
        if kind not in LISTS:
            get(kind, least(kind), 0)
    for kind in list(range(32)) + [255]:
        if kind not in LISTS:
            payload = ordinary().get(kind) or (Build() if kind in EMPTY else make_list(6, 2))
            for place in (0, 1, 2 ** 64 - 1):
                assert get(kind, payload, place) == "refused 19 0 0 0"

    group("items of payloads that do not read")
    broken = []
    for kind, build in ordinary().items():
        data = build.data
        broken += [(kind, data + b"\x00"), (kind, data[:-1]), (kind, b"")]
    for kind in EMPTY:
        broken += [(kind, b"\x00"), (kind, make_list(6, 2).data)]
    for kind in LISTS:
        broken += [(kind, make_list(kind, 1, claim=2).data), (kind, make_list(kind, 2, claim=1).data),
                   (kind, make_list(kind, 1, claim=LIMIT[LIST_CODE[kind]] + 1).data),
                   (kind, make_list(kind, 1, width=2).data), (kind, make_list(kind, 1, width=8).data)]
    broken += [(24, getblocktxn([1, 65_536]).data), (24, getblocktxn([65_535, 0]).data),
               (24, getblocktxn([1, (2, 4)]).data), (24, getblocktxn([1, 65_535, 7]).data)]
    for kind, payload in broken:
        for place in (0, 2 ** 64 - 1):
            assert get(kind, payload, place).startswith("refused ") and \
                not get(kind, payload, place).startswith("refused 19 ")

    # -- The finder.
    group("finder, places")
    five = hashes("five", 5)
    for kind in (6, 7, 8):
        for count in (1, 2, 5):
            for some_hash in five[:count]:
                assert seek(kind, inv(five[:count]), some_hash) == "found"
            assert seek(kind, inv(five[:count]), h("other")) == "nowhere"
        assert seek(kind, inv([]), five[0]) == "nowhere"           # an empty list
        assert seek(kind, inv([]), bytes(32)) == "nowhere"
        twice = [five[0], five[1], five[2], five[1], five[4]]
        for some_hash in five:                                     # twice, and one left out
            seek(kind, inv(twice), some_hash)
        assert seek(kind, inv([five[3]] * 5), five[3]) == "found"
        assert seek(kind, inv([five[3]] * 5), five[2]) == "nowhere"
        assert seek(kind, inv([five[3], five[3]], kinds=(2, 1)), five[3]) == "found"
        assert seek(kind, inv([bytes(32), b"\xff" * 32]), bytes(32)) == "found"
        assert seek(kind, inv([bytes(32), b"\xff" * 32]), b"\xff" * 32) == "found"
    for kind, count in ((6, 30),):
        many = hashes("many", count)
        for some_hash in (many[0], many[count // 2], many[-1], h("none of many")):
            seek(kind, inv(many), some_hash)

    group("finder, near misses")
    data = inv(five[:3]).data
    for at in range(0, len(data) - 31):                            # bytes that stand there, but not as an item's hash
        got = seek(7, data, data[at:at + 32])
        assert (got == "found") == ((at - 5) % 36 == 0), (at, got)
    for bit in list(range(0, 256, 13)) + [0, 7, 8, 255]:           # one bit away from an item's hash
        near = bytearray(five[2])
        near[bit // 8] ^= 1 << (bit % 8)
        assert seek(6, inv(five[:3]), bytes(near)) == "nowhere"
    seek(6, inv(five[:3]), five[2][::-1])
    half = [five[0][:16] + five[1][16:], five[1][:16] + five[0][16:]]
    seek(6, inv(half), five[0])                                    # its halves stand in two items
    seek(6, inv(half), five[1])
    seek(6, inv(half), half[1])

    group("finder, types without inventory items")
    for kind in (9, 10):                                           # hashes of a locator, and its stop
        payload = locator(five[:3], five[4])
        for some_hash in five:
            assert seek(kind, payload, some_hash) == "nowhere"
    for kind, build in ordinary().items():
        if kind not in (6, 7, 8):
            for at in (0, 1, len(build.data) - 32):                # bytes that do stand in the payload
                wanted = build.data[max(at, 0):max(at, 0) + 32]
                if len(wanted) == 32:
                    assert seek(kind, build, wanted) == "nowhere"
            seek(kind, build, h("inv 0"))
    assert seek(24, ordinary()[24], h("block")) == "nowhere"
    assert seek(15, ordinary()[15], h("rejected")) == "nowhere"
    assert seek(26, ordinary()[26], h("root")) == "nowhere"
    for kind in range(256):
        if kind in RAW and (kind < 34 or kind % 15 == 0):
            assert seek(kind, inv(five[:1]), five[0]) == "nowhere"
        if kind in EMPTY:
            seek(kind, b"", five[0])
            seek(kind, inv(five[:1]), five[0])
    for kind in (5, 11):                                           # an inventory payload read as another list
        seek(kind, inv(five[:2]), five[0])
    for kind in (9, 10):
        seek(kind, inv(five[:2]), five[0])

    group("finder, payloads that do not read")
    for kind, payload in broken:
        assert seek(kind, payload, h("inv 0")).startswith("refused ")
    for kind in (6, 7, 8):                                         # the hash stands there, but the payload does not read
        data = inv(five[:2]).data
        for some_hash in (five[0], h("other")):
            for payload in (data + b"\x00", data[:-1], data + data, data[:-36], data[:38],
                            inv(five[:2], claim=3).data, inv(five[:2], claim=1).data, inv(five[:2], claim=0).data,
                            inv(five[:2], width=2).data, inv(five[:2], width=4).data, inv(five[:2], width=8).data,
                            inv(five[:2], claim=50_000).data, inv(five[:2], claim=50_001).data,
                            inv(five[:2], claim=2 ** 64 - 1).data):
                assert seek(kind, payload, some_hash).startswith("refused ")

    # -- All indexes of a getblocktxn payload.
    group("indexes")
    for list_of_indexes in ([], [0], [65_535], [3, 4, 9], [0, 1], [0, 65_535], [0, 1, 2, 3, 4], [65_531, 65_533, 65_535],
                            [7], [7, 8, 9], [252, 506, 760], list(range(38)), list(range(40)), list(range(41)),
                            [1680 * i for i in range(40)], [253 * i + 1 for i in range(39)], list(range(260))):
        payload = getblocktxn(differences_of(list_of_indexes))
        count = len(list_of_indexes)
        for n in sorted({0, 1, count - 1, count, count + 1, count + 2, 40}):
            if 0 <= n <= 40:
                got = idx(payload, n)
                if n < count:
                    assert got == words("refused 16 %d 0 0 rest" % count, *[7] * n)
                else:
                    assert got == words("indexes", count, *list_of_indexes, "rest", *[7] * (n - count))
        for n in (0, min(count, 40)):                              # 3 before 16
            assert idx(payload.data + b"\x05", n).startswith("refused 3 1 0 0 rest")
            assert idx(payload.data[:-1], n).startswith("refused 1 ")
        for place in (0, count - 1, count):                        # and the same ones by place
            if place >= 0:
                get(24, payload, place)
        read(24, payload, 1)
    group("indexes of payloads that do not read")
    for n in (0, 2, 5):
        for kind, payload in broken:
            if kind == 24:
                idx(payload, n)
        for payload in (b"", bytes(31), bytes(32), bytes(33), bytes(34), b"\xff" * 32, b"\xff" * 40, b"\xff" * 41,
                        h("x") + b"\xfd", h("x") + b"\xfd\xff", h("x") + b"\xfd\xff\xff", h("x") + b"\x01\xfe\x00",
                        h("x") + b"\x02\x00", h("x") + b"\x02\x00\xfd", h("x") + b"\x02\xfd\xff\xff\xfd",
                        h("x") + b"\x02\xfd\xff\xff\x00\x00", h("x") + b"\x03\xfd\xff\xff\x00"):
            idx(payload, n)
            read(24, payload)

    # -- Which refusal goes first, where a payload earns more than one.
    group("order of refusals")
    for kind in LISTS:
        limit = LIMIT[LIST_CODE[kind]]
        assert read(kind, bare_list(kind, limit + 1, 4 if limit + 1 < 65_536 else 8)).startswith("refused 2 ")
        assert read(kind, bare_list(kind, limit + 1, behind=b"\xfd")).startswith("refused 7 ")
        assert read(kind, make_list(kind, 1, claim=limit + 1).data + b"\x00").startswith("refused 7 ")
        assert read(kind, make_list(kind, 2, width=2).data[:-1]).startswith("refused 2 ")
        assert get(kind, make_list(kind, 2, claim=limit + 1), 2 ** 64 - 1).startswith("refused 7 ")
    assert read(24, getblocktxn([(1, 2), 65_536])).startswith("refused 2 ")
    assert read(24, getblocktxn([65_536, (1, 2)])).startswith("refused 7 ")
    assert read(24, getblocktxn([65_535, 0, (1, 2)])).startswith("refused 9 ")
    assert read(24, getblocktxn([65_535, 0, 65_536])).startswith("refused 9 ")
    assert read(24, getblocktxn([65_535, 65_536, 0])).startswith("refused 7 ")
    assert read(24, getblocktxn([65_535, 0], claim=16_663)).startswith("refused 7 16663 16662 5")
    for payload in (getblocktxn([(1, 2), 65_536]), getblocktxn([65_535, 65_536, 0]), getblocktxn([65_535, 0, (1, 2)])):
        idx(payload, 0)
        get(24, payload, 9)
        seek(24, payload, h("block"))

    # -- Ordinary payloads with single bytes changed, cut or lengthened, by a fixed rule.
    group("changed bytes")
    state = 20_240_817
    for kind, build in sorted(ordinary().items()):
        for turn in range(12):
            data = bytearray(build.data)
            for _ in range(1 + turn % 2):
                state = (state * 6364136223846793005 + 1442695040888963407) % 2 ** 64
                at = (state >> 33) % (len(data) if turn % 3 else min(len(data), 40))
                data[at] = (0, 1, 2, 3, 0x7f, 0x80, 0xfc, 0xfd, 0xfe, 0xff)[(state >> 20) % 10]
            if turn % 5 == 4:
                data = data[:(state >> 40) % len(data)]
            if turn % 7 == 6:
                data += b"\x01" * ((state >> 44) % 5)
            read(kind, bytes(data), (state >> 50) % 12)
            if turn % 4 == 0:
                get(kind, bytes(data), (state >> 52) % 3)
            if turn % 4 == 1:
                seek(kind, bytes(data), h("inv 0"))
            if turn % 2 and kind == 24:
                idx(bytes(data), (state >> 54) % 10)


def main(check):
    checks = hand_checks()
    cases()
    files.put_cases(HERE, LINES, [ANSWERS[line] for line in LINES], (20, 40_000), "a-z0-9 -", check)
    files.say(checks, GROUPS, len(LINES))


if __name__ == "__main__":
    main(sys.argv[1:] == ["--check"])
