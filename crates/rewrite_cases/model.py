#!/usr/bin/env python3
"""A model of payloads that are read and written again, from docs/01-scope.md ("the paper").

`python3 model.py` checks the model against answers worked out by hand from the paper
(hand_checks), then writes `stdin` and `stdout` beside this file; with `--check` it compares
them with the files that are there. Nothing is random. What reading refuses, and the payloads,
are those of packet_cases/model.py, which was written from the paper too: here stands what
writing again adds.

Part 1  the model (what is not kept, the output)
Part 2  the line protocol of the test program
Part 3  answers worked out by hand
Part 4  the cases, in groups
"""

import importlib.util
import os
import re
import struct
import sys

HERE = os.path.dirname(os.path.abspath(__file__))
sys.dont_write_bytecode = True         # nothing is left beside the others
sys.path.insert(0, os.path.join(HERE, "..", "case_lines"))
import files


def load(path):
    spec = importlib.util.spec_from_file_location("packet_model", path)
    module = importlib.util.module_from_spec(spec)
    spec.loader.exec_module(module)
    return module


packets = load(os.path.join(HERE, "..", "packet_cases", "model.py"))
Refused, Build, blob, h = packets.Refused, packets.Build, packets.blob, packets.h
version, reject, getblocktxn = packets.version, packets.reject, packets.getblocktxn

# ---------------------------------------------------------------------------
# Part 1: the model
# ---------------------------------------------------------------------------


def written(kind, payload):
    """A payload that reads, with zeros for what is not kept. Its lengths and counts stand as
    they are, since reading takes each in one form only."""
    out = bytearray(payload)

    def clear(start, end):
        out[start:end] = bytes(end - start)

    def address(at):
        clear(at + 12, at + 16)                   # after time 8, services 4: the reserved word
        clear(at + 16, at + 17)                   # host kind
        if payload[at + 16] != 0:
            clear(at + 17, at + 33)               # host bytes 0 to 15
        clear(at + 33, at + 53)                   # host bytes 16 to 35

    def text(at):
        """The text whose length byte stands at a place."""
        for i in range(at + 1, at + 1 + payload[at]):
            out[i] &= 0x7f

    if kind == 0:
        clear(8, 12)                              # after version 4, services 4: the reserved word
        address(20)                               # after time 8
        text(116)                                 # after the address, 88, and the nonce, 8
        if payload[-1] != 1:
            clear(len(payload) - 1, len(payload))
    if kind == 5:
        for at in range(3 if payload[0] == 253 else 1, len(payload), 88):
            address(at)
    if kind == 15:
        text(2)                                   # after type 1, code 1
    return bytes(out)


def rewrite(kind, payload, out):
    """How many bytes of `out` were filled. What reading refuses goes first, then 16 (the writer's
    other refusals are of nothing that was read); no refusal changes a byte of `out`."""
    packets.read_fields(kind, payload)
    encoding = written(kind, payload)
    if len(out) < len(encoding):
        raise Refused(16, len(encoding))
    out[:len(encoding)] = encoding
    return len(encoding)


def same_packet(kind, payload):
    """Whether what is written again reads as the packet, and is written as itself."""
    again = written(kind, payload)
    one, two = packets.read_fields(kind, payload), packets.read_fields(kind, again)
    start, length = one.text or (0, 0)
    masked = bytes(byte & 0x7f for byte in payload[start:start + length])
    return (one.name, one.values, one.items) == (two.name, two.values, two.items) and \
        again[start:start + length] == masked and written(kind, again) == again


# ---------------------------------------------------------------------------
# Part 2: the line protocol
# ---------------------------------------------------------------------------

OUT_ROOM = 88_100                      # the program's longest output, payload and line
PAYLOAD_ROOM = 8_000_001
LINE_ROOM = 40_000
WHOLE = 400                            # the longest encoding that is shown whole


class Run:
    """Bytes, a piece so many times, bytes: what a short line gives of a payload of any length."""

    def __init__(self, front, piece=b"", times=0, back=b""):
        self.front, self.piece, self.times, self.back = front, piece, times, back
        self.length = len(front) + len(piece) * times + len(back)

    def line(self, kind, size):
        return (bytes([kind]) + struct.pack("<4I", size, len(self.front), len(self.piece), self.times)
                + self.front + self.piece + self.back).hex()

    def payload(self):
        return self.front + self.piece * self.times + self.back


def run_of(payload):
    """A payload as a Run, whatever made it. A Long's zeros are a piece and some more."""
    if isinstance(payload, Run):
        return payload
    if isinstance(payload, packets.Long):
        return Run(payload.front, bytes(100), payload.zeros // 100, bytes(payload.zeros % 100) + payload.back)
    return Run(payload.data if isinstance(payload, Build) else payload)


def total(out):
    value = 0
    for byte in out:
        value = value % 4_294_967_291 * 257 + byte
    return value


def answer(line):
    data = bytes.fromhex(line)
    size, before, width, times = struct.unpack("<4I", data[1:17])
    given = data[17:]
    payload = given[:before] + given[before:before + width] * times + given[before + width:]
    out = bytearray(i % 251 + 1 for i in range(size))
    try:
        n = rewrite(data[0], payload, out)
        head = "written %d" % n
    except Refused as refusal:
        n = 0
        head = refusal.line
    shown = [out[:n].hex()] if n <= WHOLE else [out[:64].hex(), "to", out[n - 8:n].hex()]
    return packets.words(head, *shown, "behind", out[n:n + 8].hex(), "sum", total(out))


# ---------------------------------------------------------------------------
# Part 3: answers worked out by hand, from the paper's lists of fields, its 'Not kept' and its
# table. The fill is 01 02 03 .. from the output's front on.
# ---------------------------------------------------------------------------

def hand_checks():
    X = bytes.fromhex
    done = [0]

    def same(got, expected):
        assert got == expected, (got, expected)
        done[0] += 1

    def op(kind, size, digits):
        return re.sub(" sum [0-9]*$", "", answer(run_of(X(digits)).line(kind, size)))

    # The sum, and an output after a refusal and after a call that writes nothing.
    same(total(b""), 0)
    same(total(b"\x01\x02"), 259)
    same(total(bytes([1, 0, 0, 0, 0])), 4_362_470_401)             # 257 x 257 x 257 x 257
    same(total(bytes([1, 0, 0, 0, 0, 0])), 17_348_299_270)         # 67,503,110, what is left of it, x 257
    # Pings: into 8, into 9, and the table's example of 16, into 7; 1 and 3 go before 16.
    same(op(2, 8, "a1a2a3a4a5a6a7a8"), "written 8 a1a2a3a4a5a6a7a8 behind")
    same(op(2, 9, "a1a2a3a4a5a6a7a8"), "written 8 a1a2a3a4a5a6a7a8 behind 09")
    same(op(2, 7, "a1a2a3a4a5a6a7a8"), "refused 16 8 0 0 behind 01020304050607")
    same(op(2, 7, "00"), "refused 1 0 7 0 behind 01020304050607")
    same(op(2, 7, "a1a2a3a4a5a6a7a8a9"), "refused 3 1 0 0 behind 01020304050607")
    same(op(1, 0, ""), "written 0 behind")
    same(op(1, 3, ""), "written 0 behind 010203")
    same(op(1, 3, "00"), "refused 3 1 0 0 behind 010203")
    # An address: time 8, services 4, reserved 4, kind 1, host 36, port 2, key 33.
    kept = "01" * 8 + "02" * 4
    host = "05" * 16 + "06" * 20
    tail = "07" * 2 + "08" * 33
    clean = "00" * 4 + "00" + "05" * 16 + "00" * 20 + tail
    bare = "00" * 4 + "00" + "00" * 36 + tail
    same(op(5, 89, "01" + kept + "03" * 4 + "00" + host + tail), "written 89 01" + kept + clean + " behind")
    same(op(5, 89, "01" + kept + "03" * 4 + "04" + host + tail), "written 89 01" + kept + bare + " behind")
    same(op(5, 88, "01" + kept + "03" * 4 + "04" + host + tail), "refused 16 89 0 0 behind 0102030405060708")
    same(op(5, 178, "02" + (kept + "03" * 4 + "ff" + host + tail) + (kept + "03" * 4 + "00" + host + tail)),
         "written 177 02" + kept + bare + kept + clean + " behind b2")
    # A version: version 4, services 4, reserved 4, time 8, address, nonce 8, agent, height 4, no-relay 1.
    head, nonce, end = "09" * 4 + "0a" * 4, "0c" * 8, "0e" * 4
    given = head + "0b" * 4 + "0d" * 8 + kept + "03" * 4 + "04" + host + tail + nonce + "03" "61e2ff" + end
    stays = head + "00" * 4 + "0d" * 8 + kept + bare + nonce + "03" "61627f" + end
    for no_relay, zero_or_one in (("00", "00"), ("01", "01"), ("02", "00"), ("ff", "00")):
        same(op(0, 126, given + no_relay), "written 125 " + stays + zero_or_one + " behind 7e")
    # A reject: type 1, code 1, reason, and a hash, as it stands, for type 14.
    same(op(15, 5, "02" "ff" "02" "80ff"), "written 5 02ff02007f behind")
    same(op(15, 38, "0e" "ff" "01" "e8" + "ff" * 32), "written 36 0eff0168" + "ff" * 32 + " behind 2526")
    same(op(15, 4, "02" "ff" "02" "80ff"), "refused 16 5 0 0 behind 01020304")
    # Types that keep every byte: items, hashes, fees, indexes, raw bytes.
    for kind, digits in ((6, "01" + "ff" * 36), (7, "01" + "80" * 36), (8, "00"), (9, "01" + "ff" * 64),
                         (10, "00" + "ff" * 32), (11, "01" + "ff" * 236), (21, "ffffffffffffffff"),
                         (21, "0000000000000080"), (22, "ff" * 9), (24, "ff" * 32 + "03" "030004"),
                         (24, "ff" * 32 + "01" "fdffff"), (26, "ff" * 64), (13, "ff80fd0a00"), (30, "ff"), (255, "")):
        n = len(digits) // 2
        same(op(kind, n, digits), packets.words("written %d" % n, digits, "behind"))
    # A long one is shown by its ends.
    same(op(13, 443, "fd0500" + "aa" * 432 + "0102030405060708"),
         "written 443 fd0500" + "aa" * 61 + " to 0102030405060708 behind")
    # A piece so many times.
    item = X("01000000" + "ab" * 32)
    same(answer(Run(b"\x02", item, 2).line(6, 73)), answer(Run(b"\x02" + item + item).line(6, 73)))
    same(Run(b"a", b"bc", 2, b"d").payload(), b"abcbcd")
    same(run_of(packets.Long(b"a", 250, b"b")).payload(), b"a" + bytes(250) + b"b")
    return done[0]


# ---------------------------------------------------------------------------
# Part 4: the cases
# ---------------------------------------------------------------------------

LINES = []
ANSWERS = {}         # of each line
GROUPS = []          # [name, first line (from 1), count]
SAME = set()         # (type, payload) that same_packet was asked of


def group(name):
    GROUPS.append([name, len(LINES) + 1, 0])


def case(kind, payload, size):
    run = run_of(payload)
    assert size <= OUT_ROOM and run.length <= PAYLOAD_ROOM
    line = run.line(kind, size)
    assert len(line) <= LINE_ROOM, (kind, len(line))
    if line not in ANSWERS:            # a line that another group has already is left out
        ANSWERS[line] = answer(line)
        LINES.append(line)
        GROUPS[-1][2] += 1
    return ANSWERS[line]


def again(kind, payload, *behind):
    """An accepted payload, into outputs so much longer than it, or shorter where that is below 0."""
    whole = run_of(payload).payload()
    if (kind, whole) not in SAME:
        assert same_packet(kind, whole)
        SAME.add((kind, whole))
    for more in behind:
        size = len(whole) + more
        if 0 <= size:
            got = case(kind, payload, size)
            assert got.startswith("written %d " % len(whole) if more >= 0 else "refused 16 %d 0 0 " % len(whole)), got


def refused(kind, payload, size, number):
    """A payload or an output that is refused."""
    got = case(kind, payload, size)
    assert got.startswith("refused %d " % number), (kind, got, number)


def long_of(kind):
    """A long payload of each type; in a version, ones for all that is not kept."""
    ones = dict(reserved=0xffffffff, host_kind=255, host=b"\xff" * 36)
    if kind == 0:
        return version(packets.TEXT_BYTES, reserved=0xffffffff, no_relay=255, address=ones)
    if kind == 15:
        return reject(13, 255, packets.TEXT_BYTES, h("long"))
    if kind in (2, 3, 21, 22, 26):
        return Build().put(b"\xff" * len(packets.least(kind).data))
    if kind in packets.EMPTY:
        return Build()
    if kind == 24:
        return getblocktxn([0, 252, 253, 1_000, 0, 60_000, 1, 4_000] + [0] * 12)
    if kind in packets.LISTS:
        return packets.make_list(kind, {5: 12, 11: 5}.get(kind, 40))
    return Build().put(blob("long %d" % kind, 300 if kind < 32 or kind == 255 else 20 + kind % 30))


def bytes_alone(kind, front, width, fixed):
    """Payloads of `width` bytes behind `front`, all of them 0 or all 255 but for one byte. The places
    `fixed` are 0 in each."""
    for usual, other in ((0, 255), (255, 0), (255, 1)):
        for place in [None] + list(range(width)):
            data = bytearray([usual]) * width
            for at in fixed:
                data[at] = 0
            if place is not None and place not in fixed:
                data[place] = other
            again(kind, front + bytes(data), 1)


# Addresses that differ in each thing that is not kept.
MIXED = [dict(), dict(host_kind=1), dict(reserved=0xffffffff), dict(host_kind=255, reserved=1),
         dict(host=bytes(16) + b"\xff" * 20), dict(host=b"\xff" * 36, host_kind=128), dict(host=bytes(36))]


def mixed(tag, count):
    b = Build()
    for i in range(count):
        b.address("%s %d" % (tag, i), **MIXED[i % len(MIXED)])
    return b.data


def long_addr(count):
    """Three addresses, the seven mixed ones as often as there is room, and the others."""
    times = (count - 6) // 7
    front = Build().compact(count).data + mixed("front", 3)
    return Run(front, mixed("piece", 7), times, mixed("back", count - 3 - 7 * times))


def long_list(kind, count):
    """A list of other items: a piece of three items, and the others."""
    width, times = packets.WIDTH[kind], (count - 2) // 3
    stop = h("stop") if kind in (9, 10) else b""
    back = blob("back", width * (count - 1 - 3 * times))
    return Run(Build().compact(count).data + blob("front", width), blob("piece", 3 * width), times, back + stop)


def reading_cases():
    """The payloads that packet_cases reads, in order, each once: type, payload, the number of its refusal
    or 0 (16 is none of the payload)."""
    packets.cases()
    seen = set()
    for line in packets.LINES:
        data = bytes.fromhex(line)
        operation, kind, rest = data[0], data[1], data[10:]
        if operation not in (0, 4) or (kind, operation, rest) in seen:
            continue
        seen.add((kind, operation, rest))
        if operation == 4:
            before, zeros = struct.unpack("<2Q", rest[:16])
            rest = packets.Long(rest[16:16 + before], zeros, rest[16 + before:])
        answered = packets.ANSWERS[line].split()
        number = int(answered[1]) if answered[0] == "refused" else 0
        yield kind, rest, 0 if number == 16 else number


def cases():
    # -- The table's examples for reading and for 16.
    group("table rows")
    zeros = bytes(32)
    for kind, payload, number in ((2, b"\x00", 1), (6, b"\xfd\x0a\x00", 2), (1, b"\x00", 3), (5, b"\xfd\xe9\x03", 7),
                                  (24, zeros + b"\x02\xfd\xff\xff\x00", 9)):
        for size in (0, 1, len(payload), 100):
            refused(kind, payload, size, number)
    for kind in (2, 3):
        again(kind, b"\x01\x02\x03\x04\x05\x06\x07\x08", -8, -7, -1, 0, 1, 8)

    # -- Each of the 256 types at its least length, and a long payload.
    group("least lengths of 256 types")
    for kind in range(256):
        again(kind, packets.least(kind), -1, 0, 1 + kind % 9)
    group("long payloads of 256 types")
    for kind in range(256):
        again(kind, long_of(kind), *((-1, 0, 1 + kind % 9) if kind < 32 or kind == 255 else (kind % 9,)))

    # -- Every byte of a version and of an address by itself. In a version 116 is the agent's length;
    #    16, and 36 in a version, the host kind, which decides on the ip.
    group("single bytes of a version")
    bytes_alone(0, b"", 122, (116,))
    bytes_alone(0, b"", 122, (36, 116))
    group("single bytes of an address")
    bytes_alone(5, b"\x01", 88, ())
    bytes_alone(5, b"\x01", 88, (16,))

    # -- Host kinds, all of them, and hosts.
    group("host kinds and hosts")
    hosts = (blob("host", 36), b"\xff" * 36, bytes(16) + b"\xff" * 20, b"\xff" * 16 + bytes(20), bytes(range(36)),
             bytes(10) + b"\xff\xff\x7f\x00\x00\x01" + bytes(20))
    for host_kind in (0, 1, 2, 127, 128, 254, 255):
        for host in hosts:
            one = dict(host_kind=host_kind, host=host, reserved=host_kind)
            again(0, version(b"", address=one), 0)
            again(5, Build().compact(1).address("host", **one), 2)
    for half in (0, 128):
        b = Build().compact(128)
        for host_kind in range(half, half + 128):
            b.address(host_kind, host_kind=host_kind, reserved=host_kind * 0x01010101)
        again(5, b, 4)

    group("reserved words and services")
    for word in [1 << bit for bit in range(32)] + [0, 0xffffffff, 0x01020304]:
        again(0, version(b"a", reserved=word, services=0), 1)
        again(0, version(b"a", reserved=0, services=word, address=dict(reserved=word, services=0)), 1)
        again(5, Build().compact(1).address("r", reserved=word, services=word), 0)

    group("no-relay")
    for no_relay in range(256):
        again(0, version(b"", no_relay=no_relay), no_relay % 3)
    for no_relay in (0, 1, 2, 255):
        again(0, version(b"\x81\x01", height=0x01010101, no_relay=no_relay), -1, 0, 1)

    # -- Texts: each byte alone, and each length that a form could end at, with bytes over 127.
    group("texts")
    for byte in range(256):
        again(15, reject(1, byte, bytes([byte])), byte % 2)
        if byte < 2 or 126 < byte < 130 or byte > 253:
            again(0, version(bytes([byte])), 0, 1)
            again(15, reject(14, 1, bytes([byte]), h("t")), 0, 1)
    for length in (0, 1, 2, 127, 128, 252, 253, 254, 255):
        for text in (b"a" * length, b"\xff" * length, bytes(range(256))[256 - length:], blob("text", length)):
            again(0, version(text, no_relay=1), -1, 0, 3)
            again(15, reject(1, 64, text), -1, 0, 3)
            again(15, reject(29, 1, text, b"\xff" * 32), 0)

    # -- Lists. A thousand addresses are 88,003 bytes; other lists as long as the output has room for.
    group("addr lists")
    again(5, b"\x00", 0, 5)
    for count in (1, 2, 3, 7, 50):
        again(5, Build().compact(count).data + mixed("few", count), -1, 0, 3)
    for count in (251, 252, 253, 254, 255, 256, 500, 999, 1_000):
        again(5, long_addr(count), 2)
    assert long_addr(1_000).length == 88_003
    again(5, long_addr(1_000), -88_003, -1, 0, 1, 97)
    for i in range(len(MIXED)):                                    # a thousand of one sort
        again(5, Run(b"\xfd\xe8\x03", Build().address(i, **MIXED[i]).data, 1_000), 0)

    group("inventories, locators and headers")
    for kind in (6, 7, 8, 9, 10, 11):
        for count in (0, 1, 2, 3, 10):
            again(kind, packets.make_list(kind, count), -1, 0, 3)
            if count:
                stop = zeros if kind in (9, 10) else b""
                again(kind, Run(bytes([count]), b"\xff" * packets.WIDTH[kind], count, stop), 1)
        for count in (251, 252, 253, 254, 255, 256, 300):
            again(kind, long_list(kind, count), 3)
        most = (OUT_ROOM - 35) // packets.WIDTH[kind]
        again(kind, long_list(kind, most), -1, 0, 1)
        more = long_list(kind, packets.LIMIT[packets.LIST_CODE[kind]])     # too long for any output here
        assert more.length == packets.GREATEST[kind]
        for size in (0, 8, OUT_ROOM):
            refused(kind, more, size, 16)

    # -- Index lists: differences of one byte and of three, and as many as there may be.
    group("index lists")
    for differences in ([], [0], [252], [253], [65_535], [0, 0], [3, 0, 4], [0, 65_534], [65_534, 0], [252, 253, 254],
                        [253, 252, 65_027], [32_767, 32_767], [10_000] * 6, [1] * 20, [0, 253] * 10, [253] * 100,
                        [0] * 252, [0] * 253, [0] * 254, [255, 256] * 60):
        again(24, getblocktxn(differences), -1, 0, 3)
    front = getblocktxn([253] * 193, claim=16_662).data
    for some in (Run(front, bytes(1), 16_662 - 193), Run(front[:35], bytes(1), 16_469, front[35:])):
        assert some.length == 17_083                               # the greatest length
        again(24, some, -1, 0, 1, 9)
    for piece in ([0, 5, 2, 4], [3, 3, 2, 3], [0, 0, 0, 0], [1, 0, 0, 7]):
        piece = b"".join(bytes([d]) for d in piece)
        again(24, Run(getblocktxn([1], claim=16_662).data, piece, 4_165, b"\x02"), 0, 2)
        again(24, Run(getblocktxn([300], claim=16_661).data, piece, 4_165), 1)
    refused(24, Run(getblocktxn([], claim=16_662).data, b"\x03", 16_662), 100, 9)
    refused(24, Run(getblocktxn([], claim=16_663).data, b"\x00", 16_663), 100, 7)
    refused(24, Run(getblocktxn([], claim=16_662).data, b"\x00", 16_661), 100, 1)

    group("rejects")
    for rejected in range(256):
        some_hash = h("reject") if rejected in packets.HASHED_REJECTS else None
        again(15, reject(rejected, rejected ^ 0x55, b"\xf7h\xf9", some_hash), rejected % 3)
    for rejected in packets.HASHED_REJECTS:
        for some_hash in (zeros, b"\xff" * 32, h("reject")):
            again(15, reject(rejected, 255, b"", some_hash), -1, 0, 1)
            again(15, reject(rejected, 0, b"\xff" * 255, some_hash), -1, 0, 1)
        refused(15, reject(rejected, 1, b"why"), 100, 1)
    for rejected in (0, 12, 15, 27, 30, 255):
        refused(15, reject(rejected, 1, b"why", h("reject")), 100, 3)

    group("feefilter, sendcmpct and getproof")
    for rate in (0, 1, -1, 2, -2, 255, -256, 1_000, 2 ** 31, -2 ** 31, 2 ** 32, 2 ** 62, 2 ** 63 - 1, -2 ** 63,
                 -2 ** 63 + 1):
        again(21, Build().number(rate, 8), -1, 0, 3)
    for mode in (0, 1, 2, 127, 128, 255):
        for number in (0, 1, 2 ** 32, 2 ** 63, 2 ** 64 - 1):
            again(22, Build().number(mode, 1).number(number, 8), 0, 1)
    for root, key in ((zeros, zeros), (b"\xff" * 32, b"\xfd" * 32), (h("a"), h("b")), (h("b"), h("a"))):
        again(26, root + key, -64, -33, -32, -1, 0, 1)

    group("raw and carried bytes")
    for kind in sorted(packets.RAW):
        again(kind, [b"\xff\x00\xfd\x0a\x00", b"\x01", b"\xfd" * 9, bytes(range(256))][kind % 4], kind % 4 - 1)
    for kind in (13, 14, 17, 23, 25, 27, 28, 29, 30, 255):
        for payload in (b"\xff", b"\x80" * 40, bytes(range(256)), packets.make_list(6, 2), blob("raw", 401)):
            again(kind, payload, -1, 0, 2)
        again(kind, Run(b"", blob("piece", 88), 1_000, b"end"), -1, 0, 1)
        for size in (0, 8):
            refused(kind, Run(b"", bytes(100), 80_000), size, 16)             # 8,000,000

    # -- Outputs of each length, which a refusal leaves alone.
    group("outputs")
    for kind, build in packets.ordinary().items():
        n = len(build.data)
        lengths = range(n + 10) if n < 90 else (0, 1, 7, n // 2, n - 2, n - 1, n, n + 1, n + 7, n + 8, n + 9, n + 300)
        again(kind, build, *[size - n for size in lengths], OUT_ROOM - n)
    for kind in list(packets.EMPTY) + [13, 30, 255]:
        again(kind, b"", *range(10))

    # -- Payloads that do not read: their refusal goes before 16, and writes nothing.
    group("payloads that do not read")
    for kind, build in packets.ordinary().items():
        n = len(build.data)
        for size in (0, n - 1, n, n + 20):
            refused(kind, build.data + b"\x00", size, 3)
            refused(kind, build.data[:-1], size, 1)
    taken = {}
    readings = list(reading_cases())
    for turn, (kind, payload, number) in enumerate(readings):
        if number == 0 or (32 <= kind < 255):
            continue
        taken[kind, number] = taken.get((kind, number), 0) + 1
        if taken[kind, number] <= 6:
            refused(kind, payload, (0, 1, 8, 400)[turn % 4], number)
    for kind in packets.LISTS:                                     # each refusal was there for each list
        for number in (1, 2, 3, 5, 7) + ((9,) if kind == 24 else ()):
            assert (kind, number) in taken

    # -- The payloads that packet_cases reads and that are not refused.
    group("payloads that packet_cases reads")
    for turn, (kind, payload, number) in enumerate(readings):
        if number != 0:
            continue
        n = run_of(payload).length
        if n + 3 <= OUT_ROOM:
            again(kind, payload, turn % 5 - 1)
        elif kind < 32:
            refused(kind, payload, (0, 9)[turn % 2], 16)


def main(check):
    checks = hand_checks()
    cases()
    files.put_cases(HERE, LINES, [ANSWERS[line] for line in LINES], (34, LINE_ROOM), "a-z0-9 ", check)
    files.say(checks, GROUPS, len(LINES))


if __name__ == "__main__":
    main(sys.argv[1:] == ["--check"])
