#!/usr/bin/env python3
"""A model of packet writing, written from docs/01-scope.md ("the paper").

`python3 model.py` checks the model against answers worked out by hand from the
paper (hand_checks) and against its length card, then writes `stdin` and `stdout`
beside this file; with `--check` it compares them with the files that are there.
Nothing is random. Every line of `stdout` is `answer(line)` of the same line of
`stdin`: the writers below work it out from the digits.

The paper leaves the flat address to write open: docs/DECISIONS.md, 16, has its
67 bytes.

Part 1  the model: a function for each writer
Part 2  the line protocol of the test program
Part 3  builders of cases
Part 4  answers worked out by hand
Part 5  the cases, in groups
"""

import functools
import hashlib
import os
import sys

HERE = os.path.dirname(os.path.abspath(__file__))
sys.dont_write_bytecode = True         # nothing is left beside the module
sys.path.insert(0, os.path.join(HERE, "..", "case_lines"))
import files

# ---------------------------------------------------------------------------
# Part 1: the model
# ---------------------------------------------------------------------------

PAYLOAD_LIMIT = 8_000_000
ADDRESS, INVENTORY, LOCATOR, HEADER = 1, 2, 3, 4          # field codes, the value c
AGENT, REASON = 7, 8
LIMIT = {ADDRESS: 1_000, INVENTORY: 50_000, LOCATOR: 50_000, HEADER: 2_000}
TEXT_LIMIT = 255
COUNT_LIMIT = 16_662
INDEX_LIMIT = 65_535
HASHED_REJECTS = (13, 14, 28, 29)


class Refused(Exception):
    """A refusal: a number and values a, b, c; 0 where a value is not named."""

    def __init__(self, number, a=0, b=0, c=0):
        super().__init__(number, a, b, c)
        self.line = "refused %d %d %d %d" % (number, a, b, c)


def le(value, width):
    return value.to_bytes(width, "little")


def compact(value):
    """Always the shortest."""
    if value < 253:
        return le(value, 1)
    if value < 1 << 16:
        return b"\xfd" + le(value, 2)
    if value < 1 << 32:
        return b"\xfe" + le(value, 4)
    return b"\xff" + le(value, 8)


def low(services):
    """The writer puts the low 32 bits of services; the reserved word is zero."""
    return le(services % (1 << 32), 4) + bytes(4)


def address(time, services, ip, port, key):
    """Host kind and host bytes 16 to 35 are not kept: zeros."""
    return le(time, 8) + low(services) + b"\x00" + ip + bytes(20) + le(port, 2) + key


def text(some, code):
    """7, then 10."""
    if len(some) > TEXT_LIMIT:
        raise Refused(7, len(some), TEXT_LIMIT, code)
    if any(byte > 127 for byte in some):
        raise Refused(10, 0, 0, code)
    return le(len(some), 1) + some


def whole_items(flat, width, code):
    """A flat list counts its whole items; a rest is ignored. 7."""
    count = len(flat) // width
    if count > LIMIT[code]:
        raise Refused(7, count, LIMIT[code], code)
    return [flat[i * width:(i + 1) * width] for i in range(count)]


def number(some):
    return int.from_bytes(some, "little")


def write_version(version, services, time, remote, nonce, height, no_relay, agent):
    agent = text(agent, AGENT)
    return (le(version, 4) + low(services) + le(time, 8) + address(*remote) + le(nonce, 8)
            + agent + le(height, 4) + (b"\x01" if no_relay else b"\x00"))


def flat_address(item):
    return (number(item[:8]), number(item[8:16]), item[16:32], number(item[32:34]), item[34:67])


def write_addr(flat):
    items = whole_items(flat, 67, ADDRESS)
    return compact(len(items)) + b"".join(address(*flat_address(item)) for item in items)


def write_inventory(flat):
    items = whole_items(flat, 36, INVENTORY)
    return compact(len(items)) + b"".join(items)


def write_locator(flat, stop):
    items = whole_items(flat, 32, LOCATOR)
    return compact(len(items)) + b"".join(items) + stop


def write_headers(flat):
    items = whole_items(flat, 236, HEADER)
    return compact(len(items)) + b"".join(items)


def write_reject(rejected, code, reason, some_hash):
    """`some_hash` is None where there is none. 7, 10, 11."""
    reason = text(reason, REASON)
    if (some_hash is not None) != (rejected in HASHED_REJECTS):
        raise Refused(11)
    return bytes([rejected, code]) + reason + (some_hash or b"")


def write_feefilter(rate):
    return le(rate % (1 << 64), 8)


def write_getblocktxn(block, indexes):
    """12; then the list from the left, 13 before 14 at one place."""
    if len(indexes) > COUNT_LIMIT:
        raise Refused(12, len(indexes), COUNT_LIMIT)
    out = block + compact(len(indexes))
    for place, index in enumerate(indexes):
        if index > INDEX_LIMIT:
            raise Refused(13, place)
        if place and index <= indexes[place - 1]:
            raise Refused(14, place)
        out += compact(index if place == 0 else index - indexes[place - 1] - 1)
    return out


def into(payload, room):
    """5, then 16."""
    if len(payload) > PAYLOAD_LIMIT:
        raise Refused(5, len(payload), PAYLOAD_LIMIT)
    if room < len(payload):
        raise Refused(16, len(payload))
    return payload


# ---------------------------------------------------------------------------
# Part 2: the line protocol
# ---------------------------------------------------------------------------

(VERSION_, EMPTY_, NONCE_, ADDR_, INVENTORY_, LOCATOR_, HEADERS_, REJECT_, FEEFILTER_,
 SENDCMPCT_, GETBLOCKTXN_, SHORT_INDEXES_, GETPROOF_, RAW_) = range(14)
WHOLE = 400                              # bytes that are printed whole


def payload_of(asked, given):
    """The payload that the arguments in the bytes of a case make."""
    if asked == VERSION_:
        return write_version(number(given[:4]), number(given[4:12]), number(given[12:20]),
                             flat_address(given[20:87]), number(given[87:95]),
                             number(given[95:99]), given[99] == 1, given[100:])
    if asked == EMPTY_:
        return b""
    if asked == NONCE_:
        return le(number(given), 8)
    if asked == ADDR_:
        return write_addr(given)
    if asked == INVENTORY_:
        return write_inventory(given)
    if asked == LOCATOR_:
        return write_locator(given[32:], given[:32])
    if asked == HEADERS_:
        return write_headers(given)
    if asked == REJECT_:
        return write_reject(given[0], given[1], given[35:], given[3:35] if given[2] == 1 else None)
    if asked == FEEFILTER_:
        return write_feefilter(int.from_bytes(given, "little", signed=True))
    if asked == SENDCMPCT_:
        return given[:1] + given[1:9]    # mode 1, version 8
    if asked in (GETBLOCKTXN_, SHORT_INDEXES_):
        width = 8 if asked == GETBLOCKTXN_ else 2
        return write_getblocktxn(given[:32], [number(given[at:at + width])
                                              for at in range(32, len(given), width)])
    if asked == GETPROOF_:
        return given[:32] + given[32:64]
    if asked == RAW_:
        return given
    raise AssertionError(asked)


@functools.lru_cache(maxsize=4)
def checksum(some):
    """Of bytes that are too many to print."""
    total = 0
    for byte in some:
        total = (total * 31 + byte) % (1 << 32)
    return total


def shown(payload):
    if not payload:
        return ""
    if len(payload) <= WHOLE:
        return " " + payload.hex()
    return " %s .. %s sum %d" % (payload[:64].hex(), payload[-8:].hex(), checksum(payload))


def parts(line):
    """Which writer, the output's length, and the arguments, with the zeros that belong to them."""
    data = bytes.fromhex(line)
    return data[0], number(data[1:9]), data[17:] + bytes(number(data[9:17]))


def answer(line):
    """A refusal changes no byte of the output, an accepted call those of its answer alone."""
    asked, room, given = parts(line)
    try:
        payload = into(payload_of(asked, given), room)
    except Refused as refusal:
        return "%s kept %d" % (refusal.line, room)
    return "written %d%s kept %d" % (len(payload), shown(payload), room - len(payload))


# ---------------------------------------------------------------------------
# Part 3: builders
# ---------------------------------------------------------------------------

LINES = []
ANSWERS = []
GROUPS = []                              # name, first line, how many
ROOM = 1_800_200                         # what the program has for a case and for an output


def group(name):
    GROUPS.append([name, len(LINES) + 1, 0])


def case(asked, given, room, zeros=0):
    """One case; its answer."""
    assert room <= ROOM and 17 + len(given) + zeros <= ROOM
    LINES.append((bytes([asked]) + le(room, 8) + le(zeros, 8) + given).hex())
    ANSWERS.append(answer(LINES[-1]))
    GROUPS[-1][2] += 1
    return ANSWERS[-1]


def needed(asked, given, zeros=0):
    return len(payload_of(asked, given + bytes(zeros)))


def rooms(asked, given, zeros=0, more=()):
    """16: no output, one byte short, exact, longer."""
    n = needed(asked, given, zeros)
    for room in sorted({0, max(n - 1, 0), n, n + 1, n + 7, *more}):
        got = case(asked, given, min(room, ROOM), zeros)
        if room < n:
            assert got == "refused 16 %d 0 0 kept %d" % (n, room)
        else:
            assert got.startswith("written %d" % n) and got.endswith(" kept %d" % (room - n))


def refuses(refusal, asked, given, zeros=0, spare=(0, 1, 500)):
    """A refusal of its own, also with no room: it comes before 16."""
    for room in spare:
        got = case(asked, given, room, zeros)
        assert got == "refused %s kept %d" % (refusal, room), got


def blob(tag, length):
    """Bytes that look like any others, the same on every run."""
    out = b""
    while len(out) < length:
        out += hashlib.sha256(("%s/%d" % (tag, len(out))).encode()).digest()
    return out[:length]


def h(tag):
    return blob("hash %s" % tag, 32)


def flat(time=0, services=0, ip=bytes(16), port=0, key=bytes(33)):
    return le(time, 8) + le(services, 8) + ip + le(port, 2) + key


def version(agent=b"", version=3, services=1, time=1_600_000_000, remote=None, nonce=0x0807060504030201,
            height=10_000, no_relay=0):
    return (le(version, 4) + le(services, 8) + le(time, 8)
            + (blob("remote", 67) if remote is None else remote)
            + le(nonce, 8) + le(height, 4) + le(no_relay, 1) + agent)


def reject(rejected, present, reason=b"", code=0x10, some_hash=None):
    return bytes([rejected, code, present]) + (h("rejected") if some_hash is None else some_hash) + reason


def indexes(*values, width=8):
    return h("block") + b"".join(le(value, width) for value in values)


def letters(length):
    return bytes(32 + i % 95 for i in range(length))


def with_byte(some, place, byte):
    return some[:place] + bytes([byte]) + some[place + 1:]


def greatest_indexes():
    """16,662 of them, with as many differences of 253 as fit below 65,536."""
    out, previous, long_ones = [], -1, 193
    for place in range(COUNT_LIMIT):
        previous += 254 if place < long_ones else 1
        out.append(previous)
    assert out[-1] <= INDEX_LIMIT < out[-1] + 253
    return out


# ---------------------------------------------------------------------------
# Part 4: answers worked out by hand, from the paper's table, its 'Worked bytes',
# its length card and its lists of fields
# ---------------------------------------------------------------------------

def hand_checks():
    zero32 = "00" * 32
    by_hand = [
        (NONCE_, le(1, 8), 7, 0, "refused 16 8 0 0 kept 7"),                   # the table's ping into 7
        (NONCE_, le(0x0102030405060708, 8), 9, 0, "written 8 0807060504030201 kept 1"),
        (EMPTY_, b"", 3, 0, "written 0 kept 3"),
        (VERSION_, version(b"\x80"), 500, 0, "refused 10 0 0 7 kept 500"),     # the table's agent 80
        (VERSION_, version(bytes(256)), 0, 0, "refused 7 256 255 7 kept 0"),
        (REJECT_, reject(14, 0), 9, 0, "refused 11 0 0 0 kept 9"),             # the table's type 14, no hash
        (REJECT_, reject(13, 1, b"hi", 17, bytes(32)), 40, 0, "written 37 0d11026869" + zero32 + " kept 3"),
        (REJECT_, reject(2, 0, b"hi", 17), 5, 0, "written 5 0211026869 kept 0"),
        (REJECT_, reject(2, 0, bytes(256)), 0, 0, "refused 7 256 255 8 kept 0"),
        (GETBLOCKTXN_, bytes(32), 0, 16_663 * 8, "refused 12 16663 16662 0 kept 0"),   # the table's 16,663 zeros
        (GETBLOCKTXN_, bytes(32) + le(65_536, 8), 50, 0, "refused 13 0 0 0 kept 50"),  # the table's [65536]
        (GETBLOCKTXN_, bytes(32) + le(3, 8) * 2, 50, 0, "refused 14 1 0 0 kept 50"),   # the table's [3, 3]
        (GETBLOCKTXN_, bytes(32) + le(3, 8) + le(4, 8) + le(9, 8), 36, 0,
         "written 36 " + zero32 + "03030004 kept 0"),                          # indexes 3, 4, 9
        (SHORT_INDEXES_, bytes(32) + le(65_535, 2), 37, 0, "written 36 " + zero32 + "01fdffff kept 1"),
        (FEEFILTER_, b"\xff" * 8, 8, 0, "written 8 ffffffffffffffff kept 0"),
        (FEEFILTER_, le(1 << 63, 8), 8, 0, "written 8 0000000000000080 kept 0"),
        (SENDCMPCT_, b"\x01" + le(1, 8), 9, 0, "written 9 010100000000000000 kept 0"),
        (ADDR_, b"", 1, 67 * 1_001, "refused 7 1001 1000 1 kept 1"),
        (ADDR_, flat(1, 1 << 32, b"\xff" * 16, 2, b"\x03" * 33) + bytes(66), 89, 0,
         "written 89 01" + "0100000000000000" + "00000000" + "00000000" + "00" + "ff" * 16 + "00" * 20
         + "0200" + "03" * 33 + " kept 0"),
        (INVENTORY_, b"", 0, 36 * 50_001, "refused 7 50001 50000 2 kept 0"),
        (LOCATOR_, bytes(32), 0, 32 * 50_001, "refused 7 50001 50000 3 kept 0"),
        (HEADERS_, b"", 0, 236 * 2_001, "refused 7 2001 2000 4 kept 0"),
        (INVENTORY_, bytes(35), 1, 0, "written 1 00 kept 0"),
        (LOCATOR_, b"\x07" * 32 + bytes(31), 33, 0, "written 33 00" + "07" * 32 + " kept 0"),
        (GETPROOF_, b"\x01" * 32 + b"\x02" * 32, 64, 0, "written 64 " + "01" * 32 + "02" * 32 + " kept 0"),
        (RAW_, b"\x09\x08", 3, 0, "written 2 0908 kept 1"),
    ]
    for asked, given, room, zeros, expected in by_hand:
        line = (bytes([asked]) + le(room, 8) + le(zeros, 8) + given).hex()
        assert answer(line) == expected, (line[:80], answer(line), expected)
    assert compact(252) == b"\xfc" and compact(253) == b"\xfd\xfd\x00" and compact(65_536) == b"\xfe\x00\x00\x01\x00"
    return len(by_hand)


# Least and greatest lengths by the paper's card, and whether a case has to reach both.
CARD = {VERSION_: (122, 377), EMPTY_: (0, 0), NONCE_: (8, 8), ADDR_: (1, 88_003), INVENTORY_: (1, 1_800_003),
        LOCATOR_: (33, 1_600_035), HEADERS_: (1, 472_003), REJECT_: (3, 290), FEEFILTER_: (8, 8), SENDCMPCT_: (9, 9),
        GETBLOCKTXN_: (33, 17_083), GETPROOF_: (64, 64), RAW_: (0, 8_000_000)}


def card_checks():
    """Every accepted payload lies within the card, and reaches both its ends but for raw bytes."""
    seen = {asked: set() for asked in CARD}
    for line, got in zip(LINES, ANSWERS):
        if got.startswith("written "):
            asked = GETBLOCKTXN_ if int(line[:2], 16) == SHORT_INDEXES_ else int(line[:2], 16)
            seen[asked].add(int(got.split()[1]))
    for asked, (least, greatest) in CARD.items():
        assert min(seen[asked]) == least, asked
        assert max(seen[asked]) <= greatest if asked == RAW_ else max(seen[asked]) == greatest, asked


# ---------------------------------------------------------------------------
# Part 5: the cases
# ---------------------------------------------------------------------------

def version_cases():
    group("version, lengths of the agent")
    for length in (0, 1, 2, 20, 127, 128, 254, 255):
        rooms(VERSION_, version(letters(length)), more=(121, 122, 377))
    group("version, fields")
    for services in (0, 1, (1 << 32) - 1, 1 << 32, (1 << 32) + 1, 5 << 40, (1 << 64) - 1, (1 << 64) - (1 << 32)):
        case(VERSION_, version(b"/a/", services=services), 130)
        case(VERSION_, version(b"/a/", remote=flat(services=services)), 130)
    for field, width in (("version", 4), ("time", 8), ("nonce", 8), ("height", 4)):
        for value in (0, 1, 0x0807060504030201 % (1 << 8 * width), 1 << 8 * width - 1, (1 << 8 * width) - 1):
            case(VERSION_, version(b"/a/", **{field: value}), 128)
    for no_relay in (0, 1):
        for agent in (b"", b"\x01", letters(255)):
            rooms(VERSION_, version(agent, no_relay=no_relay))
    for remote in (bytes(67), b"\xff" * 67, bytes(range(67)), flat(time=1 << 63), flat(ip=bytes(range(1, 17))),
                   flat(port=0x2fe6), flat(port=65_535), flat(key=bytes(range(2, 35))), flat(ip=b"\xff" * 16)):
        case(VERSION_, version(b"", remote=remote), 123)
    for agent in (b"\x00", b"\x7f", bytes(255), b"\x7f" * 255, bytes(range(128))):    # the least and the last that are texts
        case(VERSION_, version(agent), 400)
    group("version, 10 and 7")
    for length in (1, 2, 3, 9, 100, 255):
        for place in sorted({0, length // 2, length - 1}):
            for byte in (0x80, 0xff, 0xc3):
                refuses("10 0 0 7", VERSION_, version(with_byte(letters(length), place, byte)), spare=(0, 121 + length, 400))
    refuses("10 0 0 7", VERSION_, version(b"\x80" * 255))
    for length in (256, 257, 300, 511, 512, 65_536 + 3):
        refuses("7 %d 255 7" % length, VERSION_, version(), length)
        for place in (0, 128, 255):                                # 7 before 10
            refuses("7 %d 255 7" % length, VERSION_, version(with_byte(letters(256), place, 0x80)), length - 256)
    refuses("7 256 255 7", VERSION_, version(b"\xff" * 256))


def small_cases():
    group("empty")
    rooms(EMPTY_, b"", more=(400, 401))
    group("nonce")
    for nonce in (0, 1, 0x0807060504030201, 0x0102030405060708, 1 << 63, (1 << 64) - 1):
        rooms(NONCE_, le(nonce, 8), more=(1, 4))
    for place in range(8):
        case(NONCE_, le(0xab << 8 * place, 8), 8)
    group("feefilter")
    for rate in (0, 1, -1, -2, 255, -256, 256, 2 ** 31, -2 ** 31, -2 ** 32 - 1, 2 ** 62, 2 ** 63 - 1, 2 ** 63 - 2, -2 ** 63, 1 - 2 ** 63):
        rooms(FEEFILTER_, rate.to_bytes(8, "little", signed=True))
    group("sendcmpct")
    for mode in (0, 1, 2, 127, 128, 255):
        for number_ in (0, 1, 2, 0x0807060504030201, (1 << 64) - 1):
            case(SENDCMPCT_, bytes([mode]) + le(number_, 8), 10)
    rooms(SENDCMPCT_, b"\x01" + le(1, 8), more=(1, 2))
    rooms(SENDCMPCT_, b"\xff" + le((1 << 64) - 1, 8))
    group("getproof")
    for root, key in ((bytes(32), bytes(32)), (h("root"), h("key")), (b"\xff" * 32, bytes(32)), (bytes(range(32)), bytes(range(32, 64)))):
        rooms(GETPROOF_, root + key, more=(31, 32, 33))
    group("raw")
    for length in (0, 1, 2, 9, 32, 250, 399, 400, 401, 1_000):
        rooms(RAW_, blob("raw", length))
    rooms(RAW_, blob("raw", 3), 90_000)
    rooms(RAW_, b"", 1_800_000)


def list_cases():
    for asked, front, code, width, flat_items in (
            (ADDR_, b"", ADDRESS, 67, 1_000), (INVENTORY_, b"", INVENTORY, 36, 300),
            (LOCATOR_, h("stop"), LOCATOR, 32, 300), (HEADERS_, b"", HEADER, 236, 260)):
        limit = LIMIT[code]
        name = {ADDR_: "addr", INVENTORY_: "inventory", LOCATOR_: "locator", HEADERS_: "headers"}[asked]
        items = blob(name, width * flat_items)
        group(name + ", counts and rests")
        for count in (0, 1, 2, 3, 5):
            for rest in (0, 1, width // 2, width - 1):             # a rest is ignored
                if rest in (0, width - 1):
                    rooms(asked, front + items[:count * width + rest])
                else:
                    case(asked, front + items[:count * width + rest], 1_500)
        case(asked, front + bytes(width), 1_500)
        case(asked, front + b"\xff" * width, 1_500)
        for count in (252, 253, 254):                              # a count of one byte, and of three
            rooms(asked, front + items[:width], (count - 1) * width)
        case(asked, front + items, 100_000)                        # no zeros anywhere
        group(name + ", at the limit and over it")
        head = items[:3 * width]
        for rest in (0, 1, width - 1):
            rooms(asked, front + head, (limit - 3) * width + rest)
        rooms(asked, front + head, (limit - 4) * width)
        for count in (limit + 1, limit + 2, 2 * limit, 65_536 + limit + 1):
            if count * width < ROOM - 200:
                refuses("7 %d %d %d" % (count, limit, code), asked, front + head, (count - 3) * width)
        for rest in (1, width - 1) if (limit + 2) * width < ROOM - 200 else (1,):
            refuses("7 %d %d %d" % (limit + 1, limit, code), asked, front + head, (limit - 2) * width + rest,
                    spare=(0, 1_000, ROOM))
    group("addr, fields")
    for services in (0, 1, (1 << 32) - 1, 1 << 32, (1 << 32) + 1, 5 << 40, (1 << 64) - 1, (1 << 64) - (1 << 32)):
        case(ADDR_, flat(services=services), 90)
        case(ADDR_, flat(services=1) + flat(services=services), 180)
    for item in (flat(time=0x0807060504030201), flat(time=1 << 63), flat(ip=bytes(range(1, 17))), flat(ip=b"\xff" * 16),
                 flat(port=1), flat(port=0x2fe6), flat(port=65_535), flat(key=bytes(range(2, 35))), bytes(range(67)), b"\xff" * 67):
        case(ADDR_, item, 89)
        case(ADDR_, flat(1, 1, b"\x01" * 16, 1, b"\x01" * 33) + item, 177)
    group("inventory, kinds")
    for kind in (0, 1, 2, 3, 4, 5, 6, 7, 255, 256, 1 << 31, (1 << 32) - 1):
        case(INVENTORY_, le(kind, 4) + h("kind"), 38)
    group("locator, stop")
    for stop in (bytes(32), b"\xff" * 32, bytes(range(32))):
        for count in (0, 1, 2):
            case(LOCATOR_, stop + h("one") * count, 98)


def reject_cases():
    group("reject, lengths of the reason")
    for length in (0, 1, 2, 20, 127, 128, 254, 255):
        for rejected in (2, 14):
            rooms(REJECT_, reject(rejected, rejected == 14, letters(length)), more=(3, 290))
    group("reject, codes and hashes")
    for code in (0, 1, 0x40, 0x7f, 0x80, 0xff):
        case(REJECT_, reject(0, 0, b"no", code), 40)
        case(REJECT_, reject(29, 1, b"no", code), 40)
    for some_hash in (bytes(32), b"\xff" * 32, bytes(range(32))):
        for rejected in HASHED_REJECTS:
            case(REJECT_, reject(rejected, 1, b"", some_hash=some_hash), 36)
        case(REJECT_, reject(12, 0, b"", some_hash=some_hash), 36)  # a hash that is not present does not count
    for reason in (b"\x00", b"\x7f", bytes(255), b"\x7f" * 255, bytes(range(128))):
        case(REJECT_, reject(1, 0, reason), 300)
    group("reject, 11 by type")
    for rejected in list(range(36)) + [45, 46, 60, 61, 77, 78, 127, 128, 141, 142, 156, 157, 254, 255]:
        for present in (0, 1):
            if (rejected in HASHED_REJECTS) == (present == 1):
                assert case(REJECT_, reject(rejected, present, b"why"), 40).startswith("written ")
            else:
                refuses("11 0 0 0", REJECT_, reject(rejected, present, b"why"), spare=(0, 40))
    group("reject, 10 and 7")
    for rejected in (14, 15):
        good = rejected == 14
        for length in (1, 2, 3, 9, 100, 255):
            for place in sorted({0, length // 2, length - 1}):
                reason = with_byte(letters(length), place, 0x80 if good else 0xff)
                refuses("10 0 0 8", REJECT_, reject(rejected, good, reason), spare=(0, 34 + length, 300))
                refuses("10 0 0 8", REJECT_, reject(rejected, not good, reason), spare=(0, 300))       # 10 before 11
        for length in (256, 257, 512, 65_536 + 3):
            for present in (0, 1):                                 # 7 before 11
                refuses("7 %d 255 8" % length, REJECT_, reject(rejected, present), length)
                for place in (0, 128, 255):                        # 7 before 10
                    reason = with_byte(letters(256), place, 0x80)
                    refuses("7 %d 255 8" % length, REJECT_, reject(rejected, present, reason), length - 256, spare=(0, 300))


def index_cases():
    group("getblocktxn, accepted")
    for values in ([], [0], [1], [252], [253], [65_535], [3, 4, 9], [0, 1], [0, 1, 2], [0, 253], [0, 254], [0, 65_535],
                   [65_534, 65_535], [252, 505, 759], [7, 300, 301, 555, 809, 65_535], [65_531, 65_533, 65_535]):
        rooms(GETBLOCKTXN_, indexes(*values), more=(31, 32, 33))
        case(SHORT_INDEXES_, indexes(*values, width=2), 60)
    for count in (38, 252, 253, 254, 1_000):
        rooms(SHORT_INDEXES_, indexes(*range(count), width=2))
    case(SHORT_INDEXES_, indexes(*[254 * i for i in range(250)], width=2), 1_000)
    case(SHORT_INDEXES_, indexes(*range(COUNT_LIMIT), width=2), 16_700)
    for room in (17_082, 17_083):
        case(SHORT_INDEXES_, indexes(*greatest_indexes(), width=2), room)
    group("getblocktxn, 13")
    for length in (1, 2, 3, 4):
        for place in range(length):
            for value in (65_536, 1 << 32, (1 << 64) - 1):
                refuses("13 %d 0 0" % place, GETBLOCKTXN_, indexes(*[value if i == place else i for i in range(length)]))
    refuses("13 1 0 0", GETBLOCKTXN_, indexes(65_535, 65_536))
    # Both at one place cannot be: an index over 65,535 that is not above the one before comes after another such one.
    refuses("13 0 0 0", GETBLOCKTXN_, indexes(65_536, 65_536))
    refuses("13 0 0 0", GETBLOCKTXN_, indexes(70_000, 65_536))
    refuses("13 1 0 0", GETBLOCKTXN_, indexes(9, (1 << 64) - 1, (1 << 64) - 1))
    group("getblocktxn, 14")
    for length in (2, 3, 4):
        for place in range(1, length):
            for back in (0, 1, place):                             # the same, one less, the first one
                values = [10 + i for i in range(length)]
                values[place] = values[place - 1] - back
                refuses("14 %d 0 0" % place, GETBLOCKTXN_, indexes(*values))
    for values in ([0, 0], [65_535, 65_535], [65_535, 0], [5, 4], [1, 0, 2]):
        refuses("14 1 0 0", GETBLOCKTXN_, indexes(*values))
        refuses("14 1 0 0", SHORT_INDEXES_, indexes(*values, width=2))
    group("getblocktxn, from the left")
    refuses("13 0 0 0", GETBLOCKTXN_, indexes(65_536, 3, 3))
    refuses("14 1 0 0", GETBLOCKTXN_, indexes(3, 3, 65_536))
    refuses("13 1 0 0", GETBLOCKTXN_, indexes(3, 65_536, 3))
    refuses("14 2 0 0", GETBLOCKTXN_, indexes(3, 4, 4, 65_536))
    refuses("13 2 0 0", GETBLOCKTXN_, indexes(3, 4, 65_536, 4))
    refuses("14 253 0 0", SHORT_INDEXES_, indexes(*range(253), width=2), 2)
    refuses("14 16661 0 0", SHORT_INDEXES_, indexes(*range(COUNT_LIMIT - 1), width=2), 2, spare=(0,))
    refuses("14 1 0 0", GETBLOCKTXN_, indexes(), COUNT_LIMIT * 8)
    group("getblocktxn, 12")
    for count in (16_663, 16_664, 16_700):
        refuses("12 %d 16662 0" % count, GETBLOCKTXN_, indexes(), count * 8)                     # 12 before 14
        refuses("12 %d 16662 0" % count, GETBLOCKTXN_, indexes(65_536), (count - 1) * 8)         # 12 before 13
        refuses("12 %d 16662 0" % count, GETBLOCKTXN_, indexes(3, 3, 65_536), (count - 3) * 8)
    refuses("12 16663 16662 0", SHORT_INDEXES_, indexes(*range(16_663), width=2), spare=(20_000,))


def mixed_cases():
    """Ordinary and odd calls of every writer, with outputs around what they need, by a fixed rule."""
    group("mixed")
    state = 20_241_109
    def pick(n):
        nonlocal state
        state = (state * 6364136223846793005 + 1442695040888963407) % 2 ** 64
        return (state >> 33) % n
    for turn in range(40):
        agent = with_byte(letters(1 + pick(300)), 0, 0x7e + pick(4))
        some = [
            (VERSION_, blob("version %d" % turn, 99) + bytes([pick(2)]) + agent),
            (NONCE_, blob("nonce %d" % turn, 8)),
            (ADDR_, blob("addresses %d" % turn, pick(67 * 4))),
            (INVENTORY_, blob("items %d" % turn, pick(36 * 6))),
            (LOCATOR_, blob("hashes %d" % turn, 32 + pick(32 * 6))),
            (HEADERS_, blob("headers %d" % turn, pick(236 * 3))),
            (REJECT_, bytes([12 + pick(4), pick(256), pick(2)]) + h(turn) + agent),
            (FEEFILTER_, blob("rate %d" % turn, 8)),
            (SENDCMPCT_, blob("mode %d" % turn, 9)),
            (GETBLOCKTXN_, indexes(*sorted(pick(65_600) >> pick(16) for _ in range(pick(5))))),
            (SHORT_INDEXES_, indexes(*sorted({pick(65_536) for _ in range(pick(60))}), width=2)),
            (GETPROOF_, blob("proof %d" % turn, 64)),
            (RAW_, blob("raw %d" % turn, pick(500))),
        ]
        for asked, given in some:
            try:
                n = needed(asked, given)
            except Refused:
                n = pick(300)
            case(asked, given, max(n - 2 + pick(6), 0))


def main(check):
    checks = hand_checks()
    version_cases()
    small_cases()
    list_cases()
    reject_cases()
    index_cases()
    mixed_cases()
    card_checks()
    files.put_cases(HERE, LINES, ANSWERS, (34, 3_600_400), "a-z0-9 .", check)
    files.say(checks, GROUPS, len(LINES))


if __name__ == "__main__":
    main(sys.argv[1:] == ["--check"])
