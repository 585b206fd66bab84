#!/usr/bin/env python3
"""The lines of `stdout`, from the papers and from nothing that the program says.

`python3 model.py` writes the file; with `--check` it compares it with the one
that is there. Refusals and their values are those of the table in
docs/01-scope.md ("the paper"); the index lists are the paper's and BIP 152's ("a
first index of 0 implies a real index of 0, a second index of 0 thereafter refers
to a real index of 1, etc."); the genesis headers are hns-rs's genesis_header,
and the hashes that are computed of them here are the public ones.
"""

import hashlib
import os
import sys

HERE = os.path.dirname(os.path.abspath(__file__))
sys.dont_write_bytecode = True         # nothing is left beside the module
sys.path.insert(0, os.path.join(HERE, "..", "case_lines"))
import files

MAGIC = {"mainnet": "d3f26e5b", "regtest": "cf9538ae"}


def le(value, width):
    return value.to_bytes(width, "little")


def word(some):
    """The value of a magic in refusal 4: a little-endian word (docs/DECISIONS.md, 15)."""
    return int.from_bytes(bytes.fromhex(some), "little")


def refused(number, a=0, b=0, c=0):
    return "refused %d %d %d %d" % (number, a, b, c)


# --- The paper's table: an example for each refusal, with the values that the row names; some have a neighbour that is not refused.
WRONG_MAGIC = refused(4, word(MAGIC["mainnet"]), word(MAGIC["regtest"]))
TOO_LONG = refused(5, 8_000_001, 8_000_000)
TABLE = [
    ("1, type 2 of 00:", refused(1, 0, 7)),
    ("2, type 6 of fd0a00:", refused(2, 16)),
    ("3, type 1 of 00:", refused(3, 1)),
    ("4, mainnet reads a regtest header:", WRONG_MAGIC),
    ("mainnet reads 8 bytes of a regtest header:", "not yet"),
    ("5, a header of length 8,000,001:", TOO_LONG),
    ("a header of length 8,000,000:", "not yet"),
    ("5, type 13 of 8,000,001 bytes:", TOO_LONG),
    ("type 13 of 8,000,000 bytes:", "reads"),
    ("5, 8,000,001 raw bytes written into none:", TOO_LONG),
    ("16, 8,000,000 raw bytes written into none:", refused(16, 8_000_000)),
    ("7, type 5 of fde903:", refused(7, 1_001, 1_000, 1)),
    ("8, 4 bytes as one frame:", refused(8, 5)),
    ("9, type 24, differences 65,535 and 0:", refused(9)),
    ("10, agent 80:", refused(10, 0, 0, 7)),
    ("11, a reject of type 14 with no hash:", refused(11)),
    ("12, 16,663 zeros as indexes:", refused(12, 16_663, 16_662)),
    ("13, index 65,536:", refused(13, 0)),
    ("14, indexes 3, 3:", refused(14, 1)),
    ("15, a header of 235 bytes:", refused(15, 235)),
    ("16, a ping into 7 bytes:", refused(16, 8)),
    # A push that is turned away answers the held count that it was given, and writes nothing: the output had aa.
    ("17, store 16, held 10, input 7:", refused(17, 17) + " held 10 output aaaaaa"),
    ("18, store 4, held 5:", refused(18, 5) + " held 5 output aaaaaa"),
    ("19, type 6, item 2 of 2:", refused(19)),
    ("type 6, item 1 of 2:", "hash at %d" % (1 + 36 + 4)),     # behind the count, item 0, and the kind
]

# --- A bad header, after which nothing is delivered; and the paper's log, two frames of 9 and 17 bytes and two bytes that are held.
LOG = "d3f26e5b0100000000" "d3f26e5b02080000000102030405060708"
PUSHES = [
    ("a verack, then a regtest header, pushed:", WRONG_MAGIC + " held 18 output " + "aa" * 28),
    ("the example of a log, pushed:", "frames 2 bytes %d held 2 output %saaaa" % (len(LOG) // 2, LOG)),
]

# --- Worked bytes: indexes behind a block hash of zeros, fees, no-relay.
BLOCK = "00" * 32
WORKED = [
    ("indexes 3, 4, 9 written:", BLOCK + "03" "030004"),
    ("differences 3, 0, 4 read:", "3 4 9"),
    ("BIP 152, indexes 0, 1, 2 written:", BLOCK + "03" "000000"),
    ("BIP 152, differences 0, 0, 0 read:", "0 1 2"),
    ("fee -1 written:", "ffffffffffffffff"),
    ("fee -2^63 written:", "0000000000000080"),
    ("fee ffffffffffffffff read:", "-1"),
    ("fee 0000000000000080 read:", "-9223372036854775808"),
    ("no-relay 00 read:", "false"),
    ("no-relay 01 read:", "true"),
    ("no-relay 02 read:", "false"),
]

# --- The genesis headers: name, time, bits, hash.
WITNESS_ROOT = "1a2c60b9439206938f8d7823782abdb8b211a57431e9c9b6a6365d8d42893351"
MERKLE_ROOT = "8e4c9756fef2ad10375f360e0560fcc7587eb5223ddf8cd7c7e06e60a1140b15"
GENESIS = [
    ("mainnet", 1_580_745_078, 0x1c00ffff, "5b6ef2d3c1f3cdcadfd9a030ba1811efdd17740f14e166489760741d075992e0"),
    ("testnet", 1_580_745_079, 0x1d00ffff, "b1520dd24372f82ec94ebf8cf9d9b037d419c4aa3575d05dec70aedd1b427901"),
    ("regtest", 1_580_745_080, 0x207fffff, "ae3895cf597eff05b19e02a70ceeeecb9dc72dbfe6504a50e9343a72f06a87c5"),
    ("simnet", 1_580_745_081, 0x207fffff, "0e648edc9cddb179014658061ea3f666a45cf44881877ae506e6babefbef6992"),
]


def genesis_header(time, bits):
    """nonce 4, time 8, previous 32, tree root 32, extra nonce 24, reserved root 32, roots, version 4, bits 4, mask 32."""
    return (bytes(4) + le(time, 8) + bytes(32 + 32 + 24 + 32)
            + bytes.fromhex(WITNESS_ROOT + MERKLE_ROOT) + bytes(4) + le(bits, 4) + bytes(32))


def blake(some, size=32):
    return hashlib.blake2b(some, digest_size=size).digest()


def block_hash(header):
    """The Rust's block_hash of a header whose previous hash, tree root and mask are zeros, so that all padding is."""
    nonce_time, previous, tree_root, mask = header[:12], header[12:44], header[44:76], header[204:]
    assert previous == tree_root == mask == bytes(32)
    commit = blake(blake(header[76:204]) + blake(previous + mask))
    pre = nonce_time + bytes(20) + previous + tree_root + commit
    return blake(blake(pre, 64) + bytes(32) + hashlib.sha3_256(pre + bytes(8)).digest()).hex()


def genesis():
    headers = []
    for name, time, bits, public in GENESIS:
        header = genesis_header(time, bits)
        assert len(header) == 236 and block_hash(header) == public, name
        headers.append(header)
    yield "genesis headers written:", "04" + b"".join(headers).hex()
    for place, header in enumerate(headers):
        yield "%s's genesis header read:" % GENESIS[place][0], "at %d %s" % (1 + 236 * place, header.hex())


def main(check):
    examples = TABLE + PUSHES + WORKED + list(genesis())
    files.put(HERE, "stdout", ["%s %s" % example for example in examples], check)
    print("%d examples" % len(examples))


if __name__ == "__main__":
    main(sys.argv[1:] == ["--check"])
