"""NV memories, by struct and hashlib. Without a word it writes the rows of checks/kept.txt: their bytes, and what they
spell or their first fault. With a folder it writes the files there that checks/nv.txt tells."""

import hashlib
import pathlib
import struct
import sys

MAGIC = 0x564A4E56
HASHES = {0x0004: 20, 0x000B: 32, 0x000C: 48}
WRITTEN = 1 << 29


class Counter:
    def __init__(self, index, attributes=0x02020012, hash=0x000B, policy=b"", auth=b"", value=0, size=8):
        self.index, self.attributes, self.hash, self.policy = index, attributes, hash, policy
        self.auth, self.value, self.size = auth, value, size
        if value:
            self.attributes |= WRITTEN

    def public(self):
        area = struct.pack(">IHIH", self.index, self.hash, self.attributes, len(self.policy)) + self.policy
        return area + struct.pack(">H", self.size)

    def spelled(self):
        area = self.public()
        value = struct.pack(">Q", self.value) if self.attributes & WRITTEN else b""
        return struct.pack(">H", len(area)) + area + struct.pack(">H", len(self.auth)) + self.auth + value

    def told(self):
        policy = self.policy.hex() or "-"
        return f" {self.index:08x}:{self.hash:04x}:{self.attributes:08x}:{policy}:{int(bool(self.auth))}:{self.value}"


def contents(greatest, counters, magic=MAGIC, version=1, count=None):
    front = struct.pack(">IHQI", magic, version, greatest, len(counters) if count is None else count)
    return front + b"".join(it.spelled() for it in counters)


def digested(front):
    return front + hashlib.sha256(front).digest()


def row(kept, answer, owner=b"owner"):
    print(f"{owner.hex() or '-'} {kept.hex() or '-'} -> {answer}")


def taken(greatest, counters, owner=b"owner"):
    row(digested(contents(greatest, counters)), f"{greatest}" + "".join(it.told() for it in counters), owner)


def refused(kept, code, at, owner=b"owner"):
    row(kept, f"refused 0x{code:03x} {at}", owner)


SIZE, VALUE, ATTRIBUTES, INSUFFICIENT = 0x095, 0x084, 0x082, 0x09A
NV_RANGE, NV_DEFINED, INTEGRITY, HASH = 0x146, 0x14C, 0x09F, 0x083

one = Counter(0x01800000, value=41)
eight = [
    Counter(0x01800000, value=41),
    Counter(0x01800001, attributes=0x02040014, auth=b"a"),
    Counter(0x01800002, attributes=0x02060016, auth=b"secret", value=7),
    Counter(0x01800003, attributes=0x02080018, hash=0x0004, policy=bytes(range(20))),
    Counter(0x01800004, attributes=0x020A001A, hash=0x000C, policy=bytes(range(48)), auth=bytes(range(1, 49)),
            value=42),
    Counter(0x01FFFFFF, attributes=0x00080018, policy=bytes(32), value=1),
    Counter(0x01000000, attributes=0x00020012, hash=0x0004, auth=b"\x00\x01", value=40),
    Counter(0x01C00000, attributes=0x020E001E, hash=0x000C, policy=bytes(48), auth=bytes(47) + b"\x01",
            value=2**64 - 1),
]
largest = [
    Counter(0x01800000 + i, attributes=0x020E001E, hash=0x000C, policy=bytes(48), auth=b"\xff" * 48, value=i + 1)
    for i in range(8)
]


def rows():
    print("# Bytes of NV memories and what a device that is made of them has, or their first fault: the lines that")
    print("# `python3 checks/kept.py` writes, by struct and hashlib.")
    print("# none, one and eight counters, and the most bytes that there are")
    taken(0, [])
    taken(2**64 - 1, [], b"")
    taken(41, [one], b"\x01" * 48)
    taken(2**64 - 1, eight)
    taken(9, largest)
    print("# the owner's value")
    refused(digested(contents(0, [])), SIZE, 0, b"\x01" * 49)
    print("# the front")
    refused(b"", INSUFFICIENT, 0)
    refused(digested(contents(0, [], magic=MAGIC + 1)), VALUE, 0)
    refused(digested(contents(0, [], version=2)), VALUE, 4)
    refused(contents(0, [])[:13], INSUFFICIENT, 6)
    refused(digested(contents(9, largest + [Counter(0x01900000)])), SIZE, 14)
    print("# a counter: its attributes, its policy, its size, its authorization value and its value")
    behind = 18 + 2 + len(one.public())
    refused(digested(contents(41, [Counter(0x01800000, attributes=0x02000012)])), ATTRIBUTES, behind)
    refused(digested(contents(41, [Counter(0x01800000, attributes=0x02020012 | 1 << 30)])), ATTRIBUTES, behind)
    refused(digested(contents(41, [Counter(0x01800000, policy=bytes(31))])), SIZE, behind + 31)
    refused(digested(contents(41, [Counter(0x01800000, size=9)])), SIZE, behind)
    refused(digested(contents(41, [Counter(0x01800000, auth=b"\x01" * 33)])), SIZE, behind + 2 + 33)
    refused(digested(contents(41, [Counter(0x01800000, auth=b"\x01\x00")])), VALUE, behind + 2 + 2)
    refused(digested(contents(41, [Counter(0x01800000, attributes=0x02020012 | WRITTEN)])), VALUE, behind + 2)
    print("# counters beside one another")
    refused(digested(contents(41, [one, one])), NV_DEFINED, 18 + 2 * len(one.spelled()))
    refused(digested(contents(40, [one])), NV_RANGE, 18 + len(one.spelled()))
    print("# the digest, and what is behind it")
    refused(contents(41, [one]) + bytes(32), INTEGRITY, 18 + len(one.spelled()))
    refused(digested(contents(41, [one]))[:-1], INSUFFICIENT, 18 + len(one.spelled()))
    refused(digested(contents(41, [one])) + b"\x00", SIZE, 18 + len(one.spelled()) + 32)


def files(folder):
    def bound(index, value):
        return Counter(index, 0x020A001A, hash=0x000C, policy=bytes(range(48)), auth=48 * b"k", value=value)

    owner = Counter(0x01800001, value=7)
    keyed = Counter(0x01800002, attributes=0x02060016, hash=0x0004, auth=b"key")
    three = digested(contents(2**64 - 1, [owner, keyed, bound(0x01C00003, 2**64 - 1)]))
    for name, kept in {
        "none": digested(contents(0, [])),
        "three": three,
        "eight": digested(contents(0x01800007, [bound(n, n) for n in range(0x01800000, 0x01800008)])),
        "nine": digested(contents(9, 9 * [owner])),
        "version": digested(contents(7, [owner], version=2)),
        "twice": digested(contents(7, [owner, keyed, owner])),
        "above": digested(contents(6, [owner])),
        "plain": digested(contents(7, [Counter(0x01800001, attributes=0x02020002, value=7)])),
        "zero": digested(contents(7, [Counter(0x01800001, attributes=0x02020012 | WRITTEN)])),
        "cut": three[:-1],
        "longer": three + b"\0",
        "changed": three[:13] + bytes([three[13] ^ 1]) + three[14:],
        "empty": b"",
    }.items():
        pathlib.Path(folder, name + ".nv").write_bytes(kept)


files(sys.argv[1]) if sys.argv[1:] else rows()
