"""Captures of a network for the cases of `show --pcap`, by Python's struct, as tcpdump writes them (pcap-savefile(5))
and as Wireshark does (draft-ietf-opsawg-pcapng).

    python3 checks/packets.py FOLDER

Writes FOLDER/NAME.pcap for each. The client is 127.0.0.1, port 40000 or more, and the simulator 127.0.0.2, port 2321.
"""
import struct
import sys

STARTUP = bytes.fromhex("8001 0000000c 00000144 0000")
DONE = bytes.fromhex("8001 0000000a 00000000")
GET_RANDOM = bytes.fromhex("8001 0000000c 0000017b 0008")
EIGHT = bytes.fromhex("8001 00000014 00000000 0008 1122334455667788")
SYN = 0x02


def ip(to_tpm, fragment, packet):
    ends = "7f0000017f000002" if to_tpm else "7f0000027f000001"
    return struct.pack(">BBHHHBBH", 0x45, 0, 20 + len(packet), 1, fragment, 64, 6, 0) + bytes.fromhex(ends) + packet


def tcp(to_tpm, number, data, client=40000, flags=0x18, port=2321):
    ports = (client, port) if to_tpm else (port, client)
    return struct.pack(">HHIIBBHHH", *ports, number % 2**32, 0, 0x50, flags, 65535, 0, 0) + data


def to(number, data, client=40000, flags=0x18, fragment=0):
    return ip(True, fragment, tcp(True, number, data, client, flags))


def back(number, data, client=40000, flags=0x18):
    return ip(False, 0, tcp(False, number, data, client, flags))


def ip_version_6(to_tpm, packet):
    ends = [bytes(15) + b"\1", bytes(15) + b"\2"]
    return struct.pack(">IHBB", 0x60000000, len(packet), 6, 64) + b"".join(ends if to_tpm else ends[::-1]) + packet


def ether(packet):
    return bytes(12) + struct.pack(">H", 0x0800) + packet


def cooked(packet):
    return bytes(14) + struct.pack(">H", 0x0800) + packet


def savefile(link, packets, order="<", magic=0xA1B2C3D4, captured=65535):
    yield struct.pack(order + "IHHiIII", magic, 2, 4, 0, 0, captured, link)
    for number, packet in enumerate(packets):
        kept = packet[:captured]
        yield struct.pack(order + "IIII", number, 0, len(kept), len(packet)) + kept


def timed(packet, seconds, micros):
    return struct.pack("<IIII", seconds, micros, len(packet), len(packet)) + packet


def block(kind, body, order="<"):
    """A block of pcapng: its type, its length, what it tells, and its length again."""
    body += bytes(-len(body) % 4)
    length = struct.pack(order + "I", 12 + len(body))
    return struct.pack(order + "I", kind) + length + body + length


def section(order="<", version=1):
    return block(0x0A0D0D0A, struct.pack(order + "IHHq", 0x1A2B3C4D, version, 0, -1), order)


def option(code, value):
    return struct.pack("<HH", code, len(value)) + value + bytes(-len(value) % 4)


def interface(link, captured=0, order="<", options=b""):
    return block(1, struct.pack(order + "HHI", link, 0, captured) + options, order)


def enhanced(packet, interface=0, order="<", units=0):
    head = struct.pack(order + "IIIII", interface, units >> 32, units % 2**32, len(packet), len(packet))
    return block(6, head + packet, order)


def simple(packet, order="<", size=None):
    return block(3, struct.pack(order + "I", size or len(packet)) + packet, order)


def sent(command):
    """A command for mssim: TPM_SEND_COMMAND, locality 0, and the size before it."""
    return struct.pack(">IBI", 8, 0, len(command)), command


def given(response):
    """A response of mssim: its size, the response, and four bytes that end it."""
    return struct.pack(">I", len(response)), response, bytes(4)


def in_order(first, pieces, way):
    for piece in pieces:
        yield way(first, piece)
        first += len(piece)


OVER_MSSIM = [
    to(6, b"", flags=SYN),
    back(9, b"", flags=SYN),
    *in_order(7, sent(STARTUP), to),
    *in_order(10, given(DONE), back),
    to(7 + 9 + 12, struct.pack(">I", 20)),
]
SWTPM = [to(1, STARTUP), back(1, DONE), to(13, GET_RANDOM), back(11, EIGHT)]
VERSION_6 = [ip_version_6(True, tcp(True, 1, STARTUP)), ip_version_6(False, tcp(False, 1, DONE))]
WRAPPED = [to(2**32 - 4, STARTUP), back(1, DONE), to(8, STARTUP), back(11, DONE)]

FILES = {
    "swtpm": savefile(101, SWTPM),
    "mssim": savefile(1, map(ether, OVER_MSSIM), ">", 0xA1B23C4D),
    "cooked": savefile(113, map(cooked, SWTPM)),
    "wrapped": savefile(101, WRAPPED),
    "pieces": savefile(101, [to(1, STARTUP[:1]), to(2, STARTUP[1:]), back(1, DONE[:7]), back(8, DONE[7:] + EIGHT)]),
    "two": savefile(101, [to(1, STARTUP), back(1, DONE, 40001), to(1, STARTUP, 40001), back(11, DONE, 40001)]),
    "again": savefile(101, [to(1, STARTUP), to(1, STARTUP), back(1, DONE)]),
    "lost": savefile(101, [to(1, STARTUP), back(1, DONE), to(25, STARTUP), back(21, DONE), to(37, STARTUP),
                           back(31, DONE)]),
    "cut": savefile(101, [to(1, STARTUP), back(1, EIGHT), back(21, DONE)], captured=55),
    "fragment": savefile(101, [to(1, STARTUP, fragment=0x2000), back(1, DONE)]),
    "no_message": savefile(101, [to(1, b"GET / HTTP/1.1\r\n"), back(1, DONE)]),
    "unfinished": savefile(101, [to(1, STARTUP[:5]), to(1, STARTUP, 40001), back(1, DONE, 40001),
                                 to(13, b"\x80", 40001)]),
    "others": savefile(101, [ip(True, 0, struct.pack(">HH", 40000, 22) + bytes(16)), to(1, b""), to(1, STARTUP)]),
    "empty": savefile(101, []),
    "other_port": [
        *savefile(101, []),
        timed(ip(True, 0, tcp(True, 1, STARTUP, port=4321)), 1700000000, 123456),
        timed(ip(False, 0, tcp(False, 1, DONE, port=4321)), 1700000001, 7),
    ],
    "times": [
        *[section(), interface(101), interface(101, options=option(2, b"lo") + option(9, b"\x09") + option(0, b""))],
        *[interface(101, options=option(9, b"\x8a")), interface(101, options=option(9, b"\x14"))],
        interface(101, options=option(14, struct.pack("<q", 1)) + option(9, b"\x09")),
        interface(101, options=option(9, b"\x09") + option(14, struct.pack("<q", 1))),
        interface(101, options=option(9, b"") + option(2, b"lo")),
        *[enhanced(packet, number, units=5 * 10**12 + 1) for number, packet in enumerate(
            [to(1, STARTUP), back(1, DONE), to(13, STARTUP), back(11, DONE), to(25, STARTUP), back(21, DONE),
             to(37, STARTUP)])],
    ],
    "short": [next(savefile(101, []))[:23]],
    "no_capture": [bytes.fromhex("0a0d0d0a"), bytes(60)],
    "link": savefile(147, SWTPM),
    "ended": [*savefile(101, SWTPM[:2]), bytes(15)],
    # two sections, of which the second is in the other order and has a Name Resolution Block
    "blocks": [
        *[section(), interface(147), interface(101), enhanced(SWTPM[0], 1), enhanced(SWTPM[1], 1)],
        *[section(">"), block(4, bytes(4), ">"), interface(113, order=">"), interface(147, order=">")],
        *[enhanced(cooked(SWTPM[2]), order=">"), simple(cooked(SWTPM[3]), ">")],
    ],
    "interfaces": [
        *[section(), *[interface(147)] * 63, *[interface(101)] * 2],
        *[enhanced(SWTPM[0], 63), enhanced(SWTPM[1], 64), enhanced(SWTPM[1], 0), enhanced(SWTPM[1], 65)],
    ],
    "simple": [section(), interface(101, 51), simple(SWTPM[0]), simple(SWTPM[1]), simple(SWTPM[2][:48], size=52)],
    "length": [section(), interface(101), enhanced(SWTPM[0]), enhanced(SWTPM[1])[:-4], bytes(4), enhanced(SWTPM[1])],
    "version": [section(version=2), interface(101), enhanced(SWTPM[0])],
    "ended_block": [section(), interface(101), enhanced(SWTPM[0]), enhanced(SWTPM[1])[:-4]],
    "version_6": savefile(101, VERSION_6),
    # in a second section there is no interface of the first one
    "anew": [section(), interface(101), enhanced(SWTPM[0]), section(), enhanced(SWTPM[1])],
}
# Blocks that are malformed: a length that is no multiple of four, one below 12, and one that is not repeated; an
# interface and packets that don't fit; a section that doesn't fit, one of another magic, and one of major version 2.
MALFORMED = [
    struct.pack("<IIHI", 5, 14, 0, 14),
    struct.pack("<III", 5, 8, 8),
    struct.pack("<III", 5, 12, 16),
    block(1, bytes(4)),
    block(3, b""),
    block(6, struct.pack("<IIIII", 0, 0, 0, 1, 1)),
    block(0x0A0D0D0A, struct.pack("<IHHI", 0x1A2B3C4D, 1, 0, 0xFFFFFFFF)),
    block(0x0A0D0D0A, struct.pack("<IHHq", 0, 1, 0, -1)),
    section(version=2),
]
# Blocks of which the end is not there: of one, of one behind its head, and of a section behind its magic.
CUT = [struct.pack("<II", 5, 16), struct.pack("<III", 5, 16, 0), section()[:12]]
for kind, blocks in ("malformed", MALFORMED), ("cut_block", CUT):
    for number, last in enumerate(blocks, 1):
        FILES[f"{kind}_{number}"] = [section(), interface(101), enhanced(SWTPM[0]), last]


def main(folder):
    for name, parts in FILES.items():
        with open(f"{folder}/{name}.pcap", "wb") as file:
            file.write(b"".join(parts))


if __name__ == "__main__":
    main(sys.argv[1])
