#!/usr/bin/env python3
"""Writes the event logs beside this file, in the shapes that firmware writes, and the registers that they give.

    NAME.log        the log, after the PC Client Platform Firmware Profile, "Event Logging"
    NAME.registers  all registers after it, by hashlib, a line each as `tpmtool check` prints them
    faults.txt      for each log that is none: its name, the kind of its first fault, and how many bytes precede it
    NAME.secure     whether Secure Boot was on, as `tpmtool check --secure-boot` prints it
    NAME.verdicts   the same, as `tpmtool check --secure-boot --json` prints it

No value is read from the program. It writes the same bytes each time.
"""
import hashlib
import json
import os
import struct
import uuid

os.chdir(os.path.dirname(os.path.abspath(__file__)))

SIZES = {0x0004: 20, 0x000B: 32, 0x000C: 48, 0x000D: 64, 0x0012: 32, 0x0027: 32, 0x0028: 48, 0x0029: 64}
BANKS = {0x0004: ("sha1", hashlib.sha1), 0x000B: ("sha256", hashlib.sha256), 0x000C: ("sha384", hashlib.sha384)}
THREE = [0x0004, 0x000B, 0x000C]
FOUR = THREE + [0x000D]
EIGHT = [0x0012, 0x000D, 0x000C, 0x0027, 0x000B, 0x0028, 0x0004, 0x0029]

NO_ACTION, SEPARATOR, POST_CODE, CRTM_VERSION, CRTM_CONTENTS, IPL = 3, 4, 1, 8, 7, 13
VARIABLE, BLOB, SERVICES, HCRTM, GPT = 0x80000001, 0x80000008, 0x80000003, 0x80000010, 0x80000006
VARIABLE_BOOT, VARIABLE_BOOT2, OLDER_ACTION = 0x80000002, 0x8000000C, 5
BLOB2, HANDOFFS, HANDOFFS2, TAG = 0x8000000A, 0x80000009, 0x8000000B, 6
FIRMWARE, CONFIG, POLICY, DEVICE_AUTHORITY = 0x800000E1, 0x800000E2, 0x800000E3, 0x800000E4


def header(algorithms, vendor=b"", class_=0, version=(0, 2, 0, 2)):
    event = b"Spec ID Event03\0" + struct.pack("<I4BI", class_, *version, len(algorithms))
    event += b"".join(struct.pack("<HH", a, SIZES[a]) for a in algorithms)
    event += bytes([len(vendor)]) + vendor
    return struct.pack("<II", 0, NO_ACTION) + bytes(20) + struct.pack("<I", len(event)) + event


def digest(algorithm, data):
    if algorithm in BANKS:
        return BANKS[algorithm][1](data).digest()
    # A hash that is stepped over: any bytes do.
    return hashlib.shake_128(struct.pack("<H", algorithm) + data).digest(SIZES[algorithm])


class Log:
    """A log, and the registers that it gives."""

    def __init__(self, algorithms, **of_header):
        self.algorithms = algorithms
        self.bytes = header(algorithms, **of_header)
        self.registers = {
            (a, i): (b"\xff" if 17 <= i <= 22 else b"\0") * SIZES[a] for a in BANKS for i in range(24)
        }

    def record(self, register, kind, event, data=None, algorithms=None):
        """A record with the digests of the data, by hash or of all, which is the event where no other is given."""
        algorithms = self.algorithms if algorithms is None else algorithms
        data = event if data is None else data
        digests = [(a, digest(a, data[a] if isinstance(data, dict) else data)) for a in algorithms]
        self.bytes += struct.pack("<III", register, kind, len(digests))
        self.bytes += b"".join(struct.pack("<H", a) + d for a, d in digests)
        self.bytes += struct.pack("<I", len(event)) + event
        if kind != NO_ACTION:
            for a, d in digests:
                if a in BANKS:
                    self.registers[a, register] = BANKS[a][1](self.registers[a, register] + d).digest()
        return self

    def zeros(self, register, event=b""):
        """A record of EV_NO_ACTION, whose digests are zeros."""
        self.bytes += struct.pack("<III", register, NO_ACTION, len(self.algorithms))
        self.bytes += b"".join(struct.pack("<H", a) + bytes(SIZES[a]) for a in self.algorithms)
        self.bytes += struct.pack("<I", len(event)) + event
        return self

    def locality(self, locality):
        """The start-up locality, which register 0 then shows in its last byte, in each bank."""
        self.zeros(0, b"StartupLocality\0" + bytes([locality]))
        for a in BANKS:
            self.registers[a, 0] = bytes(SIZES[a] - 1) + bytes([locality])
        return self

    def write(self, name):
        with open(name + ".log", "wb") as file:
            file.write(self.bytes)
        with open(name + ".registers", "w") as file:
            for a in BANKS:
                for i in range(24):
                    file.write(f"{BANKS[a][0]} {i} {self.registers[a, i].hex()}\n")


def firmware(log):
    """What a platform measures up to its boot loader."""
    log.record(0, CRTM_VERSION, "1.0.0-f12\0".encode("utf-16-le"))
    log.record(0, BLOB, struct.pack("<QQ", 0xFFE00000, 0x40000), b"firmware volume")
    log.record(0, POST_CODE, b"ACPI DATA", b"tables")
    for name in ("SecureBoot", "PK", "KEK", "db", "dbx"):
        data = bytes(16) + struct.pack("<QQ", len(name), 1) + name.encode("utf-16-le") + b"\x01"
        log.record(7, VARIABLE, data)
    log.record(1, VARIABLE, b"BootOrder" + bytes(4))
    log.zeros(0xFFFFFFFF, b"SP800-155 Event\0" + bytes(20))
    for register in range(8):
        log.record(register, SEPARATOR, bytes(4))
    log.record(4, SERVICES, bytes(32) + b"\\EFI\\BOOT\\BOOTX64.EFI\0", b"boot loader")
    log.record(8, IPL, b"linux /vmlinuz root=/dev/vda1\0", b"linux /vmlinuz root=/dev/vda1")
    log.record(9, IPL, b"/vmlinuz\0", b"kernel")
    log.record(14, IPL, b"MokList\0", b"keys")
    return log


def worked():
    log = Log(THREE)
    log.bytes += struct.pack("<IIII", 0, NO_ACTION, 0, 0)
    return log.record(7, SEPARATOR, bytes(4))


def variable(name, value, units=None):
    """A variable of EFI_GLOBAL_VARIABLE: its name may be text or bytes, and may be counted wrongly."""
    guid = uuid.UUID("8be4df61-93ca-11d2-aa0d-00e098032b8c").bytes_le
    name = name.encode("utf-16-le") if isinstance(name, str) else name
    return guid + struct.pack("<QQ", len(name) // 2 if units is None else units, len(value)) + name + value


def said():
    """What the data of events say, and what they only seem to."""
    log = Log(THREE)
    for name, value in (("SecureBoot", b"\x01"), ("PK", bytes(range(40))), ("db", b"")):
        log.record(7, VARIABLE, variable(name, value))
    log.record(7, VARIABLE, variable("db", b"\x02"), b"what was measured is something else")
    log.record(7, VARIABLE, variable("past", b"\x01", units=6))
    log.record(7, VARIABLE, variable("greatest", b"\x01", units=2**64 - 1))
    log.record(7, VARIABLE, variable(b"a\0\x3d\xd8b\0", b"\x01"))
    log.record(7, VARIABLE, variable("\U0001f512 Schl\u00fcssel", b"\x01"))
    log.record(1, VARIABLE, variable("\x1b[2J\n\r\x7f\x9b\u202e\"\\", b"\x01"))
    log.record(1, VARIABLE, variable("", b""))
    for data in (bytes(4), b"\xff\xff\xff\xff", bytes(3)):
        log.record(5, SEPARATOR, data)
    log.record(5, GPT, b"EFI PART" + bytes(range(84)) + bytes(8))
    log.record(4, SERVICES, bytes(32) + b"\\EFI\\BOOT\\BOOTX64.EFI\0", b"boot loader")
    log.record(8, IPL, b'grub_cmd: echo "a \\ b"\0').record(8, IPL, b"\x1b]0;owned\x07\n").record(8, IPL, b"")
    log.record(0, CRTM_VERSION, "1.0\x1b[31m\n\0".encode("utf-16-le")).record(0, CRTM_VERSION, b"odd")
    # two digests of the data, and one of nothing
    log.record(9, IPL, b"half")
    log.bytes = log.bytes[: -8 - 48] + bytes(48) + log.bytes[-8:]
    log.registers[0x000C, 9] = hashlib.sha384(bytes(48) + bytes(48)).digest()
    return log


def halves():
    """Text in UTF-16 with halves of surrogate pairs that are without the other half, and pairs beside them."""
    log = Log(THREE)
    high, low, other, a = b"\x3d\xd8", b"\x12\xdd", b"\xff\xdb", b"a\0"
    alone = (high, low, a + high, high + a, a + low + a, low + high, high + high, high + other + low, high + low + low)
    pairs = (high + low, high + low + high + low, b"\0\xd8\0\xdc", b"\xff\xdb\xff\xdf", b"\xff\xd7\0\xe0\xfd\xff")
    # the first and the last of each kind, alone
    ends = (b"\0\xd8", b"\xff\xdb", b"\0\xdc", b"\xff\xdf", b"\xff\xdb\0\xe0", b"\xff\xd7\0\xdc")
    for name in alone + pairs + ends:
        log.record(7, VARIABLE, variable(name, b"\x01"))
    log.record(0, CRTM_VERSION, a + high + a).record(0, CRTM_VERSION, a + high + low)
    return log.record(7, SEPARATOR, bytes(4))


def measured():
    """What is measured of an event's data: all, a variable's value, the text behind GRUB's prefix, or all but a
    byte."""
    log = Log(THREE)
    order = variable("BootOrder", b"\1\0\0\0")
    log.record(1, VARIABLE_BOOT, order, b"\1\0\0\0").record(1, VARIABLE_BOOT2, order)
    log.record(7, AUTHORITY, variable("db", b"an entry") + b"\n", variable("db", b"an entry"))
    text = b"linux /vmlinuz root=/dev/vda1"
    for prefix in (b"grub_cmd: ", b"kernel_cmdline: ", b"module_cmdline: ", b"grub_cmd ", b"grub_kernel_cmdline "):
        log.record(8, IPL, prefix + text + b"\0", text).record(8, IPL, prefix + text + b"\0", text + b"\0")
    log.record(8, IPL, b"grub_cmd: " + text, text).record(8, IPL, b"grub_cmd: \0", b"")
    # a prefix of another type, one that is none, and one that is cut
    log.record(8, OLDER_ACTION, b"grub_cmd: " + text, text).record(8, IPL, b"grub_cmd:" + text, text)
    log.record(8, IPL, b"grub_cm", b"").record(8, IPL, b"MokList\0", b"MokList")
    log.record(9, IPL, b"/vmlinuz\0", b"kernel")
    # digests of two parts, of one bank alone, and none
    log.record(1, VARIABLE_BOOT, order, {0x0004: order, 0x000B: b"\1\0\0\0", 0x000C: b"something else"})
    log.record(8, IPL, b"grub_cmd: " + text, text, algorithms=[0x000B]).record(8, IPL, b"", algorithms=[])
    return log


def attested(shown=lambda event: event, kinds=None, added=False):
    """Each part of the data that may be measured, in registers of which some are quoted. What stands in the log may be
    other data or another type than what was measured, and records may be added in registers that are not quoted."""
    log = Log(THREE)

    def record(register, kind, event, data=None, **of_record):
        data = event if data is None else data
        log.record(register, (kinds or {}).get(kind, kind), shown(event), data, **of_record)

    def add(register, kind, event, **of_record):
        if added:
            log.record(register, kind, event, **of_record)

    log.locality(3)
    order, text = variable("BootOrder", b"\1\0\0\0"), b"linux /vmlinuz root=/dev/vda1"
    record(0, CRTM_VERSION, "1.0\0".encode("utf-16-le"))
    log.zeros(0xFFFFFFFF, b"SP800-155 Event\0" + bytes(20))
    record(1, VARIABLE_BOOT, order, b"\1\0\0\0")
    record(1, VARIABLE_BOOT, order, {0x0004: order, 0x000B: b"\1\0\0\0", 0x000C: b"something else"})
    add(5, GPT, b"EFI PART")
    record(7, AUTHORITY, variable("db", b"an entry") + b"\n", variable("db", b"an entry"))
    add(7, NO_ACTION, b"")
    record(4, SERVICES, loaded(file("\\EFI\\BOOT\\BOOTX64.EFI") + END), b"boot loader")
    record(8, IPL, b"grub_cmd: " + text + b"\0", text)
    record(8, IPL, b"grub_cmd: " + text, text, algorithms=[0x000B])
    add(8, IPL, b"grub_cmd: " + text, algorithms=[0x000C])
    record(9, IPL, b"/vmlinuz\0", b"kernel")
    add(9, IPL, b"kernel")
    return log


def node(kind, subtype, data=b""):
    """A node of a device path (UEFI Specification, "Generic Device Path Structures")."""
    return struct.pack("<BBH", kind, subtype, 4 + len(data)) + data


END, NEXT = node(0x7F, 0xFF), node(0x7F, 1)


def acpi(name, unique):
    """An ACPI device path of a hardware ID PNPxxxx."""
    return node(2, 1, struct.pack("<II", name << 16 | 0x41D0, unique))


def pci(device, function):
    return node(1, 1, bytes([function, device]))


def drive(number, start, size, format_, kind, signature):
    return node(4, 1, struct.pack("<IQQ16sBB", number, start, size, signature, format_, kind))


def file(name):
    return node(4, 4, (name + "\0").encode("utf-16-le", "surrogatepass"))


def loaded(path, length=None, address=0x7E5D3000, size=0x123000, link=0x180000000):
    """UEFI_IMAGE_LOAD_EVENT, whose path may be counted wrongly."""
    return struct.pack("<QQQQ", address, size, link, len(path) if length is None else length) + path


def images():
    """Images by their device paths, and data that are no image or no path."""
    guid = uuid.UUID("c12a7328-f81f-11d2-ba4b-00a0c93ec93b").bytes_le
    other = uuid.UUID("00112233-4455-6677-8899-aabbccddeeff").bytes_le
    mbr = struct.pack("<I", 0x0234ABCD) + bytes(range(12))
    log = Log([0x000B])

    def image(*nodes, register=2, kind=SERVICES, end=END, **of_event):
        log.record(register, kind, loaded(b"".join(nodes) + end, **of_event), b"the image")

    boot = file("\\EFI\\BOOT\\BOOTX64.EFI")
    image(acpi(0x0A03, 0), pci(1, 0), drive(1, 0x800, 0x100000, 2, 2, guid), boot, register=4)
    image(acpi(0x0A08, 0x1F), pci(0x1F, 7), drive(2, 0, 2**64 - 1, 1, 1, mbr), file("a"), address=0, size=0, link=0)
    image(drive(2**32 - 1, 63, 1, 1, 0, bytes(16)), address=2**64 - 1, size=2**64 - 1, link=2**64 - 1)
    image(node(4, 7, guid), node(4, 6, other), kind=SERVICES + 1)
    image(acpi(0x0604, 0), acpi(0x0301, 1), acpi(0x0501, 10), acpi(0x0401, 2**32 - 1), kind=SERVICES + 2)
    image(acpi(0x0C02, 1), node(2, 1, struct.pack("<II", 0x0002, 0x12345678)))
    image(node(1, 4, guid), node(3, 10, other + b"\1\xff"), node(4, 3, guid + b"\0"))
    image(acpi(0x0A03, 0), pci(2, 0), NEXT, acpi(0x0A03, 1), NEXT, NEXT, boot)
    image(file("\x1b[2J\n\x7f\x9b\u202e\"\\/"), file("\ud83d"), file("\U0001f512"), file("a\0b"), node(4, 4, b"a\0"))
    image(node(3, 99, b"\1\2"), node(5, 1, bytes(5)), node(0, 0), node(255, 255, b"\xff"), node(0x7F, 2),
          node(0x7F, 1, b"\0"))
    # of other sizes than these nodes have, and of other subtypes
    image(node(1, 1, b"\0"), node(1, 1, bytes(3)), node(1, 4, bytes(15)), node(1, 2, bytes(2)), node(2, 1, bytes(7)))
    image(node(2, 1, bytes(12)), node(2, 2, bytes(8)), node(3, 10, bytes(15)), node(3, 1, bytes(16)),
          node(4, 1, bytes(37)))
    image(node(4, 3, bytes(15)), node(4, 6, bytes(15)), node(4, 7, bytes(17)), node(4, 4, b"abc"), node(4, 4),
          node(4, 5))
    image()
    image(end=b"")
    log.record(2, GPT, loaded(boot + END))
    # what is no image, and what is no path
    log.record(2, SERVICES, loaded(b"")[:31]).record(2, SERVICES, b"")
    image(boot, length=len(boot) + 5)
    image(boot, length=len(boot) + 3)
    image(length=2**64 - 28)
    image(boot, end=b"")
    image(boot, end=END[:3])
    image(boot, end=END + b"\0")
    image(boot, end=END + END)
    image(boot, end=NEXT)
    image(boot, end=b"\x7f\xff\5\0\0")
    image(boot[:2] + b"\3" + boot[3:])
    image(boot[:2] + b"\0" + boot[3:])
    image(boot[:3] + b"\1" + boot[4:])
    return log


def messages():
    """Images by the messaging nodes of their device paths, by a CD-ROM and by a part of a firmware volume."""
    log = Log([0x000B])
    here, there = bytes([192, 0, 2, 1]), bytes([198, 51, 100, 255])
    near, far = bytes.fromhex("20010db8000000000000000000c0ffee"), bytes.fromhex("fe80000000000000021122fffe334455")

    def image(*nodes):
        log.record(4, SERVICES, loaded(acpi(0x0A03, 0) + pci(1, 0) + b"".join(nodes) + END), b"the image")

    def v4(protocol, static, gateway=b""):
        return node(3, 12, here + there + struct.pack("<HHHB", 68, 80, protocol, static) + gateway)

    def v6(protocol, origin, gateway=b""):
        return node(3, 13, near + far + struct.pack("<HHHB", 546, 443, protocol, origin) + gateway)

    # disks and busses
    image(node(3, 2, struct.pack("<HH", 2, 0x1234)), node(3, 5, b"\3\0"), node(3, 5, b"\x10\xff"))
    image(node(3, 18, struct.pack("<HHH", 0, 0xFFFF, 1)), node(3, 18, struct.pack("<HHH", 0xABCD, 0x8001, 0)))
    image(node(3, 23, struct.pack("<I", 1) + bytes.fromhex("0025385b71b14b37")), node(3, 23, b"\xff" * 4 + bytes(8)))
    # networks
    image(node(3, 11, bytes.fromhex("525400123456") + bytes(26) + b"\1"), v4(17, 0), v6(6, 1))
    image(node(3, 11, bytes(range(0xE0, 0x100)) + b"\x20"), node(3, 11, bytes(32) + b"\0"),
          node(3, 11, bytes(32) + b"\2"))
    image(v4(6, 1, there + here), v4(1, 2, bytes(4) + b"\xff" * 4), v6(17, 0, b"\x40" + far),
          v6(0xFFFF, 2, b"\0" + bytes(16)))
    image(v6(58, 3), node(3, 24, b"https://boot.example/a%20b?c=d"), node(3, 24),
          node(3, 24, b"\x1b[2J \"\\\x7f\x9b\n"))
    # media
    image(node(4, 2, struct.pack("<IQQ", 1, 0x1A5, 0x4000)), node(4, 2, b"\xff" * 20))
    image(node(4, 8, struct.pack("<IQQ", 0xFFFFFFFF, 0x3A90, 0x1CB8F)), node(4, 8, bytes(4) + b"\xff" * 16))
    # of a byte less and of a byte more than these nodes have
    for subtype, *sizes in (2, 4), (5, 2), (11, 33), (12, 15, 23), (13, 39, 56), (18, 6), (23, 12):
        image(*(node(3, subtype, bytes(size + more)) for size in sizes for more in (-1, 1)))
    image(*(node(4, subtype, bytes(20 + more)) for subtype in (2, 8) for more in (-1, 1)))
    # the numbers of the subtypes in another type
    image(*(node(kind, subtype, bytes(size))
            for kind in (1, 2, 5) for subtype, size in ((2, 4), (5, 2), (18, 6), (24, 3))))
    return log


def firmware_parts():
    """Parts of the firmware's code by their data, and data that are none."""
    log = Log([0x000B])

    def part(kind, name, base, size, length=None):
        """UEFI_PLATFORM_FIRMWARE_BLOB, or UEFI_PLATFORM_FIRMWARE_BLOB2, whose description may be counted wrongly."""
        described = b"" if name is None else bytes([len(name) if length is None else length]) + name
        log.record(0, kind, described + struct.pack("<QQ", base, size), b"the code")

    part(BLOB, None, 0xFF000000, 0x80000)
    part(BLOB, None, 2**64 - 1, 2**64 - 1)
    part(BLOB2, b"FVMAIN\0", 0xFFC40000, 0x3C0000)
    part(BLOB2, b"", 0, 0)
    part(BLOB2, b"\0", 1, 10)
    part(BLOB2, b'a "part" \\ of\x1b\n\x7f\x9b\xff\0\0', 0xABCDEF, 1)
    part(BLOB2, bytes(range(255)), 2**63, 2**63)
    part(POST_CODE, None, 0x820000, 0xE0000)
    part(POST_CODE, b"POST CODE", 0x820000, 0xE0000)
    part(CRTM_CONTENTS, None, 0xFFF00000, 0x100000)
    part(CRTM_CONTENTS, b"Boot Guard Measured S-CRTM\0", 0xFFF00000, 0x100000)
    # what is none, and what is text
    log.record(0, BLOB, bytes(15)).record(0, BLOB, bytes(17)).record(0, BLOB2, bytes(16)).record(0, BLOB2, b"")
    part(BLOB2, b"name", 1, 2, length=3)
    part(BLOB2, b"name", 1, 2, length=5)
    part(CRTM_CONTENTS, b"name", 1, 2, length=5)
    log.record(0, POST_CODE, b"ACPI DATA in all").record(0, POST_CODE, b"ACPI DATA")
    log.record(0, CRTM_CONTENTS, b"contents")
    log.record(0, BLOB + 0x100, bytes(16))
    return log


def handoffs():
    """Tables that firmware hands to the system, and data that are none."""
    log = Log([0x000B])

    def tables(kind, name, *entries, count=None, length=None, behind=b""):
        """UEFI_HANDOFF_TABLE_POINTERS, or UEFI_HANDOFF_TABLE_POINTERS2; what is counted may be counted wrongly."""
        described = b"" if name is None else bytes([len(name) if length is None else length]) + name
        data = described + struct.pack("<Q", len(entries) if count is None else count)
        data += b"".join(uuid.UUID(guid).bytes_le + struct.pack("<Q", address) for guid, address in entries)
        log.record(1, kind, data + behind, b"the tables")

    acpi_2, unknown = "8868e871-e4f1-11d3-bc22-0080c73c8881", "00112233-4455-6677-8899-aabbccddeeff"
    tables(HANDOFFS, None, ("f2fd1544-9794-4a2c-992e-e5bbcf20e394", 0x7F6C0000))
    tables(HANDOFFS, None, (acpi_2, 0x7F7FE014), (unknown, 2**64 - 1), (acpi_2, 0))
    tables(HANDOFFS, None)
    # UEFI Specification, "Industry Standard Configuration Tables" and those behind it
    last = "9a16-0090273fc14d"
    tables(
        HANDOFFS2,
        b"Tables\0",
        *((f"eb9d2d{n:02x}-2d88-11d3-{last}", n) for n in (0x2F, 0x30, 0x31, 0x32, 0x33)),
        ("b1b621d5-f19c-41a5-830b-d9152c69aae0", 1),
        ("eb66918a-7eef-402a-842e-931d21c38ae9", 2),
        ("dcfa911d-26eb-469f-a220-38b7dc461220", 3),
        ("36122546-f7e7-4c8f-bd9b-eb8525b50c0b", 4),
    )
    tables(HANDOFFS2, b"", (unknown, 0x10))
    tables(HANDOFFS2, b"")
    tables(HANDOFFS2, b'"SMBIOS" \\\x1b\xe9', ("eb9d2d31-2d88-11d3-9a16-0090273fc14d", 0xF0000))
    # what is none
    log.record(1, HANDOFFS, bytes(7)).record(1, HANDOFFS2, b"").record(1, HANDOFFS2, bytes(8))
    tables(HANDOFFS, None, (unknown, 1), count=2)
    tables(HANDOFFS, None, (unknown, 1), count=0)
    tables(HANDOFFS, None, (unknown, 1), behind=b"\0")
    tables(HANDOFFS, None, count=2**64 - 1)
    tables(HANDOFFS2, b"name", (unknown, 1), length=3)
    tables(HANDOFFS2, b"name", (unknown, 1), length=40)
    return log


def tags():
    """Events of operating systems, and text of loaders in UTF-16, and data that are neither."""
    log = Log([0x000B])

    def tag(number, data, length=None):
        """TCG_PCClientTaggedEvent, whose data may be counted wrongly."""
        log.record(12, TAG, struct.pack("<II", number, len(data) if length is None else length) + data)

    line = "initrd=\\initrd.img root=\"LABEL=a b\" quiet"
    tag(0x8F3B22ED, bytes.fromhex("00ff7f"))
    tag(0x8F3B22EC, b"loader.conf\0")
    tag(0x13F7C7A9, (line + "\0").encode("utf-16-le"))
    tag(0, b"")
    tag(1, b"\0")
    tag(2**32 - 1, b"a")
    tag(2, "ab\xe9".encode("utf-16-le"))
    tag(3, b"a\0b\0")
    tag(4, b"\0\0")
    tag(5, b"caf\xc3\xa9")
    log.record(12, IPL, (line + "\0").encode("utf-16-le")).record(12, IPL, "no zero".encode("utf-16-le"))
    # what is neither
    tag(6, b"abc", length=2)
    tag(7, b"abc", length=4)
    tag(8, b"", length=2**32 - 1)
    log.record(12, TAG, bytes(7)).record(12, TAG, b"")
    log.record(12, IPL, b"\0\0").record(12, IPL, "a\xe9".encode("utf-16-le")).record(12, IPL, b"a\0b")
    log.record(12, POST_CODE, "units".encode("utf-16-le"))
    return log


def partitions():
    """Partitions of disks, and data that are none."""
    log = Log([0x000B])
    disk = uuid.UUID("3e8f1a2b-4c5d-6e7f-8091-a2b3c4d5e6f7")
    system = uuid.UUID("c12a7328-f81f-11d2-ba4b-00a0c93ec93b")
    linux = uuid.UUID("0fc63daf-8483-4772-8e79-3d69d8477de4")
    own = uuid.UUID("00112233-4455-6677-8899-aabbccddeeff")

    def entry(kind, first, last, name, attributes=0, size=128):
        """EFI_PARTITION_ENTRY (UEFI Specification, "GPT Partition Entry Array")."""
        name = name.encode("utf-16-le", "surrogatepass").ljust(72, b"\0")
        return (kind.bytes_le + own.bytes_le + struct.pack("<QQQ", first, last, attributes) + name).ljust(size, b"\xee")

    def table(*entries, count=None, size=128, signature=b"EFI PART", behind=b""):
        """UEFI_GPT_DATA (UEFI Specification, "GPT Header"), whose entries may be counted wrongly."""
        data = struct.pack("<8sIIIIQQQQ", signature, 0x10000, 92, 0, 0, 1, 0x3FFFFF, 34, 0x3FFFDE) + disk.bytes_le
        data += struct.pack("<QIII", 2, 128, size, 0) + struct.pack("<Q", len(entries) if count is None else count)
        log.record(5, GPT, data + b"".join(entries) + behind)

    first = entry(system, 0x800, 0x1007FF, "EFI System")
    table(first, entry(linux, 0x100800, 0x3FFFDE, "root", attributes=1 << 60))
    table()
    table(entry(system, 0, 2**64 - 1, 'a "name" \\ of\x1b\n\x9b\u202e\U0001f512', attributes=2**64 - 1))
    table(entry(uuid.UUID(int=0), 1, 1, ""), entry(linux, 2, 3, "x" * 36), entry(linux, 4, 5, "half \ud83d"))
    table(entry(system, 6, 7, "behind\0it"), entry(linux, 8, 9, "second", size=128))
    table(entry(system, 10, 11, "larger", size=256), entry(linux, 12, 13, "entries", size=256), size=256)
    # what is none
    table(first, signature=b"EFI PARt")
    table(first[:127], size=127)
    table(first, count=2)
    table(first, count=0)
    table(first, behind=b"\0")
    table(count=2**64 - 1)
    table(size=0)
    log.record(5, GPT, bytes(99)).record(5, GPT, b"")
    return log


def devices():
    """What devices say of themselves by SPDM, data that are not that, and the variables of such devices."""
    log = Log([0x000B])
    context = struct.pack("<HHHHB3sHH", 0, 16, 0x8086, 0x1234, 2, b"\x00\x02\x01", 0x1028, 0xABCD)
    path = acpi(0x0A03, 0) + pci(28, 0) + END

    def block(value, specification=1, kind=1, size=None, whole=None):
        """A measurement block of DSP0274, whose sizes may be wrong."""
        measured = (struct.pack("<BH", kind, len(value) if size is None else size) + value
                    if specification % 2 else value)
        return struct.pack("<BBH", 1, specification, len(measured) if whole is None else whole) + measured

    def first(block, context=context, kind=FIRMWARE, more=0, version=1, signature=b"SPDM Device Sec\0", type_=1):
        data = struct.pack("<II", 1, type_) + block + context
        log.record(2, kind, signature + struct.pack("<HH", version, 20 + len(data) + more) + data)

    def second(header, path=path, context=context, kind=FIRMWARE, more=0, version=2, header_size=None, path_size=None,
               **of_head):
        head = dict(state=0, type_=1, header_type=0, uid=0x0123456789ABCDEF) | of_head
        sizes = len(header) if header_size is None else header_size, len(path) if path_size is None else path_size
        data = (struct.pack("<IIIQQ", head["type_"], head["header_type"], sizes[0], head["uid"], sizes[1])
                + path + header + context)
        numbers = struct.pack("<HBBI", version, head["state"], 0, 24 + len(data) + more)
        log.record(2, kind, b"SPDM Device Sec2" + numbers + data)

    first(block(bytes(range(32))))
    first(block(bytes(range(48)), kind=0x81), context=struct.pack("<HH", 0, 4), kind=CONFIG, type_=2)
    first(block(b"raw", specification=2), context=b"", type_=0)
    first(block(b"", specification=0), context=b"")
    first(block(b""), context=b"")
    second(struct.pack("<HBBI", 0x12, 1, 0, 2) + block(bytes(range(48))))
    second(struct.pack("<HBBI", 0x11, 0, 0, 4) + b"chain", header_type=1, state=1, uid=0, kind=CONFIG)
    second(b"", path=b"", context=b"", state=0xFF, type_=0, header_type=2, uid=2**64 - 1)
    second(b"", path=file("\x1b\"") + END)
    # what is neither
    first(block(b"v", size=2))
    first(block(b"v", whole=3))
    first(block(b"v", whole=2), context=b"")
    first(block(b"v", whole=5), context=b"")
    first(block(b"v"), more=1)
    first(block(b"v"), version=2)
    first(block(b"v"), signature=b"SPDM Device Sec ")
    first(b"\1\2\0", context=b"")
    first(block(b"v"), kind=TAG)
    second(b"header", more=2**32 - 200)
    second(b"header", version=1)
    second(b"header", header_size=7, context=b"")
    second(b"", path_size=len(path) + 1, context=b"")
    second(b"", path_size=2**64 - 1)
    second(b"header", path=path[:-1])
    second(b"header", path=pci(0, 0))
    log.record(2, FIRMWARE, b"SPDM Device Sec2\2\0" + bytes(33)).record(2, CONFIG, b"SPDM Device Sec\0\1")
    log.record(2, CONFIG, b"")
    # as EV_EFI_VARIABLE_DRIVER_CONFIG and EV_EFI_VARIABLE_AUTHORITY have them
    log.record(6, POLICY, variable("devdb", b"lists"))
    log.record(6, DEVICE_AUTHORITY, variable("devdb", b"\1" * 16 + b"owned"))
    log.record(6, POLICY, b"devdb").record(6, DEVICE_AUTHORITY, variable("devdb", b"lists") + b"\0")
    return log


def boot_variables():
    """Variables that tell what the firmware starts, and variables that don't."""
    log = Log([0x000B])
    guid = uuid.UUID("c12a7328-f81f-11d2-ba4b-00a0c93ec93b").bytes_le
    disk = drive(1, 0x800, 0x100000, 2, 2, guid)

    def held(name, value, guid=GLOBAL, kind=VARIABLE_BOOT):
        log.record(1, kind, efi_variable(guid, name, value), value)

    def option(name, text, path, value=b"", attributes=1, length=None, **of_variable):
        """EFI_LOAD_OPTION (UEFI Specification, "Load Options"), whose path may be counted wrongly."""
        data = struct.pack("<IH", attributes, len(path) if length is None else length)
        held(name, data + (text + "\0").encode("utf-16-le", "surrogatepass") + path + value, **of_variable)

    held("BootOrder", struct.pack("<4H", 1, 0, 0x1A, 0xFFFF))
    held("BootOrder", struct.pack("<H", 0xABCD), kind=VARIABLE_BOOT2)
    held("BootOrder", b"")
    option("Boot0001", "ubuntu", disk + file("\\EFI\\ubuntu\\shimx64.efi") + END)
    option("Boot0000", "UEFI QEMU DVD-ROM", acpi(0x0A03, 0) + pci(0x1F, 2) + END,
           bytes.fromhex("4eac0881119f594d850ee21a522c59b2"))
    option("Boot001A", 'a "name" \\ of\x1b\u202e\U0001f512', file("a b") + END, attributes=2**32 - 1,
           kind=VARIABLE_BOOT2)
    option("BootFFFF", "", b"", attributes=0)
    option("Boot0002", "half \ud83d", file("\ud83d") + END, b"\0")
    option("Boot0003", "several", pci(2, 0) + NEXT + pci(3, 0) + END, kind=VARIABLE)
    # what is none, by its name, by its GUID and by its value
    option("Boot001a", "of lower case", END)
    option("Boot00010", "of five digits", END)
    option("Driver0001", "a driver", END)
    option("Boot0001", "of another GUID", END, guid=bytes(16))
    held("BootOrder", b"\1\0\2")
    held("BootOrder", b"\1\0", guid=bytes(16))
    held("BootOrders", b"\1\0")
    held("Boot0001", bytes(5))
    held("Boot0001", struct.pack("<IH", 1, 0) + "no zero".encode("utf-16-le"))
    option("Boot0001", "of a longer path", END, length=5)
    # whose path has a fault
    option("Boot0001", "without an end", pci(2, 0))
    option("Boot0001", "of a shorter path", disk + END, length=len(disk))
    log.record(1, IPL, efi_variable(GLOBAL, "BootOrder", b"\1\0"))
    return log


def characters():
    """Texts of loaders beyond ASCII: controls and signs that turn the direction, characters of two to four bytes; and
    bytes that are no UTF-8: overlong, a surrogate, beyond the last character, cut, and with a control."""
    log = Log([0x000B])
    for text in ("\u009b2J", "\u202eexe.txt", "\u20ac \u65e5\u672c", "\U0001f512\U0010ffff\ud7ff\ue000", '\\\u00e9"\0'):
        log.record(8, IPL, text.encode())
    for wrong in ("c0af", "e080af", "eda080", "f4908080", "6180", "c3", "c3a97f"):
        log.record(8, IPL, bytes.fromhex(wrong))
    return log


def facts():
    """What a boot tells: a locality, separators, versions, texts of loaders, values of one byte and of none, further
    paths of load options, what old shims have behind an image's path, and authorities."""
    log = Log([0x000B]).locality(3)
    for version in (uuid.UUID("12345678-9abc-def0-1122-334455667788").bytes_le, "BIOS 1.0".encode("utf-16-le")):
        log.record(0, CRTM_VERSION, version)
    for number in (0, 1, 0xFFFFFFFF, 0x12345678):
        log.record(7, SEPARATOR, struct.pack("<I", number))
    for text in ("a\tb\r\nc\n", "ro quiet", "loader.conf\0", "Schl\u00fcssel", "\x1b[2J"):
        log.record(8, IPL, text.encode()).record(8, IPL, text.encode("utf-16-le") + bytes(4))
    for name, value in (("SecureBoot", b"\1"), ("SecureBoot", b"\0"), ("SecureBoot", b""), ("SetupMode", b"\xff")):
        log.record(7, VARIABLE, efi_variable(GLOBAL, name, value))
    of_owner = bytes(range(16)) + b"a certificate"
    for guid, name, value in ((DATABASE, "db", of_owner), (DATABASE, "dbx", bytes(16)), (DATABASE, "db", bytes(15)),
                              (DATABASE, "db", b"\1"), (DATABASE, "other", of_owner), (GLOBAL, "KEK", of_owner),
                              (SHIM, "MokList", of_owner), (SHIM, "MokListRT", of_owner), (SHIM, "Shim", of_owner)):
        log.record(7, AUTHORITY, efi_variable(guid, name, value))
    boot = file("\\EFI\\BOOT\\BOOTX64.EFI") + END
    head = struct.pack("<IH", 1, 0)[:4]
    for paths in (boot * 2, boot + pci(2, 0) + END + END, boot + pci(2, 0), boot + b"\0"):
        option = head + struct.pack("<H", len(paths)) + "several\0".encode("utf-16-le") + paths + b"own"
        log.record(1, VARIABLE_BOOT, efi_variable(GLOBAL, "Boot0001", option))
    for rest in (bytes(8), b"\x7f\xff\4\0\0\0\0\0\1"):
        log.record(4, SERVICES, loaded(boot) + rest, b"the image")
    return log


def accepted():
    worked().write("worked")
    Log(THREE).write("header_alone")
    firmware(Log(FOUR, class_=1)).write("four_algorithms")
    firmware(Log(FOUR, vendor=bytes(range(255))).locality(3)).write("locality_three")
    log = Log(THREE).locality(4).record(0, HCRTM, b"HCRTM", b"measured by hardware").record(0, SEPARATOR, bytes(4))
    log.write("locality_four")
    # an event of 17 bytes with another name is none of locality
    Log(THREE).zeros(0, b"StartupLocalitz\0\x03").zeros(1, b"StartupLocality\0\x03").locality(0).write("locality_zero")

    log = Log(THREE)
    for i in range(100):
        log.record(i % 17, SEPARATOR, bytes(4))
        if i % 10 == 0:
            log.zeros(i % 24, bytes(i))
    log.write("hundred_separators")

    log = Log(THREE)
    log.record(23, IPL, b"turned", algorithms=THREE[::-1]).record(23, IPL, b"two", algorithms=[0x000C, 0x0004])
    log.record(23, IPL, b"one", algorithms=[0x000B]).record(23, IPL, b"none", algorithms=[])
    log.write("fewer_and_in_other_order")

    log = firmware(Log(EIGHT))
    log.record(16, IPL, b"unknown hashes alone", algorithms=[0x0029, 0x0027, 0x0012])
    log.write("eight_algorithms")

    # each type of a record that has a name, and two that have none
    log = Log([0x000B])
    for kind in (*range(0x13), *range(0x80000000, 0x8000000E), 0x80000010, *range(0x800000E0, 0x800000E6),
                 0x13, 0xA0000001):
        log.record(16, kind, struct.pack("<I", kind))
    log.write("every_type")

    said().write("said")
    halves().write("halves")
    measured().write("measured")
    images().write("images")
    messages().write("messages")
    firmware_parts().write("firmware_parts")
    handoffs().write("handoffs")
    tags().write("tags")
    partitions().write("partitions")
    devices().write("devices")
    boot_variables().write("boot_variables")
    facts().write("facts")
    characters().write("characters")

    # The registers that are quoted of the first have the same values in all.
    attested().write("attested")
    others = {b"an entry": b"no entry", b"/vmlinuz": b"/vmlinux", b"1\0.\0": b"2\0.\0", b"\1\0\0\0": b"\2\0\0\0"}
    attested(lambda event: next((event.replace(*of) for of in others.items() if of[0] in event), event)).write(
        "attested_changed")
    attested(kinds={CRTM_VERSION: POST_CODE, VARIABLE_BOOT: TAG, IPL: OLDER_ACTION}).write("attested_relabelled")
    attested(added=True).write("attested_added")

    # SHA-512 alone: no bank is extended
    Log([0x000D]).record(0, SEPARATOR, bytes(4)).write("no_bank")


def faults():
    rows = []

    def fault(name, log, kind, at):
        with open(name + ".log", "wb") as file:
            file.write(log)
        rows.append(f"{name} {kind} {at}\n")

    k = worked().bytes
    assert len(k) == 215

    def with_(log, at, text):
        return log[:at] + bytes.fromhex(text) + log[at + len(text) // 2 :]

    fault("empty", b"", "Truncated", 0)
    fault("cut_by_a_byte", k[:-1], "Truncated", 211)
    fault("cut_in_the_header", k[:50], "Truncated", 32)
    fault("greatest_event_size", with_(k, 207, "ffffffff"), "TooLong", 211)
    fault("older_form", struct.pack("<II", 0, CRTM_VERSION) + bytes(24), "NotCryptoAgile", 4)
    fault("header_at_register_1", with_(k, 0, "01"), "NotCryptoAgile", 0)
    fault("header_with_a_digest", with_(k, 27, "01"), "NotCryptoAgile", 8)
    fault("older_signature", with_(k, 46, "32"), "NotCryptoAgile", 32)
    fault("no_algorithm", with_(k, 56, "00"), "BadHeader", 56)
    fault("nine_algorithms", with_(k, 56, "09"), "BadHeader", 56)
    fault("header_too_short", with_(k, 28, "28"), "BadHeader", 72)
    fault("header_too_long", with_(k, 28, "2a"), "BadHeader", 73)
    fault("vendor_past_the_header", with_(k, 72, "01"), "BadHeader", 73)
    fault("listed_twice", with_(k, 64, "0400"), "DuplicateAlgorithm", 64)
    fault("digest_size_of_a_bank", with_(k, 70, "2f00"), "WrongDigestSize", 70)
    fault("digest_size_0", with_(k, 68, "0d000000"), "WrongDigestSize", 70)
    fault("digest_size_65", with_(k, 68, "0d004100"), "WrongDigestSize", 70)
    fault("unlisted_digest", with_(k, 101, "0d00"), "UnknownAlgorithm", 101)
    fault("repeated_digest", with_(k, 123, "0400"), "RepeatedDigest", 123)
    fault("fourth_digest", with_(k, 97, "04"), "RepeatedDigest", 207)
    fault("register_17", with_(k, 89, "11"), "BadRegister", 89)
    fault("register_24", with_(k, 89, "18"), "BadRegister", 89)
    start = struct.pack("<IIII", 0, NO_ACTION, 0, 17) + b"StartupLocality\0"
    fault("locality_two", k[:73] + start + b"\x02" + k[89:], "BadLocality", 89)
    fault("locality_twice", k[:73] + (start + b"\x03") * 2 + k[89:], "LateLocality", 122)
    late = Log(THREE).record(0, SEPARATOR, bytes(4)).bytes
    fault("locality_behind_an_extend", late + start + b"\x03", "LateLocality", len(late) + 16)

    with open("faults.txt", "w") as file:
        file.writelines(rows)


DRIVER_CONFIG, ACTION, AUTHORITY = 0x80000001, 0x80000007, 0x800000E0
GLOBAL = uuid.UUID("8be4df61-93ca-11d2-aa0d-00e098032b8c").bytes_le
DATABASE = uuid.UUID("d719b2cb-3d3a-4596-a3bc-dad00e67656f").bytes_le
SHIM = uuid.UUID("605dab50-e046-4300-abb6-3dd810dd8b23").bytes_le
DEVICES = uuid.UUID("b9c2b4f4-bf5f-462d-8adf-c5c70ac35dad").bytes_le


def efi_variable(guid, name, value):
    return guid + struct.pack("<QQ", len(name), len(value)) + name.encode("utf-16-le") + value


# The types of signatures that the UEFI Specification names ("Signature Database").
TYPES = {
    "EFI_CERT_X509_GUID": "a5c059a1-94e4-4aa7-87b5-ab155c2bf072",
    "EFI_CERT_SHA256_GUID": "c1c41626-504c-4092-aca9-41f936934328",
    "EFI_CERT_X509_SHA256_GUID": "3bd2a492-96c0-4079-b420-fcf98ef103ed",
    "EFI_CERT_X509_SHA384_GUID": "7076876e-80c2-4ee6-aad2-28b349a6865b",
    "EFI_CERT_X509_SHA512_GUID": "446dbf63-2502-4cda-bcfa-2465d2b0fe9d",
    "EFI_CERT_SHA1_GUID": "826ca512-cf10-4ac9-b187-be01496631bd",
    "EFI_CERT_SHA224_GUID": "0b6e5233-a65c-44c9-9407-d9ab83bfc8bd",
    "EFI_CERT_SHA384_GUID": "ff3e5307-9fd0-48c9-85f1-8ad56c701e01",
    "EFI_CERT_SHA512_GUID": "093e0fae-a6c4-4f50-9f1b-d41e2b89c19a",
    "EFI_CERT_RSA2048_GUID": "3c5766e8-269c-4e34-aa14-ed776e85b3b6",
    "EFI_CERT_RSA2048_SHA1_GUID": "67f8444f-8743-48f1-a328-1eaab8736080",
    "EFI_CERT_RSA2048_SHA256_GUID": "e2b36190-879b-4a3d-ad8d-f2e7bba32784",
}


def signatures(guid, *of_each, header=b"", size=None):
    """A list of signatures of this type, whose data have these bytes each."""
    size = 16 + len(of_each[0]) if size is None else size
    body = header + b"".join(DATABASE + data for data in of_each)
    return uuid.UUID(guid).bytes_le + struct.pack("<III", 28 + len(body), len(header), size) + body


def entries(value):
    """How many signatures a content has, in all and of each type, or its first fault."""
    names = {uuid.UUID(guid): name for name, guid in TYPES.items()}
    counts = {"count": 0, **dict.fromkeys(TYPES, 0), "other": 0}
    at = 0
    while at < len(value):
        left = len(value) - at
        if left < 28:
            return {"fault": "Truncated", "at": at}
        whole, header, size = struct.unpack_from("<III", value, at + 16)
        if not 28 <= whole <= left:
            return {"fault": "ListSize", "at": at + 16}
        if 28 + header > whole:
            return {"fault": "HeaderSize", "at": at + 20}
        if size < 16 or (whole - 28 - header) % size:
            return {"fault": "SignatureSize", "at": at + 24}
        count = (whole - 28 - header) // size
        counts["count"] += count
        counts[names.get(uuid.UUID(bytes_le=value[at : at + 16]), "other")] += count
        at += whole
    return {name: count for name, count in counts.items() if count or name == "count"}


def entries_text(told):
    if "fault" in told:
        return f"entries unknown {told['fault']} at {told['at']}"
    return " ".join(["entries", str(told["count"])] + [f"{n}={c}" for n, c in told.items() if n != "count"])


def as_json(told):
    return json.dumps(told, separators=(",", ":")) + "\n"


class Boot(Log):
    """A log of register 7, with what is printed behind its state."""

    def __init__(self, algorithms=None):
        super().__init__([0x000B] if algorithms is None else algorithms)
        self.lines = []
        self.members = {"dma_protection_disabled": False}
        self.authorities = []

    def config(self, guid, name, value, told=False):
        if told:
            of_value = hashlib.sha256(value).hexdigest()
            held = entries(value)
            told_entries = entries_text(held)
            self.lines.append(f"{name} at {len(self.bytes)} size {len(value)} sha256 {of_value} {told_entries}\n")
            self.members[name] = {"at": len(self.bytes), "size": len(value), "sha256": of_value, "entries": held}
        return self.record(7, DRIVER_CONFIG, efi_variable(guid, name, value))

    def keys(self, switch=b"\1", pk=b"platform key", kek=b"exchange keys", db=b"allowed", dbx=b""):
        self.config(GLOBAL, "SecureBoot", switch)
        self.config(GLOBAL, "PK", pk, True)
        self.config(GLOBAL, "KEK", kek, True)
        self.config(DATABASE, "db", db, True)
        return self.config(DATABASE, "dbx", dbx, True)

    def part(self, value=bytes(4)):
        return self.record(7, SEPARATOR, value)

    def authority(self, name, byte_more=False, vendor=DATABASE):
        self.lines.append(f"authority at {len(self.bytes)} variable {name}\n")
        value = b"an entry of " + name.encode()
        guid = str(uuid.UUID(bytes_le=vendor))
        self.authorities.append({"at": len(self.bytes), "guid": guid, "name": name, "data": value.hex()})
        data = efi_variable(vendor, name, value)
        return self.record(7, AUTHORITY, data + b"\n" if byte_more else data, data)

    def told(self, name, state):
        banks = [BANKS[a][0] for a in self.algorithms]
        members = {**self.members, "authorities": self.authorities}
        self.tell(
            name,
            "".join(f"secure-boot {bank} {state}\n" + "".join(self.lines) for bank in banks),
            "".join(as_json({"bank": bank, "secure_boot": state, **members}) for bank in banks),
            state == "on",
        )

    def unknown(self, name, kind, at):
        banks = [BANKS[a][0] for a in self.algorithms]
        fault = {"secure_boot": "unknown", "fault": kind, "at": at}
        self.tell(
            name,
            "".join(f"secure-boot {bank} unknown {kind} at {at}\n" for bank in banks),
            "".join(as_json({"bank": bank, **fault}) for bank in banks),
            False,
        )

    def tell(self, name, lines, objects, ok):
        self.write(name)
        with open(name + ".secure", "w") as file:
            file.write(lines)
        with open(name + ".verdicts", "w") as file:
            file.write(objects + as_json({"ok": ok}))


def boots():
    Boot(THREE).keys().part().authority("db").authority("Shim", byte_more=True).told("secure_on", "on")
    # What shim measures of itself counts as an authority, though it let nothing be loaded.
    Boot().keys().part().authority("SbatLevel", vendor=SHIM).told("secure_shim", "on")
    Boot().keys(switch=b"\0").part(b"\xff" * 4).told("secure_off", "off")
    Boot().keys(switch=b"").part().told("secure_unset", "unset")
    protection = Boot().record(7, ACTION, b"DMA Protection Disabled").keys().part().authority("db")
    protection.lines.insert(0, "dma-protection disabled\n")
    protection.members["dma_protection_disabled"] = True
    protection.told("secure_unprotected", "on")
    policy = efi_variable(DEVICES, "devdb", signatures(TYPES["EFI_CERT_X509_GUID"], b"a device's maker"))
    Boot().keys().record(7, POLICY, policy).part().authority("db").told("secure_device_policy", "on")

    # Certificates have lists of their own, and hashes one.
    key, hashes = TYPES["EFI_CERT_X509_GUID"], TYPES["EFI_CERT_SHA256_GUID"]
    keys = {
        "pk": signatures(key, b"a platform key"),
        "kek": signatures(key, b"an exchange key") + signatures(key, b"another exchange key"),
        "db": signatures(key, b"one") + signatures(hashes, bytes(32), header=b"header") + signatures(key, b"another"),
        "dbx": signatures(hashes, *(bytes([i]) * 32 for i in range(77))),
    }
    Boot().keys(**keys).part().authority("db").told("secure_signatures", "on")
    # A list of each type, of which none is empty but the last
    each = b"".join(signatures(guid, *[b"data"] * (i + 1)) for i, guid in enumerate(TYPES.values()))
    other = signatures("00112233-4455-6677-8899-aabbccddeeff", b"", b"") + signatures(key, size=16, header=b"no more")
    Boot().keys(pk=each + other, kek=other, db=signatures(key, b"one") + b"\0" * 27).part().authority("db").told(
        "secure_types", "on"
    )
    # Each fault of what should be lists
    first = signatures(hashes, bytes(32))

    def wrong(at, number):
        return first + first[:at] + struct.pack("<I", number) + first[at + 4 :]

    Boot().keys(pk=wrong(16, 27), kek=wrong(16, 77), db=wrong(20, 49), dbx=wrong(24, 15)).part().authority("db").told(
        "secure_sizes", "on"
    )
    Boot().keys(dbx=wrong(24, 47)).part().authority("db").told("secure_size", "on")

    def fault(name, kind, boot, behind):
        at = len(boot.bytes)
        behind(boot)
        boot.unknown("secure_" + name, kind, at)

    # What is relabelled leaves the same value in the register.
    data = efi_variable(GLOBAL, "Other", b"1")
    fault("config_as_authority", "OtherType", Boot(), lambda b: b.record(7, AUTHORITY, data).keys().part())
    fault("variable_as_action", "OtherType", Boot(), lambda b: b.record(7, ACTION, data).keys().part())
    fault("authority_as_config", "Late", Boot().keys().part(), lambda b: b.record(7, DRIVER_CONFIG, data))
    fault("second_separator", "Late", Boot().keys().part(), lambda b: b.part())
    fault("separator_as_other", "OtherType", Boot().keys(), lambda b: b.record(7, IPL, bytes(4)).part())

    other = efi_variable(GLOBAL, "SecureBoot", b"\0")
    fault("not_measured", "NotMeasured", Boot(), lambda b: b.record(7, DRIVER_CONFIG, data, other).keys().part())
    fault("no_variable", "NoVariable", Boot(), lambda b: b.record(7, DRIVER_CONFIG, data + b"\0").keys().part())
    fault("twice", "Twice", Boot().keys(), lambda b: b.config(GLOBAL, "SecureBoot", b"\1").part().authority("db"))
    fault("other_value", "OtherValue", Boot(), lambda b: b.keys(switch=b"\2").part())
    fault("debugger", "Debugger", Boot().keys(), lambda b: b.record(7, ACTION, b"UEFI Debug Mode").part())
    fault("bad_separator", "BadSeparator", Boot().keys(), lambda b: b.part(b"\1\0\0\0"))
    fault("no_separator", "NoSeparator", Boot().keys(), lambda b: None)
    fault("no_key", "NoKey", Boot().keys(db=b""), lambda b: b.part().authority("db"))
    fault("no_authority", "NoAuthority", Boot().keys().part(), lambda b: None)
    fault("no_secure_boot", "NoSecureBoot", Boot().part(b"\xff" * 4), lambda b: None)
    policy = efi_variable(DEVICES, "devdb", b"lists")
    fault("policy_behind", "Late", Boot().keys().part(), lambda b: b.record(7, POLICY, policy))
    fault("policy_no_variable", "NoVariable", Boot().keys(), lambda b: b.record(7, POLICY, policy + b"\0").part())
    switch = efi_variable(GLOBAL, "SecureBoot", b"\1")
    fault("policy_twice", "Twice", Boot().keys(), lambda b: b.record(7, POLICY, switch).part().authority("db"))


if __name__ == "__main__":
    accepted()
    faults()
    boots()
