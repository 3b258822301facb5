#!/usr/bin/env python3
"""made.py FILE NONCE LIST: a TPMS_ATTEST (TPM 2.0, Part 2, 10.12) of these registers, as sha1:7+sha256:0,7.

FILE has the registers in the lines of `tpmtool check`. Nobody signs it: its signer has no name.
"""
import hashlib
import struct
import sys

NUMBERS = {"sha1": 0x0004, "sha256": 0x000B, "sha384": 0x000C}


def sized(data):
    return struct.pack(">H", len(data)) + data


def main(path, nonce, registers):
    with open(path) as file:
        values = {(bank, int(i)): bytes.fromhex(value) for bank, i, value in map(str.split, file)}
    selections, quoted = b"", b""
    banks = [entry.split(":") for entry in registers.split("+")]
    for bank, numbers in banks:
        selected = sorted(map(int, numbers.split(",")))
        bits = sum(1 << i for i in selected)
        selections += struct.pack(">HB", NUMBERS[bank], 3) + bits.to_bytes(3, "little")
        quoted += b"".join(values[bank, i] for i in selected)
    out = struct.pack(">IH", 0xFF544347, 0x8018) + sized(b"") + sized(bytes.fromhex(nonce))
    out += struct.pack(">QII?Q", 855, 1, 0, True, 0x2019102300163636)
    out += struct.pack(">I", len(banks)) + selections + sized(hashlib.sha256(quoted).digest())
    sys.stdout.buffer.write(out)


if __name__ == "__main__":
    main(*sys.argv[1:])
