#!/usr/bin/env python3
"""told.py FILE NONCE SELECTION QUOTE [VERDICTS]: what `tpmtool check LOG --attest FILE --json` writes, by its verdicts.

    told.py --lines FILE NONCE SELECTION QUOTE    what it writes without --json

The nonce and the selection may be `any`: they are not compared, as it was asked for. With a file of the verdicts on
Secure Boot, as `check LOG --secure-boot --json` writes them, those that are told of the banks whose register 7 is
selected come behind a quote that is the one asked for.

The TPMS_ATTEST (TPM 2.0, Part 2, 10.12) is read by Python's struct, and no value from the program.
"""
import json
import struct
import sys

BANKS = {0x0004: "sha1", 0x000B: "sha256", 0x000C: "sha384"}


class Reader:
    def __init__(self, data):
        self.data = data

    def take(self, form):
        values = struct.unpack_from(">" + form, self.data)
        self.data = self.data[struct.calcsize(">" + form) :]
        return values if len(values) > 1 else values[0]

    def sized(self, form="H"):
        return self.take(f"{self.take(form)}s")


def selection(reader):
    number = reader.take("H")
    select = reader.sized("B")
    return {"bank": BANKS[number], "registers": [i for i in range(8 * len(select)) if select[i // 8] >> i % 8 & 1]}


def attest(data):
    reader = Reader(data)
    assert reader.take("IH") == (0xFF544347, 0x8018)
    told = {"signer": reader.sized().hex(), "nonce": reader.sized().hex()}
    told["clock"], told["resets"], told["restarts"], told["safe"] = reader.take("QII?")
    told["firmware"] = f"{reader.take('Q'):016x}"
    told["selection"] = [selection(reader) for _ in range(reader.take("I"))]
    reader.sized()
    assert not reader.data
    return told


def told_of_boot(selections, path):
    with open(path) as file:
        verdicts = {told.get("bank"): told for told in map(json.loads, file)}
    banks = [entry["bank"] for entry in selections if 7 in entry["registers"]]
    return [verdicts[bank] for bank in banks] or [{"secure_boot": "unknown", "fault": "no bank"}]


def lines(told):
    """The lines of a quote and its verdicts."""
    said = told["attest"]
    for name in ("signer", "nonce", "clock", "resets", "restarts"):
        print(name, "-" if said[name] == "" else said[name])
    print("safe", "yes" if said["safe"] else "no")
    print("firmware", said["firmware"])
    print("selection", *(word for entry in said["selection"] for word in (entry["bank"], *entry["registers"])))
    for name in ("nonce", "selection", "quote"):
        lacks = told["lacks"].values() if name == "selection" and "lacks" in told else ()
        print(name, told[name], *lacks)


def told_of(path, nonce, covered, quote):
    with open(path, "rb") as file:
        told = {"attest": attest(file.read()), "nonce": nonce.replace("any", "not compared")}
    words = covered.split()
    told["selection"] = words[0] if words[0] == "lacks" else covered.replace("any", "not compared")
    if words[0] == "lacks":
        told["lacks"] = {"bank": words[1], "register": int(words[2])}
    told["quote"] = quote
    return told


def main(path, nonce, covered, quote, verdicts=None):
    told = told_of(path, nonce, covered, quote)
    right = nonce in ("matches", "any") and covered in ("covers", "any") and quote == "matches"
    boots = told_of_boot(told["attest"]["selection"], verdicts) if verdicts and right else []
    right = right and all(boot["secure_boot"] == "on" for boot in boots)
    for line in [told, *boots, {"ok": right}]:
        print(json.dumps(line, separators=(",", ":")))


if __name__ == "__main__":
    if sys.argv[1] == "--lines":
        lines(told_of(*sys.argv[2:]))
    else:
        main(*sys.argv[1:])
