#!/usr/bin/env python3
"""allowed.py lists EVENTS: what `tpmtool check LOG --extends` prints of the log whose records EVENTS has.
allowed.py lists EVENTS REGISTERS: those lines of these registers alone, as `sha1:7+sha256:0,7`.
allowed.py registers LIST: the registers that a list of allowed digests names, as `sha1:7+sha256:0,7`.
allowed.py told EVENTS LIST [json]: what `check LOG --attest .. --allow LIST` says of that log beside the list.

EVENTS has the lines of `events --digests --places`, which list_events.py writes; no value is from the program.
"""
import json
import sys

BANKS = ["sha1", "sha256", "sha384"]
EXTENDED = [*range(17), 23]


def extensions(path):
    """By banks and registers the digests, each with its record's place and type, in the log's order."""
    found = {}
    with open(path) as file:
        for _, register, kind, _, _, at, digests, *_ in map(str.split, file):
            if kind == "EV_NO_ACTION" or int(register) not in EXTENDED or digests == "-":
                continue
            for bank, _, digest in (entry.partition("=") for entry in digests.split(",")):
                if bank in BANKS:
                    found.setdefault((BANKS.index(bank), int(register)), []).append((digest, int(at[3:]), kind))
    return found


def listed(path):
    """By banks and registers the digests of a list."""
    found = {}
    with open(path) as file:
        for words in (line.split("#")[0].split() for line in file):
            if words:
                found.setdefault((BANKS.index(words[0]), int(words[1])), set()).add(words[2].lower())
    return found


def lists(path, registers=None):
    banks = (entry.split(":") for entry in registers.split("+")) if registers else ()
    chosen = {(BANKS.index(bank), int(register)) for bank, numbers in banks for register in numbers.split(",")}
    for (bank, register), those in sorted(extensions(path).items()):
        if registers and (bank, register) not in chosen:
            continue
        told = set()
        for digest, _, kind in those:
            if digest not in told:
                print(BANKS[bank], register, digest, kind)
            told.add(digest)


def registers(path):
    named = sorted(listed(path))
    banks = sorted({bank for bank, _ in named})
    print("+".join(f"{BANKS[bank]}:{','.join(str(r) for b, r in named if b == bank)}" for bank in banks))


def told(path, list_path, form="lines"):
    found = extensions(path)
    for (bank, register), allowed in sorted(listed(list_path).items()):
        of = {"bank": BANKS[bank], "register": register}
        unknown = [e for e in found.get((bank, register), []) if e[0] not in allowed]
        objects = [{**of, "allowed": False, "at": at, "digest": d, "type": kind} for d, at, kind in unknown]
        lines = [f"unknown {BANKS[bank]} {register} at {at} {d} {kind}" for d, at, kind in unknown]
        if form == "json":
            lines = [json.dumps(o, separators=(",", ":")) for o in objects or [{**of, "allowed": True}]]
        print("\n".join(lines or [f"allowed {BANKS[bank]} {register}"]))


if __name__ == "__main__":
    {"lists": lists, "registers": registers, "told": told}[sys.argv[1]](*sys.argv[2:])
