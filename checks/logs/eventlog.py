#!/usr/bin/env python3
"""eventlog.py PROGRAM FOLDER..: prints each fact that tpm2_eventlog tells of a log in these folders, and these do not:
what `events LOG --json`, `events LOG --header --json` and `check LOG` of the program tpmtool print. Its status is then
1; else it prints how much was told. A log that has a fault is passed over.

tpm2_eventlog tells bytes where it knows no more of them: they have to be the member `data`, or within it.
"""
import json
import re
import struct
import subprocess
import sys
import uuid
from pathlib import Path

NUMBERS = {"sha512": "000d", "sm3_256": "0012", "sha3_256": "0027", "sha3_384": "0028", "sha3_512": "0029"}


def events_of(text):
    """The facts of each event, those of the header first, and then the values of registers."""
    facts, registers, bank = [], {}, None
    for line in text.splitlines():
        match = re.match(r'(\s*)(?:- )?([\w ]+?|Algorithm\[\d+\]):(?: (.*))?$', line)
        name, value = (match[2], (match[3] or "").strip("'\"")) if match else (None, line)
        if line.startswith("pcrs:"):
            bank = ""
        elif bank is not None:
            if match and not match[3]:
                bank = name
            elif match:
                registers[NUMBERS.get(bank, bank), int(name)] = value[2:].lower()
        elif name == "EventNum":
            facts.append([(name, value)])
        elif facts and match:
            facts[-1].append((name, value))
        elif facts:
            facts[-1].append(("line", line.strip()))
    return facts, registers


def lacks_of_header(facts, header):
    said = {"platformClass": header["class"], "specVersionMajor": header["major"], "specVersionMinor": header["minor"]}
    said |= {"specErrata": header["errata"], "uintnSize": header["uintn_size"], "vendorInfo": header["vendor_info"]}
    said |= {"numberOfAlgorithms": len(header["algorithms"]), "vendorInfoSize": len(header["vendor_info"]) // 2}
    said = {name: str(value) for name, value in said.items()}
    hashes = [value for name, value in facts if name == "algorithmId"]
    sizes = [value for name, value in facts if name == "digestSize"]
    found = {NUMBERS.get(name, name): int(size) for name, size in zip(hashes, sizes)}
    yield from (fact for fact in facts if fact[0] in said and said[fact[0]] != fact[1])
    if found != header["algorithms"]:
        yield "algorithms", found


def lacks_of(facts, told):
    """Those of an event that its object doesn't tell."""
    data, variable = told["data"], told.get("variable", {})
    image, firmware = told.get("image", {}), told.get("firmware", {})
    said = {"EventNum": told["number"], "PCRIndex": told["register"], "DigestCount": len(told["digests"])}
    said |= {"EventSize": len(data) // 2, "EventType": told["type"]}
    if variable:
        units = variable.get("units", variable["name"].encode("utf-16-le", "surrogatepass").hex())
        said |= {"VariableName": variable["guid"], "VariableDataLength": len(variable["data"]) // 2}
        said |= {"UnicodeName": variable["name"], "UnicodeNameLength": len(units) // 4}
        said |= {"VariableData": variable["data"]}
    if firmware:
        said |= {"BlobBase": firmware["address"], "BlobLength": hex(firmware["length"])}
        said |= {"BlobDescription": firmware["description"].encode("latin-1").hex()}
    if image:
        said |= {"ImageLocationInMemory": image["address"], "ImageLengthInMemory": image["length"]}
        said |= {"ImageLinkTimeAddress": image["link"]}
    digests = iter(told["digests"].items())
    for name, value in facts:
        if name == "AlgorithmId":
            bank, digest = next(digests, ("", ""))
            named = next((name for name, number in NUMBERS.items() if number == bank), bank)
            said |= {"AlgorithmId": named, "Digest": digest}
        if name == "EventType" and not value.startswith("EV_"):
            continue
        if name in ("Event", "String", "Digests") and value in ("", "|-"):
            continue
        if name == "line" or name == "Event" and not re.fullmatch("[0-9a-f]+", value):
            words = re.findall("[A-Za-z0-9]+", re.sub(r"\\(x..|u....|.)", " ", value))
            found = all(word in bytes.fromhex(data).replace(b"\0", b"").decode("latin-1") for word in words)
        elif name == "UnicodeName" and value == "" or name in said and str(said[name]) == value:
            found = True
        elif value.startswith("0x") or name.startswith("LengthOf") or name.endswith(("Size", "Length")):
            number = int(value, 0)
            found = struct.pack("<Q" if number > 255 else "<B", number).hex() in data
        elif re.fullmatch("[0-9a-f]{8}-[0-9a-f-]{27}", value):
            found = uuid.UUID(value).bytes_le.hex() in data
        else:
            found = value in data or value.encode("utf-16-le").hex() in data
        if not found:
            yield name, value


def said_by(*words):
    return subprocess.run(words, capture_output=True).stdout.decode("utf-8", "replace")


def compared(program, log):
    """How many facts tpm2_eventlog tells of a log, and those that the program doesn't tell."""
    facts, values = events_of(said_by("tpm2_eventlog", log))
    told = [json.loads(line) for line in said_by(program, "events", log, "--json").splitlines()]
    header = json.loads(said_by(program, "events", log, "--header", "--json"))["header"]
    lines = map(str.split, said_by(program, "check", log).splitlines())
    ours = {(bank, int(number)): value for bank, number, value in lines}
    lacking = [(0, *fact) for fact in lacks_of_header(facts[0], header)]
    for found, it in zip(facts[1:], told):
        lacking += [(it["number"], *fact) for fact in lacks_of(found, it)]
    if len(facts) - 1 > len(told):
        lacking.append((len(told) + 1, "EventNum", len(facts) - 1))
    # tpm2_eventlog extends by what EV_NO_ACTION has, too.
    passed = {it["register"] for it in told if it["type"] == "EV_NO_ACTION"}
    lacking += [at for at, value in values.items() if at[1] not in passed and ours.get(at, value) != value]
    return sum(map(len, facts)) + len(values), lacking


def main(program, *folders):
    told, logs, wrong = 0, 0, 0
    for log in sorted(log for folder in folders for log in Path(folder).glob("*.log")):
        if subprocess.run([program, "check", log], capture_output=True).returncode == 0:
            facts, lacking = compared(program, log)
            told, logs, wrong = told + facts, logs + 1, wrong + len(lacking)
            for fact in lacking:
                print(log, *fact)
    print(f"{told} facts of {logs} logs, of which {wrong} are not told")
    return 1 if wrong or not told else 0


if __name__ == "__main__":
    sys.exit(main(*sys.argv[1:]))
