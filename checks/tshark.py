"""Frames as tshark tells them beside `show --json`: the same sizes, codes, names of commands, handles and sessions.
Those of the packets that tshark reads are told as those of lines, with the number, time and connection of the packet.

    python3 checks/tshark.py [CAPTURE]

From the top of the repository, over the program that was built. Without words the frames are a command and a response
of each command of the library, with sessions and without. They are written as packets between a caller and port 2321.
"""
import json
import re
import struct
import subprocess
import sys
import xml.etree.ElementTree as xml
from tempfile import NamedTemporaryFile

sys.dont_write_bytecode = True

from objects import COMMANDS, PROGRAM

# Of these tshark has another number of handles than Part 3: nvIndex is none there, flushHandle is one, and of the last
# two it knows none.
OTHERS = {"NV_Read", "FlushContext", "ECC_Encrypt", "ECC_Decrypt"}
PASSWORD = bytes.fromhex("40000009 0000 01 0002 abcd")
HMAC = bytes.fromhex("02000001 0010") + bytes(range(16)) + bytes.fromhex("61 0020") + bytes(range(32))


def made():
    """For each command of the library a command and a response without sessions, with one and with two."""
    for code, (_, handles, reply_handles) in COMMANDS.items():
        for sessions in (b"", PASSWORD, HMAC + PASSWORD):
            area = struct.pack(">I", len(sessions)) + sessions if sessions else b""
            yield ">", frame(sessions, code, bytes.fromhex("80000001 40000007 01800002")[:4 * handles] + area)
            replies = b"".join(one[4:] for one in ((HMAC, PASSWORD) if len(sessions) > 9 + 2 else (PASSWORD,)))
            behind = struct.pack(">I", 0) + replies if sessions else b""
            yield "<", frame(sessions, 0, bytes.fromhex("80000003")[:4 * reply_handles] + behind)
            yield "<", frame(b"", 0x0922, b"")


def frame(sessions, code, behind):
    return struct.pack(">HII", 0x8002 if sessions else 0x8001, 10 + len(behind), code) + behind


def read(path):
    with open(path, encoding="ascii") as lines:
        for line in lines:
            mark, digits = line[:1], line[1:].replace(" ", "").strip()
            if mark in "<>" and digits:
                yield mark, bytes.fromhex(digits)


def packets(frames):
    """A file of packets (pcap, raw IP): a segment of TCP for each frame."""
    yield struct.pack("<IHHiIII", 0xA1B2C3D4, 2, 4, 0, 0, 65535, 101)
    sent = {">": 1, "<": 1}
    for number, (mark, data) in enumerate(frames):
        ports, ends = ((40000, 2321), "7f0000017f000002") if mark == ">" else ((2321, 40000), "7f0000027f000001")
        tcp = struct.pack(">HHIIBBHHH", *ports, sent[mark], sent["<" if mark == ">" else ">"],
                          0x50, 0x18, 65535, 0, 0) + data
        head = struct.pack(">BBHHHBBH", 0x45, 0, 20 + len(tcp), number & 0xFFFF, 0, 64, 6, 0) + bytes.fromhex(ends)
        yield struct.pack("<IIII", number, 0, len(head) + len(tcp), len(head) + len(tcp)) + head + tcp
        sent[mark] += len(data)


def by_tshark(path):
    """What tshark tells of each frame."""
    words = ["tshark", "-r", path, "-T", "pdml", "-d", "tcp.port==2321,tpm", "-o", "tcp.desegment_tcp_streams:FALSE"]
    told = xml.fromstring(subprocess.run(words, check=True, capture_output=True).stdout)
    for packet in told.iter("packet"):
        fields = [field for proto in packet.iter("proto") if proto.get("name") == "tpm"
                  for field in proto.iter("field")]
        one = {}
        for field in fields:
            name, shown, value = field.get("name"), field.get("showname") or "", field.get("value")
            if name in ("tpm.req.size", "tpm.resp.size"):
                one["size"] = int(value, 16)
            elif name == "tpm.req.cc":
                one["command_code"] = value
                named = re.search(r"TPM2_CC_(\w+) ", shown)
                one["name"] = named and named[1]
            elif name == "tpm.resp.rc":
                one["code"] = f"{int(value, 16):03x}"
            elif name == "tpm.req.hndl":
                one["handles"] = [inner.get("value") for inner in field.iter("field")
                                  if inner.get("name").startswith("tpm.handle")]
            elif name == "tpm.req.auth":
                for key, inner in (("sessions", "tpm.handle.TPMI_SH_AUTH_SESSION"), ("nonces", "tpm.auth_nonce"),
                                   ("hmacs", "tpm.session_auth")):
                    found = [it.get("value") or "" for it in field.iter("field") if it.get("name") == inner]
                    if found:
                        one[key] = found
        yield one


def ours(option, path):
    run = subprocess.run([PROGRAM, "show", "--json", option, path], stdout=subprocess.PIPE, check=False)
    return [json.loads(line) for line in run.stdout.splitlines()]


def differ(one, other):
    """What tshark tells of a frame otherwise than the program."""
    if "size" in one and other.get("size") != one["size"]:
        yield "size"
    if "command_code" in one and other.get("command_code") != one["command_code"]:
        yield "command_code"
    if one.get("name") and other.get("command") != one["name"]:
        yield f"command {one['name']}"
    if "code" in one and other.get("code") != one["code"]:
        yield f"code {one['code']}"
    if other.get("command") in OTHERS or ("refused" in other and other["kind"] == "response"):
        return
    sessions = other.get("sessions", [])
    if "handles" in one and other.get("handles") != one["handles"]:
        yield f"handles {one['handles']}"
    if "sessions" in one and [it.get("session") for it in sessions] != one["sessions"]:
        yield f"sessions {one['sessions']}"
    for key, name in (("nonces", "nonce"), ("hmacs", "hmac")):
        if key in one and [it[name] for it in sessions] != one[key]:
            yield f"{name} {one[key]}"


def main(capture=None):
    frames = list(read(capture) if capture else made())
    with NamedTemporaryFile(suffix=".pcap") as file, NamedTemporaryFile("w", suffix=".frames") as text:
        for packet in packets(frames):
            file.write(packet)
        file.flush()
        text.writelines(f"{mark} {data.hex()}\n" for mark, data in frames)
        text.flush()
        theirs, told, packed = list(by_tshark(file.name)), ours("--file", text.name), ours("--pcap", file.name)
    places = [{"packet": at, "time": f"{at - 1}.000000000", "connection": 1} for at in range(1, len(frames) + 1)]
    if packed != [one | place for one, place in zip(told, places)]:
        sys.exit("the frames of the packets are told otherwise than those of the lines")
    if not len(frames) == len(theirs) == len(told):
        sys.exit(f"{len(frames)} frames, {len(theirs)} packets, {len(told)} objects")
    wrong = 0
    for number, (one, other) in enumerate(zip(theirs, told)):
        for what in differ(one, other):
            wrong += 1
            print(f"{number + 1}: tshark has {what}: {json.dumps(other)[:300]}")
    kinds = {key: sum(key in one for one in theirs)
             for key in ("command_code", "name", "code", "handles", "sessions", "nonces")}
    if wrong or not all(kinds.values()):
        sys.exit(f"{wrong} differ of {len(frames)} frames; tshark tells {kinds}")
    print(f"{len(frames)} frames as tshark tells them: {kinds}")


if __name__ == "__main__":
    main(*sys.argv[1:])
