"""Frames of the tables, changed at random, through `show --json`: each line is one object by Python's own reader of
JSON, and says what is cut from the frame here.

    python3 checks/objects.py [FRAMES [SEED]]

From the top of the repository, over the program that was built. Without words these are 50,000 frames and the seed 1.
They are told as a capture, with parameters by their names and without, and as a stream, which ends inside a frame and
with a bad size.
"""
import json
import random
import re
import struct
import subprocess
import sys
import tempfile

PROGRAM = "crates/tpmtool/out/tpmtool"
MOST_FRAME = 4096
MOST_LINE = 8195  # a mark, `0x` and the digits of the longest frame
# Bytes that sizes, counts, tags, codes and handles are made of.
TELLING = bytes.fromhex("0001020304 08090a0b0c 10303140 80ff")

# Part 3: each command's name, how many handles it has, and how many its reply has.
COMMANDS = {
    0x11F: ("NV_UndefineSpaceSpecial", 2, 0), 0x120: ("EvictControl", 2, 0), 0x121: ("HierarchyControl", 1, 0),
    0x122: ("NV_UndefineSpace", 2, 0), 0x124: ("ChangeEPS", 1, 0), 0x125: ("ChangePPS", 1, 0), 0x126: ("Clear", 1, 0),
    0x127: ("ClearControl", 1, 0), 0x128: ("ClockSet", 1, 0), 0x129: ("HierarchyChangeAuth", 1, 0),
    0x12A: ("NV_DefineSpace", 1, 0), 0x12B: ("PCR_Allocate", 1, 0), 0x12C: ("PCR_SetAuthPolicy", 1, 0),
    0x12D: ("PP_Commands", 1, 0), 0x12E: ("SetPrimaryPolicy", 1, 0), 0x12F: ("FieldUpgradeStart", 2, 0),
    0x130: ("ClockRateAdjust", 1, 0), 0x131: ("CreatePrimary", 1, 1), 0x132: ("NV_GlobalWriteLock", 1, 0),
    0x133: ("GetCommandAuditDigest", 2, 0), 0x134: ("NV_Increment", 2, 0), 0x135: ("NV_SetBits", 2, 0),
    0x136: ("NV_Extend", 2, 0), 0x137: ("NV_Write", 2, 0), 0x138: ("NV_WriteLock", 2, 0),
    0x139: ("DictionaryAttackLockReset", 1, 0), 0x13A: ("DictionaryAttackParameters", 1, 0),
    0x13B: ("NV_ChangeAuth", 1, 0), 0x13C: ("PCR_Event", 1, 0), 0x13D: ("PCR_Reset", 1, 0),
    0x13E: ("SequenceComplete", 1, 0), 0x13F: ("SetAlgorithmSet", 1, 0), 0x140: ("SetCommandCodeAuditStatus", 1, 0),
    0x141: ("FieldUpgradeData", 0, 0), 0x142: ("IncrementalSelfTest", 0, 0), 0x143: ("SelfTest", 0, 0),
    0x144: ("Startup", 0, 0), 0x145: ("Shutdown", 0, 0), 0x146: ("StirRandom", 0, 0),
    0x147: ("ActivateCredential", 2, 0), 0x148: ("Certify", 2, 0), 0x149: ("PolicyNV", 3, 0),
    0x14A: ("CertifyCreation", 2, 0), 0x14B: ("Duplicate", 2, 0), 0x14C: ("GetTime", 2, 0),
    0x14D: ("GetSessionAuditDigest", 3, 0), 0x14E: ("NV_Read", 2, 0), 0x14F: ("NV_ReadLock", 2, 0),
    0x150: ("ObjectChangeAuth", 2, 0), 0x151: ("PolicySecret", 2, 0), 0x152: ("Rewrap", 2, 0),
    0x153: ("Create", 1, 0), 0x154: ("ECDH_ZGen", 1, 0), 0x155: ("HMAC", 1, 0), 0x156: ("Import", 1, 0),
    0x157: ("Load", 1, 1), 0x158: ("Quote", 1, 0), 0x159: ("RSA_Decrypt", 1, 0), 0x15B: ("HMAC_Start", 1, 1),
    0x15C: ("SequenceUpdate", 1, 0), 0x15D: ("Sign", 1, 0), 0x15E: ("Unseal", 1, 0), 0x160: ("PolicySigned", 2, 0),
    0x161: ("ContextLoad", 0, 1), 0x162: ("ContextSave", 1, 0), 0x163: ("ECDH_KeyGen", 1, 0),
    0x164: ("EncryptDecrypt", 1, 0), 0x165: ("FlushContext", 0, 0), 0x167: ("LoadExternal", 0, 1),
    0x168: ("MakeCredential", 1, 0), 0x169: ("NV_ReadPublic", 1, 0), 0x16A: ("PolicyAuthorize", 1, 0),
    0x16B: ("PolicyAuthValue", 1, 0), 0x16C: ("PolicyCommandCode", 1, 0), 0x16D: ("PolicyCounterTimer", 1, 0),
    0x16E: ("PolicyCpHash", 1, 0), 0x16F: ("PolicyLocality", 1, 0), 0x170: ("PolicyNameHash", 1, 0),
    0x171: ("PolicyOR", 1, 0), 0x172: ("PolicyTicket", 1, 0), 0x173: ("ReadPublic", 1, 0),
    0x174: ("RSA_Encrypt", 1, 0), 0x176: ("StartAuthSession", 2, 1), 0x177: ("VerifySignature", 1, 0),
    0x178: ("ECC_Parameters", 0, 0), 0x179: ("FirmwareRead", 0, 0), 0x17A: ("GetCapability", 0, 0),
    0x17B: ("GetRandom", 0, 0), 0x17C: ("GetTestResult", 0, 0), 0x17D: ("Hash", 0, 0), 0x17E: ("PCR_Read", 0, 0),
    0x17F: ("PolicyPCR", 1, 0), 0x180: ("PolicyRestart", 1, 0), 0x181: ("ReadClock", 0, 0),
    0x182: ("PCR_Extend", 1, 0), 0x183: ("PCR_SetAuthValue", 1, 0), 0x184: ("NV_Certify", 3, 0),
    0x185: ("EventSequenceComplete", 2, 0), 0x186: ("HashSequenceStart", 0, 1),
    0x187: ("PolicyPhysicalPresence", 1, 0), 0x188: ("PolicyDuplicationSelect", 1, 0),
    0x189: ("PolicyGetDigest", 1, 0), 0x18A: ("TestParms", 0, 0), 0x18B: ("Commit", 1, 0),
    0x18C: ("PolicyPassword", 1, 0), 0x18D: ("ZGen_2Phase", 1, 0), 0x18E: ("EC_Ephemeral", 0, 0),
    0x18F: ("PolicyNvWritten", 1, 0), 0x190: ("PolicyTemplate", 1, 0), 0x191: ("CreateLoaded", 1, 1),
    0x192: ("PolicyAuthorizeNV", 3, 0), 0x193: ("EncryptDecrypt2", 1, 0), 0x194: ("AC_GetCapability", 1, 0),
    0x195: ("AC_Send", 3, 0), 0x196: ("Policy_AC_SendSelect", 1, 0), 0x197: ("CertifyX509", 2, 0),
    0x198: ("ACT_SetTimeout", 1, 0), 0x199: ("ECC_Encrypt", 1, 0), 0x19A: ("ECC_Decrypt", 1, 0),
    0x20000000: ("Vendor_TCG_Test", 0, 0),
}
# Those of the profile.
PROFILE = {
    0x122, 0x12A, 0x134, 0x13C, 0x13D, 0x144, 0x14E, 0x165, 0x169, 0x16B, 0x16C, 0x171, 0x176, 0x17E, 0x17F, 0x180,
    0x182, 0x189,
}
CODES = {COMMANDS[code][0]: code for code in sorted(PROFILE)}
NOTHING, UNKNOWN = "no command is before it", "its command is not known"
# Part 2: the tags of commands and responses.
TAGS = {0x00C4: "TPM_ST_RSP_COMMAND", 0x8000: "TPM_ST_NULL", 0x8001: "TPM_ST_NO_SESSIONS", 0x8002: "TPM_ST_SESSIONS"}
# Part 2: the types of one size, and the sizes of digests.
SIZES = {"UINT16": 2, "UINT32": 4, "TPM_SU": 2, "TPM_SE": 1, "TPM_CC": 4, "TPMI_DH_CONTEXT": 4, "TPMI_ALG_HASH": 2}
DIGESTS = {0x0004: 20, 0x000B: 32, 0x000C: 48}
# Part 2, 6.3: the hashes that are no banks here. Part 3: where TPM_RC_SIZE is of the count of a list of banks.
OTHER_HASHES = {0x000D, 0x0012, 0x0027, 0x0028, 0x0029}
LISTS = {(">", 0x182, 0x1D5), (">", 0x17E, 0x1D5), (">", 0x17F, 0x2D5), ("<", 0x13C, 0x1D5), ("<", 0x17E, 0x2D5)}
# What has numbers for its parts: the registers of a selection's octets, and of an index's attributes the field TPM_NT
# and each bit set.
NUMBERS = {
    "BYTE": lambda number, octets: [i for i in range(8 * len(octets)) if octets[i // 8] >> i % 8 & 1],
    "TPMA_NV": lambda number, octets: [number >> 4 & 15] + [1] * bin(number & ~0xF0).count("1"),
}
# Part 2, 7.4 and 7.2: permanent handles, and kinds of handles by their first byte.
PERMANENT = {
    0: "SRK", 1: "OWNER", 2: "REVOKE", 3: "TRANSPORT", 4: "OPERATOR", 5: "ADMIN", 6: "EK", 7: "NULL", 8: "UNASSIGNED",
    10: "LOCKOUT", 11: "ENDORSEMENT", 12: "PLATFORM", 13: "PLATFORM_NV", 0x10: "AUTH_00", 0x10F: "AUTH_FF",
    **{0x110 + i: f"ACT_{i:X}" for i in range(16)},
}
KINDS = {
    0x00: "PCR", 0x01: "NV_INDEX", 0x02: "HMAC_SESSION", 0x03: "POLICY_SESSION", 0x40: "PERMANENT", 0x80: "TRANSIENT",
    0x81: "PERSISTENT", 0x90: "AC",
}
# Part 2, 8.4: the bits of a session's attributes, of which two are reserved.
ATTRIBUTES = ("continueSession", "auditExclusive", "auditReset", None, None, "decrypt", "encrypt", "audit")
# The names that Part 2 gives to numbers (6.3, 6.10, 6.11), by the types of the fields that they stand in.
ALGORITHMS = {
    0x0004: "SHA1", 0x0006: "AES", 0x000A: "XOR", 0x000B: "SHA256", 0x000C: "SHA384", 0x0010: "NULL", 0x0043: "CFB",
}
ALGORITHMS = {number: "TPM_ALG_" + name for number, name in ALGORITHMS.items()}
VALUE_NAMES = {
    "TPMI_ALG_HASH": ALGORITHMS,
    "TPMI_ALG_SYM": ALGORITHMS,
    "TPMU_SYM_MODE": ALGORITHMS,
    "TPM_SU": {0: "TPM_SU_CLEAR", 1: "TPM_SU_STATE"},
    "TPM_SE": {0: "TPM_SE_HMAC", 1: "TPM_SE_POLICY", 3: "TPM_SE_TRIAL"},
}


class Wrong(Exception):
    """What is wrong with a line."""


def want(holds, why):
    if not holds:
        raise Wrong(why)


# ---- the frames


def rows():
    """The buffers of the tables: whose reply each is, or None of a command, its bytes, and whether it is taken."""
    for path in ("checks/commands.txt", "checks/responses.txt"):
        with open(path, encoding="ascii") as table:
            for line in table:
                asked, _, answer = line.strip().partition(" -> ")
                words = asked.split()
                if words[:1] == ["buffer"]:
                    del words[0]
                    answer = "taken"
                if words[:1] not in (["command"], ["reply"]):
                    continue
                name = words[1] if words[0] == "reply" else None
                parts = (word.partition("*") for word in words[2 if name else 1:] if word != "-")
                data = bytes.fromhex("".join(digits * int(count or 1) for digits, _, count in parts))
                yield name, data, answer.split()[0] in ("taken", "command", "reply")


def fit(data):
    """Its size becomes the number of its bytes."""
    if len(data) >= 6:
        struct.pack_into(">I", data, 2, len(data))


def change(dice, data):
    """Changes bytes, sizes and counts of it in one to three places, and mostly sets its size to what it has then."""
    for _ in range(dice.choice((1, 1, 2, 3))):
        how, at = dice.randrange(8), dice.randrange(len(data) + 1)
        if how == 0:
            del data[at:]
        elif how == 1:
            data += bytes([dice.choice(TELLING)]) * dice.randrange(40)
        elif how == 2:
            data[at:at] = dice.choice(TELLING).to_bytes(dice.choice((1, 2, 4)), "big")
        elif how == 3:
            number = dice.choice(TELLING).to_bytes(dice.choice((2, 4)), "big")
            if at + len(number) <= len(data):
                data[at:at + len(number)] = number
        elif at == len(data):
            continue
        elif how == 4:
            del data[at]
        elif how == 5:
            data[at] ^= 1 << dice.randrange(8)
        elif how == 6:
            data[at] = (data[at] + dice.choice((1, 255))) % 256
        else:
            data[at] = dice.randrange(256)
    if dice.randrange(8):
        fit(data)


class Frames:
    """The same frames for the same seed: first they are written, then what is told of them is compared."""

    def __init__(self, seed, count):
        self.seed, self.count = seed, count
        self.rows = {}
        self.commands = {}
        for name, data, taken in rows():
            self.rows.setdefault((name is None, taken), []).append((name, data))
            if name is None and taken:
                self.commands.setdefault(int.from_bytes(data[6:10], "big"), data)

    def each(self):
        """Each frame with the mark that it may have; before most replies stands a command that they may be one to."""
        dice = random.Random(self.seed)
        left = self.count
        while left > 0:
            name, data = dice.choice(self.rows[dice.randrange(3) == 0, dice.randrange(4) > 0])
            if name == "any":
                name = dice.choice(list(CODES))
            if name and left > 1 and dice.randrange(16):
                left -= 1
                yield dice, ">", bytearray(self.commands[CODES[name]])
            data = bytearray(data)
            if dice.randrange(4):
                change(dice, data)
            left -= 1
            yield dice, "<" if name else ">", data

    def lines(self):
        """Each line, its mark or none, and its frame; or its fault, and None; or False where it has nothing."""
        for dice, mark, data in self.each():
            mark = "" if data and dice.randrange(4) == 0 else mark
            digits = data.hex()
            how = dice.randrange(32)
            if how == 0:
                yield dice.choice(("", "# " + digits, " \t#", "\r")), None, False
            elif how == 1:
                digits = dice.choice((digits[1:], digits + "g", digits + '"', "\\" + digits, digits + "\x00", "\x7f",
                                      "caf\u00e9"))
            elif how == 2:
                digits = " ".join(digits[i:i + 8] for i in range(0, len(digits), 8)) + "\r"
            elif how == 3:
                digits = "0x" + digits.upper()
            text = mark + " " + digits
            bare = re.sub("[ \t\r]", "", text).encode()
            plain = re.sub(b"^0x", b"", bare[len(mark):])
            if len(bare) > MOST_LINE:
                yield text, "too long", None
            elif len(plain) % 2 or not re.fullmatch(b"[0-9a-fA-F]*", plain):
                yield text, "not hexadecimal", None
            else:
                yield text, mark, data

    def stream(self):
        """Those that may stand in a stream, with the size that they have."""
        for _, _, data in self.each():
            if 10 <= len(data) <= MOST_FRAME:
                fit(data)
                yield data


# ---- what is cut from a frame


def take(data, at, count):
    want(0 <= count <= len(data) - at, "it ends too early")
    return data[at:at + count], at + count


def sized(data, at):
    size, at = take(data, at, 2)
    return take(data, at, int.from_bytes(size, "big"))


def session(data, at, names):
    nonce, at = sized(data, at)
    attributes, at = take(data, at, 1)
    hmac, at = sized(data, at)
    attribute_names = [name for bit, name in enumerate(ATTRIBUTES) if name and attributes[0] >> bit & 1]
    return dict(names, nonce=nonce.hex(), attributes=attributes.hex(), attribute_names=attribute_names,
                hmac=hmac.hex()), at


def handles(data, at, count):
    want(at + 4 * count <= len(data), "its handles pass it")
    found = [data[i:i + 4].hex() for i in range(at, at + 4 * count, 4)]
    return {"handles": found, "handle_names": [handle_name(handle) for handle in found]}, at + 4 * count


def handle_name(handle):
    """The name of a handle or of its kind, where it has one."""
    number = int(handle, 16)
    if number == 0x40000009:
        return "TPM_RS_PW"
    if number - 0x40000000 in PERMANENT:
        return "TPM_RH_" + PERMANENT[number - 0x40000000]
    return "TPM_HT_" + KINDS[number >> 24] if number >> 24 in KINDS else None


def name_of_code(found, key, code):
    """The name of a response code where one is told: its form alone is known here, and what the code is about."""
    if key not in found:
        want(code != 0, "the code 0 has no name")
        return {}
    subject = "parameter" if code & 0x40 else "session" if code & 0x800 else "handle"
    number = code >> 8 & (15 if code & 0x40 else 7)
    behind_name = f" for {subject} {number}" if code & 0x80 and number else ""
    want(re.fullmatch("TPM_RC_[A-Z0-9_]+" + behind_name, found[key]), "the name of a response's code")
    want((code != 0) == (found[key] != "TPM_RC_SUCCESS"), "the name of the code 0")
    return {key: found[key]}


def name_of(code):
    """The name of a command of the library, or the number of any other."""
    return COMMANDS[code][0] if code in COMMANDS else f"{code:08x}"


def header(mark, awaited, data, found):
    """The members of the header, which fewer than ten bytes haven't. Of the name of a response's code only its form is
    known here."""
    if len(data) < 10:
        return {}
    tag, size, code = struct.unpack_from(">HII", data)
    command = code if mark == ">" else awaited
    members = {"size": size, "tag": f"{tag:04x}"}
    if command not in (NOTHING, UNKNOWN):
        members = {"command": name_of(command), **members}
    if tag in TAGS:
        members["tag_name"] = TAGS[tag]
    if mark == ">":
        return {**members, "command_code": f"{code:08x}"}
    return {**members, "code": f"{code:03x}", **name_of_code(found, "code_name", code)}


def command(data):
    """The members of a command behind its header."""
    tag, _, code = struct.unpack_from(">HII", data)
    found, at = handles(data, 10, COMMANDS[code][1])
    sessions = []
    if tag == 0x8002:
        area, at = take(data, at, 4)
        area, at = take(data, at, int.from_bytes(area, "big"))
        want(area, "its area of sessions is empty")
        inside = 0
        while inside < len(area):
            handle, inside = take(area, inside, 4)
            names = {"session": handle.hex(), "session_name": handle_name(handle.hex())}
            one, inside = session(area, inside, names)
            sessions.append(one)
        want(len(sessions) <= 3, "it has too many sessions")
    return {**found, "sessions": sessions, "parameters": data[at:].hex()}


def reply(code, data):
    """The members of a response to this command behind its header, which has the code 0."""
    tag = struct.unpack_from(">H", data)[0]
    found, at = handles(data, 10, COMMANDS[code][2])
    sessions = []
    if tag == 0x8002:
        size, at = take(data, at, 4)
        parameters, at = take(data, at, int.from_bytes(size, "big"))
        while at < len(data):
            one, at = session(data, at, {})
            sessions.append(one)
        want(len(sessions) <= 3, "it has too many sessions")
    else:
        parameters = data[at:]
    return {**found, "sessions": sessions, "parameters": parameters.hex()}


def may_be_told(sessions):
    """Whether each is a session of the profile."""
    for one in sessions:
        want(int(one["attributes"], 16) & 0x18 == 0, "reserved bits of a session")
        want(max(len(one["nonce"]), len(one["hmac"])) <= 96, "a nonce or an HMAC that is too long")
        handle = int(one.get("session", "40000009"), 16)
        want(handle == 0x40000009 or handle >> 24 in (2, 3), "a session's handle")


def behind(mark, awaited, data):
    """What is told by the library's table of a frame that the profile refuses, or has not; none where it isn't
    there."""
    if len(data) < 10:
        return {}
    tag, size, code = struct.unpack_from(">HII", data)
    if size != len(data) or tag not in (0x8001, 0x8002) or (mark == ">" and code not in COMMANDS):
        return {}
    try:
        members = command(data) if mark == ">" else reply(awaited, data)
        may_be_told(members["sessions"])
        return members
    except (Wrong, struct.error, IndexError):
        return {}


def is_larger(way, code, at, data):
    """Whether a profile of more commands or banks would not have this fault, in a command or a reply by its mark and
    the command's code."""
    if way[0] == ">" and (code, at) == (0x143, 6):
        return True
    if code & 0xFF == 0xC3:
        return int.from_bytes(data[at:at + 2], "big") in OTHER_HASHES
    return (*way, code) in LISTS and 4 <= int.from_bytes(data[at:at + 4], "big") <= 8


def size_of(kind, data):
    """How many bytes a value of this type has at the front of these, or None where the type isn't known here."""
    if kind in SIZES:
        return SIZES[kind]
    if kind.startswith("TPM2B_"):
        return 2 + int.from_bytes(data[:2], "big")
    if kind == "TPMT_SYM_DEF":
        return {b"\x00\x10": 2, b"\x00\x0a": 4}.get(bytes(data[:2]), 6)  # TPM_ALG_NULL, TPM_ALG_XOR
    if not kind.startswith("TPML_"):
        return None
    at = 4
    for _ in range(int.from_bytes(data[:4], "big")):
        if kind == "TPML_DIGEST":
            at += 2 + int.from_bytes(data[at:at + 2], "big")
        elif kind == "TPML_DIGEST_VALUES":
            at += 2 + DIGESTS[int.from_bytes(data[at:at + 2], "big")]
        elif kind == "TPML_PCR_SELECTION":
            at += 3 + data[at + 2]
        else:
            return None
    return at


# ---- what is told of it


def pairs(found):
    names = [name for name, _ in found]
    want(len(names) == len(set(names)), f"a member stands twice: {names}")
    return dict(found)


def no_number(text):
    raise Wrong(f"a number that is none of the page's: {text}")


READER = json.JSONDecoder(object_pairs_hook=pairs, parse_float=no_number, parse_constant=no_number)


def read(line):
    want(line.endswith(b"\n"), "no line feed ends it")
    text = line[:-1].decode("ascii")
    try:
        found, end = READER.raw_decode(text)
    except ValueError as error:
        raise Wrong(f"no JSON: {error}") from error
    want(end == len(text) and isinstance(found, dict), "not one object")
    return found


def hexadecimal(text):
    want(isinstance(text, str) and re.fullmatch("([0-9a-f]{2})*", text), f"no bytes in hexadecimal: {text}")
    return bytes.fromhex(text)


def check_fields(fields, data):
    """Each has a name, a type and the bytes of that type; one after the other they are these bytes."""
    at = 0
    for field in fields:
        value = check_field(field)
        size = size_of(field["type"], data[at:])
        want(size is not None, f"a type that isn't known: {field['type']}")
        want(value == data[at:at + size] and len(value) == size, f"{field['name']} has not the bytes of its type")
        at += size
    want(at == len(data), "the fields are not the parameters")


def value_name(kind, value):
    """The name of the number of a field of this type, where it has one."""
    if kind in ("TPMI_DH_CONTEXT", "TPMI_RH_NV_INDEX"):
        return handle_name(value)
    number = int(value or "0", 16)
    if kind == "TPM_CC":
        return "TPM_CC_" + COMMANDS[number][0] if number in COMMANDS else None
    return VALUE_NAMES.get(kind, {}).get(number)


def check_field(field):
    """The bytes of a field, which may have a list of its parts: fields, whose bytes are its own behind a size or a
    count, or numbers."""
    want(isinstance(field, dict) and set(field) - {"fields", "value_name"} == {"name", "type", "value"},
         f"the members of a field: {field}")
    want(all(isinstance(field[key], str) and field[key] for key in ("name", "type")),
         f"a field's name and type: {field}")
    value = hexadecimal(field["value"])
    want(field.get("value_name") == value_name(field["type"], field["value"]), f"the name of a value: {field}")
    parts = field.get("fields")
    want(parts is None or isinstance(parts, list), "fields that are no list")
    if parts is not None and field["type"] in NUMBERS:
        want(all(set(part) == {"name", "number"} and type(part["number"]) is int and part["name"] for part in parts),
             f"the parts of {field}")
        want([part["number"] for part in parts] == NUMBERS[field["type"]](int.from_bytes(value, "big"), value),
             f"the parts of {field}")
    elif parts is not None:
        joined = b"".join(map(check_field, parts))
        want(joined in (value, value[2:], value[4:]), f"the parts of {field}")
    return value


def same(found, wanted):
    want(list(map(type, found.values())) == [type(wanted.get(key)) for key in found] and found == wanted,
         f"it is to say {wanted}")


class Teller:
    """What is to be told, frame after frame."""

    def __init__(self, fields):
        self.fields = fields
        self.number = 0
        self.awaited = NOTHING
        self.tally = {}

    def counts(self, kind):
        self.tally[kind] = self.tally.get(kind, 0) + 1

    def fault(self, found, fault, **others):
        self.number += 1
        self.awaited = UNKNOWN
        self.counts("fault")
        same(found, dict(others, number=self.number, fault=fault))

    def frame(self, found, mark, data):
        self.number += 1
        code = int.from_bytes(data[6:10], "big") if len(data) >= 10 else None
        if not mark:
            mark = "<" if self.awaited != NOTHING and (len(data) == 10 or code == 0) else ">"
        awaited, self.awaited = self.awaited, NOTHING
        head = {"number": self.number, "kind": "command" if mark == ">" else "response",
                **header(mark, awaited, data, found)}
        if mark == ">":
            self.awaited = UNKNOWN if code is None else code
        elif awaited in (NOTHING, UNKNOWN) or awaited not in COMMANDS:
            self.counts("fault")
            return same(found, dict(head, fault=awaited if awaited == NOTHING else UNKNOWN))
        elif awaited not in PROFILE:
            members = behind(mark, awaited, data) if code == 0 else {}
            alone = code and len(data) == 10 and data[2:6] == bytes([0, 0, 0, 10])
            self.counts("other" if members or alone else "refused")
            return same(found, {**head, **members})
        if "refused" in found or "beyond" in found:
            members = behind(mark, awaited, data) if mark == ">" or code == 0 else {}
            return self.refused(found, head, members, (mark, code if mark == ">" else awaited), data)
        if mark == "<" and code:
            self.counts("code")
            return same(found, head)
        members = command(data) if mark == ">" else reply(awaited, data)
        self.counts(head["kind"])
        if self.fields:
            members["fields"] = found.get("fields")
            want(isinstance(members["fields"], list), "it has no list of fields")
            check_fields(members["fields"], bytes.fromhex(members["parameters"]))
        return same(found, {**head, **members})

    def refused(self, found, head, members, way, data):
        verdict = "beyond" if "beyond" in found else "refused"
        self.counts(verdict)
        code, at = found[verdict], found.get("at")
        want(isinstance(code, str) and re.fullmatch("[0-9a-f]{3}", code), "a refusal's code")
        want(type(at) is int and 0 <= at <= len(data), "the place of a refusal")
        larger = bool(members) and is_larger(way, int(code, 16), at, data)
        want((verdict == "beyond") == larger, "what is beyond the profile")
        same(found, {**head, verdict: code, "at": at, **name_of_code(found, "fault", int(code, 16)), **members})


def told(words, path, compare, teller):
    """The program over the file, each of whose lines is compared."""
    run = subprocess.Popen([PROGRAM, "show", "--json", *words, "--file", path], stdin=subprocess.DEVNULL,
                           stdout=subprocess.PIPE, stderr=subprocess.PIPE)
    line = b""

    def following():
        nonlocal line
        line = run.stdout.readline()
        return read(line)

    try:
        compare(following, teller)
        line = run.stdout.readline()
        want(not line, "a line too many")
    except (Wrong, KeyError, IndexError, TypeError, struct.error, UnicodeError) as error:
        run.kill()
        sys.exit(f"show --json {' '.join(words)}: behind frame {teller.number}: {error!r}: {line[:2000]!r}")
    errors = run.stderr.read()
    status = run.wait()
    bad = teller.tally.get("refused", 0) + teller.tally.get("fault", 0)
    if errors or status != (1 if bad else 0):
        sys.exit(f"show --json {' '.join(words)}: status {status}: {errors!r}")
    tally = ", ".join(f"{count} {kind}" for kind, count in sorted(teller.tally.items()))
    print(f"{' '.join(['--json', *words])}: {teller.number} objects:", tally)


def main(count=50_000, seed=1):
    frames = Frames(seed, count)

    def compare_lines(following, teller):
        for _, mark, data in frames.lines():
            if data is None:
                teller.fault(following(), mark)
            elif data is not False:
                teller.frame(following(), mark, data)

    def compare_stream(following, teller, fault):
        at = 0
        for data in frames.stream():
            teller.frame(following(), "", data)
            at += len(data)
        teller.fault(following(), fault, at=at)

    with tempfile.NamedTemporaryFile() as capture:
        for text, _, _ in frames.lines():
            capture.write(text.encode() + b"\n")
        capture.flush()
        told([], capture.name, compare_lines, Teller(False))
        told(["--fields"], capture.name, compare_lines, Teller(True))
    with tempfile.NamedTemporaryFile() as capture:
        for data in frames.stream():
            capture.write(data)
        capture.write(b"\x80")
        capture.flush()
        told(["--binary"], capture.name, lambda following, teller: compare_stream(following, teller, "cut short"),
             Teller(False))
        capture.write(b"\x01\x00\x00\x00\x09")
        capture.flush()
        told(["--binary", "--fields"], capture.name,
             lambda following, teller: compare_stream(following, teller, "bad size"), Teller(True))


if __name__ == "__main__":
    main(*map(int, sys.argv[1:]))
