"""Compares include/vinjakwe.h with the sources that it declares, both ways.

It reads the structures, the functions and the numbers of tpm_c, and the numbers of Part 2 where the other crates have
them, and says what only one side has. What a C compiler knows better, the types of functions and the places and sizes
of fields, it writes as a program of C, which only a header that agrees lets compile.
"""

import re
import sys

# The words that the header has in place of the crate's.
FIELDS = {"kind": "type", "event": "data"}
PLACES = {"device", "framer", "replay", "caller", "place"}
VIEWS = {"areas", "view"}
OPAQUE = ("device", "framer", "log_replay", "caller")
# How many bytes the numbers of these have where they stand in a buffer (Part 2); all others have four.
WIDTHS = {"TPM_ST": 2, "TPM_SU": 2, "TPM_SE": 1, "TPM_ALG": 2}
NUMBERS = {"u8": "uint8_t", "u16": "uint16_t", "u32": "uint32_t", "u64": "uint64_t", "usize": "size_t"}

faults = []


def source(crate, file):
    with open(f"crates/{crate}/src/{file}.rt", encoding="utf-8") as it:
        return it.read()


def snake(name):
    return re.sub(r"(?<=[a-z0-9])(?=[A-Z])", "_", name).lower()


def compare(what, header, crate):
    """The same names on both sides, each with the same value."""
    for name in sorted(header.keys() | crate.keys()):
        if header.get(name) != crate.get(name):
            faults.append(f"{what} {name}: {header.get(name, 'none')} in the header, {crate.get(name, 'none')} here")


# ---- numbers


def constants(crate, file, prefix="", types="u8|u16|u32|usize"):
    """The numbers of a file's constants, by their names behind a prefix."""
    found = re.findall(rf"const ([A-Z0-9_]+): (?:{types}) = (0x[0-9A-Fa-f_]+|[0-9_]+);", source(crate, file))
    return {prefix + name: int(value, 0) for name, value in found}


def arms(crate, file, owner, prefix):
    """The numbers of an enum's variants, as `Owner::Variant => N` gives them."""
    found = re.findall(rf"{owner}::(\w+)(?:\(_\))? => (0x[0-9A-Fa-f]+|[0-9]+),", source(crate, file))
    numbers = {}
    for name, value in found:
        numbers.setdefault(prefix + snake(name).upper(), int(value, 0))
    return numbers


def only(numbers, *names):
    return {name: numbers[name] for name in names if name in numbers}


def array_len(crate, file, element):
    return int(re.search(rf"\[{element}; ([0-9]+)\]", source(crate, file)).group(1))


def code_name_bytes():
    """How many bytes a name of a response code has at most: TPM_RC_, the name, and what it is about."""
    with_none, with_number = source("tpm_names", "codes").split("const WITH_NUMBER")
    longest = [max(map(len, re.findall(r'0x[0-9a-f]+ "(\w+)"', it))) for it in (with_none, with_number)]
    return len("TPM_RC_") + max(longest[0], longest[1] + len(" for parameter 15"))


def crate_numbers():
    statuses = only(constants("tpm_c", "part", "TPM_"), "TPM_DONE", "TPM_REFUSED", "TPM_NO_ROOM", "TPM_NO_COMMAND")
    quotes = constants("tpm_c", "quote", "TPM_QUOTE_") | {"TPM_QUOTE_MATCHES": statuses["TPM_DONE"]}
    attested = only(
        constants("tpm_c", "attest", "TPM_ATTEST_"),
        "TPM_ATTEST_NONCE", "TPM_ATTEST_LACKS", "TPM_ATTEST_EMPTY", "TPM_ATTEST_REQUIREMENT",
    ) | {name.replace("QUOTE", "ATTEST"): value for name, value in quotes.items()}
    faults_of_logs = arms("tpm_c", "log", "LogFaultKind", "TPM_LOG_") | {"TPM_LOG_DONE": statuses["TPM_DONE"]}
    # What a source of the library's says of itself: no slice of bytes has this fault.
    del faults_of_logs["TPM_LOG_DEVICE"]
    limits = constants("tpm_types", "limits")
    digest = limits["DIGEST_BYTES"]
    nonce = int(re.search(r"nonce: &\[u8; ([0-9]+)\]", source("tpm_c", "device")).group(1))
    return (
        statuses
        | quotes
        | attested
        | faults_of_logs
        | arms("tpm_c", "framer", "FramerState", "TPM_FRAMER_")
        | arms("tpm_c", "caller", "CallerFault", "TPM_CALLER_")
        | constants("tpm_c", "caller", "TPM_CALLER_")
        | {"TPM_CALLER_OPENED": statuses["TPM_DONE"]}
        | constants("tpm_c", "policy", "TPM_POLICY_")
        | only(constants("tpm_c", "log_event", "TPM_"), "TPM_EVENT")
        | only(constants("tpm_c", "record_text", "TPM_"), "TPM_TEXT", "TPM_TEXT_UTF16")
        | only(constants("tpm_c", "allowed", "TPM_"), "TPM_ALLOWED", "TPM_NOT_ALLOWED")
        | only(constants("tpm_c", "variable", "TPM_"), "TPM_VARIABLE")
        | only(constants("tpm_c", "image", "TPM_"), "TPM_IMAGE", "TPM_PATH_NODE")
        | constants("tpm_c", "content", "TPM_")
        | constants("tpm_c", "entry", "TPM_")
        | constants("tpm_c", "load_option", "TPM_")
        | constants("tpm_c", "signature_list", "TPM_")
        | arms("tpm_c", "content", "TypedValue", "TPM_HOLDS_")
        | {"TPM_TABLE_BYTES": constants("tpm_event_data", "handoffs")["ENTRY"]}
        | arms("tpm_c", "measured", "MeasuredPart", "TPM_MEASURED_")
        | constants("tpm_c", "signature", "TPM_ALG_", "u16")
        | arms("tpm_c", "secure_boot", "SecureBootState", "TPM_SECURE_BOOT_")
        | arms("tpm_c", "secure_boot", "SecureBootFaultKind", "TPM_SECURE_BOOT_")
        | constants("tpm_c", "secure_boot", "TPM_SECURE_BOOT_")
        | {"TPM_SECURE_BOOT_NO_BANK": quotes["TPM_QUOTE_NO_BANK"]}
        | only(constants("tpm_c", "handed", "TPM_"), "TPM_BUFFER_BYTES")
        | only(constants("tpm_c", "log", "TPM_"), "TPM_REGISTERS_BYTES")
        | only(constants("tpm_c", "kept", "TPM_"), "TPM_NO_COUNTER")
        | {
            "TPM_DEVICE_KEPT_BYTES": constants("tpm_nv", "kept")["KEPT_BYTES"],
            "TPM_OWNER_BYTES": digest,
            "TPM_NONCE_BYTES": nonce,
            "TPM_CODE_NAME_BYTES": code_name_bytes(),
            "TPM_LOG_NAME_BYTES": max(map(len, re.findall(r'[0-9]+ "([\w ]+)"', source("tpm_c", "answer_name")))),
            # a count, and of each bank its hash, a size and the bits of its registers
            "TPM_SELECTION_BYTES": 4 + limits["BANKS"] * (2 + 1 + constants("tpm_types", "tpms")["SELECT_BYTES"]),
            "TPM_POLICY_BYTES": array_len("tpm_c", "policy", "u8"),
            "TPM_RECORD_DIGESTS": array_len("tpm_c", "log_event", "TpmLogDigest"),
            "TPM_EVENT_TYPE_BYTES": max(
                map(len, re.findall(r'0x[0-9a-f_]+, "(EV_\w+)"', source("tpm_event_data", "event_types")))
            ),
        }
        | arms("tpm_types", "alg", "Alg", "TPM_ALG_")
        | only(constants("tpm_types", "tpmt", "TPM_ALG_"), "TPM_ALG_AES", "TPM_ALG_XOR", "TPM_ALG_NULL", "TPM_ALG_CFB")
        | only(constants("tpm_types", "handles", "TPM_"), "TPM_RH_OWNER", "TPM_RH_NULL", "TPM_RS_PW")
        | only(constants("tpm_buffer", "command_areas", "TPM_ST_"), "TPM_ST_NO_SESSIONS", "TPM_ST_SESSIONS")
        | arms("tpm_types", "constants", "StartupType", "TPM_SU_")
        | arms("tpm_types", "constants", "SessionType", "TPM_SE_")
        | constants("tpm_wire", "response_code", "TPM_RC_")
        | {"TPM_RC_SCHEME": constants("tpm_quote", "signature")["SCHEME"]}
        | arms("tpm_types", "command_code", "CommandCode", "TPM_CC_")
        # Numbers that the sources have within others (Part 2, 6.6.2 and 6.9).
        | {"TPM_RC_SUCCESS": 0, "TPM_RC_H": 0, "TPM_RC_P": 0x040, "TPM_RC_S": 0x800, "TPM_ST_RSP_COMMAND": 0x00C4}
        | {f"TPM_RC_{n}": 0x100 * n for n in range(1, 8)}
    )


def header_numbers(header):
    form = r"^#define (TPM_\w+)\s+(?:\(\(uint(?:8|16|32)_t\))?(0x[0-9A-Fa-f]+|[0-9]+)\)?"
    return {name: int(value, 0) for name, value in re.findall(form, header, re.M)}


def as_variant(name):
    """Commands have names of several words in the header, which their variants join."""
    return snake(name).upper() if name.startswith("TPM_CC_") else name


def write_numbers(numbers):
    """A number has its value as C reads it, too: no type is too narrow, or wider than the number in a buffer."""
    for name, value in numbers.items():
        width = WIDTHS.get("_".join(name.split("_")[:2]), 4)
        print(f'_Static_assert({name} == {value}u && sizeof({name}) == {width}, "{name}");')


def compare_versions(header):
    whole = re.search(r'^#define VINJAKWE_VERSION "([0-9.]+)"$', header, re.M)[1]
    parts = [
        re.search(rf"^#define VINJAKWE_VERSION_{it} ([0-9]+)$", header, re.M)[1] for it in ("MAJOR", "MINOR", "PATCH")
    ]
    if whole != ".".join(parts):
        faults.append(f"version {whole} has the parts {parts}")


# ---- structures and functions


def c_type(kind, name):
    """The declarations of C that a parameter or a field of this type has."""
    if kind in NUMBERS:
        return [f"{NUMBERS[kind]} {name}"]
    if kind in ("*mut u8", "*const u8"):
        return [f"{'const ' if kind == '*const u8' else ''}PLACE *{name}"]
    if found := re.fullmatch(r"\[(\w+); ([0-9]+)\]", kind):
        return [f"{c_type(found[1], name)[0]}[{found[2]}]"]
    if found := re.fullmatch(r"&(mut )?\[(\w+)(; [0-9]+)?\]", kind):
        pointer = f"{'' if found[1] else 'const '}{c_type(found[2], f'*{name}')[0]}"
        return [pointer] if found[3] else [pointer, f"size_t {name}_len"]
    if found := re.fullmatch(r"&(mut )?(\w+)", kind):
        return [f"{'' if found[1] else 'const '}{c_type(found[2], '*' + name)[0]}"]
    return [f"struct {snake(kind)} {name}"]


def crate_structs(text):
    for name, body in re.findall(r"#\[repr\(C\)\]\s*(?:#\[[^\]]*\]\s*)*pub struct (\w+) \{(.*?)\n\}", text, re.S):
        fields = re.findall(r"^    pub (\w+): ([^\n]+),$", body, re.M)
        yield snake(name), [(FIELDS.get(field, field), kind) for field, kind in fields]


def header_structs(header):
    for name, body in re.findall(r"^struct (tpm_\w+) \{(.*?)^\};", header, re.M | re.S):
        yield name, re.findall(r"(\w+)(?:\[\w+\])?;", body)


def crate_functions(text):
    form = r'pub (?:unsafe )?extern "C" fn (\w+)\((.*?)\)(?: -> (\w+))?\s*\n'
    for name, arguments, result in re.findall(form, text, re.S):
        yield name, re.findall(r"(\w+): ([^,()]+)", arguments), result


def words_of(arguments):
    """The names of a function's parameters, each slice with its length behind it."""
    for word, kind in arguments:
        yield from [word, f"{word}_len"] if re.fullmatch(r"&(mut )?\[\w+\]", kind.strip()) else [word]


def header_functions(header):
    for name, arguments in re.findall(r"^\w+ (tpm_\w+)\(([^)]*)\);", header, re.M | re.S):
        words = [re.search(r"(\w+)\s*$", it)[1] for it in arguments.split(",")]
        # The length of the first bytes is called `len` where there is one alone.
        yield name, [f"{words[i - 1]}_len" if it == "len" else it for i, it in enumerate(words) if it != "void"]


def same_words(crate, header):
    """The parameters of a function are named alike, but for where the header says what lies at a place."""
    return len(crate) == len(header) and all(
        here == there or (here == "place" and there in PLACES) or (here == "view" and there in VIEWS)
        for here, there in zip(crate, header)
    )


def write_structs(text, header):
    declared = dict(header_structs(header))
    written = dict(crate_structs(text))
    compare("structure", declared, {name: [field for field, _ in fields] for name, fields in written.items()})
    for name, fields in written.items():
        if name not in declared:
            continue
        print(f"struct here_{name} {{ {' '.join(f'{c_type(kind, field)[0]};' for field, kind in fields)} }};")
        same("sizeof(struct {0})", name)
        for field, _ in fields:
            same(f"offsetof(struct {{0}}, {field})", name)
            same(f"sizeof(((struct {{0}} *)0)->{field})", name)


def same(what, name):
    print(f'_Static_assert({what.format(name)} == {what.format("here_" + name)}, "{what.format(name)}");')


def write_functions(text, header):
    declared = dict(header_functions(header))
    written = {name: (arguments, result) for name, arguments, result in crate_functions(text)}
    for name in sorted(declared.keys() ^ written.keys()):
        faults.append(f"function {name}: only in {'the header' if name in declared else 'the crate'}")
    for name in sorted(declared.keys() & written.keys()):
        arguments, result = written[name]
        if not same_words(list(words_of(arguments)), declared[name]):
            faults.append(f"function {name}: its parameters are {declared[name]} in the header")
        place = next((f"struct tpm_{it}" for it in OPAQUE if name.startswith(f"tpm_{it}_")), "void")
        types = [it.replace("PLACE", place) for word, kind in arguments for it in c_type(kind.strip(), word)]
        print(f"{NUMBERS.get(result, 'void')} {name}({', '.join(types) or 'void'});")


def main():
    with open("include/vinjakwe.h", encoding="utf-8") as it:
        header = it.read()
    text = "\n".join(source("tpm_c", file) for file in sys.argv[1:])
    plain = re.sub(r"/\*.*?\*/", "", header, flags=re.S)
    numbers = header_numbers(header)
    compare("number", {as_variant(name): value for name, value in numbers.items()}, crate_numbers())
    compare_versions(header)
    print('#include "vinjakwe.h"\n')
    write_numbers(numbers)
    write_structs(text, plain)
    write_functions(text, plain)
    print("\n".join(faults), file=sys.stderr)
    return 1 if faults else 0


sys.exit(main())
