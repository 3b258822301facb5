"""Commands and responses of a TPM 2.0, logs of a measured boot, and quotes, judged by the library vinjakwe.

Bytes are anything with the buffer protocol, and are lent to the library without a copy. A call over logs or quotes lets
other threads run where all that it is lent are `bytes`, which nobody can change. Every other call holds the
interpreter's lock until it returns, so that no other thread changes its bytes or its state meanwhile. A map of a file
has to be left alone by other processes.
"""
from __future__ import annotations

import ctypes
import enum
import importlib
import json
import os
import re
import uuid
from contextlib import contextmanager
from ctypes import POINTER, Structure, byref, c_size_t, c_uint8, c_uint16, c_uint32, c_uint64, c_void_p
from ctypes.util import find_library
from dataclasses import dataclass
from mmap import mmap
from pathlib import Path
from struct import pack
from typing import (
    TYPE_CHECKING, Any, BinaryIO, Callable, Dict, Final, Iterable, Iterator, Literal, NamedTuple, Tuple, Union,
)

if TYPE_CHECKING:
    from _typeshed import ReadableBuffer as Buffer

    Log = Union[Buffer, BinaryIO, str, os.PathLike[str]]
    Selected = Union[Buffer, str]

__all__ = [
    "ANY_NONCE", "ANY_SELECTION", "Attest", "BootOrder", "BrokenStream", "BUFFER_BYTES", "Caller", "CODES", "Command",
    "COMMANDS", "Content", "Counter", "Device", "Event", "Evidence", "Firmware", "Framer", "HASHES", "Holding", "Image",
    "Kind", "LibraryError", "LoadOption", "Locality", "LogFault", "Measurement", "Mismatch", "NONCE_BYTES", "Owned",
    "OWNER_BYTES", "Partition", "Partitions", "PathNode", "Policy", "Refusal", "Registers", "Response", "SecureBoot",
    "SecureBootFault", "SecureBootState", "Separator", "Session", "Signature", "SignatureList", "SignatureLists",
    "SizedAttest", "Table", "Tables", "Tag", "Text", "Variable", "Verdict", "Version", "build_command", "changes_nv",
    "check", "check_quote", "code_name", "content", "decode_attest", "decode_command", "decode_response",
    "decode_signature", "event_type_name", "events", "image", "measured", "path_text", "replay", "secure_boot",
    "selection", "text", "variable", "verify", "vouched", "vouched_text", "vouched_variable",
]
__version__ = "0.1.0"

# As in vinjakwe.h, with which a test compares them.
BUFFER_BYTES, OWNER_BYTES, NONCE_BYTES = 4096, 48, 64
REGISTERS_BYTES, DEVICE_KEPT_BYTES, SELECTION_BYTES = 2400, 1026, 22
EVENT_TYPE_BYTES, CODE_NAME_BYTES, LOG_NAME_BYTES = 32, 37, 19
HASHES = {"sha1": 0x0004, "sha256": 0x000B, "sha384": 0x000C}
SCHEMES = {"rsassa": 0x0014, "rsapss": 0x0016, "ecdsa": 0x0018}
MEASURED = {"data": 36, "variable": 37, "text": 38, "cut": 39, "other": 40}
COMMANDS = {
    "NV_UndefineSpace": 0x122, "NV_DefineSpace": 0x12A, "NV_Increment": 0x134, "PCR_Event": 0x13C, "PCR_Reset": 0x13D,
    "Startup": 0x144, "NV_Read": 0x14E, "FlushContext": 0x165, "NV_ReadPublic": 0x169, "PolicyAuthValue": 0x16B,
    "PolicyCommandCode": 0x16C, "PolicyOR": 0x171, "StartAuthSession": 0x176, "PCR_Read": 0x17E, "PolicyPCR": 0x17F,
    "PolicyRestart": 0x180, "PCR_Extend": 0x182, "PolicyGetDigest": 0x189,
}
CODES = {
    "SUCCESS": 0x000, "BAD_TAG": 0x01E, "INITIALIZE": 0x100, "AUTH_MISSING": 0x125, "PCR_CHANGED": 0x128,
    "AUTH_UNAVAILABLE": 0x12F, "COMMAND_SIZE": 0x142, "COMMAND_CODE": 0x143, "AUTHSIZE": 0x144, "AUTH_CONTEXT": 0x145,
    "NV_RANGE": 0x146, "NV_AUTHORIZATION": 0x149, "NV_UNINITIALIZED": 0x14A, "NV_SPACE": 0x14B, "NV_DEFINED": 0x14C,
    "SESSION_MEMORY": 0x903, "LOCALITY": 0x907, "REFERENCE_H0": 0x910, "REFERENCE_S0": 0x918, "ATTRIBUTES": 0x082,
    "HASH": 0x083, "VALUE": 0x084, "MODE": 0x089, "HANDLE": 0x08B, "AUTH_FAIL": 0x08E, "NONCE": 0x08F, "SCHEME": 0x092,
    "SIZE": 0x095, "SYMMETRIC": 0x096, "INSUFFICIENT": 0x09A, "POLICY_FAIL": 0x09D, "INTEGRITY": 0x09F,
    "RESERVED_BITS": 0x0A1, "BAD_AUTH": 0x0A2, "POLICY_CC": 0x0A4,
}
_DONE, _REFUSED, _NO_ROOM, _NO_COMMAND = range(4)
_FRAMER_MORE, _FRAMER_READY, _FRAMER_BROKEN = range(3)
_EVENT, _VARIABLE, _TEXT, _TEXT_UTF16, _CALLER_OPENED = 32, 33, 34, 35, 0
_NOT_ALLOWED, _IMAGE, _PATH_NODE = 42, 43, 44
_VERSION, _VERSION_GUID, _SEPARATOR, _LOCALITY, _FIRMWARE, _TABLES, _TAG = range(80, 87)
_PARTITIONS, _MEASUREMENT, _EVIDENCE, _PARTITION, _TABLE, _SIGNATURE_LIST, _OWNED = range(87, 94)
_LOAD_OPTION, _DEVICE_PATH = 94, 95
_HOLDS_LOAD_OPTION, _HOLDS_BOOT_ORDER, _HOLDS_SIGNATURES, _HOLDS_SIGNATURE, _HOLDS_BYTE = range(96, 101)
_TABLE_BYTES = 24
_LOG_DONE, _ATTEST_DIFFERS, _ATTEST_REFUSED, _ATTEST_NO_BANK, _ATTEST_REQUIREMENT = 0, 16, 17, 18, 22
_POLICY_NO_DIGEST = 5
_SECURE_BOOT_NO_ROOM, _SECURE_BOOT_NOT_MEASURED = 51, 64
_DIGESTS = {"sha1": (0, 20), "sha256": (480, 32), "sha384": (1248, 48)}
_COMMAND_NAMES = {number: name for name, number in COMMANDS.items()}
_HASH_NAMES = {number: name for name, number in HASHES.items()}
_SCHEME_NAMES = {number: name for name, number in SCHEMES.items()}
_MEASURED_NAMES = {number: name for name, number in MEASURED.items()}


class LibraryError(ImportError):
    """The library is not found, or has another version than this package."""


def code_name(code: int) -> str:
    """The name of a response code in Part 2, 6.6.3, with the handle, session or parameter that it tells, or its
    number."""
    out = (c_uint8 * CODE_NAME_BYTES)()
    size = _library.tpm_code_name(code, out, CODE_NAME_BYTES) if 0 <= code < 1 << 32 else 0
    return bytes(out[:size]).decode("ascii") or f"{code:#x}"


def _answer_name(answer: int) -> str:
    """The name of what a call on a log or a quote answered, as `Truncated`, `NotMeasured` or `nonce differs`."""
    out = (c_uint8 * LOG_NAME_BYTES)()
    return bytes(out[:_library.tpm_log_answer_name(answer, out, LOG_NAME_BYTES)]).decode("ascii")


class Refusal(ValueError):
    """The bytes are refused: the TPM's response code and its name, 0 and none where it isn't told, and how many bytes
    are before the first fault."""

    def __init__(self, code: int, at: int) -> None:
        self.code, self.at, self.name = code, at, code_name(code) if code else ""
        super().__init__(f"refused {code:03x} at {at}: {self.name}" if code else f"refused at {at}")

    def __reduce__(self) -> tuple[type[Refusal], tuple[int, int]]:
        return Refusal, (self.code, self.at)


class SizedAttest(Refusal):
    """The bytes are a TPM2B_ATTEST: a size of 2 bytes stands before the TPMS_ATTEST, which is what is signed."""

    def __init__(self, code: int, at: int) -> None:
        super().__init__(code, at)
        self.args = ("a size stands before it: this is a TPM2B_ATTEST, whose TPMS_ATTEST is behind its first 2 bytes",)

    def __reduce__(self) -> tuple[type[Refusal], tuple[int, int]]:
        return SizedAttest, (self.code, self.at)


class LogFault(ValueError):
    """The log is none: the kind of its first fault, as `Truncated`, and how many bytes are before it."""

    def __init__(self, kind: int, at: int) -> None:
        self.kind, self.at = _answer_name(kind), at
        super().__init__(f"log {self.kind} at {at}")
        self._number = kind

    def __reduce__(self) -> tuple[type[LogFault], tuple[int, int]]:
        return LogFault, (self._number, self.at)


class SecureBootFault(ValueError):
    """The records of register 7 tell nothing of Secure Boot: the kind of the first fault, as `NotMeasured`, and how
    many bytes of the log precede the record that has it, or how many there are, where something is missing at the
    end."""

    def __init__(self, kind: int, at: int) -> None:
        self.kind, self.at = _answer_name(kind), at
        super().__init__(f"secure boot unknown {self.kind} at {at}")
        self._number = kind

    def __reduce__(self) -> tuple[type[SecureBootFault], tuple[int, int]]:
        return SecureBootFault, (self._number, self.at)


class BrokenStream(ValueError):
    """A stream has a buffer whose size field is none of 10 to 4,096. `frames`: the buffers that the same piece ended
    before it."""

    def __init__(self, frames: list[bytes]) -> None:
        super().__init__("no buffer has the size that was stated")
        self.frames = frames

    def __reduce__(self) -> tuple[type[BrokenStream], tuple[list[bytes]]]:
        return BrokenStream, (self.frames,)


class _Refusal(Structure):
    _fields_ = [("code", c_uint32), ("at", c_uint32)]


class _Part(Structure):
    _fields_ = [("at", c_size_t), ("len", c_size_t)]


class _CommandSession(Structure):
    _fields_ = [("handle", c_uint32), ("attributes", c_uint8), ("nonce", _Part), ("hmac", _Part)]


class _CommandAreas(Structure):
    _fields_ = [("code", c_uint32), ("size", c_size_t), ("handle_count", c_size_t), ("handles", c_uint32 * 2),
                ("session_count", c_size_t), ("sessions", _CommandSession * 3), ("parameters", _Part)]


class _ResponseSession(Structure):
    _fields_ = [("attributes", c_uint8), ("nonce", _Part), ("hmac", _Part)]


class _ResponseAreas(Structure):
    _fields_ = [("code", c_uint32), ("handle_count", c_size_t), ("handle", c_uint32), ("parameters", _Part),
                ("session_count", c_size_t), ("sessions", _ResponseSession * 3)]


class _LogPlace(Structure):
    _fields_ = [("at", c_uint32), ("late", c_uint32)]


class _LogDigest(Structure):
    _fields_ = [("hash", c_uint16), ("hashed", c_uint8), ("digest", _Part)]


class _LogEvent(Structure):
    _fields_ = [("at", c_uint32), ("pcr", c_uint32), ("type", c_uint32), ("digest_count", c_size_t),
                ("digests", _LogDigest * 8), ("data", _Part)]


class _Variable(Structure):
    _fields_ = [("guid", _Part), ("name", _Part), ("value", _Part)]


class _Image(Structure):
    _fields_ = [("address", c_uint64), ("size", c_uint64), ("link_address", c_uint64), ("path", _Part)]


class _PathNode(Structure):
    _fields_ = [("type", c_uint8), ("subtype", c_uint8), ("value", _Part)]


class _Firmware(Structure):
    _fields_ = [("base", c_uint64), ("size", c_uint64), ("name", _Part)]


class _Tables(Structure):
    _fields_ = [("name", _Part), ("count", c_size_t), ("entries", _Part)]


class _Tag(Structure):
    _fields_ = [("id", c_uint32), ("value", _Part)]


class _Partitions(Structure):
    _fields_ = [("disk", _Part), ("count", c_size_t), ("entry_size", c_size_t), ("entries", _Part)]


class _Measurement(Structure):
    _fields_ = [("hash", c_uint32), ("device_type", c_uint32), ("block", _Part), ("context", _Part)]


class _Evidence(Structure):
    _fields_ = [("auth_state", c_uint8), ("device_type", c_uint32), ("sub_header_type", c_uint32), ("uid", c_uint64),
                ("path", _Part), ("sub_header", _Part), ("context", _Part)]


class _Content(Structure):
    _fields_ = [("variable", _Variable), ("holds", c_uint32), ("text", _Part), ("number", c_uint32), ("image", _Image),
                ("firmware", _Firmware), ("tables", _Tables), ("tag", _Tag), ("partitions", _Partitions),
                ("measurement", _Measurement), ("evidence", _Evidence)]


class _Partition(Structure):
    _fields_ = [("type", _Part), ("guid", _Part), ("first", c_uint64), ("last", c_uint64), ("attributes", c_uint64),
                ("name", _Part)]


class _Table(Structure):
    _fields_ = [("guid", _Part), ("address", c_uint64)]


class _SignatureList(Structure):
    _fields_ = [("type", _Part), ("header", _Part), ("count", c_size_t), ("entry_size", c_size_t), ("entries", _Part)]


class _Owned(Structure):
    _fields_ = [("owner", _Part), ("value", _Part)]


class _LoadOption(Structure):
    _fields_ = [("attributes", c_uint32), ("description", _Part), ("path", _Part), ("value", _Part)]


class _SecureBoot(Structure):
    _fields_ = [("dma_protection_disabled", c_uint32), ("pk", c_uint32), ("kek", c_uint32), ("db", c_uint32),
                ("dbx", c_uint32)]


class _Attest(Structure):
    _fields_ = [("signer", _Part), ("nonce", _Part), ("clock", c_uint64), ("reset_count", c_uint32),
                ("restart_count", c_uint32), ("safe", c_uint8), ("firmware_version", c_uint64), ("selections", _Part),
                ("digest", _Part)]


class _Signature(Structure):
    _fields_ = [("scheme", c_uint16), ("hash", c_uint16), ("sig", _Part), ("r", _Part), ("s", _Part)]


class _AttestFault(Structure):
    _fields_ = [("code", c_uint32), ("at", c_uint32), ("hash", c_uint16), ("pcr", c_uint32)]


class _AllowedDigest(Structure):
    _fields_ = [("pcr", c_uint32), ("hash", c_uint16), ("digest", c_uint8 * 48)]


class _Counter(Structure):
    _fields_ = [("index", c_uint32), ("hash", c_uint16), ("attributes", c_uint32), ("value", c_uint64),
                ("policy_len", c_size_t), ("policy", c_uint8 * 48), ("has_auth", c_uint32)]


class _Policy(Structure):
    _fields_ = [("hash", c_uint16), ("digest", c_uint8 * 48)]


def _file_name() -> str:
    """The library's file: the one that is named, or that lies in the package (as in a wheel), or that the system
    finds."""
    within = Path(__file__).with_name("libvinjakwe.so.0")
    return (os.environ.get("VINJAKWE_LIBRARY")
            or (str(within) if within.exists() else find_library("vinjakwe"))
            or "libvinjakwe.so.0")


def _load() -> tuple[ctypes.PyDLL, ctypes.CDLL]:
    """The library, whose calls hold the interpreter's lock, and the same for calls that let it go."""
    name = _file_name()
    try:
        library, unlocked = ctypes.PyDLL(name), ctypes.CDLL(name)
    except OSError as error:
        raise LibraryError(f"the library vinjakwe is not found ({error}): install it, "
                           "or name its file in VINJAKWE_LIBRARY") from None
    try:
        found = ctypes.string_at(ctypes.addressof(ctypes.c_char.in_dll(library, "vinjakwe_version"))).decode()
    except ValueError:
        raise LibraryError(f"{name} is not the library vinjakwe, which tells its version") from None
    if found != __version__:
        raise LibraryError(f"{name} has version {found}, and this package is for {__version__}")
    p, size, number, refusal, count = c_void_p, c_size_t, c_uint32, POINTER(_Refusal), POINTER(c_uint32)
    states = ("device", "framer", "log_replay", "caller")
    rooms: list[tuple[str, Any, list[Any]]] = [
        (f"{state}_{what}", size, []) for state in states for what in ("size", "align")]
    for function, result, words in rooms + [
        ("device_init", number, [p, p, size, c_uint64]), ("device_power_cycle", None, [p]),
        ("device_execute", size, [p, p, size, p, p, size]), ("device_keep", size, [p, p, size]),
        ("device_restore", number, [p, p, size, p, size, refusal]), ("device_greatest", c_uint64, [p]),
        ("device_session_hash", c_uint16, [p, number]), ("device_counters", size, [p]),
        ("device_counter", number, [p, size, POINTER(_Counter)]), ("device_changes_nv", number, [p, size, p, size]),
        ("framer_init", None, [p]), ("framer_push", size, [p, p, size, count]), ("framer_frame", size, [p, p, size]),
        ("framer_next", None, [p]),
        ("command_cut", number, [p, size, POINTER(_CommandAreas), refusal]),
        ("command_decode", number, [p, size, refusal]),
        ("response_cut", number, [number, p, size, POINTER(_ResponseAreas), refusal]),
        ("response_decode", number, [number, p, size, refusal]),
        ("command_build", number, [number, p, size, p, size, p, size, p, size, POINTER(size), refusal]),
        ("log_replay", number, [p, size, p, count]), ("log_replay_init", None, [p]),
        ("log_replay_feed", number, [p, p, size, count]), ("log_replay_end", number, [p, p, count]),
        ("log_event", number, [p, size, POINTER(_LogPlace), POINTER(_LogEvent), count]),
        ("event_type_name", size, [number, p, size]), ("log_text", number, [number, p, size, POINTER(_Part)]),
        ("log_variable", number, [number, p, size, POINTER(_Variable)]),
        ("log_image", number, [number, p, size, POINTER(_Image)]),
        ("log_path_node", number, [p, size, POINTER(_PathNode)]),
        ("log_event_content", number, [number, p, size, POINTER(_Content)]),
        ("log_event_json", size, [p, size, number, size, p, size]), ("log_path_json", size, [p, size, p, size]),
        ("log_partition", number, [p, size, POINTER(_Partition)]), ("log_table", number, [p, size, POINTER(_Table)]),
        ("log_signature_list", number, [p, size, POINTER(_SignatureList)]),
        ("log_owned", number, [p, size, POINTER(_Owned)]),
        ("log_load_option", number, [p, size, POINTER(_LoadOption)]),
        ("log_device_path", number, [p, size, POINTER(_Part)]),
        ("log_secure_boot", number, [p, size, c_uint16, POINTER(_SecureBoot), p, size, POINTER(size), count]),
        ("log_check_quote", number, [p, size, p, size, c_uint16, count]),
        ("log_check_attest", number, [p, size, p, size, c_uint16, p, size, p, size, POINTER(_AttestFault)]),
        ("attest_decode", number, [p, size, POINTER(_Attest), refusal]),
        ("signature_decode", number, [p, size, POINTER(_Signature), refusal]),
        ("code_name", size, [number, p, size]), ("log_answer_name", size, [number, p, size]),
        ("selection", size, [p, size, p, size]),
        ("log_measured", number, [number, p, size, c_uint16, p, size]),
        ("log_vouched", number, [p, size, number, number, p, size, c_uint16, p, size]),
        ("log_allowed", number, [p, size, number, number, c_uint16, p, size]),
        ("caller_init", None, [p]), ("caller_start", number, [p, p, size, p, size, p, size]),
        ("caller_seal", size, [p, p, size, p, size, p, size, p, size, p, size, number, p, size]),
        ("caller_open", number, [p, p, size]), ("caller_give_up", number, [p, p, size]),
        ("policy_start", number, [p, c_uint16]), ("policy_restart", number, [p]),
        ("policy_pcr", number, [p, p, size, p, size, refusal]), ("policy_or", number, [p, p, size, refusal]),
        ("policy_command_code", number, [p, number]), ("policy_auth_value", number, [p]),
    ]:
        for it in library, unlocked:
            call = getattr(it, "tpm_" + function)
            call.restype, call.argtypes = result, words
    return library, unlocked


_library, _unlocked = _load()


class _View(Structure):
    """Py_buffer of the interpreter's C interface, whose layout is part of its stable binary interface."""

    _fields_ = [("buf", c_void_p), ("obj", ctypes.py_object), ("len", ctypes.c_ssize_t), ("itemsize", ctypes.c_ssize_t),
                ("readonly", ctypes.c_int), ("ndim", ctypes.c_int), ("rest", c_void_p * 5)]


_borrow, _give_back = ctypes.pythonapi.PyObject_GetBuffer, ctypes.pythonapi.PyBuffer_Release
_borrow.argtypes, _borrow.restype = [ctypes.py_object, POINTER(_View), ctypes.c_int], ctypes.c_int
_give_back.argtypes, _give_back.restype = [POINTER(_View)], None
_nothing = ctypes.create_string_buffer(1)


def _lend(call: Callable[..., int], *words: Any) -> int:
    """Calls the function with these words, where a tuple of one object lends its bytes, as their address and their
    number."""
    views: list[_View] = []
    given: list[Any] = []
    try:
        for word in words:
            if not isinstance(word, tuple):
                given.append(word)
                continue
            view = _View()
            _borrow(word[0], byref(view), 0)
            views.append(view)
            given += [view.buf or ctypes.addressof(_nothing), view.len]
        return call(*given)
    finally:
        for view in views:
            _give_back(byref(view))


def _lend_long(name: str, *words: Any) -> int:
    """As _lend, for a call that may take long: other threads run meanwhile where nobody can change what is lent."""
    is_fixed = all(type(word[0]) is bytes for word in words if isinstance(word, tuple))
    return _lend(getattr(_unlocked if is_fixed else _library, name), *words)


def _judge(call: Callable[..., int], *words: Any) -> None:
    """Makes a call whose last word is a refusal, and raises it."""
    refusal = _Refusal()
    answer = _lend(call, *words, byref(refusal))
    if answer == _NO_COMMAND:
        raise ValueError("no command has this number")
    if answer == _REFUSED:
        raise Refusal(refusal.code, refusal.at)


def _raise_fault(answer: int, at: int, code: int = 0) -> None:
    """Raises the fault of a log or of a quote beside it, if this answer is one."""
    if _LOG_DONE < answer < _ATTEST_DIFFERS:
        raise LogFault(answer, at)
    if answer == _ATTEST_REFUSED:
        raise Refusal(code, at)


def _room(what: str) -> ctypes.Array[c_uint8]:
    """Memory for a device, a framer, a replay or a caller, at the place that it wants."""
    size, align = getattr(_library, f"tpm_{what}_size")(), getattr(_library, f"tpm_{what}_align")()
    whole = (c_uint8 * (size + align))()
    room: ctypes.Array[c_uint8] = (c_uint8 * size).from_buffer(whole, -ctypes.addressof(whole) % align)
    return room


def _part(view: memoryview, it: _Part) -> bytes:
    return bytes(view[it.at:it.at + it.len])


def _number(command: str | int) -> int:
    if isinstance(command, str):
        if command not in COMMANDS:
            raise ValueError(f"no command has the name {command}")
        return COMMANDS[command]
    if not 0 <= command < 1 << 32:
        raise ValueError("no command has this number")
    return command


def _hash(name: str) -> int:
    if name not in HASHES:
        raise ValueError(f"no bank has the hash {name}: it is none of {', '.join(HASHES)}")
    return HASHES[name]


class Session(NamedTuple):
    """A session of a command or of a response, of which a response's has no handle."""

    handle: int | None
    nonce: bytes
    attributes: int
    hmac: bytes


def _sessions(view: memoryview, areas: _CommandAreas | _ResponseAreas) -> tuple[Session, ...]:
    return tuple(Session(getattr(it, "handle", None), _part(view, it.nonce), it.attributes, _part(view, it.hmac))
                 for it in areas.sessions[:areas.session_count])


class Command(NamedTuple):
    """A command by its parts: its parameters are bytes, as they stand in it."""

    code: int
    name: str
    size: int
    handles: tuple[int, ...]
    sessions: tuple[Session, ...]
    parameters: bytes


class Response(NamedTuple):
    """Of a response whose code is not 0 nothing else is there."""

    code: int
    handle: int | None
    parameters: bytes
    sessions: tuple[Session, ...]


def decode_command(data: Buffer) -> Command:
    """The command that all the bytes spell. Raises Refusal."""
    it = _CommandAreas()
    _judge(_library.tpm_command_decode, (data,))
    _judge(_library.tpm_command_cut, (data,), byref(it))
    with memoryview(data).cast("B") as view:
        handles = tuple(it.handles[:it.handle_count])
        return Command(it.code, _COMMAND_NAMES[it.code], it.size, handles, _sessions(view, it),
                       _part(view, it.parameters))


def decode_response(command: str | int, data: Buffer) -> Response:
    """The response that all the bytes spell to the command of this name or number. Raises Refusal."""
    it, number = _ResponseAreas(), _number(command)
    _judge(_library.tpm_response_decode, number, (data,))
    _judge(_library.tpm_response_cut, number, (data,), byref(it))
    with memoryview(data).cast("B") as view:
        return Response(it.code, it.handle if it.handle_count else None, _part(view, it.parameters),
                        _sessions(view, it))


def build_command(command: str | int, handles: Buffer = b"", sessions: Buffer = b"", parameters: Buffer = b"") -> bytes:
    """The command of this name or number, joined from the bytes of its parts. Raises Refusal where they spell none."""
    out, count = (c_uint8 * BUFFER_BYTES)(), c_size_t()
    _judge(_library.tpm_command_build, _number(command), (handles,), (sessions,), (parameters,), out, BUFFER_BYTES,
           byref(count))
    return bytes(out[:count.value])


class Framer:
    """Cuts a stream into its buffers, each of which states its size."""

    def __init__(self) -> None:
        self._room = _room("framer")
        _library.tpm_framer_init(self._room)
        self.within = False
        """Whether the stream stands inside a buffer."""

    def push(self, piece: Buffer) -> list[bytes]:
        """The buffers that end in this piece. Raises BrokenStream, now and from now on."""
        frames, status, out, rest = [], c_uint32(), (c_uint8 * BUFFER_BYTES)(), memoryview(piece).cast("B")
        while True:
            taken = _lend(_library.tpm_framer_push, self._room, (rest,), byref(status))
            rest = rest[taken:]
            if status.value == _FRAMER_READY:
                frames.append(bytes(out[:_library.tpm_framer_frame(self._room, out, BUFFER_BYTES)]))
                _library.tpm_framer_next(self._room)
                self.within = False
            elif status.value == _FRAMER_BROKEN:
                raise BrokenStream(frames)
            else:
                self.within = self.within or taken > 0
            if not len(rest):
                return frames


Registers = Dict[str, Tuple[bytes, ...]]


def _whole(log: Log) -> Buffer:
    """The bytes of a log that is given by its bytes, by a path, or by a file that is read to its end."""
    if isinstance(log, (str, os.PathLike)):
        return Path(log).read_bytes()
    return log.read() if hasattr(log, "read") and not isinstance(log, mmap) else log


def replay(log: Log) -> Registers:
    """The 24 registers of each bank, by the hash's name, after a log: its bytes, its path, or a file that is read to
    its end, of which 65,536 bytes are held at once. Raises LogFault."""
    out, at = (c_uint8 * REGISTERS_BYTES)(), c_uint32()
    if isinstance(log, (str, os.PathLike)):
        with open(log, "rb") as file:
            kind = _replay_file(file.read, out, at)
    elif hasattr(log, "read") and not isinstance(log, mmap):
        kind = _replay_file(log.read, out, at)
    else:
        kind = _lend_long("tpm_log_replay", (log,), out, byref(at))
    _raise_fault(kind, at.value)
    whole = bytes(out)
    return {name: tuple(whole[start + size * i:][:size] for i in range(24)) for name, (start, size) in _DIGESTS.items()}


def _replay_file(read: Callable[[int], bytes], out: ctypes.Array[c_uint8], at: c_uint32) -> int:
    room = _room("log_replay")
    _library.tpm_log_replay_init(room)
    while piece := read(1 << 16):
        if kind := _lend(_library.tpm_log_replay_feed, room, (piece,), byref(at)):
            return kind
    return int(_library.tpm_log_replay_end(room, out, byref(at)))


class _Event(NamedTuple):
    number: int
    at: int
    register: int
    type: int
    digests: dict[str | int, bytes]
    data: bytes
    hashed: tuple[str | int, ...]


class Event(_Event):
    """A record of a log: its place among them from 1 on, how many bytes of the log precede it, its register, its type,
    the digests and the event's data. A hash is told by its name in HASHES, or else by its number. `hashed`: those whose
    digest is that hash of the data; another is not wrong."""

    _log: Buffer = b""

    @property
    def content(self) -> Content | None:
        """What the data say: `content` of the record."""
        return content(self)

    @property
    def json(self) -> str:
        """The object that `tpmtool events --json` prints of the record, which `events` gave: the log is read again.
        Raises ValueError where it hasn't the record any more, or the record was pickled."""
        return _json(len(self.data), "tpm_log_event_json", (self._log,), self.at, self.number)

    def __reduce__(self) -> tuple[type[Event], tuple[Any, ...]]:
        return Event, tuple(self)


def _json(size: int, name: str, *words: Any) -> str:
    """The JSON that the call of this name writes of so many bytes."""
    room = (c_uint8 * (4096 + 16 * size))()
    count = _lend_long(name, *words, room, len(room))
    if not count:
        raise ValueError("the log has no such record")
    return ctypes.string_at(room, count).decode("ascii")


def events(log: Log) -> Iterator[Event]:
    """The records of a log, one by one: of its bytes, its path, or a file that is read to its end. Raises LogFault
    behind those before the fault."""
    place, event, at, number, whole = _LogPlace(), _LogEvent(), c_uint32(), 0, _whole(log)
    while (said := _lend(_library.tpm_log_event, (whole,), byref(place), byref(event), byref(at))) == _EVENT:
        number += 1
        found: list[tuple[str | int, _LogDigest]] = [
            (_HASH_NAMES.get(it.hash, it.hash), it) for it in event.digests[:event.digest_count]]
        with memoryview(whole).cast("B") as view:
            digests, data = {name: _part(view, it.digest) for name, it in found}, _part(view, event.data)
        hashed = tuple(name for name, it in found if it.hashed)
        record = Event(number, event.at, event.pcr, event.type, digests, data, hashed)
        record._log = whole
        yield record
    _raise_fault(said, at.value)


def event_type_name(type: int) -> str | None:
    """The name of a type of records, as `EV_SEPARATOR`, or None where the PC Client Platform Firmware Profile names
    none."""
    if not 0 <= type < 1 << 32:
        return None
    out = (c_uint8 * EVENT_TYPE_BYTES)()
    size = _library.tpm_event_type_name(type, out, EVENT_TYPE_BYTES)
    return bytes(out[:size]).decode("ascii") or None


def text(event: Event) -> str | None:
    """The text that the data of a record are, without a zero that ends it (in UTF-16 of EV_IPL all of them): UTF-8 of
    EV_POST_CODE, EV_ACTION, EV_IPL and EV_EFI_ACTION, or UTF-16 of EV_IPL and EV_S_CRTM_VERSION, of which units that
    are no UTF-16 stay as they are. None where they are no text, or the type is another."""
    view = _Part()
    said = _lend(_library.tpm_log_text, event.type, (event.data,), byref(view))
    if said not in (_TEXT, _TEXT_UTF16):
        return None
    with memoryview(event.data) as data:
        return _part(data, view).decode(*("utf-8",) if said == _TEXT else ("utf-16-le", "surrogatepass"))


def measured(event: Event) -> dict[str, str]:
    """Which part of a record's data its digest of each bank is of: `data`, all of them; `variable`, the value of the
    variable that they are; `text`, what stands behind a prefix that GRUB writes, as `kernel_cmdline: `; `cut`, all but
    the last byte; or `other`: something else was measured than what the log says."""
    return {name: _MEASURED_NAMES[_lend(_library.tpm_log_measured, event.type, (event.data,), HASHES[name], (digest,))]
            for name, digest in event.digests.items() if isinstance(name, str)}


class Variable(NamedTuple):
    """A variable of the firmware: its vendor, its name and its value. Units of the name that are no UTF-16 stay as they
    are."""

    vendor: uuid.UUID
    name: str
    value: bytes


def variable(event: Event) -> Variable | None:
    """The variable that the data of a record are, all of them (UEFI_VARIABLE_DATA; PC Client Platform Firmware Profile,
    "Event Types"), or None where they are none, or the type is another than EV_EFI_VARIABLE_DRIVER_CONFIG, _BOOT,
    _BOOT2, _AUTHORITY, EV_EFI_SPDM_DEVICE_POLICY and EV_EFI_SPDM_DEVICE_AUTHORITY."""
    view = _Variable()
    if _lend(_library.tpm_log_variable, event.type, (event.data,), byref(view)) != _VARIABLE:
        return None
    with memoryview(event.data) as data:
        name = _part(data, view.name).decode("utf-16-le", "surrogatepass")
        return Variable(uuid.UUID(bytes_le=_part(data, view.guid)), name, _part(data, view.value))


class PathNode(NamedTuple):
    """A node of a device path (UEFI Specification, "Generic Device Path Structures"). `str` gives its text, as
    `tpmtool events --json` has it ("Device Path Text Representation")."""

    type: int
    subtype: int
    data: bytes

    def __str__(self) -> str:
        return path_text((self,))


def _path_name(data: bytes) -> str:
    return data.decode("utf-16-le", "surrogatepass").removesuffix("\0")


def path_text(path: Iterable[PathNode]) -> str:
    """The text of a device path, by its nodes: a slash is between two of them, and a comma between two paths. Units of
    a file's name that are no UTF-16 are U+FFFD."""
    nodes = [pack("<BBH", *it[:2], 4 + len(it.data)) + it.data for it in path if it[:2] != (0x7F, 0xFF)]
    data = b"".join(nodes) + b"\x7f\xff\x04\0"
    return str(json.loads(_json(len(data), "tpm_log_path_json", (data,))))


class Image(NamedTuple):
    """An image that was loaded: its address in memory, its bytes there, the address that it was linked for, and the
    nodes of its device path, up to the first fault. The record's digest is of the image, and vouches for none of
    these."""

    address: int
    size: int
    link_address: int
    path: tuple[PathNode, ...]

    @property
    def file(self) -> str:
        """The path name of the image's file, or "" where its path has none. Units that are no UTF-16 stay as they
        are."""
        return "".join(_path_name(it.data) for it in self.path
                       if (it.type, it.subtype) == (4, 4) and len(it.data) % 2 == 0)


def image(event: Event) -> Image | None:
    """The image that the data of a record tell (PC Client Platform Firmware Profile, "UEFI_IMAGE_LOAD_EVENT"), or None
    where they tell none, or the type is another than EV_EFI_BOOT_SERVICES_APPLICATION, EV_EFI_BOOT_SERVICES_DRIVER and
    EV_EFI_RUNTIME_SERVICES_DRIVER."""
    view = _Image()
    if _lend(_library.tpm_log_image, event.type, (event.data,), byref(view)) != _IMAGE:
        return None
    return _image_of(event.data, view)


def _image_of(data: bytes, view: _Image) -> Image:
    return Image(view.address, view.size, view.link_address, _nodes(_cut(data, view.path)))


def _nodes(path: bytes) -> tuple[PathNode, ...]:
    """The nodes of a device path, up to the first fault."""
    node, found = _PathNode(), []
    while _lend(_library.tpm_log_path_node, (path,), byref(node)) == _PATH_NODE:
        found.append(PathNode(node.type, node.subtype, _cut(path, node.value)))
        path = path[node.value.at + node.value.len:]
    return tuple(found)


def _cut(data: bytes, it: _Part) -> bytes:
    return data[it.at:it.at + it.len]


def _wide(data: bytes, it: _Part) -> str:
    return _cut(data, it).decode("utf-16-le", "surrogatepass")


def _guid(data: bytes, it: _Part) -> uuid.UUID:
    return uuid.UUID(bytes_le=_cut(data, it))


@dataclass(frozen=True)
class Text:
    """Text of EV_POST_CODE, EV_ACTION, EV_IPL and EV_EFI_ACTION, without a zero that ends it, in UTF-16 without all of
    them."""

    text: str


@dataclass(frozen=True)
class Version:
    """The version of the root of trust, of EV_S_CRTM_VERSION: a text, or a GUID."""

    version: str | uuid.UUID


@dataclass(frozen=True)
class Separator:
    """The number of EV_SEPARATOR: 0 or 0xFFFFFFFF, or another where an error was met."""

    number: int


@dataclass(frozen=True)
class Locality:
    """The start-up locality, which EV_NO_ACTION tells."""

    number: int


@dataclass(frozen=True)
class Firmware:
    """A part of the firmware's code: the address of its first byte in memory, how many bytes it has there, and its
    description, or b""."""

    base: int
    size: int
    name: bytes


@dataclass(frozen=True)
class Table:
    """A table that the firmware hands to the system: the GUID that tells what it is, and the address of its first
    byte."""

    guid: uuid.UUID
    address: int


@dataclass(frozen=True)
class Tables:
    """The tables that the firmware hands to the system, and their description, or b""."""

    name: bytes
    tables: tuple[Table, ...]


@dataclass(frozen=True)
class Tag:
    """An event of an operating system, of EV_EVENT_TAG: a number of the system's own, and its data."""

    id: int
    data: bytes


@dataclass(frozen=True)
class Partition:
    """A partition (EFI_PARTITION_ENTRY): its type, its own GUID, its first and its last block, its attributes' bits,
    and its name."""

    type: uuid.UUID
    guid: uuid.UUID
    first: int
    last: int
    attributes: int
    name: str


@dataclass(frozen=True)
class Partitions:
    """The partitions of a disk, of EV_EFI_GPT_EVENT, and the disk's GUID. An entry whose type is UUID(int=0) is not
    used."""

    disk: uuid.UUID
    partitions: tuple[Partition, ...]


@dataclass(frozen=True)
class Measurement:
    """A measurement of a device by SPDM, DEVICE_SECURITY_EVENT_DATA: SpdmHashAlgo; DeviceType, 0 where none is told, 1
    of PCI, 2 of USB; SpdmMeasurementBlock; and DeviceContext."""

    hash: int
    device_type: int
    block: bytes
    context: bytes


@dataclass(frozen=True)
class Evidence:
    """What a device showed by SPDM, DEVICE_SECURITY_EVENT_DATA2: AuthState, 0 for success, 1 for no authentication, 2
    for no binding, 3 for a failure without a signature, 4 for a signature that is not valid, 255 for no SPDM;
    DeviceType, as of a Measurement; SubHeaderType, 0 of measurement blocks, 1 of a chain of certificates, 2 of
    something of the platform's maker; SubHeaderUID, by which events belong together; the nodes of its device path; the
    sub-header; and DeviceContext."""

    auth_state: int
    device_type: int
    sub_header_type: int
    uid: int
    path: tuple[PathNode, ...]
    sub_header: bytes
    context: bytes


@dataclass(frozen=True)
class LoadOption:
    """What the firmware may start, of Boot####: its attributes, of which bit 0 says that it is tried; its description;
    its device paths, each by its nodes up to the first fault; and what is handed to the program."""

    attributes: int
    description: str
    paths: tuple[tuple[PathNode, ...], ...]
    data: bytes


@dataclass(frozen=True)
class BootOrder:
    """The numbers of load options, of BootOrder, in the order in which they are tried."""

    numbers: tuple[int, ...]


@dataclass(frozen=True)
class Owned:
    """A signature of a list, or the one by which something was let be loaded: its owner, and a certificate or a hash,
    which is not parsed."""

    owner: uuid.UUID
    data: bytes


@dataclass(frozen=True)
class SignatureList:
    """A list of signatures: their type, a header, and the signatures."""

    type: uuid.UUID
    header: bytes
    signatures: tuple[Owned, ...]


@dataclass(frozen=True)
class SignatureLists:
    """The lists of PK, KEK, db, dbx, dbt and dbr, up to the first fault."""

    lists: tuple[SignatureList, ...]


@dataclass(frozen=True)
class Holding:
    """A variable, and what it holds: one byte, as of SecureBoot, is a number; bytes of which no more is known are
    bytes, or b"" where there is none."""

    variable: Variable
    holds: LoadOption | BootOrder | SignatureLists | Owned | int | bytes


Content = Union[Holding, Text, Version, Separator, Locality, Image, Firmware, Tables, Tag, Partitions, Measurement,
                Evidence]


def content(event: Event) -> Content | None:
    """What the data of a record say, by the kind that its type has (PC Client Platform Firmware Profile, "Event
    Types"), or None where nothing of them is known, as of another type, or of data with a fault. `measured` says
    whether the record's digests are of these data. Units of text that are no UTF-16 stay as they are."""
    view, data = _Content(), event.data
    kind = _lend(_library.tpm_log_event_content, event.type, (data,), byref(view))
    told = _CONTENTS.get(kind)
    return told(data, view) if told else None


def _told_each(
    data: bytes, entries: _Part, size: int, call: Callable[..., int], view: Any,
) -> Iterator[tuple[bytes, Any]]:
    """Each of the entries of this size, and what the call tells of it."""
    for at in range(entries.at, entries.at + entries.len, size):
        entry = data[at:at + size]
        _lend(call, (entry,), byref(view))
        yield entry, view


def _holding_of(data: bytes, view: _Content) -> Holding:
    it = view.variable
    value = _cut(data, it.value)
    return Holding(Variable(_guid(data, it.guid), _wide(data, it.name), value), _held(view.holds, value))


def _held(holds: int, value: bytes) -> LoadOption | BootOrder | SignatureLists | Owned | int | bytes:
    if holds == _HOLDS_LOAD_OPTION:
        return _load_option(value)
    if holds == _HOLDS_BOOT_ORDER:
        return BootOrder(tuple(int.from_bytes(value[at:at + 2], "little") for at in range(0, len(value), 2)))
    if holds == _HOLDS_SIGNATURES:
        return SignatureLists(tuple(_lists(value)))
    if holds == _HOLDS_SIGNATURE:
        return _owned(value)
    return value[0] if holds == _HOLDS_BYTE else value


def _load_option(value: bytes) -> LoadOption:
    it, path, paths = _LoadOption(), _Part(), []
    _lend(_library.tpm_log_load_option, (value,), byref(it))
    rest = _cut(value, it.path)
    while _lend(_library.tpm_log_device_path, (rest,), byref(path)) == _DEVICE_PATH:
        paths.append(_nodes(_cut(rest, path)))
        rest = rest[path.at + path.len:]
    return LoadOption(it.attributes, _wide(value, it.description), tuple(paths), _cut(value, it.value))


def _lists(value: bytes) -> Iterator[SignatureList]:
    it = _SignatureList()
    while _lend(_library.tpm_log_signature_list, (value,), byref(it)) == _SIGNATURE_LIST:
        entries = _cut(value, it.entries)
        yield SignatureList(_guid(value, it.type), _cut(value, it.header), tuple(
            _owned(entries[at:at + it.entry_size]) for at in range(0, len(entries), it.entry_size)))
        value = value[it.entries.at + it.entries.len:]


def _owned(value: bytes) -> Owned:
    it = _Owned()
    _lend(_library.tpm_log_owned, (value,), byref(it))
    return Owned(_guid(value, it.owner), _cut(value, it.value))


def _tables_of(data: bytes, view: _Content) -> Tables:
    told = _told_each(data, view.tables.entries, _TABLE_BYTES, _library.tpm_log_table, _Table())
    return Tables(_cut(data, view.tables.name), tuple(Table(_guid(entry, it.guid), it.address) for entry, it in told))


def _partitions_of(data: bytes, view: _Content) -> Partitions:
    whole = view.partitions
    told = _told_each(data, whole.entries, whole.entry_size, _library.tpm_log_partition, _Partition())
    return Partitions(_guid(data, whole.disk), tuple(
        Partition(_guid(entry, it.type), _guid(entry, it.guid), it.first, it.last, it.attributes, _wide(entry, it.name))
        for entry, it in told))


def _firmware_of(data: bytes, view: _Content) -> Firmware:
    it = view.firmware
    return Firmware(it.base, it.size, _cut(data, it.name))


def _measurement_of(data: bytes, view: _Content) -> Measurement:
    it = view.measurement
    return Measurement(it.hash, it.device_type, _cut(data, it.block), _cut(data, it.context))


def _evidence_of(data: bytes, view: _Content) -> Evidence:
    it = view.evidence
    return Evidence(it.auth_state, it.device_type, it.sub_header_type, it.uid, _nodes(_cut(data, it.path)),
                    _cut(data, it.sub_header), _cut(data, it.context))


_CONTENTS: dict[int, Callable[[bytes, _Content], Content]] = {
    _VARIABLE: _holding_of,
    _TEXT: lambda data, view: Text(_cut(data, view.text).decode("utf-8")),
    _TEXT_UTF16: lambda data, view: Text(_wide(data, view.text)),
    _VERSION: lambda data, view: Version(_wide(data, view.text)),
    _VERSION_GUID: lambda data, view: Version(_guid(data, view.text)),
    _SEPARATOR: lambda data, view: Separator(view.number),
    _LOCALITY: lambda data, view: Locality(view.number),
    _IMAGE: lambda data, view: _image_of(data, view.image),
    _FIRMWARE: _firmware_of,
    _TABLES: _tables_of,
    _TAG: lambda data, view: Tag(view.tag.id, _cut(data, view.tag.value)),
    _PARTITIONS: _partitions_of,
    _MEASUREMENT: _measurement_of,
    _EVIDENCE: _evidence_of,
}


class SecureBootState(enum.Enum):
    """SecureBoot was 1, PK, KEK and db held something, and there is an authority; it was 0; or it had no byte."""

    ON, OFF, UNSET = 48, 49, 50


class SecureBoot(NamedTuple):
    """What a log tells of Secure Boot: its state, whether DMA protection was disabled, and how many bytes of the log
    precede the records of PK, KEK, db and dbx, or None where one was not measured, and of each authority. It is true
    where the state is ON."""

    state: SecureBootState
    dma_protection_disabled: bool
    pk: int | None
    kek: int | None
    db: int | None
    dbx: int | None
    authorities: tuple[int, ...]

    def __bool__(self) -> bool:
        return self.state is SecureBootState.ON


def secure_boot(log: Log, bank: str = "sha256") -> SecureBoot:
    """Whether Secure Boot was on, by the records of register 7 in the bank of this hash (PC Client Platform Firmware
    Profile, "PCR[7]"). The log is given by its bytes, its path, or a file that is read to its end. Raises LogFault,
    SecureBootFault for the first fault of what the records tell, and ValueError for another hash. It is as true as
    register 7, for which `check` asks a quote."""
    view, count, at, whole, room = _SecureBoot(), c_size_t(), c_uint32(), _whole(log), 16
    while True:
        places = (c_uint32 * room)()
        answer = _lend_long("tpm_log_secure_boot", (whole,), _hash(bank), byref(view), places, room, byref(count),
                            byref(at))
        if answer != _SECURE_BOOT_NO_ROOM:
            break
        room = count.value
    _raise_fault(answer, at.value)
    if answer >= _SECURE_BOOT_NOT_MEASURED:
        raise SecureBootFault(answer, at.value)
    return SecureBoot(SecureBootState(answer), view.dma_protection_disabled != 0, view.pk or None, view.kek or None,
                      view.db or None, view.dbx or None, tuple(places[:count.value]))


# How each TPMS_ATTEST begins: TPM_GENERATED_VALUE (Part 2, 6.2).
_GENERATED = b"\xffTCG"


def selection(text: str) -> bytes:
    """The TPML_PCR_SELECTION of registers as tpm2-tools list them: `sha1:7+sha256:0,1,2`, or `sha256:all`; or from one
    to another, `sha256:0-7`. Raises ValueError."""
    out = (c_uint8 * SELECTION_BYTES)()
    if not _lend(_library.tpm_selection, (text.encode(),), out, SELECTION_BYTES):
        raise ValueError(f"{text!r} is no list of registers, as sha256:0,1,2 or sha256:all")
    return bytes(out)


def _selected(list: Selected) -> Buffer:
    return selection(list) if isinstance(list, str) else list


def _entries(list: Buffer) -> tuple[tuple[str, tuple[int, ...]], ...]:
    """The entries of the TPML_PCR_SELECTION that these bytes begin with: the hash and the registers of each."""
    spelled = bytes(list)
    entries = [spelled[at:at + 6] for at in range(4, 4 + 6 * int.from_bytes(spelled[:4], "big"), 6)]
    return tuple((_HASH_NAMES[int.from_bytes(entry[:2], "big")],
                  tuple(i for i in range(24) if entry[3 + i // 8] >> i % 8 & 1)) for entry in entries)


def _selects(list: Buffer) -> bool:
    return any(registers for _, registers in _entries(list))


class Attest(NamedTuple):
    """A quote as it was signed, a TPMS_ATTEST: the registers that each entry of its selection has, and its
    TPMS_QUOTE_INFO whole."""

    signer: bytes
    nonce: bytes
    clock: int
    resets: int
    restarts: int
    safe: bool
    firmware: int
    selections: tuple[tuple[str, tuple[int, ...]], ...]
    info: bytes


def decode_attest(data: Buffer) -> Attest:
    """The quote as it was signed that all the bytes spell. Raises Refusal, and of a TPM2B_ATTEST SizedAttest."""
    it = _Attest()
    with _named(data):
        _judge(_library.tpm_attest_decode, (data,), byref(it))
    with memoryview(data).cast("B") as view:
        info = bytes(view[it.selections.at:])
        return Attest(_part(view, it.signer), _part(view, it.nonce), it.clock, it.reset_count, it.restart_count,
                      it.safe != 0, it.firmware_version, _entries(info), info)


@contextmanager
def _named(attest: Buffer) -> Iterator[None]:
    """A refusal of these bytes is a SizedAttest, if they begin with the size of a TPMS_ATTEST and that."""
    try:
        yield
    except Refusal as refusal:
        with memoryview(attest).cast("B") as view:
            if view[2:6] == _GENERATED and int.from_bytes(view[:2], "big") == len(view) - 2:
                raise SizedAttest(refusal.code, refusal.at) from None
        raise


def vouched(event: Event, attest: Attest) -> dict[str, str]:
    """What a quote vouches for in a record of a log that `check` has compared with it: of each bank in which it selects
    the record's register the part of the data that this bank's digest is of, as `measured` tells it, or `digest`, the
    digest alone and nothing of the data. It never vouches for the type, and for nothing of a record of EV_NO_ACTION or
    of another register."""
    selections = attest.info[:4 + 6 * len(attest.selections)]
    found = {name: _lend(_library.tpm_log_vouched, (selections,), event.register, event.type, (event.data,),
                         HASHES[name], (digest,))
             for name, digest in event.digests.items() if isinstance(name, str)}
    return {name: "digest" if part == MEASURED["other"] else _MEASURED_NAMES[part]
            for name, part in found.items() if part}


def vouched_text(event: Event, attest: Attest, bank: str) -> str | None:
    """The text that was measured of a record's data, where the quote vouches for it in this bank: all of it, or what
    stands behind a prefix that GRUB writes. The prefix is left out, since it is not measured: with another before it a
    command of GRUB passes for the kernel's command line. So compare all texts of the register, in their order."""
    part = vouched(event, attest).get(bank)
    if part not in ("data", "text"):
        return None
    return text(event._replace(data=_behind_prefix(event.data)) if part == "text" else event)


def _behind_prefix(data: bytes) -> bytes:
    """What stands behind a prefix of GRUB, whose one blank ends it, as `kernel_cmdline: `."""
    return data.partition(b" ")[2]


def vouched_variable(event: Event, attest: Attest, bank: str) -> Variable | None:
    """The variable that the data of a record are, where the quote vouches for its name and its value in this bank:
    where all the data were measured, or all but a last byte that is not the variable's."""
    part = vouched(event, attest).get(bank)
    if part not in ("data", "cut"):
        return None
    return variable(event._replace(data=event.data[:-1]) if part == "cut" else event)


class Signature(NamedTuple):
    """The signature of a quote: its scheme, as `rsassa`, `rsapss` or `ecdsa`, and its hash; the bytes of one by an RSA
    key; the numbers of one by a key on a curve."""

    scheme: str
    hash: str
    sig: bytes
    r: int
    s: int

    def is_by(self, key: Any, signed: Buffer) -> bool:
        """Whether it is the signature of these bytes by this key: a public key of the package `cryptography`, which
        judges it."""
        ec, padding, rsa, utils = (_cryptography("hazmat.primitives.asymmetric." + it)
                                   for it in ("ec", "padding", "rsa", "utils"))
        hash = getattr(_cryptography("hazmat.primitives.hashes"), self.hash.upper())()
        salted = padding.PSS(padding.MGF1(hash), padding.PSS.AUTO)
        try:
            if self.scheme == "ecdsa" and isinstance(key, ec.EllipticCurvePublicKey):
                key.verify(utils.encode_dss_signature(self.r, self.s), bytes(signed), ec.ECDSA(hash))
            elif self.scheme != "ecdsa" and isinstance(key, rsa.RSAPublicKey):
                padded = salted if self.scheme == "rsapss" else padding.PKCS1v15()
                key.verify(self.sig, bytes(signed), padded, hash)
            else:
                return False
        except _cryptography("exceptions").InvalidSignature:
            return False
        return True


def _cryptography(module: str) -> Any:
    """A module of the package `cryptography`, which nothing else wants."""
    return importlib.import_module("cryptography." + module)


def decode_signature(data: Buffer) -> Signature:
    """The signature that all the bytes spell, a TPMT_SIGNATURE, as `tpm2_quote -s` writes it without `-f plain`. Raises
    Refusal. Whether it is right is for another library."""
    it = _Signature()
    _judge(_library.tpm_signature_decode, (data,), byref(it))
    with memoryview(data).cast("B") as view:
        r, s = (int.from_bytes(_part(view, part), "big") for part in (it.r, it.s))
        return Signature(_SCHEME_NAMES[it.scheme], _HASH_NAMES[it.hash], _part(view, it.sig), r, s)


class Kind(enum.Enum):
    """What is said of a quote, as `Verdict` has it."""

    MATCHES, DIFFERS, NONCE, LACKS, EMPTY = 0, 16, 19, 20, 21
    SIGNER, UNKNOWN, UNSIGNED = -1, -2, -3


class Verdict(NamedTuple):
    """What is said of a quote: it matches, or the first that fails: another signer, another nonce, a required register
    that is not selected (its bank and number are there), another digest, no register is selected, or a digest isn't on
    the list of those that are allowed (its bank and register are there, and how many bytes of the log precede its
    record); and by `verify`, that it isn't signed by the key. It is true where the quote matches, and its text is as
    `selection lacks sha256 7`."""

    kind: Kind
    bank: str | None = None
    register: int | None = None
    at: int | None = None

    def __bool__(self) -> bool:
        return self.kind is Kind.MATCHES

    def __str__(self) -> str:
        name = {Kind.MATCHES: "matches", Kind.SIGNER: "signer differs", Kind.UNKNOWN: "unknown",
                Kind.UNSIGNED: "not signed by the key"}
        register = "" if self.bank is None else f" {self.bank} {self.register}"
        place = "" if self.at is None else f" at {self.at}"
        return (name.get(self.kind) or _answer_name(self.kind.value)) + register + place


def check_quote(log: Log, quote: Buffer, hash: str = "sha256") -> Verdict:
    """Compares the digest of a quote's TPMS_QUOTE_INFO with that of a log's registers, and asks for no nonce and no
    selection, which `check` does. The log is given by its bytes, its path, or a file that is read to its end. Raises
    LogFault, Refusal (whose code is not told: 0), and ValueError for a whole TPMS_ATTEST, which is for `check`."""
    at = c_uint32()
    answer = _lend_long("tpm_log_check_quote", (_whole(log),), (quote,), _hash(hash), byref(at))
    if answer == _ATTEST_REFUSED and bytes(memoryview(quote).cast("B")[:4]) == _GENERATED:
        raise ValueError("this is a whole TPMS_ATTEST, which check() takes; "
                         "its TPMS_QUOTE_INFO is decode_attest(..).info")
    _raise_fault(answer, at.value)
    kind = Kind(answer)
    return Verdict(Kind.EMPTY if kind is Kind.MATCHES and not _selects(quote) else kind)


class _Unasked(enum.Enum):
    NONCE, SELECTION = "ANY_NONCE", "ANY_SELECTION"

    def __repr__(self) -> str:
        return self.value


ANY_NONCE: Final = _Unasked.NONCE
"""In the place of a nonce: the quote may have any, and may be an old one."""
ANY_SELECTION: Final = _Unasked.SELECTION
"""In the place of a list of registers: the quote may be of any, which whoever made it has chosen."""


def check(log: Log, attest: Buffer, nonce: Buffer | Literal[_Unasked.NONCE],
          require: Selected | Literal[_Unasked.SELECTION], hash: str | None = None,
          signer: Buffer | None = None, allow: str | Buffer | None = None) -> Verdict:
    """Compares a log with a TPMS_ATTEST of a quote, whose signature has to be verified elsewhere or by `verify`: its
    nonce, the registers that are required, and the digest under this hash, or else under the one whose digests are as
    long. The log is given by its bytes, its path, or a file that is read to its end; `nonce` is the one that was sent,
    or ANY_NONCE; `require` is a TPML_PCR_SELECTION, a list as `sha256:0,7`, or ANY_SELECTION; `signer` is the qualified
    Name of the key, where it is to be compared; `allow` is a list of digests, as the lines of `tpmtool check LOG
    --extends`: the quote has to select each register that it names, and each digest of the log there has to be on it.
    Read the file of a list as bytes: as text `open` ends lines elsewhere, too. Raises LogFault, and Refusal for bytes
    that spell no quote; ValueError where `require` is no selection or has no register, the nonce has no byte, `hash` is
    no bank's, or `allow` is no list or has no digest."""
    fault, whole = _AttestFault(), _whole(log)
    allowed = None if allow is None else _allowed(allow)
    listed = b"" if require is ANY_SELECTION else _selected(require)
    sent = _nonce_of(attest) if nonce is ANY_NONCE else nonce
    name = _hash_of(attest) if hash is None else hash
    answer = _lend_long("tpm_log_check_attest", (whole,), (attest,), _hash(name), (sent,), (listed,), byref(fault))
    if answer == _ATTEST_REQUIREMENT:
        raise ValueError("require: " + str(Refusal(fault.code, fault.at)))
    if nonce is not ANY_NONCE and not memoryview(nonce).nbytes:
        raise ValueError("nonce: it has no byte; ANY_NONCE is for a quote with any")
    if require is not ANY_SELECTION and not _selects(listed):
        raise ValueError("require: it has no register; ANY_SELECTION is for a quote of any")
    if allowed is not None and not len(allowed):
        raise ValueError("allow: it has no digest; None is for a log with any")
    with _named(attest):
        _raise_fault(answer, fault.at, fault.code)
    if signer is not None and decode_attest(attest).signer != bytes(signer):
        return Verdict(Kind.SIGNER)
    lacks = Kind(answer) is Kind.LACKS
    verdict = Verdict(Kind(answer), _HASH_NAMES[fault.hash] if lacks else None, fault.pcr if lacks else None)
    return verdict if allowed is None or not verdict else _compared(whole, attest, allowed)


# A bank, a register without a zero before it, and a digest, with one space between them; behind another any words.
_ALLOWED_LINE = re.compile(rb"(sha1|sha256|sha384) (\d|1\d|2[0-3]) ([0-9a-fA-F]+)(?: .*)?")


def _allowed(given: str | Buffer) -> ctypes.Array[_AllowedDigest]:
    """The digests of a list, as tpmtool reads it: a line ends at a line feed alone, and `#` begins a comment. Where
    nothing but spaces stands before the comment, the line says nothing."""
    found: list[_AllowedDigest] = []
    text = given.encode("utf-8", "surrogatepass") if isinstance(given, str) else memoryview(given).tobytes()
    for number, line in enumerate(text.split(b"\n"), 1):
        said = line.partition(b"#")[0]
        if not said.strip(b" "):
            continue
        words = _ALLOWED_LINE.fullmatch(said)
        bank = words[1].decode("ascii") if words else ""
        if not words or len(words[3]) != 2 * _DIGESTS[bank][1]:
            raise ValueError(f"allow: line {number} is no bank, register and digest, as sha256 4 DIGEST")
        digest = bytes.fromhex(words[3].decode("ascii")).ljust(48, b"\0")
        found.append(_AllowedDigest(int(words[2]), HASHES[bank], (c_uint8 * 48)(*digest)))
    return (_AllowedDigest * len(found))(*found)


def _compared(log: Buffer, attest: Buffer, allowed: ctypes.Array[_AllowedDigest]) -> Verdict:
    """Whether the quote selects each register of the list, and the list has each digest by which the log extends it."""
    selected = {(HASHES[bank], pcr) for bank, registers in decode_attest(attest).selections for pcr in registers}
    for hash, pcr in sorted({(it.hash, it.pcr) for it in allowed} - selected):
        return Verdict(Kind.LACKS, _HASH_NAMES[hash], pcr)
    for event in events(log):
        for name, digest in event.digests.items():
            hash = HASHES[name] if isinstance(name, str) else name
            said = _lend(_library.tpm_log_allowed, allowed, len(allowed), event.register, event.type, hash, (digest,))
            if said == _NOT_ALLOWED:
                return Verdict(Kind.UNKNOWN, str(name), event.register, event.at)
    return Verdict(Kind.MATCHES)


def _nonce_of(attest: Buffer) -> bytes:
    """The nonce of a quote, or none of bytes that spell no quote."""
    try:
        return decode_attest(attest).nonce
    except Refusal:
        return b""


def _hash_of(attest: Buffer) -> str:
    """The hash whose digests are as long as that of a quote, or any of other bytes, which match nothing."""
    try:
        info = decode_attest(attest).info
    except Refusal:
        return "sha256"
    # The digest stands behind a count, six bytes for each entry, and its size.
    size = len(info) - 6 - 6 * int.from_bytes(info[:4], "big")
    return next((name for name, (_, bytes) in _DIGESTS.items() if bytes == size), "sha256")


class Mismatch(ValueError):
    """A quote is not to be believed, for this verdict."""

    def __init__(self, verdict: Verdict) -> None:
        super().__init__(str(verdict))
        self.verdict = verdict

    def __reduce__(self) -> tuple[type[Mismatch], tuple[Verdict]]:
        return Mismatch, (self.verdict,)


def verify(log: Log, attest: Buffer, signature: Buffer, key: Any, nonce: Buffer | Literal[_Unasked.NONCE],
           require: Selected | Literal[_Unasked.SELECTION], signer: Buffer | None = None,
           allow: str | Buffer | None = None) -> Attest:
    """What a quote says that is to be believed: its signature, a TPMT_SIGNATURE, is by this key, one of the package
    `cryptography` or its PEM, and `check` by the signature's hash is true. Raises Mismatch where it isn't, and what
    `check` and `decode_signature` raise."""
    it, quote = decode_signature(signature), bytes(attest)
    if isinstance(key, (bytes, bytearray, memoryview)):
        key = _cryptography("hazmat.primitives.serialization").load_pem_public_key(bytes(key))
    if not it.is_by(key, quote):
        raise Mismatch(Verdict(Kind.UNSIGNED))
    verdict = check(log, quote, nonce, require, it.hash, signer, allow)
    if not verdict:
        raise Mismatch(verdict)
    return decode_attest(quote)


class Policy:
    """The digest of a policy in a hash, without a device (Part 1, "Enhanced Authorization"; Part 3, 23). A policy that
    asserts nothing has zeros. A call that raises changes nothing."""

    def __init__(self, hash: str = "sha256") -> None:
        self._policy, self._size = _Policy(), _DIGESTS[hash][1] if hash in HASHES else 0
        _library.tpm_policy_start(byref(self._policy), _hash(hash))

    @property
    def digest(self) -> bytes:
        """What an object with this policy has as its authPolicy: 20, 32 or 48 bytes."""
        return bytes(self._policy.digest[:self._size])

    def __repr__(self) -> str:
        return f"<Policy {_HASH_NAMES[self._policy.hash]} {self.digest.hex()}>"

    def _assert(self, name: str, *words: Any) -> None:
        refusal = _Refusal()
        answer = _lend(getattr(_library, "tpm_policy_" + name), byref(self._policy), *words,
                       *[byref(refusal)] * (name in ("pcr", "or")))
        if answer == _REFUSED:
            raise Refusal(refusal.code, refusal.at)
        if answer == _POLICY_NO_DIGEST:
            raise ValueError(f"a digest of the registers has {self._size} bytes here")

    def restart(self) -> None:
        """TPM2_PolicyRestart: nothing is asserted any more."""
        self._assert("restart")

    def pcr(self, selected: Selected, digest: Buffer) -> None:
        """TPM2_PolicyPCR: the selected registers, as `sha256:0,7`, have values with this digest. Raises Refusal where
        `selected` is no selection, ValueError where the digest has another length than the policy's."""
        self._assert("pcr", (_selected(selected),), (digest,))

    def any_of(self, digests: Iterable[bytes]) -> None:
        """TPM2_PolicyOR: the policy is one of those with these 2 to 8 digests. Raises Refusal for other lists."""
        listed = [bytes(it) for it in digests]
        spelled = len(listed).to_bytes(4, "big") + b"".join(len(it).to_bytes(2, "big") + it for it in listed)
        self._assert("or", (spelled,))

    def command_code(self, command: str | int) -> None:
        """TPM2_PolicyCommandCode: the command is the one of this name or number."""
        self._assert("command_code", _number(command))

    def auth_value(self) -> None:
        """TPM2_PolicyAuthValue: the authorization value of the entity is known."""
        self._assert("auth_value")


class Counter(NamedTuple):
    """An NV counter that is defined: its hash by its name in HASHES, its attributes as they are now, and its value
    where it has one."""

    index: int  # type: ignore[assignment]  # the field stands in the place of a tuple's method
    hash: str
    attributes: int
    policy: bytes
    has_auth: bool
    value: int | None


class Device:
    """A device in memory, which is not started. No counter of it has had a greater value than `greatest`."""

    def __init__(self, owner: Buffer = b"", greatest: int = 0) -> None:
        if not 0 <= greatest < 1 << 64:
            raise ValueError("greatest is no number of 64 bits")
        self._room = _room("device")
        if not _lend(_library.tpm_device_init, self._room, (owner,), greatest):
            raise ValueError(f"the owner's value has more than {OWNER_BYTES} bytes")

    @classmethod
    def restore(cls, owner: Buffer, kept: Buffer) -> Device:
        """A device of the owner's value and of what `keep` gave, where a power cycle leaves the one that gave it.
        Raises Refusal."""
        device, refusal = cls.__new__(cls), _Refusal()
        device._room = _room("device")
        if _lend(_library.tpm_device_restore, device._room, (owner,), (kept,), byref(refusal)) != _DONE:
            raise Refusal(refusal.code, refusal.at)
        return device

    def keep(self) -> bytes:
        """The bytes of NV memory, which hold authorization values."""
        out = (c_uint8 * DEVICE_KEPT_BYTES)()
        return bytes(out[:_library.tpm_device_keep(self._room, out, DEVICE_KEPT_BYTES)])

    @property
    def greatest(self) -> int:
        """The greatest value that any counter of the device has had."""
        return int(_library.tpm_device_greatest(self._room))

    @property
    def counters(self) -> tuple[Counter, ...]:
        """The counters that are defined, in the order of their definitions."""
        found = [_Counter() for _ in range(_library.tpm_device_counters(self._room))]
        for which, it in enumerate(found):
            _library.tpm_device_counter(self._room, which, byref(it))
        return tuple(Counter(it.index, _HASH_NAMES[it.hash], it.attributes, bytes(it.policy[:it.policy_len]),
                             bool(it.has_auth), it.value or None) for it in found)

    def session_hash(self, session: int) -> str | None:
        """The name in HASHES of the hash of the session of this handle, where it is loaded."""
        return _HASH_NAMES.get(_library.tpm_device_session_hash(self._room, session))

    def power_cycle(self) -> None:
        _library.tpm_device_power_cycle(self._room)

    def execute(self, command: Buffer, nonce: Buffer | None = None) -> bytes:
        """The response to these bytes. `nonce`: 64 fresh random bytes, which are taken from the system if none are
        given."""
        nonce, out = os.urandom(NONCE_BYTES) if nonce is None else bytes(nonce), (c_uint8 * BUFFER_BYTES)()
        if len(nonce) != NONCE_BYTES:
            raise ValueError(f"a nonce has {NONCE_BYTES} bytes")
        count = _lend(_library.tpm_device_execute, self._room, (command,), (c_uint8 * NONCE_BYTES)(*nonce), out,
                      BUFFER_BYTES)
        return bytes(out[:count])


def changes_nv(command: Buffer, response: Buffer) -> bool:
    """Whether the device that answered this command so has changed its NV memory: a host then keeps it before it hands
    out the response."""
    return bool(_lend(_library.tpm_device_changes_nv, (command,), (response,)))


class Caller:
    """The other end of a session. Each call is false, or raises ValueError, where it does not apply, and then nothing
    changes."""

    def __init__(self) -> None:
        self._room = _room("caller")
        _library.tpm_caller_init(self._room)

    def start(self, command: Buffer, reply: Buffer, bind_auth: Buffer = b"") -> bool:
        return bool(_lend(_library.tpm_caller_start, self._room, (command,), (reply,), (bind_auth,)))

    def seal(self, command: Buffer, first: Buffer, second: Buffer = b"", auth: Buffer = b"",
             nonce: Buffer | None = None, keep: bool = True) -> bytes:
        out, nonce = (c_uint8 * BUFFER_BYTES)(), os.urandom(16) if nonce is None else nonce
        count = _lend(_library.tpm_caller_seal, self._room, (command,), (first,), (second,), (auth,), (nonce,),
                      int(keep), out, BUFFER_BYTES)
        if not count:
            raise ValueError("no session is free, or the command needs no authorization, "
                             "or a Name or the nonce is too long")
        return bytes(out[:count])

    def open(self, reply: Buffer) -> bool:
        """Whether the reply is that of the sealed command; until it is, nothing in it is to be believed."""
        return _lend(_library.tpm_caller_open, self._room, (reply,)) == _CALLER_OPENED

    def give_up(self, refusal: Buffer) -> bool:
        return bool(_lend(_library.tpm_caller_give_up, self._room, (refusal,)))
