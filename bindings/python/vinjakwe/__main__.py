"""python -m vinjakwe check LOG [--attest FILE [--nonce HEX | --any-nonce] [--require LIST | --any-selection]
[--hash NAME]]: a log's registers, or what a quote as it was signed says and what is said of it beside the log, as
tpmtool prints them. The status is 0, or 1 for a mismatch, a refusal or a fault, and where nothing says which nonce and
which registers are wanted; 2 for wrong words, and 3 for a file that can't be read."""
from __future__ import annotations

import argparse
import re
import sys
from typing import BinaryIO

from . import (
    ANY_NONCE, ANY_SELECTION, HASHES, Kind, LogFault, Refusal, check, check_quote, decode_attest, replay, selection,
)


def show_registers(log: BinaryIO) -> int:
    for name, values in replay(log).items():
        for i, value in enumerate(values):
            print(name, i, value.hex())
    return 0


def hexadecimal(text: str) -> bytes:
    if not re.fullmatch("([0-9a-fA-F]{2})*", text):
        raise ValueError("it is not hexadecimal, two digits to a byte")
    return bytes.fromhex(text)


# What else bytes may be that are no quote, by how they begin.
def hint(data: bytes) -> str | None:
    if data[2:6] == b"\xffTCG":
        return "a size stands before it"
    return "it is a signature" if data[:2] in (b"\0\x14", b"\0\x16", b"\0\x18") else None


# Whether the quote's digest is that of the registers, by the hash, or else by the one whose digests are as long.
# In a TPMS_QUOTE_INFO the digest stands behind a count, six bytes for each entry and its size.
def quote_word(log: bytes, info: bytes, hash: str | None) -> str:
    by_length = {20: "sha1", 32: "sha256", 48: "sha384"}
    hash = hash or by_length.get(len(info) - 6 - 6 * int.from_bytes(info[:4], "big"))
    if hash is None:
        return "of no hash"
    return "differs" if check_quote(log, info, hash).kind is Kind.DIFFERS else "matches"


def show_quote(log: bytes, data: bytes, given: argparse.Namespace) -> int:
    nonce, require = given.nonce, given.require
    replay(log)
    quote = decode_attest(data)
    print("signer", quote.signer.hex() or "-")
    print("nonce", quote.nonce.hex() or "-")
    print(f"clock {quote.clock}\nresets {quote.resets}\nrestarts {quote.restarts}")
    print(f"safe {'yes' if quote.safe else 'no'}\nfirmware {quote.firmware:016x}")
    print("selection", *(word for name, registers in quote.selections for word in (name, *registers)))
    fits = [given.any_nonce if nonce is None else nonce == quote.nonce]
    print("nonce", "not compared" if nonce is None else "matches" if fits[0] else "differs")
    # Of the nonce a line is there already: what is said here is of the selection.
    verdict = check(log, data, ANY_NONCE, ANY_SELECTION if require is None else require, given.hash or "sha256")
    fits.append(verdict.kind not in (Kind.LACKS, Kind.EMPTY) and (given.any_selection or require is not None))
    print("selection", {Kind.LACKS: f"lacks {verdict.bank} {verdict.register}", Kind.EMPTY: "empty"}.get(
        verdict.kind, "not compared" if require is None else "covers"))
    said = quote_word(log, quote.info, given.hash)
    print("quote", said)
    return 0 if all(fits) and said == "matches" else 1


def main() -> int:
    words = argparse.ArgumentParser(prog="python -m vinjakwe", description=__doc__)
    of_check = words.add_subparsers(dest="verb", required=True).add_parser("check")
    of_check.add_argument("log")
    of_check.add_argument("--attest", metavar="FILE")
    of_nonce = of_check.add_mutually_exclusive_group()
    of_nonce.add_argument("--nonce", metavar="HEX", type=hexadecimal)
    of_nonce.add_argument("--any-nonce", action="store_true")
    of_registers = of_check.add_mutually_exclusive_group()
    of_registers.add_argument("--require", metavar="LIST", type=selection)
    of_registers.add_argument("--any-selection", action="store_true")
    of_check.add_argument("--hash", choices=HASHES)
    given = words.parse_args()
    wanted = (given.nonce, given.any_nonce, given.require, given.any_selection, given.hash)
    if given.attest is None and wanted != (None, False, None, False, None):
        words.error("no --attest is given")
    try:
        with open(given.log, "rb") as log:
            if given.attest is None:
                return show_registers(log)
            with open(given.attest, "rb") as attest:
                data = attest.read()
            return show_quote(log.read(), data, given)
    except LogFault as fault:
        print(fault)
        return 1
    except Refusal as refusal:
        print(f"refused {refusal.code:03x} at {refusal.at}", *filter(None, [hint(data)]), sep="\n")
        return 1
    except OSError as error:
        print(f"python -m vinjakwe: {error}", file=sys.stderr)
        return 3


sys.exit(main())
