"""Calls a second from Python, as calls.c makes them from C."""
import sys
import time

import vinjakwe

ROUNDS, ROUND_SECONDS = 5, 0.2
COMMAND = bytes.fromhex("80020000009700000182" "00000010" "00000049" "02000000" "0020" + 32 * "00"
                        + "01" "0020" + 32 * "00" + "00000002" "0004" + 20 * "00" + "000b" + 32 * "00")
REQUIRED = bytes.fromhex("00000001000b03810000")  # TPML_PCR_SELECTION: sha256:0,7
LOG, QUOTE = (open(name, "rb").read() for name in sys.argv[1:3])
NONCE = bytes.fromhex(sys.argv[3])


def decode():
    assert len(vinjakwe.decode_command(COMMAND).sessions) == 1


def check():
    assert vinjakwe.check(LOG, QUOTE, NONCE, REQUIRED, "sha256")


def rate(call):
    start, count = time.perf_counter(), 0
    while time.perf_counter() - start < ROUND_SECONDS:
        for _ in range(100):
            call()
        count += 100
    return count / (time.perf_counter() - start)


for call in (decode, check):
    print(call.__name__, round(max(rate(call) for _ in range(ROUNDS))))
