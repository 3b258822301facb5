"""Checks a second from Python by 1, 2 and 4 threads and processes at once, in rows of Markdown: the log and the quote
of calls.py."""
import sys
import time
from concurrent.futures import ProcessPoolExecutor, ThreadPoolExecutor
from multiprocessing import get_context

import vinjakwe

ROUNDS, ROUND_SECONDS, COUNTS = 5, 0.5, (1, 2, 4)
REQUIRED = bytes.fromhex("00000001000b03810000")  # TPML_PCR_SELECTION: sha256:0,7


def checks(words, until):
    """How many checks one worker makes until then."""
    log, quote = (open(name, "rb").read() for name in words[:2])
    nonce, count = bytes.fromhex(words[2]), 0
    while time.monotonic() < until:
        for _ in range(20):
            assert vinjakwe.check(log, quote, nonce, REQUIRED, "sha256")
        count += 20
    return count


def rate(pool, workers):
    """How many checks so many workers make in a second, after each has begun."""
    list(pool.map(time.sleep, [0.05] * workers))
    until = time.monotonic() + ROUND_SECONDS
    return sum(pool.map(checks, [sys.argv[1:4]] * workers, [until] * workers)) / ROUND_SECONDS


def pool_of(kind, workers):
    if kind == "threads":
        return ThreadPoolExecutor(workers)
    return ProcessPoolExecutor(workers, mp_context=get_context("fork"))


def main():
    print("| Checks a second in Python by | " + " | ".join(map(str, COUNTS)) + " |")
    print("|---|" + "---|" * len(COUNTS))
    for kind in "threads", "processes":
        most = []
        for workers in COUNTS:
            with pool_of(kind, workers) as pool:
                most.append(max(rate(pool, workers) for _ in range(ROUNDS)))
        print(f"| {kind} | " + " | ".join(f"{it:,.0f}" for it in most) + " |")


if __name__ == "__main__":
    main()
