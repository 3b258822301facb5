#!/bin/sh
# Frames of the tables, changed at random, as objects of JSON: Python's own reader takes each line, and finds there
# what checks/objects.py cuts from the frame. These are 50,000 frames, or $FRAMES. A million takes some minutes:
# FRAMES=1000000 ./test, or alone, over the program that was built, python3 checks/objects.py 1000000

. "$(dirname "$0")/shared.sh"
want_program

frames=${FRAMES:-50000}
name="$frames changed frames as objects of JSON"
if ! python3 -c 'import json' >"$room/out" 2>&1; then
    skip "$name" "python3 is not there"
elif python3 checks/objects.py "$frames" "${SEED:-1}" >"$room/out" 2>&1; then
    pass "$name"
    cat "$room/out"
else
    fail "$name" "$(cat "$room/out")"
fi

name="frames of each command of the library as tshark tells them"
if ! command -v tshark >/dev/null || ! python3 -c 'import json' >"$room/out" 2>&1; then
    skip "$name" "tshark or python3 is not there"
elif python3 checks/tshark.py >"$room/out" 2>&1; then
    pass "$name"
    cat "$room/out"
else
    fail "$name" "$(cat "$room/out")"
fi
