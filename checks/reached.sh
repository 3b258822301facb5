#!/bin/sh
# What nobody has to believe stands apart: each definition of specs/ is reached from a contract that a crate hands out,
# but for those of folders inner/.

. "$(dirname "$0")/shared.sh"

name="each definition is reached from an exported contract"
if ! command -v python3 >/dev/null 2>&1; then
    skip "$name" "there is no python3"
elif python3 checks/reached.py >"$room/reached"; then
    cat "$room/reached"
    pass "$name"
else
    fail "$name" "$(cat "$room/reached")"
fi
