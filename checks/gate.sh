#!/bin/sh
# The gate: every proof from nothing, the must-fail edits, each test and each program's stored run. It passes where an
# edit no longer fits its file; this fails then, since nothing was tried.

. "$(dirname "$0")/shared.sh"

# The gate keeps what it has proved beside the sources, and tries edits in the folder of temporary files.
wanted=8000
for folder in . "$room"; do
    free=$(df -Pk "$folder" | awk 'NR == 2 { print int($4 / 1024) }')
    [ "$free" -ge $wanted ] || fail "room for the gate" "it may take $wanted megabytes, and there are $free where $folder lies"
done

rt ci 2>&1 | tee "$room/gate"
count "$(tail -n 1 "$room/gate")" "the gate"

name="each must-fail edit is tried"
bad=$(grep ': BAD EDIT: ' "$room/gate")
if [ -z "$bad" ]; then pass "$name"; else fail "$name" "$bad"; fi
