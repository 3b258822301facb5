#!/bin/sh
# A Caller and a Waiting are spent by their use: what uses one again does not compile. checks/spent.txt has a function
# for each use; it is compiled once, as a crate over a copy of the repository's sources, of which nothing is proved
# here.

. "$(dirname "$0")/shared.sh"

spent=$room/spent
mkdir -p "$spent/crates/spent/src"
tar -c --exclude=out crates HANDLES | tar -x -C "$spent"
cp checks/spent.txt "$spent/crates/spent/src/lib.rt"
{
    cat crates.txt
    echo 'spent: tpm_caller tpm_commands tpm_types arrayvec'
} >"$spent/crates.txt"
(cd "$spent/crates/spent" && rt try --test) >"$spent/said" 2>&1

# The functions that use again what was moved, and what else is wrong.
awk -F : '
    NR == FNR { if (match($0, /^pub fn [a-z_]*/)) name = substr($0, 8, RLENGTH - 7); function_at[FNR] = name; next }
    /error\[borrow-e0382\]/ { print function_at[$2] }
' checks/spent.txt "$spent/said" | sort -u >"$spent/refused"
wrong=$(grep error "$spent/said" | grep -v 'error\[borrow-e0382\]')

for use in seals_twice opens_twice opens_what_was_given_up gives_up_what_was_opened; do
    name="$use is refused"
    if grep -qx "$use" "$spent/refused"; then pass "$name"; else fail "$name" "it compiles: $wrong"; fi
done
if [ -s "$spent/refused" ] && [ -z "$wrong" ] && ! grep -qx uses_each_once "$spent/refused"; then
    pass "uses_each_once is not refused"
else
    fail "uses_each_once is not refused" "$wrong"
fi
