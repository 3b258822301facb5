#!/bin/sh
# A million buffers of the tables, changed at random: what is accepted is encoded to itself, and what a device answers
# to a command is a response. The seed is the clock's, or $SEED; the same seed gives the same buffers.

. "$(dirname "$0")/shared.sh"
want_trials

seed=${SEED:-$(date +%s)}
changed=${CHANGED:-1000000}
most_seconds=120

# buffers: a line for each buffer that the tables have as taken or executed.
buffers() {
    awk '
        function joined(from, i, k, digits, part) {
            digits = ""
            for (i = from; i <= NF && $i != "->"; i++) {
                if (split($i, part, "*") == 2) for (k = 0; k < part[2]; k++) digits = digits part[1]
                else if ($i != "-") digits = digits $i
            }
            return digits
        }
        $1 == "command" && / -> (taken|command)/ { print "command", joined(2) }
        $1 == "reply" && $2 != "any" && / -> taken/ { print "reply", $2, joined(3) }
        $1 == "buffer" && $2 == "command" { print "command", joined(3) }
        $1 == "buffer" && $2 == "reply" { print "reply", $3, joined(4) }
        $1 == "execute" { print "command", joined(2) }
    ' checks/*.txt | sort -u
}

buffers >"$room/in"
name="$changed changed buffers, with seed $seed"
limited=
command -v timeout >/dev/null 2>&1 && limited="timeout $most_seconds"
if $limited crates/tpm_fuzz/out/tpm_fuzz "$seed" "$changed" <"$room/in" >"$room/out" 2>&1; then
    pass "$name"
    cat "$room/out"
else
    fail "$name" "status $?: $(cat "$room/out")"
fi
