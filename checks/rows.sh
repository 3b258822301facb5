#!/bin/sh
# What is taken and what is refused, by the program that was built, and by tpm_fuzz, which reads all buffers of a check
# in one run of what `show` calls: rows in the files beside this one.
#
#     NAME                      begins a check, which the empty line ends
#     command HEX -> ANSWER     the first line of `show`; `taken` stands for any command
#     reply NAME HEX -> ANSWER  the first line of `show --reply NAME`; `taken` stands for any reply, and NAME `any` for
#                               each command in turn
#     buffer command HEX, buffer reply NAME HEX
#                               the buffer of the rows that follow:
#     cut A B -> ANSWER         cut to each length from A to B
#     sized A B -> ANSWER       the same, and the buffer's size set to that length
#     set AT HEX -> ANSWER      with these bytes in place of those behind the first AT
#     execute HEX -> HEX        a command and its response, by `run` on a device that was not started: all of one check
#     power                     a power cycle of that device
#     run WORD..                further words of this check's `run`
#
# HEX has spaces between its fields, XX*N for N times XX, and `-` for no bytes.

. "$(dirname "$0")/shared.sh"
. checks/tables.sh
want_program
want_trials

# end_rows: ends the check $name, if one was begun.
end_rows() {
    [ -n "$name" ] || return 0
    wrong=
    if [ -s "$room/asked" ]; then
        "$trials" <"$room/asked" >"$room/answers" 2>&1
        wrong=$(paste "$room/asked" "$room/wanted" "$room/answers" |
            awk -F '\t' '$3 != $2 && !($2 == "taken" && $3 ~ /^(command|reply) /) { print $1 ": " $3 ";" }')
    fi
    if [ -s "$room/in" ]; then
        "$program" run $words <"$room/in" >"$room/out" 2>&1
        cmp -s "$room/out" "$room/out.wanted" || wrong="$wrong it answered: $(cat "$room/out")"
    fi
    if [ -z "$wrong" ]; then pass "$name"; else fail "$name" "$wrong"; fi
    name=
}

# rows FILE: checks its rows.
rows() {
    name=
    while IFS= read -r line; do
        case $line in
        '#'*) ;;
        '') end_rows ;;
        power | 'run '* | 'buffer '* | *' -> '*) row "$line" ;;
        *)
            name=$line words=
            : >"$room/asked"
            : >"$room/wanted"
            : >"$room/in"
            : >"$room/out.wanted"
            ;;
        esac
    done <"$1"
    end_rows
}

# Words are bytes here, and none a pattern of files.
set -f
rows checks/commands.txt
rows checks/responses.txt
rows checks/cut.txt
rows checks/sizes.txt
rows checks/device.txt
rows checks/banks.txt
rows checks/registers.txt
rows checks/sessions.txt
rows checks/policies.txt
rows checks/counters.txt
rows checks/replay.txt
rows checks/hundred.txt
set +f
