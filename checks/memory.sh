#!/bin/sh
# Each request of the program for memory, refused in turn: `out of memory` with status 3, or the answer as if none had
# been refused (the program may ask again for less), and never another answer. And no run is out of memory where no
# request is refused. Packets are told as they come, and lists of allowed digests read, in the same memory however long
# these are.

. "$(dirname "$0")/shared.sh"
want_program
find_compiler

# refuses NAME WORD..: the words are run undisturbed first, and then with each request refused. $room/script
# is standard input.
refuses() {
    name="refused memory: $1"
    shift
    "$program" "$@" >"$room/whole" 2>"$room/whole.err" <"$room/script"
    whole=$?
    request=0 wanting=0 wrong=
    while [ $request -lt 10000 ]; do
        request=$((request + 1))
        rm -f "$room/refused"
        LD_PRELOAD="$room/refuse.so" REFUSE=$request REFUSED="$room/refused" \
            "$program" "$@" >"$room/out" 2>"$room/err" <"$room/script"
        status=$?
        [ -e "$room/refused" ] || break
        if [ $status -eq 3 ] && [ "$(cat "$room/err")" = 'out of memory' ]; then
            wanting=$((wanting + 1))
        elif [ $status -ne $whole ] || ! cmp -s "$room/out" "$room/whole" ||
            ! cmp -s "$room/err" "$room/whole.err"; then
            wrong="$wrong $request (status $status)"
        fi
    done
    if [ $whole -eq 3 ]; then
        fail "$name" "it ends with 3 where no request is refused"
    elif [ -n "$wrong" ]; then
        fail "$name" "another answer at request$wrong"
    elif [ $wanting -eq 0 ]; then
        fail "$name" "no request was refused"
    else
        pass "$name ($((request - 1)) requests, $wanting times out of memory)"
    fi
}

# 400,000 packets of 27 MB: a command, its reply, and so on.
many_packets() {
    python3 - <<'END'
import sys
sys.path.insert(0, "checks")
from packets import DONE, STARTUP, back, savefile, to
packets = (packet for n in range(200000) for packet in (to(1 + 12 * n, STARTUP), back(1 + 10 * n, DONE)))
sys.stdout.buffer.writelines(savefile(101, packets))
END
}

name="packets of 27 MB are told in 16 MB of memory"
if ! command -v python3 >/dev/null 2>&1; then
    skip "$name" "there is no python3"
else
    many_packets >"$room/many.pcap"
    told=$(ulimit -v 16384 && "$program" show --pcap "$room/many.pcap" 2>"$room/err" | grep -c '^packet ')
    if [ "$told" = 400000 ]; then pass "$name"; else fail "$name" "$told are told: $(cat "$room/err")"; fi
    rm -f "$room/many.pcap"
fi

signed='--attest checks/quotes/not-measured.msg --nonce c0ffee0000000000000000000000000000000000'
printf 'sha256 10 %s\n' "$(zeros 32)" >"$room/allow"

name="a list of 16 MB is compared in 16 MB of memory"
{ cat "$room/allow" && yes '# not measured' | head -c $((16777216 - 75)); } >"$room/comments"
(ulimit -v 16384 && "$program" check checks/logs/worked.log $signed --allow "$room/comments") >"$room/out" 2>"$room/err"
status=$?
"$program" check checks/logs/worked.log $signed --allow "$room/allow" >"$room/out.wanted"
if [ $status = 0 ] && cmp -s "$room/out" "$room/out.wanted"; then
    pass "$name"
else
    fail "$name" "status $status: $(tail -n 1 "$room/out") $(cat "$room/err")"
fi
rm -f "$room/comments"

if [ -z "$compiler" ]; then
    skip "refused memory" "no C compiler was found for checks/refuse.c, which refuses it"
elif ! "$compiler" -shared -fPIC -O1 -o "$room/refuse.so" checks/refuse.c -ldl 2>"$room/err"; then
    skip "refused memory" "$compiler does not compile checks/refuse.c: $(head -n 1 "$room/err")"
else
    : >"$room/script"
    refuses "show of a command" show $startup
    refuses "show of a refusal" show 8001000000
    refuses "show of text that is not hexadecimal" show no
    refuses "show of a response" show --reply PCR_Reset 80020000001300000000000000000000010000
    refuses "show of a response code" show --reply Startup 80010000000a00000100
    refuses "a command's parameters by their names" show --fields $startup
    refuses "a reply's parameters by their names" show --fields --reply NV_Read 80020000001d000000000000000a000800000000000000040000010000
    refuses "joined parts" build PCR_Reset 00000010 400000090000010000 -
    refuses "joined parts that are refused" build Startup - - 0002
    printf '%s\n' $startup power no >"$room/script"
    refuses "a script" run
    refuses "a capture" show -
    refuses "a capture by the names of its parameters" show --fields --file "$room/script"
    bytes_of 80010000000c00000144000080010000000a0000000080 >"$room/stream"
    refuses "a stream" show --binary --file "$room/stream"
    refuses "a capture as JSON" show --json --fields --file "$room/script"
    refuses "an owner value" run --owner 6f776e6572
    refuses "an owner value that is not hexadecimal" run --owner no
    refuses "an owner value that is too long" run --owner "$(zeros 49)"
    refuses "a number that is none" run --greatest no
    refuses "a code" explain 9a2
    refuses "a code that is none" explain no
    quote=00000001000b038000000020da301acd1cfa3963a46b39f70c3ce51e88a5a296769f49656b6598230817df89
    refuses "a log" check checks/logs/worked.log
    refuses "a log that is none" check checks/logs/cut_by_a_byte.log
    refuses "a log beside a list of registers" check checks/logs/worked.log --registers checks/logs/worked.registers
    refuses "a log beside what tpm2_pcrread prints" check checks/logs/worked.log --registers checks/logs/worked.pcrread
    refuses "a log beside a list without registers" check checks/logs/worked.log --registers "$room/script"
    refuses "a log beside a quote" check checks/logs/worked.log --quote $quote
    refuses "a log beside a quote under another hash" check checks/logs/worked.log --quote $quote --hash sha384
    refuses "a log beside a quote that is refused" check checks/logs/worked.log --quote 00
    refuses "a log beside a list of registers and a quote" check checks/logs/worked.log --registers checks/logs/worked.registers --quote $quote
    refuses "the records of a log" events checks/logs/worked.log
    refuses "the records of a log that is none" events checks/logs/cut_by_a_byte.log
    refuses "the header of a log" events checks/logs/worked.log --header
    refuses "the header of what is no log" events checks/logs/older_form.log --header --json
    refuses "the banks that a log lists" check checks/logs/fewer_and_in_other_order.log --listed --json
    refuses "a hash without a name" check --hash sha512 checks/logs/worked.log
    refuses "a quote as it was signed with what is required" check checks/logs/worked.log $signed --require sha256:10
    refuses "a quote as it was signed that lacks what is required" check checks/logs/worked.log $signed --require sha256:7
    refuses "a log beside allowed digests" check checks/logs/worked.log $signed --allow "$room/allow"
    echo 'sha256 10' >"$room/wrong"
    refuses "a log beside a list with a wrong line" check checks/logs/worked.log $signed --allow "$room/wrong"
    refuses "records beside a quote" events checks/logs/worked.log $signed --require sha256:10
    refuses "no records beside a quote that lacks what is required" events checks/logs/worked.log $signed --require sha256:7
    refuses "a list of no registers" check checks/logs/worked.log $signed --require no
    refuses "a list of registers without a quote as it was signed" check checks/logs/worked.log --require sha256:7
    refuses "a hash without a quote" check checks/logs/worked.log --hash sha1
    refuses "help" show --help
    refuses "a usage fault" show
fi
