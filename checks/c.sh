#!/bin/sh
# The library for C: the archives of crate tpm_c by both backends, with the header and the programs in examples/.
# What they print is compared with `tpmtool run`, with the rows and the cases in the files beside this one, with the
# lists of checks/logs and with what the program of crate tpm_examples writes of its session.

. "$(dirname "$0")/shared.sh"
. checks/toolchain.sh
. checks/tables.sh
want_program

archive=crates/tpm_c/out/llvm/libtpm_c.a

# How many bytes of stack a program with a device has, by LLVM and by the toolchain's own compiler: multiples of 1,024.
llvm_stack=8192
rattle_stack=12288

# undefined: the names that the archive needs and does not define, in a line.
undefined() {
    nm -u "$archive" 2>/dev/null | awk '$1 == "U" { print $2 }' | sort -u >"$room/needed"
    nm --defined-only "$archive" 2>/dev/null | awk 'NF == 3 { print $3 }' | sort -u | comm -23 "$room/needed" - | tr '\n' ' '
}

# as_bytes: hexadecimal text on standard input as bytes.
as_bytes() {
    xxd -r -p
}

# hosted: the programs with the C library, over the archive.
hosted() {
    for example in attest device events log policy secure_boot session view; do
        "$compiler" -std=c99 -O2 -Wall -Wextra -pedantic -Werror -Iinclude -o "$room/$example" "examples/$example.c" "$archive" || return 1
    done
}

# same_first_lines: the rows of commands and of responses that checks/rows.sh reads, by the C program.
same_first_lines() {
    : >"$room/asked"
    : >"$room/wanted"
    set -f
    while IFS= read -r line; do
        case $line in
        '#'*) ;;
        *' -> '*) row "$line" ;;
        esac
    done <<ROWS
$(cat checks/commands.txt checks/responses.txt)
ROWS
    set +f
    "$room/view" first <"$room/asked" >"$room/answers" || return 1
    paste "$room/asked" "$room/wanted" "$room/answers" |
        awk -F '\t' '$3 != $2 && !($2 == "taken" && $3 ~ /^(command|reply) /) { print $1 ": " $3; wrong = 1 } END { exit wrong }'
}

# plain TEXT: the digits of a buffer, without the blanks and the 0x that the C program does not take.
plain() {
    printf '%s' "$1" | tr -d ' \t\r' | sed 's/^0x//'
}

# view_line WORD..: what the C program is asked in place of tpmtool with these words; nothing where it has no such line.
view_line() {
    case "$# $1 $2" in
    '2 show '*)
        digits=$(plain "$2")
        echo "command ${digits:--}"
        ;;
    '4 show --reply')
        digits=$(plain "$4")
        echo "reply $3 ${digits:--}"
        ;;
    '5 build '*) echo "build $2 ${3:--} ${4:--} ${5:--}" ;;
    esac
}

# same_cases FILE: the cases of this file that checks/program.sh reads, where their text is hexadecimal, by the C
# program.
same_cases() {
    : >"$room/in"
    : >"$room/out.wanted"
    : >"$room/case.in"
    : >"$room/case"
    while IFS= read -r line; do
        case $line in
        '$ '*)
            eval "set -- ${line#??}"
            view_line "$@" >>"$room/case.in"
            ;;
        '> not hexadecimal') : >"$room/case.in" ;;
        '> '*) echo "${line#??}" >>"$room/case" ;;
        '>$ '*) eval "echo ${line#???}" >>"$room/case" ;;
        '')
            cat "$room/case.in" >>"$room/in"
            while IFS= read -r asked; do cat "$room/case"; done <"$room/case.in" >>"$room/out.wanted"
            : >"$room/case.in"
            : >"$room/case"
            ;;
        esac
    done <<CASES
$(cat "$1")

CASES
    "$room/view" <"$room/in" >"$room/out" && cmp "$room/out" "$room/out.wanted"
}

# other_answers: a room that is a byte too small, one that is not, and a command that there is not.
other_answers() {
    echo 'build Startup - - 0000' >"$room/in"
    [ "$("$room/view" room 11 <"$room/in")" = "no room" ] &&
        [ "$("$room/view" room 12 <"$room/in")" = 80010000000c000001440000 ] || return 1
    printf 'build GetRandom - - 0008\nreply GetRandom 80010000000a00000100\n' >"$room/in"
    [ "$("$room/view" <"$room/in" | sort -u)" = "no command" ]
}

# same_script: the hundred commands, by the C program and by tpmtool.
same_script() {
    "$room/device" script 6f776e6572 41 <"$room/in" >"$room/out" && cmp "$room/out" "$room/out.wanted" || return 1
    "$program" run --owner 6f776e6572 --greatest 41 <"$room/in" >"$room/out.tool" && cmp "$room/out" "$room/out.tool"
}

# same_stream: three commands whose answers no nonce changes, as one stream of bytes.
same_stream() {
    printf '80010000000c000001440000\n8001000000140000017e00000001000403000001\n8001000000\n' >"$room/in.stream"
    head -n 2 "$room/in.stream" | "$program" run | tr -d '\n' >"$room/out.wanted.stream"
    tr -d '\n' <"$room/in.stream" | as_bytes | "$room/device" | xxd -p | tr -d '\n' >"$room/out.stream"
    cmp "$room/out.stream" "$room/out.wanted.stream"
}

# same_logs WORD..: each log of checks/logs gives the registers of its list, or its fault, by the C program with these
# words.
same_logs() {
    for list in checks/logs/*.registers; do
        "$room/log" "$@" <"${list%.registers}.log" >"$room/out" && cmp "$room/out" "$list" || return 1
    done
    while read -r log kind at; do
        echo "log $kind at $at" >"$room/out.wanted"
        "$room/log" "$@" <"checks/logs/$log.log" >"$room/out"
        cmp "$room/out" "$room/out.wanted" || return 1
    done <checks/logs/faults.txt
}

# long_log EVENTS: the log checks/logs/worked.log, with so many records of EV_IPL behind it, of 122 bytes each, in
# register 5.
long_log() {
    cat checks/logs/worked.log
    {
        printf '05000000 0d000000 03000000 0400 %040d 0b00 %064d 0c00 %096d 00000000' 0 0 0 | xxd -r -p >"$room/record"
        : >"$room/records"
        for i in 1 2 3 4 5 6 7 8 9 10 11 12 13 14 15 16; do cat "$room/record" >>"$room/records"; done
        rest=$1
        while [ "$rest" -ge 16 ]; do cat "$room/records" && rest=$((rest - 16)); done
        while [ "$rest" -gt 0 ]; do cat "$room/record" && rest=$((rest - 1)); done
    }
}

# same_long_log: a log of 1.1 MB gives by C the registers that it gives by tpmtool, and cut by a byte the same fault.
same_long_log() {
    long_log 10000 >"$room/long.log"
    [ "$(wc -c <"$room/long.log")" -gt 1100000 ] || return 1
    "$program" check "$room/long.log" >"$room/out.wanted" || return 1
    "$room/log" <"$room/long.log" >"$room/out" && cmp "$room/out" "$room/out.wanted" || return 1
    "$room/log" whole <"$room/long.log" >"$room/out" && cmp "$room/out" "$room/out.wanted" || return 1
    "$room/log" 8191 <"$room/long.log" >"$room/out" && cmp "$room/out" "$room/out.wanted" || return 1
    head -c 1100001 "$room/long.log" >"$room/cut.log"
    "$program" check "$room/cut.log" >"$room/out.wanted"
    "$room/log" <"$room/cut.log" >"$room/out"
    [ $? -eq 1 ] && cmp "$room/out" "$room/out.wanted"
}

# faults_of WORD..: the status of the example with these words, and the first line of what it writes.
faults_of() {
    "$@" >"$room/out" 2>&1
    echo "$? $(head -n 1 "$room/out" | tr -d '\0')"
}

# is_told STATUS LINE WORD..: the example with these words ends so; standard input is $room/in.told.
is_told() {
    told="$1 $2"
    shift 2
    [ "$(faults_of "$@" <"$room/in.told")" = "$told" ] || { echo "$*: $(faults_of "$@" <"$room/in.told")" && return 1; }
}

# same_events: the records of each log that has a list of registers, and of the others the fault of the list.
same_events() {
    : >"$room/out"
    for list in checks/logs/*.registers; do
        log=${list%.registers}
        echo "log ${log##*/}" >>"$room/out"
        "$room/events" <"$log.log" >>"$room/out" || return 1
    done
    cmp "$room/out" checks/logs/places.txt || return 1
    while read -r log kind at; do
        "$room/events" <"checks/logs/$log.log" >"$room/out"
        [ $? -eq 1 ] && [ "$(tail -n 1 "$room/out")" = "log $kind at $at" ] || return 1
    done <checks/logs/faults.txt
}

# same_variables: the variables of each log that has a list of registers, by their places.
same_variables() {
    : >"$room/out"
    for list in checks/logs/*.registers; do
        log=${list%.registers}
        echo "log ${log##*/}" >>"$room/out"
        "$room/events" variables <"$log.log" >>"$room/out" || return 1
    done
    cmp "$room/out" checks/logs/variables.txt
}

# same_texts: the types of records by their names, and their text, of each log that has a list of lines.
same_texts() {
    for list in checks/logs/*.events; do
        "$room/events" texts <"${list%.events}.log" >"$room/out"
        sed -E '/^log /!s/^[0-9]+ ([0-9]+ [^ ]+) [^ ]+ [^ ]+ [^ ]+ [^ ]+( text .*)?.*/\1\2/' \
            "$list" >"$room/out.wanted"
        cmp "$room/out" "$room/out.wanted" || { echo "$list: $(cat "$room/out")" && return 1; }
    done
}

# same_images: the images of each log that has a list of lines, but for their device paths; and one with a file. Beside
# these C tells those whose device path has a fault, which have their size in the list.
same_images() {
    for list in checks/logs/*.events; do
        "$room/events" images <"${list%.events}.log" | sed 's/ file=.*//' >"$room/out"
        sed -n -E 's/^[0-9]+ ([0-9]+ [^ ]+) .* (image address=[^ ]+ length=[^ ]+ link=[^ ]+) .*/\1 \2/p' "$list" \
            >"$room/out.wanted"
        if diff "$room/out.wanted" "$room/out" | grep '^<'; then return 1; fi
    done
    "$room/events" images <checks/logs/images.log | grep -q -F ' file=\\EFI\\BOOT\\BOOTX64.EFI'
}

# same_objects: the object of each record of each log is the one of tpmtool.
same_objects() {
    "$compiler" -std=c99 -O2 -Wall -Wextra -pedantic -Werror -Iinclude -o "$room/contents" checks/contents.c "$archive" ||
        return 1
    for log in checks/logs/*.log checks/quotes/*.log; do
        "$program" events --json "$log" | sed '/^{"fault"/d' >"$room/out.wanted"
        "$room/contents" objects <"$log" >"$room/out" && cmp "$room/out" "$room/out.wanted" ||
            { echo "$log" && return 1; }
    done
}

# same_contents: what the data of the records of each log say that has a list of registers, as Python's struct tells it.
same_contents() {
    for list in checks/logs/*.registers; do
        log=${list%.registers}.log
        python3 checks/contents.py "$log" >"$room/out.wanted" || return 1
        "$room/contents" <"$log" >"$room/out" && cmp "$room/out" "$room/out.wanted" || { echo "$log" && return 1; }
    done
}

# same_measured: which part of the data the digest of each bank is of, of each log that has a list of objects.
same_measured() {
    for list in checks/logs/*.json; do
        sed -n 's/.*"measured":{\([^}]*\)}.*/\1/p' "$list" | tr -d '"' | tr ',' ' ' >"$room/out.wanted"
        "$room/events" measured <"${list%.json}.log" | awk '
            BEGIN { split("0004: 000b: 000c:", hashes); split("sha1: sha256: sha384:", banks) }
            {
                line = ""
                for (bank = 1; bank <= 3; bank++)
                    for (i = 3; i <= NF; i++)
                        if (sub("^" hashes[bank], banks[bank], $i)) line = line " " $i
                print substr(line, 2)
            }' >"$room/out"
        cmp "$room/out" "$room/out.wanted" || { echo "$list: $(cat "$room/out")" && return 1; }
    done
}

# same_codes: the names of the response codes of checks/explain.txt, and the numbers of those that have none.
same_codes() {
    named_codes >"$room/codes"
    { cut -f 1 "$room/codes" && echo 1084; } | sed 's/^/code /' | "$room/view" >"$room/out" || return 1
    { cut -f 2 "$room/codes" && echo 0x1084; } | cmp - "$room/out"
}

# attest_tells STATUS WORD..: what examples/attest.c says with these words, which $room/out.wanted has.
attest_tells() {
    ends=$1
    shift
    "$room/attest" "$@" >"$room/out"
    [ $? -eq "$ends" ] && cmp "$room/out" "$room/out.wanted" || { echo "$*: $(head -n 3 "$room/out")" && return 1; }
}

# tells_nothing LINE WORD..: nothing is told of any record, but this line on the quote.
tells_nothing() {
    echo "$1" >"$room/out.wanted"
    shift
    attest_tells 1 "$@"
}

# same_vouched: what the quotes of checks/quotes vouch for: what was measured in the registers that they select. Nothing
# is told where a quote is not the one that was asked for.
same_vouched() {
    while read -r quote log hash sent wanted; do
        log=checks/quotes/$log quote=checks/quotes/$quote.msg
        "$room/events" measured <"$log" | awk -v list="$wanted" '
            BEGIN {
                split("0004 000b 000c", hashes)
                split("sha1 sha256 sha384", names)
                for (i = 1; i <= 3; i++) bank[hashes[i]] = names[i]
                count = split(list, entries, "+")
                for (i = 1; i <= count; i++) {
                    split(entries[i], halves, ":")
                    many = split(halves[2], registers, ",")
                    for (j = 1; j <= many; j++) selected[halves[1], registers[j]] = 1
                }
            }
            {
                line = $1
                for (i = 3; i <= NF; i++) {
                    split($i, it, ":")
                    if ($2 != "00000003" && (bank[it[1]], $1) in selected)
                        line = line " " bank[it[1]] ":" (it[2] == "other" ? "digest" : it[2])
                }
                print line
            }' >"$room/out.wanted"
        attest_tells 0 --vouched "$log" "$quote" "$hash" "$sent" "$wanted" || return 1
        tells_nothing 'nonce differs' --vouched "$log" "$quote" "$hash" "${sent}00" "$wanted" &&
            tells_nothing 'selection lacks sha384 9' --vouched "$log" "$quote" "$hash" "$sent" sha384:9 || return 1
        log=checks/logs/cut_by_a_byte.log
        tells_nothing 'log Truncated at 211' --vouched $log "$quote" "$hash" "$sent" "$wanted" || return 1
        case $quote in */not-measured.msg) continue ;; esac
        log=checks/logs/worked.log
        tells_nothing 'digest differs' --vouched $log "$quote" "$hash" "$sent" "$wanted" || return 1
    done <checks/quotes/cases.txt
}

# same_forged: what a quote vouches for in the log of what was measured, and in logs in which data, types or further
# records are others (checks/logs/NAME.vouched).
same_forged() {
    list=sha1:1,8+sha256:0,1,4,7,8+sha384:1,7
    by_python checks/quotes/made.py checks/logs/attested.registers 6e6f "$list" >"$room/quote"
    for log in attested attested_changed attested_relabelled attested_added; do
        awk '{ sub(/^vouched=-?/, "", $6); gsub(/,/, " ", $6); print $2 ($6 == "" ? "" : " " $6) }' \
            "checks/logs/$log.vouched" >"$room/out.wanted"
        attest_tells 0 --vouched "checks/logs/$log.log" "$room/quote" sha256 6e6f "$list" || return 1
    done
}

# same_allowed: the digests of each log that has a list of lines beside themselves, and beside a list in which the first
# of each register is another, and the others have another register, too: what checks/logs/allowed.py says of them, by a
# quote that selects the registers of the list. Beside any other quote, or an empty list, that alone is told.
same_allowed() {
    for events in checks/logs/*.events; do
        log=${events%.events}
        by_python checks/logs/allowed.py lists "$events" >"$room/list"
        [ -s "$room/list" ] || continue
        awk '{ of = $1 " " $2 } !(of in first) { first[of] = $3; print of, "00" substr($3, 3), "other"; next }
            { print $1, $2 == 0 ? 1 : 0, $3; print; print "# none" }' "$room/list" >"$room/others"
        for list in list others; do
            selected=$(by_python checks/logs/allowed.py registers "$room/$list")
            by_python checks/quotes/made.py "$log.registers" 6e6f "$selected" >"$room/quote"
            by_python checks/logs/allowed.py told "$events" "$room/$list" >"$room/out.wanted"
            if grep -q '^unknown' "$room/out.wanted"; then wanted=1; else wanted=0; fi
            attest_tells "$wanted" --allowed "$log.log" "$room/quote" sha256 6e6f "$room/$list" || return 1
        done
        { cat "$room/list" && echo "sha384 13 $(zeros 48)"; } >"$room/more"
        tells_nothing 'nonce differs' --allowed "$log.log" "$room/quote" sha256 6e "$room/list" &&
            tells_nothing 'selection lacks sha384 13' --allowed "$log.log" "$room/quote" sha256 6e6f "$room/more" &&
            tells_nothing 'no register' --allowed "$log.log" "$room/quote" sha256 6e6f /dev/null || return 1
    done
}

# same_spelled: lists whose first line is spelled otherwise, as checks/spelled.txt has it by words of awk, and lists
# with a long comment, which ends with a line that allows a digest, and with long words behind a digest: what tpmtool
# says of each. Where a line is wrong, the status is 2.
same_spelled() {
    log=checks/logs/secure_types number=0
    by_python checks/logs/allowed.py lists $log.events >"$room/list"
    by_python checks/quotes/made.py $log.registers 6e6f sha256:7 >"$room/quote"
    while IFS= read -r change; do
        number=$((number + 1))
        awk "NR == 1 { $change } 1" "$room/list" >"$room/list.$number"
    done <checks/spelled.txt
    { printf '# %0253d' 0 && cat "$room/list"; } >"$room/list.comment"
    { sed -n 1p "$room/list" | tr -d '\n' && printf ' %0300d\n' 0 && sed 1d "$room/list"; } >"$room/list.words"
    for list in "$room"/list.*; do
        "$program" check $log.log --attest "$room/quote" --nonce 6e6f --any-selection --allow "$list" >"$room/tool"
        ends=$?
        grep -e '^allowed ' -e '^unknown ' -e '^no register$' -e '^selection lacks ' "$room/tool" >"$room/out.wanted"
        if grep -q '^line ' "$room/tool"; then ends=2; fi
        attest_tells $ends --allowed $log.log "$room/quote" sha256 6e6f "$list" 2>/dev/null || return 1
    done
    [ "$number" -gt 40 ]
}

# same_signatures: a signature's parts, by an RSA key that of checks/quotes, and what is refused.
same_signatures() {
    { echo 001400040100 | as_bytes && cat checks/quotes/rsa-sha1.sig; } >"$room/signature"
    printf 'scheme 0014\nhash sha1\nsig %s\n' "$(xxd -p checks/quotes/rsa-sha1.sig | tr -d '\n')" >"$room/out.wanted"
    "$room/attest" --signature "$room/signature" >"$room/out" && cmp "$room/out" "$room/out.wanted" || return 1
    echo 0018000b0002010200020304 | as_bytes >"$room/signature"
    printf 'scheme 0018\nhash sha256\nr 0102\ns 0304\n' >"$room/out.wanted"
    "$room/attest" --signature "$room/signature" >"$room/out" && cmp "$room/out" "$room/out.wanted" || return 1
    echo 001a000b000101 | as_bytes >"$room/signature"
    "$room/attest" --signature "$room/signature" >"$room/out"
    [ $? -eq 1 ] && [ "$(cat "$room/out")" = 'refused 092 at 0' ]
}

# same_boots: what each log of checks/logs that has a list says of Secure Boot, without what the variables hold, in the
# banks of its list; and a log that is none, a bank that there is not, and more authorities than the first room has.
same_boots() {
    for list in checks/logs/*.secure; do
        log=${list%.secure}
        sed -e 's/ size .*//' -e 's/ variable .*//' "$list" >"$room/out.wanted"
        banks=$(sed -n 's/^secure-boot \([a-z0-9]*\) .*/\1/p' "$list")
        # shellcheck disable=SC2086
        "$room/secure_boot" $banks <"$log.log" >"$room/out"
        status=$?
        cmp "$room/out" "$room/out.wanted" || { echo "$log: $(cat "$room/out")" && return 1; }
        if grep '^secure-boot' "$list" | grep -q -v ' on$'; then wanted=1; else wanted=0; fi
        [ "$status" -eq "$wanted" ] || { echo "$log: the status is $status" && return 1; }
    done
    while read -r log kind at; do
        echo "log $kind at $at" >"$room/out.wanted"
        "$room/secure_boot" sha256 <"checks/logs/$log.log" >"$room/out"
        [ $? -eq 1 ] && cmp "$room/out" "$room/out.wanted" || return 1
    done <checks/logs/faults.txt
    cp checks/logs/secure_on.log "$room/in.told"
    is_told 1 'no bank' "$room/secure_boot" md5 && more_authorities
}

# more_authorities: a log whose last record, an authority of 179 bytes, stands there four times more.
more_authorities() {
    log=checks/logs/secure_on.log
    { cat "$log" && for again in 1 2 3 4; do tail -c +1215 "$log"; done; } >"$room/more.log"
    "$program" check "$room/more.log" --secure-boot | sed -e 's/ size .*//' -e 's/ variable .*//' >"$room/out.wanted"
    "$room/secure_boot" sha1 sha256 sha384 <"$room/more.log" >"$room/out" && cmp "$room/out" "$room/out.wanted" &&
        [ "$(grep -c '^authority' "$room/out")" -eq 18 ]
}

# device_faults: words that the device does not know, text that is no hexadecimal, and streams that end too early.
device_faults() {
    : >"$room/in.told"
    is_told 2 'device: these words are unknown' "$room/device" scripts || return 1
    is_told 2 'device: these words are unknown' "$room/device" script 00 1 2 || return 1
    is_told 2 "device: the owner's value is no hexadecimal, or too long" "$room/device" script 6f7 || return 1
    is_told 2 "device: the owner's value is no hexadecimal, or too long" "$room/device" script 6g || return 1
    is_told 2 "device: the owner's value is no hexadecimal, or too long" "$room/device" script "$(printf '%098d' 0)" || return 1
    is_told 2 'device: the greatest value is no number of 64 bits' "$room/device" script 00 -1 || return 1
    is_told 2 'device: the greatest value is no number of 64 bits' "$room/device" script 00 18446744073709551616 ||
        return 1
    is_told 2 'device: the greatest value is no number of 64 bits' "$room/device" script 00 1x || return 1
    is_told 0 '' "$room/device" stream || return 1
    is_told 0 '' "$room/device" power "$(printf '%096d' 0)" 18446744073709551615 || return 1
    echo 80010000000c00000144000 >"$room/in.told"
    is_told 1 'line 1: not hexadecimal, or more than 4096 bytes' "$room/device" script || return 1
    printf '80010000000c0000014400' | as_bytes >"$room/in.told"
    is_told 3 'device: the input ends inside a command' "$room/device" || return 1
    printf '800100000009' | as_bytes >"$room/in.told"
    is_told 3 'device: no buffer has the size that was stated' "$room/device" || return 1
    printf 'pow' >"$room/in.told"
    is_told 3 'device: the input ends inside a command' "$room/device" || return 1
    is_told 3 'device: neither a command nor the word power' "$room/device" power || return 1
    : >"$room/in.told"
    is_told 2 "usage: log [whole | PIECE_BYTES | QUOTE_HEX sha1|sha256|sha384], where a piece has 1 to 16777217 bytes" "$room/log" 1x
}

# same_power: a stream with the word `power` in it answers as a script with it does, and without the word it does not.
same_power() {
    startup=80010000000c000001440000
    printf '%s\n' $startup $startup power $startup | "$room/device" script | grep -v power |
        tr -d '\n' >"$room/out.wanted.stream"
    { printf '%s%s' $startup $startup | as_bytes && printf power && printf '%s' $startup |
        as_bytes; } >"$room/in.stream"
    "$room/device" power <"$room/in.stream" | xxd -p | tr -d '\n' >"$room/out.stream"
    [ -s "$room/out.stream" ] && cmp "$room/out.stream" "$room/out.wanted.stream" &&
        ! "$room/device" <"$room/in.stream" >"$room/out.stream"
}

# says LOG QUOTE HASH WORD..: what the words say of a quote beside a log.
says() {
    log=$1 quote=$2 hash=$3
    shift 3
    echo "$*" >"$room/out.wanted"
    "$room/log" "$quote" "$hash" <"checks/logs/$log.log" >"$room/out"
    cmp "$room/out" "$room/out.wanted"
}

# same_quotes: quotes of the registers 0 and 7 in the bank of SHA-256, whose values a library for hashes was given.
same_quotes() {
    quoted=00000001000b03810000
    says worked "${quoted}002029007275b14d167931c84e098e48fbede947a9cc74f672be54fcb83ed9d07a5c" sha256 quote matches || return 1
    says worked "${quoted}0030929dc3981472286833a174519c9816e7dfd1217f441283efff8de8e58ff59d2f9995a65bcced64d5450192256285166a" sha384 quote matches || return 1
    says worked "${quoted}002029007275b14d167931c84e098e48fbede947a9cc74f672be54fcb83ed9d07a5c" sha384 quote differs || return 1
    says worked "00000001000b03800000002029007275b14d167931c84e098e48fbede947a9cc74f672be54fcb83ed9d07a5c" sha256 quote differs || return 1
    says worked "$quoted" sha256 refused at 10 || return 1
    says worked "${quoted}002029007275b14d167931c84e098e48fbede947a9cc74f672be54fcb83ed9d07a5c00" sha256 refused at 44 || return 1
    says worked "$quoted" md5 no bank || return 1
    says cut_by_a_byte "$quoted" sha256 log Truncated at 211
}

# attests CASE WORD..: what the words say last of a quote of checks/quotes; beside LOG, HASH, NONCE and WANTED.
attests() {
    case=$1
    shift
    echo "$*" >"$room/out.wanted"
    "$room/attest" "checks/quotes/$log" "$room/quoted" "$hash" "$sent" "$wanted" | tail -n 1 >"$room/out"
    cmp "$room/out" "$room/out.wanted" || { echo "$case: $(cat "$room/out")" && return 1; }
}

# quoted NAME [AT BYTE]: the quote of this name, with this byte in octal at this place.
quoted() {
    cp "checks/quotes/$1.msg" "$room/quoted"
    if [ $# -gt 1 ]; then printf "\\$3" | dd of="$room/quoted" bs=1 seek="$2" conv=notrunc 2>/dev/null; fi
}

# same_attests: the quotes of checks/quotes beside their logs, and what is said where one thing is another.
same_attests() {
    while read -r quote log hash sent wanted; do
        quoted "$quote"
        attests "$quote" matches || return 1
        case $log in
        16-*) ;;
        *) (log=16-seabios.log && attests "$quote beside another log" digest differs) || return 1 ;;
        esac
        (sent=${sent%??} && attests "$quote, a nonce shorter by a byte" nonce differs) || return 1
        (sent=${sent}00 && attests "$quote, a nonce longer by a byte" nonce differs) || return 1
        (sent=${sent%?}1 && attests "$quote, another nonce" nonce differs) || return 1
        (wanted=sha384:7 && attests "$quote, a bank that is not quoted" selection lacks sha384 7) || return 1
        (wanted=sha256:all && attests "$quote, all registers" "$(case $quote in rsa-sha1 | not-measured) echo selection lacks sha256 0 ;; ecc-sha256) echo selection lacks sha256 8 ;; *) echo selection lacks sha256 1 ;; esac)") || return 1
        (wanted=- && attests "$quote, nothing required" matches) || return 1
        quoted "$quote" 3 106
        attests "$quote, another magic" quote refused 0084 at 0 || return 1
        quoted "$quote" 5 024
        attests "$quote, a certification" quote refused 0084 at 4 || return 1
        quoted "$quote" 80 002
        attests "$quote, safe 2" quote refused 0084 at 80 || return 1
        quoted "$quote"
        printf x >>"$room/quoted"
        size=$(wc -c <"checks/quotes/$quote.msg" | tr -d ' ')
        attests "$quote, a byte behind it" quote refused 0095 at "$size" || return 1
    done <checks/quotes/cases.txt
    # No register, and the digest of no bytes.
    { head -c 89 checks/quotes/ecc-sha256.msg && echo 00000001000b030000000020e3b0c44298fc1c149afbf4c8996fb92427ae41e4649b934ca495991b7852b855 | as_bytes; } >"$room/quoted"
    log=17-ovmf-secureboot.log hash=sha256 sent=c0ffee0000000000000000000000000000000000
    (wanted=- && attests "no register" selects nothing) || return 1
    (wanted=sha256:0 && attests "no register, one required" selection lacks sha256 0)
}

# changed_quotes: a quote changed at random 20,000 times; with the compiler's sanitizers where it has them.
changed_quotes() {
    "$compiler" -std=c99 -O1 -g -fsanitize=address,undefined -fno-sanitize-recover=all -Iinclude -o "$room/attest_changed" examples/attest.c "$archive" 2>/dev/null ||
        cp "$room/attest" "$room/attest_changed"
    "$room/attest_changed" --changed "${CHANGED_QUOTES:-20000}" checks/quotes/16-seabios.log checks/quotes/not-measured.msg sha256 c0ffee0000000000000000000000000000000000 sha256:10,11
}

# same_policies: the digest of a policy in each hash, as Python's hashlib gives it, and what is refused.
same_policies() {
    "$room/policy" >"$room/out" && cmp "$room/out" checks/policy.txt
}

# session_says: what examples/session.c prints. Crate tpm_examples writes the first seven lines last; the register is as
# Python's hashlib gives it, and a counter begins one above the greatest value (Part 3, 31.8).
session_says() {
    tail -n 7 crates/tpm_examples/stdout
    echo session 03000001 is started
    echo register 16 is 52afce43e9aec885add0b10a096c09c306ae572917bb73dc4753cb9d039845fd
    echo the second counter is 4
}

# same_session: a caller and a device in one process, and then two sessions at once.
same_session() {
    session_says >"$room/out.wanted"
    "$room/session" >"$room/out" && cmp "$room/out" "$room/out.wanted"
}

# freestanding_says: what examples/freestanding.c prints, by tpmtool.
freestanding_says() {
    printf '%s\n' 80010000000c000001440000 \
        8002000000350000018200000010000000094000000900000100000000000100040102030405060708090a0b0c0d0e0f1011121314 \
        8001000000140000017e00000001000403000001 | "$program" run
}

# freestanding: the program without a C library, of which no name is left undefined.
freestanding() {
    "$compiler" -std=c99 -O2 -Wall -Wextra -Werror -ffreestanding -fno-stack-protector -nostdlib -static -Iinclude \
        -o "$room/freestanding" examples/freestanding.c "$archive" || return 1
    [ -z "$(undefined)" ] || { echo "undefined: $(undefined)" && return 1; }
    freestanding_says >"$room/out.wanted"
    "$room/freestanding" >"$room/out" && cmp "$room/out" "$room/out.wanted"
}

# on_painted EXAMPLE BYTES WORD..: this program of examples/, compiled with the words, on a stack of so many bytes that
# checks/painted.c has painted, which leaves a part of it untouched and prints what it should. Its frames are in the
# measure, and its `printf` is not.
on_painted() {
    example=$1 bytes=$2
    shift 2
    "$compiler" -std=c99 -O2 -U_FORTIFY_SOURCE -Wall -Wextra -Werror "$@" -Iinclude -c -o "$room/painted_$example.o" \
        "examples/$example.c" || return 1
    "$compiler" -std=c99 -O2 -Wall -Wextra -pedantic -Werror -Wl,-z,now -o "$room/painted_$example" checks/painted.c \
        "$room/painted_$example.o" "$archive" || return 1
    "${example}_says" >"$room/out.wanted"
    "$room/painted_$example" "$bytes" >"$room/out" && cmp "$room/out" "$room/out.wanted"
}

# on_small_stacks BACKEND BYTES: a device, and a session with one, over the archive by this backend.
on_small_stacks() {
    holds "a device takes a part of a painted stack of $2 bytes through C, by $1" \
        on_painted freestanding "$2" -D_start=example -ffreestanding -fno-stack-protector
    holds "a session and a device take a part of a painted stack of $2 bytes through C, but for printf, by $1" \
        on_painted session "$2" -Dmain=example -Dprintf=told
}

# rooms: a device, a framer, a log's replay and a caller take as many bytes as docs/USING.md says.
rooms() {
    cat >"$room/rooms.c" <<'PROGRAM'
#include "vinjakwe.h"
#include <stdio.h>

int main(void) {
    printf("A device takes %zu bytes, a framer %zu, a log's replay in pieces %zu and a caller %zu\n", tpm_device_size(),
           tpm_framer_size(), tpm_log_replay_size(), tpm_caller_size());
    return 0;
}
PROGRAM
    "$compiler" -std=c99 -O2 -Wall -Wextra -Werror -Iinclude -o "$room/rooms" "$room/rooms.c" "$archive" || return 1
    sed 's/\([0-9]\),\([0-9]\)/\1\2/g' docs/USING.md | grep -q -F "$("$room/rooms")" || { "$room/rooms" && return 1; }
}

# in_flash: what firmware takes of the archive by LLVM: at most 40 KB to decode, 110 for a device, 60 for a caller,
# and 60 for a log or a quote.
in_flash() {
    CC="$compiler" bench/flash "$archive" >"$room/flash" || return 1
    awk -F '|' '
        { gsub(/[ ,]/, "", $3); most = 0 }
        $2 ~ /tpm_command_decode/ { most = 40 }
        $2 ~ /tpm_device_init/ { most = 110 }
        $2 ~ /tpm_log_/ { most = 60 }
        $2 ~ /tpm_caller_/ { most = 60 }
        most { rows++ }
        most && $3 + 0 > 1024 * most { print; wrong = 1 }
        END { exit wrong || rows != 6 }
    ' "$room/flash"
}

# on_stack: no call takes more than 6 KB of stack by LLVM, or 8 of a log, nor more than 12 by the toolchain's compiler.
on_stack() {
    CC="$compiler" bench/stack crates/tpm_c/out/llvm/libtpm_c.a crates/tpm_c/out/rattle/libtpm_c.a >"$room/stack" ||
        return 1
    awk -F '|' '
        $2 ~ /tpm_/ {
            gsub(/[ ,]/, "")
            rows++
            if ($3 > 1024 * ($2 ~ /tpm_log_/ ? 8 : 6) || $4 > 1024 * 12) { print; wrong = 1 }
        }
        END { exit wrong || !rows }
    ' "$room/stack"
}

# readme: the lines of C in README.md print what it says.
readme() {
    {
        printf '#include "vinjakwe.h"\n#include <inttypes.h>\n#include <stdio.h>\nint main(void) {\n'
        awk '/^```c$/ { inside = 1; next } /^```$/ { inside = 0 } inside' README.md
        echo 'return 0; }'
    } >"$room/readme.c"
    "$compiler" -std=c99 -O2 -Wall -Wextra -Werror -Iinclude -o "$room/readme" "$room/readme.c" "$archive" || return 1
    grep -q "This prints \`$("$room/readme")\`" README.md
}

# using: the first program of C in docs/USING.md prints the same.
using() {
    awk '/^```c$/ { inside = 1; next } /^```$/ { if (inside) exit } inside' docs/USING.md >"$room/using.c"
    "$compiler" -std=c99 -O2 -Wall -Wextra -Werror -Iinclude -o "$room/using" "$room/using.c" "$archive" || return 1
    [ "$("$room/using")" = "$("$room/readme")" ]
}

# keeping: the second lines of C in docs/USING.md, which keep a device.
keeping() {
    awk '/^```c$/ { inside = ++n == 2; next } /^```$/ { inside = 0 } inside' docs/USING.md >"$room/keeping.c"
    [ -s "$room/keeping.c" ] &&
        "$compiler" -std=c99 -O2 -Wall -Wextra -Werror -Iinclude -c -o "$room/keeping.o" "$room/keeping.c"
}

# sanitized NAME WORD..: checks/NAME.c as $room/NAME, with the compiler's sanitizers where it has them: with these words
# the program does nothing.
sanitized() {
    one=$1
    shift
    { "$compiler" -std=c11 -O1 -g -fsanitize=address,undefined -fno-sanitize-recover=all -Wall -Wextra -Werror -Iinclude \
        -o "$room/$one" "checks/$one.c" "$archive" 2>/dev/null && "$room/$one" "$@" </dev/null >/dev/null; } ||
        "$compiler" -std=c11 -O2 -Wall -Wextra -Werror -Iinclude -o "$room/$one" "checks/$one.c" "$archive"
}

# build_kept: checks/kept.c, and the images of checks/kept.txt, with what is said of them.
build_kept() {
    sanitized kept rows || return 1
    grep -v '^#' checks/kept.txt | sed 's/ -> .*//' >"$room/kept.in"
    grep -v '^#' checks/kept.txt | sed 's/.* -> //' >"$room/kept.wanted"
}

# same_kept: what is said of the images of checks/kept.txt, which are those that Python makes where there is one.
same_kept() {
    build_kept && "$room/kept" rows <"$room/kept.in" >"$room/out" && cmp "$room/out" "$room/kept.wanted" || return 1
    ! command -v python3 >/dev/null 2>&1 || python3 checks/kept.py | cmp - checks/kept.txt
}

# changed_kept: images that are changed at random, 100,000 of them, or as many as CHANGED_IMAGES says.
changed_kept() {
    "$room/kept" images "${CHANGED_IMAGES:-100000}" "${SEED:-1}" <"$room/kept.in"
}

# same_sealed: commands sealed and replies opened, 50,000 of them, or as many as SEALED_COMMANDS says, beside the caller
# that checks/sealed.c has.
same_sealed() {
    sanitized sealed 0 1 && "$room/sealed" "${SEALED_COMMANDS:-50000}" "${SEED:-1}"
}

# same_call WORD FUNCTION LEN: the call of this word in checks/same.c, which compares what it was sent with what it
# computes, takes as many instructions where the first, the middle or the last of these LEN bytes differs.
same_call() {
    word=$1 function=$2
    set -- 0 $(($3 / 2)) $(($3 - 1))
    for at; do
        # The words of each run have one length, since it moves the stack.
        set -- "$@" "$(count_in "$function" "$room/calls" "$word" "$(printf %02d "$at")" \
            checks/quotes/17-ovmf-secureboot.log checks/quotes/ecc-sha256.msg)"
        shift
    done
    alike "instructions through C wherever it is that what was sent differs: $word" "$@"
}

# same_calls: a command's HMAC and password, a reply's HMAC, a quote's nonce and its digest.
same_calls() {
    if ! command -v valgrind >/dev/null 2>&1; then
        skip "instructions through C wherever it is that what was sent differs" "there is no valgrind"
    elif ! "$compiler" -std=c99 -O2 -Wall -Wextra -Werror -Iinclude -o "$room/calls" checks/same.c "$archive"; then
        fail "instructions through C wherever it is that what was sent differs" "checks/same.c isn't built"
    else
        same_call command tpm_device_execute 32
        same_call password tpm_device_execute 15
        same_call reply tpm_caller_open 32
        same_call nonce tpm_log_check_attest 20
        same_call digest tpm_log_check_quote 32
    fi
}

if [ -z "$compiler" ]; then
    skip "the library for C" "no C compiler was found"
elif ! command -v nm >/dev/null 2>&1 || ! command -v xxd >/dev/null 2>&1; then
    skip "the library for C" "there is no nm or no xxd"
elif ! archives; then
    fail "the library for C" "it isn't built: $(tail -n 3 "$room/lib")"
else
    write_hundred
    holds "the header as C99" "$compiler" -std=c99 -Wall -Wextra -pedantic -Werror -fsyntax-only -Iinclude \
        -x c include/vinjakwe.h
    if command -v "${CXX:-c++}" >/dev/null 2>&1; then
        holds "the header as C++" "${CXX:-c++}" -Wall -Wextra -pedantic -Werror -fsyntax-only -Iinclude \
            -x c++ include/vinjakwe.h
    else
        skip "the header as C++" "no C++ compiler was found"
    fi
    holds "C programs with the C library are built" hosted
    holds "the lines of C in README.md print what it says" readme
    holds "the lines of C in docs/USING.md print the same" using
    holds "the lines of C in docs/USING.md that keep a device are built" keeping
    holds "the hundred commands through C give the bytes of tpmtool" same_script
    holds "a stream of frames through C gives the bytes of tpmtool" same_stream
    holds "rows of commands and of responses through C" same_first_lines
    holds "commands and responses through C are shown as by tpmtool" same_cases checks/show.txt
    holds "commands joined through C are those of tpmtool" same_cases checks/build.txt
    holds "too small a room, and no command, through C" other_answers
    holds "the names of response codes through C" same_codes
    holds "the logs through C give their registers and faults" same_logs
    holds "the logs through C as a whole" same_logs whole
    holds "the logs through C byte by byte" same_logs 1
    holds "the logs through C in pieces of 100 bytes" same_logs 100
    holds "a log of 1.1 MB through C" same_long_log
    holds "the records of the logs through C" same_events
    holds "the variables of the logs through C" same_variables
    holds "the names of types and the texts of the logs through C" same_texts
    holds "the images of the logs through C" same_images
    holds "the objects of the records of the logs through C are those of tpmtool" same_objects
    if command -v python3 >/dev/null 2>&1; then
        holds "what the data of the records of the logs say through C" same_contents
    else
        skip "what the data of the records of the logs say through C" "there is no python3"
    fi
    holds "which part of the data was measured through C" same_measured
    holds "whether Secure Boot was on through C" same_boots
    holds "a device through C tells what it does not know" device_faults
    holds "the power of a device behind a stream" same_power
    holds "quotes beside a log through C" same_quotes
    holds "quotes as they were signed, beside their logs through C" same_attests
    holds "quotes that are changed at random through C" changed_quotes
    holds "what quotes vouch for through C" same_vouched
    if command -v python3 >/dev/null 2>&1 && begin_python; then
        holds "what a quote vouches for in logs of other data, types and records through C" same_forged
        holds "a list of digests beside the logs through C" same_allowed
        holds "lists that are spelled otherwise say through C what tpmtool says of them" same_spelled
    else
        skip "made quotes, and lists of digests, beside the logs through C" "there is no python3"
    fi
    holds "signatures by their parts through C" same_signatures
    holds "the digest of a policy through C" same_policies
    holds "a session is held through C" same_session
    holds "random commands are sealed and their replies opened through C as Part 1 has it" same_sealed
    holds "a device through C that is made again of the bytes in checks/kept.txt" same_kept
    holds "images of a kept device that are changed at random through C" changed_kept
    holds "a device that is kept answers through C as one whose power was cycled" "$room/kept" answers 1000 "${SEED:-1}"
    holds "a change of NV memory is told through C exactly where the kept bytes differ" \
        "$room/kept" changes 100000 "${SEED:-1}"
    holds "a device, a framer, a log's replay and a caller take the bytes that docs/USING.md says" rooms
    holds "what firmware takes of the library for C has room in its flash" in_flash
    same_calls
    name="the archive needs memcpy, memmove and memset alone"
    others=$(undefined | tr ' ' '\n' | grep -v -x -e memcpy -e memmove -e memset -e '' | tr '\n' ' ')
    if [ -z "$others" ]; then pass "$name"; else fail "$name" "it needs $others"; fi
    if [ "$(uname -s) $(uname -m)" != "Linux x86_64" ]; then
        skip "a C program without a C library, and small stacks" "they are for Linux on x86-64"
    else
        on_small_stacks llvm $llvm_stack
        archive=crates/tpm_c/out/rattle/libtpm_c.a
        holds "a C program without a C library gives the bytes of tpmtool" freestanding
        on_small_stacks rattle $rattle_stack
        if command -v python3 >/dev/null 2>&1; then
            holds "each call through C has room on a small stack" on_stack
        else
            skip "each call through C has room on a small stack" "there is no python3"
        fi
    fi
fi
