#!/bin/sh
# The program's statuses and what it writes where, by the script ./tpmtool: 0 done, 1 refused, 2 usage,
# 3 a reading or writing fault. What it prints stands in the files of cases beside this one:
#
#     NAME        begins a case, which the empty line ends
#     $ WORDS     runs the program on these words; a case may have several lines, which all give the same
#     < LINE      a line of standard input; behind `<.` it has no line feed
#     <x HEX      bytes of standard input, in hexadecimal
#     > LINE      a line of standard output
#     ! LINE      a line of standard error
#     = N         the status, if it isn't 0
#
# The words are the shell's, and so is a line behind `<$`, `<.$` and `>$`.

. "$(dirname "$0")/shared.sh"
want_program

# clear_case: nothing is wanted so far.
clear_case() {
    name= wanted=0
    : >"$room/words"
    : >"$room/in"
    : >"$room/out.wanted"
    : >"$room/err.wanted"
}

# end_case: runs the case that was read, if one was.
end_case() {
    [ -n "$name" ] || return 0
    wrong=
    while IFS= read -r words; do
        eval "./tpmtool $words" >"$room/out" 2>"$room/err" <"$room/in"
        judge $? || wrong="$wrong tpmtool $words: $why;"
    done <"$room/words"
    if [ -z "$wrong" ]; then pass "$name"; else fail "$name" "$wrong"; fi
    clear_case
}

# cases FILE: runs its cases.
cases() {
    clear_case
    while IFS= read -r line; do
        case $line in
        '#'*) ;;
        '') end_case ;;
        '$ '*) printf '%s\n' "${line#??}" >>"$room/words" ;;
        '<$ '*) eval "printf '%s\n' ${line#???}" >>"$room/in" ;;
        '<.$ '*) eval "printf '%s' ${line#????}" >>"$room/in" ;;
        '<x '*) bytes_of "${line#???}" >>"$room/in" ;;
        '<. '*) printf '%s' "${line#???}" >>"$room/in" ;;
        '< '* | '<') line=${line#<} && printf '%s\n' "${line# }" >>"$room/in" ;;
        '>$ '*) eval "printf '%s\n' ${line#???}" >>"$room/out.wanted" ;;
        '> '* | '>') line=${line#>} && printf '%s\n' "${line# }" >>"$room/out.wanted" ;;
        '! '* | '!') line=${line#!} && printf '%s\n' "${line# }" >>"$room/err.wanted" ;;
        '= '*) wanted=${line#??} ;;
        *) name=$line ;;
        esac
    done <"$1"
    end_case
}

cases checks/show.txt
cases checks/fields.txt
cases checks/captures.txt
# What the cases of JSON have is JSON.
name="each object of a frame is JSON"
sed -n 's/^> {/{/p' checks/captures.txt >"$room/objects"
if command -v python3 >/dev/null 2>&1; then
    holds "$name" python3 -c 'if True:
        import json, sys
        for line in open(sys.argv[1]):
            json.loads(line)' "$room/objects"
else
    skip "$name" "python3 is not there"
fi
# The NV memory of devices, whose bytes are those of Python's struct and hashlib.
if python3 -c pass 2>/dev/null; then
    python3 checks/kept.py "$room"
    cases checks/nv.txt
else
    skip "the NV memory of devices" "python3 is not there"
fi
# Packets that Python's struct writes.
if python3 checks/packets.py "$room" 2>"$room/err"; then
    cases checks/packets.txt
    for file in "$room"/*.pcap; do
        ./tpmtool show --json --fields --pcap "$file"
    done >"$room/objects"
    name="each object of packets is JSON"
    if python3 -c 'import json, sys; [json.loads(line) for line in sys.stdin]' <"$room/objects" >"$room/err" 2>&1; then
        pass "$name"
    else
        fail "$name" "$(cat "$room/err")"
    fi
    # The same packets in pcapng, as Wireshark's programs write them: over one link, and over two.
    as_file() {
        ./tpmtool show --pcap "$room/$1.pcap" >"$room/out.wanted"
        ./tpmtool show --pcap "$room/packets" | cmp - "$room/out.wanted"
    }
    in_pcapng() {
        for packets in swtpm mssim cooked wrapped pieces two again lost cut fragment no_message unfinished; do
            editcap -F pcapng "$room/$packets.pcap" "$room/packets" && as_file "$packets" || return 1
        done
        editcap -F pcap -r "$room/swtpm.pcap" "$room/first" 1-2 &&
            editcap -F pcap -r "$room/cooked.pcap" "$room/second" 3-4 &&
            mergecap -F pcapng -w "$room/packets" "$room/first" "$room/second" && as_file swtpm
    }
    name="packets in pcapng are told as those in a file of libpcap"
    if ! command -v editcap >/dev/null || ! command -v mergecap >/dev/null; then
        skip "$name" "editcap or mergecap is not there"
    elif in_pcapng >"$room/out" 2>&1; then
        pass "$name"
    else
        fail "$name" "$packets: $(cat "$room/out")"
    fi
else
    skip "packets" "python3 is not there"
fi
cases checks/build.txt
cases checks/run.txt
cases checks/explain.txt
cases checks/check.txt
cases checks/options.txt
cases checks/words.txt

# A frame of each code in the header of tpm2-tss: its command has the name there, and is beyond the profile or refused
# for its code where it is none of eighteen.
header=/usr/include/tss2/tss2_tpm2_types.h
name="each command that is not in the profile has its name"
if [ -r "$header" ]; then
    sed -n 's/^#define TPM2_CC_\([A-Za-z0-9_]*\) *((TPM2_CC) 0x\([0-9a-f]\{8\}\))$/\1 \2/p' "$header" |
        grep -v '^LAST ' >"$room/commands"
    awk '{ print "> 80010000000a" $2 }' "$room/commands" | ./tpmtool show - >"$room/out" 2>"$room/err"
    awk '
        FILENAME == ARGV[1] { name[FNR] = $1; commands = FNR; next }
        $2 == ">" {
            number = $1
            if ($4 != name[number]) print "line " FNR ": " $0
        }
        /^(refused|beyond this profile,) 143 at 6$/ { absent++ }
        END {
            if (commands < 100 || number != commands || absent != commands - 18)
                print commands " commands, " absent " that are not in the profile"
        }
    ' "$room/commands" "$room/out" >"$room/wrong" 2>&1
    if [ -s "$room/wrong" ]; then fail "$name" "$(cat "$room/wrong")"; else pass "$name"; fi
else
    skip "$name" "the header of tpm2-tss is not there"
fi

# Each response code in its headers has the name there.
common=/usr/include/tss2/tss2_common.h
name="each response code of tpm2-tss has its name"
if [ -r "$header" ] && [ -r "$common" ]; then
    {
        sed -n -e 's/^#define TPM2_RC_\([A-Z_]*\) *((TPM2_RC) *0x0\([01][0E]\)).*/TPM_RC_\1 0x\2/p' \
            -e 's/^#define TPM2_RC_\([A-Z0-9_]*\) .*(TPM2_RC_VER1 + 0x0\(..\)).*/TPM_RC_\1 0x1\2/p' \
            -e 's/^#define TPM2_RC_\([A-Z0-9_]*\) .*(TPM2_RC_FMT1 + 0x0\(..\)).*/TPM_RC_\1 0x80+0x\2/p' \
            -e 's/^#define TPM2_RC_\([A-Z0-9_]*\) .*(TPM2_RC_WARN + 0x0\(..\)).*/TPM_RC_\1 0x9\2/p' "$header" |
            grep -v -e '^TPM_RC_MAX_FM0' -e '^TPM_RC_H '
        sed -n -e 's/^#define TSS2_\([A-Z_]*\)_RC_LAYER .*(\([1-9][0-9]*\))$/TSS2_\1_RC_LAYER \2*65536+1/p' \
            -e 's/^#define \(TSS2_BASE_RC_[A-Z_]*\) *\([0-9]*\)U.*/\1 10*65536+\2/p' "$common"
    } >"$room/codes"
    while read -r word number; do
        ./tpmtool explain "$(printf %x $(($number)))" | grep -q "^$word: " || echo "$word $number"
    done <"$room/codes" >"$room/wrong" 2>&1
    [ "$(wc -l <"$room/codes")" -ge 158 ] || wc -l "$room/codes" >>"$room/wrong"
    if [ -s "$room/wrong" ]; then fail "$name" "$(cat "$room/wrong")"; else pass "$name"; fi
else
    skip "$name" "the headers of tpm2-tss are not there"
fi

# Each row of a table of names is in the header, and its families have no further name. It lacks TPM_HT_AC and all but
# the first and the last of TPM_RH_ACT; of a bit it has the mask; it names some numbers twice.
name="handles, algorithms, types, tags and attributes have their names"
if [ -r "$header" ]; then
    grep -l 'names!\[' crates/tpm_show/src/*.rt | xargs grep -ohE '[0-9a-fx]+ "[A-Za-z0-9_]+",' | tr -d '",' |
        while read -r number word; do
            case $word in
            TPM_*) ;;
            TPMA_*) number=$((1 << number)) ;;
            *) number=$((1 << number)) word=TPMA_SESSION_$(echo "$word" | tr a-z A-Z) ;;
            esac
            echo "$word $((number))"
        done | grep -v -e '^TPM_HT_AC ' -e '^TPM_RH_ACT_[1-9A-E] ' | sort >"$room/rows"
    families='A_NV|A_SESSION|_RH|_RS|_HT|_ST|_ALG|_SU|_SE'
    sed -nE "s/^#define TPM2?(($families)_[A-Z0-9_]+) .*\) 0[xX]([0-9A-F]+)\).*/TPM\1 0x\3/p" "$header" |
        grep -v -e '_\(FIRST\|LAST\|MASK\) ' -e '^TPM_ALG_\(ERROR\|SHA\) ' -e '^TPM_RH_PW ' \
            -e '^TPM_HT_\(LOADED\|SAVED\)_' | xargs printf '%s %d\n' | sort >"$room/names"
    comm -3 "$room/rows" "$room/names" | grep -v "^$(printf '\t')TPM_ST_" >"$room/wrong"
    [ "$(wc -l <"$room/rows")" -ge 100 ] || wc -l "$room/rows" >>"$room/wrong"
    if [ -s "$room/wrong" ]; then fail "$name" "$(cat "$room/wrong")"; else pass "$name"; fi
else
    skip "$name" "the header of tpm2-tss is not there"
fi

# feeds N: N line feeds.
feeds() {
    head -c "$1" /dev/zero | tr '\0' '\n'
}

# runs_long NAME STATUS OUTPUT ERRORS: of `run`, with $room/in as standard input.
runs_long() {
    name=$1 wanted=$2
    printf '%s' "$3" >"$room/out.wanted"
    printf '%s' "$4" >"$room/err.wanted"
    ./tpmtool run >"$room/out" 2>"$room/err" <"$room/in"
    check $?
}

feeds 16777216 >"$room/in"
runs_long "a script of 16,777,216 bytes" 0 '' ''

echo >>"$room/in"
runs_long "a script of 16,777,217 bytes" 3 '' 'input too long
'

{ feeds 16777213 && echo no && echo power; } >"$room/in"
runs_long "a line that ends with byte 16,777,216" 1 'line 16777214: not hexadecimal
' ''

{ feeds 16777214 && echo no; } >"$room/in"
runs_long "a line that ends with byte 16,777,217" 3 '' 'input too long
'

# A capture of 100,000 frames, and one of a hundredth of it: the longer wants no more memory (address space, in KiB).
capture() {
    awk -v frames="$1" 'BEGIN { for (i = 0; i < frames; i += 2) print "> 80010000000c000001440000\n< 80010000000a00000000" }'
}

# captured N: what is told of it.
captured() {
    awk -v frames="$1" 'BEGIN { for (i = 1; i < frames; i += 2)
        printf "%d > command Startup size 12 tag 8001\nparameters 0000\n%d < reply Startup size 10 tag 8001 code 000 TPM_RC_SUCCESS\nparameters -\n", i, i + 1 }'
}

# least_memory: the least limit, of those tried, under which $room/in is told.
least_memory() {
    for limit in 4096 8192 16384 32768 65536 131072 262144; do
        if (ulimit -v $limit && "$program" show - <"$room/in") >"$room/out" 2>"$room/err"; then
            echo $limit
            return
        fi
    done
}

name="a capture of 100,000 frames" wanted=0
capture 100000 >"$room/in"
captured 100000 >"$room/out.wanted"
: >"$room/err.wanted"
"$program" show - >"$room/out" 2>"$room/err" <"$room/in"
check $?
long=$(least_memory)
capture 1000 >"$room/in"
short=$(least_memory)
name="a capture of 100,000 frames has the memory of one of 1,000"
if [ -z "$short" ]; then
    skip "$name" "no limit on memory under which the program runs"
elif [ "$long" = "$short" ]; then
    pass "$name (under $long KiB)"
else
    fail "$name" "it wants ${long:-more than 262144} KiB in place of $short"
fi

# A stream of 100,000 frames, by the same.
name="a stream of 100,000 frames" wanted=0
bytes_of 80010000000c00000144000080010000000a00000000 >"$room/stream"
for doubled in 1 2 3 4 5 6 7 8 9 10 11 12 13 14 15 16; do
    cat "$room/stream" "$room/stream" >"$room/twice" && mv "$room/twice" "$room/stream"
done
head -c 1100000 "$room/stream" >"$room/twice" && mv "$room/twice" "$room/stream"
captured 100000 >"$room/out.wanted"
"$program" show --binary - >"$room/out" 2>"$room/err" <"$room/stream"
check $?
name="a stream of 100,000 frames has the memory of a capture of 1,000"
if [ -z "$short" ]; then
    skip "$name" "no limit on memory under which the program runs"
elif (ulimit -v "$short" && "$program" show --binary - <"$room/stream") >"$room/out" 2>"$room/err"; then
    pass "$name (under $short KiB)"
else
    fail "$name" "it wants more than $short KiB"
fi

# runs_without_output NAME TARGET WORD..: standard output is closed (-) or a file that takes nothing.
runs_without_output() {
    name=$1 target=$2 wanted=3
    : >"$room/out"
    : >"$room/out.wanted"
    echo 'writing failed' >"$room/err.wanted"
    shift 2
    case $target in
    -) echo power | ./tpmtool "$@" >&- 2>"$room/err" ;;
    *) ./tpmtool "$@" >"$target" 2>"$room/err" </dev/null ;;
    esac
    check $?
}

runs_without_output "a closed standard output" - show $startup
runs_without_output "a closed standard output for a refusal" - show ''
runs_without_output "a closed standard output for a response" - show --reply Startup 80010000000a00000100
runs_without_output "a closed standard output for parameters by their names" - show --fields $startup
runs_without_output "a closed standard output for a capture" - show --file "$room/in"
runs_without_output "a closed standard output for a stream" - show --binary --file "$room/stream"
runs_without_output "a closed standard output for NV memory" - show --nv checks/nv.txt
runs_without_output "a closed standard output for joined parts" - build Startup - - 0000
runs_without_output "a closed standard output for a script" - run
runs_without_output "a closed standard output for a code" - explain 100
runs_without_output "a closed standard output for a log's registers" - check checks/logs/worked.log
runs_without_output "a closed standard output for a log's fault" - check checks/logs/empty.log
runs_without_output "a closed standard output for a list of registers" - check checks/logs/worked.log --registers checks/logs/worked.registers
runs_without_output "a closed standard output for a quote" - check checks/logs/worked.log --quote 00
runs_without_output "a closed standard output for a log's records" - events checks/logs/worked.log
runs_without_output "a closed standard output for a log's header" - events checks/logs/worked.log --header
runs_without_output "a closed standard output for the banks that a log lists" - check checks/logs/worked.log --listed
runs_without_output "a closed standard output for records beside a quote" - events checks/logs/worked.log --attest checks/quotes/not-measured.msg --any-nonce --any-selection
runs_without_output "a closed standard output for help" - --help

# A file that may have one block: the help's write comes to its end there, and the next one fails.
name="an output that ends within a write" wanted=3
echo 'writing failed' >"$room/err.wanted"
(trap '' XFSZ && ulimit -f 1 && ./tpmtool --help >"$room/out" 2>"$room/err")
status=$?
./tpmtool --help | head -c "$(wc -c <"$room/out")" >"$room/out.wanted"
check $status

# An output whose reader has gone is no fault that is told: one behind `| head -1` has read what it wanted.
runs_unread() {
    name=$1 wanted=3
    shift
    : >"$room/out"
    : >"$room/out.wanted"
    : >"$room/err.wanted"
    {
        sleep 1
        ./tpmtool "$@" 2>"$room/err"
        echo $? >"$room/status"
    } | :
    check "$(cat "$room/status")"
}

runs_unread "records that nobody reads" events checks/logs/said.log
runs_unread "a buffer that nobody reads" show $startup
runs_unread "help that nobody reads" --help

# The reader may leave in the midst, behind what was written whole.
name="a capture of which one line is read" wanted=3
capture 100000 >"$room/in"
captured 100000 | head -n 1 >"$room/out.wanted"
: >"$room/err.wanted"
{
    "$program" show - <"$room/in" 2>"$room/err"
    echo $? >"$room/status"
} | head -n 1 >"$room/out"
check "$(cat "$room/status")"

if [ -c /dev/full ]; then
    runs_without_output "a full standard output" /dev/full show $startup
else
    skip "a full standard output" "there is no /dev/full"
fi

name="a directory as standard input" wanted=3
: >"$room/out.wanted"
echo 'reading failed' >"$room/err.wanted"
./tpmtool run >"$room/out" 2>"$room/err" <.
check $?

# Standard input has the name `-` alone: another log is there.
mkdir "$room/named"
here=$PWD
: >"$room/err.wanted"
cp checks/logs/fewer_and_in_other_order.registers "$room/out.wanted"
for path in ./- -- -log stdin; do
    name="a log whose name is $path, which is no standard input" wanted=0
    cp checks/logs/fewer_and_in_other_order.log "$room/named/$path"
    (cd "$room/named" && "$here/$program" check -- "$path") >"$room/out" 2>"$room/err" <checks/logs/worked.log
    check $?
done

name="a log that may not be read" wanted=3
: >"$room/closed.log"
chmod 000 "$room/closed.log"
# Root may read every file, so there the program runs as nobody.
as=
[ ! -r "$room/closed.log" ] || as="setpriv --reuid=65534 --regid=65534 --clear-groups"
if [ -n "$as" ] && ! $as ./tpmtool --version >"$room/out" 2>&1; then
    skip "$name" "this user may read every file, and nobody can't run the program"
else
    : >"$room/out.wanted"
    echo "cannot read $room/closed.log: permission is denied" >"$room/err.wanted"
    $as ./tpmtool check "$room/closed.log" >"$room/out" 2>"$room/err"
    check $?
fi
