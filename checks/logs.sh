#!/bin/sh
# The logs in checks/logs: the registers that each gives, the records of some, and the fault of each that is none.
# checks/logs/make.py writes registers and faults, and checks/logs/list_events.py records.

. "$(dirname "$0")/shared.sh"
want_program

# ran NAME STATUS WORD..: the program on these words writes what $room/out.wanted holds, and nothing on standard error.
ran() {
    name=$1 wanted=$2
    shift 2
    : >"$room/err.wanted"
    "$program" "$@" >"$room/out" 2>"$room/err" </dev/null
    check $?
}

# piped NAME STATUS LOG WORD..: the same, of words beside which the log comes through a pipe, so that it is read once.
piped() {
    name=$1 wanted=$2 whole=$3
    shift 3
    : >"$room/err.wanted"
    cat "$whole" | "$program" "$@" >"$room/out" 2>"$room/err"
    check $?
}

# checked NAME STATUS WORD..: the same of `check`.
checked() {
    checked=$1 status=$2
    shift 2
    ran "$checked" "$status" check "$@"
}

# told NAME STATUS WORD..: the same of `check --json`, whose objects are kept for other readers.
told() {
    checked "$@" --json
    cat "$room/out" >>"$room/objects"
}

logs=checks/logs
: >"$room/objects"

for list in "$logs"/*.registers; do
    log=${list%.registers}
    cp "$list" "$room/out.wanted"
    checked "the registers of ${log##*/}" 0 "$log.log"
    awk '{ of[$1] = of[$1] (of[$1] ? "," : "") "\"" $3 "\"" }
        END {
            printf "{\"registers\":{"
            printf "\"sha1\":[%s],\"sha256\":[%s],\"sha384\":[%s]", of["sha1"], of["sha256"], of["sha384"]
            print "}}\n{\"ok\":true}"
        }' "$list" >"$room/out.wanted"
    told "the registers of ${log##*/} as an object" 0 "$log.log"
    awk '{ print "match", $1, $2 }' "$list" >"$room/out.wanted"
    checked "${log##*/} beside a list of its registers" 0 "$log.log" --registers "$list"
    awk '{ printf "{\"bank\":\"%s\",\"register\":%d,\"match\":true}\n", $1, $2 } END { print "{\"ok\":true}" }' \
        "$list" >"$room/out.wanted"
    told "${log##*/} beside a list of its registers, as objects" 0 "$log.log" --registers "$list"
done

# The header of each log, but of those whose fault is within it, whose fault is told.
while read -r log told; do
    echo "$told" >"$room/out.wanted"
    case $told in
    header*) ran "the header of $log" 0 events "$logs/$log.log" --header ;;
    *) ran "the header of $log, as an object" 0 events --json "$logs/$log.log" --header ;;
    esac
done <"$logs/headers.txt"
while read -r log kind at; do
    grep -q "^$log " "$logs/headers.txt" && continue
    echo "log $kind at $at" >"$room/out.wanted"
    ran "the header of $log has a fault" 1 events "$logs/$log.log" --header
    echo "{\"fault\":\"$kind\",\"at\":$at}" >"$room/out.wanted"
    ran "the header of $log has a fault, as an object" 1 events "$logs/$log.log" --header --json
done <"$logs/faults.txt"

# The registers of the banks that the header lists.
for list in "$logs"/*.registers; do
    log=${list%.registers}
    sed -n "s/^${log##*/} header .* algorithms\( .*\) vendor_info=.*/\1/p" "$logs/headers.txt" |
        awk 'NR == FNR { banks = $0; next } index(banks, " " $1 "=")' - "$list" >"$room/listed"
    cp "$room/listed" "$room/out.wanted"
    checked "the registers of ${log##*/} in the banks that it lists" 0 "$log.log" --listed
    awk '{ if (!($1 in of)) names[++count] = $1; of[$1] = of[$1] (of[$1] ? "," : "") "\"" $3 "\"" }
        END {
            printf "{\"registers\":{"
            for (i = 1; i <= count; i++) printf "%s\"%s\":[%s]", (i > 1 ? "," : ""), names[i], of[names[i]]
            print "}}\n{\"ok\":true}"
        }' "$room/listed" >"$room/out.wanted"
    told "the registers of ${log##*/} in the banks that it lists, as an object" 0 "$log.log" --listed
done

# What tpm2_pcrread prints of swtpm, whose registers the records of the log have extended. Of the banks in
# one_bank.pcrread only that of SHA-256 has registers.
log=fewer_and_in_other_order
awk '{ print "match", $1, $2 }' "$logs/$log.registers" >"$room/out.wanted"
checked "$log beside what tpm2_pcrread prints" 0 "$logs/$log.log" --registers "$logs/$log.pcrread"
awk '$1 == "sha256" { print "match", $1, $2 }' "$logs/worked.registers" >"$room/out.wanted"
checked "worked beside what tpm2_pcrread prints of one bank" 0 "$logs/worked.log" --registers "$logs/one_bank.pcrread"

for events in "$logs"/*.events; do
    log=${events%.events}
    cp "$events" "$room/out.wanted"
    ran "the records of ${log##*/}" 0 events "$log.log" --digests --places
done

cp "$logs/said.listed" "$room/out.wanted"
ran "what the data of events say" 0 events "$logs/said.log"
cp "$logs/said.register" "$room/out.wanted"
ran "the records of a register" 0 events "$logs/said.log" --register 7
# of_register: of the records that are wanted, those of register 7.
of_register() {
    awk '$2 == 7' "$room/out.wanted" >"$room/of_register" && mv "$room/of_register" "$room/out.wanted"
}

# Each option by itself and each pair: the sixth word of a record is its place, and the seventh its digests.
cut -d ' ' -f 1-6,8- "$logs/said.events" >"$room/out.wanted"
ran "the places of records" 0 events "$logs/said.log" --places
of_register
ran "the places of records of a register" 0 events "$logs/said.log" --register 7 --places
cut -d ' ' -f 1-5,7- "$logs/said.events" >"$room/out.wanted"
ran "the digests of records" 0 events "$logs/said.log" --digests
of_register
ran "the digests of records of a register" 0 events "$logs/said.log" --digests --register 7
cp "$logs/said.events" "$room/out.wanted"
of_register
ran "places and digests of records of a register" 0 events --places --register 7 --digests "$logs/said.log"
cp "$logs/said.all" "$room/out.wanted"
ran "the data of records with places and digests" 0 events "$logs/said.log" --data --places --digests
cut -d ' ' -f 1-5,8- "$logs/said.all" >"$room/out.wanted"
ran "the data of records" 0 events "$logs/said.log" --data
of_register
ran "the data of records of a register" 0 events "$logs/said.log" --register 7 --data
cp "$logs/said.json" "$room/out.wanted"
for words in --json '--json --places' '--digests --json' '--data --json'; do
    ran "objects have all that a record holds: $words" 0 events "$logs/said.log" $words
done
: >"$room/out.wanted"
ran "the records of a register that there is none of" 0 events "$logs/said.log" --register 23
# Several registers, by a list in any order.
awk '$2 == 4 || $2 == 7' "$logs/said.listed" >"$room/out.wanted"
for list in 4,7 7,4,4 07,004; do
    ran "the records of the registers $list" 0 events "$logs/said.log" --register "$list"
done
awk '$2 >= 4 && $2 <= 7' "$logs/said.listed" >"$room/out.wanted"
ran "the records of the registers 4-7" 0 events "$logs/said.log" --register 4-7
awk '$2 < 24' "$logs/said.listed" >"$room/out.wanted"
ran "the records of all registers" 0 events "$logs/said.log" --register all
for objects in "$logs"/*.json; do
    log=${objects%.json}
    cp "$objects" "$room/out.wanted"
    ran "the objects of ${log##*/}" 0 events "$log.log" --json --places --digests
done
grep '"register":7,' "$logs/said.json" >"$room/out.wanted"
ran "the objects of a register" 0 events "$logs/said.log" --json --register 7
# Each object by itself, and each string of it as it goes into UTF-8, which half a surrogate pair does not.
if python3 -c 'import json' >"$room/out" 2>&1; then
    holds "each object is JSON" python3 -c 'if True:
        import json, sys
        for name in sys.argv[1:]:
            for line in open(name, encoding="ascii"):
                json.dumps(json.loads(line), ensure_ascii=False).encode()' "$logs"/*.json
else
    skip "each object is JSON" "python3 is not there"
fi
if command -v jq >"$room/out" 2>&1; then
    for objects in "$logs"/*.json; do
        "$program" events "${objects%.json}.log" --json </dev/null | jq .number >"$room/out" 2>&1
        seq 1 "$(wc -l <"$objects")" >"$room/out.wanted"
        name="jq reads each object of ${objects##*/}"
        if cmp -s "$room/out" "$room/out.wanted"; then pass "$name"; else fail "$name" "$(tail -n 1 "$room/out")"; fi
    done
else
    skip "jq reads each object" "jq is not there"
fi
# What tpm2_eventlog tells of them, and of those that were quoted.
name="each fact that tpm2_eventlog tells of a log is told"
if command -v tpm2_eventlog >"$room/out" 2>&1 && python3 -c pass >"$room/out" 2>&1; then
    holds "$name" checks/logs/eventlog.py "$program" "$logs" checks/quotes
else
    skip "$name" "tpm2_eventlog or python3 is not there"
fi
name="lines are printable"
if LC_ALL=C grep -q '[^ -~]' "$logs/said.listed"; then fail "$name" ""; else pass "$name"; fi

while read -r log kind at; do
    echo "log $kind at $at" >"$room/fault"
    cp "$room/fault" "$room/out.wanted"
    checked "$log is none" 1 "$logs/$log.log"
    sed -n "s/^$log //p" "$logs/preceding.txt" | cat - "$room/fault" >"$room/out.wanted"
    ran "the records of $log up to its fault" 1 events "$logs/$log.log"
    echo "{\"fault\":\"$kind\",\"at\":$at}" >"$room/fault"
    sed -n "s/^$log //p" "$logs/preceding_objects.txt" | cat - "$room/fault" >"$room/out.wanted"
    ran "the objects of $log up to its fault" 1 events "$logs/$log.log" --json
    { cat "$room/fault" && echo '{"ok":false}'; } >"$room/out.wanted"
    told "the fault of $log is an object of check" 1 "$logs/$log.log"
    checked "the fault of $log in place of the banks that it lists" 1 "$logs/$log.log" --listed --json
done <"$logs/faults.txt"

# Behind the last record are bytes that the firmware left as they were in flash memory: ff, and so no register.
{ cat "$logs/said.log" && head -c 4096 /dev/zero | tr '\0' '\377'; } >"$room/filled"
size=$(wc -c <"$logs/said.log" | tr -d ' ')
{ cat "$logs/said.listed" && echo "log BadRegister at $size"; } >"$room/out.wanted"
ran "the records before bytes that fill a log" 1 events "$room/filled"
{ cat "$logs/said.json" && echo "{\"fault\":\"BadRegister\",\"at\":$size}"; } >"$room/out.wanted"
ran "the objects before bytes that fill a log" 1 events "$room/filled" --json
{ cat "$logs/said.register" && echo "log BadRegister at $size"; } >"$room/out.wanted"
ran "the records of a register before bytes that fill a log" 1 events "$room/filled" --register 7

for told in "$logs"/*.secure; do
    log=${told%.secure}
    cp "$told" "$room/out.wanted"
    status=$(awk '$1 == "secure-boot" && $3 != "on" { status = 1 } END { print status + 0 }' "$told")
    checked "Secure Boot by ${log##*/}" "$status" "$log.log" --secure-boot
    cp "$log.verdicts" "$room/out.wanted"
    told "Secure Boot by ${log##*/}, as objects" "$status" "$log.log" --secure-boot
    # Any state is what is asked for: a fault is none.
    cp "$told" "$room/out.wanted"
    status=$(grep -c '^secure-boot [^ ]* unknown' "$told" | sed 's/[^0].*/1/')
    checked "any state of Secure Boot by ${log##*/}" "$status" "$log.log" --secure-boot --any-state
done
echo 'secure-boot no bank' >"$room/out.wanted"
checked "Secure Boot without a bank" 1 "$logs/no_bank.log" --secure-boot
printf '%s\n' '{"secure_boot":"unknown","fault":"no bank"}' '{"ok":false}' >"$room/out.wanted"
told "Secure Boot without a bank, as an object" 1 "$logs/no_bank.log" --secure-boot
echo 'log Truncated at 211' >"$room/out.wanted"
checked "Secure Boot by a log that is none" 1 "$logs/cut_by_a_byte.log" --secure-boot
printf '%s\n' '{"fault":"Truncated","at":211}' '{"ok":false}' >"$room/out.wanted"
told "Secure Boot by a log that is none, as an object" 1 "$logs/cut_by_a_byte.log" --secure-boot

# Quotes beside their logs: what each says is read by Python's struct.
# quoted NAME STATUS QUOTE LOG NONCE SELECTION QUOTE WORD..: the objects of a quote with these verdicts.
quoted() {
    case=$1 ends=$2 signed=checks/quotes/$3.msg replayed=$4
    by_python checks/quotes/told.py "$signed" "$5" "$6" "$7" >"$room/out.wanted"
    shift 7
    told "$case" "$ends" "$replayed" --attest "$signed" "$@"
}

if python3 -c pass >"$room/out" 2>&1 && begin_python; then
    while read -r quote log hash nonce list; do
        of="the quote $quote as an object" log=checks/quotes/$log words="--hash $hash"
        sent="--nonce $nonce" list="--require $list"
        quoted "$of" 0 "$quote" "$log" matches covers matches $words $sent $list
        quoted "$of, by the hash of its length" 0 "$quote" "$log" matches covers matches $sent $list
        quoted "$of, without a nonce" 1 "$quote" "$log" "not compared" covers matches $words $list
        quoted "$of, of any nonce" 0 "$quote" "$log" any covers matches $words $list --any-nonce
        quoted "$of, of which no register is required" 1 "$quote" "$log" matches "not compared" matches $words $sent
        quoted "$of, of any selection" 0 "$quote" "$log" matches any matches $words $sent --any-selection
        quoted "$of, for another nonce" 1 "$quote" "$log" differs covers matches $words ${sent}00 $list
        quoted "$of, that lacks a register" 1 "$quote" "$log" matches "lacks sha384 9" matches $words $sent \
            --require sha384:9
        [ "$quote" = not-measured ] ||
            quoted "$of, of another log" 1 "$quote" "$logs/worked.log" matches covers differs $words $sent $list
    done <checks/quotes/cases.txt

    # Bytes that are no quote: with a size before it, and a signature by each scheme.
    printf '%s\n' 'refused 084 at 0' 'a size stands before it' >"$room/out.wanted"
    { printf '\0\205' && cat checks/quotes/not-measured.msg; } >"$room/quote"
    checked "a size before a quote" 1 "$logs/worked.log" --attest "$room/quote"
    printf '%s\n' '{"refused":"084","at":0,"hint":"a size stands before it"}' '{"ok":false}' >"$room/out.wanted"
    told "a size before a quote, as an object" 1 "$logs/worked.log" --attest "$room/quote"
    printf '%s\n' 'refused 084 at 0' 'it is a signature' >"$room/out.wanted"
    for scheme in 24 26 30; do
        { printf "\\0\\$scheme\\0\\13" && cat checks/quotes/rsa-sha1.sig; } >"$room/quote"
        checked "a signature in place of a quote, of the scheme $scheme" 1 "$logs/worked.log" --attest "$room/quote"
    done

    # Secure Boot by a log that a quote vouches for, in the banks whose register 7 it selects.
    while read -r log list; do
        by_python checks/quotes/made.py "$logs/$log.registers" 6e6f "$list" >"$room/quote"
        words="--secure-boot --attest $room/quote --require $list"
        by_python checks/quotes/told.py "$room/quote" matches covers matches "$logs/$log.verdicts" >"$room/out.wanted"
        case $(tail -n 1 "$room/out.wanted") in *true*) status=0 ;; *) status=1 ;; esac
        of="Secure Boot by $log and a quote of $list"
        told "$of" $status "$logs/$log.log" $words --nonce 6e6f
        by_python checks/quotes/told.py "$room/quote" differs covers matches "$logs/$log.verdicts" >"$room/out.wanted"
        told "$of, for another nonce" 1 "$logs/$log.log" $words --nonce 6e
    done <<'    end'
        secure_on sha1:7+sha256:0,7
        secure_on sha384:7,8
        secure_on sha1:0,1+sha256:0
        secure_off sha256:7
        secure_unset sha256:7
        secure_twice sha256:0,7
    end

    # Lists of allowed digests: what a log extends, and that beside a quote of each register that it extends.
    # allows NAME LIST: what is said of $events' log beside this list and the quote of $named, as lines and as objects.
    allows() {
        whole=${events%.events}.log
        case $2 in "$room/list") right=0 ;; *) right=1 ;; esac
        of="the records of ${whole##*/} beside $1"
        words="--attest $room/quote --nonce 6e6f --allow $2"
        "$program" check "$whole" --attest "$room/quote" --nonce 6e6f --any-selection >"$room/out.wanted" </dev/null
        by_python checks/logs/allowed.py told "$events" "$2" >>"$room/out.wanted"
        checked "$of" $right "$whole" $words
        sed 's/^selection not compared$/selection covers/' "$room/out.wanted" >"$room/covers"
        mv "$room/covers" "$room/out.wanted"
        checked "$of, and a selection" $right "$whole" $words --require "$named"
        by_python checks/quotes/told.py "$room/quote" matches any matches | sed '$d' >"$room/out.wanted"
        by_python checks/logs/allowed.py told "$events" "$2" json >>"$room/out.wanted"
        case $right in 0) echo '{"ok":true}' ;; *) echo '{"ok":false}' ;; esac >>"$room/out.wanted"
        told "$of, as objects" $right "$whole" $words
        by_python checks/quotes/told.py "$room/quote" differs any matches >"$room/out.wanted"
        told "$of, for another nonce" 1 "$whole" --attest "$room/quote" --nonce 6e --allow "$2"
        [ -e "${events%.events}.verdicts" ] || return 0
        by_python checks/quotes/told.py "$room/quote" matches any matches "${events%.events}.verdicts" >"$room/boot"
        sed '$d' "$room/boot" >"$room/out.wanted"
        by_python checks/logs/allowed.py told "$events" "$2" json >>"$room/out.wanted"
        case $right,$(tail -n 1 "$room/boot") in 0,*true*) ;; *) right=1 ;; esac
        case $right in 0) echo '{"ok":true}' ;; *) echo '{"ok":false}' ;; esac >>"$room/out.wanted"
        told "$of, and Secure Boot" $right "$whole" $words --secure-boot
        piped "$of, and Secure Boot, through a pipe" $right "$whole" check - $words --secure-boot --json
    }
    for events in "$logs"/*.events; do
        log=${events%.events}
        by_python checks/logs/allowed.py lists "$events" >"$room/list"
        cp "$room/list" "$room/out.wanted"
        checked "the digests that ${log##*/} extends" 0 "$log.log" --extends
        [ -s "$room/list" ] || continue
        named=$(by_python checks/logs/allowed.py registers "$room/list")
        by_python checks/quotes/made.py "$log.registers" 6e6f "$named" >"$room/quote"
        allows "its own digests" "$room/list"
        # A digest of each register but its first is that of another register, and its first is alone.
        awk '{ of = $1 " " $2 } !(of in first) { first[of] = $3; print of, "00" substr($3, 3), "other"; next }
            { print $1, $2 == 0 ? 1 : 0, $3; print }' "$room/list" >"$room/others"
        named=$(by_python checks/logs/allowed.py registers "$room/others")
        by_python checks/quotes/made.py "$log.registers" 6e6f "$named" >"$room/quote"
        allows "other digests" "$room/others"
    done

    # Records beside a quote that vouches for some: of logs in which the data, the types or further records are others
    # than those that were quoted, and of the quotes of real logs.
    list=sha1:1,8+sha256:0,1,4,7,8+sha384:1,7
    by_python checks/quotes/made.py "$logs/attested.registers" 6e6f "$list" >"$room/quote"
    words="--attest $room/quote --nonce 6e6f --require $list"
    for log in attested attested_changed attested_relabelled attested_added; do
        { by_python checks/quotes/told.py --lines "$room/quote" matches covers matches && cat "$logs/$log.vouched"; } \
            >"$room/out.wanted"
        ran "the records of $log beside a quote" 0 events "$logs/$log.log" $words
        { by_python checks/quotes/told.py "$room/quote" matches covers matches && cat "$logs/$log.vouched_objects"; } \
            >"$room/out.wanted"
        ran "the objects of $log beside a quote" 0 events "$logs/$log.log" $words --json
        piped "the objects of $log beside a quote, through a pipe" 0 "$logs/$log.log" events - $words --json
    done

    # compares NAME STATUS LOG NONCE LIST: what is said of a log beside the quote $signed and a list of allowed digests:
    # $room/lines, or the objects of $room/members.
    compares() {
        case=$1 ends=$2
        { by_python checks/quotes/told.py --lines "$signed" matches any matches && cat "$room/lines"; } \
            >"$room/out.wanted"
        checked "$case" "$ends" "$3" --attest "$signed" --nonce "$4" --allow "$5"
        case $ends in 0) ok=true ;; *) ok=false ;; esac
        { by_python checks/quotes/told.py "$signed" matches any matches | sed '$d' && cat "$room/members" &&
            echo "{\"ok\":$ok}"; } >"$room/out.wanted"
        told "$case, as objects" "$ends" "$3" --attest "$signed" --nonce "$4" --allow "$5"
    }
    # compares_by EVENTS NAME LOG NONCE LIST: the same, as checks/logs/allowed.py says it of these records.
    compares_by() {
        by_python checks/logs/allowed.py told "$1" "$5" >"$room/lines"
        by_python checks/logs/allowed.py told "$1" "$5" json >"$room/members"
        if grep -q '^unknown' "$room/lines"; then ends=1; else ends=0; fi
        compares "$2" $ends "$3" "$4" "$5"
    }
    # other_digest LINE LIST: the list, with another digest in this line.
    other_digest() {
        awk -v line="$1" 'NR == line { $3 = (substr($3, 1, 1) == "f" ? 0 : "f") substr($3, 2) } { print }' "$2"
    }

    # The same logs beside lists of allowed digests: all that the true log extends in the quoted registers, of which no
    # other log has a digest more there; and lists that lack one, which is told with the type that the log has.
    signed=$room/quote
    by_python checks/logs/allowed.py lists "$logs/attested.events" "$list" >"$room/true"
    missing=d0f45f252e8d374bd2483c7d7ec3470658f9338d
    grep -v " $missing " "$room/true" >"$room/fewer"
    grep '^sha256 [08] ' "$room/true" >"$room/quoted"
    by_python checks/logs/allowed.py lists "$logs/attested.events" sha1:0+sha256:0 >"$room/sha1"
    by_python checks/logs/allowed.py lists "$logs/attested.events" sha256:8+sha384:8 >"$room/sha384"
    printf 'allowed %s\n' 'sha1 1' 'sha1 8' 'sha256 0' 'sha256 1' 'sha256 4' 'sha256 7' 'sha256 8' 'sha384 1' \
        'sha384 7' >"$room/all.lines"
    sed 's/allowed \(.*\) \(.*\)/{"bank":"\1","register":\2,"allowed":true}/' "$room/all.lines" >"$room/all.members"
    while read -r log kind; do
        of="$log beside the digests of the true log"
        cp "$room/all.lines" "$room/lines" && cp "$room/all.members" "$room/members"
        compares "$of" 0 "$logs/$log.log" 6e6f "$room/true"
        sed "s/^allowed sha1 1\$/unknown sha1 1 at 676 $missing $kind/" "$room/all.lines" >"$room/lines"
        it="{\"bank\":\"sha1\",\"register\":1,\"allowed\":false,\"at\":676,\"digest\":\"$missing\",\"type\":\"$kind\"}"
        sed "1s/.*/$it/" "$room/all.members" >"$room/members"
        compares "$of but one" 1 "$logs/$log.log" 6e6f "$room/fewer"
        for line in $(seq "$(wc -l <"$room/true")"); do
            other_digest "$line" "$room/true" >"$room/others"
            compares_by "$logs/$log.events" "$of, another in line $line" "$logs/$log.log" 6e6f "$room/others"
        done
        # Of registers 0 and 8 not all banks that the log extends are quoted.
        printf 'allowed sha256 %s\n' 0 8 >"$room/lines"
        printf '{"bank":"sha256","register":%s,"allowed":true}\n' 0 8 >"$room/members"
        compares "$log beside digests of a quoted bank" 0 "$logs/$log.log" 6e6f "$room/quoted"
        echo 'selection lacks sha1 0' >"$room/lines"
        echo '{"selection":"lacks","lacks":{"bank":"sha1","register":0}}' >"$room/members"
        compares "$log beside digests of a bank that isn't quoted" 1 "$logs/$log.log" 6e6f "$room/sha1"
        echo 'selection lacks sha384 8' >"$room/lines"
        echo '{"selection":"lacks","lacks":{"bank":"sha384","register":8}}' >"$room/members"
        compares "$log beside digests of another bank that isn't quoted" 1 "$logs/$log.log" 6e6f "$room/sha384"
    done <<'    end'
        attested EV_EFI_VARIABLE_BOOT
        attested_changed EV_EFI_VARIABLE_BOOT
        attested_relabelled EV_EVENT_TAG
        attested_added EV_EFI_VARIABLE_BOOT
    end
    log=$logs/attested
    { by_python checks/quotes/told.py --lines "$room/quote" matches covers matches && awk '$2 == 8' "$log.vouched"; } \
        >"$room/out.wanted"
    ran "the records of a register beside a quote" 0 events "$log.log" $words --register 8
    { by_python checks/quotes/told.py --lines "$room/quote" any any matches && awk '$2 == 8' "$log.vouched"; } \
        >"$room/out.wanted"
    ran "the records of a register beside a quote of any nonce and selection" 0 events "$log.log" --register 8 \
        --attest "$room/quote" --any-nonce --any-selection
    # unasked NAME LOG NONCE SELECTION QUOTE WORD..: records are not told beside a quote with these verdicts.
    unasked() {
        case=$1 replayed=$2 verdicts="$3:$4:$5"
        shift 5
        (IFS=: && by_python checks/quotes/told.py --lines "$room/quote" $verdicts) >"$room/out.wanted"
        ran "no records beside a quote $case" 1 events "$replayed" --attest "$room/quote" "$@"
        (IFS=: && by_python checks/quotes/told.py "$room/quote" $verdicts) >"$room/out.wanted"
        ran "no objects of records beside a quote $case" 1 events "$replayed" --attest "$room/quote" "$@" --json
    }
    unasked "for another nonce" "$log.log" differs covers matches --nonce 6e --require "$list"
    unasked "without a nonce" "$log.log" "not compared" covers matches --require "$list"
    unasked "that lacks a register" "$log.log" matches "lacks sha256 9" matches --nonce 6e6f --require sha256:0,9
    unasked "of which none is required" "$log.log" matches "not compared" matches --nonce 6e6f
    unasked "of another log" "$logs/said.log" matches covers differs --nonce 6e6f --require "$list"
    # The record of the locality is another, so that register 0 starts otherwise.
    LC_ALL=C sed 's/\(StartupLocality\)\x00\x03/\1\x00\x04/' "$log.log" >"$room/locality.log"
    holds "another locality is one byte" [ "$(cmp -l "$log.log" "$room/locality.log" | wc -l)" = 1 ]
    unasked "of a log of another locality" "$room/locality.log" matches covers differs --nonce 6e6f --require "$list"
    by_python checks/quotes/told.py --lines "$room/quote" matches any differs >"$room/out.wanted"
    checked "no list beside a quote of a log of another locality" 1 "$room/locality.log" --attest "$room/quote" \
        --nonce 6e6f --allow "$room/true"
    printf '%s\n' 'refused 084 at 0' >"$room/out.wanted"
    ran "no records beside what is no quote" 1 events "$log.log" --attest "$logs/worked.log" --nonce 6e6f
    echo 'log Truncated at 211' >"$room/out.wanted"
    ran "no records of what is no log beside a quote" 1 events "$logs/cut_by_a_byte.log" $words
    while read -r quote log hash nonce list; do
        log=checks/quotes/$log signed=checks/quotes/$quote.msg
        words="--attest $signed --nonce $nonce --require $list --hash $hash"
        { by_python checks/quotes/told.py --lines "$signed" matches covers matches &&
            by_python checks/logs/list_events.py "$log" "$list"; } >"$room/out.wanted"
        ran "the records of ${log##*/} beside the quote $quote" 0 events "$log" $words --digests --places
        { by_python checks/quotes/told.py "$signed" matches covers matches &&
            by_python checks/logs/list_events.py "$log" "$list" --json; } >"$room/out.wanted"
        ran "the objects of ${log##*/} beside the quote $quote" 0 events "$log" $words --json
        # What the log extends, and that in the quoted registers as a list of allowed digests; then with another digest.
        of="${log##*/} beside the quote $quote"
        by_python checks/logs/list_events.py "$log" >"$room/events"
        by_python checks/logs/allowed.py lists "$room/events" >"$room/out.wanted"
        checked "the digests that $of extends" 0 "$log" --extends
        by_python checks/logs/allowed.py lists "$room/events" "$list" >"$room/list"
        [ -s "$room/list" ] || continue
        compares_by "$room/events" "$of and its digests" "$log" "$nonce" "$room/list"
        other_digest "$(wc -l <"$room/list")" "$room/list" >"$room/others"
        compares_by "$room/events" "$of and other digests" "$log" "$nonce" "$room/others"
    done <checks/quotes/cases.txt
else
    skip "quotes as objects" "python3 is not there"
fi

# Each object of `check`, by other readers.
lines=$(wc -l <"$room/objects" | tr -d ' ')
if python3 -c 'import json' >"$room/out" 2>&1; then
    holds "Python reads the $lines objects of check" python3 -c 'if True:
        import json, sys
        objects = [json.loads(line) for line in open(sys.argv[1], encoding="ascii")]
        assert all(type(o) is dict for o in objects)
        assert sum("ok" in o for o in objects) > 100' "$room/objects"
else
    skip "Python reads the objects of check" "python3 is not there"
fi
if command -v jq >"$room/out" 2>&1; then
    jq -c . "$room/objects" >"$room/out" 2>&1
    name="jq reads the objects of check, and writes them alike"
    if cmp -s "$room/out" "$room/objects"; then pass "$name"; else fail "$name" "$(tail -n 1 "$room/out")"; fi
else
    skip "jq reads the objects of check" "jq is not there"
fi

unjudged=$(ls "$logs" | sed -n 's/\.log$//p' | while read -r log; do
    [ -e "$logs/$log.registers" ] || grep -q -e "^$log " "$logs/faults.txt" || echo "$log"
done)
if [ -z "$unjudged" ]; then pass "each log is judged"; else fail "each log is judged" "$unjudged"; fi

# A log of every length up to the worked one's: what is cut between two records is a log, and all else is truncated.
wrong=
for length in $(seq 0 215); do
    head -c "$length" "$logs/worked.log" >"$room/log"
    "$program" check "$room/log" >"$room/out" 2>"$room/err" </dev/null
    status=$?
    case $length in
    73 | 89 | 215) [ $status -eq 0 ] || wrong="$wrong $length: status $status;" ;;
    *) [ $status -eq 1 ] && grep -q -x -e 'log Truncated at [0-9]*' "$room/out" ||
        wrong="$wrong $length: status $status;" ;;
    esac
done
name="the worked log cut to each length"
if [ -z "$wrong" ]; then pass "$name"; else fail "$name" "$wrong"; fi

# stated N REGISTER: N lines that state of this register of SHA-1 that it is zeros.
stated() {
    yes "sha1 $2 $(zeros 20)" | head -n "$1"
}

{ stated 349509 0 && stated 16 10; } >"$room/list"
sed 's/ 0*$//; s/^/match /' "$room/list" >"$room/out.wanted"
checked "a list of 16,777,216 bytes" 0 $logs/worked.log --registers "$room/list"

echo >>"$room/list"
name="a list of 16,777,217 bytes" wanted=3
echo 'input too long' >"$room/err.wanted"
"$program" check $logs/worked.log --registers "$room/list" >"$room/out" 2>"$room/err" </dev/null
check $?

# The header, and records of 16 zero bytes, as many as have room in 16,777,216 bytes; and then one more.
{ head -c 73 $logs/worked.log && head -c 16777136 /dev/zero; } >"$room/log"
cp $logs/header_alone.registers "$room/out.wanted"
checked "a log of 16,777,209 bytes" 0 "$room/log"

head -c 16 /dev/zero >>"$room/log"
echo 'log TooLong at 16777209' >"$room/out.wanted"
checked "a log of 16,777,225 bytes" 1 "$room/log"

echo 'log NotCryptoAgile at 4' >"$room/out.wanted"
checked "a log of endless zeros" 1 /dev/zero
ran "records of endless zeros" 1 events /dev/zero
