# What reads the tables of rows beside this file, and writes what they ask for; three checks read it.

names="NV_UndefineSpace NV_DefineSpace NV_Increment PCR_Event PCR_Reset Startup NV_Read FlushContext NV_ReadPublic
PolicyAuthValue PolicyCommandCode PolicyOR StartAuthSession PCR_Read PolicyPCR PolicyRestart PCR_Extend PolicyGetDigest"

# join WORD..: $bytes are the words joined.
join() {
    bytes=
    for word; do
        case $word in
        -) continue ;;
        *\**)
            unit=${word%\**} repeated=
            while [ ${#repeated} -lt $((${#unit} * ${word#*\*})) ]; do repeated=$repeated$unit; done
            word=$repeated
            ;;
        esac
        bytes=$bytes$word
    done
}

# kind_of WORD..: $kind is what their buffer is to be read as, and $bytes are its digits.
kind_of() {
    kind=$1
    shift
    if [ "$kind" = reply ]; then
        kind="reply $1"
        shift
    fi
    join "$@"
}

# ask DIGITS: asks for the row's answer to these.
ask() {
    if [ "$kind" != "reply any" ]; then
        echo "$kind $1" >>"$room/asked"
        echo "$answer" >>"$room/wanted"
        return
    fi
    for reply in $names; do
        echo "reply $reply $1" >>"$room/asked"
        echo "$answer" >>"$room/wanted"
    done
}

# ask_cut HOW A B: asks for the buffer cut to each of these lengths.
ask_cut() {
    for digits in $(awk -v how="$1" -v least="$2" -v most="$3" -v bytes="$bytes" 'BEGIN {
        for (n = least; n <= most; n++)
            print (how == "sized" ? substr(bytes, 1, 4) sprintf("%08x", n) substr(bytes, 13, 2 * n - 12) : substr(bytes, 1, 2 * n)) "."
    }'); do
        ask "${digits%.}"
    done
}

# ask_set AT HEX: asks for the buffer with these bytes there.
ask_set() {
    ask "$(awk -v at="$1" -v new="$2" -v bytes="$bytes" \
        'BEGIN { print substr(bytes, 1, 2 * at) new substr(bytes, 2 * at + length(new) + 1) }')"
}

# row LINE: takes a row.
row() {
    answer=${1#* -> }
    set -- ${1%% -> *}
    case $1 in
    cut | sized) ask_cut "$@" ;;
    set) ask_set "$2" "$3" ;;
    buffer)
        shift
        kind_of "$@"
        ;;
    execute)
        shift
        join "$@"
        echo "$bytes" >>"$room/in"
        join $answer
        echo "$bytes" >>"$room/out.wanted"
        ;;
    power)
        echo power >>"$room/in"
        echo power >>"$room/out.wanted"
        ;;
    run)
        shift
        words=$*
        ;;
    *)
        kind_of "$@"
        ask "$bytes"
        ;;
    esac
}

# write_hundred: the hundred commands as a script in $room/in, and their answers in $room/out.wanted.
write_hundred() {
    : >"$room/in"
    : >"$room/out.wanted"
    set -f
    while IFS= read -r line; do
        case $line in
        'execute '* | power) row "$line" ;;
        esac
    done <checks/hundred.txt
    set +f
}

# named_codes: of each code of a TPM in checks/explain.txt its digits and its name, with a tab between them.
named_codes() {
    awk '
        /^\$ explain (0[xX])?[0-9a-fA-F]+$/ { sub(/^0[xX]/, "", $3); codes[++count] = $3; next }
        /^> TPM_RC_/ { sub(/^> /, ""); sub(/:.*/, ""); for (i = 1; i <= count; i++) print codes[i] "\t" $0 }
        { count = 0 }' checks/explain.txt
}
