# What the checks share; each begins by reading this file. Each runs by itself, and ends with a line 'N passed, M
# failed', and the status 1 where anything failed. ./test runs them all.

cd "$(dirname "$0")" || exit 1
[ -d checks ] || cd .. || exit 1
room=$(mktemp -d) || exit 1
program=crates/tpmtool/out/tpmtool
startup=80010000000c000001440000
trials=crates/tpm_fuzz/out/tpm_fuzz
passed=0
failed=0

# pass NAME, fail NAME WHY, skip NAME WHY: tell of one check, and count it.
pass() {
    passed=$((passed + 1))
    echo "test: $1: passed"
}

fail() {
    failed=$((failed + 1))
    echo "test: $1: FAILED: $2"
}

skip() {
    echo "test: $1: skipped: $2"
}

# count LINE NAME: adds the counts of a line 'N passed, M failed', which is the last that NAME writes.
count() {
    case $1 in
    [0-9]*" passed, "[0-9]*" failed")
        passed=$((passed + ${1%% *}))
        count=${1#* passed, }
        failed=$((failed + ${count%% *}))
        ;;
    *) fail "$2" "its last line has no counts" ;;
    esac
}

# holds NAME WORD..: the check NAME passes where the words succeed.
holds() {
    holds=$1
    shift
    if "$@" >"$room/said" 2>&1; then pass "$holds"; else fail "$holds" "$(head -n 5 "$room/said")"; fi
}

# holds_by TOOL NAME WORD..: the same, where there is such a command; else it is skipped.
holds_by() {
    if command -v "$1" >/dev/null 2>&1; then
        shift
        holds "$@"
    else
        skip "$2" "there is no $1"
    fi
}

# comes WORD..: waits until the words succeed, for ten seconds.
comes() {
    for wait in $(seq 200); do
        if "$@"; then return 0; fi
        sleep 0.05
    done
    return 1
}

# on_a_small_disk FOLDER SIZE WORD..: runs the words where the folder is a file system of this size.
on_a_small_disk() {
    disk=$1 size=$2
    shift 2
    mkdir -p "$disk" && unshare --map-root-user --mount \
        sh -c 'mount -t tmpfs -o "size=$0" none "$1" && shift && exec "$@"' "$size" "$disk" "$@"
}

finish() {
    rm -rf "$room"
    echo "$passed passed, $failed failed"
    [ "$failed" -eq 0 ] && exit 0
    exit 1
}
trap finish EXIT
trap 'fail "$0" "it was ended" && exit' HUP INT TERM

# want_program, want_trials: the program, and the one that reads many buffers, are built; else the check ends.
want_program() {
    ./tpmtool --build </dev/null && return
    fail "the program" "it was not built"
    exit
}

want_trials() {
    [ -x "$trials" ] || (cd crates/tpm_fuzz && rt run </dev/null) >"$room/said" 2>&1
    [ -x "$trials" ] && return
    fail "the program for many buffers" "it was not built: $(tail -n 3 "$room/said")"
    exit
}

# begin_python: starts a process of Python for the scripts that by_python runs.
begin_python() {
    mkfifo "$room/asked_of_python" "$room/answers_of_python" || return
    python3 checks/scripts.py "$room/printed" <"$room/asked_of_python" >"$room/answers_of_python" &
    exec 8>"$room/asked_of_python" 9<"$room/answers_of_python"
}

# by_python SCRIPT WORD..: what this script prints with these words; its status.
by_python() {
    { printf '%s\t' "$@" && echo; } >&8
    read -r by_python <&9 && cat "$room/printed" && return "$by_python"
}

# find_compiler: $compiler becomes a C compiler, or empty.
find_compiler() {
    compiler=
    for word in "${CC:-cc}" gcc clang; do
        if command -v "$word" >/dev/null 2>&1; then
            compiler=$word
            break
        fi
    done
}

# zeros N: N bytes of zeros, in hexadecimal.
zeros() {
    printf "%0$((2 * $1))d" 0
}

# bytes_of HEX: writes the bytes.
bytes_of() {
    printf "$(echo "$1" | awk '{
        gsub(/ /, "")
        for (i = 1; i < length($0); i += 2) printf "\\%03o", 16 * digit(substr($0, i, 1)) + digit(substr($0, i + 1, 1))
    }
    function digit(it) { return index("0123456789abcdef", it) - 1 }')"
}

# judge STATUS: what was written and the status are what was wanted.
judge() {
    if [ "$1" -ne "$wanted" ]; then
        why="status $1 in place of $wanted"
    elif ! cmp -s "$room/out" "$room/out.wanted"; then
        why="it wrote: $(cat "$room/out")"
    elif ! cmp -s "$room/err" "$room/err.wanted"; then
        why="it complained: $(cat "$room/err")"
    else
        return 0
    fi
    return 1
}

# check STATUS: counts the case $name by what was written and the status.
check() {
    if judge "$1"; then pass "$name"; else fail "$name" "$why"; fi
}
