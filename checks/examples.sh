#!/bin/sh
# The examples in README.md and docs/USING.md: each block of code stands in a program that the gate proves and runs,
# and each command, which begins with `$`, prints the lines below it.

. "$(dirname "$0")/shared.sh"
want_program

# in_programs FILE: counts the file's blocks of code, each of which has to stand in a source of crates/, whatever its
# indentation.
in_programs() {
    cat crates/*/src/*.rt | sed 's/^ *//' >"$room/sources"
    awk '
        FILENAME == ARGV[1] { sources = sources $0 "\n"; next }
        /^```rust$/ { inside = 1; block = ""; next }
        /^```$/ && inside {
            inside = 0
            blocks++
            if (!index(sources, block)) { print "no program has:"; printf "%s", block; missing++ }
        }
        inside { sub(/^ */, ""); block = block $0 "\n" }
        END { print blocks + 0, missing + 0 > "/dev/stderr" }
    ' "$room/sources" "$1" >"$room/missing" 2>"$room/blocks"
    read -r blocks missing <"$room/blocks"
    if [ "$blocks" -gt 0 ] && [ "$missing" -eq 0 ]; then
        pass "the code in $1 stands in programs that are run"
    else
        fail "the code in $1 stands in programs that are run" "$blocks blocks: $(cat "$room/missing")"
    fi
}

# printed FILE: runs the file's commands in the root of the repository.
printed() {
    awk '
        /^```console$/ { inside = 1; next }
        /^```$/ { inside = 0 }
        inside
    ' "$1" >"$room/console"
    : >"$room/seen"
    ran=0
    while IFS= read -r line; do
        case $line in
        '$ '*)
            printf '%s\n' "$line" >>"$room/seen"
            sh -c "${line#??}" </dev/null >>"$room/seen" 2>"$room/complaints"
            ran=$((ran + 1))
            ;;
        esac
    done <"$room/console"
    if [ "$ran" -gt 0 ] && cmp -s "$room/console" "$room/seen"; then
        pass "the commands in $1 print what stands there"
    else
        fail "the commands in $1 print what stands there" "$(diff "$room/console" "$room/seen")"
    fi
}

in_programs docs/USING.md
printed docs/USING.md
printed README.md
