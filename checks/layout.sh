#!/bin/sh
# No line is too long to be read: 120 characters at most in sources, definitions, tests, scripts and programs, 160 in
# proofs. Left alone are rows of bytes, runs of 40 hexadecimal digits, strings of 40 characters, and the attributes of
# tactics, which the formatter joins. So is the header, whose lines stay as they were published.

. "$(dirname "$0")/shared.sh"

# short NAME MOST: of the files in the list $room/files no line has more than so many characters.
short() {
    bytes='[0-9a-fA-F]{40}|([0-9a-fA-F]{2,}[ :]+){6}|(0x[0-9A-F]{2} ∷ ){6}'
    <"$room/files" xargs grep -HnvE "$bytes"'|"(\\.|[^"\]){40,}("|\\$)|#\[tactic\(' |
        LC_ALL=C.UTF-8 grep -E "^[^:]*:[0-9]*:.{$(($2 + 1))}" | cut -d : -f 1,2 >"$room/long"
    name="no line of $1 has more than $2 characters"
    if [ -s "$room/long" ]; then
        fail "$name" "$(wc -l <"$room/long") have: $(head -n 20 "$room/long" | tr '\n' ' ')"
    else
        pass "$name"
    fi
}

find crates -name out -prune -o -name proofs -prune -o \( -name '*.rt' -o -name '*.antt' \) -print >"$room/files"
short "sources, definitions and tests" 120
find crates -name out -prune -o -path '*/proofs/*.antt' -print >"$room/files"
short "proofs" 160
{
    find checks bench -maxdepth 1 -type f \( -name '*.sh' -o ! -name '*.*' \) -print
    ls test tpmtool install emulator/run setup/_tpmtool
} >"$room/files"
short "scripts" 120
find bench bindings checks emulator examples -name out -prune -o -name target -prune -o \
    -type f \( -name '*.[ch]' -o -name '*.py' -o -name '*.go' -o -name '*.rs' \) -print >"$room/files"
short "programs in C, Python, Go and Rust" 120
