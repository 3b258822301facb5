#!/bin/sh
# The header for C says what the crates have: each number, each structure with the names, the order, the places and the
# sizes of its fields, each function with its parameters; and nothing that they don't have.

. "$(dirname "$0")/shared.sh"

name="the header has the numbers, structures and functions of the crates"

# compared: what Python compares, and then what the C compiler does.
compared() {
    # The files of sources have no blank in their names.
    python3 checks/header.py $(cd crates/tpm_c/src && ls ./*.rt | sed 's/^\.\///; s/\.rt$//') >"$room/header.c" &&
        "$compiler" -std=c11 -Wall -Wextra -pedantic -Werror -Iinclude -fsyntax-only "$room/header.c"
}

find_compiler
if ! command -v python3 >/dev/null 2>&1; then
    skip "$name" "there is no python3"
elif [ -z "$compiler" ]; then
    skip "$name" "no C compiler was found"
else
    holds "$name" compared
fi
