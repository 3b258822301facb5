#!/bin/sh
# The conditions of calls: the table of them in docs/AUDIT.md names each public function of the library that has a
# `requires`, and no other, as `function`, as `Type::function`, or by the beginning of its name and an underscore. And
# no definition takes a limit, or a number that decides, from the code: of the constants of the sources what a contract
# cites imports tables of names alone, whose rows are a number, its name and what it says. Other checks test those.

. "$(dirname "$0")/shared.sh"

# conditions FILE..: a line 'NAME' or 'TYPE::NAME' for each public function with a condition, whatever is public of the
# crate.
conditions() {
    awk '
        FNR == 1 { type = ""; is_trait = 0; is_head = 0 }
        /^impl/ {
            type = $0
            sub(/ *\{.*/, "", type)
            sub(/^impl(<[^>]*>)? */, "", type)
            is_trait = type ~ / for /
            sub(/.* for /, "", type)
            sub(/<.*/, "", type)
        }
        /^pub trait/ { type = $3; sub(/[<:{].*/, "", type); is_trait = 1 }
        /^}/ { type = ""; is_trait = 0 }
        /(^| )fn / && !/^ *\/\// {
            is_public = /^ *pub [a-z "C]*fn / || (is_trait && /^ *fn /)
            name = $0
            sub(/.*fn /, "", name)
            sub(/[<(].*/, "", name)
            is_head = 1
        }
        is_head && is_public && /^ *requires/ { print (type == "" ? name : type "::" name) }
        is_head && /[{;] *$/ && !/^ *(requires|ensures)/ { is_head = 0 }
    ' "$@" | sort -u
}

# exported CRATE: a line for each name that the root file hands out.
exported() {
    awk '/^pub use/ { is_open = 1 } /^pub mod/ { print $3 } is_open { print } /;/ { is_open = 0 }' "$1/src/lib.rt" |
        tr -cs 'A-Za-z0-9_\n' '\n' | grep . | sort -u
}

# asked_of CRATE: the conditions of what it hands out; the functions of its public modules too.
asked_of() {
    exported "$1" >"$room/exported"
    conditions "$1"/src/*.rt | while IFS= read -r function; do
        grep -qx -e "${function%%::*}" "$room/exported" && echo "$function"
    done
    while IFS= read -r module; do
        [ -f "$1/src/$module.rt" ] && conditions "$1/src/$module.rt"
    done <"$room/exported"
}

for crate in crates/tpm_*; do
    case $crate in
    *_tests | *_bench | *_trials) ;;
    *) [ -f "$crate/src/lib.rt" ] && asked_of "$crate" ;;
    esac
done | sort -u >"$room/asked"

awk '/^## / { inside = /^## What calls ask for/ } inside && /^[|]/' docs/AUDIT.md | tr -cs 'A-Za-z0-9_:`\n' '\n' |
    awk -F '`' '/^`/ && NF == 3 { print $2 }' | sort -u >"$room/named"

# is_named FUNCTION: the table names it.
is_named() {
    while IFS= read -r name; do
        case $1 in
        "$name" | *::"$name") return 0 ;;
        esac
        case $name:$1 in
        *_:"$name"*) return 0 ;;
        esac
    done <"$room/named"
    return 1
}

wrong=
while IFS= read -r function; do
    is_named "$function" || wrong="$wrong $function is not named;"
done <"$room/asked"
while IFS= read -r name; do
    grep -q -e "^\(.*::\)\{0,1\}$name" "$room/asked" || wrong="$wrong $name has no condition;"
done <"$room/named"
name="docs/AUDIT.md names the $(wc -l <"$room/asked" | tr -d ' ') public functions that have a condition"
if [ -n "$wrong" ]; then fail "$name" "$wrong"; else pass "$name"; fi

# is_of_names LINE: what it imports of a source's constants are tables of names.
is_of_names() {
    set -- $(echo "$1" | sed -e 's/,//g' \
        -e 's/^use Rattle[.]\([a-z_]*\)[.]specs[.]declared[.]\([a-z_]*\)[.]TheConstants[.]{\(.*\)}$/\1 \2 \3/')
    [ $# -gt 2 ] || return 1
    source=crates/$1/src/$2.rt
    shift 2
    for constant; do
        grep -qs "^const $constant: \[Row; [0-9]*\] = " "$source" || return 1
    done
}

grep -rh --include='*.antt' -e 'TheConstants' crates/*/specs >"$room/imports"
wrong=$(while IFS= read -r line; do is_of_names "$line" || echo "$line"; done <"$room/imports")
name="of the code's constants definitions import tables of names alone"
if [ -n "$wrong" ]; then fail "$name" "$wrong"; else pass "$name"; fi
