# What the scripts beside this one share, which read it at the top of the repository, with their own name in $name. A
# script's word `--build` builds what it measures, and stops; so that a later run, on a machine with nothing else at
# work, measures alone.

cc=${CC:-cc}
out=bench/out
build_alone=no
if [ "${1:-}" = --build ]; then
    build_alone=yes
    shift
fi

missing() {
    echo "bench/$name: $1" >&2
    exit 1
}

# need TOOL PACKAGE: the command is there.
need() {
    command -v "$1" >/dev/null 2>&1 || missing "there is no $1: install it, as by apt-get install $2"
}

# need_header HEADER PACKAGE
need_header() {
    echo "#include <$1>" | "$cc" -E - >/dev/null 2>&1 ||
        missing "there is no header $1: install it, as by apt-get install $2"
}

need_compiler() {
    command -v "$cc" >/dev/null 2>&1 ||
        missing "there is no C compiler ($cc): install one, as by apt-get install gcc, or name one in CC"
}

need_libcrypto() {
    need_header openssl/evp.h libssl-dev
}

# need_program: $program, tpmtool, is built for $processor, and no source is newer. For another one than the default it
# is built anew from what is proved, and stands in $kept.
need_program() {
    plain_program=crates/tpmtool/out/tpmtool program=crates/tpmtool/out/tpmtool
    [ "$build_alone" = no ] || ./tpmtool --build || missing "the program isn't built"
    [ -x "$program" ] || missing "the program isn't built: build it by ./tpmtool --build"
    [ "${processor:-x86-64-v2}" != x86-64-v2 ] || return 0
    kept=$out/$processor
    program=$kept/tpmtool
    [ -z "$(find "$plain_program" -newer "$program" 2>&1)" ] && return
    mkdir -p "$kept" && mv "$plain_program" "$kept/plain"
    trap 'mv -f "$kept/plain" "$plain_program"' EXIT
    trap 'exit 1' HUP INT TERM
    (cd crates/tpmtool && rt run --cpu="$processor" -- --help) </dev/null >"$kept/tpmtool.log" 2>&1 ||
        missing "the program isn't built: see $kept/tpmtool.log"
    mv "$plain_program" "$program" && mv "$kept/plain" "$plain_program"
    touch "$program"
    trap - EXIT HUP INT TERM
}

# archive CRATE: the static library of this crate for $processor, in $kept. It is proved and built where there is none
# or a source is newer.
archive() {
    kept=$out/$processor
    built=$kept/lib$1.a
    folders=
    for crate in "$1" $(sed -n "s/^$1 staticlib: //p" crates.txt); do
        for part in src specs proofs; do
            [ ! -d "crates/$crate/$part" ] || folders="$folders crates/$crate/$part"
        done
    done
    # shellcheck disable=SC2086
    if [ -f "$built" ] && [ -z "$(find crates.txt $folders -newer "$built" | head -n 1)" ]; then
        return
    fi
    command -v rt >/dev/null 2>&1 ||
        missing "there is no rt, the command of the Rattle kit, which builds the library: put it on PATH"
    mkdir -p "$kept" && : >"$kept/start"
    (cd "crates/$1" && rt lib --cpu="$processor") >"$kept/$1.log" 2>&1 ||
        missing "the library $1 isn't built: see $kept/$1.log"
    touch -r "$kept/start" "crates/$1/out/lib$1.a" && mv "crates/$1/out/lib$1.a" "$built"
}

# compile SOURCE LIBRARY..: bench/SOURCE.c as $kept/SOURCE, over the archives that are there.
compile() {
    source=$1
    shift
    "$cc" -O2 -Wall -Wextra -Wno-missing-field-initializers -Iinclude -o "$kept/$source" "bench/$source.c" "$@" ||
        missing "$kept/$source isn't built"
}

# stop_if_built: ends the script here where it was asked to build alone. libcrypto does without the processor's SHA
# instructions from here on, as the library does: so a unit is the same work on every machine.
stop_if_built() {
    [ "$build_alone" = no ] || exit 0
    plain=${OPENSSL_ia32cap-:~0x20000000}
}

# commas: standard input, with a comma before each three digits of a number's whole part.
commas() {
    sed -E -e ':again' -e 's/(^| )([0-9]+)([0-9]{3})([ ,.]|$)/\1\2,\3\4/' -e 't again'
}
