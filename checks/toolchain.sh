# What builds an archive beside the gate: a C compiler, or none, and the toolchain's own over the libraries that are
# kept. What it says is added to $room/lib.

kit=$(dirname "$(rt doc)")

find_compiler

# rattle CRATE WORD..: the toolchain's compiler on this static library, over the libraries that the gate has proved and
# kept.
rattle() {
    crate=$1
    shift
    for library in $(sed -n "s/^$crate staticlib: //p" crates.txt); do
        case $library in
        tpm_*) set -- "$@" --extern "$library=$PWD/crates/$library/out/rlib/$library.rlib" ;;
        *) set -- "$@" --extern "$library=$kit/rlibs/$library.rlib" ;;
        esac
    done
    for folder in crates/*/out/rlib; do
        set -- "$@" -L "dependency=$PWD/$folder"
    done
    (
        cd "crates/$crate" && "$kit/bin/rattle" "$@" --crate-name "$crate" --crate-type staticlib src/lib.rt --extern "std=$kit/rlibs/std.rlib" \
            -L "dependency=$kit/rlibs" --antt-project "$kit/rattle/logic/antt-project.json"
    ) >>"$room/lib" 2>&1
}

# checked CRATE: its proofs are checked once, for each backend. Libraries of the gate and of an earlier `./tpmtool
# --build` may not go together: those that don't are built anew.
checked() {
    mkdir -p "crates/$1/out"
    rattle "$1" check --jobs 4 -o "$room/$1.checked" --logic-built "$kit/logic_built" && return
    grep -q unusable-built-library "$room/lib" && (cd "crates/$1" && rt lib) >>"$room/lib" 2>&1 &&
        rattle "$1" check --jobs 4 -o "$room/$1.checked" --logic-built "$kit/logic_built"
}

# compiled CRATE BACKEND: its archive in out/BACKEND, as this backend compiles what was checked.
compiled() {
    mkdir -p "crates/$1/out/$2"
    rattle "$1" build --crate-checked "$room/$1.checked" --toolchain "$kit/toolchain" --backend "$2" \
        -o "out/$2/lib$1.new" && mv "crates/$1/out/$2/lib$1.new" "crates/$1/out/$2/lib$1.a"
}

# archives: the library for C is there, by both backends and no older than a source; else it is built.
archives() {
    for built in crates/tpm_c/out/llvm/libtpm_c.a crates/tpm_c/out/rattle/libtpm_c.a; do
        [ -f "$built" ] && [ -z "$(find crates.txt crates/*/src crates/*/specs crates/*/proofs \
            -not -path '*/tpmtool/*' -newer "$built" | head -n 1)" ] || break
        built=
    done
    if [ -n "$built" ]; then
        checked tpm_c || return
        compiled tpm_c rattle &
        compiled tpm_c llvm && wait $! || return
    fi
    cp -p crates/tpm_c/out/llvm/libtpm_c.a crates/tpm_c/out/libtpm_c.a
}

# count_in FUNCTION WORD..: the instructions of this function and what it calls, where these words are run.
count_in() {
    function=$1
    shift
    valgrind --tool=callgrind --callgrind-out-file=/dev/null --toggle-collect="$function" "$@" 2>&1 |
        awk '/Collected : [0-9]/ { print $NF }'
}

# alike NAME COUNT..: all the counts are there, and are one.
alike() {
    name=$1
    shift
    for it; do
        [ -n "$it" ] && [ "$it" -gt 0 ] && [ "$it" = "$1" ] && continue
        fail "$name" "$*"
        return
    done
    pass "$name"
}
