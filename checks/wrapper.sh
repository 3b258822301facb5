#!/bin/sh
# The scripts ./tpmtool, ./install and emulator/run, over a toolchain of their own that only says that it was called.

. "$(dirname "$0")/shared.sh"

wrapper=$room/wrapper
mkdir -p "$wrapper/crates/tpmtool/src" "$wrapper/crates/low/src" "$wrapper/crates/low/specs" \
    "$wrapper/crates/low/proofs" "$wrapper/bin" "$wrapper/elsewhere/in" "$wrapper/tmp"
cp tpmtool "$wrapper/tpmtool"
printf 'low:\ntpmtool: low\n' >"$wrapper/crates.txt"
cat >"$wrapper/bin/rt" <<'END'
#!/bin/sh
# run: a build, and the program with a word; lib: a library's proof, or an archive; try: the program, and then what
# `rt try` says of it.
echo "$PWD $*" >>"$CALLS"
case $1 in
run)
    echo "what a build says"
    echo "what a build complains of" >&2
    [ -z "$EDITED" ] || touch "$EDITED"
    cat >out/tpmtool <<'PROGRAM'
#!/bin/sh
for word in "$@"; do echo "<$word>"; done
echo "in $PWD"
echo complaint >&2
cat
exit 3
PROGRAM
    chmod +x out/tpmtool
    [ "$BROKEN" = killed ] && kill -9 $PPID
    [ -z "$BROKEN" ]
    ;;
lib)
    if [ "${PWD##*/}" = low ]; then
        echo "what a proof of low says"
        [ -z "$UNPROVED" ] || exit 1
        sleep 1
        mkdir -p out/rlib
        exit
    fi
    echo "what an archive's build says"
    [ -z "$SLOW" ] || { echo $$ >"$SLOW" && exec sleep 60; }
    [ -z "$EDITED" ] || { sleep 0.1 && touch "$EDITED"; }
    [ -z "$BROKEN" ] || exit 1
    mkdir -p out && echo "archive by ${3:-llvm}" >out/libtpm_c.a
    ;;
try)
    shift 3
    [ -z "$SLOW" ] || { echo $$ >"$SLOW" && exec sleep 60; }
    while [ "$1" != -- ]; do
        echo "copy $2"
        shift 2
    done
    shift
    for word in "$@"; do echo "<$word>"; done
    cat
    echo complaint >&2
    [ "$BROKEN" != other ] || { echo "run=ended status=4 runners=1 proved=no" >&2 && exit 3; }
    [ -z "$BROKEN" ] || exit 6
    echo "checked: ended status=${ENDED:-3}" >&2
    echo "run=ended status=${ENDED:-3} runners=1 proved=no" >&2
    exit "${ENDED:-3}"
    ;;
esac
END
chmod +x "$wrapper/bin/rt"
built=$wrapper/crates/tpmtool/out/tpmtool

# wrapped WORD..: runs it elsewhere, and keeps its status, what it wrote and how often it has built.
script=../tpmtool
wrapped() {
    (cd "$wrapper/elsewhere" && echo given | CALLS="$wrapper/calls" PATH="$wrapper/bin:$PATH" TMPDIR="$wrapper/tmp" \
        "$script" "$@") >"$wrapper/out" 2>"$wrapper/err"
    status=$?
    builds=$(grep -c ' run -- --help$' "$wrapper/calls")
    tries=$(grep -c ' try --seconds ' "$wrapper/calls")
}

# anew: nothing was called so far.
anew() {
    : >"$wrapper/calls"
}

# wants WORD..: a line of the file of what is wanted for each.
wants() {
    printf '%s\n' "$@" >"$wrapper/wanted"
}

# says NAME STATUS BUILDS TRIES: these, and the output that is wanted, and nothing that is left behind.
says() {
    if [ "$status $builds $tries" = "$2 $3 $4" ] && cmp -s "$wrapper/out" "$wrapper/wanted" &&
        [ -z "$(ls "$wrapper/tmp")" ]; then
        pass "$1"
    else
        fail "$1" "status $status, $builds builds, $tries tries: $(cat "$wrapper/out" "$wrapper/err"; ls "$wrapper/tmp")"
    fi
}

# complains NAME LINE..: what it wrote on standard error is these lines.
complains() {
    name=$1
    shift
    printf '%s\n' "$@" >"$wrapper/err.wanted"
    if cmp -s "$wrapper/err" "$wrapper/err.wanted"; then pass "$name"; else fail "$name" "$(cat "$wrapper/err")"; fi
}

anew
wrapped show 'a  b' '' '*'
wants '<show>' '<a  b>' '<>' '<*>'
says "a try answers where nothing is built, and takes no input that the program does not read" 3 0 1
complains "one line says that a try proves nothing, and another what the program complains of" \
    "tpmtool: this answer takes a minute or two, and is not proved here: ./tpmtool --build proves and builds the program" \
    complaint
[ ! -e "$wrapper/crates/tpmtool/out" ] || fail "a try leaves the crate as it was" "$(ls "$wrapper/crates/tpmtool/out")"
holds "a try is given 20 minutes" grep -q "^$wrapper/crates/tpmtool try --seconds 1200 " "$wrapper/calls"

anew
wrapped run --owner 00
wants '<run>' '<--owner>' '<00>' given
says "a try of a script is handed standard input" 3 0 1
for words in 'show -' 'show --fields --file=/dev/stdin' 'check log --registers /dev/stdin' 'events -' \
    'check /dev/fd/0' 'show --nv /dev/stdin'; do
    anew
    wrapped $words
    tail -n 1 "$wrapper/out" | grep -qx given && pass "a try of $words is handed standard input" ||
        fail "a try of $words is handed standard input" "$(cat "$wrapper/out")"
done
anew
wrapped build Startup - - 0000
wants '<build>' '<Startup>' '<->' '<->' '<0000>'
says "a try of parts that are empty takes no input" 3 0 1

: >"$wrapper/elsewhere/a log"
: >"$wrapper/elsewhere/check"
: >"$wrapper/elsewhere/in/log"
for word in 'check *' 'events *' 'check log --registers *' 'check log --registers=*' \
    'check log --attest *' 'check log --attest=*' 'show --file *' 'show --file=*' 'show --binary --file *' \
    'show --nv *' 'show --nv=*'; do
    name="a try of '$word'"
    anew
    set -f
    wrapped ${word%"*"}"a log"
    wants "copy a log=$wrapper/elsewhere/a log" $(printf '<%s> ' ${word%"*"} | sed 's/=> $/=/')
    set +f
    wanted=$(grep -c . "$wrapper/wanted")
    if grep -qx "copy a log=$wrapper/elsewhere/a log" "$wrapper/out" && grep -q '<.*a log>$' "$wrapper/out"; then
        pass "$name has a file by a bare name"
    else
        fail "$name has a file by a bare name" "$(cat "$wrapper/out")"
    fi
    wrapped ${word%"*"}in/log
    if grep -q "[<=]$wrapper/elsewhere/in/log>\$" "$wrapper/out" && ! grep -q '^copy.*in/log' "$wrapper/out"; then
        pass "$name has a file by its path"
    else
        fail "$name has a file by its path" "$(cat "$wrapper/out")"
    fi
    wrapped ${word%"*"}no/log
    if grep -q '[<=]no/log>$' "$wrapper/out"; then
        pass "$name leaves the name of no file as it is"
    else
        fail "$name leaves the name of no file as it is" "$(cat "$wrapper/out")"
    fi
done

: >"$wrapper/elsewhere/00"
anew
wrapped check /etc/passwd --quote 00
wants "copy 00=$wrapper/elsewhere/00" "copy check=$wrapper/elsewhere/check" '<check>' '</etc/passwd>' '<--quote>' '<00>'
says "a try changes no word that is a file's name by chance" 3 0 1

mkdir "$wrapper/elsewhere/folder"
anew
wrapped check folder
wants "copy check=$wrapper/elsewhere/check" '<check>' '<folder>'
says "a try copies no folder that has the name of a word" 3 0 1
rmdir "$wrapper/elsewhere/folder"

for BROKEN in yes other; do
    export BROKEN
    anew
    wrapped show
    unset BROKEN
    name="a try that gave no answer says why, and its limits"
    if [ "$status" -eq 126 ] && [ ! -s "$wrapper/out" ] && grep -q '^complaint' "$wrapper/err" &&
        grep -q ' 20 minutes' "$wrapper/err"; then
        pass "$name"
    else
        fail "$name" "status $status: $(cat "$wrapper/err")"
    fi
done
ENDED=0 CALLS="$wrapper/calls" PATH="$wrapper/bin:$PATH" TMPDIR="$wrapper/tmp" \
    "$wrapper/tpmtool" show >&- 2>/dev/null
status=$?
name="a try whose output is closed ends with 3"
if [ $status -eq 3 ]; then pass "$name"; else fail "$name" "status $status"; fi

# ended_by SIGNAL WORD..: these words, which take long, are ended by a signal; their status. They run in the foreground,
# since what runs in the background hears no SIGINT.
ended_by() {
    signal=$1
    shift
    export SLOW="$wrapper/slow"
    rm -f "$SLOW" "$wrapper/script"
    {
        for wait in $(seq 100); do
            if [ -s "$SLOW" ]; then break; fi
            sleep 0.1
        done
        kill -"$signal" "$(cat "$wrapper/script")"
    } &
    CALLS="$wrapper/calls" PATH="$wrapper/bin:$PATH" TMPDIR="$wrapper/tmp" \
        sh -c 'echo $$ >"$0" && exec "$@"' "$wrapper/script" "$@" </dev/null >"$wrapper/out" 2>"$wrapper/err"
    status=$?
    wait $!
    unset SLOW
}

# leaves_nothing NAME SIGNAL STATUS FOLDER WORD..: ended by the signal, the words have this status and no output,
# nothing of theirs goes on or is left, and the folder is not there. Where nobody hears the signal it is skipped.
leaves_nothing() {
    name=$1 wanted=$3 folder=$4
    if sh -c "kill -$2 \$\$; exit 0" 2>/dev/null; then
        skip "$name" "the signal is ignored here"
        return
    fi
    signal=$2
    shift 4
    ended_by "$signal" "$@"
    if [ "$status" -eq "$wanted" ] && [ ! -s "$wrapper/out" ] && [ -z "$(ls "$wrapper/tmp")" ] && [ ! -e "$folder" ] &&
        ! kill "$(cat "$wrapper/slow")" 2>/dev/null; then
        pass "$name"
    else
        fail "$name" "status $status: $(ls "$wrapper/tmp")"
    fi
}

for signal in 'HUP 129' 'INT 130' 'TERM 143'; do
    leaves_nothing "a try that SIG${signal% *} ends leaves nothing behind" $signal "$wrapper/crates/tpmtool/out" \
        "$wrapper/tpmtool" run
done

anew
wrapped --build show 'a  b' '' '*'
wants '<show>' '<a  b>' '<>' '<*>' "in $wrapper/elsewhere" given
says "a build is made where it is asked for, and words, input, output and status are passed on" 3 1 0
complains "a build says which crates are proved" \
    'tpmtool: proving and building the program, which takes half an hour to an hour on four cores the first time' \
    'tpmtool: low is proved' complaint
wrapped show 'a  b' '' '*'
says "what is built is not built again" 3 1 0
complains "what is built says nothing besides" complaint
wrapped --build
: >"$wrapper/wanted"
says "to build what is built does nothing" 0 1 0

ln -s ../tpmtool "$wrapper/elsewhere/linked"
ln -s linked "$wrapper/elsewhere/twice"
ln -s .. "$wrapper/elsewhere/folder"
for script in ./linked ./twice folder/tpmtool; do
    wrapped show
    wants '<show>' "in $wrapper/elsewhere" given
    says "the script is run through the link $script" 3 1 0
done
script=../tpmtool

for newer in crates.txt crates/low/src/lib.rt crates/low/specs/Lib.antt crates/low/proofs/Lib.antt; do
    touch -d '1 hour ago' "$built"
    find "$wrapper/crates.txt" "$wrapper"/crates/*/src "$wrapper"/crates/*/specs "$wrapper"/crates/*/proofs \
        -exec touch -d '2 hours ago' {} +
    anew
    wrapped show
    wants '<show>' "in $wrapper/elsewhere" given
    says "a program is built that is newer than all sources" 3 0 0
    touch "$wrapper/$newer"
    wrapped show
    wants '<show>'
    says "a program older than $newer is not built" 3 0 1
    rm -f "$wrapper/crates/low"/*/*
done
anew
wrapped --build show
wants '<show>' "in $wrapper/elsewhere" given
says "a build is made where a source is newer than the program" 3 1 0

rm "$built"
anew
export EDITED=$wrapper/crates/low/src/lib.rt
sleep 1
wrapped --build
unset EDITED
: >"$wrapper/wanted"
says "a build goes on where a source is edited meanwhile" 0 1 0
wrapped show
wants '<show>'
says "a source that was edited during the build is newer than the program" 3 1 1

for BROKEN in yes killed; do
    export BROKEN
    anew
    wrapped --build show
    unset BROKEN
    rm -rf "$wrapper/tmp"/*
    wrapped show
    wants '<show>'
    says "what a build leaves that was broken or killed is not built" 3 1 1
done
anew
export BROKEN=yes
wrapped --build show
unset BROKEN
name="a build that fails says why, and nothing is run"
if [ "$status" -eq 126 ] && [ ! -s "$wrapper/out" ] && [ ! -e "$built" ] && grep -q '^what a build complains of' "$wrapper/err"; then
    pass "$name"
else
    fail "$name" "status $status: $(cat "$wrapper/err")"
fi
for time in first second; do
    anew
    export UNPROVED=yes
    wrapped --build show
    unset UNPROVED
done
name="a build stops at what is not proved, and says why"
if [ "$status" -eq 126 ] && [ "$(grep -c '^what a proof of low says' "$wrapper/err")" -eq 1 ] &&
    ! grep -q ' run ' "$wrapper/calls" && [ -z "$(ls "$wrapper/tmp")" ]; then
    pass "$name"
else
    fail "$name" "status $status: $(cat "$wrapper/err")"
fi
anew
wrapped --build show
wants '<show>' "in $wrapper/elsewhere" given
says "a build is made after one that failed" 3 1 0

mkdir "$wrapper/few"
for word in sh readlink find head; do
    ln -s "$(command -v $word)" "$wrapper/few/$word"
done
rm "$built"
PATH="$wrapper/few" "$wrapper/tpmtool" show >"$wrapper/out" 2>"$wrapper/err"
status=$?
name="a script without a toolchain says so"
if [ "$status" -eq 127 ] && [ ! -s "$wrapper/out" ] && grep -q '`rt`.* is not in PATH' "$wrapper/err"; then
    pass "$name"
else
    fail "$name" "status $status: $(cat "$wrapper/err")"
fi

# ---- ./install, with a compiler of its own

cp install "$wrapper/install"
cp -R setup include docs examples README.md "$wrapper/"
mkdir -p "$wrapper/crates/tpm_c/src" "$wrapper/emulator"
cat >"$wrapper/bin/cc" <<'END'
#!/bin/sh
# A compiler: what it writes says its words and the mask.
echo "cc $*" >>"$CALLS"
[ -z "$UNLINKED" ] || { echo "what does not link" >&2 && exit 1; }
while [ "$1" != -o ]; do shift; done
cat >"$2" <<'PROGRAM'
#!/bin/sh
for word in "$@"; do echo "<$word>"; done
umask
exit 4
PROGRAM
chmod +x "$2"
END
chmod +x "$wrapper/bin/cc"
: >"$wrapper/emulator/one.c"
: >"$wrapper/emulator/one.h"
built=$wrapper/crates/tpm_c/out
place=$wrapper/installed
version=$(awk '$2 == "VINJAKWE_VERSION" { gsub(/"/, ""); print $3 }' include/vinjakwe.h)

# installs WORD..: runs ./install, and keeps its status, what it says, and how many archives it has built.
installs() {
    : >"$wrapper/calls"
    (cd "$wrapper" && CALLS="$wrapper/calls" PATH="$wrapper/bin:$PATH" TMPDIR="$wrapper/tmp" CC= DESTDIR= \
        ./install "$@") </dev/null >"$wrapper/out" 2>"$wrapper/err"
    status=$?
    archives=$(grep -c -e 'tpm_c lib$' -e ' lib --backend rattle$' "$wrapper/calls")
}

# installed NAME STATUS ARCHIVES: these, and nothing of its own is left behind.
installed() {
    if [ "$status $archives" = "$2 $3" ] && [ ! -s "$wrapper/out" ] && [ -z "$(ls "$wrapper/tmp")" ]; then
        pass "$1"
    else
        fail "$1" "status $status, $archives archives: $(cat "$wrapper/out" "$wrapper/err")"
    fi
}

# stays NAME STATUS TEXT: ./install has this status, says this, and leaves the earlier install as it was.
stays() {
    name=$1
    if [ "$status" -eq "$2" ] && grep -q -e "$3" "$wrapper/err" && diff -r "$wrapper/before" "$place" >"$wrapper/out" &&
        [ -z "$(ls "$wrapper/tmp")" ]; then
        pass "$name"
    else
        fail "$name" "status $status: $(cat "$wrapper/out" "$wrapper/err")"
    fi
}

# files: each that is installed, with its mode, or with what it is a link to.
files() {
    (cd "$place" && find . -type f -exec stat -c '%a %n' {} + && find . -type l -exec stat -c '%N' {} +) |
        sed "s,\./,,; s/'//g" | LC_ALL=C sort
}

# by_name: each file has the bytes that its name says.
by_name() {
    [ "$(cat "$place/lib/libvinjakwe.a")" = "archive by llvm" ] &&
        [ "$(cat "$place/lib/libvinjakwe-freestanding.a")" = "archive by rattle" ] &&
        cmp "$place/bin/tpmtool" "$wrapper/crates/tpmtool/out/tpmtool" &&
        cmp "$place/include/vinjakwe.h" include/vinjakwe.h && cmp "$built/libtpm_c.a" "$built/llvm/libtpm_c.a" &&
        for name in tpmtool vinjakwe-emulator; do
            cmp "$place/share/bash-completion/completions/$name" "setup/$name.bash" &&
                cmp "$place/share/fish/vendor_completions.d/$name.fish" "setup/$name.fish" &&
                cmp "$place/share/zsh/site-functions/_$name" "setup/_$name" &&
                cmp "$place/share/man/man1/$name.1" "setup/$name.1" || return 1
        done && for page in README.md docs examples; do
            diff -r "$page" "$place/share/doc/vinjakwe/$page" || return 1
        done &&
        for name in vinjakwe vinjakwe-static; do
            grep -q -x -e "prefix=$place" "$place/lib/pkgconfig/$name.pc" &&
                grep -q -x -e "Version: $version" "$place/lib/pkgconfig/$name.pc" || return 1
        done
}

rm -rf "$wrapper/crates/tpmtool/out"
installs installed
installed "./install builds what is not built" 0 2
{ cat && printf '644 share/doc/vinjakwe/%s\n' README.md docs/*.md examples/*.c; } >"$wrapper/named" <<END
644 include/vinjakwe.h
644 lib/libvinjakwe-freestanding.a
644 lib/libvinjakwe.a
644 lib/pkgconfig/vinjakwe-static.pc
644 lib/pkgconfig/vinjakwe.pc
644 share/bash-completion/completions/tpmtool
644 share/bash-completion/completions/vinjakwe-emulator
644 share/fish/vendor_completions.d/tpmtool.fish
644 share/fish/vendor_completions.d/vinjakwe-emulator.fish
644 share/man/man1/tpmtool.1
644 share/man/man1/vinjakwe-emulator.1
644 share/vinjakwe/installed
644 share/zsh/site-functions/_tpmtool
644 share/zsh/site-functions/_vinjakwe-emulator
755 bin/tpmtool
755 bin/vinjakwe-emulator
755 lib/libvinjakwe.so.$version
lib/libvinjakwe.so -> libvinjakwe.so.$version
lib/libvinjakwe.so.${version%%.*} -> libvinjakwe.so.$version
END
LC_ALL=C sort "$wrapper/named" >"$wrapper/files"
files >"$wrapper/files.there"
holds "./install writes these files" diff "$wrapper/files" "$wrapper/files.there"
holds "./install writes to each file what its name says" by_name

# aged: the program and the archives are newer than all sources.
aged() {
    find "$wrapper/crates.txt" "$wrapper"/crates/*/src "$wrapper"/crates/*/specs "$wrapper"/crates/*/proofs \
        -exec touch -d '2 hours ago' {} +
    touch -d '1 hour ago' "$wrapper/crates/tpmtool/out/tpmtool" "$built"/*/libtpm_c.a
}

aged
rm "$built/libtpm_c.a"
installs installed
installed "./install builds nothing that is newer than all sources" 0 0
holds "./install leaves LLVM's archive where the emulator wants it" by_name
links_llvm() {
    [ "$(grep -c "^cc .* -o [^ ]* .*$built/llvm/libtpm_c.a" "$wrapper/calls")" -eq 2 ] &&
        grep -q -e "-soname,libvinjakwe.so.${version%%.*} -Wl,--version-script=" "$wrapper/calls"
}
holds "./install links LLVM's archive, and names what may be called" links_llvm
for newer in crates.txt crates/low/src/lib.rt crates/low/specs/Lib.antt crates/low/proofs/Lib.antt; do
    aged
    touch "$wrapper/$newer"
    installs installed
    installed "./install builds archives that are older than $newer" 0 2
done
rm -f "$wrapper/crates/low"/*/*
aged
touch "$wrapper/crates/tpmtool/src/main.rt"
installs installed
installed "./install builds no archive for a source of the program" 0 0
holds "./install builds the program for one" grep -q ' run -- --help$' "$wrapper/calls"
rm "$wrapper/crates/tpmtool/src/main.rt"
aged
rm "$built/rattle/libtpm_c.a"
export EDITED="$wrapper/crates/low/src/lib.rt"
installs installed
unset EDITED
installed "./install goes on where a source is edited meanwhile" 0 2
installs installed
installed "./install builds an archive again whose source was edited meanwhile" 0 2

rm "$built/rattle/libtpm_c.a"
cp -a "$place" "$wrapper/before"
export BROKEN=yes
installs installed
unset BROKEN
stays "./install writes nothing where an archive is not built, and says why" 1 "^what an archive's build says"
for signal in 'HUP 143' 'INT 130' 'TERM 143'; do
    leaves_nothing "an install that SIG${signal% *} ends writes nothing" $signal "$wrapper/never" \
        "$wrapper/install" "$wrapper/never"
done
installs installed
export UNLINKED=yes
installs installed
unset UNLINKED
installed "./install goes on where nothing can be linked" 0 0
grep -v -e vinjakwe-emulator -e '\.so' "$wrapper/files" >"$wrapper/fewer"
files >"$wrapper/files.there"
holds "./install removes what an earlier one had besides" diff "$wrapper/fewer" "$wrapper/files.there"
holds "./install says what was not linked, and why" \
    [ "$(grep -c 'cc does not link it: what does not link' "$wrapper/err")" -eq 3 ]

# with WORD..: ./install, with these words of the environment before its own.
with() {
    : >"$wrapper/calls"
    (cd "$wrapper" && env CALLS="$wrapper/calls" PATH="$wrapper/bin:$PATH" TMPDIR="$wrapper/tmp" CC= DESTDIR= "$@") \
        </dev/null >"$wrapper/out" 2>&1
}

# given: the compiler and its words are taken as the environment has them.
given() {
    with CC='env cc -m64' CFLAGS='-O1 -g' LDFLAGS='-Wl,-z,now -s' ./install installed || return 1
    [ "$(grep -c '^cc -m64 -O1 -g -I' "$wrapper/calls")" -eq 3 ] &&
        [ "$(grep -c '^cc .* -Wl,-z,now -s$' "$wrapper/calls")" -eq 2 ]
}
holds "./install takes CC of several words, CFLAGS and LDFLAGS" given

# no_compiler: a compiler that is not there is a fault, and nothing is written.
no_compiler() {
    with CC='no-such-cc -m64' ./install none
    [ $? -eq 1 ] && grep -q -x 'install: CC is no-such-cc -m64, and there is no command no-such-cc' "$wrapper/out" &&
        [ ! -e "$wrapper/none" ]
}
holds "./install says that the compiler of CC is not there" no_compiler

# in_libdir LIBDIR: the libraries and the files of pkg-config are in lib64 alone, and all is removed again.
in_libdir() {
    with LIBDIR="$1" ./install other && [ ! -e "$wrapper/other/lib" ] || return 1
    (cd "$wrapper/other" && find lib64 -type f | LC_ALL=C sort && grep -h ^libdir= lib64/pkgconfig/*.pc) \
        >"$wrapper/found"
    diff - "$wrapper/found" <<END || return 1
lib64/libvinjakwe-freestanding.a
lib64/libvinjakwe.a
lib64/libvinjakwe.so.$version
lib64/pkgconfig/vinjakwe-static.pc
lib64/pkgconfig/vinjakwe.pc
libdir=\${prefix}/lib64
libdir=\${prefix}/lib64
END
    with ./install --remove other && [ -z "$(ls -A "$wrapper/other")" ]
}
holds "./install writes the libraries to LIBDIR" in_libdir lib64
holds "./install writes the libraries to LIBDIR, a whole path" in_libdir "$wrapper/other/lib64/"

# not_below: a LIBDIR that is not below the folder is a fault.
not_below() {
    for libdir in /lib64 ../lib64 lib/../..; do
        with LIBDIR=$libdir ./install none
        [ $? -eq 2 ] && grep -q "^install: LIBDIR is $libdir, which is not below " "$wrapper/out" || return 1
    done
    [ ! -e "$wrapper/none" ]
}
holds "./install refuses a LIBDIR that is elsewhere" not_below

# masked: under a mask that hides all from others each may read what is installed.
masked() {
    (umask 077 && with ./install masked) && ! find "$wrapper/masked" -type d ! -perm 755 | grep . || return 1
    (place=$wrapper/masked && files) | diff "$wrapper/files" -
}
holds "./install writes what each may read, under any mask" masked

# at_a_system: the words of pkg-config name a path for the loader, but not where the loader looks by itself.
at_a_system() {
    for prefix in /usr /usr/local; do
        with DESTDIR="$wrapper/staged" ./install $prefix &&
            ! grep -e rpath "$wrapper/staged$prefix"/lib/pkgconfig/*.pc || return 1
    done
    grep -q -x -F -e 'Libs: -L${libdir} -Wl,-rpath,${libdir} -lvinjakwe' "$place/lib/pkgconfig/vinjakwe.pc"
}
holds "./install names a path for the loader where it doesn't look by itself alone" at_a_system

# filled: an install on a small disk, and another one where it has no more room. What is there then is as it was.
cat >"$wrapper/filled" <<'END'
cd "$1" && ./install disk/place || exit 1
cp -a disk/place before.filled && { cat /dev/zero >disk/more; } 2>/dev/null
./install disk/place
[ $? -eq 1 ] && diff -r before.filled disk/place
END
filled() {
    CALLS="$wrapper/calls" PATH="$wrapper/bin:$PATH" TMPDIR="$wrapper/tmp" CC= DESTDIR= \
        on_a_small_disk "$wrapper/disk" 512k sh "$wrapper/filled" "$wrapper" && ls "$wrapper/before.filled/bin/tpmtool"
}
name="an earlier install stays whole on a disk that is full"
if on_a_small_disk "$wrapper/disk" 512k true >/dev/null 2>&1; then
    holds "$name" filled
else
    skip "$name" "no file system can be mounted"
fi

# alone WORD..: the words without `rt`, where it is in neither of two folders.
alone() {
    PATH="/usr/bin:/bin" CALLS="$wrapper/calls" TMPDIR="$wrapper/tmp" CC="$wrapper/bin/cc" "$@" \
        </dev/null >"$wrapper/out" 2>"$wrapper/err"
    status=$?
}
installs installed
rm -rf "$wrapper/before" "$built/rattle"
cp -a "$place" "$wrapper/before"
name="./install says that it wants a toolchain for an archive"
if (PATH=/usr/bin:/bin && command -v rt >/dev/null); then
    skip "$name" "there is one"
else
    alone "$wrapper/install" "$place"
    stays "$name" 1 'by rattle is not built.* is not in PATH'
fi

# ---- emulator/run, by the same

cp emulator/run "$wrapper/emulator/run"
emulator=$wrapper/emulator/out/emulator

# emulates STATUS ARCHIVES LINKS WORD..: emulator/run with these words has this status, builds so many archives, and
# links so often. The mask is one under which nothing may be run.
emulates() {
    wanted="$1 $2 $3"
    shift 3
    : >"$wrapper/calls"
    (umask 177 && cd "$wrapper/elsewhere" && CALLS="$wrapper/calls" PATH="$wrapper/bin:$PATH" CC= \
        ../emulator/run "$@") </dev/null >"$wrapper/out" 2>"$wrapper/err"
    status="$? $(grep -c ' lib$' "$wrapper/calls") $(grep -c '^cc ' "$wrapper/calls")"
    [ "$status" = "$wanted" ] || { echo "$status and not $wanted:" && cat "$wrapper/err" && return 1; }
}

# told WORD..: the program was handed these words, and the mask.
told() {
    printf '%s\n' "$@" 0177 | diff - "$wrapper/out"
}

# linked_anew: the program is linked where a file is newer than it, by the archive that is there.
linked_anew() {
    for newer in emulator/one.c emulator/one.h include/vinjakwe.h "$1"; do
        touch -d '1 hour ago' "$emulator"
        find "$wrapper/emulator" "$wrapper/include" "$built" -name '*.[cha]' -exec touch -d '2 hours ago' {} +
        emulates 4 0 0 && touch "$wrapper/$newer" && emulates 4 0 1 && grep -q " $wrapper/$1\$" "$wrapper/calls" ||
            { echo "$newer" && return 1; }
    done
}

# not_linked: what does not link is said, and what was there stays and is linked the next time.
not_linked() {
    touch -d '1 hour ago' "$emulator"
    touch "$wrapper/emulator/one.c"
    cp "$emulator" "$wrapper/emulator.before"
    export UNLINKED=yes
    emulates 126 0 1 --stdio
    said=$?
    unset UNLINKED
    [ $said -eq 0 ] && [ ! -s "$wrapper/out" ] && grep -q -x 'what does not link' "$wrapper/err" &&
        cmp "$emulator" "$wrapper/emulator.before" && emulates 4 0 1
}

# without_a_toolchain: what was built runs, also where a source is newer; and where nothing was, that is said.
without_a_toolchain() {
    rm -rf "$built"
    touch -d '1 hour ago' "$emulator"
    touch "$wrapper/emulator/one.c"
    alone "$wrapper/emulator/run" --stdio
    [ $status -eq 4 ] && grep -q 'newer than what was built' "$wrapper/err" || return 1
    rm "$emulator"
    alone "$wrapper/emulator/run" --stdio
    [ $status -eq 127 ] && [ ! -s "$wrapper/out" ] && grep -q 'is not in PATH' "$wrapper/err"
}

rm -rf "$built"
holds "emulator/run builds the archive and the program" emulates 4 1 1 --swtpm '2  3' ''
holds "emulator/run hands on words and mask" told '<--swtpm>' '<2  3>' '<>'
holds "emulator/run builds nothing that is there" emulates 4 0 0
holds "emulator/run links a program that is older than a source or the archive" \
    linked_anew crates/tpm_c/out/libtpm_c.a
holds "emulator/run says what does not link" not_linked
mkdir "$built/llvm" && mv "$built/libtpm_c.a" "$built/llvm/"
holds "emulator/run takes the archive of ./install" linked_anew crates/tpm_c/out/llvm/libtpm_c.a
rm -rf "$built" "$wrapper/emulator/out"
export BROKEN=yes
holds "emulator/run says what is not proved" emulates 126 1 0
unset BROKEN
holds "emulator/run hands on what the toolchain says" grep -q "^what an archive's build says" "$wrapper/err"
emulates 4 1 1 >/dev/null
name="emulator/run without a toolchain"
if (PATH=/usr/bin:/bin && command -v rt >/dev/null); then
    skip "$name" "there is one"
else
    holds "$name" without_a_toolchain
fi

# ---- a build by the toolchain itself, of a program over one crate, beside a crate that it isn't made of

real=$room/real
mkdir -p "$real/crates/tpmtool/src" "$real/crates/low/src" "$real/crates/aside/src"
cp tpmtool "$real/tpmtool"
printf 'low:\naside: low\ntpmtool: low\n' >"$real/crates.txt"
cat >"$real/crates/low/src/lib.rt" <<'END'
//! A number.
#![tactic(auto)]

ghost use Rattle.std.specs.Prelude.{◌≡◌};

/// Three.
pub fn three() -> u8
    ensures { result ≡ 3 }
{
    3
}
END
cp "$real/crates/low/src/lib.rt" "$real/crates/aside/src/lib.rt"
cat >"$real/crates/tpmtool/src/main.rt" <<'END'
//! A program that prints a number.
#![tactic(auto)]

use low::three;
use std::io;

fn main(rt: HostRuntime) -> io::Result<()> {
    let number = three();
    println!(rt; "{number}")
}
END

# built_from_nothing: it is proved and built, with nothing kept of the crate aside, and answers.
built_from_nothing() {
    (cd "$real" && ./tpmtool --build && [ "$(./tpmtool)" = 3 ] && [ ! -e crates/aside/out ] &&
        grep -q '^logic=proved ' crates/tpmtool/out/build.log)
}

holds_by rt "./tpmtool --build proves and builds a small program by the toolchain itself" built_from_nothing
