#!/bin/sh
# ./install: into an empty folder, used from outside of the repository, and removed again.

. "$(dirname "$0")/shared.sh"
want_program
find_compiler

installed=$room/installed
elsewhere=$room/elsewhere
mkdir -p "$installed" "$elsewhere"

# one_version: the header, the program, pkg-config and the library, where they are there, give one version.
one_version() {
    version=$(awk '$2 == "VINJAKWE_VERSION" { gsub(/"/, ""); print $3 }' "$installed/include/vinjakwe.h")
    numbers=$(awk '$2 ~ /^VINJAKWE_VERSION_/ { printf "%s%s", dot, $3; dot = "." }' "$installed/include/vinjakwe.h")
    echo "header $version $numbers" && [ "$version" = "$numbers" ] || return 1
    "$installed/bin/tpmtool" --version | head -n 1
    "$installed/bin/tpmtool" --version | head -n 1 | grep -q -F -w -e "$version" || return 1
    [ "$(cat "$installed"/lib/pkgconfig/*.pc | grep -c "^Version: $version\$")" = 2 ] || return 1
    [ ! -e "$installed/lib/libvinjakwe.so" ] ||
        [ "$(readlink "$installed/lib/libvinjakwe.so")" = "libvinjakwe.so.$version" ] || return 1
    grep -q "\"vinjakwe $version\"" "$installed/share/man/man1/tpmtool.1"
}

# dated: each page of man has a date.
dated() {
    ! grep -L '^\.TH [^ ]* 1 "[0-9]\{4\}-[0-9][0-9]-[0-9][0-9]" ' "$installed"/share/man/man1/*.1 | grep .
}

# explained: the documents and the examples are there.
explained() {
    here=$installed/share/doc/vinjakwe
    diff -r docs "$here/docs" && diff -r examples "$here/examples" && cmp README.md "$here/README.md"
}

# linked WORD..: a program that is built elsewhere by these words prints the registers of a log, wherever it is run.
linked() {
    cp examples/log.c "$elsewhere/log.c"
    (cd "$elsewhere" && "$compiler" -std=c99 -O2 -o log log.c "$@") || return 1
    env -u LD_LIBRARY_PATH "$elsewhere/log" <checks/logs/worked.log | cmp - checks/logs/worked.registers
}

# linked_by_name NAME: the same with the words of pkg-config for this name: vinjakwe, over the shared library, which no
# path of the loader has, or vinjakwe-static, over the archive.
linked_by_name() {
    PKG_CONFIG_PATH="$installed/lib/pkgconfig" pkg-config --cflags --libs "$1" >"$room/flags" || return 1
    eval "linked $(cat "$room/flags")"
}

# linked_whole NAME: a program that holds all that it calls, the C library among it, by pkg-config's words.
linked_whole() {
    PKG_CONFIG_PATH="$installed/lib/pkgconfig" pkg-config --static --cflags --libs "$1" >"$room/flags" || return 1
    eval "linked -static $(cat "$room/flags")" && ! ldd "$elsewhere/log"
}

# archived: the archive has the version too, and a program that holds it needs no shared library.
archived() {
    cat >"$elsewhere/version.c" <<'END'
#include <stdio.h>
extern const char vinjakwe_version[];
int main(void) { return puts(vinjakwe_version) < 0; }
END
    version=$(sed -n 's/^Version: //p' "$installed/lib/pkgconfig/vinjakwe.pc")
    for archive in libvinjakwe.a libvinjakwe-freestanding.a; do
        "$compiler" -o "$elsewhere/version" "$elsewhere/version.c" "$installed/lib/$archive" &&
            [ "$("$elsewhere/version")" = "$version" ] || return 1
    done
    linked_by_name vinjakwe-static && ! ldd "$elsewhere/log" | grep vinjakwe
}

# freestanding_linked: a program without a C library over the other archive.
freestanding_linked() {
    "$compiler" -std=c99 -O2 -ffreestanding -fno-stack-protector -nostdlib -static -Wl,--gc-sections \
        -I "$installed/include" -o "$elsewhere/freestanding" examples/freestanding.c \
        "$installed/lib/libvinjakwe-freestanding.a" || return 1
    [ "$("$elsewhere/freestanding" | head -n 1)" = 80010000000a00000000 ]
}

# exported: the shared library has each function of the header, and the version, and no other name.
exported() {
    { tr -s ' \n' ' ' <include/vinjakwe.h | grep -o 'tpm_[a-z_]*(' | tr -d '(' && echo vinjakwe_version; } |
        sort -u >"$room/declared"
    nm -D --defined-only "$installed/lib/libvinjakwe.so" | awk '$2 != "A" { print $3 }' | sort -u |
        diff "$room/declared" -
}

# told: each subcommand and each option of the help stands in each file of completions, and in the page, with the words
# behind its subcommand; each command of the header, too, in the completions.
told() {
    sed 's/\\-/-/g' "$installed/share/man/man1/tpmtool.1" >"$room/page"
    for file in "$installed/share/bash-completion/completions/tpmtool" "$installed/share/zsh/site-functions/_tpmtool"; do
        cat "$file" >"$room/${file##*/}.words"
    done
    sed 's/ -l / --/g' "$installed/share/fish/vendor_completions.d/tpmtool.fish" >"$room/fish.words"
    "$installed/bin/tpmtool" --help |
        awk '/^Commands:/ { inside = 1; next } /^$/ { inside = 0 } inside && $1 != "help" { print $1 }' >"$room/verbs"
    [ -s "$room/verbs" ] || return 1
    while read -r verb; do
        "$installed/bin/tpmtool" "$verb" --help >"$room/help" || return 1
        { echo "$verb" && grep -o -e '^ *\(-[a-z], \)*--[a-z-]*' "$room/help" | grep -o -e '--[a-z-]*'; } |
            grep -v -x -e --help >"$room/helped"
        for file in page tpmtool.words _tpmtool.words fish.words; do
            while read -r word; do
                grep -q -w -e "$word" "$room/$file" || { echo "$file lacks $word of $verb" && return 1; }
            done <"$room/helped"
        done
        grep -o -e '^  [<[][A-Z]*[]>]' "$room/help" | tr -d ' <>[]' | while read -r word; do
            grep -q -e "$word" "$room/page" || { echo "the page lacks $word of $verb" && exit 1; }
        done || return 1
    done <"$room/verbs"
    awk '/^#define TPM_CC_/ { sub(/^TPM_CC_/, "", $2); print $2 }' include/vinjakwe.h | while read -r word; do
        for file in tpmtool.words _tpmtool.words fish.words; do
            grep -q -w -e "$word" "$room/$file" || { echo "$file lacks $word" && exit 1; }
        done
    done
}

mkdir -p "$room/offered"
: >"$room/offered/a log"

# completed: what bash offers for words of the program.
completed() {
    cat >"$room/complete" <<'END'
. "$1"
offer() {
    COMP_WORDS=(tpmtool "$@") COMP_CWORD=$#
    COMPREPLY=()
    _tpmtool
    echo "${COMPREPLY[*]}"
}
offer ev
offer show --f
offer show --reply PCR_R
offer check --hash sha2
offer run --owner ''
cd "$2" && offer check 'a l'
END
    printf '%s\n' events '--fields --file' 'PCR_Reset PCR_Read' sha256 '' 'a log' >"$room/wanted"
    bash "$room/complete" "$installed/share/bash-completion/completions/tpmtool" "$room/offered" | diff "$room/wanted" -
}

# fish_offers: the same of fish.
fish_offers() {
    cat >"$room/offer.fish" <<'END'
source $argv[1]
cd $argv[2]
for line in '' 'show --f' 'show --reply PCR_R' 'check --hash sha2' 'run --owner ' 'check a'
    echo (complete -C "tpmtool $line" | cut -f 1 | sort)
end
END
    printf '%s\n' 'build check events explain run show' '--fields --file' 'PCR_Read PCR_Reset' sha256 '' 'a log' \
        >"$room/wanted"
    LC_ALL=C fish "$room/offer.fish" "$installed/share/fish/vendor_completions.d/tpmtool.fish" "$room/offered" 2>&1 |
        diff "$room/wanted" -
}

# completed_emulator: what bash offers for words of the emulator.
completed_emulator() {
    cat >"$room/complete" <<'END'
. "$1"
offer() {
    COMP_WORDS=(vinjakwe-emulator "$@") COMP_CWORD=$#
    COMPREPLY=()
    _vinjakwe_emulator
    echo "${COMPREPLY[*]}"
}
offer --s
offer --swtpm ''
cd "$2" && offer --stdio --state 'a l'
END
    printf '%s\n' '--swtpm --stdio --state --startup' '' 'a log' >"$room/wanted"
    bash "$room/complete" "$installed/share/bash-completion/completions/vinjakwe-emulator" "$room/offered" |
        diff "$room/wanted" -
}

# fish_offers_emulator: the same of fish.
fish_offers_emulator() {
    cat >"$room/offer.fish" <<'END'
source $argv[1]
cd $argv[2]
for line in --s '--swtpm ' '--stdio --state a'
    echo (complete -C "vinjakwe-emulator $line" | cut -f 1 | sort)
end
END
    printf '%s\n' '--startup --state --stdio --swtpm' '' 'a log' >"$room/wanted"
    LC_ALL=C fish "$room/offer.fish" "$installed/share/fish/vendor_completions.d/vinjakwe-emulator.fish" \
        "$room/offered" 2>&1 | diff "$room/wanted" -
}

# emulated: the installed emulator runs outside of the sources, and its page has its words.
emulated() {
    version=$(awk '$2 == "VINJAKWE_VERSION" { gsub(/"/, ""); print $3 }' "$installed/include/vinjakwe.h")
    grep -q "\"vinjakwe $version\"" "$installed/share/man/man1/vinjakwe-emulator.1" || return 1
    (
        cd "$elsewhere" && [ "$("$installed/bin/vinjakwe-emulator" --version)" = "vinjakwe-emulator $version" ] &&
            bytes_of $startup | "$installed/bin/vinjakwe-emulator" --stdio --state kept | od -An -tx1 |
            grep -q ' 80 01 00 00 00 0a 00 00 00 00' && [ -s kept ]
    ) || return 1
    sed 's/\\-/-/g' "$installed/share/man/man1/vinjakwe-emulator.1" >"$room/page"
    cp "$installed/share/bash-completion/completions/vinjakwe-emulator" "$room/bash.words"
    cp "$installed/share/zsh/site-functions/_vinjakwe-emulator" "$room/zsh.words"
    awk '/^for/ { for (i = 4; i <= NF; i++) print "--" $i }' \
        "$installed/share/fish/vendor_completions.d/vinjakwe-emulator.fish" >"$room/fish.words"
    "$installed/bin/vinjakwe-emulator" --help | grep -o -e '--[a-z-]*' | sort -u | while read -r word; do
        for file in page bash.words zsh.words fish.words; do
            grep -q -w -e "$word" "$room/$file" || { echo "$file lacks $word" && exit 1; }
        done
    done
}

# page NAME: man formats the page and complains of nothing.
page() {
    MANWIDTH=80 man --warnings -E UTF-8 -l "$installed/share/man/man1/$1.1" \
        >"$room/page.text" 2>"$room/page.err" && [ ! -s "$room/page.err" ] && grep -q 'EXIT STATUS' "$room/page.text"
}

# helps: --help is help, on standard output; other words are a fault.
helps() {
    ./install --help | grep -q 'lib/libvinjakwe.a' || return 1
    ./install >"$room/out" 2>"$room/err"
    [ $? -eq 2 ] && [ ! -s "$room/out" ] && grep -q '^usage: install PREFIX' "$room/err" || return 1
    ./install --prefix >"$room/out" 2>"$room/err"
    [ $? -eq 2 ] && [ ! -e ./--prefix ]
}

# stays: an earlier install is whole where something can't be written: a folder, a file, or as many bytes.
stays() {
    rm -rf "$room/now" && cp -a "$installed" "$room/now" || return 1
    ./install "$installed" >"$room/out" 2>&1 && return 1
    grep -q 'was not written, and nothing was changed' "$room/out" && diff -r "$room/now" "$installed"
}

kept_whole() {
    mv "$installed/lib/pkgconfig" "$room/kept" && : >"$installed/lib/pkgconfig" && stays || return 1
    rm "$installed/lib/pkgconfig" && mv "$room/kept" "$installed/lib/pkgconfig" || return 1
    mv "$installed/share/man/man1/tpmtool.1" "$room/kept" && mkdir "$installed/share/man/man1/tpmtool.1" && stays ||
        return 1
    rmdir "$installed/share/man/man1/tpmtool.1" && mv "$room/kept" "$installed/share/man/man1/tpmtool.1" || return 1
    cp -a "$installed" "$room/before" && echo share/old >>"$installed/share/vinjakwe/installed" || return 1
    : >"$installed/share/old"
    ./install "$installed" && diff -r "$room/before" "$installed"
}

# again: installed below another root, nothing of which stands in a file, and twice, with a file of someone else's
# beside it; through a link.
again() {
    ln -s "$PWD/install" "$elsewhere/install" || return 1
    DESTDIR="$room/staged" "$elsewhere/install" /usr || return 1
    grep -q '^prefix=/usr$' "$room/staged/usr/lib/pkgconfig/vinjakwe.pc" || return 1
    : >"$room/staged/usr/lib/other"
    DESTDIR="$room/staged" ./install /usr && DESTDIR="$room/staged" ./install --remove /usr || return 1
    [ "$(find "$room/staged" -type f)" = "$room/staged/usr/lib/other" ]
}

# removed: nothing is left, and there is nothing more to remove.
removed() {
    ./install --remove "$installed" || return 1
    [ -z "$(find "$installed" -mindepth 1)" ] && ! ./install --remove "$installed"
}

holds "the words of ./install" helps
if ! ./install "$installed" >"$room/said" 2>&1; then
    fail "an install" "$(tail -n 3 "$room/said")"
    exit
fi
pass "an install"
holds "the archive that the emulator wants is there" [ -f crates/tpm_c/out/libtpm_c.a ]
holds "what is installed has one version" one_version
holds "the page and the completions have the program's words" told
holds "the pages of man have dates" dated
holds "the documents and the examples are beside the program" explained
if [ -z "$compiler" ]; then
    skip "C programs over what is installed" "no C compiler was found"
else
    holds_by pkg-config "a C program by pkg-config" linked_by_name vinjakwe
    holds_by pkg-config "a C program by pkg-config that holds the archive, which has the version" archived
    holds "a C program over the installed archive" linked -I "$installed/include" "$installed/lib/libvinjakwe.a"
    name="a C program by pkg-config that holds the C library"
    echo 'int main(void) { return 0; }' >"$room/empty.c"
    if "$compiler" -static -o "$room/empty" "$room/empty.c" >"$room/said" 2>&1; then
        for words in vinjakwe vinjakwe-static; do holds_by pkg-config "$name, $words" linked_whole $words; done
    else
        skip "$name" "$compiler has no static C library"
    fi
    holds_by nm "the names of the shared library" exported
    [ "$(uname -s) $(uname -m)" = "Linux x86_64" ] &&
        holds "a C program over the installed archive without a C library" freestanding_linked
fi
holds_by man "the page of the program" page tpmtool
if [ -x "$installed/bin/vinjakwe-emulator" ]; then
    holds "the installed emulator" emulated
    holds_by man "the page of the emulator" page vinjakwe-emulator
    holds_by bash "the words that bash completes for the emulator" completed_emulator
    holds_by zsh "the completions of the emulator for zsh are read" \
        zsh -n "$installed/share/zsh/site-functions/_vinjakwe-emulator"
    holds_by fish "the words that fish completes for the emulator" fish_offers_emulator
fi
holds_by bash "the words that bash completes" completed
holds_by zsh "the completions for zsh are read" zsh -n "$installed/share/zsh/site-functions/_tpmtool"
holds_by fish "the words that fish completes" fish_offers
holds "an earlier install stays whole where one can't be written" kept_whole
holds "an install below another root, through a link, and again" again
holds "what was installed is removed" removed
