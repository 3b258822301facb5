#!/bin/sh
# The documents: each path that they name is there, and each name stands in the sources.

. "$(dirname "$0")/shared.sh"

documents="README.md CONTRIBUTING.md docs/*.md"

# quoted: a line for each piece of code in the documents' text.
quoted() {
    awk '!/^    / { n = split($0, part, "`"); for (i = 2; i <= n; i += 2) print part[i] }' $documents | sort -u
}

# paths: the paths among them, and those in the text. What the toolchain makes is not looked for.
paths() {
    {
        quoted | grep -x -e '[A-Za-z0-9_./-]*/[A-Za-z0-9_./-]*' -e '[A-Za-z0-9_.-]*\.\(rt\|antt\|md\|sh\|txt\|c\)'
        grep -h -o -e '\(docs\|checks\|bench\|crates\)/[A-Za-z0-9_./-]*' $documents | sed 's/\.$//'
    } | sed -e 's|^\./||' -e 's|/$||' | grep -v -e '/out\(/\|$\)' | sort -u
}

# missing_paths: those that are no file or folder, by their whole path or by its end.
missing_paths() {
    { find . -name .git -prune -o -name out -prune -o -type f -print &&
        find . -name .git -prune -o -name out -prune -o -type d -print; } |
        sed 's|^\.|/|' | awk '
            NR == FNR { path = $0; do { there[path]; sub(/^\/+[^\/]*/, "", path) } while (path != ""); next }
            !(("/" $0) in there) && !(("//" $0) in there) { print }
        ' - "$room/paths"
}

# words: a line for each word of the sources.
words_of_sources() {
    {
        find checks bench crates test tpmtool crates.txt HANDLES -name out -prune -o \
            -type f -not -name "*.edit" -exec cat {} +
        find crates -path '*/must-fail/*.edit'
    } |
        tr -cs 'A-Za-z0-9_' '\n' | sort -u
}

# names: the names of one word among what is quoted, and what stands behind the last `::` or `.` of longer ones.
names() {
    quoted | grep -x -e '[A-Za-z_][A-Za-z0-9_:.]*\(()\)\{0,1\}' | grep -v -e '\.\(rt\|antt\|md\|sh\|txt\|c\)$' |
        sed -e 's/()$//' -e 's/.*[:.]//' | grep -v -e '^$' -e '_$'
    grep -h -o -w -e 'tpm_[a-z_]*' $documents
}

paths >"$room/paths"
missing=$(missing_paths)
name="the documents name $(wc -l <"$room/paths" | tr -d ' ') paths that are there"
if [ -z "$missing" ]; then pass "$name"; else fail "$name" "$missing"; fi

words_of_sources >"$room/words_of_sources"
names | sort -u >"$room/names"
missing=$(comm -23 "$room/names" "$room/words_of_sources")
name="the documents name $(wc -l <"$room/names" | tr -d ' ') names that stand in the sources"
if [ -z "$missing" ]; then pass "$name"; else fail "$name" "$missing"; fi
