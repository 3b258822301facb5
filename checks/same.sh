#!/bin/sh
# `same` of tpm_hmac takes as many instructions wherever two lists of one length differ, and where they don't: valgrind
# counts those of crate tpm_bench's call of it, where there is a valgrind. The calls that compare by it are counted
# in checks/c.sh.

. "$(dirname "$0")/shared.sh"
. checks/toolchain.sh

same=$room/same
name_of_same="same takes the same instructions wherever it is that two lists differ"

cat >"$same.c" <<'END'
#include <stddef.h>
#include <stdint.h>
#include <stdlib.h>

uint32_t tpm_bench_same(const uint8_t *a, size_t a_len, const uint8_t *b, size_t b_len, uint32_t times);

int main(int argc, char **argv) {
    static uint8_t a[48], b[48];
    size_t len = argc == 3 ? (size_t)atol(argv[1]) : 0, at = argc == 3 ? (size_t)atol(argv[2]) : 0;
    if (at < len)
        b[at] = 1;
    uint32_t found = 0;
    for (int i = 0; i < 1000; i++)
        found += tpm_bench_same(a, len, b, len, 1);
    return found != (at < len ? 0 : 1000);
}
END

# same_lists LEN: lists of LEN bytes that differ in the first, in the last, and in none.
same_lists() {
    alike "$name_of_same, of $1 bytes" "$(count_in tpm_bench_same "$same" "$1" 0)" \
        "$(count_in tpm_bench_same "$same" "$1" $(($1 - 1)))" "$(count_in tpm_bench_same "$same" "$1" "$1")"
}

if ! command -v valgrind >/dev/null 2>&1; then
    skip "$name_of_same" "there is no valgrind"
elif [ -z "$compiler" ]; then
    skip "$name_of_same" "there is no C compiler"
elif ! checked tpm_bench || ! compiled tpm_bench llvm ||
    ! "$compiler" -o "$same" "$same.c" crates/tpm_bench/out/llvm/libtpm_bench.a >>"$room/lib" 2>&1; then
    fail "$name_of_same" "it isn't built: $(tail -n 3 "$room/lib")"
else
    same_lists 32
    same_lists 48
fi
