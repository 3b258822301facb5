// Executes the command whose functions bench/walk counts: PCR_Extend in an HMAC session.
#include "timing.h"

#include "buffers.h"

size_t tpm_bench_execute(const uint8_t *prepare, size_t prepare_len, const uint8_t *first, size_t first_len,
                         const uint8_t *second, size_t second_len, uint32_t times, uint8_t *out, size_t out_len);

int main(void) {
    static uint8_t out[OUT];
    static struct buffer start, none;
    add(&start, "8001 0000003B 00000176 40000007 40000007 0020"); // no key; bound to nothing
    memset(start.bytes + start.len, 0xC1, NONCE);
    start.len += NONCE;
    add(&start, "0000 00 0010 000B"); // no salt; an HMAC session; no encryption; SHA-256
    make_buffers();
    const struct buffer *command = &buffers[PCR_EXTEND_SIGNED];
    size_t len = tpm_bench_execute(start.bytes, start.len, command->bytes, command->len, none.bytes, none.len, 1, out,
                                   OUT);
    want(len > 10 && memcmp(out + 6, "\0\0\0\0", 4) == 0, "the command is refused");
    return 0;
}
