// Calls a second from C, as calls.py, calls.go and calls.rs make them: a command that is decoded and cut, and a log
// that is compared with a quote. The words: the log, the quote, and the nonce in hexadecimal.
#include <stdint.h>
#include <stdio.h>
#include <stdlib.h>
#include <string.h>
#include <time.h>

#include "vinjakwe.h" // what ./install installs

enum { ROUNDS = 5, MOST = 1 << 20 };
static const double ROUND_SECONDS = 0.2;

// PCR_Extend of a digest by SHA-1 and one by SHA-256, in an HMAC session.
static uint8_t command[151] = {0x80, 2, 0, 0, 0, 151, 0, 0, 1, 0x82, 0, 0, 0, 16, 0, 0, 0, 0x49, 2, 0, 0, 0, 0, 32,
                               [56] = 1, 0, 32, [94] = 2, 0, 4, [117] = 0, 0x0B};
// TPML_PCR_SELECTION: sha256:0,7
static const uint8_t required[] = {0, 0, 0, 1, 0, 0x0B, 3, 0x81, 0, 0};
static uint8_t log_bytes[MOST], quote[MOST], nonce[64];
static size_t log_len, quote_len, nonce_len;

static void want(int ok, const char *what) {
    if (ok)
        return;
    fprintf(stderr, "calls: %s\n", what);
    exit(1);
}

static size_t read_file(const char *name, uint8_t *bytes) {
    FILE *file = fopen(name, "rb");
    want(file != NULL, name);
    size_t len = fread(bytes, 1, MOST, file);
    fclose(file);
    return len;
}

static void decode(void) {
    struct tpm_command_areas areas;
    struct tpm_refusal refusal;
    want(tpm_command_decode(command, sizeof command, &refusal) == TPM_DONE, "the command is refused");
    want(tpm_command_cut(command, sizeof command, &areas, &refusal) == TPM_DONE && areas.session_count == 1,
         "the command is not cut");
}

static void check(void) {
    struct tpm_attest_fault fault;
    want(tpm_log_check_attest(log_bytes, log_len, quote, quote_len, TPM_ALG_SHA256, nonce, nonce_len, required,
                              sizeof required, &fault) == TPM_ATTEST_MATCHES,
         "the quote does not match the log");
}

static double now(void) {
    struct timespec t;
    clock_gettime(CLOCK_MONOTONIC, &t);
    return (double)t.tv_sec + (double)t.tv_nsec * 1e-9;
}

static void print_rate(const char *name, void (*call)(void)) {
    double most = 0;
    for (int round = 0; round < ROUNDS; round++) {
        double start = now();
        long count = 0;
        do {
            for (int i = 0; i < 100; i++)
                call();
            count += 100;
        } while (now() - start < ROUND_SECONDS);
        double rate = (double)count / (now() - start);
        most = rate > most ? rate : most;
    }
    printf("%s %.0f\n", name, most);
}

int main(int argc, char **argv) {
    want(argc == 4, "the words are a log, a quote and a nonce");
    log_len = read_file(argv[1], log_bytes);
    quote_len = read_file(argv[2], quote);
    for (const char *hex = argv[3]; nonce_len < sizeof nonce && sscanf(hex, "%2hhx", &nonce[nonce_len]) == 1; hex += 2)
        nonce_len++;
    print_rate("decode", decode);
    print_rate("check", check);
    return 0;
}
