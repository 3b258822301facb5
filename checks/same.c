/* One comparison of what a device, a caller or a verifier was sent with what it computes, where the two differ in one
 * byte: valgrind counts the instructions of the call around it. The words are the call, the byte, a log and a quote as
 * it was signed by SHA-256.
 */
#include "vinjakwe.h"

#include <stdio.h>
#include <stdlib.h>
#include <string.h>

enum { NONCE_BYTES = 16, LOG_BYTES = 65536, QUOTE_BYTES = 1024 };

static uint64_t device_room[1024], caller_room[1024];
static struct tpm_device *const tpm = (struct tpm_device *)(void *)device_room;
static struct tpm_caller *const caller = (struct tpm_caller *)(void *)caller_room;
static uint8_t sealed[TPM_BUFFER_BYTES], reply[TPM_BUFFER_BYTES], count;
static size_t reply_len;

static const uint8_t owner[] = "the owner's own";
static const uint8_t owner_name[] = {0x40, 0, 0, 1};
static const uint8_t index_name[] = {1, 0x80, 0, 1};
static const uint8_t startup[] = {0x80, 1, 0, 0, 0, 12, 0, 0, 1, 0x44, 0, 0};
static const uint8_t start[] = {0x80, 1, 0, 0, 0, 43, 0, 0, 1, 0x76, 0x40, 0, 0, 7, 0x40, 0, 0, 7, 0, NONCE_BYTES,
                                1, 2, 3, 4, 5, 6, 7, 8, 9, 10, 11, 12, 13, 14, 15, 16, 0, 0,
                                TPM_SE_HMAC, 0, TPM_ALG_NULL, 0, TPM_ALG_SHA256};
static const uint8_t define[] = {0x80, 1, 0, 0, 0, 32, 0, 0, 1, 0x2A, 0x40, 0, 0, 1, 0, 0, 0, 14, 1, 0x80, 0, 1, 0,
                                 0x0B, 2, 2, 0, 0x12, 0, 0, 0, 8};
static const uint8_t undefine[] = {0x80, 1, 0, 0, 0, 18, 0, 0, 1, 0x22, 0x40, 0, 0, 1, 1, 0x80, 0, 1};

static void want(int holds, const char *what) {
    if (holds)
        return;
    fprintf(stderr, "same: %s\n", what);
    exit(3);
}

static uint32_t code(void) {
    return (uint32_t)reply[6] << 24 | (uint32_t)reply[7] << 16 | (uint32_t)reply[8] << 8 | reply[9];
}

static void transmit(const uint8_t *command, size_t len) {
    uint8_t nonce[TPM_NONCE_BYTES] = {0};
    nonce[7] = ++count;
    reply_len = tpm_device_execute(tpm, command, len, nonce, reply, sizeof reply);
}

/* The device is started, and the caller holds a session with it. */
static void begin(void) {
    want(tpm_device_size() <= sizeof device_room && tpm_caller_size() <= sizeof caller_room, "the rooms are too small");
    want((int)tpm_device_init(tpm, owner, sizeof owner - 1, 0), "there is no device");
    transmit(startup, sizeof startup);
    tpm_caller_init(caller);
    transmit(start, sizeof start);
    want((int)tpm_caller_start(caller, start, sizeof start, reply, reply_len, owner, 0), "no session is started");
}

/* The owner defines a counter; the answer is how many bytes the sealed command has, whose last are its parameters. */
static size_t seal(const uint8_t *command, size_t len) {
    static const uint8_t nonce[NONCE_BYTES] = {9};
    size_t sealed_len =
        tpm_caller_seal(caller, command, len, owner_name, sizeof owner_name, index_name, sizeof index_name, owner,
                        sizeof owner - 1, nonce, sizeof nonce, 1, sealed, sizeof sealed);
    want(sealed_len > 0, "nothing is sealed");
    return sealed_len;
}

/* The HMAC of a command: its parameters are behind it, 14 bytes. */
static void command_mac(size_t at) {
    begin();
    size_t len = seal(define, sizeof define);
    sealed[len - 14 - 4 - 32 + at] ^= 1;
    transmit(sealed, len);
    want(code() == (TPM_RC_AUTH_FAIL | TPM_RC_S | TPM_RC_1) || code() == (TPM_RC_BAD_AUTH | TPM_RC_S | TPM_RC_1),
         "the HMAC is taken");
}

/* The HMAC of a reply, its last bytes. */
static void reply_mac(size_t at) {
    begin();
    transmit(sealed, seal(define, sizeof define));
    want(code() == TPM_RC_SUCCESS, "no counter is defined");
    reply[reply_len - 32 + at] ^= 1;
    want(tpm_caller_open(caller, reply, reply_len) == TPM_CALLER_WRONG_MAC, "the reply is opened");
}

/* A password, the owner's. */
static void password(size_t at) {
    uint8_t command[sizeof undefine + 13 + sizeof owner - 1];
    size_t auth_len = 9 + sizeof owner - 1;
    begin();
    memcpy(command, undefine, sizeof undefine);
    command[1] = 2;
    command[5] = sizeof command;
    const uint8_t area[] = {0, 0, 0, (uint8_t)auth_len, 0x40, 0, 0, 9, 0, 0, 0, 0, sizeof owner - 1};
    memcpy(command + sizeof undefine, area, sizeof area);
    memcpy(command + sizeof undefine + sizeof area, owner, sizeof owner - 1);
    command[sizeof undefine + sizeof area + at] ^= 1;
    transmit(command, sizeof command);
    want(code() == (TPM_RC_AUTH_FAIL | TPM_RC_S | TPM_RC_1) || code() == (TPM_RC_BAD_AUTH | TPM_RC_S | TPM_RC_1),
         "the password is taken");
}

static size_t read_file(const char *path, uint8_t *bytes, size_t most) {
    FILE *file = fopen(path, "rb");
    want(file != NULL, "a file isn't there");
    size_t len = fread(bytes, 1, most, file);
    fclose(file);
    return len;
}

static uint8_t log_bytes[LOG_BYTES], quote[QUOTE_BYTES];

/* The nonce of a quote as it was signed, and the digest of its registers. */
static void verified(const char *call, size_t at, const char *log_path, const char *quote_path) {
    struct tpm_attest view;
    struct tpm_refusal refusal;
    struct tpm_attest_fault fault;
    uint32_t place;
    size_t log_len = read_file(log_path, log_bytes, sizeof log_bytes), len = read_file(quote_path, quote, sizeof quote);
    want(tpm_attest_decode(quote, len, &view, &refusal) == TPM_DONE, "the quote is none");
    if (strcmp(call, "nonce") == 0) {
        uint8_t nonce[64] = {0};
        memcpy(nonce, quote + view.nonce.at, view.nonce.len);
        nonce[at] ^= 1;
        want(tpm_log_check_attest(log_bytes, log_len, quote, len, TPM_ALG_SHA256, nonce, view.nonce.len, nonce, 0,
                                  &fault) == TPM_ATTEST_NONCE,
             "the nonce is taken");
    } else {
        quote[view.digest.at + at] ^= 1;
        want(tpm_log_check_quote(log_bytes, log_len, quote + view.selections.at, len - view.selections.at,
                                 TPM_ALG_SHA256, &place) == TPM_QUOTE_DIFFERS,
             "the digest is taken");
    }
}

int main(int argc, char **argv) {
    want(argc == 5, "call byte log quote");
    size_t at = (size_t)atol(argv[2]);
    if (strcmp(argv[1], "command") == 0)
        command_mac(at);
    else if (strcmp(argv[1], "reply") == 0)
        reply_mac(at);
    else if (strcmp(argv[1], "password") == 0)
        password(at);
    else
        verified(argv[1], at, argv[3], argv[4]);
    return 0;
}
