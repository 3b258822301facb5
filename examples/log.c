/* A log of a measured boot from standard input: the registers that it gives, as `tpmtool check` prints them, or the
 * log's fault.
 *
 * The log may have any size: it is replayed in pieces as they are read, of 65,536 bytes or of the number that is given,
 * and none of it is kept. With the word `whole` it is read as a whole first, as far as a log can go; so it is with the
 * information of a quote in hexadecimal, of which it says what the quote says of the registers, by its digest under
 * this hash.
 *
 *     log [whole | PIECE_BYTES | QUOTE_HEX sha1|sha256|sha384]
 */
#include "vinjakwe.h"

#include <stdio.h>
#include <stdlib.h>
#include <string.h>

/* How many bytes a log has at most; one more is read, which tells that it is too long. */
#define LOG_BYTES 16777216
#define PIECE_BYTES 65536

static uint8_t bytes[LOG_BYTES + 1], registers[TPM_REGISTERS_BYTES], quote[TPM_BUFFER_BYTES];
static uint64_t replay_room[1024];

/* The name of what a call on a log answered. */
static void print_name(uint32_t answer) {
    uint8_t name[TPM_LOG_NAME_BYTES];
    size_t len = tpm_log_answer_name(answer, name, sizeof name);
    printf("%.*s", (int)len, (const char *)name);
}

static const struct bank {
    const char *name;
    uint16_t hash;
    size_t at, size;
} banks[] = {{"sha1", TPM_ALG_SHA1, 0, 20}, {"sha256", TPM_ALG_SHA256, 480, 32}, {"sha384", TPM_ALG_SHA384, 1248, 48}};

static void print_registers(void) {
    for (const struct bank *bank = banks; bank != banks + 3; bank++)
        for (size_t i = 0; i < 24; i++) {
            printf("%s %u ", bank->name, (unsigned)i);
            for (size_t j = 0; j < bank->size; j++)
                printf("%02x", registers[bank->at + bank->size * i + j]);
            printf("\n");
        }
}

static int print_fault(uint32_t kind, uint32_t at) {
    printf("log ");
    print_name(kind);
    printf(" at %lu\n", (unsigned long)at);
    return 1;
}

static void want_reading(void) {
    if (ferror(stdin)) {
        fprintf(stderr, "log: standard input can't be read\n");
        exit(3);
    }
}

static int check(size_t len, const char *text, const char *name) {
    uint16_t hash = 0;
    uint32_t at = 0;
    size_t count = 0;
    unsigned byte;
    for (const struct bank *bank = banks; bank != banks + 3; bank++)
        if (strcmp(bank->name, name) == 0)
            hash = bank->hash;
    while (count < sizeof quote && sscanf(text + 2 * count, "%2x", &byte) == 1)
        quote[count++] = (uint8_t)byte;
    uint32_t said = tpm_log_check_quote(bytes, len, quote, count, hash, &at);
    if (said == TPM_QUOTE_MATCHES)
        printf("quote matches\n");
    else if (said == TPM_QUOTE_DIFFERS)
        printf("quote differs\n");
    else if (said == TPM_QUOTE_REFUSED)
        printf("refused at %lu\n", (unsigned long)at);
    else if (said == TPM_QUOTE_NO_BANK)
        printf("no bank\n");
    else
        return print_fault(said, at);
    return said != TPM_QUOTE_MATCHES;
}

/* Replays the log in pieces of this size, as they are read. */
static uint32_t replay_in_pieces(size_t size, uint32_t *at) {
    struct tpm_log_replay *replay = (struct tpm_log_replay *)(void *)replay_room;
    if (tpm_log_replay_size() > sizeof replay_room || sizeof(uint64_t) % tpm_log_replay_align() != 0) {
        fprintf(stderr, "log: a replay needs more room\n");
        exit(2);
    }
    tpm_log_replay_init(replay);
    for (;;) {
        size_t len = fread(bytes, 1, size, stdin);
        want_reading();
        if (len == 0)
            return tpm_log_replay_end(replay, registers, at);
        uint32_t kind = tpm_log_replay_feed(replay, bytes, len, at);
        if (kind != TPM_LOG_DONE)
            return kind;
    }
}

/* Reads the log as a whole, and says how many bytes it has, as far as they are read. */
static size_t read_whole(void) {
    size_t len = fread(bytes, 1, sizeof bytes, stdin);
    want_reading();
    return len;
}

int main(int argc, char **argv) {
    uint32_t at, kind;
    if (argc == 3)
        return check(read_whole(), argv[1], argv[2]);
    if (argc == 2 && strcmp(argv[1], "whole") == 0) {
        kind = tpm_log_replay(bytes, read_whole(), registers, &at);
    } else {
        char *end = "";
        size_t size = argc == 2 ? (size_t)strtoul(argv[1], &end, 10) : PIECE_BYTES;
        if (argc > 3 || *end != '\0' || size == 0 || size > sizeof bytes) {
            fprintf(stderr,
                    "usage: log [whole | PIECE_BYTES | QUOTE_HEX sha1|sha256|sha384], where a piece has 1 to "
                    "%lu bytes\n",
                    (unsigned long)sizeof bytes);
            return 2;
        }
        kind = replay_in_pieces(size, &at);
    }
    if (kind != TPM_LOG_DONE)
        return print_fault(kind, at);
    print_registers();
    return 0;
}
