/* Whether Secure Boot was on, by a log of a measured boot from standard input, in the banks of these hashes:
 *
 *     secure_boot sha1|sha256|sha384 ..
 *
 * For each there is a line `secure-boot BANK STATE`. Behind a state come `dma-protection disabled` where it was, and
 * where the records of PK, KEK, db, dbx and of each authority are. Otherwise the state is `unknown`, with the first
 * fault and its place. The status is 0 where it was on in each of them.
 */
#include "vinjakwe.h"

#include <stdio.h>
#include <stdlib.h>
#include <string.h>

/* How many bytes a log has at most; one more is read, which tells that it is too long. */
#define LOG_BYTES 16777216

static uint8_t bytes[LOG_BYTES + 1];

/* The name of what a call on a log answered, behind these words, and where that is, if it is somewhere. */
static void print_named(const char *words, uint32_t answer, uint32_t at) {
    uint8_t name[TPM_LOG_NAME_BYTES];
    size_t len = tpm_log_answer_name(answer, name, sizeof name);
    printf("%s%.*s", words, (int)len, (const char *)name);
    if (at != 0 || words[0] != '\0')
        printf(" at %lu", (unsigned long)at);
    printf("\n");
}

static uint16_t hash_of(const char *bank) {
    if (strcmp(bank, "sha1") == 0)
        return TPM_ALG_SHA1;
    if (strcmp(bank, "sha256") == 0)
        return TPM_ALG_SHA256;
    return strcmp(bank, "sha384") == 0 ? TPM_ALG_SHA384 : 0;
}

static void print_place(const char *name, uint32_t at) {
    if (at != 0)
        printf("%s at %lu\n", name, (unsigned long)at);
}

static void print_found(const struct tpm_secure_boot *view, const uint32_t *authorities, size_t count) {
    if (view->dma_protection_disabled)
        printf("dma-protection disabled\n");
    print_place("PK", view->pk);
    print_place("KEK", view->kek);
    print_place("db", view->db);
    print_place("dbx", view->dbx);
    for (size_t i = 0; i < count; i++)
        print_place("authority", authorities[i]);
}

static int tell(const char *bank, size_t len) {
    struct tpm_secure_boot view;
    uint32_t first[2], *authorities = first, at;
    size_t room = sizeof first / sizeof *first, count;
    uint32_t said = tpm_log_secure_boot(bytes, len, hash_of(bank), &view, authorities, room, &count, &at);
    if (said == TPM_SECURE_BOOT_NO_ROOM) {
        room = count;
        authorities = malloc(room * sizeof *authorities);
        if (authorities == NULL) {
            fprintf(stderr, "secure_boot: no memory\n");
            exit(2);
        }
        said = tpm_log_secure_boot(bytes, len, hash_of(bank), &view, authorities, room, &count, &at);
    }
    if (said == TPM_SECURE_BOOT_NO_BANK)
        printf("no bank\n");
    else if (said < TPM_SECURE_BOOT_NO_BANK)
        print_named("log ", said, at);
    else {
        printf("secure-boot %s ", bank);
        if (said >= TPM_SECURE_BOOT_NOT_MEASURED)
            print_named("unknown ", said, at);
        else {
            print_named("", said, 0);
            print_found(&view, authorities, count);
        }
    }
    if (authorities != first)
        free(authorities);
    return said != TPM_SECURE_BOOT_ON;
}

int main(int argc, char **argv) {
    size_t len = fread(bytes, 1, sizeof bytes, stdin);
    int status = 0;
    if (ferror(stdin)) {
        fprintf(stderr, "secure_boot: standard input can't be read\n");
        return 3;
    }
    if (argc < 2) {
        fprintf(stderr, "usage: secure_boot sha1|sha256|sha384 ..\n");
        return 2;
    }
    for (int i = 1; i < argc; i++)
        status |= tell(argv[i], len);
    return status;
}
