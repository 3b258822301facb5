/* A device behind a stream: commands come one after the other on standard input, and their responses go to standard
 * output, as the end of a bridge between a socket and a process. The nonces are from /dev/urandom. With the word
 * `power` in place of `stream` the five bytes `power` between two commands cycle the power, and nothing is answered to
 * them: no command begins like that. An end of input inside a command is a fault, which comes after the answers to the
 * commands before it.
 *
 * With the word `script` it reads a script as `tpmtool run` does: a command a line in hexadecimal, or `power`, which
 * cycles the power. Its nonces are then those of `tpmtool run`: each the number of the command, in 16 bytes, four times
 * over. They repeat at each run, which is fit for tests alone.
 *
 *     device [stream|power|script [OWNER_HEX [GREATEST]]]
 *
 * Its status is 0 where all was answered, 1 for a line of a script that is not hexadecimal, 2 for words that it does
 * not know, and 3 for a fault of reading or writing, or a stream that is broken or ends inside a command.
 */
#include "vinjakwe.h"

#include <ctype.h>
#include <errno.h>
#include <stdio.h>
#include <stdlib.h>
#include <string.h>

/* Room for what the archive of this build needs, which main compares. */
static uint64_t device_room[1024], framer_room[1024];
static uint8_t out[TPM_BUFFER_BYTES], frame[TPM_BUFFER_BYTES], nonce[TPM_NONCE_BYTES];
static FILE *randomness;

static void fail(const char *what) {
    fprintf(stderr, "device: %s\n", what);
    exit(3);
}

static int usage(const char *what) {
    fprintf(stderr, "device: %s\nusage: device [stream|power|script [OWNER_HEX [GREATEST]]]\n", what);
    return 2;
}

/* Writes the bytes of hexadecimal text, at most `most`, and says how many they are in `count`. It answers 0 where the
 * text has another character, an odd number of them or more bytes. */
static int bytes_of(const char *text, uint8_t *bytes, size_t most, size_t *count) {
    size_t len = strlen(text);
    unsigned byte;
    if (len % 2 != 0 || len / 2 > most)
        return 0;
    for (size_t i = 0; i < len; i++)
        if (!isxdigit((unsigned char)text[i]))
            return 0;
    for (size_t i = 0; i < len / 2; i++) {
        if (sscanf(text + 2 * i, "%2x", &byte) != 1)
            return 0;
        bytes[i] = (uint8_t)byte;
    }
    *count = len / 2;
    return 1;
}

static void print_hex(const uint8_t *bytes, size_t count) {
    for (size_t i = 0; i < count; i++)
        printf("%02x", bytes[i]);
    printf("\n");
}

static void count_nonce(uint64_t number) {
    memset(nonce, 0, sizeof nonce);
    for (size_t i = 0; i < TPM_NONCE_BYTES; i++)
        if (i % 16 >= 8)
            nonce[i] = (uint8_t)(number >> (8 * (15 - i % 16)));
}

static int script(struct tpm_device *device) {
    static char line[2 * TPM_BUFFER_BYTES + 3];
    uint64_t number = 0;
    unsigned long place = 0;
    while (fgets(line, sizeof line, stdin)) {
        size_t len;
        place++;
        line[strcspn(line, "\n")] = '\0';
        if (line[0] == '\0' || line[0] == '#')
            continue;
        if (strcmp(line, "power") == 0) {
            tpm_device_power_cycle(device);
            printf("power\n");
            continue;
        }
        if (!bytes_of(line, frame, sizeof frame, &len)) {
            printf("line %lu: not hexadecimal, or more than %u bytes\n", place, (unsigned)sizeof frame);
            return 1;
        }
        count_nonce(++number);
        print_hex(out, tpm_device_execute(device, frame, len, nonce, out, sizeof out));
    }
    if (ferror(stdin))
        fail("standard input can't be read");
    return 0;
}

/* Executes the frame that the framer holds, and writes its response. */
static void answer(struct tpm_device *device, struct tpm_framer *framer) {
    if (fread(nonce, 1, sizeof nonce, randomness) != sizeof nonce)
        fail("no random bytes");
    size_t len = tpm_framer_frame(framer, frame, sizeof frame);
    size_t count = tpm_device_execute(device, frame, len, nonce, out, sizeof out);
    if (fwrite(out, 1, count, stdout) != count || fflush(stdout) != 0)
        fail("standard output can't be written");
    tpm_framer_next(framer);
}

/* Reads the rest of the word `power`, whose first byte was read. */
static void want_power(void) {
    for (const char *rest = "ower"; *rest != '\0'; rest++)
        if (getchar() != *rest)
            fail("neither a command nor the word power");
}

static int stream(struct tpm_device *device, struct tpm_framer *framer, int with_power) {
    int byte, inside = 0;
    if (!(randomness = fopen("/dev/urandom", "rb")))
        fail("there is no /dev/urandom");
    while ((byte = getchar()) != EOF) {
        uint8_t piece = (uint8_t)byte;
        uint32_t status;
        if (with_power && !inside && byte == 'p') {
            want_power();
            tpm_device_power_cycle(device);
            continue;
        }
        tpm_framer_push(framer, &piece, 1, &status);
        if (status == TPM_FRAMER_BROKEN)
            fail("no buffer has the size that was stated");
        inside = status != TPM_FRAMER_READY;
        if (!inside)
            answer(device, framer);
    }
    if (ferror(stdin))
        fail("standard input can't be read");
    if (inside)
        fail("the input ends inside a command");
    return 0;
}

int main(int argc, char **argv) {
    struct tpm_device *device = (struct tpm_device *)(void *)device_room;
    struct tpm_framer *framer = (struct tpm_framer *)(void *)framer_room;
    const char *word = argc > 1 ? argv[1] : "stream";
    uint8_t owner[TPM_OWNER_BYTES];
    size_t owner_len = 0;
    uint64_t greatest = 0;
    char *end = "";
    if (argc > 4 || (strcmp(word, "stream") != 0 && strcmp(word, "power") != 0 && strcmp(word, "script") != 0))
        return usage("these words are unknown");
    if (argc > 2 && !bytes_of(argv[2], owner, sizeof owner, &owner_len))
        return usage("the owner's value is no hexadecimal, or too long");
    errno = 0;
    if (argc > 3)
        greatest = strtoull(argv[3], &end, 10);
    if (argc > 3 && (!isdigit((unsigned char)argv[3][0]) || *end != '\0' || errno != 0))
        return usage("the greatest value is no number of 64 bits");
    if (tpm_device_size() > sizeof device_room || sizeof(uint64_t) % tpm_device_align() != 0)
        fail("a device needs more room");
    if (tpm_framer_size() > sizeof framer_room || sizeof(uint64_t) % tpm_framer_align() != 0)
        fail("a framer needs more room");
    if (!tpm_device_init(device, owner, owner_len, greatest))
        fail("the owner's value is too long");
    tpm_framer_init(framer);
    return strcmp(word, "script") == 0 ? script(device) : stream(device, framer, strcmp(word, "power") == 0);
}
