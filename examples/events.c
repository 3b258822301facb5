/* The records of a log of a measured boot from standard input, and behind them its fault, if it has one:
 *
 *     events             REGISTER TYPE AT+LENGTH HASH:AT+LENGTH[*] ..
 *     events bytes       REGISTER TYPE DATA HASH:DIGEST[*] ..
 *     events variables   REGISTER TYPE GUID NAME VALUE, where each lies, of the records whose data are a variable
 *     events texts       REGISTER NAME [text TEXT], the type by its name where it has one, and the data where they are
 *                        text
 *     events images      REGISTER NAME image address=A length=N link=A, of the records whose data are an image, and
 *                        file=TEXT, where its device path has the path name of a file
 *     events measured    REGISTER TYPE HASH:PART .., which part of the data the digest of each bank is of
 *
 * A type and the numbers of the hashes are hexadecimal; first come the event's data, or where they are, and then each
 * digest. A star says that the digest is the hash of the data: firmware measures some events by the hash of something
 * else, as of a program.
 */
#include "vinjakwe.h"

#include <stdio.h>
#include <string.h>

/* How many bytes a log has at most; one more is read, which tells that it is too long. */
#define LOG_BYTES 16777216

static uint8_t bytes[LOG_BYTES + 1];

/* The name of what a call on a log answered. */
static void print_name(uint32_t answer) {
    uint8_t name[TPM_LOG_NAME_BYTES];
    size_t len = tpm_log_answer_name(answer, name, sizeof name);
    printf("%.*s", (int)len, (const char *)name);
}

static void print_part(struct tpm_part part, int whole) {
    if (!whole)
        printf("%lu+%lu", (unsigned long)part.at, (unsigned long)part.len);
    else if (part.len == 0)
        printf("-");
    for (size_t i = 0; whole && i < part.len; i++)
        printf("%02x", bytes[part.at + i]);
}

static void print_event(const struct tpm_log_event *event, int whole) {
    printf("%lu %08lx ", (unsigned long)event->pcr, (unsigned long)event->type);
    print_part(event->data, whole);
    for (size_t i = 0; i < event->digest_count; i++) {
        printf(" %04x:", (unsigned)event->digests[i].hash);
        print_part(event->digests[i].digest, whole);
        printf("%s", event->digests[i].hashed ? "*" : "");
    }
    printf("\n");
}

/* The variable that the record's data are, if they are one. */
static void print_variable(const struct tpm_log_event *event) {
    struct tpm_variable it;
    struct tpm_part *const parts[] = {&it.guid, &it.name, &it.value};
    if (tpm_log_variable(event->type, bytes + event->data.at, event->data.len, &it) != TPM_VARIABLE)
        return;
    printf("%lu %08lx", (unsigned long)event->pcr, (unsigned long)event->type);
    for (size_t i = 0; i < 3; i++) {
        parts[i]->at += event->data.at;
        printf(" ");
        print_part(*parts[i], 0);
    }
    printf("\n");
}

/* A unit of a text, which is escaped as in JSON where it is no printable character of ASCII. */
static void print_unit(int unit) {
    if (unit == '"' || unit == '\\')
        printf("\\%c", unit);
    else if (unit >= 0x20 && unit <= 0x7e)
        printf("%c", unit);
    else
        printf("\\u%04x", (unsigned)unit);
}

/* A character of UTF-8 by its units of UTF-16, and how many bytes it has. */
static size_t print_character(const uint8_t *text) {
    size_t behind = *text < 0x80 ? 0 : *text < 0xe0 ? 1 : *text < 0xf0 ? 2 : 3;
    int number = behind == 0 ? *text : *text & 0x3f >> behind;
    for (size_t i = 1; i <= behind; i++)
        number = number << 6 | (text[i] & 0x3f);
    if (number >= 0x10000) {
        print_unit(0xd7c0 + (number >> 10));
        number = 0xdc00 + (number & 0x3ff);
    }
    print_unit(number);
    return behind + 1;
}

static void print_text(const struct tpm_log_event *event) {
    const uint8_t *data = bytes + event->data.at;
    struct tpm_part text;
    uint32_t said = tpm_log_text(event->type, data, event->data.len, &text);
    if (said == TPM_LOG_DONE)
        return;
    printf(" text ");
    for (size_t i = text.at; said == TPM_TEXT && i < text.at + text.len;)
        i += print_character(data + i);
    for (size_t i = text.at; said == TPM_TEXT_UTF16 && i < text.at + text.len; i += 2)
        print_unit(data[i] | data[i + 1] << 8);
}

/* The record by the name of its type, and the text that its data are, if they are one. */
static void print_names(const struct tpm_log_event *event) {
    uint8_t name[TPM_EVENT_TYPE_BYTES];
    size_t len = tpm_event_type_name(event->type, name, sizeof name);
    printf("%lu ", (unsigned long)event->pcr);
    if (len == 0)
        printf("%08lx", (unsigned long)event->type);
    else
        printf("%.*s", (int)len, (const char *)name);
    print_text(event);
    printf("\n");
}

/* The image that the record's data tell, if they do. */
static void print_image(const struct tpm_log_event *event) {
    uint8_t name[TPM_EVENT_TYPE_BYTES];
    size_t len = tpm_event_type_name(event->type, name, sizeof name);
    struct tpm_image it;
    struct tpm_path_node node;
    if (tpm_log_image(event->type, bytes + event->data.at, event->data.len, &it) != TPM_IMAGE)
        return;
    printf("%lu %.*s image address=0x%llx length=%llu link=0x%llx", (unsigned long)event->pcr, (int)len,
           (const char *)name, (unsigned long long)it.address, (unsigned long long)it.size,
           (unsigned long long)it.link_address);
    while (tpm_log_path_node(bytes + event->data.at + it.path.at, it.path.len, &node) == TPM_PATH_NODE) {
        const uint8_t *value = bytes + event->data.at + it.path.at + node.value.at;
        int is_file = node.type == 4 && node.subtype == 4;
        if (is_file)
            printf(" file=");
        for (size_t i = 0; is_file && i + 1 < node.value.len && (value[i] | value[i + 1]) != 0; i += 2)
            print_unit(value[i] | value[i + 1] << 8);
        it.path.at += node.value.at + node.value.len;
        it.path.len -= node.value.at + node.value.len;
    }
    printf("\n");
}

/* Which part of the data each digest is of. Exactly a digest of all the data is their hash, and else `!` is printed. */
static void print_measured(const struct tpm_log_event *event) {
    static const char *const parts[] = {"data", "variable", "text", "cut", "other"};
    const uint8_t *data = bytes + event->data.at;
    printf("%lu %08lx", (unsigned long)event->pcr, (unsigned long)event->type);
    for (size_t i = 0; i < event->digest_count; i++) {
        const struct tpm_log_digest *it = event->digests + i;
        const uint8_t *digest = bytes + it->digest.at;
        uint8_t hash[TPM_POLICY_BYTES];
        size_t len = tpm_hash(it->hash, data, event->data.len, hash, sizeof hash);
        int same = len == it->digest.len && memcmp(hash, digest, len) == 0;
        uint32_t part = tpm_log_measured(event->type, data, event->data.len, it->hash, digest, it->digest.len);
        if (part != TPM_QUOTE_NO_BANK)
            printf(" %04x:%s%s", (unsigned)it->hash, parts[part - TPM_MEASURED_DATA],
                   same == (part == TPM_MEASURED_DATA) ? "" : "!");
    }
    printf("\n");
}

int main(int argc, char **argv) {
    const char *words = argc == 2 ? argv[1] : "";
    size_t len = fread(bytes, 1, sizeof bytes, stdin);
    struct tpm_log_place place = {0, 0};
    struct tpm_log_event event;
    uint32_t at, said;
    int variables = strcmp(words, "variables") == 0, texts = strcmp(words, "texts") == 0;
    int measured = strcmp(words, "measured") == 0, images = strcmp(words, "images") == 0;
    if (ferror(stdin)) {
        fprintf(stderr, "events: standard input can't be read\n");
        return 3;
    }
    if (argc > 2 || (argc == 2 && !variables && !texts && !images && !measured && strcmp(words, "bytes") != 0)) {
        fprintf(stderr, "usage: events [bytes | variables | texts | images | measured]\n");
        return 2;
    }
    while ((said = tpm_log_event(bytes, len, &place, &event, &at)) == TPM_EVENT) {
        if (variables)
            print_variable(&event);
        else if (texts)
            print_names(&event);
        else if (images)
            print_image(&event);
        else if (measured)
            print_measured(&event);
        else
            print_event(&event, argc == 2);
    }
    if (said == TPM_LOG_DONE)
        return 0;
    printf("log ");
    print_name(said);
    printf(" at %lu\n", (unsigned long)at);
    return 1;
}
