/* A quote as it was signed, as `tpm2_quote -m` writes it, beside the log of the machine: what it says, and whether it
 * is the one that was asked for. Its signature is verified before, by other means.
 *
 *     attest LOG QUOTE sha1|sha256|sha384 NONCE_HEX REQUIRED
 *     attest --vouched LOG QUOTE sha1|sha256|sha384 NONCE_HEX REQUIRED
 *     attest --allowed LOG QUOTE sha1|sha256|sha384 NONCE_HEX LIST
 *     attest --changed COUNT LOG QUOTE sha1|sha256|sha384 NONCE_HEX REQUIRED
 *     attest --signature FILE
 *
 * REQUIRED is as tpm2-tools write selections, like sha256:0,1,2+sha1:7 or sha256:all, and - where nothing is required.
 * The status is 0 where the quote is the one that was asked for. Any other vouches for nothing: its verdict is told,
 * and no record of the log. With --vouched each record has a line of its register and of each bank in which the quote
 * vouches for a part of it. With --allowed the quote has to select the registers that a list of digests names; it is
 * told of each whether all digests are on the list by which the log extends it, as by `tpmtool check --allow`, and the
 * status is 0 where they are. With --changed the quote is changed at random so often, and what is answered of it is
 * looked at: each part that is told lies in its bytes, and a changed quote is refused or has another verdict or other
 * parts. With --signature the parts of a signature are told, as `tpm2_quote -s` writes it. */
#include "vinjakwe.h"

#include <stdio.h>
#include <stdlib.h>
#include <string.h>

static uint8_t log_bytes[1 << 20], quote[TPM_BUFFER_BYTES], nonce[TPM_BUFFER_BYTES];
static uint8_t required[TPM_SELECTION_BYTES];
static size_t log_len, quote_len, nonce_len, required_len;

/* The name of what a call on a log answered. */
static void print_name(uint32_t answer) {
    uint8_t name[TPM_LOG_NAME_BYTES];
    size_t len = tpm_log_answer_name(answer, name, sizeof name);
    printf("%.*s", (int)len, (const char *)name);
}

static const struct bank {
    const char *name;
    uint16_t hash;
    size_t size;
} banks[] = {{"sha1", TPM_ALG_SHA1, 20}, {"sha256", TPM_ALG_SHA256, 32}, {"sha384", TPM_ALG_SHA384, 48}};

static void usage(void) {
    fprintf(stderr, "attest: LOG QUOTE sha1|sha256|sha384 NONCE_HEX REQUIRED\n");
    exit(2);
}

static const struct bank *bank_named(const char *name, size_t len) {
    for (const struct bank *bank = banks; bank != banks + 3; bank++)
        if (strlen(bank->name) == len && memcmp(bank->name, name, len) == 0)
            return bank;
    return NULL;
}

static const char *bank_name(unsigned hash) {
    for (const struct bank *bank = banks; bank != banks + 3; bank++)
        if (bank->hash == hash)
            return bank->name;
    return "?";
}

static size_t read_file(const char *path, uint8_t *room, size_t size) {
    FILE *file = fopen(path, "rb");
    size_t len = file == NULL ? 0 : fread(room, 1, size, file);
    if (file == NULL || fgetc(file) != EOF) {
        fprintf(stderr, "attest: %s is not read\n", path);
        exit(2);
    }
    fclose(file);
    return len;
}

static size_t read_hex(const char *text, uint8_t *room, size_t size) {
    size_t count = 0;
    unsigned byte;
    while (text[2 * count] != 0) {
        if (count == size || text[2 * count + 1] == 0 || sscanf(text + 2 * count, "%2x", &byte) != 1)
            usage();
        room[count++] = (uint8_t)byte;
    }
    return count;
}

/* The TPML_PCR_SELECTION of a list like sha256:0,1,2+sha1:7, or no bytes of -. */
static size_t read_required(const char *text, uint8_t *room, size_t size) {
    size_t len = tpm_selection((const uint8_t *)text, strlen(text), room, size);
    if (len == 0 && strcmp(text, "-") != 0)
        usage();
    return len;
}

static void print_part(const char *name, struct tpm_part part) {
    printf("%s ", name);
    for (size_t i = 0; i < part.len; i++)
        printf("%02x", quote[part.at + i]);
    printf("\n");
}

/* The registers of each entry of a TPML_PCR_SELECTION, a line each. */
static void print_selections(struct tpm_part part) {
    for (size_t at = part.at + 4; at < part.at + part.len; at += 6) {
        printf("selects %s", bank_name((unsigned)(quote[at] << 8 | quote[at + 1])));
        for (unsigned pcr = 0; pcr < 24; pcr++)
            if (quote[at + 3 + pcr / 8] >> pcr % 8 & 1)
                printf(" %u", pcr);
        printf("\n");
    }
}

static void print_view(const struct tpm_attest *view) {
    print_part("signer", view->signer);
    print_part("nonce", view->nonce);
    printf("clock %llu\n", (unsigned long long)view->clock);
    printf("resets %lu\n", (unsigned long)view->reset_count);
    printf("restarts %lu\n", (unsigned long)view->restart_count);
    printf("safe %s\n", view->safe ? "yes" : "no");
    printf("firmware %016llx\n", (unsigned long long)view->firmware_version);
    print_selections(view->selections);
}

static void print_verdict(uint32_t said, const struct tpm_attest_fault *fault) {
    if (said > TPM_LOG_DONE && said < TPM_ATTEST_DIFFERS)
        printf("log ");
    print_name(said);
    switch (said) {
    case TPM_ATTEST_MATCHES: printf("matches\n"); break;
    case TPM_ATTEST_DIFFERS:
    case TPM_ATTEST_NO_BANK:
    case TPM_ATTEST_NONCE:
    case TPM_ATTEST_EMPTY: printf("\n"); break;
    case TPM_ATTEST_REFUSED:
    case TPM_ATTEST_REQUIREMENT:
        printf(" %04lx at %lu\n", (unsigned long)fault->code, (unsigned long)fault->at);
        break;
    case TPM_ATTEST_LACKS: printf(" %s %lu\n", bank_name(fault->hash), (unsigned long)fault->pcr); break;
    default: printf(" at %lu\n", (unsigned long)fault->at);
    }
}

/* The signature in the room of a quote, by its parts. */
static int show_signature(size_t len) {
    struct tpm_signature it;
    struct tpm_refusal refusal;
    if (tpm_signature_decode(quote, len, &it, &refusal) != TPM_DONE) {
        printf("refused %03lx at %lu\n", (unsigned long)refusal.code, (unsigned long)refusal.at);
        return 1;
    }
    printf("scheme %04x\nhash %s\n", (unsigned)it.scheme, bank_name(it.hash));
    if (it.scheme != TPM_ALG_ECDSA)
        print_part("sig", it.sig);
    else {
        print_part("r", it.r);
        print_part("s", it.s);
    }
    return 0;
}

static uint32_t check(const uint8_t *bytes, size_t len, uint16_t hash, struct tpm_attest_fault *fault) {
    return tpm_log_check_attest(log_bytes, log_len, bytes, len, hash, nonce, nonce_len, required, required_len, fault);
}

/* Of each record what the quote vouches for, which is the one that was asked for. */
static int show_vouched(void) {
    static const char *const parts[] = {"data", "variable", "text", "cut", "digest"};
    struct tpm_attest view;
    struct tpm_refusal refusal;
    struct tpm_log_place place = {0, 0};
    struct tpm_log_event event;
    uint32_t at;
    if (tpm_attest_decode(quote, quote_len, &view, &refusal) != TPM_DONE)
        return 1;
    while (tpm_log_event(log_bytes, log_len, &place, &event, &at) == TPM_EVENT) {
        printf("%lu", (unsigned long)event.pcr);
        for (size_t i = 0; i < event.digest_count; i++) {
            const struct tpm_log_digest *it = event.digests + i;
            uint32_t part = tpm_log_vouched(quote + view.selections.at, view.selections.len, event.pcr, event.type,
                                            log_bytes + event.data.at, event.data.len, it->hash,
                                            log_bytes + it->digest.at, it->digest.len);
            if (part >= TPM_MEASURED_DATA)
                printf(" %s:%s", bank_name(it->hash), parts[part - TPM_MEASURED_DATA]);
        }
        printf("\n");
    }
    return 0;
}

/* ---- a list of digests */

static struct tpm_allowed list[1 << 12];
static size_t list_len;

/* Bytes of a line of the list. */
struct words {
    const char *text;
    size_t len;
};

/* Cuts the first word off, with the space behind it. */
static struct words cut(struct words *line) {
    struct words first = {line->text, 0};
    while (first.len < line->len && first.text[first.len] != ' ')
        first.len++;
    line->text += first.len + (first.len < line->len);
    line->len -= first.len + (first.len < line->len);
    return first;
}

/* The register whose number in decimal this is, or 24. */
static unsigned register_named(struct words word) {
    char name[3];
    unsigned pcr = 0;
    while (pcr < 24 && ((size_t)sprintf(name, "%u", pcr) != word.len || memcmp(name, word.text, word.len) != 0))
        pcr++;
    return pcr;
}

/* Reads a line as `sha256 4 DIGEST`, behind which stand any words; # begins a comment. */
static void read_line(struct words line) {
    const char *comment = memchr(line.text, '#', line.len);
    struct words name, number, digits;
    const struct bank *bank;
    struct tpm_allowed *entry;
    unsigned pcr;
    if (comment != NULL)
        line.len = (size_t)(comment - line.text);
    if (strspn(line.text, " ") >= line.len)
        return;
    name = cut(&line);
    number = cut(&line);
    digits = cut(&line);
    bank = bank_named(name.text, name.len);
    pcr = register_named(number);
    if (bank == NULL || pcr > 23 || digits.len != 2 * bank->size || list_len == sizeof list / sizeof *list)
        usage();
    entry = list + list_len++;
    entry->pcr = pcr;
    entry->hash = bank->hash;
    for (size_t i = 0; i < bank->size; i++) {
        char digit[3] = {digits.text[2 * i], digits.text[2 * i + 1], 0};
        if (strspn(digit, "0123456789abcdefABCDEF") != 2)
            usage();
        entry->digest[i] = (uint8_t)strtoul(digit, NULL, 16);
    }
}

/* Reads a list's lines, however long. */
static void read_list(const char *path) {
    static char text[1 << 20];
    struct words line = {text, 0};
    size_t len = read_file(path, (uint8_t *)text, sizeof text - 1);
    for (size_t at = 0; at < len; at += line.len + 1) {
        const char *end = memchr(text + at, '\n', len - at);
        line.text = text + at;
        line.len = end == NULL ? len - at : (size_t)(end - line.text);
        read_line(line);
    }
}

/* The registers that the list names, as a TPML_PCR_SELECTION with an entry for each bank. */
static size_t registers_of_list(uint8_t *room) {
    uint8_t *entry = room + 4;
    memset(room, 0, TPM_SELECTION_BYTES);
    room[3] = 3;
    for (const struct bank *bank = banks; bank != banks + 3; bank++, entry += 6) {
        entry[0] = (uint8_t)(bank->hash >> 8);
        entry[1] = (uint8_t)bank->hash;
        entry[2] = 3;
        for (size_t i = 0; i < list_len; i++)
            if (list[i].hash == bank->hash)
                entry[3 + list[i].pcr / 8] |= (uint8_t)(1 << list[i].pcr % 8);
    }
    return TPM_SELECTION_BYTES;
}

static void print_unknown(const struct tpm_log_event *event, const struct tpm_log_digest *it) {
    uint8_t name[TPM_EVENT_TYPE_BYTES];
    size_t len = tpm_event_type_name(event->type, name, sizeof name);
    printf("unknown %s %lu at %lu ", bank_name(it->hash), (unsigned long)event->pcr, (unsigned long)event->at);
    for (size_t i = 0; i < it->digest.len; i++)
        printf("%02x", log_bytes[it->digest.at + i]);
    if (len == 0)
        printf(" %08lx\n", (unsigned long)event->type);
    else
        printf(" %.*s\n", (int)len, (const char *)name);
}

/* Each digest by which the log extends this register of the bank and that isn't on the list, or that there is none. */
static int show_unknown(const struct bank *bank, uint32_t pcr) {
    struct tpm_log_place place = {0, 0};
    struct tpm_log_event event;
    int wrong = 0;
    uint32_t at, said;
    while ((said = tpm_log_event(log_bytes, log_len, &place, &event, &at)) == TPM_EVENT)
        for (size_t i = 0; i < event.digest_count; i++) {
            const struct tpm_log_digest *it = event.digests + i;
            if (event.pcr == pcr && it->hash == bank->hash &&
                tpm_log_allowed(list, list_len, pcr, event.type, it->hash, log_bytes + it->digest.at,
                                it->digest.len) == TPM_NOT_ALLOWED) {
                print_unknown(&event, it);
                wrong = 1;
            }
        }
    if (!wrong && said == TPM_LOG_DONE)
        printf("allowed %s %lu\n", bank->name, (unsigned long)pcr);
    return wrong || said != TPM_LOG_DONE;
}

/* The same of each register that the list names, all of which the quote that was asked for selects: no bytes are no
 * digest of any bank, so that they are never on the list. */
static int show_allowed(void) {
    int wrong = list_len == 0;
    if (list_len == 0)
        printf("no register\n");
    for (const struct bank *bank = banks; bank != banks + 3; bank++)
        for (uint32_t pcr = 0; pcr < 24; pcr++)
            if (tpm_log_allowed(list, list_len, pcr, 0, bank->hash, log_bytes, 0) == TPM_NOT_ALLOWED)
                wrong |= show_unknown(bank, pcr);
    return wrong;
}

/* ---- changed quotes */

static uint64_t dice = 0x9e3779b97f4a7c15;

static uint32_t roll(uint32_t sides) {
    dice ^= dice << 13;
    dice ^= dice >> 7;
    dice ^= dice << 17;
    return (uint32_t)((dice >> 32) % sides);
}

static int lies_in(struct tpm_part part, size_t len) {
    return part.at <= len && part.len <= len - part.at;
}

/* The quote with a byte or two changed, cut, or with a byte more; in room that is exactly as long. */
static uint8_t *changed(size_t *len) {
    uint8_t *bytes;
    *len = quote_len;
    if (roll(4) == 0)
        *len = roll((uint32_t)quote_len);
    else if (roll(8) == 0)
        *len = quote_len + 1;
    bytes = malloc(*len + (*len == 0));
    if (bytes == NULL)
        exit(2);
    bytes[0] = 0;
    memcpy(bytes, quote, *len < quote_len ? *len : quote_len);
    if (*len > quote_len)
        bytes[quote_len] = (uint8_t)roll(256);
    for (uint32_t count = roll(3); count > 0 && *len > 0; count--)
        bytes[roll((uint32_t)*len)] ^= (uint8_t)(1 + roll(255));
    return bytes;
}

static int try_changed(unsigned long count, uint16_t hash) {
    unsigned long answers[TPM_ATTEST_REQUIREMENT + 1] = {0};
    while (count-- > 0) {
        size_t len;
        uint8_t *bytes = changed(&len);
        struct tpm_attest view;
        struct tpm_refusal refusal = {0, 0};
        struct tpm_attest_fault fault = {0, 0, 0, 0};
        uint32_t decoded = tpm_attest_decode(bytes, len, &view, &refusal);
        uint32_t said = check(bytes, len, hash, &fault);
        int same = len == quote_len && memcmp(bytes, quote, len) == 0;
        int whole = decoded == TPM_DONE && lies_in(view.signer, len) && lies_in(view.nonce, len) &&
                    lies_in(view.selections, len) && lies_in(view.digest, len) &&
                    view.digest.at + view.digest.len == len;
        int refused = decoded == TPM_REFUSED && refusal.at <= len && said == TPM_ATTEST_REFUSED &&
                      fault.code == refusal.code && fault.at == refusal.at;
        if ((!whole && !refused) || (whole && said == TPM_ATTEST_REFUSED) || (same && said != TPM_ATTEST_MATCHES) ||
            said > TPM_ATTEST_REQUIREMENT) {
            printf("a changed quote of %lu bytes has the answers %lu and %lu\n", (unsigned long)len,
                   (unsigned long)decoded, (unsigned long)said);
            return 1;
        }
        answers[said]++;
        free(bytes);
    }
    fprintf(stderr, "matches %lu, differs %lu, refused %lu, nonce %lu, lacks %lu, empty %lu\n",
            answers[TPM_ATTEST_MATCHES], answers[TPM_ATTEST_DIFFERS], answers[TPM_ATTEST_REFUSED],
            answers[TPM_ATTEST_NONCE], answers[TPM_ATTEST_LACKS], answers[TPM_ATTEST_EMPTY]);
    return 0;
}

int main(int argc, char **argv) {
    struct tpm_attest view;
    struct tpm_refusal refusal;
    struct tpm_attest_fault fault = {0, 0, 0, 0};
    const char *task = argc > 1 && strncmp(argv[1], "--", 2) == 0 ? argv[1] : "";
    int vouched = strcmp(task, "--vouched") == 0, allowed = strcmp(task, "--allowed") == 0;
    unsigned long count = 0;
    const struct bank *bank;
    uint32_t said;
    if (argc == 3 && strcmp(task, "--signature") == 0)
        return show_signature(read_file(argv[2], quote, sizeof quote));
    if (argc > 2 && strcmp(task, "--changed") == 0) {
        count = strtoul(argv[2], NULL, 10);
        argc -= 2;
        argv += 2;
    } else if (vouched || allowed) {
        argc--;
        argv++;
    }
    if (argc != 6)
        usage();
    log_len = read_file(argv[1], log_bytes, sizeof log_bytes);
    quote_len = read_file(argv[2], quote, sizeof quote);
    bank = bank_named(argv[3], strlen(argv[3]));
    nonce_len = read_hex(argv[4], nonce, sizeof nonce);
    if (bank == NULL)
        usage();
    if (allowed) {
        read_list(argv[5]);
        required_len = registers_of_list(required);
    } else
        required_len = read_required(argv[5], required, sizeof required);
    if (count > 0)
        return try_changed(count, bank->hash);
    said = check(quote, quote_len, bank->hash, &fault);
    if (said == TPM_ATTEST_MATCHES && vouched)
        return show_vouched();
    if (said == TPM_ATTEST_MATCHES && allowed)
        return show_allowed();
    if (!vouched && !allowed && tpm_attest_decode(quote, quote_len, &view, &refusal) == TPM_DONE)
        print_view(&view);
    print_verdict(said, &fault);
    return said != TPM_ATTEST_MATCHES;
}
