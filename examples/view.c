/* What commands and responses say, by the places of their parts, and commands joined from theirs. It reads lines of
 * standard input, and prints of each what `tpmtool show` or `tpmtool build` prints:
 *
 *     command HEX
 *     reply NAME HEX
 *     build NAME HANDLES SESSIONS PARAMETERS
 *     code HEX                                    the name of a response code, or its number
 *
 * NAME is the command's name in Part 3, and HEX and the parts are hexadecimal, or `-` for no bytes. With the word
 * `first` it prints the first line of each alone, and with `room N` commands are joined in a room of so many bytes.
 *
 *     view [first | room N]
 */
#include "vinjakwe.h"

#include <stdio.h>
#include <stdlib.h>
#include <string.h>

#define LINE_BYTES 65536

static const struct {
    const char *name;
    uint32_t code;
} commands[] = {
    {"NV_UndefineSpace", TPM_CC_NV_UndefineSpace},
    {"NV_DefineSpace", TPM_CC_NV_DefineSpace},
    {"NV_Increment", TPM_CC_NV_Increment},
    {"PCR_Event", TPM_CC_PCR_Event},
    {"PCR_Reset", TPM_CC_PCR_Reset},
    {"Startup", TPM_CC_Startup},
    {"NV_Read", TPM_CC_NV_Read},
    {"FlushContext", TPM_CC_FlushContext},
    {"NV_ReadPublic", TPM_CC_NV_ReadPublic},
    {"PolicyAuthValue", TPM_CC_PolicyAuthValue},
    {"PolicyCommandCode", TPM_CC_PolicyCommandCode},
    {"PolicyOR", TPM_CC_PolicyOR},
    {"StartAuthSession", TPM_CC_StartAuthSession},
    {"PCR_Read", TPM_CC_PCR_Read},
    {"PolicyPCR", TPM_CC_PolicyPCR},
    {"PolicyRestart", TPM_CC_PolicyRestart},
    {"PCR_Extend", TPM_CC_PCR_Extend},
    {"PolicyGetDigest", TPM_CC_PolicyGetDigest},
};

static char line[LINE_BYTES];
static uint8_t bytes[3][LINE_BYTES / 2];
static int first_alone;
static size_t room = TPM_BUFFER_BYTES;

/* The bytes of hexadecimal text, none of `-`, and how many. */
static size_t bytes_of(const char *text, uint8_t *into) {
    size_t count = 0;
    unsigned byte;
    if (strcmp(text, "-") == 0)
        return 0;
    while (text[2 * count] != '\0' && sscanf(text + 2 * count, "%2x", &byte) == 1)
        into[count++] = (uint8_t)byte;
    return count;
}

/* The command of this name, or a number that no command has. */
static uint32_t code_of(const char *name) {
    for (size_t i = 0; i < sizeof commands / sizeof commands[0]; i++)
        if (strcmp(commands[i].name, name) == 0)
            return commands[i].code;
    return 0;
}

static const char *name_of(uint32_t code) {
    for (size_t i = 0; i < sizeof commands / sizeof commands[0]; i++)
        if (commands[i].code == code)
            return commands[i].name;
    return "";
}

/* The bytes of a part, or `-` where there are none. */
static void print_part(const char *what, struct tpm_part part) {
    printf("%s ", what);
    for (size_t i = 0; i < part.len; i++)
        printf("%02x", bytes[0][part.at + i]);
    printf(part.len == 0 ? "-" : "");
}

/* What was answered that is not TPM_DONE. */
static void print_answer(uint32_t answer, const struct tpm_refusal *refusal) {
    if (answer == TPM_REFUSED)
        printf("refused %03x at %u\n", (unsigned)refusal->code, (unsigned)refusal->at);
    else
        printf(answer == TPM_NO_ROOM ? "no room\n" : "no command\n");
}

static void show_command(size_t len) {
    struct tpm_command_areas areas;
    struct tpm_refusal refusal;
    uint32_t answer = tpm_command_cut(bytes[0], len, &areas, &refusal);
    if (answer == TPM_DONE)
        answer = tpm_command_decode(bytes[0], len, &refusal);
    if (answer != TPM_DONE) {
        print_answer(answer, &refusal);
        return;
    }
    printf("command %s size %u\n", name_of(areas.code), (unsigned)areas.size);
    if (first_alone)
        return;
    for (size_t i = 0; i < areas.handle_count; i++)
        printf("handle %u %08x\n", (unsigned)i + 1, (unsigned)areas.handles[i]);
    for (size_t i = 0; i < areas.session_count; i++) {
        printf("session %u %08x ", (unsigned)i + 1, (unsigned)areas.sessions[i].handle);
        print_part("nonce", areas.sessions[i].nonce);
        printf(" attributes %02x ", areas.sessions[i].attributes);
        print_part("hmac", areas.sessions[i].hmac);
        printf("\n");
    }
    print_part("parameters", areas.parameters);
    printf("\n");
}

static void show_response(const char *name, size_t len) {
    struct tpm_response_areas areas;
    struct tpm_refusal refusal;
    uint32_t answer = tpm_response_decode(code_of(name), bytes[0], len, &refusal);
    if (answer == TPM_DONE)
        answer = tpm_response_cut(code_of(name), bytes[0], len, &areas, &refusal);
    if (answer != TPM_DONE) {
        print_answer(answer, &refusal);
        return;
    }
    if (areas.code != TPM_RC_SUCCESS) {
        printf("reply code %03x\n", (unsigned)areas.code);
        return;
    }
    printf("reply %s size %u\n", name, (unsigned)len);
    if (first_alone)
        return;
    if (areas.handle_count > 0)
        printf("handle 1 %08x\n", (unsigned)areas.handle);
    print_part("parameters", areas.parameters);
    printf("\n");
    for (size_t i = 0; i < areas.session_count; i++) {
        printf("session %u ", (unsigned)i + 1);
        print_part("nonce", areas.sessions[i].nonce);
        printf(" attributes %02x ", areas.sessions[i].attributes);
        print_part("hmac", areas.sessions[i].hmac);
        printf("\n");
    }
}

static void build(const char *name, const char *handles, const char *sessions, const char *parameters) {
    static uint8_t out[TPM_BUFFER_BYTES];
    struct tpm_refusal refusal;
    size_t len;
    size_t handles_len = bytes_of(handles, bytes[0]), sessions_len = bytes_of(sessions, bytes[1]),
           parameters_len = bytes_of(parameters, bytes[2]);
    uint32_t answer = tpm_command_build(code_of(name), bytes[0], handles_len, bytes[1], sessions_len, bytes[2],
                                        parameters_len, out, room, &len, &refusal);
    if (answer != TPM_DONE) {
        print_answer(answer, &refusal);
        return;
    }
    for (size_t i = 0; i < len; i++)
        printf("%02x", out[i]);
    printf("\n");
}

static void name_response_code(const char *digits) {
    uint8_t name[TPM_CODE_NAME_BYTES];
    uint32_t code = (uint32_t)strtoul(digits, NULL, 16);
    size_t len = tpm_code_name(code, name, sizeof name);
    if (len > 0)
        printf("%.*s\n", (int)len, (const char *)name);
    else
        printf("%#x\n", (unsigned)code);
}

int main(int argc, char **argv) {
    first_alone = argc > 1 && strcmp(argv[1], "first") == 0;
    if (argc > 2 && strcmp(argv[1], "room") == 0)
        room = strtoul(argv[2], NULL, 10);
    if (room > TPM_BUFFER_BYTES)
        return 2;
    while (fgets(line, sizeof line, stdin)) {
        const char *words[5] = {"", "", "", "", ""};
        char *word = strtok(line, " \n");
        for (size_t i = 0; i < 5 && word; i++, word = strtok(NULL, " \n"))
            words[i] = word;
        if (strcmp(words[0], "command") == 0)
            show_command(bytes_of(words[1], bytes[0]));
        else if (strcmp(words[0], "reply") == 0)
            show_response(words[1], bytes_of(words[2], bytes[0]));
        else if (strcmp(words[0], "build") == 0)
            build(words[1], words[2], words[3], words[4]);
        else if (strcmp(words[0], "code") == 0)
            name_response_code(words[1]);
        else
            return 2;
    }
    return 0;
}
