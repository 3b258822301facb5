// Times the library beside libtpms, libtss2-esys, libtss2-sys and libtss2-mu, in one process: both ends of a session, a
// device alone, and commands that are decoded and encoded. Beside each peer's row stands the library's own.
#include "timing.h"

#include <libtpms/tpm_error.h>
#include <libtpms/tpm_library.h>
#include <tss2/tss2_esys.h>
#include <tss2/tss2_mu.h>
#include <tss2/tss2_sys.h>

#include "buffers.h"
#include "vinjakwe.h" // crates/tpm_c

// ---- the library (crates/tpm_bench)

uint32_t tpm_bench_decode_command(const uint8_t *bytes, size_t len);
uint32_t tpm_bench_decode_pcr_read_reply(const uint8_t *bytes, size_t len);
size_t tpm_bench_encode_command(const uint8_t *bytes, size_t len, uint32_t times, uint8_t *out, size_t out_len);
uint32_t tpm_bench_both_ends(uint32_t times);

// ---- devices

enum { HERE, LIBTPMS, DEVICES };
static const uint8_t *reply; // the last one, which stays until the next command
static size_t reply_len;

static uint8_t our_reply[TPM_BUFFER_BYTES], our_nonce[TPM_NONCE_BYTES];
static max_align_t our_room[1024];

static void transmit_here(const uint8_t *command, size_t len) {
    (*(uint64_t *)our_nonce)++;
    reply_len = tpm_device_execute((struct tpm_device *)our_room, command, len, our_nonce, our_reply, sizeof our_reply);
    reply = our_reply;
}

static void transmit_libtpms(const uint8_t *command, size_t len) {
    static unsigned char *bytes;
    static uint32_t room;
    uint32_t count = 0;
    want(TPMLIB_Process(&bytes, &count, &room, (unsigned char *)command, (uint32_t)len) == TPM_SUCCESS,
         "libtpms answers nothing");
    reply = bytes, reply_len = count;
}

static void (*const transmit[DEVICES])(const uint8_t *, size_t) = {transmit_here, transmit_libtpms};

static int was_done(void) { return reply_len >= 10 && memcmp(reply + 6, "\0\0\0\0", 4) == 0; }

// libtpms stores its state here when it starts, and loads it again: the banks of its registers are part of it.
static struct {
    unsigned char bytes[1 << 16];
    uint32_t len;
} state;

static TPM_RESULT store_init(void) { return TPM_SUCCESS; }

static TPM_RESULT store_load(unsigned char **data, uint32_t *len, uint32_t tpm, const char *name) {
    (void)tpm;
    if (strcmp(name, "permall") != 0 || state.len == 0)
        return TPM_RETRY;
    want((*data = malloc(state.len)) != NULL, "out of memory");
    memcpy(*data, state.bytes, *len = state.len);
    return TPM_SUCCESS;
}

static TPM_RESULT store_store(const unsigned char *data, uint32_t len, uint32_t tpm, const char *name) {
    (void)tpm;
    if (strcmp(name, "permall") == 0) {
        want(len <= sizeof state.bytes, "the state of libtpms");
        memcpy(state.bytes, data, state.len = len);
    }
    return TPM_SUCCESS;
}

static TPM_RESULT store_delete(uint32_t tpm, const char *name, TPM_BOOL must) {
    return (void)tpm, (void)name, (void)must, TPM_SUCCESS;
}
static TPM_RESULT locality(TPM_MODIFIER_INDICATOR *at, uint32_t tpm) { return (void)tpm, *at = 0, TPM_SUCCESS; }
static TPM_RESULT presence(TPM_BOOL *is, uint32_t tpm) { return (void)tpm, *is = 0, TPM_SUCCESS; }

static void start_devices(void) {
    static struct libtpms_callbacks callbacks = {sizeof callbacks, store_init, store_load, store_store,
                                                 store_delete,     store_init, locality,   presence};
    static const uint8_t startup[] = {0x80, 0x01, 0, 0, 0, 12, 0, 0, 0x01, 0x44, 0, 0};
    want(tpm_device_size() <= sizeof our_room && tpm_device_align() <= _Alignof(max_align_t), "the room of a device");
    want(tpm_device_init((struct tpm_device *)our_room, our_nonce, 0, 0) == 1, "a device");
    want(TPMLIB_ChooseTPMVersion(TPMLIB_TPM_VERSION_2) == TPM_SUCCESS &&
             TPMLIB_RegisterCallbacks(&callbacks) == TPM_SUCCESS && TPMLIB_MainInit() == TPM_SUCCESS,
         "libtpms does not start");
    for (int i = 0; i < DEVICES; i++) {
        transmit[i](startup, sizeof startup);
        want(was_done(), "TPM2_Startup");
    }
}

// ---- the caller here, through C

static max_align_t caller_room[DEVICES][1024];
static uint64_t caller_nonce[NONCE / sizeof(uint64_t)];

static struct tpm_caller *caller(size_t device) { return (struct tpm_caller *)caller_room[device]; }

static void start_here(size_t device) {
    static const uint8_t none[1];
    const struct buffer *command = &buffers[START_AUTH_SESSION];
    want(tpm_caller_size() <= sizeof caller_room[device] && tpm_caller_align() <= _Alignof(max_align_t),
         "the room of a caller");
    tpm_caller_init(caller(device));
    transmit[device](command->bytes, command->len);
    want(tpm_caller_start(caller(device), command->bytes, command->len, reply, reply_len, none, 0) == 1,
         "the library's session");
}

static size_t extend_by_us(size_t device, uint8_t *out) {
    static const uint8_t register_16[] = {0, 0, 0, 16};
    caller_nonce[0]++;
    const struct buffer *plain = &buffers[PCR_EXTEND_PLAIN];
    size_t len = tpm_caller_seal(caller(device), plain->bytes, plain->len, register_16, 4, register_16, 0, register_16,
                                 0, (const uint8_t *)caller_nonce, NONCE, 1, out, TPM_BUFFER_BYTES);
    transmit[device](out, len);
    return tpm_caller_open(caller(device), reply, reply_len) == TPM_CALLER_OPENED;
}

// The library at both ends.
static size_t extend_here(size_t argument, uint8_t *out) { return (void)argument, extend_by_us(HERE, out); }

static size_t both_ends(size_t argument, uint8_t *out) {
    (void)argument, (void)out;
    return tpm_bench_both_ends(TIMES) == TIMES;
}

// ---- a caller by libcrypto, which hashes its key once (RFC 2104, 4)

struct session {
    SHA256_CTX inner, outer; // behind the key's block
    struct buffer command;   // PCR_Extend in this session
    uint8_t nonce_tpm[NONCE];
};
static struct session sessions[DEVICES];

// Where the parts of PCR_Extend in a session lie, and those of its reply (Part 1, "Command/Response Structure").
enum { AT_CODE = 6, AT_HANDLE = 18, AT_NONCE = 24, AT_ATTRIBUTES = 56, AT_HMAC = 59, AT_PARAMETERS = 91 };
enum { REPLY_NONCE = 16, REPLY_ATTRIBUTES = 48, REPLY_HMAC = 51, REPLY = 83 };

static void key_hashes(struct session *s, const uint8_t *hmac_key, size_t len) {
    uint8_t block[SHA256_CBLOCK];
    for (int outer = 0; outer < 2; outer++) {
        SHA256_CTX *hash = outer ? &s->outer : &s->inner;
        memset(block, outer ? 0x5C : 0x36, sizeof block);
        for (size_t i = 0; i < len; i++)
            block[i] ^= hmac_key[i];
        want(SHA256_Init(hash) && SHA256_Update(hash, block, sizeof block), "libcrypto hashes nothing");
    }
}

// The HMAC of a hash, the newer nonce, the older one and the attributes.
static void session_mac(const struct session *s, const uint8_t *hash, const uint8_t *newer, const uint8_t *older,
                        const uint8_t *attributes, uint8_t *mac) {
    SHA256_CTX inner = s->inner, outer = s->outer;
    SHA256_Update(&inner, hash, SHA256_DIGEST_LENGTH);
    SHA256_Update(&inner, newer, NONCE);
    SHA256_Update(&inner, older, NONCE);
    SHA256_Update(&inner, attributes, 1);
    SHA256_Final(mac, &inner);
    SHA256_Update(&outer, mac, SHA256_DIGEST_LENGTH);
    SHA256_Final(mac, &outer);
}

// The session key is KDFa of the owner's value, which has no bytes (Part 1, "Session Key Creation").
static void start_libcrypto(size_t device) {
    struct session *s = &sessions[device];
    const struct buffer *command = &buffers[START_AUTH_SESSION];
    uint8_t text[4 + 4 + 2 * NONCE + 4] = {0, 0, 0, 1, 'A', 'T', 'H', 0}, session_key[SHA256_DIGEST_LENGTH];
    unsigned len = 0;
    transmit[device](command->bytes, command->len);
    want(was_done() && reply_len == 16 + NONCE, "a session of libcrypto's caller");
    memcpy(s->nonce_tpm, reply + 16, NONCE);
    memcpy(text + 8, s->nonce_tpm, NONCE);
    memcpy(text + 8 + NONCE, command->bytes + 20, NONCE);
    text[sizeof text - 2] = 1; // 256 bits
    want(HMAC(EVP_sha256(), "", 0, text, sizeof text, session_key, &len) != NULL && len == sizeof session_key, "KDFa");
    key_hashes(s, session_key, sizeof session_key);
    s->command = buffers[PCR_EXTEND_SIGNED];
    memcpy(s->command.bytes + AT_HANDLE, reply + 10, 4);
}

static size_t extend_by_libcrypto(size_t device, uint8_t *out) {
    static const uint8_t no_code[4];
    struct session *s = &sessions[device];
    uint8_t *command = s->command.bytes, *nonce = command + AT_NONCE;
    SHA256_CTX hash;
    (void)out;
    nonce[0] += ++nonce[1] == 0;
    SHA256_Init(&hash); // cpHash: the code, the Name of the register, which is its handle, and the parameters
    SHA256_Update(&hash, command + AT_CODE, 8);
    SHA256_Update(&hash, command + AT_PARAMETERS, EXTEND_PARAMETERS);
    SHA256_Final(command + AT_HMAC, &hash);
    session_mac(s, command + AT_HMAC, nonce, s->nonce_tpm, command + AT_ATTRIBUTES, command + AT_HMAC);
    transmit[device](command, s->command.len);
    if (!was_done() || reply_len != REPLY)
        return 0;
    uint8_t mac[SHA256_DIGEST_LENGTH];
    SHA256_Init(&hash); // rpHash: the response code and the command's
    SHA256_Update(&hash, no_code, 4);
    SHA256_Update(&hash, command + AT_CODE, 4);
    SHA256_Final(mac, &hash);
    session_mac(s, mac, reply + REPLY_NONCE, nonce, reply + REPLY_ATTRIBUTES, mac);
    memcpy(s->nonce_tpm, reply + REPLY_NONCE, NONCE);
    return CRYPTO_memcmp(mac, reply + REPLY_HMAC, sizeof mac) == 0;
}

// ---- libtss2-esys, over a device in this process

struct tcti {
    TSS2_TCTI_CONTEXT_COMMON_V1 common;
    size_t device;
};
static struct tcti tctis[DEVICES];
static ESYS_CONTEXT *esys[DEVICES];
static ESYS_TR esys_session[DEVICES];
static TPML_DIGEST_VALUES two_digests;

static TSS2_RC tcti_transmit(TSS2_TCTI_CONTEXT *context, size_t len, const uint8_t *command) {
    transmit[((struct tcti *)context)->device](command, len);
    return TSS2_RC_SUCCESS;
}

static TSS2_RC tcti_receive(TSS2_TCTI_CONTEXT *context, size_t *len, uint8_t *response, int32_t timeout) {
    (void)context, (void)timeout;
    if (response != NULL)
        memcpy(response, reply, reply_len);
    *len = reply_len;
    return TSS2_RC_SUCCESS;
}

static TSS2_TCTI_CONTEXT *tcti_of(size_t device) {
    tctis[device] =
        (struct tcti){{.magic = 1, .version = 1, .transmit = tcti_transmit, .receive = tcti_receive}, device};
    return (TSS2_TCTI_CONTEXT *)&tctis[device];
}

static void start_esys(size_t device) {
    TPMT_SYM_DEF none = {.algorithm = TPM2_ALG_NULL};
    want(Esys_Initialize(&esys[device], tcti_of(device), NULL) == TSS2_RC_SUCCESS, "libtss2-esys does not start");
    want(Esys_StartAuthSession(esys[device], ESYS_TR_NONE, ESYS_TR_RH_OWNER, ESYS_TR_NONE, ESYS_TR_NONE, ESYS_TR_NONE,
                               NULL, TPM2_SE_HMAC, &none, TPM2_ALG_SHA256, &esys_session[device]) == TSS2_RC_SUCCESS &&
             Esys_TRSess_SetAttributes(esys[device], esys_session[device], TPMA_SESSION_CONTINUESESSION, 0xFF) ==
                 TSS2_RC_SUCCESS,
         "a session of libtss2-esys");
}

static size_t extend_by_esys(size_t device, uint8_t *out) {
    (void)out;
    return Esys_PCR_Extend(esys[device], ESYS_TR_PCR16, esys_session[device], ESYS_TR_NONE, ESYS_TR_NONE,
                           &two_digests) == TSS2_RC_SUCCESS;
}

// ---- a device alone

static size_t execute(size_t device, size_t which, uint8_t *out) {
    for (int i = 0; i < TIMES; i++)
        transmit[device](buffers[which].bytes, buffers[which].len);
    memcpy(out, reply, reply_len);
    return was_done() ? reply_len : 0;
}

static size_t execute_here(size_t which, uint8_t *out) { return execute(HERE, which, out); }
static size_t execute_libtpms(size_t which, uint8_t *out) { return execute(LIBTPMS, which, out); }

// ---- commands by libtss2-mu and libtss2-sys

struct command {
    TPM2_ST tag;
    TPM2_CC code;
    UINT32 size, auth_size, handles[2];
    TPMS_AUTH_COMMAND auth;
    TPML_DIGEST_VALUES digests;
    UINT16 count, offset, hash;
    TPM2B_NONCE nonce;
    TPM2B_ENCRYPTED_SECRET salt;
    UINT8 type;
    TPMT_SYM_DEF symmetric;
};
static struct command commands[BUFFERS];
static TSS2_SYS_CONTEXT *sys;

static TSS2_RC unmarshal(size_t which, struct command *c) {
    const uint8_t *bytes = buffers[which].bytes;
    size_t len = buffers[which].len, at = 0;
    TSS2_RC rc = Tss2_MU_TPM2_ST_Unmarshal(bytes, len, &at, &c->tag);
    rc |= Tss2_MU_UINT32_Unmarshal(bytes, len, &at, &c->size);
    rc |= Tss2_MU_TPM2_CC_Unmarshal(bytes, len, &at, &c->code);
    rc |= Tss2_MU_UINT32_Unmarshal(bytes, len, &at, &c->handles[0]);
    if (which != PCR_EXTEND)
        rc |= Tss2_MU_UINT32_Unmarshal(bytes, len, &at, &c->handles[1]);
    if (which != START_AUTH_SESSION) {
        rc |= Tss2_MU_UINT32_Unmarshal(bytes, len, &at, &c->auth_size);
        rc |= Tss2_MU_TPMS_AUTH_COMMAND_Unmarshal(bytes, len, &at, &c->auth);
    }
    if (which == PCR_EXTEND) {
        rc |= Tss2_MU_TPML_DIGEST_VALUES_Unmarshal(bytes, len, &at, &c->digests);
    } else if (which == NV_READ) {
        rc |= Tss2_MU_UINT16_Unmarshal(bytes, len, &at, &c->count);
        rc |= Tss2_MU_UINT16_Unmarshal(bytes, len, &at, &c->offset);
    } else {
        rc |= Tss2_MU_TPM2B_NONCE_Unmarshal(bytes, len, &at, &c->nonce);
        rc |= Tss2_MU_TPM2B_ENCRYPTED_SECRET_Unmarshal(bytes, len, &at, &c->salt);
        rc |= Tss2_MU_UINT8_Unmarshal(bytes, len, &at, &c->type);
        rc |= Tss2_MU_TPMT_SYM_DEF_Unmarshal(bytes, len, &at, &c->symmetric);
        rc |= Tss2_MU_UINT16_Unmarshal(bytes, len, &at, &c->hash);
    }
    return rc != TSS2_RC_SUCCESS || at != len;
}

static size_t marshal(size_t which, uint8_t *out) {
    const struct command *c = &commands[which];
    size_t at = 0;
    TSS2_RC rc = Tss2_MU_TPM2_ST_Marshal(c->tag, out, OUT, &at);
    rc |= Tss2_MU_UINT32_Marshal(c->size, out, OUT, &at);
    rc |= Tss2_MU_TPM2_CC_Marshal(c->code, out, OUT, &at);
    rc |= Tss2_MU_UINT32_Marshal(c->handles[0], out, OUT, &at);
    if (which != PCR_EXTEND)
        rc |= Tss2_MU_UINT32_Marshal(c->handles[1], out, OUT, &at);
    if (which != START_AUTH_SESSION) {
        rc |= Tss2_MU_UINT32_Marshal(c->auth_size, out, OUT, &at);
        rc |= Tss2_MU_TPMS_AUTH_COMMAND_Marshal(&c->auth, out, OUT, &at);
    }
    if (which == PCR_EXTEND) {
        rc |= Tss2_MU_TPML_DIGEST_VALUES_Marshal(&c->digests, out, OUT, &at);
    } else if (which == NV_READ) {
        rc |= Tss2_MU_UINT16_Marshal(c->count, out, OUT, &at);
        rc |= Tss2_MU_UINT16_Marshal(c->offset, out, OUT, &at);
    } else {
        rc |= Tss2_MU_TPM2B_NONCE_Marshal(&c->nonce, out, OUT, &at);
        rc |= Tss2_MU_TPM2B_ENCRYPTED_SECRET_Marshal(&c->salt, out, OUT, &at);
        rc |= Tss2_MU_UINT8_Marshal(c->type, out, OUT, &at);
        rc |= Tss2_MU_TPMT_SYM_DEF_Marshal(&c->symmetric, out, OUT, &at);
        rc |= Tss2_MU_UINT16_Marshal(c->hash, out, OUT, &at);
    }
    return rc == TSS2_RC_SUCCESS ? at : 0;
}

static size_t decode_by_mu(size_t which, uint8_t *out) {
    struct command c;
    (void)out;
    return unmarshal(which, &c) == TSS2_RC_SUCCESS;
}

static size_t decode_reply_by_mu(size_t which, uint8_t *out) {
    const uint8_t *bytes = buffers[which].bytes;
    size_t len = buffers[which].len, at = 0;
    TPM2_ST tag;
    UINT32 size, code, counter;
    TPML_PCR_SELECTION selection;
    TPML_DIGEST digests;
    (void)out;
    TSS2_RC rc = Tss2_MU_TPM2_ST_Unmarshal(bytes, len, &at, &tag);
    rc |= Tss2_MU_UINT32_Unmarshal(bytes, len, &at, &size);
    rc |= Tss2_MU_UINT32_Unmarshal(bytes, len, &at, &code);
    rc |= Tss2_MU_UINT32_Unmarshal(bytes, len, &at, &counter);
    rc |= Tss2_MU_TPML_PCR_SELECTION_Unmarshal(bytes, len, &at, &selection);
    rc |= Tss2_MU_TPML_DIGEST_Unmarshal(bytes, len, &at, &digests);
    return rc == TSS2_RC_SUCCESS && at == len;
}

static size_t encode_by_mu(size_t which, uint8_t *out) {
    size_t len = 0;
    for (int i = 0; i < TIMES; i++)
        len = marshal(which, out);
    return len;
}

static TSS2_RC prepare(size_t which) {
    const struct command *c = &commands[which];
    TSS2L_SYS_AUTH_COMMAND auths = {.count = 1};
    TSS2_RC rc;
    if (which == START_AUTH_SESSION)
        return Tss2_Sys_StartAuthSession_Prepare(sys, c->handles[0], c->handles[1], &c->nonce, &c->salt, c->type,
                                                 &c->symmetric, c->hash);
    if (which == PCR_EXTEND)
        rc = Tss2_Sys_PCR_Extend_Prepare(sys, c->handles[0], &c->digests);
    else
        rc = Tss2_Sys_NV_Read_Prepare(sys, c->handles[0], c->handles[1], c->count, c->offset);
    auths.auths[0] = c->auth;
    return rc == TSS2_RC_SUCCESS ? Tss2_Sys_SetCmdAuths(sys, &auths) : rc;
}

// It keeps the command to itself until it is sent, so that nothing is written here.
static size_t encode_by_sys(size_t which, uint8_t *out) {
    (void)out;
    for (int i = 0; i < TIMES; i++)
        if (prepare(which) != TSS2_RC_SUCCESS)
            return 0;
    return 1;
}

static uint8_t sent[TPM_BUFFER_BYTES];
static size_t sent_len;
static TSS2_RC take_sent(TSS2_TCTI_CONTEXT *context, size_t len, const uint8_t *command) {
    (void)context;
    memcpy(sent, command, sent_len = len);
    return TSS2_RC_SUCCESS;
}

// A context that has sent no command, in the place of the one before.
static void start_sys(void) {
    static struct tcti tcti = {{.magic = 1, .version = 1, .transmit = take_sent, .receive = tcti_receive}, 0};
    TSS2_ABI_VERSION version = TSS2_ABI_VERSION_CURRENT;
    size_t size = Tss2_Sys_GetContextSize(0);
    want((sys = realloc(sys, size)) != NULL, "out of memory");
    want(Tss2_Sys_Initialize(sys, size, (TSS2_TCTI_CONTEXT *)&tcti, &version) == TSS2_RC_SUCCESS,
         "libtss2-sys does not start");
}

static size_t decode_here(size_t which, uint8_t *out) {
    (void)out;
    return tpm_bench_decode_command(buffers[which].bytes, buffers[which].len) == 0;
}

static size_t decode_reply_here(size_t which, uint8_t *out) {
    (void)out;
    return tpm_bench_decode_pcr_read_reply(buffers[which].bytes, buffers[which].len) == 0;
}

static size_t encode_here(size_t which, uint8_t *out) {
    return tpm_bench_encode_command(buffers[which].bytes, buffers[which].len, TIMES, out, OUT);
}

// ---- what is compared before anything is timed

// The peers spell the commands as they are here.
static void check_spellings(void) {
    static const size_t kinds[] = {PCR_EXTEND, NV_READ, START_AUTH_SESSION};
    static uint8_t out[OUT];
    for (size_t i = 0; i < sizeof kinds / sizeof kinds[0]; i++) {
        const struct buffer *b = &buffers[kinds[i]];
        want(unmarshal(kinds[i], &commands[kinds[i]]) == TSS2_RC_SUCCESS, "libtss2-mu decodes another command");
        want(marshal(kinds[i], out) == b->len && memcmp(out, b->bytes, b->len) == 0,
             "libtss2-mu encodes another command");
        start_sys();
        want(prepare(kinds[i]) == TSS2_RC_SUCCESS && Tss2_Sys_ExecuteAsync(sys) == TSS2_RC_SUCCESS,
             "libtss2-sys sends no command");
        want(sent_len == b->len && memcmp(sent, b->bytes, b->len) == 0, "libtss2-sys encodes another command");
    }
}

// Behind as many extends by the three callers both devices have the same registers; the counter of updates before them
// may differ.
static void check_registers(void) {
    static const uint8_t read[] = {0x80, 1, 0, 0, 0, 26, 0, 0, 1, 0x7E, 0, 0, 0, 2, 0, 4, 3, 0, 0, 1, 0, 0x0B, 3, 0,
                                   0, 1};
    static uint8_t out[OUT], first[TPM_BUFFER_BYTES];
    size_t len = 0;
    for (size_t device = 0; device < DEVICES; device++) {
        want(extend_by_us(device, out) && extend_by_libcrypto(device, out) && extend_by_esys(device, out),
             "a reply is not opened");
        transmit[device](read, sizeof read);
        want(was_done() && reply_len > 14 && (device == 0 || reply_len == len), "PCR_Read");
        want(device == 0 || memcmp(first + 14, reply + 14, len - 14) == 0, "the devices have other registers");
        memcpy(first, reply, len = reply_len);
    }
}

static struct row rows[] = {
    {"both ends: the library, not through C", 0, {both_ends, TIMES}, {extend_here}, 1},
    {"both ends: its caller, libtpms", LIBTPMS, {extend_by_us}, {extend_here}, 1},
    {"both ends: libcrypto's caller, its device", HERE, {extend_by_libcrypto}, {extend_here}, 1},
    {"both ends: libcrypto's caller, libtpms", LIBTPMS, {extend_by_libcrypto}, {extend_here}, 1},
    {"both ends: libtss2-esys, its device", HERE, {extend_by_esys}, {extend_here}, 1},
    {"both ends: libtss2-esys, libtpms", LIBTPMS, {extend_by_esys}, {extend_here}, 1},
    {"libtpms, PCR_Extend by password", PCR_EXTEND, {execute_libtpms, TIMES}, {execute_here, TIMES}, 1},
    {"libtpms, PCR_Read", PCR_READ, {execute_libtpms, TIMES}, {execute_here, TIMES}, 1},
    {"libtss2-mu, decode PCR_Extend", PCR_EXTEND, {decode_by_mu}, {decode_here}},
    {"libtss2-mu, decode NV_Read", NV_READ, {decode_by_mu}, {decode_here}},
    {"libtss2-mu, decode StartAuthSession", START_AUTH_SESSION, {decode_by_mu}, {decode_here}},
    {"libtss2-mu, decode reply of PCR_Read", PCR_READ_REPLY, {decode_reply_by_mu}, {decode_reply_here}},
    {"libtss2-mu, encode PCR_Extend", PCR_EXTEND, {encode_by_mu, TIMES}, {encode_here, TIMES}},
    {"libtss2-mu, encode NV_Read", NV_READ, {encode_by_mu, TIMES}, {encode_here, TIMES}},
    {"libtss2-mu, encode StartAuthSession", START_AUTH_SESSION, {encode_by_mu, TIMES}, {encode_here, TIMES}},
    {"libtss2-sys, encode PCR_Extend", PCR_EXTEND, {encode_by_sys, TIMES}, {encode_here, TIMES}, 1},
    {"libtss2-sys, encode NV_Read", NV_READ, {encode_by_sys, TIMES}, {encode_here, TIMES}, 1},
    {"libtss2-sys, encode StartAuthSession", START_AUTH_SESSION, {encode_by_sys, TIMES}, {encode_here, TIMES}, 1},
};
enum { ROWS = sizeof rows / sizeof rows[0] };

int main(int argc, char **argv) {
    make_message();
    make_buffers();
    check_spellings();
    start_sys();
    two_digests = commands[PCR_EXTEND].digests;
    start_devices();
    for (size_t device = 0; device < DEVICES; device++) {
        start_here(device);
        start_libcrypto(device);
        start_esys(device);
    }
    check_registers();
    if (argc == 3)
        return run(rows, ROWS, argv[1], atol(argv[2]));
    measure(rows, ROWS);
    return 0;
}
