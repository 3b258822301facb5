// Commands that a device executes, each with what makes the device ready for it, and with the hashes that it needs.
// bench.c, which has the buffers, the work and the rows, includes it. For another command: a name in the list, its
// bytes and hashes in make_runs, and a row.

// A hash of so many bytes, or an HMAC of a text of so many under the empty key.
struct hashed {
    uint16_t alg;
    size_t len;
    int is_mac;
};

// What is executed, and behind it each time what undoes it, where that is needed.
struct run {
    struct buffer prepare, first, second;
    struct hashed hashes[12];
    size_t count;
};

enum {
    RESET, RESET_SESSION, EVENT_SESSION, EXTEND_SESSION, START_FLUSH, POLICY_PCR, POLICY_OR, POLICY_COMMAND_CODE,
    POLICY_AUTH_VALUE, POLICY_RESTART, POLICY_GET_DIGEST, DEFINE, DEFINE_SESSION, UNDEFINE, UNDEFINE_SESSION, INCREMENT,
    INCREMENT_SESSION, READ, READ_SESSION, READ_PUBLIC, RUNS
};
static struct run runs[RUNS];

// How a command is authorized: not at all, by the empty password, or by the HMAC of a session whose nonceTPM is zeros.
enum authorization { NONE, PASSWORD, SESSION };

// Behind it come 32 bytes, no salt, HMAC and SHA-256.
static const char HMAC_SESSION[] = "8001 0000003B 00000176 40000007 40000007 0020";
static const char OWNER[] = "40000001", INDEX[] = "01800001", REGISTER[] = "00000010";
// TPM2B_NV_PUBLIC of a counter of SHA-256 that its authValue and the owner may write and read, and that area with
// WRITTEN set.
static const char PUBLIC[] = "000E 01800001 000B 00060016 0000 0008", WRITTEN[] = "01800001 000B 20060016 0000 0008";
static const size_t PUBLIC_AREA = 14, NAME = 2 + 32, HANDLE = 4;

static void hashes(struct run *run, uint16_t alg, size_t len) {
    run->hashes[run->count++] = (struct hashed){alg, len, 0};
}

// What the check of a command in a session and the session of its reply hash: cpHash and rpHash, and two HMACs.
static void session_hashes(struct run *run, size_t names, size_t params, size_t reply_params) {
    hashes(run, SHA256_ALG, 4 + names + params);
    hashes(run, SHA256_ALG, 4 + 4 + reply_params);
    run->hashes[run->count++] = (struct hashed){SHA256_ALG, MAC_TEXT, 1};
    run->hashes[run->count++] = (struct hashed){SHA256_ALG, MAC_TEXT, 1};
}

static void add_number(struct buffer *b, size_t at, size_t value, size_t bytes) {
    for (size_t i = 0; i < bytes; i++)
        b->bytes[at + i] = (uint8_t)(value >> 8 * (bytes - 1 - i));
}

static void start_session(struct buffer *b, const char *type) {
    add(b, HMAC_SESSION);
    memset(b->bytes + b->len, 0xC1, NONCE);
    b->len += NONCE;
    add(b, "0000");
    add(b, type);
    add(b, "0010 000B");
}

// The Name of the index, once it was written.
static void add_index_name(struct buffer *names, const char *area) {
    struct buffer public = {0};
    add(&public, area);
    add(names, "000B");
    want(SHA256(public.bytes, public.len, names->bytes + names->len) != NULL, "a Name");
    names->len += 32;
}

// Adds a command with these handles, Names and parameters.
static void add_named(struct buffer *b, const char *code, const char *handles, enum authorization by,
                      const struct buffer *names, const char *params) {
    size_t start = b->len;
    add(b, by == NONE ? "8001 00000000" : "8002 00000000");
    add(b, code);
    add(b, handles);
    if (by == PASSWORD)
        add(b, "00000009 40000009 0000 01 0000");
    if (by == SESSION) {
        struct buffer hashed = {0};
        unsigned written = 0;
        uint8_t text[MAC_TEXT] = {0}; // cpHash, nonceCaller, nonceTPM, sessionAttributes
        add(&hashed, code);
        memcpy(hashed.bytes + hashed.len, names->bytes, names->len);
        hashed.len += names->len;
        add(&hashed, params);
        want(SHA256(hashed.bytes, hashed.len, text) != NULL, "cpHash");
        memset(text + 32, 0xC1, NONCE);
        text[MAC_TEXT - 1] = 0x01;
        add(b, "00000049 02000000 0020");
        memcpy(b->bytes + b->len, text + 32, NONCE);
        b->len += NONCE;
        add(b, "01 0020");
        want(HMAC(EVP_sha256(), "", 0, text, MAC_TEXT, b->bytes + b->len, &written) != NULL && written == 32,
             "the HMAC");
        b->len += written;
    }
    add(b, params);
    add_number(b, start + 2, b->len - start, 4);
}

// A command whose handles are their own Names.
static void add_command(struct buffer *b, const char *code, const char *handles, enum authorization by,
                        const char *params) {
    struct buffer names = {0};
    add(&names, handles);
    add_named(b, code, handles, by, &names, params);
}

static void define(struct buffer *b, enum authorization by) {
    char params[64];
    snprintf(params, sizeof params, "0000 %s", PUBLIC);
    add_command(b, "0000012A", OWNER, by, params);
}

// A command of the counter, which authorizes it, or which the owner undefines.
static void of_index(struct run *run, const char *code, const char *first, enum authorization by, const char *params,
                     size_t params_len, size_t reply_params) {
    struct buffer names = {0};
    char handles[32];
    const char *area = first == OWNER ? PUBLIC + 5 : WRITTEN; // the area behind its size
    if (by == SESSION)
        start_session(&run->prepare, "00");
    define(&run->prepare, PASSWORD);
    if (first == OWNER) {
        add(&names, OWNER);
        define(&run->second, PASSWORD);
    } else {
        snprintf(handles, sizeof handles, "%s %s", INDEX, INDEX);
        add_command(&run->prepare, "00000134", handles, PASSWORD, "");
        add_index_name(&names, area);
    }
    add_index_name(&names, area);
    snprintf(handles, sizeof handles, "%s %s", first, INDEX);
    add_named(&run->first, code, handles, by, &names, params);
    if (by == SESSION) {
        for (size_t i = 0; i < (first == OWNER ? 1u : 2u); i++)
            hashes(run, SHA256_ALG, PUBLIC_AREA);
        session_hashes(run, names.len, params_len, reply_params);
    }
}

// A policy command in a session of this type.
static void of_policy(struct run *run, const char *type, const char *code, const char *params) {
    start_session(&run->prepare, type);
    add_command(&run->first, code, "03000000", NONE, params);
}

static void of_register(struct run *run, const char *code, enum authorization by, const char *params, size_t params_len,
                        size_t reply_params) {
    if (by == SESSION) {
        start_session(&run->prepare, "00");
        session_hashes(run, HANDLE, params_len, reply_params);
    }
    add_command(&run->first, code, REGISTER, by, params);
}

static void hashes_of_an_extend(struct run *run) {
    hashes(run, SHA1_ALG, 2 * SHA_DIGEST_LENGTH);
    hashes(run, SHA256_ALG, 2 * SHA256_DIGEST_LENGTH);
}

static const char TWO_DIGESTS[] = "00000002 0004 0102030405060708090A0B0C0D0E0F1011121314 000B "
                                  "0102030405060708090A0B0C0D0E0F100102030405060708090A0B0C0D0E0F10";
static const char TWO_POLICIES[] = "00000002 0020 0102030405060708090A0B0C0D0E0F100102030405060708090A0B0C0D0E0F10 "
                                   "0020 0102030405060708090A0B0C0D0E0F100102030405060708090A0B0C0D0E0F10";

static void make_runs(void) {
    const size_t digest = SHA256_DIGEST_LENGTH, event_reply = 4 + 3 * 2 + 20 + 32 + 48;
    of_register(&runs[RESET], "0000013D", PASSWORD, "", 0, 0);
    of_register(&runs[RESET_SESSION], "0000013D", SESSION, "", 0, 0);
    of_register(&runs[EXTEND_SESSION], "00000182", SESSION, TWO_DIGESTS, EXTEND_PARAMETERS, 0);
    hashes_of_an_extend(&runs[EXTEND_SESSION]);
    of_register(&runs[EVENT_SESSION], "0000013C", SESSION, "0004 01020304", 2 + EVENT, event_reply);
    hashes(&runs[EVENT_SESSION], SHA1_ALG, EVENT);
    hashes(&runs[EVENT_SESSION], SHA256_ALG, EVENT);
    hashes(&runs[EVENT_SESSION], SHA384_ALG, EVENT);
    hashes_of_an_extend(&runs[EVENT_SESSION]);
    hashes(&runs[EVENT_SESSION], SHA384_ALG, 2 * SHA384_DIGEST_LENGTH);

    start_session(&runs[START_FLUSH].first, "00");
    add_command(&runs[START_FLUSH].second, "00000165", "", NONE, "02000000");

    of_policy(&runs[POLICY_PCR], "01", "0000017F", "0000 00000001 000B 03 010000");
    // Of the registers' values; and of the policy digest, the code, the selection, and that.
    hashes(&runs[POLICY_PCR], SHA256_ALG, digest);
    hashes(&runs[POLICY_PCR], SHA256_ALG, digest + 4 + 10 + digest);
    of_policy(&runs[POLICY_OR], "03", "00000171", TWO_POLICIES);     // in a trial, which takes any digests
    hashes(&runs[POLICY_OR], SHA256_ALG, digest + 4 + 2 * digest);
    of_policy(&runs[POLICY_COMMAND_CODE], "01", "0000016C", "00000134");
    hashes(&runs[POLICY_COMMAND_CODE], SHA256_ALG, digest + 4 + 4);
    of_policy(&runs[POLICY_AUTH_VALUE], "01", "0000016B", "");
    hashes(&runs[POLICY_AUTH_VALUE], SHA256_ALG, digest + 4);
    of_policy(&runs[POLICY_RESTART], "01", "00000180", "");
    of_policy(&runs[POLICY_GET_DIGEST], "01", "00000189", "");

    char undefined[32];
    snprintf(undefined, sizeof undefined, "%s %s", OWNER, INDEX);
    define(&runs[DEFINE].first, PASSWORD);
    add_command(&runs[DEFINE].second, "00000122", undefined, PASSWORD, "");
    start_session(&runs[DEFINE_SESSION].prepare, "00");
    define(&runs[DEFINE_SESSION].first, SESSION);
    add_command(&runs[DEFINE_SESSION].second, "00000122", undefined, PASSWORD, "");
    session_hashes(&runs[DEFINE_SESSION], HANDLE, 2 + 2 + PUBLIC_AREA, 0);

    of_index(&runs[UNDEFINE], "00000122", OWNER, PASSWORD, "", 0, 0);
    of_index(&runs[UNDEFINE_SESSION], "00000122", OWNER, SESSION, "", 0, 0);
    of_index(&runs[INCREMENT], "00000134", INDEX, PASSWORD, "", 0, 0);
    of_index(&runs[INCREMENT_SESSION], "00000134", INDEX, SESSION, "", 0, 0);
    of_index(&runs[READ], "0000014E", INDEX, PASSWORD, "0008 0000", 4, 10);
    of_index(&runs[READ_SESSION], "0000014E", INDEX, SESSION, "0008 0000", 4, 10);
    define(&runs[READ_PUBLIC].prepare, PASSWORD);
    add_command(&runs[READ_PUBLIC].first, "00000169", INDEX, NONE, "");
    hashes(&runs[READ_PUBLIC], SHA256_ALG, PUBLIC_AREA);
}

// ---- work

static size_t is_done(const uint8_t *answer, size_t len) {
    return len >= 10 && memcmp(answer + 6, "\0\0\0\0", 4) == 0 ? len : 0;
}

static size_t execute_run(size_t which, uint8_t *out) {
    const struct run *r = &runs[which];
    return is_done(out, tpm_bench_execute(r->prepare.bytes, r->prepare.len, r->first.bytes, r->first.len,
                                          r->second.bytes, r->second.len, TIMES, out, OUT));
}

static size_t start_device(size_t argument, uint8_t *out) {
    struct buffer startup = {0};
    (void)argument;
    add(&startup, "8001 0000000C 00000144 0000");
    return is_done(out, tpm_bench_start(startup.bytes, startup.len, TIMES, out, OUT));
}

// The hashes that it needs, by the library.
static size_t hashes_of_run(size_t which, uint8_t *out) {
    size_t len = 0;
    for (size_t i = 0; i < runs[which].count; i++) {
        const struct hashed *h = &runs[which].hashes[i];
        len += h->is_mac ? tpm_bench_hmac(h->alg, key, 0, message, h->len, out, OUT)
                         : tpm_bench_hash(h->alg, message, h->len, out, OUT);
    }
    return len;
}
