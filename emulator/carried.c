#include "carried.h"
#include "host.h"
#include "machine.h"
#include "wire.h"

#include <string.h>

/* TPMA_SESSION (Part 2, 8.4) */
#define CONTINUES ((uint8_t)0x01)
#define AUDIT_EXCLUSIVE ((uint8_t)0x02)
#define RESERVED ((uint8_t)0x18)
#define DECRYPTS ((uint8_t)0x20)
#define ENCRYPTS ((uint8_t)0x40)
#define AUDITS ((uint8_t)0x80)

/* The number of a session is added to a code of format 1, and to REFERENCE_S0. */
#define FOR_SESSION(number) (TPM_RC_S + (uint32_t)((number) + 1) * TPM_RC_1)

/* ---- digests and HMACs, which the device makes of at most HASHED_BYTES */

struct text {
    size_t len;
    bool full;
    uint8_t bytes[HASHED_BYTES];
};

static void add(struct text *text, const void *bytes, size_t len) {
    if (len > sizeof text->bytes - text->len) {
        text->full = true;
        return;
    }
    memcpy(text->bytes + text->len, bytes, len);
    text->len += len;
}

static void add32(struct text *text, uint32_t number) {
    uint8_t bytes[4];
    put32(bytes, number);
    add(text, bytes, sizeof bytes);
}

static size_t digest_of(struct machine *machine, uint16_t hash, const struct text *text,
                        uint8_t digest[TPM_POLICY_BYTES]) {
    return text->full ? 0 : machine_hash(machine, hash, text->bytes, text->len, digest);
}

/* HMAC (RFC 2104), under a key that is no longer than a digest. */
static size_t hmac_of(struct machine *machine, uint16_t hash, const uint8_t *key, size_t key_len,
                      const struct text *text, uint8_t mac[TPM_POLICY_BYTES]) {
    size_t block = hash == TPM_ALG_SHA384 ? 128 : 64;
    struct text inner = {.len = block}, outer = {.len = block};
    memcpy(inner.bytes, key, key_len);
    memcpy(outer.bytes, key, key_len);
    for (size_t i = 0; i < block; i++) {
        inner.bytes[i] ^= 0x36;
        outer.bytes[i] ^= 0x5C;
    }
    add(&inner, text->bytes, text->len);
    inner.full |= text->full;
    size_t count = digest_of(machine, hash, &inner, mac);
    add(&outer, mac, count);
    return count == 0 ? 0 : digest_of(machine, hash, &outer, mac);
}

/* ---- what is known of the device's sessions */

static uint16_t hash_of(const struct machine *machine, const struct session *session) {
    return tpm_device_session_hash(machine->device, session->handle);
}

static size_t without_zeros(const uint8_t *bytes, size_t len) {
    while (len > 0 && bytes[len - 1] == 0)
        len--;
    return len;
}

/* The key of a session that is bound to the owner: KDFa of the owner's value with the label ATH, nonceTPM and
 * nonceCaller (Part 1, "sessionKey Creation"), one HMAC for a key as long as the digest. */
static void make_key(struct machine *machine, struct session *session, const uint8_t *caller, size_t caller_len) {
    uint16_t hash = hash_of(machine, session);
    static const uint8_t label[4] = {'A', 'T', 'H', 0};
    struct text text = {.len = 0};
    add32(&text, 1);
    add(&text, label, sizeof label);
    add(&text, session->nonce, session->nonce_len);
    add(&text, caller, caller_len);
    add32(&text, 8 * (uint32_t)digest_bytes(hash));
    session->key_len =
        hmac_of(machine, hash, machine->owner, without_zeros(machine->owner, machine->owner_len), &text, session->key);
}

static void set_nonce(struct session *session, const uint8_t *nonce, size_t len) {
    session->nonce_len = len <= sizeof session->nonce ? len : 0;
    memcpy(session->nonce, nonce, session->nonce_len);
}

/* TPM2_StartAuthSession (Part 3, 11.1) was accepted, so its parts are those of one: tpmKey, bind, nonceCaller. */
static void see_start(struct machine *machine, const uint8_t *command, const uint8_t *response) {
    uint32_t handle = number32(response + 10);
    size_t slot = handle & 0xff;
    if (slot >= SESSION_SLOTS)
        return;
    struct session *session = &machine->sessions[slot];
    *session = (struct session){.handle = handle};
    set_nonce(session, response + 16, number16(response + 14));
    if (number32(command + 14) != TPM_RH_NULL)
        make_key(machine, session, command + 20, number16(command + 18));
}

void carried_see(struct machine *machine, const uint8_t *command, size_t len, const uint8_t *response,
                 size_t response_len) {
    struct tpm_command_areas asked;
    struct tpm_response_areas answered;
    struct tpm_refusal refusal;
    uint32_t code = number32(command + 6);
    if (tpm_command_cut(command, len, &asked, &refusal) != TPM_DONE ||
        tpm_response_cut(code, response, response_len, &answered, &refusal) != TPM_DONE)
        return;
    if (code == TPM_CC_StartAuthSession && asked.session_count == 0)
        see_start(machine, command, response);
    for (size_t i = 0; i < asked.session_count && i < answered.session_count; i++) {
        struct session *session = machine_session(machine, asked.sessions[i].handle);
        if (session)
            set_nonce(session, response + answered.sessions[i].nonce.at, answered.sessions[i].nonce.len);
    }
}

/* ---- an authorization area */

/* A session at the beginning of the bytes; how many it has, or 0 where they are too few. */
static size_t take_session(const uint8_t *bytes, size_t len, struct carried *session) {
    if (len < 9)
        return 0;
    size_t nonce_len = number16(bytes + 4);
    if (nonce_len > len - 9)
        return 0;
    size_t hmac_len = number16(bytes + 7 + nonce_len);
    if (hmac_len > len - 9 - nonce_len)
        return 0;
    *session = (struct carried){.handle = number32(bytes),
                                .attributes = bytes[6 + nonce_len],
                                .nonce = bytes + 6,
                                .nonce_len = nonce_len,
                                .hmac = bytes + 9 + nonce_len,
                                .hmac_len = hmac_len};
    return 9 + nonce_len + hmac_len;
}

uint32_t carried_cut(const uint8_t *bytes, size_t len, struct carried_area *area, size_t *taken) {
    size_t size = len < 4 ? 0 : number32(bytes);
    if (size < 9 || size > len - 4)
        return TPM_RC_AUTHSIZE;
    for (size_t at = 0, count; at < size; at += count) {
        if (area->count == CARRIED_MOST)
            return TPM_RC_AUTHSIZE;
        count = take_session(bytes + 4 + at, size - at, &area->sessions[area->count++]);
        if (count == 0)
            return TPM_RC_AUTHSIZE;
    }
    *taken = 4 + size;
    return TPM_RC_SUCCESS;
}

/* ---- judging */

/* The HMAC of a command or a response: the digest of its text, the newer nonce, the older one, and the attributes. */
static size_t mac_of(struct machine *machine, const struct session *known, const struct carried_text *text,
                     bool is_response, const struct carried *session, uint8_t attributes,
                     uint8_t mac[TPM_POLICY_BYTES]) {
    struct text over = {.len = 0};
    uint8_t digest[TPM_POLICY_BYTES];
    uint16_t hash = hash_of(machine, known);
    if (is_response)
        add32(&over, TPM_RC_SUCCESS);
    add32(&over, text->code);
    if (!is_response && text->handle)
        add32(&over, text->handle);
    add(&over, text->parameters, text->len);
    size_t count = digest_of(machine, hash, &over, digest);
    if (count == 0)
        return 0;
    over.len = 0;
    add(&over, digest, count);
    add(&over, is_response ? known->nonce : session->nonce, is_response ? known->nonce_len : session->nonce_len);
    add(&over, is_response ? session->nonce : known->nonce, is_response ? session->nonce_len : known->nonce_len);
    add(&over, &attributes, 1);
    return hmac_of(machine, hash, known->key, known->key_len, &over, mac);
}

/* Under an empty key an HMAC says nothing, and may be left out; then it is left out of the response, too. */
static bool leaves_out(const struct session *known, const struct carried *session) {
    return known->key_len == 0 && session->hmac_len == 0;
}

static bool is_same(const uint8_t *one, const uint8_t *other, size_t len) {
    uint8_t differs = 0;
    for (size_t i = 0; i < len; i++)
        differs |= one[i] ^ other[i];
    return differs == 0;
}

static uint32_t check_hmac(struct machine *machine, const struct carried *session, const struct carried_text *text,
                           size_t number) {
    const struct session *known = machine_session(machine, session->handle);
    uint8_t mac[TPM_POLICY_BYTES];
    if (!known || session->nonce_len > TPM_POLICY_BYTES)
        return TPM_RC_SIZE + FOR_SESSION(number);
    if (leaves_out(known, session))
        return TPM_RC_SUCCESS;
    size_t count = mac_of(machine, known, text, false, session, session->attributes, mac);
    if (count == 0)
        return TPM_RC_SIZE + FOR_SESSION(number);
    if (session->hmac_len != count || !is_same(session->hmac, mac, count))
        return TPM_RC_BAD_AUTH + FOR_SESSION(number);
    return TPM_RC_SUCCESS;
}

/* A session that authorizes nothing has to audit, since parameters are not encrypted here. No session is the only one
 * that audits: the digests of what it audits are not kept. */
static uint32_t check_session(struct machine *machine, const struct carried *session, const struct carried_text *text,
                              size_t number) {
    uint8_t type = (uint8_t)(session->handle >> 24);
    if (session->handle == TPM_RS_PW)
        return TPM_RC_HANDLE + FOR_SESSION(number);
    if (type != 0x02 && type != 0x03)
        return TPM_RC_VALUE + FOR_SESSION(number);
    if (session->attributes & RESERVED)
        return TPM_RC_RESERVED_BITS + FOR_SESSION(number);
    const struct session *known = machine_session(machine, session->handle);
    if (!known || known->is_saved)
        return TPM_RC_REFERENCE_S0 + (uint32_t)number;
    if (type == 0x03 || (session->attributes & (DECRYPTS | ENCRYPTS)) || !(session->attributes & AUDITS))
        return TPM_RC_ATTRIBUTES + FOR_SESSION(number);
    if (session->attributes & AUDIT_EXCLUSIVE)
        return RC_EXCLUSIVE;
    return check_hmac(machine, session, text, number);
}

static uint32_t check_password(const struct carried *session) {
    if (session->handle != TPM_RS_PW)
        return TPM_RC_AUTH_UNAVAILABLE;
    return session->nonce_len == 0 ? TPM_RC_SUCCESS : TPM_RC_NONCE + FOR_SESSION(0);
}

/* Whether a session stands in the area before this one, too. */
static bool is_twice(const struct carried_area *area, size_t number) {
    for (size_t i = 0; i < number; i++)
        if (area->sessions[i].handle == area->sessions[number].handle)
            return true;
    return false;
}

uint32_t carried_check(struct machine *machine, const struct carried_area *area, bool by_password,
                       const struct carried_text *text) {
    for (size_t i = 0; i < area->count; i++) {
        const struct carried *session = &area->sessions[i];
        if (is_twice(area, i))
            return TPM_RC_HANDLE + FOR_SESSION(i);
        uint32_t code = by_password && i == 0 ? check_password(session) : check_session(machine, session, text, i);
        if (code != TPM_RC_SUCCESS)
            return code;
    }
    return TPM_RC_SUCCESS;
}

/* ---- answering */

static size_t put_session(uint8_t *out, const uint8_t *nonce, size_t nonce_len, uint8_t attributes, const uint8_t *hmac,
                          size_t hmac_len) {
    put16(out, (uint16_t)nonce_len);
    memcpy(out + 2, nonce, nonce_len);
    out[2 + nonce_len] = attributes;
    put16(out + 3 + nonce_len, (uint16_t)hmac_len);
    memcpy(out + 5 + nonce_len, hmac, hmac_len);
    return 5 + nonce_len + hmac_len;
}

static size_t answer_session(struct machine *machine, const struct carried *session, const struct carried_text *text,
                             uint8_t *out) {
    const struct session *known = machine_session(machine, session->handle);
    uint8_t mac[TPM_POLICY_BYTES], attributes = session->attributes & (CONTINUES | AUDITS);
    if (!known) /* a password's */
        return put_session(out, mac, 0, CONTINUES, mac, 0);
    size_t count = leaves_out(known, session) ? 0 : mac_of(machine, known, text, true, session, attributes, mac);
    return put_session(out, known->nonce, known->nonce_len, attributes, mac, count);
}

size_t carried_answer(struct machine *machine, const struct carried_area *area, const struct carried_text *text,
                      uint8_t *out) {
    size_t len = 0;
    for (size_t i = 0; i < area->count; i++) {
        const struct carried *session = &area->sessions[i];
        len += answer_session(machine, session, text, out + len);
        if (session->handle != TPM_RS_PW && !(session->attributes & CONTINUES))
            machine_flush(machine, session->handle);
    }
    return len;
}
