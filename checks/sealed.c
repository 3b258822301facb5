/* Commands sealed and replies opened through C, beside a caller that is written here by Part 1 alone.
 *
 *     sealed N SEED    N commands on registers and counters, each with random parameters, Names, nonces and room for
 *                      what is sealed, in HMAC sessions that are bound or not and in policy sessions, over one device.
 *                      What is sealed has the bytes that are computed here. The reply is opened, and before that cut
 *                      and changed at random: each time with the answer that Part 1 gives
 *
 * Its status is 0 where all is as it should be, and then it says how often there was which answer; otherwise 1, with a
 * line that says what is not. */
#include "random.h"

#define GUARD 0xA5
#define OWNER "owner"

enum { DIGEST = 32, BLOCK = 64, MOST_NONCE = 48, MOST_NAME = 50, MARGIN = 16, POLICY_INDEX = 0x01800004 };

/* A list of bytes in a block of its own, so that a sanitizer sees a look behind it. */
struct bytes {
    uint8_t *at;
    size_t len;
};

static struct bytes block(size_t len) {
    struct bytes b = {malloc(len + (len == 0)), len};
    if (b.at == NULL)
        wrong("no memory");
    return b;
}

static struct bytes copied(const uint8_t *bytes, size_t len) {
    struct bytes b = block(len);
    memcpy(b.at, bytes, len);
    return b;
}

static struct bytes random_bytes(size_t len) {
    struct bytes b = block(len);
    for (size_t i = 0; i < len; i++)
        b.at[i] = (uint8_t)number();
    return b;
}

static uint32_t number_at(const uint8_t *bytes, size_t width) {
    uint32_t value = 0;
    for (size_t i = 0; i < width; i++)
        value = value << 8 | bytes[i];
    return value;
}

/* ---- HMAC (FIPS 198-1) and the session's key (Part 1, "sessionKey Creation") */

static void hmac(const uint8_t *key, size_t key_len, const uint8_t *text, size_t len, uint8_t *mac) {
    static uint8_t inner[BLOCK + TPM_BUFFER_BYTES], outer[BLOCK + DIGEST];
    uint8_t padded[BLOCK] = {0};
    if (key_len > BLOCK)
        sha256(key, key_len, padded);
    else
        memcpy(padded, key, key_len);
    for (size_t i = 0; i < BLOCK; i++) {
        inner[i] = padded[i] ^ 0x36;
        outer[i] = padded[i] ^ 0x5C;
    }
    memcpy(inner + BLOCK, text, len);
    sha256(inner, BLOCK + len, outer + BLOCK);
    sha256(outer, BLOCK + DIGEST, mac);
}

/* ---- the session that the caller holds, as this file knows it */

enum phase { NONE, FREE, WAITING };

static struct {
    enum phase phase;
    uint32_t handle;
    int is_there; /* the device has it */
    int is_bound;
    uint8_t key[DIGEST];
    size_t key_len;
    uint8_t nonce[MOST_NONCE]; /* nonceTPM */
    size_t nonce_len;
    /* of the command that waits */
    uint32_t code;
    uint8_t auth[MOST_NONCE];
    size_t auth_len;
    uint8_t nonce_caller[MOST_NONCE];
    size_t nonce_caller_len;
    int keep;
} held;

/* How often there was what. */
static unsigned long sealed_commands, not_sealed, answered[TPM_CALLER_NOT_WAITING + 1], given_up, ended, lost,
    by_policy;

struct nonce {
    const uint8_t *at;
    size_t len;
};

/* The HMAC of a command or a reply: of the hash of these bytes, the newer nonce, the older one and the attributes. */
static void session_mac(struct bytes hashed, struct nonce newer, struct nonce older, uint8_t attributes, uint8_t *mac) {
    uint8_t key[DIGEST + MOST_NONCE], text[DIGEST + 2 * MOST_NONCE + 1], *to = text + DIGEST;
    memcpy(key, held.key, held.key_len);
    memcpy(key + held.key_len, held.auth, held.auth_len);
    sha256(hashed.at, hashed.len, text);
    to = put_bytes(put_bytes(to, newer.at, newer.len), older.at, older.len);
    *to++ = attributes;
    hmac(key, held.key_len + held.auth_len, text, (size_t)(to - text), mac);
}

/* ---- the device, and what is sent to it */

static struct tpm_device *device;
static struct tpm_caller *caller;
static uint8_t command[TPM_BUFFER_BYTES], reply[TPM_BUFFER_BYTES], awaited[TPM_BUFFER_BYTES];
static size_t command_len, reply_len, awaited_len;

static void transmit(const uint8_t *bytes, size_t len) {
    uint8_t nonce[TPM_NONCE_BYTES];
    for (size_t i = 0; i < sizeof nonce; i++)
        nonce[i] = (uint8_t)number();
    reply_len = tpm_device_execute(device, bytes, len, nonce, reply, sizeof reply);
}

static int is_done(void) {
    return number_at(reply + 6, 4) == 0;
}

/* Ends a command without sessions, whose parameters end here. */
static void end_plain(uint8_t *to, uint32_t code) {
    command_len = (size_t)(to - command);
    put(put(put(command, 0x8001, 2), command_len, 4), code, 4);
}

static void send_plain(uint8_t *to, uint32_t code) {
    end_plain(to, code);
    transmit(command, command_len);
}

/* The authorization value of an index: one of three, without trailing zeros. */
static struct bytes auth_of(uint32_t index) {
    static const char *const values[] = {"", "a", "secret"};
    const char *value = values[index % 3];
    return copied((const uint8_t *)value, strlen(value));
}

/* ---- starting a session */

static void start(void) {
    uint8_t *to = command + 10;
    int is_bound = below(2) == 0, is_policy = below(4) == 0;
    size_t nonce_len = below(8) == 0 ? below(48) : 16 + below(17);
    struct bytes nonce = random_bytes(nonce_len);
    if (held.handle != 0)
        send_plain(put(to, held.handle, 4), TPM_CC_FlushContext);
    held.is_there = 0;
    to = put(put(to, TPM_RH_NULL, 4), is_bound ? TPM_RH_OWNER : TPM_RH_NULL, 4);
    to = put_bytes(put(to, nonce_len, 2), nonce.at, nonce_len);
    send_plain(put(put(put(put(to, 0, 2), is_policy, 1), TPM_ALG_NULL, 2), TPM_ALG_SHA256, 2), TPM_CC_StartAuthSession);
    struct bytes sent = copied(command, command_len), came = copied(reply, reply_len),
                 auth = copied((const uint8_t *)OWNER, strlen(OWNER));
    uint32_t answer = tpm_caller_start(caller, sent.at, sent.len, came.at, came.len, auth.at, auth.len);
    if (answer != (uint32_t)is_done())
        wrong("a session is held where none is started, or is not where one is");
    if (is_done()) {
        lost += held.phase == WAITING;
        held.phase = FREE;
        held.handle = number_at(reply + 10, 4);
        held.is_there = 1;
        held.is_bound = is_bound;
        held.nonce_len = number_at(reply + 14, 2);
        memcpy(held.nonce, reply + 16, held.nonce_len);
        held.key_len = is_bound ? DIGEST : 0;
        uint8_t text[4 + 4 + 2 * MOST_NONCE + 4], *end = put_bytes(put(text, 1, 4), "ATH", 4);
        end = put(put_bytes(put_bytes(end, held.nonce, held.nonce_len), nonce.at, nonce_len), 8 * DIGEST, 4);
        hmac(auth.at, auth.len, text, (size_t)(end - text), held.key);
    }
    free(nonce.at);
    free(sent.at);
    free(came.at);
    free(auth.at);
}

/* ---- random commands */

static const uint16_t hashes[] = {TPM_ALG_SHA1, TPM_ALG_SHA256, TPM_ALG_SHA384};
static const size_t lengths[] = {20, 32, 48};

static int is_authorized(uint32_t code) {
    return code == TPM_CC_PCR_Extend || code == TPM_CC_PCR_Event || code == TPM_CC_PCR_Reset ||
           code == TPM_CC_NV_DefineSpace || code == TPM_CC_NV_UndefineSpace || code == TPM_CC_NV_Increment ||
           code == TPM_CC_NV_Read;
}

/* How many handles such a command has. */
static size_t handles_of(uint32_t code) {
    return code == TPM_CC_NV_UndefineSpace || code == TPM_CC_NV_Increment || code == TPM_CC_NV_Read ? 2 : 1;
}

static uint8_t *put_random(uint8_t *to, size_t len) {
    for (size_t i = 0; i < len; i++)
        *to++ = (uint8_t)number();
    return to;
}

/* The policy of the counter that a policy session may increment: TPM2_PolicyCommandCode of TPM2_NV_Increment
 * (Part 3, 23.11). */
static uint8_t *put_policy(uint8_t *to) {
    uint8_t text[DIGEST + 8] = {0};
    put(put(text + DIGEST, TPM_CC_PolicyCommandCode, 4), TPM_CC_NV_Increment, 4);
    sha256(text, sizeof text, to);
    return to + DIGEST;
}

/* One of the commands that are sealed, or now and then one that can't be, with its parameters, in `command`. */
static void random_command(void) {
    uint8_t *to = command + 10;
    uint32_t code = 0, index = 0x01800000 + (uint32_t)below(5), by = below(2) ? TPM_RH_OWNER : index;
    switch (below(16)) {
    case 0:
    case 1:
    case 2:
        code = TPM_CC_PCR_Extend;
        to = put(to, below(24), 4);
        size_t count = below(4);
        to = put(to, count, 4);
        for (size_t i = 0; i < count; i++) {
            size_t hash = below(3);
            to = put_random(put(to, hashes[hash], 2), lengths[hash]);
        }
        break;
    case 3:
        code = TPM_CC_PCR_Event;
        to = put(to, below(8) ? below(24) : TPM_RH_NULL, 4);
        size_t len = below(2) ? below(16) : below(1030);
        to = put_random(put(to, len, 2), len);
        break;
    case 4:
        code = TPM_CC_PCR_Reset;
        to = put(to, below(24), 4);
        break;
    case 5:
    case 6: {
        code = TPM_CC_NV_DefineSpace;
        int is_policy = index == POLICY_INDEX;
        struct bytes auth = auth_of(index);
        to = put_bytes(put(put(to, TPM_RH_OWNER, 4), auth.len, 2), auth.at, auth.len);
        to = put(put(put(to, is_policy ? 14 + DIGEST : 14, 2), index, 4), TPM_ALG_SHA256, 2);
        /* OWNERREAD and AUTHREAD, with OWNERWRITE and AUTHWRITE or with POLICYWRITE; NT a counter, and NO_DA. */
        to = put(put(to, is_policy ? 0x02060018 : 0x02060016, 4), is_policy ? DIGEST : 0, 2);
        if (is_policy)
            to = put_policy(to);
        to = put(to, 8, 2);
        free(auth.at);
        break;
    }
    case 7:
        code = TPM_CC_NV_UndefineSpace;
        to = put(put(to, TPM_RH_OWNER, 4), index, 4);
        break;
    case 8:
    case 9:
        code = TPM_CC_NV_Read;
        to = put(put(put(put(to, by, 4), index, 4), 8, 2), 0, 2);
        break;
    case 10: /* these want no authorization */
        code = TPM_CC_NV_ReadPublic;
        to = put(to, index, 4);
        break;
    case 11:
        code = TPM_CC_PolicyGetDigest;
        to = put(to, 0x03000000, 4);
        break;
    default:
        code = TPM_CC_NV_Increment;
        to = put(put(to, by, 4), index, 4);
    }
    end_plain(to, code);
    if (below(8) == 0 && is_authorized(code)) {
        /* A session that it has already, a password, which is left out. */
        size_t at = 10 + 4 * handles_of(code), len = 4 + 9 + below(8);
        memmove(command + at + len, command + at, command_len - at);
        put_random(put(put(put(put(put(command + at, len - 4, 4), TPM_RS_PW, 4), 0, 2), 0, 1), len - 13, 2), len - 13);
        put(put(command, 0x8002, 2), command_len += len, 4);
    }
    if (below(8) == 0)
        change(command, &command_len, sizeof command - 8);
    if (command_len >= 10 && below(32) != 0)
        put(command + 2, command_len, 4);
}

/* ---- sealing */

/* The Name of an entity (Part 1, "Names"): of an index what TPM2_NV_ReadPublic answers last, which is 34 bytes; of
 * another its handle. */
static struct bytes name_of(uint32_t handle) {
    uint8_t asked[14];
    if (handle >> 24 == 1) {
        put(put(put(put(asked, 0x8001, 2), sizeof asked, 4), TPM_CC_NV_ReadPublic, 4), handle, 4);
        transmit(asked, sizeof asked);
        return is_done() ? copied(reply + reply_len - 34, 34) : random_bytes(34);
    }
    put(asked, handle, 4);
    return copied(asked, 4);
}

/* What follows the session key in the key of the HMAC: the authorization value of what the first handle names, or
 * nothing where a session is bound to it, or where a policy does not ask for it. */
static struct bytes auth_for(uint32_t handle) {
    if (held.handle >> 24 == 3)
        return block(0);
    if (handle == TPM_RH_OWNER)
        return held.is_bound ? block(0) : copied((const uint8_t *)OWNER, strlen(OWNER));
    return handle >> 24 == 1 ? auth_of(handle) : block(0);
}

/* The bytes that are to be sent: the command, with the session as its authorization (Part 1, "Session-Based
 * Authorizations"). */
static struct bytes sealing(const struct bytes *names, size_t handles) {
    static uint8_t sealed[2 * TPM_BUFFER_BYTES], hashed[TPM_BUFFER_BYTES + 4 * MOST_NAME];
    const uint8_t *parameters = command + 10 + 4 * handles;
    if (number_at(command, 2) == 0x8002)
        parameters += 4 + number_at(parameters, 4);
    size_t len = command_len - (size_t)(parameters - command), size = 4 + 2 + held.nonce_caller_len + 1 + 2 + DIGEST;
    uint8_t *to = put(hashed, held.code, 4), mac[DIGEST];
    for (size_t i = 0; i < handles; i++)
        to = put_bytes(to, names[i].at, names[i].len);
    to = put_bytes(to, parameters, len);
    session_mac((struct bytes){hashed, (size_t)(to - hashed)}, (struct nonce){held.nonce_caller, held.nonce_caller_len},
                (struct nonce){held.nonce, held.nonce_len}, held.keep ? 1 : 0, mac);
    to = put(put(put(sealed, 0x8002, 2), 10 + 4 * handles + 4 + size + len, 4), held.code, 4);
    to = put(put_bytes(to, command + 10, 4 * handles), size, 4);
    to = put_bytes(put(put(to, held.handle, 4), held.nonce_caller_len, 2), held.nonce_caller, held.nonce_caller_len);
    to = put_bytes(put(put(to, held.keep ? 1 : 0, 1), DIGEST, 2), mac, DIGEST);
    to = put_bytes(to, parameters, len);
    return copied(sealed, (size_t)(to - sealed));
}

/* Asks the policy session for the increment that its counter wants. */
static void assert_policy(void) {
    uint8_t asked[18];
    put(put(put(put(asked, 0x8001, 2), 14, 4), TPM_CC_PolicyRestart, 4), held.handle, 4);
    transmit(asked, 14);
    put(put(put(put(put(asked, 0x8001, 2), 18, 4), TPM_CC_PolicyCommandCode, 4), held.handle, 4), TPM_CC_NV_Increment,
        4);
    transmit(asked, 18);
}

/* Seals a random command, and sends what comes of it. */
static void seal(void) {
    random_command();
    if (held.handle >> 24 == 3 && below(4) != 0) {
        assert_policy();
        end_plain(put(put(command + 10, POLICY_INDEX, 4), POLICY_INDEX, 4), TPM_CC_NV_Increment);
    }
    struct tpm_refusal refusal;
    struct bytes plain = copied(command, command_len);
    uint32_t code = command_len < 10 ? 0 : number_at(command + 6, 4);
    int may = tpm_command_decode(plain.at, plain.len, &refusal) == TPM_DONE && is_authorized(code);
    size_t handles = may ? handles_of(code) : 1;
    uint32_t first = may ? number_at(command + 10, 4) : TPM_RH_OWNER,
             second = may && handles == 2 ? number_at(command + 14, 4) : first;
    struct bytes names[2] = {name_of(first), name_of(second)};
    struct bytes auth = auth_for(first), nonce = random_bytes(below(16) ? below(MOST_NONCE + 1) : below(64));
    struct bytes room = block((below(16) ? TPM_BUFFER_BYTES : below(TPM_BUFFER_BYTES)) + MARGIN);
    if (below(32) == 0) {
        size_t other = below(2);
        free(names[other].at);
        names[other] = random_bytes(below(64));
    }
    if (below(32) == 0) {
        free(auth.at);
        auth = random_bytes(1 + below(8));
        auth.at[auth.len - 1] |= 1;
    }
    size_t room_len = room.len - MARGIN;
    uint32_t keep = below(8) != 0;
    memset(room.at, GUARD, room.len);
    may = may && held.phase == FREE && room_len >= TPM_BUFFER_BYTES && nonce.len <= MOST_NONCE &&
          names[0].len <= MOST_NAME && (handles == 1 || names[1].len <= MOST_NAME);
    size_t count = tpm_caller_seal(caller, plain.at, plain.len, names[0].at, names[0].len, names[1].at, names[1].len,
                                   auth.at, auth.len, nonce.at, nonce.len, keep, room.at, room_len);
    if ((count != 0) != may)
        wrong(may ? "a command is not sealed" : "a command is sealed that can't be");
    for (size_t i = count; i < room.len; i++)
        if (room.at[i] != GUARD)
            wrong("what is not sealed is written to");
    if (may) {
        held.phase = WAITING;
        held.code = code;
        held.keep = keep != 0;
        memcpy(held.auth, auth.at, held.auth_len = auth.len);
        memcpy(held.nonce_caller, nonce.at, held.nonce_caller_len = nonce.len);
        struct bytes wanted = sealing(names, handles);
        if (count != wanted.len || memcmp(room.at, wanted.at, count) != 0)
            wrong("what is sealed has other bytes");
        /* Now and then the bus changes a byte. */
        if (below(32) == 0)
            room.at[below(count)] ^= (uint8_t)(1u << below(8));
        transmit(room.at, count);
        memcpy(awaited, reply, awaited_len = reply_len);
        free(wanted.at);
        sealed_commands++;
    } else {
        not_sealed++;
    }
    free(plain.at);
    free(names[0].at);
    free(names[1].at);
    free(auth.at);
    free(nonce.at);
    free(room.at);
}

/* ---- opening */

/* What is to be said of these bytes, and of a reply that is right its nonceTPM. */
static uint32_t opening(const struct bytes *came, const uint8_t **nonce) {
    static uint8_t hashed[TPM_BUFFER_BYTES + 8];
    struct tpm_refusal refusal;
    uint8_t mac[DIGEST];
    if (held.phase != WAITING)
        return TPM_CALLER_NOT_WAITING;
    if (tpm_response_decode(held.code, came->at, came->len, &refusal) != TPM_DONE)
        return TPM_CALLER_REFUSED;
    if (number_at(came->at + 6, 4) != 0)
        return TPM_CALLER_CODE;
    if (number_at(came->at, 2) != 0x8002)
        return TPM_CALLER_NOT_EXPECTED;
    size_t len = number_at(came->at + 10, 4), at = 14 + len, nonce_len = number_at(came->at + at, 2);
    size_t behind = at + 2 + nonce_len, mac_len = number_at(came->at + behind + 1, 2);
    if (behind + 3 + mac_len != came->len || nonce_len != held.nonce_len)
        return TPM_CALLER_NOT_EXPECTED;
    *nonce = came->at + at + 2;
    uint8_t *to = put_bytes(put(put(hashed, 0, 4), held.code, 4), came->at + 14, len);
    session_mac((struct bytes){hashed, (size_t)(to - hashed)}, (struct nonce){*nonce, nonce_len},
                (struct nonce){held.nonce_caller, held.nonce_caller_len}, came->at[behind], mac);
    return mac_len == DIGEST && memcmp(came->at + behind + 3, mac, DIGEST) == 0 ? TPM_CALLER_OPENED
                                                                                : TPM_CALLER_WRONG_MAC;
}

static void open_reply(const uint8_t *bytes, size_t len) {
    struct bytes came = copied(bytes, len);
    const uint8_t *nonce = NULL;
    uint32_t wanted = opening(&came, &nonce);
    if (tpm_caller_open(caller, came.at, came.len) != wanted)
        wrong("a reply is answered otherwise");
    answered[wanted]++;
    if (wanted == TPM_CALLER_OPENED) {
        memcpy(held.nonce, nonce, held.nonce_len);
        held.phase = held.keep ? FREE : NONE;
        ended += !held.keep;
        by_policy += held.handle >> 24 == 3;
    }
    free(came.at);
}

static void give_up(const uint8_t *bytes, size_t len) {
    struct bytes came = copied(bytes, len);
    struct tpm_refusal refusal;
    int may = held.phase == WAITING && tpm_response_decode(held.code, came.at, came.len, &refusal) == TPM_DONE &&
              number_at(came.at + 6, 4) != 0;
    if (tpm_caller_give_up(caller, came.at, came.len) != (uint32_t)may)
        wrong(may ? "a command that was refused is not given up" : "a command is given up that was not refused");
    if (may) {
        held.phase = FREE;
        given_up++;
    }
    free(came.at);
}

/* Another reply in the place of the one that is awaited: bytes are changed, or where that is right it has no session, a
 * session twice, or a nonce that is shorter by a byte. */
static size_t make_other(uint8_t *other) {
    size_t len = awaited_len, at = len < 16 ? len : 14 + number_at(awaited + 10, 4), session = len - at;
    memcpy(other, awaited, len);
    switch (number_at(awaited, 2) == 0x8002 ? below(6) : 5) {
    case 0:
        put(other, 0x8001, 2);
        memmove(other + 10, other + 14, len - 14);
        len = at - 4;
        break;
    case 1:
        memcpy(other + len, other + at, session);
        len += session;
        break;
    case 2: {
        size_t nonce = number_at(other + at, 2);
        put(other + at, nonce - 1, 2);
        memmove(other + at + 1 + nonce, other + at + 2 + nonce, session - 2 - nonce);
        len--;
        break;
    }
    default:
        change(other, &len, TPM_BUFFER_BYTES);
        if (below(2))
            return len;
    }
    if (len >= 10)
        put(other + 2, len, 4);
    return len;
}

/* The reply comes, and before it others do. Nothing else is sealed as long as it is awaited. */
static void take_reply(void) {
    static uint8_t other[TPM_BUFFER_BYTES];
    for (size_t times = below(3); times > 0; times--) {
        size_t len = make_other(other);
        if (below(2))
            open_reply(other, len);
        else
            give_up(other, len);
    }
    if (below(64) == 0)
        seal();
    if (below(256) == 0)
        start();
    open_reply(awaited, awaited_len);
    give_up(awaited, awaited_len);
}

int main(int argc, char **argv) {
    static const uint8_t startup[] = {0x80, 0x01, 0, 0, 0, 12, 0, 0, 0x01, 0x44, 0, 0};
    if (argc != 3)
        wrong("usage: sealed N SEED");
    unsigned long count = strtoul(argv[1], NULL, 10);
    state = strtoull(argv[2], NULL, 10);
    device = malloc(tpm_device_size());
    caller = malloc(tpm_caller_size());
    if (device == NULL || caller == NULL || !tpm_device_init(device, (const uint8_t *)OWNER, strlen(OWNER), 40))
        wrong("no device is made");
    tpm_caller_init(caller);
    transmit(startup, sizeof startup);
    while (sealed_commands < count) {
        if (held.phase == NONE || !held.is_there ? below(8) != 0 : below(32) == 0)
            start();
        seal();
        take_reply();
    }
    printf("sealed %lu, not sealed %lu\n", sealed_commands, not_sealed);
    printf("opened %lu, by a policy %lu, the last of a session %lu\n", answered[TPM_CALLER_OPENED], by_policy, ended);
    printf("refused %lu, a code %lu, not expected %lu, a wrong HMAC %lu, not awaited %lu\n",
           answered[TPM_CALLER_REFUSED], answered[TPM_CALLER_CODE], answered[TPM_CALLER_NOT_EXPECTED],
           answered[TPM_CALLER_WRONG_MAC], answered[TPM_CALLER_NOT_WAITING]);
    printf("given up %lu, lost %lu\n", given_up, lost);
    for (size_t i = 0; count >= 10000 && i < sizeof answered / sizeof *answered; i++)
        if (answered[i] == 0)
            wrong("an answer was never given");
    if (count >= 10000 && (not_sealed == 0 || ended == 0 || given_up == 0 || lost == 0 || by_policy == 0))
        wrong("the commands reach too little");
    free(device);
    free(caller);
    return 0;
}
