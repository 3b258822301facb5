/* The sessions that a command of the host carries (Part 1, "Session-Based Authorizations"). The device has the
 * sessions; this knows what it takes to check and to make an HMAC: each one's key and its last nonceTPM, which stays
 * the same over commands of the host. */
#ifndef EMULATOR_CARRIED_H
#define EMULATOR_CARRIED_H

#include "vinjakwe.h"

#include <stdbool.h>

struct machine;

#define SESSION_SLOTS 3

/* TPMS_CONTEXT of a saved session (Part 2, 14.5): the number of the save, the session's handle, the null hierarchy,
 * and a blob of random bytes. */
#define SEAL_BYTES 32
#define SAVED_BYTES (8 + 4 + 4 + 2 + SEAL_BYTES)

/* What the host knows of a session that was started in a slot of the device, while the device has it loaded. */
struct session {
    uint32_t handle;
    bool is_saved;
    uint8_t saved[SAVED_BYTES]; /* what it was saved as */
    size_t key_len;             /* of the session's key, which is empty where it is not bound */
    uint8_t key[TPM_POLICY_BYTES];
    size_t nonce_len;
    uint8_t nonce[TPM_POLICY_BYTES];
};

/* A session as a command carries it, TPMS_AUTH_COMMAND (Part 2, 10.13.2). */
struct carried {
    uint32_t handle;
    uint8_t attributes;
    const uint8_t *nonce;
    size_t nonce_len;
    const uint8_t *hmac;
    size_t hmac_len;
};

#define CARRIED_MOST 3

struct carried_area {
    struct carried sessions[CARRIED_MOST];
    size_t count;
};

/* A command's or a response's number, the handle whose Name it has, if any, and its parameters: what an HMAC
 * is over. */
struct carried_text {
    uint32_t code;
    uint32_t handle; /* 0 for none */
    const uint8_t *parameters;
    size_t len;
};

/* Takes note of what the device has accepted: a session's start, and each new nonceTPM. */
void carried_see(struct machine *machine, const uint8_t *command, size_t len, const uint8_t *response,
                 size_t response_len);

/* Cuts an authorization area with its size before it. TPM_RC_SUCCESS: `taken` says how many bytes it has. */
uint32_t carried_cut(const uint8_t *bytes, size_t len, struct carried_area *area, size_t *taken);

/* Judges the sessions, in their order. Where a password authorizes the command it is the first one, and any will do. */
uint32_t carried_check(struct machine *machine, const struct carried_area *area, bool by_password,
                       const struct carried_text *text);

/* Writes the sessions of the response, and says how many bytes they have. Those that do not go on are ended. */
size_t carried_answer(struct machine *machine, const struct carried_area *area, const struct carried_text *text,
                      uint8_t *out);

#endif
