/* One proved device with the host around it: what all protocols speak to. */
#ifndef EMULATOR_MACHINE_H
#define EMULATOR_MACHINE_H

#include "capture.h"
#include "carried.h"
#include "state.h"

#include <time.h>

struct machine {
    struct tpm_device *device;
    const uint8_t *owner;
    size_t owner_len;
    struct state *state;     /* or none */
    struct capture *capture; /* or none */
    bool only_device;
    bool startup; /* the host sends TPM2_Startup itself, whenever the power comes on */
    bool powered;
    bool started; /* the device has accepted a command since the power came on */
    struct timespec powered_at;
    struct timespec began_at;
    uint32_t power_cycles;
    uint64_t saves;
    struct session sessions[SESSION_SLOTS]; /* by their slots */
};

/* Switches a machine on whose device was made, and whose words are set. */
void machine_begin(struct machine *machine);

void machine_power_on(struct machine *machine);
void machine_power_off(struct machine *machine);

/* Makes the device again of what was kept, not started, and keeps that in the state file. TPM_DONE; or TPM_REFUSED,
 * where the bytes are none that a device keeps, with their fault: then nothing changes. */
uint32_t machine_restore(struct machine *machine, const uint8_t *kept, size_t len, struct tpm_refusal *refusal);

/* Answers these bytes, whatever they are, with those of a response, at most TPM_BUFFER_BYTES, and says how many they
 * are. What the command changed in NV memory is in the state file when it returns, and both frames are in the record.
 * Without power it is FAILURE, and from another locality than 0 LOCALITY. */
size_t machine_answer(struct machine *machine, uint8_t locality, const uint8_t *command, size_t len, uint8_t *response);

/* What is known of a session that the device has loaded, or none. */
struct session *machine_session(struct machine *machine, uint32_t handle);

/* How many bytes are hashed at most. */
#define HASHED_BYTES 1024

/* The digest of at most HASHED_BYTES, which the device makes: so many bytes, or 0 where it has no bank of this hash. */
size_t machine_hash(struct machine *machine, uint16_t algorithm, const uint8_t *bytes, size_t len,
                    uint8_t digest[TPM_POLICY_BYTES]);

/* How many bytes a digest has; 0 for a hash that the device has no bank of. */
size_t digest_bytes(uint16_t algorithm);

/* Ends a session that the device has loaded. */
void machine_flush(struct machine *machine, uint32_t session);

/* A response with this code alone. */
size_t code_alone(uint8_t *response, uint32_t code);

#endif
