#include "machine.h"
#include "fault.h"
#include "host.h"
#include "wire.h"

#include <string.h>

void machine_begin(struct machine *machine) {
    clock_gettime(CLOCK_MONOTONIC, &machine->began_at);
    machine->powered = false;
    machine_power_on(machine);
}

void machine_power_on(struct machine *machine) {
    static const uint8_t startup[12] = {0x80, 1, 0, 0, 0, 12, 0, 0, 1, 0x44, 0, 0};
    uint8_t response[TPM_BUFFER_BYTES];
    if (machine->powered)
        return;
    machine->powered = true;
    clock_gettime(CLOCK_MONOTONIC, &machine->powered_at);
    if (machine->startup)
        machine_answer(machine, 0, startup, sizeof startup, response);
}

/* The device is not started, and has no session. */
static void forget(struct machine *machine) {
    machine->started = false;
    memset(machine->sessions, 0, sizeof machine->sessions);
}

void machine_power_off(struct machine *machine) {
    if (!machine->powered)
        return;
    machine->powered = false;
    machine->power_cycles++;
    tpm_device_power_cycle(machine->device);
    forget(machine);
}

uint32_t machine_restore(struct machine *machine, const uint8_t *kept, size_t len, struct tpm_refusal *refusal) {
    uint32_t status = tpm_device_restore(machine->device, machine->owner, machine->owner_len, kept, len, refusal);
    if (status != TPM_DONE)
        return status;
    forget(machine);
    if (machine->state)
        state_write(machine->state, machine->device);
    return TPM_DONE;
}

size_t digest_bytes(uint16_t algorithm) {
    return algorithm == TPM_ALG_SHA1 ? 20 : algorithm == TPM_ALG_SHA256 ? 32 : algorithm == TPM_ALG_SHA384 ? 48 : 0;
}

size_t code_alone(uint8_t *response, uint32_t code) {
    put16(response, TPM_ST_NO_SESSIONS);
    put32(response + 2, 10);
    put32(response + 6, code);
    return 10;
}

/* TPM2_PCR_Event of TPM_RH_NULL (Part 3, 22.3) extends nothing, and answers a TPML_DIGEST_VALUES. */
size_t machine_hash(struct machine *machine, uint16_t algorithm, const uint8_t *bytes, size_t len,
                    uint8_t digest[TPM_POLICY_BYTES]) {
    uint8_t command[29 + HASHED_BYTES] = {0x80, 2, 0, 0, 0, 0,    0, 0, 1, 0x3C, 0x40, 0, 0,
                                          7,    0, 0, 0, 9, 0x40, 0, 0, 9, 0,    0,    1};
    uint8_t nonce[TPM_NONCE_BYTES], response[TPM_BUFFER_BYTES];
    put32(command + 2, (uint32_t)(29 + len));
    put16(command + 27, (uint16_t)len);
    memcpy(command + 29, bytes, len);
    random_bytes(nonce, sizeof nonce);
    size_t count = tpm_device_execute(machine->device, command, 29 + len, nonce, response, sizeof response);
    size_t at = 18, size;
    for (; number32(response + 6) == TPM_RC_SUCCESS && at + 2 <= count; at += 2 + size) {
        uint16_t found = number16(response + at);
        size = digest_bytes(found);
        if (size == 0 || at + 2 + size > count)
            return 0;
        if (found == algorithm) {
            memcpy(digest, response + at + 2, size);
            return size;
        }
    }
    return 0;
}

static size_t executed(struct machine *machine, const uint8_t *command, size_t len, uint8_t *response) {
    uint8_t nonce[TPM_NONCE_BYTES];
    random_bytes(nonce, sizeof nonce);
    size_t count = tpm_device_execute(machine->device, command, len, nonce, response, TPM_BUFFER_BYTES);
    /* What was done to NV memory is in the file before anybody is told. */
    if (machine->state && tpm_device_changes_nv(command, len, response, count))
        state_write(machine->state, machine->device);
    if (number32(response + 6) == TPM_RC_SUCCESS) {
        machine->started = true;
        carried_see(machine, command, len, response, count);
    }
    return count;
}

struct session *machine_session(struct machine *machine, uint32_t handle) {
    for (size_t i = 0; i < SESSION_SLOTS; i++)
        if (machine->sessions[i].handle == handle && tpm_device_session_hash(machine->device, handle) != 0)
            return &machine->sessions[i];
    return NULL;
}

void machine_flush(struct machine *machine, uint32_t session) {
    uint8_t command[14] = {0x80, 1, 0, 0, 0, 14, 0, 0, 1, 0x65}, response[TPM_BUFFER_BYTES];
    put32(command + 10, session);
    executed(machine, command, sizeof command, response);
}

/* The device has locality 0 alone. */
static size_t answered(struct machine *machine, uint8_t locality, const uint8_t *command, size_t len,
                       uint8_t *response) {
    if (!machine->powered)
        return code_alone(response, RC_FAILURE);
    if (locality != 0)
        return code_alone(response, TPM_RC_LOCALITY);
    size_t count = machine->only_device ? 0 : host_answer(machine, command, len, response);
    return count > 0 ? count : executed(machine, command, len, response);
}

size_t machine_answer(struct machine *machine, uint8_t locality, const uint8_t *command, size_t len,
                      uint8_t *response) {
    size_t count = answered(machine, locality, command, len, response);
    if (machine->capture)
        capture_exchange(machine->capture, command, len, response, count);
    return count;
}
