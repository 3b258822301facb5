/* What the host answers in the place of the device: commands that tools ask for and that decide nothing. None of it is
 * proved. */
#ifndef EMULATOR_HOST_H
#define EMULATOR_HOST_H

#include "machine.h"

/* Response codes beside those of the device (Part 2, 6.6.3). */
#define RC_FAILURE ((uint32_t)0x101)
#define RC_EXCLUSIVE ((uint32_t)0x121)
#define RC_HIERARCHY ((uint32_t)0x085)
#define RC_TYPE ((uint32_t)0x08A)
#define RC_INTEGRITY ((uint32_t)0x09F)

/* TPM_ST of a ticket of TPM2_Hash (Part 2, 6.9). */
#define ST_HASHCHECK ((uint16_t)0x8024)

/* Answers a command that the host answers, and says how many bytes the response has; 0 where the command is the
 * device's. */
size_t host_answer(struct machine *machine, const uint8_t *command, size_t len, uint8_t *response);

#endif
