/* What ends the program, and what no part of it may go on without. */
#ifndef EMULATOR_FAULT_H
#define EMULATOR_FAULT_H

#include <stddef.h>
#include <stdint.h>

/* The statuses of the program beside 0. */
#define STATUS_REFUSED 1 /* a state file that was cut or changed, or a stream that is no stream of frames */
#define STATUS_USAGE 2
#define STATUS_FAULT 3 /* of reading, writing, memory or random bytes */

/* Ends the program with this status and a line on standard error, as printf makes it. */
void fail(int status, const char *form, ...) __attribute__((noreturn, format(printf, 2, 3)));

/* Fills the room with random bytes of the system. Where it gives none the program ends: a nonce is never weak. */
void random_bytes(uint8_t *room, size_t len);

/* Memory that is there: the program ends where there is none. */
void *room_of(size_t len);
void *more_room(void *room, size_t len);

/* Memory for what the library keeps, which lies at a multiple of `align`. */
void *library_room(size_t len, size_t align);

#endif
