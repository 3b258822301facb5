/* A file that holds what a device keeps: the bytes of its NV memory, as the library writes them and reads them again
 * (include/vinjakwe.h). */
#ifndef EMULATOR_STATE_H
#define EMULATOR_STATE_H

#include "vinjakwe.h"

#include <stdbool.h>

/* A file that is held: no other emulator may hold it, and it is written whole or not at all. */
struct state {
    const char *path;
    char *beside; /* what is written first, and then takes the file's name */
    char *lock_path;
    int folder;
    int lock;
};

/* The bytes of a file, whatever they are: of a longer one than any device writes one byte more than that. */
struct kept {
    uint8_t bytes[TPM_DEVICE_KEPT_BYTES + 1];
    size_t len;
};

/* Holds the file, which need not be there yet. The program ends where another emulator holds it or its folder is not
 * there. */
void state_hold(struct state *state, const char *path);

/* Lets the file go. */
void state_release(struct state *state);

/* Reads the file, and says whether it is there. The program ends where it can't be read. */
bool state_read(struct state *state, struct kept *kept);

/* Lets a file go of which no device is made, and leaves no lock beside it. */
void state_refuse(struct state *state);

/* Writes what the device keeps: once this returns, it outlives the process and the machine. The program ends where it
 * can't be written, so that nobody is told of what is not kept. */
void state_write(const struct state *state, const struct tpm_device *device);

#endif
