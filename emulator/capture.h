/* A record of what goes by: a frame a line in hexadecimal digits, behind `> ` a command and behind `< ` a response, as
 * `tpmtool show --file` reads it. */
#ifndef EMULATOR_CAPTURE_H
#define EMULATOR_CAPTURE_H

#include <stddef.h>
#include <stdint.h>

struct capture {
    const char *path;
    int descriptor;
};

/* Begins a new record in this file. The program ends where it can't be written, now and later. */
void capture_begin(struct capture *capture, const char *path);

/* Records a command and its response, in one write. Of no bytes nothing is recorded. */
void capture_exchange(struct capture *capture, const uint8_t *command, size_t len, const uint8_t *response,
                      size_t response_len);

void capture_end(struct capture *capture);

#endif
