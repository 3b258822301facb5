/* A connection: what was read and not taken yet, and what is to be written. */
#ifndef EMULATOR_LINK_H
#define EMULATOR_LINK_H

#include "server.h"

/* The longest message: a command in mssim's envelope. Its answer has a size before it and four zeros behind. */
#define LONGEST_MESSAGE (9 + TPM_BUFFER_BYTES)
#define LONGEST_ANSWER (4 + TPM_BUFFER_BYTES + 4)

struct link {
    int in;
    int out;
    enum protocol protocol;
    bool ending;    /* nothing more is taken, and it is closed once all is written */
    bool broken;    /* it is closed at once */
    uint64_t heard; /* the turn in which it came, or was last read from */
    struct tpm_framer *framer;
    int given;          /* a descriptor that came with what is held, or -1 */
    size_t given_count; /* how many came */
    uint32_t blob_left; /* bytes of a state blob that are stepped over */
    uint32_t blob_code; /* what is then answered */
    size_t held;
    uint8_t bytes[LONGEST_MESSAGE];
    size_t owed;
    size_t written;
    uint8_t answer[LONGEST_ANSWER];
};

/* Takes the message at the beginning of what is held, if a whole one is there, and puts its answer where it is written
 * from. It answers how many bytes were taken: none where more are wanted. */
size_t link_take(struct server *server, struct link *link);

/* Closes the descriptor that came with a message, where there is one. */
void link_drop_given(struct link *link);

#endif
