/* Connections, and the protocols that TPM software speaks over them. One process serves all of them in turns; nobody
 * waits for anybody's bytes. */
#ifndef EMULATOR_SERVER_H
#define EMULATOR_SERVER_H

#include "machine.h"

/* What a connection speaks. */
enum protocol {
    MSSIM_COMMANDS, /* those of the reference simulator: commands in envelopes */
    MSSIM_PLATFORM, /* and the power */
    SWTPM_DATA,     /* those of swtpm: plain frames */
    SWTPM_CONTROL,  /* and its control channel */
    QEMU_CONTROL,   /* the same over a Unix socket, where descriptors can come, too */
    QEMU_DATA,      /* plain frames over such a descriptor */
    STREAM          /* plain frames on standard input and output */
};

#define LISTENERS 5

struct link;

struct listener {
    int descriptor;
    enum protocol protocol;
};

struct server {
    struct machine *machine;
    struct listener listeners[LISTENERS];
    size_t listener_count;
    struct link **links;
    size_t link_count;
    size_t link_most;
    struct link *data; /* that of QEMU_DATA, or none */
    const char *path;  /* of the Unix socket, or none */
    uint64_t turn;
    int signals;
    bool runs; /* INIT has come over a control channel, and no STOP since */
    bool ended;
    int status;
};

void server_init(struct server *server, struct machine *machine);

/* Listens at this port of this address (IPv4, as digits). The program ends where it can't. */
void server_listen(struct server *server, const char *address, uint16_t port, enum protocol protocol);

/* Listens at a Unix socket, which is made and is removed at the end. One that nobody listens at any more is
 * taken over. */
void server_listen_unix(struct server *server, const char *path);

/* Serves frames over this descriptor, which takes the place of the one before it. */
void server_set_data(struct server *server, int descriptor);

/* Serves standard input and output. */
void server_stream(struct server *server);

/* Serves until SIGTERM or SIGINT comes, the control channel says so, or the stream ends. The answer is the program's
 * status. */
int server_run(struct server *server);

#endif
