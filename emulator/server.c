#include "server.h"
#include "fault.h"
#include "link.h"

#include <arpa/inet.h>
#include <errno.h>
#include <fcntl.h>
#include <netinet/in.h>
#include <netinet/tcp.h>
#include <poll.h>
#include <signal.h>
#include <stdlib.h>
#include <string.h>
#include <sys/resource.h>
#include <sys/socket.h>
#include <sys/stat.h>
#include <sys/un.h>
#include <unistd.h>

/* How many connections there are at most, and how many descriptors are left for all else. */
#define MOST_LINKS 4096
#define OTHER_DESCRIPTORS 32

/* How many connections are taken in one turn, so that those that are there come to theirs. */
#define ACCEPTS 64

/* ---- signals */

/* A signal's handler knows nothing but what is static. */
static int signal_pipe[2];

static void on_signal(int number) {
    int kept = errno;
    uint8_t byte = (uint8_t)number;
    if (write(signal_pipe[1], &byte, 1) < 0) { /* the pipe is full: that it is is enough */
    }
    errno = kept;
}

static void no_wait(int descriptor) {
    fcntl(descriptor, F_SETFL, fcntl(descriptor, F_GETFL) | O_NONBLOCK);
    fcntl(descriptor, F_SETFD, FD_CLOEXEC);
}

static void watch_signals(struct server *server) {
    struct sigaction ended = {.sa_handler = on_signal}, ignored = {.sa_handler = SIG_IGN};
    if (pipe(signal_pipe) != 0)
        fail(STATUS_FAULT, "there is no pipe: %s", strerror(errno));
    no_wait(signal_pipe[0]);
    no_wait(signal_pipe[1]);
    server->signals = signal_pipe[0];
    sigaction(SIGTERM, &ended, NULL);
    sigaction(SIGINT, &ended, NULL);
    sigaction(SIGPIPE, &ignored, NULL);
}

/* ---- connections */

static size_t most_links(void) {
    struct rlimit limit;
    if (getrlimit(RLIMIT_NOFILE, &limit) != 0)
        return 64;
    limit.rlim_cur = limit.rlim_max < MOST_LINKS + OTHER_DESCRIPTORS ? limit.rlim_max : MOST_LINKS + OTHER_DESCRIPTORS;
    setrlimit(RLIMIT_NOFILE, &limit);
    getrlimit(RLIMIT_NOFILE, &limit);
    return limit.rlim_cur > 2 * OTHER_DESCRIPTORS ? (size_t)limit.rlim_cur - OTHER_DESCRIPTORS : OTHER_DESCRIPTORS;
}

void server_init(struct server *server, struct machine *machine) {
    memset(server, 0, sizeof *server);
    server->machine = machine;
    server->link_most = most_links();
    server->links = room_of((server->link_most + 1) * sizeof *server->links); /* and one for QEMU's frames */
    watch_signals(server);
}

void server_listen(struct server *server, const char *address, uint16_t port, enum protocol protocol) {
    struct sockaddr_in place = {.sin_family = AF_INET, .sin_port = htons(port)};
    int descriptor = socket(AF_INET, SOCK_STREAM, 0), yes = 1;
    if (inet_pton(AF_INET, address, &place.sin_addr) != 1)
        fail(STATUS_USAGE, "%s is no address of IPv4", address);
    if (descriptor < 0 || setsockopt(descriptor, SOL_SOCKET, SO_REUSEADDR, &yes, sizeof yes) != 0 ||
        bind(descriptor, (struct sockaddr *)&place, sizeof place) != 0 || listen(descriptor, SOMAXCONN) != 0)
        fail(STATUS_FAULT, "port %u of %s: %s", port, address, strerror(errno));
    no_wait(descriptor);
    server->listeners[server->listener_count++] = (struct listener){descriptor, protocol};
}

/* Whether a socket of this name is there that nobody listens at: it was left by a process that was killed. */
static bool is_left(const struct sockaddr_un *place) {
    struct stat there;
    int descriptor = socket(AF_UNIX, SOCK_STREAM, 0);
    bool left = stat(place->sun_path, &there) == 0 && S_ISSOCK(there.st_mode) && descriptor >= 0 &&
                connect(descriptor, (const struct sockaddr *)place, sizeof *place) != 0 && errno == ECONNREFUSED;
    if (descriptor >= 0)
        close(descriptor);
    return left;
}

void server_listen_unix(struct server *server, const char *path) {
    struct sockaddr_un place = {.sun_family = AF_UNIX};
    int descriptor = socket(AF_UNIX, SOCK_STREAM, 0);
    if (strlen(path) >= sizeof place.sun_path)
        fail(STATUS_USAGE, "%s is too long for a Unix socket, whose name has at most %zu bytes", path,
             sizeof place.sun_path - 1);
    memcpy(place.sun_path, path, strlen(path));
    if (is_left(&place))
        unlink(path);
    /* Whoever reaches it has the whole TPM: its owner alone. */
    mode_t mask = umask(0177);
    if (descriptor < 0 || bind(descriptor, (struct sockaddr *)&place, sizeof place) != 0 ||
        listen(descriptor, SOMAXCONN) != 0)
        fail(STATUS_FAULT, "%s: %s", path, strerror(errno));
    umask(mask);
    no_wait(descriptor);
    server->path = path;
    server->listeners[server->listener_count++] = (struct listener){descriptor, QEMU_CONTROL};
}

static bool has_frames(enum protocol protocol) {
    return protocol == SWTPM_DATA || protocol == QEMU_DATA || protocol == STREAM;
}

static struct link *add_link(struct server *server, int in, int out, enum protocol protocol) {
    struct link *link = room_of(sizeof *link);
    memset(link, 0, sizeof *link);
    link->in = in;
    link->out = out;
    link->protocol = protocol;
    link->heard = server->turn;
    link->given = -1;
    if (has_frames(protocol)) {
        link->framer = library_room(tpm_framer_size(), tpm_framer_align());
        tpm_framer_init(link->framer);
    }
    server->links[server->link_count++] = link;
    return link;
}

void server_stream(struct server *server) {
    add_link(server, STDIN_FILENO, STDOUT_FILENO, STREAM);
}

void server_set_data(struct server *server, int descriptor) {
    struct link *link = server->data;
    no_wait(descriptor);
    if (!link) {
        server->data = add_link(server, descriptor, descriptor, QEMU_DATA);
        return;
    }
    close(link->in);
    link->in = link->out = descriptor;
    link->ending = link->broken = false;
    link->held = link->owed = link->written = 0;
    tpm_framer_init(link->framer);
}

static void remove_link(struct server *server, size_t number) {
    struct link *link = server->links[number];
    server->links[number] = server->links[--server->link_count];
    if (link == server->data)
        server->data = NULL;
    link_drop_given(link);
    if (link->protocol == STREAM)
        server->ended = true;
    else
        close(link->in);
    free(link->framer);
    free(link);
}

/* The connection that was quiet longest makes room. A guest may be quiet for days, so QEMU's frames stay. */
static void make_room(struct server *server) {
    size_t quiet = server->link_count;
    for (size_t i = 0; i < server->link_count; i++) {
        const struct link *link = server->links[i];
        if (link->protocol != STREAM && link->protocol != QEMU_DATA &&
            (quiet == server->link_count || link->heard < server->links[quiet]->heard))
            quiet = i;
    }
    if (quiet < server->link_count)
        remove_link(server, quiet);
}

/* An acknowledgement that waits makes those wait who write a message in two parts, as tcti-mssim does: 40 milliseconds
 * a command. Linux forgets after a while that it was asked to send them at once, so it is asked again after
 * each read. */
static void acknowledge(int descriptor) {
#ifdef TCP_QUICKACK
    int yes = 1;
    setsockopt(descriptor, IPPROTO_TCP, TCP_QUICKACK, &yes, sizeof yes);
#else
    (void)descriptor;
#endif
}

static bool is_tcp(enum protocol protocol) {
    return protocol == MSSIM_COMMANDS || protocol == MSSIM_PLATFORM || protocol == SWTPM_DATA ||
           protocol == SWTPM_CONTROL;
}

static void take_connections(struct server *server, const struct listener *listener) {
    int yes = 1;
    for (int i = 0; i < ACCEPTS; i++) {
        int descriptor = accept(listener->descriptor, NULL, NULL);
        if (descriptor < 0 && (errno == EMFILE || errno == ENFILE))
            make_room(server);
        if (descriptor < 0)
            return;
        if (server->link_count >= server->link_most)
            make_room(server);
        no_wait(descriptor);
        if (is_tcp(listener->protocol)) {
            setsockopt(descriptor, IPPROTO_TCP, TCP_NODELAY, &yes, sizeof yes);
            acknowledge(descriptor);
        }
        add_link(server, descriptor, descriptor, listener->protocol);
    }
}

/* ---- a connection's turn */

static bool is_for_later(int fault) {
    return fault == EAGAIN || fault == EWOULDBLOCK || fault == EINTR;
}

static void write_answer(struct link *link) {
    while (link->written < link->owed) {
        ssize_t count = write(link->out, link->answer + link->written, link->owed - link->written);
        if (count < 0 && !is_for_later(errno) && link->protocol == STREAM)
            fail(STATUS_FAULT, "standard output can't be written: %s", strerror(errno));
        if (count < 0 && !is_for_later(errno))
            link->broken = true;
        if (count <= 0)
            return;
        link->written += (size_t)count;
    }
    link->written = link->owed = 0;
}

/* Takes what is held, message by message. While an answer waits to be written the next message waits, too. */
static void take_messages(struct server *server, struct link *link) {
    while (!link->broken && !link->ending && link->owed == 0) {
        size_t taken = link_take(server, link);
        link->held -= taken;
        memmove(link->bytes, link->bytes + taken, link->held);
        write_answer(link);
        if (taken == 0)
            return;
    }
}

/* The descriptors that came with a message: the first is kept, and the others are closed. More than there is room for
 * the system has closed already, and says so. */
static void take_given(struct link *link, struct msghdr *message) {
    if (message->msg_flags & MSG_CTRUNC)
        link->given_count += 2;
    for (struct cmsghdr *part = CMSG_FIRSTHDR(message); part; part = CMSG_NXTHDR(message, part)) {
        if (part->cmsg_level != SOL_SOCKET || part->cmsg_type != SCM_RIGHTS)
            continue;
        size_t count = (part->cmsg_len - CMSG_LEN(0)) / sizeof(int);
        for (size_t i = 0; i < count; i++) {
            int descriptor;
            memcpy(&descriptor, CMSG_DATA(part) + i * sizeof descriptor, sizeof descriptor);
            if (link->given_count++ == 0)
                link->given = descriptor;
            else
                close(descriptor);
        }
    }
}

/* Reads what has come, with its descriptors where it may have some. */
static ssize_t receive(struct link *link) {
    union {
        struct cmsghdr aligned;
        char bytes[CMSG_SPACE(2 * sizeof(int))];
    } room;
    struct iovec bytes = {link->bytes + link->held, sizeof link->bytes - link->held};
    struct msghdr message = {.msg_iov = &bytes, .msg_iovlen = 1, .msg_control = &room, .msg_controllen = sizeof room};
    if (link->protocol != QEMU_CONTROL)
        return read(link->in, bytes.iov_base, bytes.iov_len);
    ssize_t count = recvmsg(link->in, &message, MSG_CMSG_CLOEXEC);
    if (count >= 0)
        take_given(link, &message);
    return count;
}

static void read_bytes(struct server *server, struct link *link) {
    ssize_t count = receive(link);
    if (count < 0 && is_for_later(errno))
        return;
    if (is_tcp(link->protocol))
        acknowledge(link->in);
    link->heard = server->turn;
    if (count < 0)
        link->broken = true;
    else if (count == 0)
        link->ending = true;
    else
        link->held += (size_t)count;
    take_messages(server, link);
}

static void serve(struct server *server, struct link *link, short what) {
    if (what && link->owed > 0) {
        write_answer(link);
        take_messages(server, link);
    } else if (what) {
        read_bytes(server, link);
    }
}

static bool is_over(const struct link *link) {
    return link->broken || (link->ending && link->owed == 0);
}

static void sweep(struct server *server) {
    for (size_t i = server->link_count; i-- > 0;) {
        struct link *link = server->links[i];
        if (!is_over(link))
            continue;
        if (link->protocol == STREAM && link->broken)
            fail(STATUS_REFUSED, "standard input is no stream of commands");
        remove_link(server, i);
    }
}

/* ---- the loop */

static size_t ask_for(struct server *server, struct pollfd *polled) {
    size_t count = 0;
    polled[count++] = (struct pollfd){.fd = server->signals, .events = POLLIN};
    for (size_t i = 0; i < server->listener_count; i++)
        polled[count++] = (struct pollfd){.fd = server->listeners[i].descriptor, .events = POLLIN};
    for (size_t i = 0; i < server->link_count; i++) {
        const struct link *link = server->links[i];
        bool writes = link->owed > 0;
        polled[count++] = (struct pollfd){.fd = writes ? link->out : link->in, .events = writes ? POLLOUT : POLLIN};
    }
    return count;
}

/* Closes all that is open. */
static void end(struct server *server) {
    while (server->link_count > 0)
        remove_link(server, server->link_count - 1);
    for (size_t i = 0; i < server->listener_count; i++)
        close(server->listeners[i].descriptor);
    if (server->path)
        unlink(server->path);
    free(server->links);
}

int server_run(struct server *server) {
    struct pollfd *polled = room_of((1 + LISTENERS + server->link_most + 1) * sizeof *polled);
    while (!server->ended) {
        size_t links = server->link_count;
        if (poll(polled, (nfds_t)ask_for(server, polled), -1) < 0) {
            if (errno != EINTR)
                fail(STATUS_FAULT, "poll: %s", strerror(errno));
            continue;
        }
        server->turn++;
        if (polled[0].revents)
            break;
        for (size_t i = 0; i < links; i++)
            serve(server, server->links[i], polled[1 + server->listener_count + i].revents);
        sweep(server);
        for (size_t i = 0; i < server->listener_count; i++)
            if (polled[1 + i].revents)
                take_connections(server, &server->listeners[i]);
    }
    free(polled);
    end(server);
    return server->status;
}
