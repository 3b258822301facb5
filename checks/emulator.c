/* A client of the emulator, for checks/emulator.sh. It speaks to the loopback alone, and says in a line what was met.
 *
 *     client kill PORT TIMES SEED WORD..
 *         starts the emulator (these words) so often, increments counters over swtpm's data port, and kills it at a
 *         random moment: no value comes twice, and none goes back
 *     client full PORT TIMES SEED FILE WORD..
 *         the same, but in place of a kill FILE takes all room that is left on its disk, until the emulator has ended:
 *         with status 3, since it could not keep what a client would have been told
 *     client again PORT TIMES SEED WORD..
 *         starts it so often, defines, increments and undefines counters of all kinds, and ends it: each is there
 *         again, to the byte, and the next first value is behind the greatest
 *     client frames MSSIM SWTPM COUNT SEED
 *         sends so many messages to the four ports, random ones and changed ones, and cuts connections; the emulator
 *         answers the next client
 *     client many PORT COUNT
 *         opens so many connections to swtpm's data port, each with a part of a frame; the emulator answers the next
 *         client, and one that sends a byte at a time
 *     client hold PORT COUNT
 *         opens so many connections, as many as there may be, and each is answered; one more closes the one that was
 *         quiet longest, and no other
 *     client listens PORT [ADDRESS]
 *         asks whether anybody listens there
 *     client ask PORT
 *         sends the lines of standard input, in hexadecimal digits, each as one write, and prints what is answered
 *         to each, a line each; an answer that does not come is a `-`, and `closed` stands where the connection is
 *     client channel PATH
 *         the same over QEMU's channel at this Unix socket. Before a line `N+` hands N descriptors over with it, and
 *         `@` sends it over the one that was handed over alone
 *     client messages PATH COUNT SEED
 *         sends so many control messages over that channel, random ones and changed ones, cut, and with descriptors;
 *         then QEMU's next start is answered
 *     client parts PORT COUNT
 *         sends so many commands to mssim's port, header and body apart as tcti-mssim does, and says how many
 *         milliseconds they take
 *     client speed PORT SECONDS
 *         sends commands over swtpm's data port, and says how many a second are answered
 */
#include <arpa/inet.h>
#include <errno.h>
#include <fcntl.h>
#include <netinet/in.h>
#include <netinet/tcp.h>
#include <poll.h>
#include <signal.h>
#include <stdarg.h>
#include <stdbool.h>
#include <stdint.h>
#include <stdio.h>
#include <stdlib.h>
#include <string.h>
#include <sys/resource.h>
#include <sys/socket.h>
#include <sys/time.h>
#include <sys/un.h>
#include <sys/wait.h>
#include <time.h>
#include <unistd.h>

#define REPLY_BYTES 4096

/* The emulator that this process has started last; it does not outlive a failure. */
static pid_t emulator;

static void fail(const char *what, uint64_t number) {
    printf("%s (%llu)\n", what, (unsigned long long)number);
    if (emulator > 0)
        kill(emulator, SIGKILL);
    exit(1);
}

/* ---- numbers */

static uint64_t seed;

/* xorshift64*: the same tries for the same seed. */
static uint32_t any(void) {
    seed ^= seed >> 12;
    seed ^= seed << 25;
    seed ^= seed >> 27;
    return (uint32_t)((seed * 0x2545F4914F6CDD1Du) >> 32);
}

static uint32_t below(uint32_t most) {
    return any() % most;
}

static double now(void) {
    struct timespec time;
    clock_gettime(CLOCK_MONOTONIC, &time);
    return (double)time.tv_sec + (double)time.tv_nsec / 1e9;
}

static void pause_for(long microseconds) {
    struct timespec time = {microseconds / 1000000, microseconds % 1000000 * 1000};
    nanosleep(&time, NULL);
}

static uint32_t number32(const uint8_t *bytes) {
    return (uint32_t)bytes[0] << 24 | (uint32_t)bytes[1] << 16 | (uint32_t)bytes[2] << 8 | bytes[3];
}

static void put32(uint8_t *bytes, uint32_t number) {
    for (int i = 0; i < 4; i++)
        bytes[i] = (uint8_t)(number >> (24 - 8 * i));
}

static size_t bytes_of(const char *text, uint8_t *bytes) {
    size_t count = 0;
    unsigned byte;
    for (; sscanf(text, "%2x", &byte) == 1; text += 2)
        bytes[count++] = (uint8_t)byte;
    return count;
}

/* ---- a connection */

/* The address at which the emulator is looked for. */
static const char *address = "127.0.0.1";

static int opened(uint16_t port) {
    struct sockaddr_in place = {.sin_family = AF_INET, .sin_port = htons(port)};
    struct timeval patience = {.tv_sec = 20};
    int yes = 1, descriptor = socket(AF_INET, SOCK_STREAM, 0);
    if (descriptor < 0 || inet_pton(AF_INET, address, &place.sin_addr) != 1)
        fail("no socket", (uint64_t)errno);
    if (connect(descriptor, (struct sockaddr *)&place, sizeof place) != 0) {
        close(descriptor);
        return -1;
    }
    setsockopt(descriptor, IPPROTO_TCP, TCP_NODELAY, &yes, sizeof yes);
    setsockopt(descriptor, SOL_SOCKET, SO_RCVTIMEO, &patience, sizeof patience);
    setsockopt(descriptor, SOL_SOCKET, SO_SNDTIMEO, &patience, sizeof patience);
    return descriptor;
}

static bool received(int descriptor, uint8_t *bytes, size_t len) {
    while (len > 0) {
        ssize_t count = recv(descriptor, bytes, len, 0);
        if (count <= 0)
            return false;
        bytes += count;
        len -= (size_t)count;
    }
    return true;
}

static bool sent(int descriptor, const uint8_t *bytes, size_t len) {
    return send(descriptor, bytes, len, MSG_NOSIGNAL) == (ssize_t)len;
}

/* Sends a frame and takes its response; the response code, or -1 where the connection broke. */
static int64_t asked(int descriptor, const uint8_t *command, size_t len, uint8_t *reply) {
    if (!sent(descriptor, command, len) || !received(descriptor, reply, 10))
        return -1;
    size_t size = number32(reply + 2);
    if (size < 10 || size > REPLY_BYTES)
        fail("a response of another size", size);
    return received(descriptor, reply + 10, size - 10) ? (int64_t)number32(reply + 6) : -1;
}

static int64_t asked_text(int descriptor, const char *text, uint8_t *reply) {
    uint8_t command[REPLY_BYTES];
    return asked(descriptor, command, bytes_of(text, command), reply);
}

#define STARTUP "80010000000c000001440000"
#define EXTEND_16                                                        \
    "80020000004100000182000000100000000940000009000001000000000001000b" \
    "6161616161616161616161616161616161616161616161616161616161616161"
#define RESET_16 "80020000001b0000013d0000001000000009400000090000010000"
#define READ_16 "8001000000140000017e00000001000b03000001"

/* A new client is answered. */
static void is_served(uint16_t port) {
    uint8_t reply[REPLY_BYTES];
    int descriptor = opened(port);
    int64_t code = descriptor < 0 ? -1 : asked_text(descriptor, READ_16, reply);
    if (code != 0 && code != 0x100 && code != 0x101)
        fail("a client is not answered", (uint64_t)code);
    close(descriptor);
}

/* ---- kill */

#define INDICES 3

/* What was answered of each counter: its value last read, and of all counters the greatest. */
struct known {
    uint64_t values[INDICES];
    uint64_t greatest;
    uint64_t reads;
};

static pid_t started(char **words) {
    pid_t child = fork();
    if (child < 0)
        fail("no process", (uint64_t)errno);
    if (child == 0) {
        int nothing = open("/dev/null", O_RDWR);
        dup2(nothing, 2);
        execv(words[0], words);
        _exit(127);
    }
    emulator = child;
    return child;
}

/* Takes all room that is left for a file's bytes, and what becomes free, until the process is killed. */
static void fill(const char *path) {
    static const uint8_t zeros[4096];
    int descriptor = open(path, O_WRONLY | O_CREAT | O_TRUNC, 0600);
    while (descriptor >= 0)
        if (write(descriptor, zeros, sizeof zeros) <= 0)
            pause_for(200);
}

/* A process that kills another one after some time; or with the name of a file, fills its disk by that file. */
static pid_t killer_of(pid_t child, long microseconds, const char *file) {
    pid_t killer = fork();
    if (killer < 0)
        fail("no process", (uint64_t)errno);
    if (killer == 0) {
        pause_for(microseconds);
        if (file)
            fill(file);
        else
            kill(child, SIGKILL);
        _exit(0);
    }
    return killer;
}

static int64_t by_owner(int descriptor, const char *form, uint32_t index, uint8_t *reply) {
    char text[256];
    snprintf(text, sizeof text, form, index);
    return asked_text(descriptor, text, reply);
}

#define DEFINE "80020000002d0000012a40000001000000094000000900000100000000000e%08x000b020600160000" "0008"
#define INCREMENT "80020000001f0000013440000001%08x00000009400000090000010000"
#define READ "8002000000230000014e40000001%08x0000000940000009000001000000080000"
#define UNDEFINE "80020000001f0000012240000001%08x00000009400000090000010000"

/* Reads a counter, and compares it with what was answered before; `least` is the least value that it may have. */
static bool read_counter(int descriptor, struct known *known, int which, uint64_t least, const char *fault) {
    uint8_t reply[REPLY_BYTES];
    int64_t code = by_owner(descriptor, READ, 0x01800001u + (uint32_t)which, reply);
    if (code < 0)
        return false;
    if (code == 0x14A && least == 0)
        return true;
    if (code != 0)
        fail("a counter can't be read", (uint64_t)code);
    uint64_t value = (uint64_t)number32(reply + 16) << 32 | number32(reply + 20);
    if (value < least)
        fail(fault, value);
    known->values[which] = value;
    known->reads++;
    if (value > known->greatest)
        known->greatest = value;
    return true;
}

/* One step with a random counter: the last of them is now and then undefined and defined again. */
static bool step(int descriptor, struct known *known) {
    uint8_t reply[REPLY_BYTES];
    int which = (int)below(INDICES);
    uint32_t index = 0x01800001u + (uint32_t)which;
    bool renewed = which == INDICES - 1 && below(4) == 0;
    if (renewed) {
        uint64_t greatest = known->greatest;
        int64_t code = by_owner(descriptor, UNDEFINE, index, reply);
        if (code < 0 || by_owner(descriptor, DEFINE, index, reply) < 0)
            return false;
        known->values[which] = greatest;
    }
    int64_t code = by_owner(descriptor, INCREMENT, index, reply);
    if (code == 0x28B) {
        /* It was killed between undefining and defining. */
        known->values[which] = known->greatest;
        return by_owner(descriptor, DEFINE, index, reply) >= 0;
    }
    if (code < 0)
        return false;
    if (code != 0)
        fail("a counter can't be incremented", (uint64_t)code);
    return read_counter(descriptor, known, which, known->values[which] + 1, "a value came twice, or went back");
}

/* What was answered before the kill is there after it. */
static bool compare_known(int descriptor, struct known *known) {
    uint8_t reply[REPLY_BYTES];
    for (int i = 0; i < INDICES; i++) {
        uint32_t index = 0x01800001u + (uint32_t)i;
        int64_t code = by_owner(descriptor, "80010000000e00000169%08x", index, reply);
        if (code < 0)
            return false;
        if (code == 0x18B && i < INDICES - 1 && known->values[i] > 0)
            fail("a counter is gone", index);
        if (code == 0x18B) {
            known->values[i] = known->greatest;
            if (by_owner(descriptor, DEFINE, index, reply) < 0)
                return false;
        } else if (i < INDICES - 1 && !read_counter(descriptor, known, i, known->values[i], "a value went back")) {
            return false;
        }
    }
    return true;
}

/* It ended as it has to: by the kill, or by itself, since the disk of the file was full. */
static bool is_wanted(int status, const char *file) {
    return file ? WIFEXITED(status) && WEXITSTATUS(status) == 3 : WIFSIGNALED(status) && WTERMSIG(status) == SIGKILL;
}

static void kill_once(uint16_t port, char **words, struct known *known, const char *file) {
    uint8_t reply[REPLY_BYTES];
    int status;
    pid_t child = started(words), killer = killer_of(child, (long)below(80000), file);
    siginfo_t info = {0};
    int descriptor = -1;
    double end = now() + 20;
    while (descriptor < 0 && now() < end &&
           (waitid(P_PID, (id_t)child, &info, WEXITED | WNOHANG | WNOWAIT), info.si_pid == 0)) {
        descriptor = opened(port);
        if (descriptor < 0)
            pause_for(200);
    }
    if (descriptor >= 0 && asked_text(descriptor, STARTUP, reply) >= 0 && compare_known(descriptor, known))
        while (step(descriptor, known)) {
        }
    if (descriptor >= 0)
        close(descriptor);
    if (waitpid(child, &status, 0) != child || !is_wanted(status, file))
        fail("the emulator ended otherwise", (uint64_t)status);
    emulator = 0;
    kill(killer, SIGKILL);
    waitpid(killer, NULL, 0);
    if (file && unlink(file) != 0)
        fail("the disk was not full", (uint64_t)errno);
}

static void kill_often(uint16_t port, uint32_t times, const char *file, char **words) {
    struct known known = {.reads = 0};
    for (uint32_t i = 0; i < times; i++)
        kill_once(port, words, &known, file);
    if (known.reads < times)
        fail("hardly a counter was read", known.reads);
    printf("%u kills, %llu values read, the greatest %llu\n", times, (unsigned long long)known.reads,
           (unsigned long long)known.greatest);
}

/* ---- again */

#define PLACES 8

/* Who may increment a counter: the owner, its own value, or a policy. */
enum way { OWNER = 1 << 1, VALUE = 1 << 2, POLICY = 1 << 3 };

/* What a policy asserts, in this order. */
enum { REGISTERS = 1, COMMAND = 2, AUTH_VALUE = 4, EITHER = 8 };

/* A counter as it must be: how it is incremented, its value by the rule of Part 3, 31.8, and what TPM2_NV_ReadPublic
 * answered last. */
struct made {
    bool there;
    bool written;
    enum way way;
    uint32_t assertions;
    uint32_t extends;
    uint64_t value;
    size_t area_len;
    uint8_t area[128];
};

/* Asks what the form and its numbers spell, and wants this code. */
static void want(int descriptor, int64_t wanted, uint8_t *reply, const char *form, ...) {
    char text[512];
    va_list numbers;
    va_start(numbers, form);
    vsnprintf(text, sizeof text, form, numbers);
    va_end(numbers);
    int64_t code = asked_text(descriptor, text, reply);
    if (code != wanted) {
        printf("%s: ", text);
        fail("it is answered with another code", (uint64_t)code);
    }
}

static void text_of(const uint8_t *bytes, size_t len, char *text) {
    for (size_t i = 0; i < len; i++)
        snprintf(text + 2 * i, 3, "%02x", bytes[i]);
}

static void get_digest(int descriptor, uint32_t session, char digest[65]) {
    uint8_t reply[REPLY_BYTES];
    want(descriptor, 0, reply, "80010000000e00000189%08x", session);
    text_of(reply + 12, 32, digest);
}

/* A session of this type (1 a policy, 3 a trial) with the counter's policy, over the registers that it wants; its
 * handle. */
static uint32_t session_for(int descriptor, unsigned type, const struct made *made, char digest[65]) {
    uint8_t reply[REPLY_BYTES];
    want(descriptor, 0, reply, RESET_16);
    for (uint32_t i = 0; i < made->extends; i++)
        want(descriptor, 0, reply, EXTEND_16);
    want(descriptor, 0, reply,
         "80010000002b00000176400000074000000700100102030405060708090a0b0c0d0e0f100000%02x0010000b", type);
    uint32_t session = number32(reply + 10);
    if (made->assertions & REGISTERS)
        want(descriptor, 0, reply, "80010000001a0000017f%08x000000000001000b03000081", session);
    if (made->assertions & COMMAND)
        want(descriptor, 0, reply, "8001000000120000016c%08x00000134", session);
    if (made->assertions & AUTH_VALUE)
        want(descriptor, 0, reply, "80010000000e0000016b%08x", session);
    get_digest(descriptor, session, digest);
    if (made->assertions & EITHER) {
        want(descriptor, 0, reply, "80010000005600000171%08x000000020020%s0020%s", session, digest, digest);
        get_digest(descriptor, session, digest);
    }
    return session;
}

static void define_any(int descriptor, uint32_t index, struct made *made) {
    uint8_t reply[REPLY_BYTES];
    char digest[65] = "";
    *made = (struct made){
        .there = true, .way = (enum way)(1 << (1 + below(3))), .assertions = below(16), .extends = below(3)};
    if (made->way == POLICY)
        want(descriptor, 0, reply, "80010000000e00000165%08x", session_for(descriptor, 3, made, digest));
    unsigned len = (unsigned)strlen(digest) / 2;
    want(descriptor, 0, reply,
         "8002%08x0000012a4000000100000009400000090000010000" "000000%02x%08x000b%08x%04x%s0008", 45 + len, 14 + len,
         index, 0x02020010 | made->way, len, digest);
}

static void increment_any(int descriptor, uint32_t index, struct made *made, uint64_t *greatest) {
    uint8_t reply[REPLY_BYTES];
    char digest[65];
    if (made->way == POLICY)
        want(descriptor, 0, reply,
         "80020000002f00000134%08x%08x00000019%08x00100102030405060708090a0b0c0d0e0f10000000", index, index,
             session_for(descriptor, 1, made, digest));
    else
        want(descriptor, 0, reply, "80020000001f00000134%08x%08x00000009400000090000010000",
             made->way == OWNER ? 0x40000001 : index, index);
    made->value = made->written ? made->value + 1 : *greatest + 1;
    made->written = true;
    if (made->value > *greatest)
        *greatest = made->value;
}

static uint32_t index_of(uint32_t place) {
    return 0x01000000 + 0x00FFFFFF / PLACES * (place + 1);
}

/* Reads all that is there, and compares it with what was there at the end of the boot before. */
static void compare_all(int descriptor, struct made *all, bool first) {
    uint8_t reply[REPLY_BYTES];
    for (uint32_t i = 0; i < PLACES; i++) {
        uint32_t index = index_of(i);
        want(descriptor, all[i].there ? 0 : 0x18B, reply, "80010000000e00000169%08x", index);
        size_t len = number32(reply + 2) - 10;
        if (all[i].there && first && (len != all[i].area_len || memcmp(all[i].area, reply + 10, len) != 0))
            fail("a counter has another public area or Name", index);
        if (!all[i].there || len > sizeof all[i].area)
            continue;
        memcpy(all[i].area, reply + 10, len);
        all[i].area_len = len;
        want(descriptor, all[i].written ? 0 : 0x14A, reply, READ, index);
        if (all[i].written && ((uint64_t)number32(reply + 16) << 32 | number32(reply + 20)) != all[i].value)
            fail("a counter has another value", index);
    }
}

/* A new counter, if one has room, begins behind the greatest value of all. */
static void begin_one(int descriptor, struct made *all, uint64_t *greatest) {
    uint32_t place = 0;
    while (place < PLACES && all[place].there)
        place++;
    if (place == PLACES)
        return;
    define_any(descriptor, index_of(place), &all[place]);
    increment_any(descriptor, index_of(place), &all[place], greatest);
}

static void change_any(int descriptor, struct made *all, uint64_t *greatest) {
    uint8_t reply[REPLY_BYTES];
    uint32_t which = below(PLACES), index = index_of(which);
    if (!all[which].there)
        define_any(descriptor, index, &all[which]);
    else if (below(3) == 0) {
        want(descriptor, 0, reply, UNDEFINE, index);
        all[which].there = false;
    } else
        for (uint32_t times = 1 + below(4); times > 0; times--)
            increment_any(descriptor, index, &all[which], greatest);
}

static void start_again(uint16_t port, uint32_t times, char **words) {
    static struct made all[PLACES];
    uint64_t greatest = 0;
    uint8_t reply[REPLY_BYTES];
    for (uint32_t i = 0; i < times; i++) {
        int status, descriptor = -1;
        pid_t child = started(words);
        for (double end = now() + 20; descriptor < 0 && now() < end; pause_for(1000))
            descriptor = opened(port);
        if (descriptor < 0)
            fail("the emulator does not listen", i);
        want(descriptor, 0, reply, STARTUP);
        compare_all(descriptor, all, true);
        begin_one(descriptor, all, &greatest);
        for (uint32_t changes = below(12); changes > 0; changes--)
            change_any(descriptor, all, &greatest);
        compare_all(descriptor, all, false);
        kill(child, SIGTERM);
        if (waitpid(child, &status, 0) != child || status != 0)
            fail("the emulator ended otherwise", (uint64_t)status);
        emulator = 0;
        close(descriptor);
    }
    printf("%u boots, the greatest %llu\n", times, (unsigned long long)greatest);
}

/* ---- frames */

/* Commands that the device or the host answers; those with sessions name some that may be there. */
static const char *const commands[] = {
    STARTUP,
    READ_16,
    EXTEND_16,
    RESET_16,
    "80020000002000000" "13c000000100000000940000009000001000000" "03616263",
    "8001000000130000013c000000100003616263",
    "80020000002d0000012a40000001000000094000000900000100000000000e01800001000b020600160000" "0008",
    "80020000001f000001344000000101800001000000094000000900" "00010000",
    "8002000000230000014e4000000101800001000000094000000900" "0001000000080000",
    "80010000000e0000016901800001",
    "80020000001f00000122400000010180000100000009400000090000010000",
    "80010000002b00000176400000074000000700100102030405060708090a0b0c0d0e0f10000000" "0010000b",
    "80010000002b00000176400000074000000700100102030405060708090a0b0c0d0e0f10000001" "0010000b",
    "80010000000e0000016b03000000",
    "8001000000120000016c0300000000000134",
    "80010000000e0000018003000000",
    "80010000000e0000018903000000",
    "80010000001a0000017f0300000000000000000" "1000b03000001",
    "80010000000e0000016503000000",
    "80010000000e0000016203000000",
    "80010000003c00000161000000000000000103000000400000070020"
    "0000000000000000000000000000000000000000000000000000000000000000",
    "8001000000160000017a000000060000010000000040",
    "8001000000160000017a000000010100000000000040",
    "8001000000160000017a000000000000000000000040",
    "8001000000160000017a000000020000000000000040",
    "8001000000160000017a000000050000000000000040",
    "80010000000c0000017b0040",
    "80010000000b0000014301",
    "80010000000a0000017c",
    "80010000000c000001450000",
    "80010000000a00000181",
    "00c10000000a000000f1",
    "80010000001000000146000401020304",
    "80020000001d000001294000000c00000009400000090000010000" "0000",
    "800200000020000001214000000c00000009400000090000010000" "4000000c00",
    "80010000001500000" "17d0003616263000b40000007",
    "80010000001000000142" "00000001000b",
    "80010000001a0000018a00010010001008000000" "0000",
    "80020000002900000" "17b00000019020000000010000102030405060708090a0b0c0d0e0f8100000004",
    "80020000004900000" "17b00000039020000000010000102030405060708090a0b0c0d0e0f810020"
    "0000000000000000000000000000000000000000000000000000000000000000" "0004",
};

#define COMMANDS (sizeof commands / sizeof *commands)
#define LONGEST 640

/* Mostly says the size that a frame has, so that the next one is read as one, too. */
static size_t sized(uint8_t *bytes, size_t len) {
    if (len >= 10 && below(64) != 0)
        put32(bytes + 2, (uint32_t)len);
    return len;
}

/* One of the commands, whole, changed in some bytes, cut, or with more behind it; or random bytes. */
static size_t any_frame(uint8_t *bytes) {
    if (below(16) == 0) {
        size_t len = 10 + below(64) - (below(64) == 0 ? below(11) : 0);
        for (size_t i = 0; i < len; i++)
            bytes[i] = (uint8_t)any();
        return sized(bytes, len);
    }
    size_t len = bytes_of(commands[below(COMMANDS)], bytes);
    switch (below(6)) {
    case 0:
        for (uint32_t changes = 1 + below(3); changes > 0; changes--)
            bytes[below((uint32_t)len)] ^= (uint8_t)(1u << below(8));
        break;
    case 1:
        len = below(64) == 0 ? below((uint32_t)len + 1) : 10 + below((uint32_t)len - 9);
        break;
    case 2:
        for (uint32_t more = below(8); more > 0; more--)
            bytes[len++] = (uint8_t)any();
        break;
    default:
        return len;
    }
    return sized(bytes, len);
}

static size_t any_envelope(uint8_t *bytes) {
    if (below(256) == 0) {
        put32(bytes, below(32));
        return 4;
    }
    size_t len = any_frame(bytes + 9);
    put32(bytes, 8);
    bytes[4] = below(64) == 0;
    put32(bytes + 5, below(256) == 0 ? any() : below(256) == 0 ? below(5000) : (uint32_t)len);
    return 9 + len;
}

static size_t any_signal(uint8_t *bytes) {
    put32(bytes, below(64) == 0 ? any() : below(4) == 0 ? below(24) : 1);
    return below(64) == 0 ? below(4) : 4;
}

/* All but 3, which ends the emulator. */
static size_t any_control(uint8_t *bytes) {
    uint32_t number = below(20);
    put32(bytes, below(16) == 0 ? any() | 1u << 31 : number == 3 ? 1 : number);
    put32(bytes + 4, below(4) == 0 ? any() : 0);
    return below(16) == 0 ? below(4) : number == 5 ? 5 : number == 2 || number == 17 ? 8 : 4;
}

/* Takes what has come, and doesn't wait. */
static void drain(int descriptor) {
    uint8_t bytes[65536];
    while (recv(descriptor, bytes, sizeof bytes, MSG_DONTWAIT) > 0) {
    }
}

/* A connection's messages, as many as are left at most; how many were sent. */
static uint32_t send_some(uint16_t mssim, uint16_t swtpm, uint32_t left) {
    uint32_t kind = below(16), most = 1 + below(300), count = 0;
    bool control = kind == 15;
    uint16_t ports[] = {mssim, (uint16_t)(mssim + 1), swtpm, (uint16_t)(swtpm + 1)};
    int descriptor = opened(ports[kind < 6 ? 0 : kind < 8 ? 1 : control ? 3 : 2]);
    if (descriptor < 0)
        fail("no connection", (uint64_t)errno);
    while (count < most && count < left) {
        uint8_t bytes[LONGEST];
        size_t len = kind < 6   ? any_envelope(bytes)
                     : kind < 8 ? any_signal(bytes)
                     : control  ? any_control(bytes)
                                : any_frame(bytes);
        count++;
        if (!sent(descriptor, bytes, len))
            break;
        drain(descriptor);
        if (control) /* a message that is cut would be joined to the next */
            break;
    }
    /* Mostly it waits until all that it sent is answered or the other side has had enough, and else it is gone at
     * once. */
    if (below(4)) {
        uint8_t bytes[65536];
        shutdown(descriptor, SHUT_WR);
        while (recv(descriptor, bytes, sizeof bytes, 0) > 0) {
        }
    } else {
        struct linger at_once = {.l_onoff = 1, .l_linger = 0};
        setsockopt(descriptor, SOL_SOCKET, SO_LINGER, &at_once, sizeof at_once);
    }
    close(descriptor);
    return count;
}

static void send_frames(uint16_t mssim, uint16_t swtpm, uint32_t count) {
    uint32_t done = 0, connections = 0;
    uint8_t on[4] = {0, 0, 0, 1};
    while (done < count) {
        done += send_some(mssim, swtpm, count - done);
        if (++connections % 256 == 0)
            is_served(swtpm);
        if (connections % 16 == 0) {
            int descriptor = opened((uint16_t)(mssim + 1));
            if (descriptor < 0 || !sent(descriptor, on, sizeof on))
                fail("no power", connections);
            close(descriptor);
        }
    }
    is_served(swtpm);
    printf("%u messages over %u connections\n", done, connections);
}

/* ---- messages in two parts */

static void send_parts(uint16_t port, uint32_t count) {
    uint8_t envelope[9] = {0, 0, 0, 8, 0, 0, 0, 0, 20}, frame[64], reply[REPLY_BYTES];
    int descriptor = opened(port), no = 0;
    double begin = now();
    setsockopt(descriptor, IPPROTO_TCP, TCP_NODELAY, &no, sizeof no);
    for (uint32_t i = 0; i < count; i++) {
        size_t len = bytes_of(READ_16, frame);
        if (descriptor < 0 || !sent(descriptor, envelope, sizeof envelope) || !sent(descriptor, frame, len) ||
            !received(descriptor, reply, 4) || !received(descriptor, reply + 4, number32(reply) + 4))
            fail("a command in two parts is not answered", i);
    }
    printf("%.0f\n", 1000 * (now() - begin));
    close(descriptor);
}

/* ---- many connections */

/* As many descriptors as there may be. */
static void want_descriptors(uint32_t count) {
    struct rlimit limit;
    if (getrlimit(RLIMIT_NOFILE, &limit) != 0 || (limit.rlim_max != RLIM_INFINITY && limit.rlim_max < count))
        fail("there may not be so many descriptors", count);
    limit.rlim_cur = count;
    setrlimit(RLIMIT_NOFILE, &limit);
}

static void open_many(uint16_t port, uint32_t count) {
    uint8_t frame[64], reply[REPLY_BYTES];
    size_t len = bytes_of(READ_16, frame);
    int *descriptors = calloc(count, sizeof *descriptors);
    want_descriptors(count + 32);
    for (uint32_t i = 0; i < count; i++) {
        descriptors[i] = opened(port);
        if (descriptors[i] < 0 || !sent(descriptors[i], frame, 1 + i % (len - 1)))
            fail("no connection", i);
    }
    is_served(port);
    int slow = opened(port);
    for (size_t i = 0; i < len; i++) {
        if (!sent(slow, frame + i, 1))
            fail("a slow client is cut off", i);
        pause_for(20000);
        is_served(port);
    }
    if (!received(slow, reply, 10))
        fail("a slow client is not answered", 0);
    close(slow);
    for (uint32_t i = 0; i < count; i++)
        close(descriptors[i]);
    is_served(port);
    printf("%u connections\n", count);
    free(descriptors);
}

static void hold_many(uint16_t port, uint32_t count) {
    uint8_t frame[64], reply[REPLY_BYTES];
    size_t len = bytes_of(READ_16, frame);
    int *descriptors = calloc(count, sizeof *descriptors);
    want_descriptors(count + 32);
    for (uint32_t i = 0; i < count; i++) {
        descriptors[i] = opened(port);
        if (descriptors[i] < 0 || !sent(descriptors[i], frame, 1 + i % (len - 1)))
            fail("no connection", i);
    }
    for (uint32_t i = 0; i < count; i++) {
        size_t begun = 1 + i % (len - 1);
        if (asked(descriptors[i], frame + begun, len - begun, reply) != 0)
            fail("a connection is not answered", i);
    }
    int more = opened(port);
    if (more < 0 || asked(more, frame, len, reply) != 0)
        fail("one connection more is not answered", count);
    if (recv(descriptors[0], reply, 1, 0) != 0)
        fail("the connection that was quiet longest is not closed", 0);
    for (uint32_t i = 1; i < count; i++)
        if (recv(descriptors[i], reply, 1, MSG_DONTWAIT) >= 0 || errno != EAGAIN)
            fail("another connection is closed", i);
    for (uint32_t i = 0; i < count; i++)
        close(descriptors[i]);
    close(more);
    free(descriptors);
}

/* ---- lines */

/* Waits for what is answered, and prints it; a response that comes in parts is told as a whole. */
static void print_answer(int descriptor) {
    uint8_t bytes[REPLY_BYTES];
    struct pollfd polled = {.fd = descriptor, .events = POLLIN};
    ssize_t count = poll(&polled, 1, 2000) > 0 ? recv(descriptor, bytes, sizeof bytes, 0) : -1;
    for (ssize_t i = 0; i < count; i++)
        printf("%02x", bytes[i]);
    puts(count > 0 ? "" : count == 0 ? "closed" : "-");
    fflush(stdout);
}

/* A line of standard input without its end. */
static bool read_line(char *line, int room) {
    if (!fgets(line, room, stdin))
        return false;
    line[strcspn(line, "\n")] = 0;
    return true;
}

static void ask_lines(uint16_t port) {
    static char line[2 * REPLY_BYTES + 8];
    uint8_t bytes[REPLY_BYTES];
    int descriptor = opened(port);
    while (descriptor >= 0 && read_line(line, sizeof line)) {
        if (!sent(descriptor, bytes, bytes_of(line, bytes)))
            fail("the connection is closed", port);
        print_answer(descriptor);
    }
    close(descriptor);
}

/* ---- QEMU's channel */

static int opened_channel(const char *path) {
    struct sockaddr_un place = {.sun_family = AF_UNIX};
    struct timeval patience = {.tv_sec = 20};
    int descriptor = socket(AF_UNIX, SOCK_STREAM, 0);
    snprintf(place.sun_path, sizeof place.sun_path, "%s", path);
    if (descriptor < 0 || connect(descriptor, (struct sockaddr *)&place, sizeof place) != 0)
        return -1;
    setsockopt(descriptor, SOL_SOCKET, SO_RCVTIMEO, &patience, sizeof patience);
    setsockopt(descriptor, SOL_SOCKET, SO_SNDTIMEO, &patience, sizeof patience);
    return descriptor;
}

#define DESCRIPTORS 4

/* Sends the bytes in one write, with so many descriptors, which are then closed here; `kept` is the other end of
 * one alone. */
static bool handed(int channel, const uint8_t *bytes, size_t len, uint32_t count, int *kept) {
    union {
        struct cmsghdr aligned;
        char bytes[CMSG_SPACE(DESCRIPTORS * sizeof(int))];
    } room;
    int pair[2], given[DESCRIPTORS];
    struct iovec part = {(void *)(uintptr_t)bytes, len};
    struct msghdr message = {.msg_iov = &part, .msg_iovlen = 1};
    memset(&room, 0, sizeof room);
    for (uint32_t i = 0; i < count; i++) {
        if (socketpair(AF_UNIX, SOCK_STREAM, 0, pair) != 0)
            fail("no pair of sockets", (uint64_t)errno);
        given[i] = pair[0];
        if (count > 1) {
            close(pair[1]);
        } else {
            if (*kept >= 0)
                close(*kept);
            *kept = pair[1];
        }
    }
    if (count > 0) {
        message.msg_control = &room;
        message.msg_controllen = CMSG_SPACE(count * sizeof(int));
        struct cmsghdr *control = CMSG_FIRSTHDR(&message);
        control->cmsg_level = SOL_SOCKET;
        control->cmsg_type = SCM_RIGHTS;
        control->cmsg_len = CMSG_LEN(count * sizeof(int));
        memcpy(CMSG_DATA(control), given, count * sizeof(int));
    }
    bool done = sendmsg(channel, &message, MSG_NOSIGNAL) == (ssize_t)len;
    for (uint32_t i = 0; i < count; i++)
        close(given[i]);
    return done;
}

static void ask_channel(const char *path) {
    static char line[2 * REPLY_BYTES + 8];
    uint8_t bytes[REPLY_BYTES];
    int channel = opened_channel(path), kept = -1;
    while (channel >= 0 && read_line(line, sizeof line)) {
        bool over = line[0] == '@';
        uint32_t count = line[0] >= '0' && line[0] <= '4' && line[1] == '+' ? (uint32_t)(line[0] - '0') : 0;
        size_t len = bytes_of(line + (over ? 1 : line[1] == '+' ? 2 : 0), bytes);
        if (over ? !sent(kept, bytes, len) : !handed(channel, bytes, len, count, &kept))
            fail("the connection is closed", len);
        print_answer(over ? kept : channel);
    }
    close(channel);
    if (kept >= 0)
        close(kept);
}

/* Mostly one that is understood, but for SHUTDOWN, which ends the emulator; sometimes a cut one, or a long one. Behind
 * the number no byte is a small one but 0, so that nothing is read as SHUTDOWN where it is cut anew. */
static size_t any_message(uint8_t *bytes) {
    static const uint8_t lengths[20] = {4, 4, 8, 4, 4, 8, 4, 8, 4, 4, 4, 8, 16, 16, 4, 4, 4, 8, 12, 4};
    uint32_t number = below(20);
    for (size_t i = 0; i < 64; i++)
        bytes[i] = below(4) == 0 ? (uint8_t)(32 + below(224)) : 0;
    put32(bytes, below(16) == 0 ? any() | 1u << 31 : number == 3 ? 16 : number);
    if (number == 12 || number == 13) {
        put32(bytes + 8, below(3));
        put32(bytes + 12, below(64) == 0 ? any() | 1u << 12 : 32 + below(200));
    }
    return below(8) == 0 ? 1 + below(64) : number == 5 && below(2) ? 5 : lengths[number];
}

/* What the device keeps is had, and set again as QEMU sets it: STOP, and then the message and the blob apart. */
static void set_as_it_is(int channel) {
    static const uint8_t stop[4] = {0, 0, 0, 14}, get[16] = {0, 0, 0, 12, 0, 0, 0, 0, 0, 0, 0, 1};
    uint8_t set[16] = {0, 0, 0, 13, 0, 0, 0, 0, 0, 0, 0, 1}, reply[REPLY_BYTES];
    if (!sent(channel, stop, sizeof stop) || !received(channel, reply, 4) || !sent(channel, get, sizeof get) ||
        !received(channel, reply, 16) || number32(reply) != 0 || number32(reply + 12) > REPLY_BYTES - 16)
        fail("no state blob is told", (uint64_t)errno);
    size_t len = number32(reply + 12);
    put32(set + 12, (uint32_t)len);
    if (!received(channel, reply + 16, len) || !sent(channel, set, sizeof set))
        fail("a state blob is cut", len);
    pause_for(2000);
    if (!sent(channel, reply + 16, len) || !received(channel, reply, 4) || number32(reply) != 0)
        fail("a state blob is refused", number32(reply));
}

/* QEMU's first messages, and a frame over the descriptor that it hands over; the one before it is closed. */
static void start_as_qemu(const char *path) {
    static const uint8_t data[4] = {0, 0, 0, 16}, init[8] = {0, 0, 0, 2};
    uint8_t reply[REPLY_BYTES];
    int channel = opened_channel(path), before = -1, kept = -1;
    if (channel < 0 || !handed(channel, data, sizeof data, 1, &before) || !received(channel, reply, 4) ||
        !handed(channel, data, sizeof data, 1, &kept) || !received(channel, reply, 4) || number32(reply) != 0)
        fail("a new channel is not served", (uint64_t)errno);
    if (recv(before, reply, 1, MSG_DONTWAIT) != 0)
        fail("the descriptor before stays open", (uint64_t)errno);
    close(before);
    set_as_it_is(channel);
    if (asked_text(kept, READ_16, reply) < 0 || !sent(channel, init, sizeof init) || !received(channel, reply, 4) ||
        number32(reply) != 0)
        fail("a new channel has no power", (uint64_t)errno);
    if (asked_text(kept, STARTUP, reply) != 0 || asked_text(kept, READ_16, reply) != 0)
        fail("a new channel has no device", number32(reply + 6));
    close(kept);
    close(channel);
}

static uint32_t send_messages(const char *path, uint32_t left) {
    uint32_t most = 1 + below(300), count = 0;
    int channel = opened_channel(path), kept = -1;
    if (channel < 0)
        fail("no channel", (uint64_t)errno);
    while (count < most && count < left) {
        uint8_t bytes[LONGEST];
        size_t len = any_message(bytes);
        count++;
        if (!handed(channel, bytes, len, below(4) == 0 ? below(DESCRIPTORS + 1) : 0, &kept))
            break;
        if (below(4))
            drain(channel);
        if (kept >= 0 && below(4) == 0 && (!sent(kept, bytes, any_frame(bytes)) || below(4) == 0)) {
            close(kept);
            kept = -1;
        }
    }
    close(channel);
    if (kept >= 0)
        close(kept);
    return count;
}

static void send_channel(const char *path, uint32_t count) {
    uint32_t done = 0;
    while (done < count)
        done += send_messages(path, count - done);
    start_as_qemu(path);
    printf("%u messages\n", done);
}

/* ---- speed */

static void measure(uint16_t port, const char *name, const char *text, double seconds) {
    uint8_t command[REPLY_BYTES], reply[REPLY_BYTES];
    size_t len = bytes_of(text, command);
    int descriptor = opened(port);
    uint64_t count = 0;
    double begin = now();
    while (now() < begin + seconds) {
        for (int i = 0; i < 16; i++)
            if (descriptor < 0 || asked(descriptor, command, len, reply) != 0)
                fail("a command is refused", number32(reply + 6));
        count += 16;
    }
    printf("%s %.0f a second\n", name, (double)count / (now() - begin));
    close(descriptor);
}

static void measure_all(uint16_t port, double seconds) {
    uint8_t reply[REPLY_BYTES];
    int descriptor = opened(port);
    if (descriptor < 0)
        fail("no connection", port);
    asked_text(descriptor, STARTUP, reply);
    by_owner(descriptor, DEFINE, 0x01800001, reply);
    close(descriptor);
    measure(port, "PCR_Read", commands[1], seconds);
    measure(port, "PCR_Extend", commands[2], seconds);
    measure(port, "PCR_Reset", commands[3], seconds);
    measure(port, "NV_Increment", commands[7], seconds);
    measure(port, "NV_Read", commands[8], seconds);
}

int main(int argc, char **argv) {
    const char *what = argc > 1 ? argv[1] : "";
    uint16_t port = argc > 2 ? (uint16_t)atoi(argv[2]) : 0;
    if (strcmp(what, "kill") == 0 && argc > 5) {
        seed = strtoull(argv[4], NULL, 10) * 2 + 1;
        kill_often(port, (uint32_t)atoi(argv[3]), NULL, argv + 5);
    } else if (strcmp(what, "full") == 0 && argc > 6) {
        seed = strtoull(argv[4], NULL, 10) * 2 + 1;
        kill_often(port, (uint32_t)atoi(argv[3]), argv[5], argv + 6);
    } else if (strcmp(what, "again") == 0 && argc > 5) {
        seed = strtoull(argv[4], NULL, 10) * 2 + 1;
        start_again(port, (uint32_t)atoi(argv[3]), argv + 5);
    } else if (strcmp(what, "frames") == 0 && argc == 6) {
        seed = strtoull(argv[5], NULL, 10) * 2 + 1;
        send_frames(port, (uint16_t)atoi(argv[3]), (uint32_t)atoi(argv[4]));
    } else if (strcmp(what, "many") == 0 && argc == 4) {
        open_many(port, (uint32_t)atoi(argv[3]));
    } else if (strcmp(what, "parts") == 0 && argc == 4) {
        send_parts(port, (uint32_t)atoi(argv[3]));
    } else if (strcmp(what, "hold") == 0 && argc == 4) {
        hold_many(port, (uint32_t)atoi(argv[3]));
    } else if (strcmp(what, "listens") == 0 && (argc == 3 || argc == 4)) {
        address = argc == 4 ? argv[3] : address;
        return opened(port) < 0;
    } else if (strcmp(what, "ask") == 0 && argc == 3) {
        ask_lines(port);
    } else if (strcmp(what, "channel") == 0 && argc == 3) {
        ask_channel(argv[2]);
    } else if (strcmp(what, "messages") == 0 && argc == 5) {
        seed = strtoull(argv[4], NULL, 10) * 2 + 1;
        send_channel(argv[2], (uint32_t)atoi(argv[3]));
    } else if (strcmp(what, "speed") == 0 && argc == 4) {
        measure_all(port, atof(argv[3]));
    } else {
        fail("words are wanted", (uint64_t)argc);
    }
    return 0;
}
