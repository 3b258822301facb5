/* The emulator: a TPM that TPM software can talk to. docs/EMULATOR.md says how. */
#include "background.h"
#include "fault.h"
#include "machine.h"
#include "server.h"

#include <errno.h>
#include <inttypes.h>
#include <signal.h>
#include <stdio.h>
#include <stdlib.h>
#include <string.h>
#include <unistd.h>

struct words {
    uint16_t mssim; /* 0 where it is not asked for */
    uint16_t swtpm;
    bool stream;
    bool only_device;
    bool startup;
    bool daemon;
    const char *address;
    const char *unixio;
    const char *state;
    const char *record;
    const char *pid;
    bool has_greatest;
    uint64_t greatest;
    uint8_t owner[TPM_OWNER_BYTES];
    size_t owner_len;
};

static const char usage[] =
    "usage: vinjakwe-emulator [--swtpm PORT] [--mssim PORT] [--unixio PATH] [--stdio] [--listen ADDRESS]\n"
    "                         [--state FILE] [--owner HEX] [--greatest NUMBER] [--startup] [--only-device]\n"
    "                         [--record FILE] [--daemon] [--pid FILE]\n"
    "\n"
    "  --swtpm PORT       speak as swtpm does: data at PORT, control at PORT + 1\n"
    "  --mssim PORT       speak as the reference simulator does: commands at PORT, the platform at PORT + 1\n"
    "  --unixio PATH      serve QEMU at this Unix socket: its control channel, and the descriptor that it hands over\n"
    "  --stdio            read commands from standard input, and write responses to standard output\n"
    "  --listen ADDRESS   listen there in place of 127.0.0.1\n"
    "  --state FILE       keep NV memory in this file: the counters, and the greatest value of all\n"
    "  --owner HEX        the owner's authorization value, of at most 48 bytes; else it is empty\n"
    "  --greatest NUMBER  the greatest value that a counter has had, of a device whose file is not there yet\n"
    "  --startup          start the device whenever its power comes on\n"
    "  --only-device      answer nothing but what the device answers\n"
    "  --record FILE      write each command and each response to this file, a line of hexadecimal digits each\n"
    "  --daemon           go to the background as soon as it listens\n"
    "  --pid FILE         write the number of the process to this file as soon as it listens\n"
    "  --version          say the version\n"
    "\n"
    "SIGTERM ends it with status 0. Status 1: a state file that was cut or changed, or no frames; 2: these words;\n"
    "3: a fault of ports, files, memory or random bytes.\n";

static uint64_t number_of(const char *word, const char *text, uint64_t most) {
    char *end;
    errno = 0;
    unsigned long long number = strtoull(text, &end, 10);
    if (text[0] < '0' || text[0] > '9' || *end || errno || number > most)
        fail(STATUS_USAGE, "%s wants a number of at most %llu, and not '%s'", word, (unsigned long long)most, text);
    return number;
}

/* A port with another one behind it. */
static uint16_t port_of(const char *word, const char *text) {
    uint64_t number = number_of(word, text, 65534);
    if (number == 0)
        fail(STATUS_USAGE, "%s wants a port", word);
    return (uint16_t)number;
}

static int digit_of(char digit) {
    const char *digits = "0123456789abcdef0123456789ABCDEF", *at = digit ? strchr(digits, digit) : NULL;
    return at ? (int)((at - digits) % 16) : -1;
}

static size_t bytes_of(const char *text, uint8_t *bytes, size_t most) {
    size_t count = 0;
    for (; *text; text += 2) {
        if (digit_of(text[0]) < 0 || digit_of(text[1]) < 0 || count == most)
            fail(STATUS_USAGE, "--owner wants at most %zu bytes in hexadecimal digits", most);
        bytes[count++] = (uint8_t)(digit_of(text[0]) << 4 | digit_of(text[1]));
    }
    return count;
}

/* What stands behind a word that has a value; NULL for every other word. */
static const char *wanted_behind(const char *word) {
    static const char *const values[][2] = {
        {"--mssim", "a port's number"},
        {"--swtpm", "a port's number"},
        {"--listen", "an address"},
        {"--unixio", "a socket's path"},
        {"--state", "a file"},
        {"--record", "a file"},
        {"--pid", "a file"},
        {"--owner", "hexadecimal digits"},
        {"--greatest", "a number"},
    };
    for (size_t i = 0; i < sizeof values / sizeof values[0]; i++)
        if (strcmp(word, values[i][0]) == 0)
            return values[i][1];
    return NULL;
}

static void take_value(struct words *words, const char *word, const char *value) {
    if (strcmp(word, "--mssim") == 0)
        words->mssim = port_of(word, value);
    else if (strcmp(word, "--swtpm") == 0)
        words->swtpm = port_of(word, value);
    else if (strcmp(word, "--listen") == 0)
        words->address = value;
    else if (strcmp(word, "--unixio") == 0)
        words->unixio = value;
    else if (strcmp(word, "--state") == 0)
        words->state = value;
    else if (strcmp(word, "--record") == 0)
        words->record = value;
    else if (strcmp(word, "--pid") == 0)
        words->pid = value;
    else if (strcmp(word, "--owner") == 0)
        words->owner_len = bytes_of(value, words->owner, sizeof words->owner);
    else {
        words->greatest = number_of(word, value, UINT64_MAX);
        words->has_greatest = true;
    }
}

static void tell(const char *text) {
    fputs(text, stdout);
    exit(fflush(stdout) == 0 ? 0 : STATUS_FAULT);
}

static bool take_word(struct words *words, const char *word) {
    if (strcmp(word, "--stdio") == 0)
        words->stream = true;
    else if (strcmp(word, "--only-device") == 0)
        words->only_device = true;
    else if (strcmp(word, "--startup") == 0)
        words->startup = true;
    else if (strcmp(word, "--daemon") == 0)
        words->daemon = true;
    else if (strcmp(word, "--version") == 0)
        tell("vinjakwe-emulator " VINJAKWE_VERSION "\n");
    else if (strcmp(word, "--help") == 0)
        tell(usage);
    else
        return false;
    return true;
}

/* Each of the two takes its port and the next one. */
static void judge_ports(const struct words *words) {
    int apart = (int)words->mssim - (int)words->swtpm;
    if (words->mssim && words->swtpm && apart >= -1 && apart <= 1)
        fail(STATUS_USAGE, "--mssim %u takes ports %u and %u, and --swtpm %u takes %u and %u: they collide",
             words->mssim, words->mssim, words->mssim + 1u, words->swtpm, words->swtpm, words->swtpm + 1u);
}

static void judge_words(const struct words *words) {
    if (!words->mssim && !words->swtpm && !words->unixio && !words->stream) {
        fputs(usage, stderr);
        fail(STATUS_USAGE, "one of --swtpm, --mssim, --unixio and --stdio is wanted");
    }
    if (words->daemon && words->stream)
        fail(STATUS_USAGE, "--daemon leaves standard input and output, and --stdio serves them");
    judge_ports(words);
}

static void take_words(struct words *words, char **given) {
    for (; *given; given++) {
        if (take_word(words, *given))
            continue;
        const char *wanted = wanted_behind(*given);
        if (!wanted) {
            fputs(usage, stderr);
            fail(STATUS_USAGE, "'%s' is not understood", *given);
        }
        if (!given[1])
            fail(STATUS_USAGE, "%s wants %s", *given, wanted);
        take_value(words, given[0], given[1]);
        given++;
    }
    judge_words(words);
}

/* The device that the file keeps. */
static void restore_device(struct machine *machine, struct state *state, const struct kept *kept,
                           const struct words *words) {
    struct tpm_refusal refusal;
    if (words->has_greatest) {
        state_refuse(state);
        fail(STATUS_USAGE, "%s says the greatest value already", words->state);
    }
    if (machine_restore(machine, kept->bytes, kept->len, &refusal) != TPM_DONE) {
        state_refuse(state);
        fail(STATUS_REFUSED, "%s was cut or changed: code %03" PRIx32 " at byte %" PRIu32, words->state, refusal.code,
             refusal.at);
    }
}

/* A new device, or the one that the file keeps. */
static void make_device(struct machine *machine, struct state *state, const struct words *words) {
    struct kept kept;
    machine->device = library_room(tpm_device_size(), tpm_device_align());
    machine->owner = words->owner;
    machine->owner_len = words->owner_len;
    tpm_device_init(machine->device, machine->owner, machine->owner_len, words->greatest);
    if (!words->state)
        return;
    state_hold(state, words->state);
    if (state_read(state, &kept))
        restore_device(machine, state, &kept, words);
    else
        state_write(state, machine->device);
    machine->state = state;
}

/* Listens where the words say. */
static void listen_to(struct server *server, const struct words *words) {
    if (words->swtpm) {
        server_listen(server, words->address, words->swtpm, SWTPM_DATA);
        server_listen(server, words->address, (uint16_t)(words->swtpm + 1), SWTPM_CONTROL);
    }
    if (words->mssim) {
        server_listen(server, words->address, words->mssim, MSSIM_COMMANDS);
        server_listen(server, words->address, (uint16_t)(words->mssim + 1), MSSIM_PLATFORM);
    }
    if (words->unixio)
        server_listen_unix(server, words->unixio);
}

/* Says where it listens, in one line. */
static void say_places(const struct words *words) {
    const char *comma = "";
    if (!words->swtpm && !words->mssim && !words->unixio)
        return;
    fputs("emulator: listens at ", stderr);
    if (words->swtpm || words->mssim)
        fprintf(stderr, "%s: ", words->address);
    if (words->swtpm) {
        fprintf(stderr, "swtpm at %u, its control at %u", words->swtpm, words->swtpm + 1u);
        comma = "; ";
    }
    if (words->mssim) {
        fprintf(stderr, "%smssim at %u, its platform at %u", comma, words->mssim, words->mssim + 1u);
        comma = "; ";
    }
    if (words->unixio)
        fprintf(stderr, "%sQEMU at %s", comma, words->unixio);
    fputc('\n', stderr);
}

/* While a device is being made nothing is owed to anybody, and what the file keeps is whole. */
static void end_at_once(int number) {
    (void)number;
    _exit(0);
}

static void begin(struct machine *machine, struct state *state, struct capture *capture, const struct words *words) {
    machine->only_device = words->only_device;
    machine->startup = words->startup;
    make_device(machine, state, words);
    if (words->record) {
        capture_begin(capture, words->record);
        machine->capture = capture;
    }
    machine_begin(machine);
}

static void end(struct machine *machine) {
    if (machine->state)
        state_release(machine->state);
    if (machine->capture)
        capture_end(machine->capture);
    free(machine->device);
}

int main(int argc, char **argv) {
    struct sigaction ended = {.sa_handler = end_at_once};
    struct words words = {.address = "127.0.0.1"};
    struct machine machine = {.powered = false};
    struct state state;
    struct capture capture;
    struct server server;
    (void)argc;
    sigaction(SIGTERM, &ended, NULL);
    take_words(&words, argv + 1);
    /* The process that goes on makes the device and holds the file, since a lock is its holder's alone. */
    int waiting = words.daemon ? background_begin() : -1;
    begin(&machine, &state, &capture, &words);
    server_init(&server, &machine);
    if (words.stream)
        server_stream(&server);
    listen_to(&server, &words);
    if (words.pid)
        pid_write(words.pid);
    say_places(&words);
    if (words.daemon)
        background_ready(waiting);
    int status = server_run(&server);
    if (words.pid)
        unlink(words.pid);
    end(&machine);
    return status;
}
