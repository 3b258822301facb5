/* The protocols: what a message is, and what is answered to it. The numbers are those of the reference simulator's
 * TpmTcpProtocol.h and of swtpm's tpm_ioctl.h. */
#include "fault.h"
#include "host.h"
#include "link.h"
#include "wire.h"

#include <string.h>
#include <unistd.h>

static void owe32(struct link *link, uint32_t number) {
    put32(link->answer + link->owed, number);
    link->owed += 4;
}

/* A message that is none: nobody knows where the next one begins, so the connection ends. */
static size_t give_up(struct link *link) {
    link->broken = true;
    return 0;
}

/* ---- mssim: the command port */

enum {
    SIM_POWER_ON = 1,
    SIM_POWER_OFF = 2,
    SIM_PRESENCE_ON = 3,
    SIM_PRESENCE_OFF = 4,
    SIM_COMMAND = 8,
    SIM_CANCEL_ON = 9,
    SIM_CANCEL_OFF = 10,
    SIM_NV_ON = 11,
    SIM_NV_OFF = 12,
    SIM_HANDSHAKE = 15,
    SIM_RESET = 17,
    SIM_SESSION_END = 20
};

/* Locality, size and the command, which states its own size once more: the device judges that. */
static size_t take_sim_command(struct server *server, struct link *link) {
    if (link->held < 9)
        return 0;
    size_t len = number32(link->bytes + 5);
    if (len > TPM_BUFFER_BYTES)
        return give_up(link);
    if (link->held < 9 + len)
        return 0;
    /* A device without power answers nothing, which is a response of no bytes. */
    size_t count = 0;
    if (server->machine->powered)
        count = machine_answer(server->machine, link->bytes[4], link->bytes + 9, len, link->answer + 4);
    owe32(link, (uint32_t)count);
    link->owed += count;
    owe32(link, 0);
    return 9 + len;
}

static size_t take_sim_message(struct server *server, struct link *link) {
    if (link->held < 4)
        return 0;
    switch (number32(link->bytes)) {
    case SIM_COMMAND:
        return take_sim_command(server, link);
    case SIM_HANDSHAKE: /* the client's version; the answer is this side's, and no properties */
        if (link->held < 8)
            return 0;
        owe32(link, 1);
        owe32(link, 0);
        owe32(link, 0);
        return 8;
    case SIM_SESSION_END:
        link->ending = true;
        return 4;
    default:
        return give_up(link);
    }
}

/* ---- mssim: the platform port */

static size_t take_sim_signal(struct server *server, struct link *link) {
    if (link->held < 4)
        return 0;
    switch (number32(link->bytes)) {
    case SIM_POWER_ON:
        machine_power_on(server->machine);
        break;
    case SIM_POWER_OFF:
        machine_power_off(server->machine);
        break;
    case SIM_RESET:
        machine_power_off(server->machine);
        machine_power_on(server->machine);
        break;
    /* NV memory is always there, a command is done before a cancel comes, and presence decides nothing. */
    case SIM_NV_ON:
    case SIM_NV_OFF:
    case SIM_CANCEL_ON:
    case SIM_CANCEL_OFF:
    case SIM_PRESENCE_ON:
    case SIM_PRESENCE_OFF:
        break;
    case SIM_SESSION_END:
        link->ending = true;
        return 4;
    default:
        return give_up(link);
    }
    owe32(link, 0);
    return 4;
}

/* ---- plain frames: swtpm's data port, QEMU's descriptor, and standard input */

/* The framer takes the bytes up to the end of a frame. Behind the first bytes of what can't be a frame nothing can be
 * read. */
static size_t take_frame(struct server *server, struct link *link) {
    uint8_t frame[TPM_BUFFER_BYTES];
    uint32_t status;
    size_t taken = tpm_framer_push(link->framer, link->bytes, link->held, &status);
    if (status == TPM_FRAMER_BROKEN)
        return give_up(link);
    if (status != TPM_FRAMER_READY)
        return taken;
    size_t len = tpm_framer_frame(link->framer, frame, sizeof frame);
    tpm_framer_next(link->framer);
    link->owed = machine_answer(server->machine, 0, frame, len, link->answer);
    return taken;
}

/* ---- swtpm's control port, and QEMU's control channel */

/* TPM 1.2's codes, as swtpm answers them. */
#define CONTROL_DONE ((uint32_t)0)
#define CONTROL_BAD_PARAMETER ((uint32_t)0x03)
#define CONTROL_BAD_NUMBER ((uint32_t)0x0A)
#define CONTROL_BAD_LOCALITY ((uint32_t)0x3D)

/* What the table below does, as PTM_CAP bits. */
#define CAN_INIT ((uint32_t)1 << 0)
#define CAN_SHUTDOWN ((uint32_t)1 << 1)
#define CAN_GET_ESTABLISHED ((uint32_t)1 << 2)
#define CAN_SET_LOCALITY ((uint32_t)1 << 3)
#define CAN_CANCEL ((uint32_t)1 << 5)
#define CAN_RESET_ESTABLISHED ((uint32_t)1 << 7)
#define CAN_GET_BLOB ((uint32_t)1 << 8)
#define CAN_SET_BLOB ((uint32_t)1 << 9)
#define CAN_STOP ((uint32_t)1 << 10)
#define CAN_GET_CONFIG ((uint32_t)1 << 11)
#define CAN_SET_DATAFD ((uint32_t)1 << 12)
#define CAN_SET_BUFFERSIZE ((uint32_t)1 << 13)

static void control_capabilities(struct server *server, struct link *link) {
    uint32_t can = CAN_INIT | CAN_SHUTDOWN | CAN_GET_ESTABLISHED | CAN_SET_LOCALITY | CAN_CANCEL |
                   CAN_RESET_ESTABLISHED | CAN_GET_BLOB | CAN_SET_BLOB | CAN_STOP | CAN_GET_CONFIG | CAN_SET_BUFFERSIZE;
    (void)server;
    owe32(link, CONTROL_DONE);
    owe32(link, link->protocol == QEMU_CONTROL ? can | CAN_SET_DATAFD : can);
}

/* The flags ask for no more than that volatile state be dropped, which is never kept. */
static void control_init(struct server *server, struct link *link) {
    machine_power_off(server->machine);
    machine_power_on(server->machine);
    server->runs = true;
    owe32(link, CONTROL_DONE);
}

static void control_shutdown(struct server *server, struct link *link) {
    server->ended = true;
    owe32(link, CONTROL_DONE);
}

/* Of TPM_ESTABLISHED, which is never set, and of the configuration: no keys. */
static void control_zero(struct server *server, struct link *link) {
    (void)server;
    owe32(link, CONTROL_DONE);
    owe32(link, 0);
}

static void control_locality(struct server *server, struct link *link) {
    (void)server;
    owe32(link, link->bytes[4] == 0 ? CONTROL_DONE : CONTROL_BAD_LOCALITY);
}

static void control_nothing(struct server *server, struct link *link) {
    (void)server;
    owe32(link, CONTROL_DONE);
}

static void control_stop(struct server *server, struct link *link) {
    machine_power_off(server->machine);
    server->runs = false;
    owe32(link, CONTROL_DONE);
}

static void control_buffer(struct server *server, struct link *link) {
    (void)server;
    owe32(link, CONTROL_DONE);
    for (int i = 0; i < 3; i++) /* the size that is used, the least and the greatest */
        owe32(link, TPM_BUFFER_BYTES);
}

/* One descriptor, no more and no less. Over TCP there is none. */
static void control_data(struct server *server, struct link *link) {
    bool one = link->given_count == 1 && link->given >= 0;
    owe32(link, one ? CONTROL_DONE : CONTROL_BAD_NUMBER);
    if (one) {
        server_set_data(server, link->given);
        link->given = -1;
    }
    link_drop_given(link);
}

/* ---- state blobs: flags, the type, and an offset or the length of what comes behind */

#define BLOB_PERMANENT ((uint32_t)1)

static uint32_t blob_type(const struct link *link) {
    return number32(link->bytes + 8);
}

/* The permanent blob is what the device keeps, from the offset on; there is no other one. The answer has the same form
 * in any case, so that whoever asks reads it whole: flags, how long it is, and how long this part is. */
static void control_get_blob(struct server *server, struct link *link) {
    uint8_t kept[TPM_DEVICE_KEPT_BYTES];
    bool there = blob_type(link) == BLOB_PERMANENT;
    size_t len = there ? tpm_device_keep(server->machine->device, kept, sizeof kept) : 0;
    size_t from = number32(link->bytes + 12) < len ? number32(link->bytes + 12) : len;
    owe32(link, there ? CONTROL_DONE : CONTROL_BAD_NUMBER);
    owe32(link, 0);
    owe32(link, (uint32_t)(len - from));
    owe32(link, (uint32_t)(len - from));
    memcpy(link->answer + link->owed, kept + from, len - from);
    link->owed += len - from;
}

/* What is set is what the next INIT begins with: a device that runs keeps what it has. */
static uint32_t set_blob(struct server *server, const struct link *link, size_t len) {
    struct tpm_refusal refusal;
    if (blob_type(link) != BLOB_PERMANENT || server->runs || server->machine->started)
        return CONTROL_BAD_NUMBER;
    if (len > TPM_DEVICE_KEPT_BYTES ||
        machine_restore(server->machine, link->bytes + 16, len, &refusal) != TPM_DONE)
        return CONTROL_BAD_PARAMETER;
    return CONTROL_DONE;
}

/* A blob that is longer than any is stepped over, and then refused. */
static void control_set_blob(struct server *server, struct link *link) {
    uint32_t len = number32(link->bytes + 12), code = set_blob(server, link, len);
    if (len > TPM_DEVICE_KEPT_BYTES) {
        link->blob_left = len;
        link->blob_code = code;
    } else {
        owe32(link, code);
    }
}

/* ---- the table */

#define SET_BLOB ((uint32_t)13)

static const struct control {
    uint32_t number;
    size_t len; /* behind the number */
    void (*answer)(struct server *, struct link *);
} controls[] = {
    {1, 0, control_capabilities},
    {2, 4, control_init},
    {3, 0, control_shutdown},
    {4, 0, control_zero},
    {5, 1, control_locality},
    {9, 0, control_nothing},
    {11, 1, control_nothing}, /* TPM_ESTABLISHED is reset */
    {12, 12, control_get_blob},
    {SET_BLOB, 12, control_set_blob},
    {14, 0, control_stop},
    {15, 0, control_zero},
    {16, 0, control_data},
    {17, 4, control_buffer},
};

static const struct control *control_of(const struct link *link) {
    if (link->held < 4)
        return NULL;
    for (size_t i = 0; i < sizeof controls / sizeof *controls; i++)
        if (controls[i].number == number32(link->bytes))
            return &controls[i];
    return NULL;
}

/* A locality is a byte, and some write the three zeros behind it that fill a word of C. The next message begins with
 * zeros, too; but its fourth byte is none. */
static bool is_filled(const struct link *link) {
    static const uint8_t zeros[3];
    return link->held >= 8 && memcmp(link->bytes + 5, zeros, sizeof zeros) == 0 &&
           (link->held == 8 || link->bytes[8] == 0);
}

/* A message that is none of the table, or of QEMU's channel less than one, since there each is written at once. What
 * was read with it belongs to it, and the connection stays. */
static size_t refuse_control(struct link *link) {
    owe32(link, CONTROL_BAD_NUMBER);
    return link->held;
}

/* How many bytes of a blob are waited for: all, where it may be one. */
static size_t behind(const struct control *control, const struct link *link) {
    uint32_t len = control->number == SET_BLOB ? number32(link->bytes + 12) : 0;
    return len <= TPM_DEVICE_KEPT_BYTES ? len : 0;
}

static size_t answer_control(struct server *server, struct link *link) {
    const struct control *control = control_of(link);
    if (!control)
        return link->held < 4 && link->protocol != QEMU_CONTROL ? 0 : refuse_control(link);
    if (link->held < 4 + control->len)
        return link->protocol == QEMU_CONTROL ? refuse_control(link) : 0;
    size_t len = 4 + control->len + behind(control, link);
    if (link->held < len)
        return 0;
    control->answer(server, link);
    return len + (control->len == 1 && is_filled(link) ? 3 : 0);
}

static size_t step_over_blob(struct link *link) {
    size_t len = link->blob_left < link->held ? link->blob_left : link->held;
    link->blob_left -= (uint32_t)len;
    if (link->blob_left == 0)
        owe32(link, link->blob_code);
    return len;
}

void link_drop_given(struct link *link) {
    if (link->given >= 0)
        close(link->given);
    link->given = -1;
    link->given_count = 0;
}

/* A descriptor comes with the last bytes of what was read at once, so it belongs to the message that ends there. */
static size_t take_control(struct server *server, struct link *link) {
    if (link->held == 0)
        return 0;
    size_t taken = link->blob_left > 0 ? step_over_blob(link) : answer_control(server, link);
    if (taken == link->held)
        link_drop_given(link);
    return taken;
}

size_t link_take(struct server *server, struct link *link) {
    switch (link->protocol) {
    case MSSIM_COMMANDS:
        return take_sim_message(server, link);
    case MSSIM_PLATFORM:
        return take_sim_signal(server, link);
    case SWTPM_CONTROL:
    case QEMU_CONTROL:
        return take_control(server, link);
    default:
        return take_frame(server, link);
    }
}
