/* A boot loader that holds a session with a TPM: bound to its owner, it defines a counter, increments it and reads it.
 * Then a reply is lost, and with it the session: another one is started. At last it holds a second session beside that:
 * one extends a register, while the other, by a policy, increments a counter that nothing else may write. The TPM is a
 * device in the same process; elsewhere it is behind a bus.
 *
 * The nonces are a count, so that each run is alike. Who relies on a session has random numbers in their place.
 */
#include "vinjakwe.h"

#include <stdio.h>
#include <stdlib.h>
#include <string.h>

enum { NONCE_BYTES = 16, NAME_BYTES = 34 };

/* Room for what the archive of this build needs, which main compares. */
static uint64_t device_room[1024], caller_room[128], second_room[128];
static struct tpm_device *const tpm = (struct tpm_device *)(void *)device_room;
static struct tpm_caller *const caller = (struct tpm_caller *)(void *)caller_room;
static struct tpm_caller *const second = (struct tpm_caller *)(void *)second_room;
static uint8_t sealed[TPM_BUFFER_BYTES], reply[TPM_BUFFER_BYTES], old[TPM_BUFFER_BYTES];
static uint8_t tpm_count, caller_count, counter_name[NAME_BYTES];
static size_t sealed_len, reply_len;

static const uint8_t owner[] = {'o', 'w', 'n', 'e', 'r'}, owner_name[] = {0x40, 0, 0, 1};
static const uint8_t startup[] = {0x80, 1, 0, 0, 0, 12, 0, 0, 1, 0x44, 0, 0};
static const uint8_t read_public[] = {0x80, 1, 0, 0, 0, 14, 0, 0, 1, 0x69, 1, 0x80, 0, 1};
static const uint8_t define[] = {0x80, 1, 0, 0, 0, 32, 0, 0, 1, 0x2A, 0x40, 0, 0, 1, 0, 0, 0, 14, 1, 0x80, 0, 1, 0,
                                 0x0B, 2, 2, 0, 0x12, 0, 0, 0, 8};
static const uint8_t increment[] = {0x80, 1, 0, 0, 0, 18, 0, 0, 1, 0x34, 0x40, 0, 0, 1, 1, 0x80, 0, 1};
static const uint8_t read_counter[] = {0x80, 1, 0, 0, 0, 22, 0, 0, 1, 0x4E, 0x40, 0, 0, 1, 1, 0x80, 0, 1, 0, 8, 0, 0};

static void fail(const char *what) {
    fprintf(stderr, "session: %s\n", what);
    exit(3);
}

static uint32_t number_at(const uint8_t *bytes) {
    return (uint32_t)bytes[0] << 24 | (uint32_t)bytes[1] << 16 | (uint32_t)bytes[2] << 8 | bytes[3];
}

/* Sends a command to the TPM, whose reply comes back. */
static void transmit(const uint8_t *command, size_t len) {
    uint8_t nonce[TPM_NONCE_BYTES] = {0};
    nonce[7] = ++tpm_count;
    reply_len = tpm_device_execute(tpm, command, len, nonce, reply, sizeof reply);
}

/* A session of this kind, TPM_SE, bound to the owner, which this caller holds; its handle. */
static uint32_t start(struct tpm_caller *holder, uint8_t kind) {
    uint8_t command[43] = {0x80, 1, 0, 0, 0, 43, 0, 0, 1, 0x76, 0x40, 0, 0, 7, 0x40, 0, 0, 1, 0, NONCE_BYTES};
    command[27] = ++caller_count;
    command[36] = 0;                /* no salt */
    command[38] = kind;
    command[40] = TPM_ALG_NULL;
    command[42] = TPM_ALG_SHA256;
    transmit(command, sizeof command);
    if (!tpm_caller_start(holder, command, sizeof command, reply, reply_len, owner, sizeof owner))
        fail("no session is started");
    printf("session %08lx is started\n", (unsigned long)number_at(reply + 10));
    return number_at(reply + 10);
}

/* Seals a command, whose handles have these Names, into `out`, and answers how many bytes it has. What the first handle
 * names adds no authorization value to the key: it has none, or it is the owner, to whom the session is bound, or a
 * policy asks for none. */
static size_t seal_as(struct tpm_caller *holder, const uint8_t *command, size_t len, const uint8_t *first,
                      size_t first_len, const uint8_t *name, size_t name_len, uint8_t *out) {
    uint8_t nonce[NONCE_BYTES] = {0};
    nonce[7] = ++caller_count;
    size_t count = tpm_caller_seal(holder, command, len, first, first_len, name, name_len, nonce, 0, nonce,
                                   sizeof nonce, 1, out, TPM_BUFFER_BYTES);
    if (count == 0)
        fail("nothing is sealed");
    return count;
}

/* That of the owner, whose second handle has this Name. */
static void seal_with(const uint8_t *command, size_t len, const uint8_t *name, size_t name_len) {
    sealed_len = seal_as(caller, command, len, owner_name, sizeof owner_name, name, name_len, sealed);
}

static void seal(const uint8_t *command, size_t len) {
    seal_with(command, len, counter_name, sizeof counter_name);
}

static void send_sealed(void) {
    transmit(sealed, sealed_len);
    if (tpm_caller_open(caller, reply, reply_len) != TPM_CALLER_OPENED)
        fail("no reply is opened");
}

static void exchange(const uint8_t *command, size_t len) {
    seal(command, len);
    send_sealed();
}

/* There is one handle, the owner: so the second Name is not looked at, and may be any bytes. */
static void define_counter(void) {
    seal_with(define, sizeof define, old, sizeof old);
    send_sealed();
}

/* The counter's Name, which its first increment changes. It is in the reply as it came over the bus, and a wrong one
 * would be found by the HMAC of the next command. */
static void take_name_of(uint8_t index, uint8_t *name) {
    uint8_t command[sizeof read_public];
    memcpy(command, read_public, sizeof command);
    command[13] = index;
    transmit(command, sizeof command);
    if (reply_len < NAME_BYTES)
        fail("the counter has no public area");
    memcpy(name, reply + reply_len - NAME_BYTES, NAME_BYTES);
}

static void take_name(void) {
    take_name_of(1, counter_name);
}

/* Increments the counter for the first time. A TPM that does not have it refuses, which gives the session back, and the
 * counter is defined. */
static void begin(void) {
    seal(increment, sizeof increment);
    transmit(sealed, sealed_len);
    if (tpm_caller_give_up(caller, reply, reply_len)) {
        printf("the counter is to be defined\n");
        define_counter();
        take_name();
        exchange(increment, sizeof increment);
    } else if (tpm_caller_open(caller, reply, reply_len) != TPM_CALLER_OPENED) {
        fail("no reply is opened");
    }
    take_name();
}

static void print_counter(void) {
    exchange(read_counter, sizeof read_counter);
    printf("the counter is %lu\n", (unsigned long)number_at(reply + 20));
}

/* Increments the counter twice, and the second reply does not come. Neither the first one in its place nor the command
 * sent again is taken for it. */
static void lose_a_reply(void) {
    exchange(increment, sizeof increment);
    size_t old_len = reply_len;
    memcpy(old, reply, reply_len);
    seal(increment, sizeof increment);
    transmit(sealed, sealed_len);
    if (tpm_caller_open(caller, old, old_len) == TPM_CALLER_WRONG_MAC)
        printf("an old reply: WrongMac\n");
    transmit(sealed, sealed_len);
    if (tpm_caller_open(caller, reply, reply_len) == TPM_CALLER_CODE)
        printf("sent again: 0x%lx\n", (unsigned long)number_at(reply + 6));
}

static void put_number(uint8_t *out, uint32_t number) {
    for (int i = 0; i < 4; i++)
        out[i] = (uint8_t)(number >> (24 - 8 * i));
}

static void flush(uint32_t session) {
    uint8_t command[14] = {0x80, 1, 0, 0, 0, 14, 0, 0, 1, 0x65};
    put_number(command + 10, session);
    transmit(command, sizeof command);
}

/* Defines a counter that only TPM2_NV_Increment by a policy may write: 0180_0002, of which the owner may read. */
static void define_by_policy(void) {
    uint8_t command[64] = {0x80, 1, 0, 0, 0, 64, 0, 0, 1, 0x2A, 0x40, 0, 0, 1, 0, 0, 0, 46, 1, 0x80, 0, 2, 0, 0x0B, 2,
                           2, 0, 0x18, 0, 32};
    struct tpm_policy policy;
    if (tpm_policy_start(&policy, TPM_ALG_SHA256) != TPM_DONE ||
        tpm_policy_command_code(&policy, TPM_CC_NV_Increment) != TPM_DONE)
        fail("there is no policy");
    memcpy(command + 30, policy.digest, 32);
    command[63] = 8;
    seal_with(command, sizeof command, old, sizeof old);
    send_sealed();
}

/* Says to the policy session that its command is TPM2_NV_Increment. */
static void assert_increment(uint32_t session) {
    uint8_t command[18] = {0x80, 1, 0, 0, 0, 18, 0, 0, 1, 0x6C, 0, 0, 0, 0, 0, 0, 1, 0x34};
    put_number(command + 10, session);
    transmit(command, sizeof command);
    if (number_at(reply + 6) != TPM_RC_SUCCESS)
        fail("the policy has no command");
}

/* Register 16 of SHA-256. */
static void print_register(void) {
    static const uint8_t read[] = {0x80, 1, 0, 0, 0, 20, 0, 0, 1, 0x7E, 0, 0, 0, 1, 0, 0x0B, 3, 0, 0, 1};
    transmit(read, sizeof read);
    if (reply_len < 32)
        fail("there is no register 16");
    printf("register 16 is ");
    for (size_t i = reply_len - 32; i < reply_len; i++)
        printf("%02x", reply[i]);
    printf("\n");
}

/* Two sessions at once. Both commands are sealed before the first one is sent, and neither caller takes the other's
 * reply. */
static void hold_two(void) {
    static uint8_t extend[52] = {0x80, 1, 0, 0, 0, 52, 0, 0, 1, 0x82, 0, 0, 0, 16, 0, 0, 0, 1, 0, 0x0B, 'b', 'o', 'o',
                                 't'};
    static const uint8_t increment_by_policy[] = {0x80, 1, 0, 0, 0, 18, 0, 0, 1, 0x34, 1, 0x80, 0, 2, 1, 0x80, 0, 2};
    static const uint8_t read_by_owner[] = {0x80, 1, 0, 0, 0, 22, 0, 0, 1, 0x4E, 0x40, 0, 0, 1, 1, 0x80, 0, 2, 0, 8,
                                            0, 0};
    static uint8_t first_sealed[TPM_BUFFER_BYTES], second_sealed[TPM_BUFFER_BYTES];
    uint8_t name[NAME_BYTES];
    define_by_policy();
    take_name_of(2, name);
    assert_increment(start(second, TPM_SE_POLICY));
    size_t first_len = seal_as(caller, extend, sizeof extend, extend + 10, 4, old, sizeof old, first_sealed);
    size_t second_len = seal_as(second, increment_by_policy, sizeof increment_by_policy, name, sizeof name, name,
                                sizeof name, second_sealed);
    transmit(second_sealed, second_len);
    if (tpm_caller_open(caller, reply, reply_len) != TPM_CALLER_WRONG_MAC ||
        tpm_caller_open(second, reply, reply_len) != TPM_CALLER_OPENED)
        fail("the increment has not its own reply");
    transmit(first_sealed, first_len);
    if (tpm_caller_open(second, reply, reply_len) != TPM_CALLER_NOT_WAITING ||
        tpm_caller_open(caller, reply, reply_len) != TPM_CALLER_OPENED)
        fail("the extension has not its own reply");
    print_register();
    take_name_of(2, name);
    seal_with(read_by_owner, sizeof read_by_owner, name, sizeof name);
    send_sealed();
    printf("the second counter is %lu\n", (unsigned long)number_at(reply + 20));
}

int main(void) {
    if (tpm_device_size() > sizeof device_room || sizeof(uint64_t) % tpm_device_align() != 0)
        fail("a device needs more room");
    if (tpm_caller_size() > sizeof caller_room || tpm_caller_size() > sizeof second_room ||
        sizeof(uint64_t) % tpm_caller_align() != 0)
        fail("a caller needs more room");
    tpm_device_init(tpm, owner, sizeof owner, 0);
    tpm_caller_init(caller);
    tpm_caller_init(second);
    if (tpm_caller_open(caller, startup, sizeof startup) != TPM_CALLER_NOT_WAITING ||
        tpm_caller_give_up(caller, startup, sizeof startup))
        fail("no reply is waited for before a command is sealed");
    transmit(startup, sizeof startup);
    uint32_t session = start(caller, TPM_SE_HMAC);
    begin();
    print_counter();
    lose_a_reply();
    flush(session);
    start(caller, TPM_SE_HMAC);
    print_counter();
    hold_two();
    return 0;
}
