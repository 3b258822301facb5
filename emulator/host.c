#include "host.h"
#include "fault.h"
#include "wire.h"

#include <string.h>

#define FOR_HANDLE_1 (TPM_RC_H + TPM_RC_1)
#define FOR_PARAMETER_1 (TPM_RC_P + TPM_RC_1)
#define FOR_PARAMETER_2 (TPM_RC_P + TPM_RC_2)
#define FOR_PARAMETER_3 (TPM_RC_P + TPM_RC_3)

/* Permanent handles beside those of the device (Part 2, 7.4). */
#define RH_LOCKOUT ((uint32_t)0x4000000A)
#define RH_ENDORSEMENT ((uint32_t)0x4000000B)
#define RH_PLATFORM ((uint32_t)0x4000000C)
#define RH_PLATFORM_NV ((uint32_t)0x4000000D)

/* ---- the response, behind its header */

struct reply {
    uint8_t *bytes;
    size_t len;
};

static void reply8(struct reply *reply, uint8_t number) {
    reply->bytes[reply->len++] = number;
}

static void reply16(struct reply *reply, uint16_t number) {
    put16(reply->bytes + reply->len, number);
    reply->len += 2;
}

static void reply32(struct reply *reply, uint32_t number) {
    put32(reply->bytes + reply->len, number);
    reply->len += 4;
}

static void reply64(struct reply *reply, uint64_t number) {
    put64(reply->bytes + reply->len, number);
    reply->len += 8;
}

static void reply_bytes(struct reply *reply, const uint8_t *bytes, size_t len) {
    memcpy(reply->bytes + reply->len, bytes, len);
    reply->len += len;
}

/* ---- what is asked: a command's handle, where it has one, and its parameters, behind the authorization area */

struct asked {
    uint32_t handle;
    const uint8_t *parameters;
    size_t len;
};

/* ---- TPM2_GetCapability (Part 3, 30.2) */

enum capability {
    CAP_ALGS,
    CAP_HANDLES,
    CAP_COMMANDS,
    CAP_PP_COMMANDS,
    CAP_AUDIT_COMMANDS,
    CAP_PCRS,
    CAP_TPM_PROPERTIES,
    CAP_PCR_PROPERTIES,
    CAP_ECC_CURVES,
    CAP_AUTH_POLICIES
};

/* An entry of a list: what it is asked for by, and what is said of it. Lists rise by their tags. */
struct entry {
    uint32_t tag;
    uint32_t value;
};

#define ENTRIES 64

struct entries {
    struct entry at[ENTRIES];
    size_t count;
};

static void add(struct entries *list, uint32_t tag, uint32_t value) {
    size_t at = list->count++;
    for (; at > 0 && list->at[at - 1].tag > tag; at--)
        list->at[at] = list->at[at - 1];
    list->at[at] = (struct entry){tag, value};
}

/* TPMA_CC (Part 2, 8.9): the command's number, whether it writes NV memory or much of the state, and how many handles
 * it and its response have. */
#define CC_NV ((uint32_t)1 << 22)
#define CC_EXTENSIVE ((uint32_t)1 << 23)
#define CC_HANDLES(n) ((uint32_t)(n) << 25)
#define CC_ANSWERS_HANDLE ((uint32_t)1 << 28)

static const uint32_t device_commands[] = {
    TPM_CC_NV_UndefineSpace | CC_NV | CC_HANDLES(2),
    TPM_CC_NV_DefineSpace | CC_NV | CC_HANDLES(1),
    TPM_CC_NV_Increment | CC_NV | CC_HANDLES(2),
    TPM_CC_PCR_Event | CC_NV | CC_HANDLES(1),
    TPM_CC_PCR_Reset | CC_NV | CC_HANDLES(1),
    TPM_CC_Startup | CC_NV,
    TPM_CC_NV_Read | CC_HANDLES(2),
    TPM_CC_FlushContext,
    TPM_CC_NV_ReadPublic | CC_HANDLES(1),
    TPM_CC_PolicyAuthValue | CC_HANDLES(1),
    TPM_CC_PolicyCommandCode | CC_HANDLES(1),
    TPM_CC_PolicyOR | CC_HANDLES(1),
    TPM_CC_StartAuthSession | CC_HANDLES(2) | CC_ANSWERS_HANDLE,
    TPM_CC_PCR_Read,
    TPM_CC_PolicyPCR | CC_HANDLES(1),
    TPM_CC_PolicyRestart | CC_HANDLES(1),
    TPM_CC_PCR_Extend | CC_NV | CC_HANDLES(1),
    TPM_CC_PolicyGetDigest | CC_HANDLES(1),
};

/* How many counters a device has room for. */
#define COUNTER_SLOTS 8

#define COUNT(list) (sizeof(list) / sizeof *(list))

/* The table of what the host answers stands at the end of this file. */
static uint32_t host_command(size_t number);
static size_t host_command_count(void);

static void list_commands(struct entries *list) {
    for (size_t i = 0; i < COUNT(device_commands); i++)
        add(list, device_commands[i] & 0xffff, device_commands[i]);
    for (size_t i = 0; i < host_command_count(); i++)
        add(list, host_command(i) & 0xffff, host_command(i));
}

/* TPMA_ALGORITHM (Part 2, 8.2): these are hashes. */
static void list_algorithms(struct entries *list) {
    static const uint32_t is_hash = 1 << 2;
    add(list, TPM_ALG_SHA1, is_hash);
    add(list, TPM_ALG_SHA256, is_hash);
    add(list, TPM_ALG_SHA384, is_hash);
}

/* The session that the device has loaded in this slot, or none. */
static const struct session *session_in(struct machine *machine, size_t slot) {
    return machine_session(machine, machine->sessions[slot].handle);
}

static uint32_t loaded_sessions(struct machine *machine) {
    uint32_t count = 0;
    for (size_t i = 0; i < SESSION_SLOTS; i++)
        count += session_in(machine, i) != NULL;
    return count;
}

static struct tpm_counter counter_of(const struct machine *machine, size_t number) {
    struct tpm_counter counter = {.index = 0};
    tpm_device_counter(machine->device, number, &counter);
    return counter;
}

/* TPM_PT (Part 2, 6.13): the limits are those of the device. */
static void list_properties(struct entries *list, struct machine *machine) {
    static const struct entry fixed[] = {
        {0x100, 0x322E3000},       /* family "2.0" */
        {0x101, 0},                /* level */
        {0x102, 159},              /* revision */
        {0x103, 312},              /* day of the year, and year, of this revision */
        {0x104, 2019},             /* */
        {0x105, 0x564A4B57},       /* manufacturer "VJKW" */
        {0x106, 0x56696E6A},       /* vendor's text "Vinj", "akwe" */
        {0x107, 0x616B7765},       /* */
        {0x108, 0},                /* */
        {0x109, 0},                /* */
        {0x10A, 0},                /* vendor's kind of TPM */
        {0x10B, 0},                /* firmware's version */
        {0x10C, 0},                /* */
        {0x10D, 1024},             /* greatest TPM2B_MAX_BUFFER, TPM2B_EVENT */
        {0x10E, 0},                /* transient and persistent objects */
        {0x10F, 0},                /* */
        {0x110, SESSION_SLOTS},    /* sessions that are loaded */
        {0x111, SESSION_SLOTS},    /* sessions that are active */
        {0x112, 24},               /* registers */
        {0x113, 3},                /* bytes of a selection */
        {0x114, 0xFFFFFFFF},       /* how many contexts may be saved after one */
        {0x116, COUNTER_SLOTS},    /* counters */
        {0x117, 8},                /* bytes of an index */
        {0x11E, TPM_BUFFER_BYTES}, /* bytes of a command */
        {0x11F, TPM_BUFFER_BYTES}, /* bytes of a response */
        {0x120, 48},               /* bytes of a digest */
        {0x12C, 8},                /* bytes that are read of an index */
    };
    uint32_t sessions = loaded_sessions(machine), counters = (uint32_t)tpm_device_counters(machine->device);
    uint32_t commands = (uint32_t)(COUNT(device_commands) + host_command_count());
    for (size_t i = 0; i < COUNT(fixed); i++)
        add(list, fixed[i].tag, fixed[i].value);
    add(list, 0x129, commands); /* commands, those of the library, those of the vendor */
    add(list, 0x12A, commands);
    add(list, 0x12B, 0);
    add(list, 0x200, machine->owner_len > 0); /* TPMA_PERMANENT: ownerAuthSet */
    add(list, 0x201, 1 << 1);                        /* TPMA_STARTUP_CLEAR: shEnable */
    add(list, 0x202, counters);
    add(list, 0x203, sessions);
    add(list, 0x204, SESSION_SLOTS - sessions);
    add(list, 0x205, sessions);
    add(list, 0x206, SESSION_SLOTS - sessions);
    add(list, 0x207, 0); /* room for transient objects; persistent ones, and room for them */
    add(list, 0x208, 0);
    add(list, 0x209, 0);
    add(list, 0x20A, counters);
    add(list, 0x20B, COUNTER_SLOTS - counters);
}

/* The handles of a type, which is the first byte of the property (Part 2, 7.2), and whether there is such a type. A
 * session that was saved is listed as saved, as tools expect it, though it stays loaded in the device. */
static bool list_handles(struct entries *list, struct machine *machine, uint32_t type) {
    switch (type) {
    case 0x00:
        for (uint32_t i = 0; i < 24; i++)
            add(list, i, 0);
        break;
    case 0x01:
        for (size_t i = 0; i < tpm_device_counters(machine->device); i++)
            add(list, counter_of(machine, i).index, 0);
        break;
    case 0x02:
    case 0x03:
        for (size_t i = 0; i < SESSION_SLOTS; i++)
            if (session_in(machine, i) && session_in(machine, i)->is_saved == (type == 0x03))
                add(list, session_in(machine, i)->handle, 0);
        break;
    case 0x40:
        add(list, TPM_RH_OWNER, 0);
        add(list, TPM_RH_NULL, 0);
        add(list, TPM_RS_PW, 0);
        break;
    case 0x80: /* transient and persistent objects: none */
    case 0x81:
        break;
    default:
        return false;
    }
    return true;
}

/* TPMS_TAGGED_PCR_SELECT: which registers are extended, and which are reset, from locality 0; the value is a selection
 * of three bytes behind its size. */
static void list_register_properties(struct entries *list) {
    add(list, 1, 0x03FFFF81);
    add(list, 2, 0x03000081);
}

/* A TPML of the entries from this tag on, at most so many, behind TPMI_YES_NO moreData and the capability. */
static void reply_entries(struct reply *reply, const struct entries *list, enum capability capability, uint32_t from,
                          uint32_t most) {
    size_t first = 0;
    while (first < list->count && list->at[first].tag < from)
        first++;
    size_t count = list->count - first < most ? list->count - first : most;
    reply8(reply, first + count < list->count);
    reply32(reply, capability);
    reply32(reply, (uint32_t)count);
    for (size_t i = first; i < first + count; i++) {
        if (capability == CAP_ALGS)
            reply16(reply, (uint16_t)list->at[i].tag);
        else if (capability != CAP_COMMANDS)
            reply32(reply, list->at[i].tag);
        if (capability != CAP_HANDLES)
            reply32(reply, list->at[i].value);
    }
}

/* TPML_PCR_SELECTION: each bank has all registers. */
static void reply_banks(struct reply *reply) {
    static const uint16_t banks[] = {TPM_ALG_SHA1, TPM_ALG_SHA256, TPM_ALG_SHA384};
    reply8(reply, 0);
    reply32(reply, CAP_PCRS);
    reply32(reply, COUNT(banks));
    for (size_t i = 0; i < COUNT(banks); i++) {
        reply16(reply, banks[i]);
        reply32(reply, 0x03FFFFFF);
    }
}

static void reply_none(struct reply *reply, enum capability capability) {
    reply8(reply, 0);
    reply32(reply, capability);
    reply32(reply, 0);
}

static uint32_t get_capability(struct machine *machine, const struct asked *asked, struct reply *reply) {
    uint32_t capability = number32(asked->parameters), property = number32(asked->parameters + 4);
    struct entries list = {.count = 0};
    switch (capability) {
    case CAP_ALGS:
        list_algorithms(&list);
        break;
    case CAP_HANDLES:
        if (!list_handles(&list, machine, property >> 24))
            return TPM_RC_HANDLE + FOR_PARAMETER_2;
        break;
    case CAP_COMMANDS:
        list_commands(&list);
        break;
    case CAP_TPM_PROPERTIES:
        list_properties(&list, machine);
        break;
    case CAP_PCR_PROPERTIES:
        list_register_properties(&list);
        break;
    case CAP_PCRS:
        reply_banks(reply);
        return TPM_RC_SUCCESS;
    case CAP_PP_COMMANDS:
    case CAP_AUDIT_COMMANDS:
    case CAP_ECC_CURVES:
    case CAP_AUTH_POLICIES:
        reply_none(reply, capability);
        return TPM_RC_SUCCESS;
    default:
        return TPM_RC_VALUE + FOR_PARAMETER_1;
    }
    reply_entries(reply, &list, capability, property, number32(asked->parameters + 8));
    return TPM_RC_SUCCESS;
}

/* ---- TPM2_ContextSave and TPM2_ContextLoad (Part 3, 28.2 and 28.3) */

static void make_context(struct machine *machine, struct session *session) {
    put64(session->saved, ++machine->saves);
    put32(session->saved + 8, session->handle);
    put32(session->saved + 12, TPM_RH_NULL);
    put16(session->saved + 16, SEAL_BYTES);
    random_bytes(session->saved + 18, SEAL_BYTES);
}

/* The session stays loaded in the device: what is saved names it, and is good for one load while the session lives. Of
 * a session that is saved already nothing is loaded that could be saved. */
static uint32_t context_save(struct machine *machine, const struct asked *asked, struct reply *reply) {
    struct session *session = machine_session(machine, asked->handle);
    uint8_t type = (uint8_t)(asked->handle >> 24);
    if (type != 0x02 && type != 0x03 && type != 0x80)
        return TPM_RC_VALUE + FOR_HANDLE_1;
    if (!session || session->is_saved)
        return TPM_RC_REFERENCE_H0;
    session->is_saved = true;
    make_context(machine, session);
    reply_bytes(reply, session->saved, SAVED_BYTES);
    return TPM_RC_SUCCESS;
}

/* A context of another save than the last one is of no session; one of that save has to be that one. */
static uint32_t context_load(struct machine *machine, const struct asked *asked, struct reply *reply) {
    const uint8_t *context = asked->parameters;
    if (asked->len != SAVED_BYTES || number16(context + 16) != SEAL_BYTES)
        return TPM_RC_SIZE + FOR_PARAMETER_1;
    struct session *session = machine_session(machine, number32(context + 8));
    if (!session || !session->is_saved || number64(session->saved) != number64(context))
        return TPM_RC_HANDLE + FOR_PARAMETER_1;
    if (memcmp(context, session->saved, SAVED_BYTES) != 0)
        return RC_INTEGRITY + FOR_PARAMETER_1;
    session->is_saved = false;
    reply32(reply, session->handle);
    return TPM_RC_SUCCESS;
}

/* ---- random bytes and hashes */

/* TPM2_GetRandom (Part 3, 16.1): at most a digest's bytes. */
static uint32_t get_random(struct machine *machine, const struct asked *asked, struct reply *reply) {
    uint8_t bytes[48];
    size_t wanted = number16(asked->parameters), count = wanted < sizeof bytes ? wanted : sizeof bytes;
    (void)machine;
    random_bytes(bytes, count);
    reply16(reply, (uint16_t)count);
    reply_bytes(reply, bytes, count);
    return TPM_RC_SUCCESS;
}

/* A TPM2B at the beginning of the parameters, and nothing behind it but what is wanted there. */
static uint32_t sized(const struct asked *asked, size_t most) {
    size_t len = number16(asked->parameters);
    if (len > most)
        return TPM_RC_SIZE + FOR_PARAMETER_1;
    return asked->len - 2 < len ? TPM_RC_INSUFFICIENT + FOR_PARAMETER_1 : TPM_RC_SUCCESS;
}

/* TPM2_StirRandom (Part 3, 16.2): the bytes are taken, and no nonce is made of them. */
static uint32_t stir_random(struct machine *machine, const struct asked *asked, struct reply *reply) {
    uint32_t code = sized(asked, 128);
    (void)machine;
    (void)reply;
    if (code == TPM_RC_SUCCESS && asked->len > 2 + (size_t)number16(asked->parameters))
        return TPM_RC_SIZE;
    return code;
}

/* TPM2_Hash (Part 3, 15.4): the device hashes. No ticket says that the digest may be signed, since there are
 * no keys. */
static uint32_t hash(struct machine *machine, const struct asked *asked, struct reply *reply) {
    uint32_t code = sized(asked, HASHED_BYTES);
    size_t len = number16(asked->parameters), left = asked->len - 2 - len;
    const uint8_t *behind = asked->parameters + 2 + len;
    uint8_t digest[TPM_POLICY_BYTES];
    if (code != TPM_RC_SUCCESS)
        return code;
    if (left < 2)
        return TPM_RC_INSUFFICIENT + FOR_PARAMETER_2;
    size_t count = machine_hash(machine, number16(behind), asked->parameters + 2, len, digest);
    if (count == 0)
        return TPM_RC_HASH + FOR_PARAMETER_2;
    if (left < 6)
        return TPM_RC_INSUFFICIENT + FOR_PARAMETER_3;
    uint32_t hierarchy = number32(behind + 2);
    if (hierarchy != TPM_RH_OWNER && hierarchy != RH_ENDORSEMENT && hierarchy != RH_PLATFORM &&
        hierarchy != TPM_RH_NULL)
        return TPM_RC_VALUE + FOR_PARAMETER_3;
    if (left > 6)
        return TPM_RC_SIZE;
    reply16(reply, (uint16_t)count);
    reply_bytes(reply, digest, count);
    reply16(reply, ST_HASHCHECK);
    reply32(reply, TPM_RH_NULL);
    reply16(reply, 0);
    return TPM_RC_SUCCESS;
}

/* ---- tests */

/* TPM2_SelfTest (Part 3, 10.2): there is nothing to test. */
static uint32_t self_test(struct machine *machine, const struct asked *asked, struct reply *reply) {
    (void)machine;
    (void)reply;
    return asked->parameters[0] <= 1 ? TPM_RC_SUCCESS : TPM_RC_VALUE + FOR_PARAMETER_1;
}

/* TPM2_IncrementalSelfTest (Part 3, 10.3): of a TPML_ALG nothing is left to be tested. */
static uint32_t incremental_self_test(struct machine *machine, const struct asked *asked, struct reply *reply) {
    uint32_t count = number32(asked->parameters);
    (void)machine;
    if (count > 128)
        return TPM_RC_SIZE + FOR_PARAMETER_1;
    if (asked->len - 4 < 2 * (size_t)count)
        return TPM_RC_INSUFFICIENT + FOR_PARAMETER_1;
    if (asked->len - 4 > 2 * (size_t)count)
        return TPM_RC_SIZE;
    reply32(reply, 0);
    return TPM_RC_SUCCESS;
}

/* TPM2_GetTestResult (Part 3, 10.4): no data, and TPM_RC_SUCCESS. */
static uint32_t get_test_result(struct machine *machine, const struct asked *asked, struct reply *reply) {
    (void)machine;
    (void)asked;
    reply16(reply, 0);
    reply32(reply, TPM_RC_SUCCESS);
    return TPM_RC_SUCCESS;
}

/* TPM2_TestParms (Part 3, 30.3): there are no objects, so no type of them is supported. */
static uint32_t test_parms(struct machine *machine, const struct asked *asked, struct reply *reply) {
    (void)machine;
    (void)asked;
    (void)reply;
    return RC_TYPE + FOR_PARAMETER_1;
}

/* ---- the platform's hierarchy: there is none, so what firmware does to lock it is done */

static uint32_t not_the_platform(uint32_t handle) {
    bool is_hierarchy = handle == TPM_RH_OWNER || handle == RH_ENDORSEMENT || handle == RH_LOCKOUT;
    return (is_hierarchy ? RC_HIERARCHY : TPM_RC_VALUE) + FOR_HANDLE_1;
}

/* TPM2_HierarchyChangeAuth (Part 3, 24.8): the owner's value is handed in when the program starts. */
static uint32_t hierarchy_change_auth(struct machine *machine, const struct asked *asked, struct reply *reply) {
    uint32_t code = sized(asked, TPM_OWNER_BYTES);
    (void)machine;
    (void)reply;
    if (asked->handle != RH_PLATFORM)
        return not_the_platform(asked->handle);
    if (code == TPM_RC_SUCCESS && asked->len > 2 + (size_t)number16(asked->parameters))
        return TPM_RC_SIZE;
    return code;
}

/* TPM2_HierarchyControl (Part 3, 24.2): what is not there is off, and the owner's hierarchy is on. */
static uint32_t hierarchy_control(struct machine *machine, const struct asked *asked, struct reply *reply) {
    uint32_t hierarchy = number32(asked->parameters);
    uint8_t state = asked->parameters[4];
    (void)machine;
    (void)reply;
    if (asked->handle != RH_PLATFORM)
        return not_the_platform(asked->handle);
    if (hierarchy != TPM_RH_OWNER && hierarchy != RH_ENDORSEMENT && hierarchy != RH_PLATFORM &&
        hierarchy != RH_PLATFORM_NV)
        return TPM_RC_VALUE + FOR_PARAMETER_1;
    if (state > 1)
        return TPM_RC_VALUE + FOR_PARAMETER_2;
    return (hierarchy == TPM_RH_OWNER) == (state == 1) ? TPM_RC_SUCCESS : RC_HIERARCHY + FOR_PARAMETER_1;
}

/* ---- power and time */

/* TPM2_Shutdown (Part 3, 9.4): counters are always kept, and the rest of a state can't be. */
static uint32_t shut_down(struct machine *machine, const struct asked *asked, struct reply *reply) {
    (void)machine;
    (void)reply;
    return number16(asked->parameters) == TPM_SU_CLEAR ? TPM_RC_SUCCESS : TPM_RC_VALUE + FOR_PARAMETER_1;
}

static uint64_t milliseconds_since(const struct timespec *then) {
    struct timespec now;
    clock_gettime(CLOCK_MONOTONIC, &now);
    return (uint64_t)((int64_t)(now.tv_sec - then->tv_sec) * 1000 + (now.tv_nsec - then->tv_nsec) / 1000000);
}

/* TPM2_ReadClock (Part 3, 29.1): time since the power came on, and since this process began; so the clock is
 * not safe. */
static uint32_t read_clock(struct machine *machine, const struct asked *asked, struct reply *reply) {
    (void)asked;
    reply64(reply, milliseconds_since(&machine->powered_at));
    reply64(reply, milliseconds_since(&machine->began_at));
    reply32(reply, machine->power_cycles);
    reply32(reply, 0);
    reply8(reply, 0);
    return TPM_RC_SUCCESS;
}

/* ---- the table: all that the host answers */

/* What a command carries: sessions that audit, if any; none; or first the platform's password, where any will do. */
enum by { ANYBODY, NO_SESSIONS, PLATFORM };

static const struct answer {
    uint32_t command; /* as TPMA_CC */
    enum by by;
    size_t least; /* bytes of parameters */
    size_t most;
    uint32_t (*reply)(struct machine *, const struct asked *, struct reply *);
} table[] = {
    {0x121 | CC_NV | CC_EXTENSIVE | CC_HANDLES(1), PLATFORM, 5, 5, hierarchy_control},
    {0x129 | CC_NV | CC_HANDLES(1), PLATFORM, 2, TPM_BUFFER_BYTES, hierarchy_change_auth},
    {0x142 | CC_NV, ANYBODY, 4, TPM_BUFFER_BYTES, incremental_self_test},
    {0x143 | CC_NV, ANYBODY, 1, 1, self_test},
    {0x145 | CC_NV, ANYBODY, 2, 2, shut_down},
    {0x146 | CC_NV, ANYBODY, 2, TPM_BUFFER_BYTES, stir_random},
    {0x161 | CC_ANSWERS_HANDLE, NO_SESSIONS, 18, TPM_BUFFER_BYTES, context_load},
    {0x162 | CC_HANDLES(1), NO_SESSIONS, 0, 0, context_save},
    {0x17A, ANYBODY, 12, 12, get_capability},
    {0x17B, ANYBODY, 2, 2, get_random},
    {0x17C, ANYBODY, 0, 0, get_test_result},
    {0x17D, ANYBODY, 2, TPM_BUFFER_BYTES, hash},
    {0x181, ANYBODY, 0, 0, read_clock},
    {0x18A, ANYBODY, 2, TPM_BUFFER_BYTES, test_parms},
};

static uint32_t host_command(size_t number) {
    return table[number].command;
}

static size_t host_command_count(void) {
    return COUNT(table);
}

static const struct answer *answer_to(uint32_t code) {
    for (size_t i = 0; i < COUNT(table); i++)
        if ((table[i].command & 0xffff) == code)
            return &table[i];
    return NULL;
}

/* ---- a command, from its tag to its parameters */

/* A command that was cut: its answer in the table, its handle and parameters, and the sessions that it carries. */
struct cut {
    const struct answer *answer;
    struct asked asked;
    struct carried_area area;
};

static bool has_sessions(const uint8_t *command) {
    return number16(command) == TPM_ST_SESSIONS;
}

/* What an HMAC of the command is over. */
static struct carried_text text_of(const struct cut *cut) {
    uint32_t code = cut->answer->command & 0xffff;
    return (struct carried_text){code, cut->asked.handle, cut->asked.parameters, cut->asked.len};
}

static uint32_t cut_areas(struct cut *cut, const uint8_t *command, size_t len) {
    size_t at = 10, taken = 0;
    uint32_t code = TPM_RC_SUCCESS;
    if (cut->answer->command & CC_HANDLES(1)) {
        if (len < 14)
            return TPM_RC_INSUFFICIENT + FOR_HANDLE_1;
        cut->asked.handle = number32(command + 10);
        at = 14;
    }
    if (has_sessions(command))
        code = carried_cut(command + at, len - at, &cut->area, &taken);
    cut->asked.parameters = command + at + taken;
    cut->asked.len = len - at - taken;
    return code;
}

static uint32_t check_sessions(struct machine *machine, const struct cut *cut) {
    const struct answer *answer = cut->answer;
    struct carried_text text = text_of(cut);
    if (cut->area.count == 0)
        return answer->by == PLATFORM ? TPM_RC_AUTH_MISSING : TPM_RC_SUCCESS;
    if (answer->by == NO_SESSIONS)
        return TPM_RC_AUTH_CONTEXT;
    return carried_check(machine, &cut->area, answer->by == PLATFORM, &text);
}

/* Which parameter is missing, from 0: those of four bytes stand before it, but a context is one of many fields. */
static uint32_t missing(const struct cut *cut) {
    return cut->answer->by == NO_SESSIONS ? 0 : (uint32_t)cut->asked.len / 4;
}

/* The checks before an answer are those of the device, in its order: started, handles, sessions, and the size of the
 * parameters. */
static uint32_t judged(struct machine *machine, struct cut *cut, const uint8_t *command, size_t len,
                       struct reply *reply) {
    if (!machine->started)
        return TPM_RC_INITIALIZE;
    uint32_t code = cut_areas(cut, command, len);
    if (code == TPM_RC_SUCCESS)
        code = check_sessions(machine, cut);
    if (code != TPM_RC_SUCCESS)
        return code;
    if (cut->asked.len < cut->answer->least)
        return TPM_RC_INSUFFICIENT + FOR_PARAMETER_1 + TPM_RC_1 * missing(cut);
    if (cut->asked.len > cut->answer->most)
        return TPM_RC_SIZE;
    return cut->answer->reply(machine, &cut->asked, reply);
}

/* The size of the parameters stands before them, and behind them are the sessions. */
static void add_sessions(struct machine *machine, const struct cut *cut, struct reply *reply) {
    struct carried_text text = text_of(cut);
    text.parameters = reply->bytes + 14;
    text.len = reply->len - 14;
    put16(reply->bytes, TPM_ST_SESSIONS);
    put32(reply->bytes + 10, (uint32_t)text.len);
    reply->len += carried_answer(machine, &cut->area, &text, reply->bytes + reply->len);
}

static size_t answer_by(struct machine *machine, const struct answer *answer, const uint8_t *command, size_t len,
                        uint8_t *response) {
    struct cut cut = {.answer = answer};
    struct reply reply = {response, has_sessions(command) ? 14 : 10};
    uint32_t code = judged(machine, &cut, command, len, &reply);
    if (code != TPM_RC_SUCCESS)
        return code_alone(response, code);
    code_alone(response, TPM_RC_SUCCESS);
    if (has_sessions(command))
        add_sessions(machine, &cut, &reply);
    put32(response + 2, (uint32_t)reply.len);
    return reply.len;
}

/* TPM 1.2's tags. Firmware asks by one of these which TPM is there, and takes BAD_TAG for a TPM 1.2. */
static bool is_of_tpm_12(uint16_t tag) {
    return tag >= 0x00C1 && tag <= 0x00C3;
}

size_t host_answer(struct machine *machine, const uint8_t *command, size_t len, uint8_t *response) {
    if (len < 10 || number32(command + 2) != len)
        return 0;
    if (is_of_tpm_12(number16(command)))
        return code_alone(response, TPM_RC_VALUE);
    if (number16(command) != TPM_ST_NO_SESSIONS && number16(command) != TPM_ST_SESSIONS)
        return 0;
    const struct answer *answer = answer_to(number32(command + 6));
    return answer ? answer_by(machine, answer, command, len, response) : 0;
}
