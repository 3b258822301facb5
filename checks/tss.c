/* What tpm2-tss' integration tests ask of a TPM, by its libraries (libtss2-sys, libtss2-esys), over the TCTI that the
 * first word names; a line for each test, with its result. The tests go by the names that they have there, and are
 * those that the profile can answer.
 *
 *     tss TCTI [TEST ..]          ok TEST, or: failed TEST, where, and the response code
 */
#include <stdio.h>
#include <stdlib.h>
#include <string.h>

#include <tss2/tss2_esys.h>
#include <tss2/tss2_mu.h>
#include <tss2/tss2_sys.h>
#include <tss2/tss2_tctildr.h>

#define NONE ESYS_TR_NONE, ESYS_TR_NONE, ESYS_TR_NONE
#define BY_PASSWORD ESYS_TR_PASSWORD, ESYS_TR_NONE, ESYS_TR_NONE
#define BY(session) session, ESYS_TR_NONE, ESYS_TR_NONE

static TSS2_TCTI_CONTEXT *tcti;
static TSS2_SYS_CONTEXT *sys;
static ESYS_CONTEXT *esys;
static const char *where;
static TSS2_RC code;

/* In a test: the call has to succeed, or what is said has to be so. */
#define DOES(call)                  \
    do {                            \
        where = #call;              \
        if ((code = (call)) != 0)   \
            return 0;               \
    } while (0)
#define IS(fact)                    \
    do {                            \
        where = #fact;              \
        code = 0;                   \
        if (!(fact))                \
            return 0;               \
    } while (0)

static const TSS2L_SYS_AUTH_COMMAND password = {.count = 1, .auths = {{.sessionHandle = TPM2_RS_PW}}};

static TPML_PCR_SELECTION one_register(TPMI_ALG_HASH hash, unsigned number) {
    TPML_PCR_SELECTION list = {.count = 1};
    list.pcrSelections[0].hash = hash;
    list.pcrSelections[0].sizeofSelect = 3;
    list.pcrSelections[0].pcrSelect[number / 8] = (BYTE)(1 << number % 8);
    return list;
}

static int sys_abi_version(void) {
    TSS2_ABI_VERSION other = {.tssCreator = 0xF0000000, .tssFamily = 1, .tssLevel = 1, .tssVersion = 1};
    size_t size = Tss2_Sys_GetContextSize(0);
    TSS2_SYS_CONTEXT *made = calloc(1, size);
    TSS2_RC said = Tss2_Sys_Initialize(made, size, tcti, &other);
    free(made);
    IS(said == TSS2_SYS_RC_ABI_MISMATCH);
    return 1;
}

static int sys_initialize(void) {
    TSS2_ABI_VERSION version = TSS2_ABI_VERSION_CURRENT;
    size_t size = Tss2_Sys_GetContextSize(0);
    TSS2_SYS_CONTEXT *made = calloc(1, size);
    TSS2_TCTI_CONTEXT_COMMON_V1 empty = {0};
    TSS2_RC said[] = {Tss2_Sys_Initialize(NULL, 10, tcti, &version), Tss2_Sys_Initialize(made, 10, NULL, &version),
                      Tss2_Sys_Initialize(made, 10, tcti, &version),
                      Tss2_Sys_Initialize(made, size, (TSS2_TCTI_CONTEXT *)&empty, &version)};
    free(made);
    IS(said[0] == TSS2_SYS_RC_BAD_REFERENCE && said[1] == TSS2_SYS_RC_BAD_REFERENCE);
    IS(said[2] == TSS2_SYS_RC_INSUFFICIENT_CONTEXT && said[3] == TSS2_SYS_RC_BAD_TCTI_STRUCTURE);
    return 1;
}

static int sys_self_test(void) {
    DOES(Tss2_Sys_SelfTest(sys, NULL, TPM2_YES, NULL));
    return 1;
}

static int sys_get_random(void) {
    TPM2B_DIGEST first = {.size = sizeof first.buffer}, second = {.size = sizeof second.buffer};
    DOES(Tss2_Sys_GetRandom(sys, NULL, 20, &first, NULL));
    DOES(Tss2_Sys_GetRandom(sys, NULL, 20, &second, NULL));
    IS(first.size == 20 && second.size == 20 && memcmp(first.buffer, second.buffer, 20) != 0);
    return 1;
}

static int sys_read_clock(void) {
    TPMS_TIME_INFO first, second;
    DOES(Tss2_Sys_ReadClock(sys, NULL, &first, NULL));
    DOES(Tss2_Sys_ReadClock(sys, NULL, &second, NULL));
    IS(first.time <= second.time && first.clockInfo.clock <= second.clockInfo.clock);
    IS(first.clockInfo.resetCount == second.clockInfo.resetCount);
    return 1;
}

static int sys_tpm_properties(void) {
    TPMS_CAPABILITY_DATA found;
    TPMI_YES_NO more;
    DOES(Tss2_Sys_GetCapability(sys, NULL, TPM2_CAP_TPM_PROPERTIES, TPM2_PT_MANUFACTURER, 1, &more, &found, NULL));
    IS(found.capability == TPM2_CAP_TPM_PROPERTIES &&
       found.data.tpmProperties.tpmProperty[0].property == TPM2_PT_MANUFACTURER);
    DOES(Tss2_Sys_GetCapability(sys, NULL, TPM2_CAP_TPM_PROPERTIES, TPM2_PT_REVISION, 1, &more, &found, NULL));
    IS(found.data.tpmProperties.count == 1 && found.data.tpmProperties.tpmProperty[0].property == TPM2_PT_REVISION);
    return 1;
}

static int sys_pcr_extension(void) {
    TPML_PCR_SELECTION asked = one_register(TPM2_ALG_SHA256, 8), given;
    TPML_DIGEST_VALUES digests = {.count = 1};
    TPML_DIGEST before, after;
    UINT32 counter, later;
    TPMS_CAPABILITY_DATA found;
    TPMI_YES_NO more;
    TSS2L_SYS_AUTH_RESPONSE said;
    DOES(Tss2_Sys_GetCapability(sys, NULL, TPM2_CAP_PCR_PROPERTIES, TPM2_PT_TPM2_PCR_FIRST, 1, &more, &found, NULL));
    DOES(Tss2_Sys_PCR_Read(sys, NULL, &asked, &counter, &given, &before, NULL));
    digests.digests[0].hashAlg = TPM2_ALG_SHA256;
    memset(&digests.digests[0].digest, 0x5A, 32);
    DOES(Tss2_Sys_PCR_Extend(sys, 8, &password, &digests, &said));
    DOES(Tss2_Sys_PCR_Read(sys, NULL, &asked, &later, &given, &after, NULL));
    IS(before.count == 1 && after.count == 1 && after.digests[0].size == 32 && counter != later);
    IS(memcmp(before.digests[0].buffer, after.digests[0].buffer, 32) != 0);
    return 1;
}

static int sys_start_auth_session(void) {
    TPMT_SYM_DEF none = {.algorithm = TPM2_ALG_NULL};
    TPM2B_NONCE nonce = {.size = 32}, from_tpm = {.size = sizeof from_tpm.buffer};
    TPM2B_ENCRYPTED_SECRET salt = {0};
    TPMI_SH_AUTH_SESSION handles[3];
    for (size_t i = 0; i < 3; i++) {
        TPM2_SE kind = (TPM2_SE[]){TPM2_SE_POLICY, TPM2_SE_TRIAL, TPM2_SE_HMAC}[i];
        from_tpm.size = sizeof from_tpm.buffer;
        DOES(Tss2_Sys_StartAuthSession(sys, TPM2_RH_NULL, TPM2_RH_NULL, NULL, &nonce, &salt, kind, &none,
                                       TPM2_ALG_SHA256, &handles[i], &from_tpm, NULL));
    }
    for (size_t i = 0; i < 3; i++)
        DOES(Tss2_Sys_FlushContext(sys, handles[i]));
    return 1;
}

/* ---- by libtss2-esys */

static int esys_get_capability(void) {
    TPMI_YES_NO more;
    TPMS_CAPABILITY_DATA *found = NULL;
    DOES(Esys_GetCapability(esys, NONE, TPM2_CAP_TPM_PROPERTIES, TPM2_PT_LOCKOUT_COUNTER, 1, &more, &found));
    Esys_Free(found);
    return 1;
}

static int start(TPMT_SYM_DEF symmetric, TPMI_ALG_HASH hash, TPMA_SESSION attributes, ESYS_TR *session) {
    DOES(Esys_StartAuthSession(esys, ESYS_TR_NONE, ESYS_TR_NONE, NONE, NULL, TPM2_SE_HMAC, &symmetric, hash, session));
    DOES(Esys_TRSess_SetAttributes(esys, *session, attributes, 0xFF));
    return 1;
}

static int esys_get_random(void) {
    TPM2B_DIGEST *bytes = NULL;
    ESYS_TR session;
    TPMT_SYM_DEF none = {.algorithm = TPM2_ALG_NULL};
    DOES(Esys_GetRandom(esys, NONE, 48, &bytes));
    IS(bytes->size > 0);
    Esys_Free(bytes);
    if (!start(none, TPM2_ALG_SHA1, TPMA_SESSION_CONTINUESESSION | TPMA_SESSION_AUDIT, &session))
        return 0;
    DOES(Esys_GetRandom(esys, BY(session), 48, &bytes));
    Esys_Free(bytes);
    DOES(Esys_FlushContext(esys, session));
    return 1;
}

static int esys_stir_random(void) {
    TPM2B_SENSITIVE_DATA bytes = {.size = 20, .buffer = {1, 2, 3, 4, 5, 6, 7, 8, 9, 0, 1, 2, 3, 4, 5, 6, 7, 8, 9, 0}};
    DOES(Esys_StirRandom(esys, NONE, &bytes));
    return 1;
}

static int esys_hash(void) {
    TPM2B_MAX_BUFFER bytes = {.size = 20, .buffer = {0, 1, 2, 3, 4, 5, 6, 7, 8, 9, 0, 1, 2, 3, 4, 5, 6, 7, 8, 9}};
    TPM2B_DIGEST *digest = NULL;
    TPMT_TK_HASHCHECK *ticket = NULL;
    DOES(Esys_Hash(esys, NONE, &bytes, TPM2_ALG_SHA1, ESYS_TR_RH_OWNER, &digest, &ticket));
    IS(digest->size == 20 && ticket->tag == TPM2_ST_HASHCHECK);
    Esys_Free(digest);
    Esys_Free(ticket);
    return 1;
}

/* esys-pcr-basic, up to PCR_Allocate */
static int esys_pcr_basic(void) {
    TPML_PCR_SELECTION asked = one_register(TPM2_ALG_SHA1, 16), *given = NULL;
    TPML_DIGEST *values = NULL;
    TPML_DIGEST_VALUES digests = {.count = 1}, *events = NULL;
    TPM2B_EVENT event = {.size = 20};
    UINT32 counter;
    DOES(Esys_PCR_Read(esys, NONE, &asked, &counter, &given, &values));
    Esys_Free(given);
    Esys_Free(values);
    digests.digests[0].hashAlg = TPM2_ALG_SHA1;
    DOES(Esys_PCR_Extend(esys, ESYS_TR_PCR16, BY_PASSWORD, &digests));
    DOES(Esys_PCR_Read(esys, NONE, &asked, &counter, &given, &values));
    Esys_Free(given);
    Esys_Free(values);
    DOES(Esys_PCR_Event(esys, ESYS_TR_PCR16, BY_PASSWORD, &event, &events));
    Esys_Free(events);
    DOES(Esys_PCR_Reset(esys, ESYS_TR_PCR16, BY_PASSWORD));
    return 1;
}

static TPM2B_NV_PUBLIC counter_public(void) {
    TPM2B_NV_PUBLIC it = {0};
    it.nvPublic.nvIndex = TPM2_NV_INDEX_FIRST;
    it.nvPublic.nameAlg = TPM2_ALG_SHA256;
    it.nvPublic.attributes = TPMA_NV_OWNERWRITE | TPMA_NV_AUTHWRITE | TPMA_NV_WRITE_STCLEAR |
                             TPM2_NT_COUNTER << TPMA_NV_TPM2_NT_SHIFT | TPMA_NV_AUTHREAD | TPMA_NV_OWNERREAD;
    it.nvPublic.dataSize = 8;
    return it;
}

/* The name that an object of the library's has is the one that the TPM answers. */
static int has_its_name(ESYS_TR object) {
    TPM2B_NV_PUBLIC *found = NULL;
    TPM2B_NAME *told = NULL, *made = NULL;
    DOES(Esys_NV_ReadPublic(esys, object, NONE, &found, &told));
    DOES(Esys_TR_GetName(esys, object, &made));
    IS(told->size == made->size && memcmp(told->name, made->name, told->size) == 0);
    IS(found->nvPublic.dataSize == 8 && found->nvPublic.nvIndex == TPM2_NV_INDEX_FIRST);
    Esys_Free(found);
    Esys_Free(told);
    Esys_Free(made);
    return 1;
}

/* A counter is defined, incremented, read and undefined, by this session and with an authorization value of so many
 * bytes. */
static int counts(ESYS_TR session, UINT16 auth_size) {
    TPM2B_AUTH auth = {.size = auth_size};
    TPM2B_NV_PUBLIC public = counter_public();
    TPM2B_MAX_NV_BUFFER *value = NULL;
    ESYS_TR counter;
    memset(auth.buffer, 0x30, auth_size);
    DOES(Esys_NV_DefineSpace(esys, ESYS_TR_RH_OWNER, BY(session), &auth, &public, &counter));
    if (!has_its_name(counter))
        return 0;
    DOES(Esys_NV_Increment(esys, counter, counter, BY(session)));
    if (!has_its_name(counter))
        return 0;
    DOES(Esys_NV_Read(esys, counter, counter, BY(session), 8, 0, &value));
    IS(value->size == 8);
    Esys_Free(value);
    DOES(Esys_NV_UndefineSpace(esys, ESYS_TR_RH_OWNER, counter, BY(session)));
    return 1;
}

static int counts_by_session(UINT16 auth_size) {
    TPMT_SYM_DEF aes = {.algorithm = TPM2_ALG_AES, .keyBits = {.aes = 128}, .mode = {.aes = TPM2_ALG_CFB}};
    ESYS_TR session;
    if (!start(aes, TPM2_ALG_SHA256, TPMA_SESSION_CONTINUESESSION, &session) || !counts(session, auth_size))
        return 0;
    DOES(Esys_FlushContext(esys, session));
    return 1;
}

static int esys_nv_ram_counter(void) { return counts(ESYS_TR_PASSWORD, 20); }

static int esys_nv_ram_counter_session(void) { return counts_by_session(20); }

static int esys_nv_ram_counter_session_long_auth(void) { return counts_by_session(32); }

static int esys_tr_get_name(void) {
    TPM2B_AUTH auth = {.size = 20};
    TPM2B_NV_PUBLIC public = counter_public();
    ESYS_TR counter;
    DOES(Esys_NV_DefineSpace(esys, ESYS_TR_RH_OWNER, BY_PASSWORD, &auth, &public, &counter));
    if (!has_its_name(counter))
        return 0;
    DOES(Esys_NV_UndefineSpace(esys, ESYS_TR_RH_OWNER, counter, BY_PASSWORD));
    return 1;
}

static int esys_tr_get_name_hierarchy(void) {
    TPM2B_NAME *name = NULL;
    TPM2_HANDLE handle = 0;
    size_t at = 0;
    DOES(Esys_TR_GetName(esys, ESYS_TR_RH_OWNER, &name));
    DOES(Tss2_MU_TPM2_HANDLE_Unmarshal(name->name, name->size, &at, &handle));
    IS(handle == TPM2_RH_OWNER && at == name->size);
    Esys_Free(name);
    return 1;
}

static int esys_tr_from_tpm_public_session(void) {
    TPMT_SYM_DEF none = {.algorithm = TPM2_ALG_NULL};
    TPM2_HANDLE handle;
    ESYS_TR session, again;
    if (!start(none, TPM2_ALG_SHA256, TPMA_SESSION_CONTINUESESSION, &session))
        return 0;
    DOES(Esys_TR_GetTpmHandle(esys, session, &handle));
    DOES(Esys_TR_FromTPMPublic(esys, handle, NONE, &again));
    DOES(Esys_FlushContext(esys, again));
    return 1;
}

static const struct {
    const char *name;
    int (*run)(void);
} tests[] = {
    {"sys-abi-version", sys_abi_version},
    {"sys-initialize", sys_initialize},
    {"sys-self-test", sys_self_test},
    {"sys-get-random", sys_get_random},
    {"sys-read-clock", sys_read_clock},
    {"sys-tpm-properties", sys_tpm_properties},
    {"sys-pcr-extension", sys_pcr_extension},
    {"sys-start-auth-session", sys_start_auth_session},
    {"esys-get-capability", esys_get_capability},
    {"esys-get-random", esys_get_random},
    {"esys-stir-random", esys_stir_random},
    {"esys-hash", esys_hash},
    {"esys-pcr-basic", esys_pcr_basic},
    {"esys-nv-ram-counter", esys_nv_ram_counter},
    {"esys-nv-ram-counter-session", esys_nv_ram_counter_session},
    {"esys-nv-ram-counter-session-long-auth", esys_nv_ram_counter_session_long_auth},
    {"esys-tr-getName", esys_tr_get_name},
    {"esys-tr-getName-hierarchy", esys_tr_get_name_hierarchy},
    {"esys-tr-fromTpmPublic-session", esys_tr_from_tpm_public_session},
};

static int is_asked(const char *name, int argc, char **argv) {
    for (int i = 2; i < argc; i++)
        if (strcmp(argv[i], name) == 0)
            return 1;
    return argc <= 2;
}

static int open_tpm(const char *name) {
    TSS2_ABI_VERSION version = TSS2_ABI_VERSION_CURRENT;
    size_t size = Tss2_Sys_GetContextSize(0);
    sys = calloc(1, size);
    DOES(Tss2_TctiLdr_Initialize(name, &tcti));
    DOES(Tss2_Sys_Initialize(sys, size, tcti, &version));
    DOES(Esys_Initialize(&esys, tcti, &version));
    where = "Tss2_Sys_Startup";
    code = Tss2_Sys_Startup(sys, TPM2_SU_CLEAR);
    return code == 0 || code == TPM2_RC_INITIALIZE;
}

int main(int argc, char **argv) {
    int status = 0;
    if (argc < 2 || !open_tpm(argv[1])) {
        fprintf(stderr, "tss: %s: %08lx\n", argc < 2 ? "a TCTI is wanted" : where, (unsigned long)code);
        return 3;
    }
    for (size_t i = 0; i < sizeof tests / sizeof *tests; i++) {
        if (!is_asked(tests[i].name, argc, argv))
            continue;
        if (tests[i].run()) {
            printf("ok %s\n", tests[i].name);
            continue;
        }
        printf("failed %s: %s: %08lx\n", tests[i].name, where, (unsigned long)code);
        status = 1;
    }
    if (Tss2_Sys_Shutdown(sys, NULL, TPM2_SU_CLEAR, NULL) != 0)
        status = 1;
    Esys_Finalize(&esys);
    Tss2_Sys_Finalize(sys);
    free(sys);
    Tss2_TctiLdr_Finalize(&tcti);
    return status;
}
