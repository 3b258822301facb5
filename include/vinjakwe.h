/* The library of crate tpm_c, for C99 and later and for C++. There is nothing to initialize, nothing is allocated and
 * nothing is kept between calls but what lies in the caller's memory. docs/USING.md says how the archive is built.
 *
 * For every function: a pointer is not null, even where the length beside it is 0; bytes that are read or written are so many as
 * the length beside the pointer says, and no two of a call overlap. A device, a framer, a replay or a caller lies in room of
 * tpm_.._size() bytes at a multiple of tpm_.._align(); it is used from init on, by one call at a time, and nothing else writes to
 * it and nothing copies it while it is used. What is proved holds of calls that keep this; nothing checks it. */
#ifndef VINJAKWE_H
#define VINJAKWE_H

/* The version of this header, which `tpmtool --version`, pkg-config and the installed library give, too. */
#define VINJAKWE_VERSION "0.1.0"
#define VINJAKWE_VERSION_MAJOR 0
#define VINJAKWE_VERSION_MINOR 1
#define VINJAKWE_VERSION_PATCH 0

#include <stddef.h>
#include <stdint.h>

#ifdef __cplusplus
extern "C" {
#endif

/* How many bytes a command or a response has at most. */
#define TPM_BUFFER_BYTES 4096

/* How many bytes the owner's authorization value has at most. */
#define TPM_OWNER_BYTES 48

/* How many bytes the nonce has that is handed in with a command. */
#define TPM_NONCE_BYTES 64

/* ---- a device */

struct tpm_device;

/* How many bytes a device takes, and at a multiple of which number it lies. */
size_t tpm_device_size(void);
size_t tpm_device_align(void);

/* Makes a device in the room, which is not started, and answers 1. The owner has this authorization value, and no counter of the
 * device has had a greater value than `greatest`. It answers 0, and nothing is written, where the value has more than
 * TPM_OWNER_BYTES. */
uint32_t tpm_device_init(struct tpm_device *place, const uint8_t *owner, size_t owner_len, uint64_t greatest);

/* The power is switched off and on: the counters stay. */
void tpm_device_power_cycle(struct tpm_device *device);

/* Answers the bytes of a command, whatever they are, with those of a response at the beginning of `out`, and says how many they are:
 * 10 to TPM_BUFFER_BYTES. `nonce` is TPM_NONCE_BYTES of fresh random bytes: on them rests that no command is accepted twice. It
 * answers 0, and nothing changes, where out_len is less than TPM_BUFFER_BYTES. */
size_t tpm_device_execute(struct tpm_device *device, const uint8_t *command, size_t len, const uint8_t *nonce, uint8_t *out, size_t out_len);

/* ---- a device that is kept */

/* What many of the functions below answer. What one does not say that it writes stays as it was. */
#define TPM_DONE ((uint32_t)0)       /* the bytes are what was asked for */
#define TPM_REFUSED ((uint32_t)1)    /* they are not: the refusal says their fault */
#define TPM_NO_ROOM ((uint32_t)2)    /* the room is too small */
#define TPM_NO_COMMAND ((uint32_t)3) /* no command has this number */
#define TPM_NO_COUNTER ((uint32_t)6) /* there are no more counters */

/* A fault of bytes: the response code, and how many bytes are before what is at fault. */
struct tpm_refusal {
    uint32_t code;
    uint32_t at;
};

/* How many bytes NV memory has at most, as tpm_device_keep writes it. */
#define TPM_DEVICE_KEPT_BYTES 1026

/* Writes the bytes of NV memory, which is what a device keeps without power, to the beginning of `out`, and says how many they are:
 * TPM_DEVICE_KEPT_BYTES at most. It answers 0, and nothing is written, where out_len is less. They hold authorization values. */
size_t tpm_device_keep(const struct tpm_device *device, uint8_t *out, size_t out_len);

/* Makes a device in the room of the owner's authorization value and of bytes that tpm_device_keep wrote. It is not started, and stands
 * where a power cycle leaves the device that they were written of, of the same owner's value. TPM_DONE; TPM_REFUSED: nothing is written
 * to the room, and `refusal` is the first fault of the bytes, or TPM_RC_SIZE at 0 for an owner's value of more than TPM_OWNER_BYTES.
 *
 * No counter of a device goes back where a host keeps the bytes after each response before it hands that out (only those that
 * changed NV memory are needed), and makes a device of the last of them, once. */
uint32_t tpm_device_restore(struct tpm_device *place, const uint8_t *owner, size_t owner_len, const uint8_t *kept, size_t kept_len,
                            struct tpm_refusal *refusal);

/* Whether the device that answered this command with this response has changed its NV memory, 1 or 0: a host then keeps it before
 * it hands out the response, and need not otherwise. */
uint32_t tpm_device_changes_nv(const uint8_t *command, size_t len, const uint8_t *response, size_t response_len);

/* The greatest value that any counter of the device has had. */
uint64_t tpm_device_greatest(const struct tpm_device *device);

/* The hash of the session of this handle, TPM_ALG_.., where it is loaded; otherwise 0. */
uint16_t tpm_device_session_hash(const struct tpm_device *device, uint32_t session);

/* A counter that is defined: its public area (TPMS_NV_PUBLIC; Part 2, 13.5) with the attributes as they are now, of whose policy as
 * many bytes are there as are counted; its value, which is 0 where it was not incremented; and 1 or 0, whether it has an
 * authorization value. */
struct tpm_counter {
    uint32_t index;
    uint16_t hash;
    uint32_t attributes;
    uint64_t value;
    size_t policy_len;
    uint8_t policy[48];
    uint32_t has_auth;
};

/* How many counters are defined: 8 at most. */
size_t tpm_device_counters(const struct tpm_device *device);

/* Tells one of them, counted from 0 in the order of their definitions. TPM_DONE: it is in `view`; TPM_NO_COUNTER: there are no more
 * than `which`. */
uint32_t tpm_device_counter(const struct tpm_device *device, size_t which, struct tpm_counter *view);

/* ---- a framer: a stream split into its buffers, each of which states its size (Part 1, "Command/Response Structure") */

struct tpm_framer;

/* How many bytes a framer takes, and at a multiple of which number it lies. */
size_t tpm_framer_size(void);
size_t tpm_framer_align(void);

/* Makes a framer in the room, which holds nothing. */
void tpm_framer_init(struct tpm_framer *place);

/* What a framer holds: less than a frame, a frame, or the first bytes of a buffer whose size is none of 10 to TPM_BUFFER_BYTES. */
#define TPM_FRAMER_MORE ((uint32_t)0)
#define TPM_FRAMER_READY ((uint32_t)1)
#define TPM_FRAMER_BROKEN ((uint32_t)2)

/* Takes bytes of the piece up to the end of the present frame, and answers how many; `status` is then one of the three above.
 * Where a frame is held, or the framer is broken, nothing is taken. */
size_t tpm_framer_push(struct tpm_framer *framer, const uint8_t *piece, size_t len, uint32_t *status);

/* Writes the frame that is held to the beginning of `out`, and answers how many bytes it has; or writes nothing and answers 0, where
 * none is held or out_len is less. */
size_t tpm_framer_frame(struct tpm_framer *framer, uint8_t *out, size_t out_len);

/* Drops the frame that is held, so that the next one can come. Where none is held, nothing changes. */
void tpm_framer_next(struct tpm_framer *framer);

/* ---- commands and responses, judged, cut into their areas, and joined from their parts */

/* A part of the bytes that were handed in: how many bytes are before it, and how many it has. */
struct tpm_part {
    size_t at;
    size_t len;
};

/* A session of a command, TPMS_AUTH_COMMAND (Part 2, 10.13.2): a session's handle or TPM_RS_PW, the caller's nonce, the attributes,
 * and the HMAC or the password. */
struct tpm_command_session {
    uint32_t handle;
    uint8_t attributes;
    struct tpm_part nonce;
    struct tpm_part hmac;
};

/* A command by its areas: TPM_CC, the number of its bytes, 0 to 2 handles, 0 to 3 sessions, and the parameters. Of the handles and
 * the sessions as many are there as are counted, and what is not there is 0. */
struct tpm_command_areas {
    uint32_t code;
    size_t size;
    size_t handle_count;
    uint32_t handles[2];
    size_t session_count;
    struct tpm_command_session sessions[3];
    struct tpm_part parameters;
};

/* A session of a response, TPMS_AUTH_RESPONSE (Part 2, 10.13.3): the device's nonce, the attributes, and the HMAC. */
struct tpm_response_session {
    uint8_t attributes;
    struct tpm_part nonce;
    struct tpm_part hmac;
};

/* A response by its areas: TPM_RC, 0 or 1 handles, the parameters, and 0 to 3 sessions. What is not there is 0; of a response whose
 * code is not 0 nothing else is there. */
struct tpm_response_areas {
    uint32_t code;
    size_t handle_count;
    uint32_t handle;
    struct tpm_part parameters;
    size_t session_count;
    struct tpm_response_session sessions[3];
};

/* Cuts a command, whatever bytes are handed in. TPM_DONE: its areas are in `areas`, and the parameters are not judged; TPM_REFUSED:
 * the first fault before the parameters is in `refusal`. */
uint32_t tpm_command_cut(const uint8_t *bytes, size_t len, struct tpm_command_areas *areas, struct tpm_refusal *refusal);

/* Judges a command as a whole, parameters and all. TPM_DONE: all the bytes spell one; TPM_REFUSED: their fault is in `refusal`. */
uint32_t tpm_command_decode(const uint8_t *bytes, size_t len, struct tpm_refusal *refusal);

/* Cuts the response to the command of this number, TPM_CC. TPM_DONE: its areas are in `areas`, and the parameters are not judged;
 * TPM_REFUSED: the first fault beside the parameters is in `refusal`; TPM_NO_COMMAND. */
uint32_t tpm_response_cut(uint32_t command, const uint8_t *bytes, size_t len, struct tpm_response_areas *areas,
                            struct tpm_refusal *refusal);

/* Judges the response to the command of this number as a whole. TPM_DONE: all the bytes spell one; TPM_REFUSED: their fault is in
 * `refusal`; TPM_NO_COMMAND. */
uint32_t tpm_response_decode(uint32_t command, const uint8_t *bytes, size_t len, struct tpm_refusal *refusal);

/* Joins the command of this number from the bytes of its handles, its sessions as they are spelled in the authorization area, and its
 * parameters: its tag is TPM_ST_SESSIONS where there are bytes of sessions, and else TPM_ST_NO_SESSIONS. TPM_DONE: the command is at
 * the beginning of `out`, and `count` is the number of its bytes; TPM_REFUSED: the bytes spell no command, and their fault is in
 * `refusal`, of more than TPM_BUFFER_BYTES their size; TPM_NO_ROOM: out_len is less than its bytes; TPM_NO_COMMAND. */
uint32_t tpm_command_build(uint32_t command, const uint8_t *handles, size_t handles_len, const uint8_t *sessions, size_t sessions_len,
                           const uint8_t *parameters, size_t parameters_len, uint8_t *out, size_t out_len, size_t *count,
                           struct tpm_refusal *refusal);

/* ---- names and hashes */

/* How many bytes the name of a response code has at most. */
#define TPM_CODE_NAME_BYTES 37

/* Writes the name of a response code to the beginning of `out`, with no zero behind it, and says how many bytes it has:
 * TPM_CODE_NAME_BYTES at most. It is TPM_RC_LOCKOUT, or with the handle, session or parameter that the code tells
 * `TPM_RC_BAD_AUTH for session 1` (Part 2, 6.6). It answers 0, and nothing is written, where out_len is less, or where no code is
 * listed there that has this number. */
size_t tpm_code_name(uint32_t code, uint8_t *out, size_t out_len);

/* Writes the hash of the bytes (FIPS 180-4) to the beginning of `out`, and says how many bytes it has: 20 of TPM_ALG_SHA1, 32 of
 * TPM_ALG_SHA256, 48 of TPM_ALG_SHA384. It answers 0, and nothing is written, where out_len is less, or of another hash. */
size_t tpm_hash(uint16_t hash, const uint8_t *bytes, size_t len, uint8_t *out, size_t out_len);

/* How many bytes a TPML_PCR_SELECTION has with an entry for each bank (Part 2, 10.9.7). */
#define TPM_SELECTION_BYTES 22

/* Writes the registers that a text lists as tpm2-tools do, `sha1:7+sha256:0,1,2` or `sha256:all`, or from one to another, `sha256:0-7`,
 * to the beginning of `out`, as a TPML_PCR_SELECTION as it is spelled, and says how many bytes it has: TPM_SELECTION_BYTES. It answers
 * 0, and nothing is written, for any other text, or where out_len is less. */
size_t tpm_selection(const uint8_t *text, size_t len, uint8_t *out, size_t out_len);

/* ---- a log of a measured boot (PC Client Platform Firmware Profile, "Event Logging") */

/* How many bytes the registers of all banks have: SHA-1 of register i at 20 * i, SHA-256 at 480 + 32 * i, SHA-384 at
 * 1248 + 48 * i, for the registers 0 to 23. */
#define TPM_REGISTERS_BYTES 2400

/* What is wrong with a log. A token that would end behind its area or behind the greatest length of a log has that fault before it
 * has too few bytes, and only then its value is judged. */
#define TPM_LOG_DONE ((uint32_t)0)
/* The bytes end within a token. */
#define TPM_LOG_TRUNCATED ((uint32_t)1)
/* A token would end behind byte 16,777,216. */
#define TPM_LOG_TOO_LONG ((uint32_t)2)
/* The first record is not the header of a log with digests of several hashes (Spec ID Event03). */
#define TPM_LOG_NOT_CRYPTO_AGILE ((uint32_t)3)
/* The header's event has too few or too many bytes, or lists no hash or more than eight. */
#define TPM_LOG_BAD_HEADER ((uint32_t)4)
/* The header lists a hash twice. */
#define TPM_LOG_DUPLICATE_ALGORITHM ((uint32_t)5)
/* The header gives a hash another size than its digests have, or one outside 1 to 64 bytes. */
#define TPM_LOG_WRONG_DIGEST_SIZE ((uint32_t)6)
/* The header doesn't list the hash of a digest. */
#define TPM_LOG_UNKNOWN_ALGORITHM ((uint32_t)7)
/* A record has two digests of one hash. */
#define TPM_LOG_REPEATED_DIGEST ((uint32_t)8)
/* A record that is not EV_NO_ACTION names a register other than 0 to 16 and 23. */
#define TPM_LOG_BAD_REGISTER ((uint32_t)9)
/* The start-up locality is not 0, 3 or 4. */
#define TPM_LOG_BAD_LOCALITY ((uint32_t)10)
/* The start-up locality stands behind another, or behind a record that extends register 0. */
#define TPM_LOG_LATE_LOCALITY ((uint32_t)11)

/* Writes the registers after the log that the bytes spell, from those that have just been started, and answers TPM_LOG_DONE.
 * `registers` has TPM_REGISTERS_BYTES. Otherwise it answers the log's first fault, writes to `at` how many bytes precede the token
 * that has it, and leaves the registers as they were. */
uint32_t tpm_log_replay(const uint8_t *log, size_t len, uint8_t *registers, uint32_t *at);

/* A place among the records of a log, which the caller keeps: zeros to begin. `at`: how many bytes precede it, or 0 before the first
 * record; `late`: other than 0 where a start-up locality comes too late there. It is plain bytes, which may be copied and kept. */
struct tpm_log_place {
    uint32_t at;
    uint32_t late;
};

/* A digest of a record: TPM_ALG of its hash; whether it is that hash of the event's data, 0 or 1, which is computed for
 * TPM_ALG_SHA1, TPM_ALG_SHA256 and TPM_ALG_SHA384; and its bytes. */
struct tpm_log_digest {
    uint16_t hash;
    uint8_t hashed;
    struct tpm_part digest;
};

/* How many digests a record has at most. */
#define TPM_RECORD_DIGESTS 8

/* A record of a log, TCG_PCR_EVENT2: how many bytes of the log precede it; its register; its type, 3 for EV_NO_ACTION, which extends nothing; its digests, in their order;
 * and the event's data. Of the digests as many are there as are counted, and the others are 0. */
struct tpm_log_event {
    uint32_t at;
    uint32_t pcr;
    uint32_t type;
    size_t digest_count;
    struct tpm_log_digest digests[TPM_RECORD_DIGESTS];
    struct tpm_part data;
};

/* A record was told. */
#define TPM_EVENT ((uint32_t)32)

/* Tells the record at a place of a log. TPM_EVENT: it is in `event`, by its parts in all of the log's bytes, and the place is then
 * behind it. TPM_LOG_DONE: no byte is left there. Otherwise it answers the log's fault, and writes to `at` how many bytes precede
 * the token that has it. What isn't written so stays as it was.
 *
 * Called again and again from zeros on it tells the records of the log one by one, and then its end; or, of bytes with a fault,
 * some records and then the fault that tpm_log_replay answers. Each call reads the log's header and one record. At a place that
 * no call wrote the bytes are read as if a record began there. */
uint32_t tpm_log_event(const uint8_t *log, size_t len, struct tpm_log_place *place, struct tpm_log_event *event, uint32_t *at);

/* How many bytes the name of a type of records has at most. */
#define TPM_EVENT_TYPE_BYTES 32

/* Writes the name of this type of records, as EV_SEPARATOR, to the beginning of `out`, with no zero behind it, and says how many bytes
 * it has: TPM_EVENT_TYPE_BYTES at most. It answers 0, and nothing is written, where out_len is less, or where the PC Client Platform
 * Firmware Profile ("Event Types") names no such type. */
size_t tpm_event_type_name(uint32_t kind, uint8_t *out, size_t out_len);

/* A text was told: in UTF-8, or in UTF-16 with the less significant byte of each unit first. */
#define TPM_TEXT ((uint32_t)34)
#define TPM_TEXT_UTF16 ((uint32_t)35)

/* Tells the text that these bytes, the data of a record of this type, are, all of them but for a zero that ends it, or in UTF-16 of
 * EV_IPL for zeros. TPM_TEXT: it is in `view`, and the type is EV_POST_CODE, EV_ACTION, EV_IPL or EV_EFI_ACTION: UTF-8, a character or
 * more, and of ASCII printable ones, tabs, line feeds and carriage returns alone. TPM_TEXT_UTF16: it is in `view`, and the type is
 * EV_IPL, with such characters of ASCII, or EV_S_CRTM_VERSION, where the units are not judged, and 16 bytes that are no such text are a
 * GUID. TPM_LOG_DONE: they are none, or the type is another; `view` stays as it was. */
uint32_t tpm_log_text(uint32_t kind, const uint8_t *bytes, size_t len, struct tpm_part *view);

/* A variable of the firmware, by its parts in the data of a record: the vendor's GUID, 16 bytes as they lie in memory; the name in
 * UTF-16, with the less significant byte of each unit first; and the value. */
struct tpm_variable {
    struct tpm_part guid;
    struct tpm_part name;
    struct tpm_part value;
};

/* A variable was told. */
#define TPM_VARIABLE ((uint32_t)33)

/* Tells the variable that these bytes, the data of a record of this type, are, all of them (UEFI_VARIABLE_DATA; PC Client Platform Firmware
 * Profile, "Event Types"). TPM_VARIABLE: it is in `view`. TPM_LOG_DONE: they are none, or the type is another than
 * EV_EFI_VARIABLE_DRIVER_CONFIG, EV_EFI_VARIABLE_BOOT, EV_EFI_VARIABLE_BOOT2, EV_EFI_VARIABLE_AUTHORITY, EV_EFI_SPDM_DEVICE_POLICY and
 * EV_EFI_SPDM_DEVICE_AUTHORITY; `view` stays as it was. */
uint32_t tpm_log_variable(uint32_t kind, const uint8_t *bytes, size_t len, struct tpm_variable *view);

/* An image that was loaded, UEFI_IMAGE_LOAD_EVENT: the address of its first byte in memory, how many bytes it has there, the address
 * that it was linked for, and its device path in the data of the record. The record's digest is of the image, and not of these. */
struct tpm_image {
    uint64_t address;
    uint64_t size;
    uint64_t link_address;
    struct tpm_part path;
};

/* An image was told. */
#define TPM_IMAGE ((uint32_t)43)

/* Tells the image that these bytes, the data of a record of this type, are. TPM_IMAGE: it is in `view`. TPM_LOG_DONE: they are none, or
 * the type is another than EV_EFI_BOOT_SERVICES_APPLICATION, EV_EFI_BOOT_SERVICES_DRIVER and EV_EFI_RUNTIME_SERVICES_DRIVER; `view` stays
 * as it was. */
uint32_t tpm_log_image(uint32_t kind, const uint8_t *bytes, size_t len, struct tpm_image *view);

/* A node of a device path (UEFI Specification, "Generic Device Path Structures"): its type, its subtype, and its data in the bytes that
 * were handed in. Of type 4 and subtype 4 they are the path name of a file in UTF-16, with the less significant byte of each unit
 * first and a zero behind it. */
struct tpm_path_node {
    uint8_t type;
    uint8_t subtype;
    struct tpm_part value;
};

/* A node was told. */
#define TPM_PATH_NODE ((uint32_t)44)

/* Tells the first node of the device path that these bytes are. TPM_PATH_NODE: it is in `view`, and the next node is behind its data.
 * TPM_LOG_DONE: the node has a fault, or there are no bytes; `view` stays as it was. */
uint32_t tpm_log_path_node(const uint8_t *bytes, size_t len, struct tpm_path_node *view);

/* What a record's data say, by their parts in them. Of each kind that tpm_log_event_content answers what stands beside it is told, and the
 * rest of a struct tpm_content stays as it was. GUIDs have 16 bytes as they lie in memory; text in UTF-16 has the less significant byte of
 * each unit first; numbers are those of the data. None of it is judged: tpm_log_measured says what was measured. */

/* What a variable holds, in `holds`: a load option (tpm_log_load_option); BootOrder's numbers of load options, in the order in which they
 * are tried, each in two bytes with the less significant one first; lists of signatures (tpm_log_signature_list); one signature
 * (tpm_log_owned); one byte, as of SecureBoot; no byte; or bytes of which no more is known. */
#define TPM_HOLDS_LOAD_OPTION ((uint32_t)96)
#define TPM_HOLDS_BOOT_ORDER ((uint32_t)97)
#define TPM_HOLDS_SIGNATURES ((uint32_t)98)
#define TPM_HOLDS_SIGNATURE ((uint32_t)99)
#define TPM_HOLDS_BYTE ((uint32_t)100)
#define TPM_HOLDS_EMPTY ((uint32_t)101)
#define TPM_HOLDS_BYTES ((uint32_t)102)

/* A part of the firmware's code, UEFI_PLATFORM_FIRMWARE_BLOB or UEFI_PLATFORM_FIRMWARE_BLOB2: the address of its first byte in memory, how
 * many bytes it has there, and its description, without a zero that ends it; no byte where there is none. */
struct tpm_firmware {
    uint64_t base;
    uint64_t size;
    struct tpm_part name;
};

/* The tables that the firmware hands to the system, UEFI_HANDOFF_TABLE_POINTERS or UEFI_HANDOFF_TABLE_POINTERS2: their description, as
 * above; how many they are; and their entries, one behind the other, of TPM_TABLE_BYTES each (tpm_log_table). */
struct tpm_tables {
    struct tpm_part name;
    size_t count;
    struct tpm_part entries;
};

/* An event of an operating system, TCG_PCClientTaggedEvent: a number of the system's own, and its data. */
struct tpm_tag {
    uint32_t id;
    struct tpm_part value;
};

/* The partitions of a disk, UEFI_GPT_DATA: the disk's GUID; how many they are; how many bytes each entry has, 128 at least; and the
 * entries, one behind the other (tpm_log_partition). */
struct tpm_partitions {
    struct tpm_part disk;
    size_t count;
    size_t entry_size;
    struct tpm_part entries;
};

/* A measurement of a device, DEVICE_SECURITY_EVENT_DATA: SpdmHashAlgo (DSP0274, "ALGORITHMS"); DeviceType, 0 where none is told, 1 of PCI, 2
 * of USB; SpdmMeasurementBlock; and DeviceContext. */
struct tpm_measurement {
    uint32_t hash;
    uint32_t device_type;
    struct tpm_part block;
    struct tpm_part context;
};

/* What a device showed, DEVICE_SECURITY_EVENT_DATA2: AuthState, 0 for success, 1 for no authentication, 2 for no binding, 3 for a failure
 * without a signature, 4 for a signature that is not valid, 255 for no SPDM; DeviceType, as above; SubHeaderType, 0 of measurement blocks,
 * 1 of a chain of certificates, 2 of something of the platform's maker; SubHeaderUID, by which events belong together; the device path
 * (tpm_log_path_node); the sub-header; and DeviceContext. */
struct tpm_evidence {
    uint8_t auth_state;
    uint32_t device_type;
    uint32_t sub_header_type;
    uint64_t uid;
    struct tpm_part path;
    struct tpm_part sub_header;
    struct tpm_part context;
};

struct tpm_content {
    struct tpm_variable variable;
    uint32_t holds;
    struct tpm_part text;
    uint32_t number;
    struct tpm_image image;
    struct tpm_firmware firmware;
    struct tpm_tables tables;
    struct tpm_tag tag;
    struct tpm_partitions partitions;
    struct tpm_measurement measurement;
    struct tpm_evidence evidence;
};

/* Kinds besides TPM_VARIABLE (`variable` and `holds`), TPM_TEXT, TPM_TEXT_UTF16 (`text`) and TPM_IMAGE (`image`; behind the path are no bytes
 * by the profile, and 8 or 9 where an older shim measured it): EV_S_CRTM_VERSION in UTF-16, or as a GUID; EV_SEPARATOR's 0, 0xFFFFFFFF, or
 * another number where an error was met; and the start-up locality, which EV_NO_ACTION tells. */
#define TPM_VERSION ((uint32_t)80)      /* `text` */
#define TPM_VERSION_GUID ((uint32_t)81) /* `text` */
#define TPM_SEPARATOR ((uint32_t)82)    /* `number` */
#define TPM_LOCALITY ((uint32_t)83)     /* `number` */
#define TPM_FIRMWARE ((uint32_t)84)     /* `firmware` */
#define TPM_TABLES ((uint32_t)85)       /* `tables` */
#define TPM_TAG ((uint32_t)86)          /* `tag` */
#define TPM_PARTITIONS ((uint32_t)87)   /* `partitions` */
#define TPM_MEASUREMENT ((uint32_t)88)  /* `measurement` */
#define TPM_EVIDENCE ((uint32_t)89)     /* `evidence` */

/* Tells what these bytes, the data of a record of this type, say, and answers their kind (PC Client Platform Firmware Profile, "Event
 * Types"); or TPM_LOG_DONE: nothing of them is known, as of another type, or of data with a fault. */
uint32_t tpm_log_event_content(uint32_t kind, const uint8_t *bytes, size_t len, struct tpm_content *view);

/* Writes the object of JSON (RFC 8259) that `tpmtool events --json` prints of a record of a log, without the line feed, to the beginning of
 * `out`, with no zero behind it, and says how many bytes it has. It has ASCII alone. The record is the one of which tpm_log_event tells this
 * `at`, and `number` is the object's own: from 1 on for the records one by one. It answers 0 where out_len is less, and `out` is then left
 * open; or where no record is there, and nothing is written. 4,096 bytes and 16 for each of the record's data are enough. */
size_t tpm_log_event_json(const uint8_t *log, size_t len, uint32_t at, size_t number, uint8_t *out, size_t out_len);

/* Writes the text of the device path that these bytes are, up to its first fault, to the beginning of `out`, as a string of JSON with its
 * quotation marks (UEFI Specification, "Device Path Text Representation"; half a surrogate pair is U+FFFD), and says how many bytes it
 * has. It answers 0 where out_len is less, and `out` is then left open. 2 bytes and 16 for each of the path are enough. */
size_t tpm_log_path_json(const uint8_t *bytes, size_t len, uint8_t *out, size_t out_len);

/* A partition, EFI_PARTITION_ENTRY: the GUID of its type, and its own; its first and its last block; Attributes; and its name in UTF-16, to
 * the first zero. */
struct tpm_partition {
    struct tpm_part type;
    struct tpm_part guid;
    uint64_t first;
    uint64_t last;
    uint64_t attributes;
    struct tpm_part name;
};

/* A partition was told. */
#define TPM_PARTITION ((uint32_t)90)

/* Tells the partition that these bytes are, an entry of so many as struct tpm_partitions says, by its parts in them. TPM_PARTITION: it is in
 * `view`. TPM_LOG_DONE: they are fewer than 128; `view` stays as it was. */
uint32_t tpm_log_partition(const uint8_t *bytes, size_t len, struct tpm_partition *view);

/* A table, EFI_CONFIGURATION_TABLE: the GUID that tells what it is, and the address of its first byte. */
struct tpm_table {
    struct tpm_part guid;
    uint64_t address;
};

/* How many bytes the entry of a table has. */
#define TPM_TABLE_BYTES 24

/* A table was told. */
#define TPM_TABLE ((uint32_t)91)

/* Tells the table with which these bytes begin, by its parts in them. TPM_TABLE: it is in `view`. TPM_LOG_DONE: they are fewer than
 * TPM_TABLE_BYTES; `view` stays as it was. */
uint32_t tpm_log_table(const uint8_t *bytes, size_t len, struct tpm_table *view);

/* A list of signatures, EFI_SIGNATURE_LIST: the GUID of their type; SignatureHeader; how many they are; how many bytes each has, 16 at
 * least; and the signatures, one behind the other (tpm_log_owned). */
struct tpm_signature_list {
    struct tpm_part type;
    struct tpm_part header;
    size_t count;
    size_t entry_size;
    struct tpm_part entries;
};

/* A list of signatures was told. */
#define TPM_SIGNATURE_LIST ((uint32_t)92)

/* Tells the first of the lists that these bytes, the value of a variable, are. TPM_SIGNATURE_LIST: it is in `view`, and the next list is
 * behind its entries. TPM_LOG_DONE: it has a fault, or there are no bytes; `view` stays as it was. */
uint32_t tpm_log_signature_list(const uint8_t *bytes, size_t len, struct tpm_signature_list *view);

/* A signature, EFI_SIGNATURE_DATA: the GUID of its owner, and its data, as a certificate or a hash, which are not parsed. */
struct tpm_owned {
    struct tpm_part owner;
    struct tpm_part value;
};

/* A signature was told. */
#define TPM_OWNED ((uint32_t)93)

/* Tells the signature that these bytes, an entry of a list, or the value of a variable that holds one, are. TPM_OWNED: it is in `view`.
 * TPM_LOG_DONE: they are fewer than 16; `view` stays as it was. */
uint32_t tpm_log_owned(const uint8_t *bytes, size_t len, struct tpm_owned *view);

/* What the firmware may start, EFI_LOAD_OPTION: Attributes, whose bit 0 says that it is tried; its description in UTF-16, without the zero
 * that ends it; its device paths, one behind the other (tpm_log_device_path); and OptionalData, which is handed to the program. */
struct tpm_load_option {
    uint32_t attributes;
    struct tpm_part description;
    struct tpm_part path;
    struct tpm_part value;
};

/* A load option was told. */
#define TPM_LOAD_OPTION ((uint32_t)94)

/* Tells the load option that these bytes, the value of a variable, are. TPM_LOAD_OPTION: it is in `view`. TPM_LOG_DONE: they are none;
 * `view` stays as it was. */
uint32_t tpm_log_load_option(const uint8_t *bytes, size_t len, struct tpm_load_option *view);

/* A device path was told. */
#define TPM_DEVICE_PATH ((uint32_t)95)

/* Tells the first of the device paths that these bytes are, one behind the other. TPM_DEVICE_PATH: it is in `view`, and the next is behind
 * it; tpm_log_path_node tells its nodes. TPM_LOG_DONE: there are no bytes; `view` stays as it was. */
uint32_t tpm_log_device_path(const uint8_t *bytes, size_t len, struct tpm_part *view);

/* Which part of a record's data a digest is of: all of them; the value of the variable that they are; in EV_IPL, the text behind a
 * prefix that GRUB writes and does not measure, as `kernel_cmdline: `; all but the last byte; or none of these, so that something
 * else was measured than what the log says. */
#define TPM_MEASURED_DATA ((uint32_t)36)
#define TPM_MEASURED_VARIABLE ((uint32_t)37)
#define TPM_MEASURED_TEXT ((uint32_t)38)
#define TPM_MEASURED_CUT ((uint32_t)39)
#define TPM_MEASURED_OTHER ((uint32_t)40)

/* Tells which part of these bytes, the data of a record of this type, the record's digest in the bank of this hash is of (TPM_ALG_SHA1,
 * TPM_ALG_SHA256 or TPM_ALG_SHA384): the first of TPM_MEASURED_DATA to TPM_MEASURED_OTHER that fits; or TPM_QUOTE_NO_BANK. */
uint32_t tpm_log_measured(uint32_t kind, const uint8_t *bytes, size_t len, uint16_t hash, const uint8_t *digest, size_t digest_len);

/* A digest by which a register may be extended, as in a boot that is trusted: its register; TPM_ALG of its hash; and its bytes, of which
 * as many count as the digests of the hash have. One of a hash without a bank says nothing. */
struct tpm_allowed {
    uint32_t pcr;
    uint16_t hash;
    uint8_t digest[48];
};

/* What is said of a digest beside a list: it is on it, or it isn't, and the list names its register in its bank. */
#define TPM_ALLOWED ((uint32_t)41)
#define TPM_NOT_ALLOWED ((uint32_t)42)

/* Tells whether a list allows the digest by which a record of this register and type extends it, in the bank of this hash (TPM_ALG_SHA1,
 * TPM_ALG_SHA256 or TPM_ALG_SHA384): TPM_ALLOWED, TPM_NOT_ALLOWED, or TPM_LOG_DONE where the list doesn't name the register, or the type
 * is EV_NO_ACTION, which extends nothing; or TPM_QUOTE_NO_BANK. Each call goes through the list.
 *
 * Where TPM_NOT_ALLOWED is answered of no digest of any record of a log, and a quote that selects each register of the list matches the
 * log (tpm_log_check_attest), each log that it vouches for has digests of the list alone in these registers: where no two different
 * texts hashed share a hash, and none has a register's start value as its hash. */
uint32_t tpm_log_allowed(const struct tpm_allowed *list, size_t len, uint32_t pcr, uint32_t kind, uint16_t hash, const uint8_t *digest,
                         size_t digest_len);

/* What a log tells of Secure Boot besides its state: 1 where DMA protection was disabled, else 0; and how many bytes of the log
 * precede the records of PK, KEK, db and dbx, or 0 where one was not measured. tpm_log_event tells the record at such a place, where
 * `late` is 0. */
struct tpm_secure_boot {
    uint32_t dma_protection_disabled;
    uint32_t pk;
    uint32_t kek;
    uint32_t db;
    uint32_t dbx;
};

/* What is said of Secure Boot, besides the faults of the log. */
#define TPM_SECURE_BOOT_ON ((uint32_t)48)            /* SecureBoot was 1, PK, KEK and db held something, and there is an authority */
#define TPM_SECURE_BOOT_OFF ((uint32_t)49)           /* SecureBoot was 0 */
#define TPM_SECURE_BOOT_UNSET ((uint32_t)50)         /* SecureBoot had no byte */
#define TPM_SECURE_BOOT_NO_ROOM ((uint32_t)51)       /* there are more authorities than places for them */
#define TPM_SECURE_BOOT_NO_BANK ((uint32_t)18)       /* no bank has this hash */
#define TPM_SECURE_BOOT_NOT_MEASURED ((uint32_t)64)  /* no digest of the bank is of the record's data, or of an authority's but the last byte */
#define TPM_SECURE_BOOT_OTHER_TYPE ((uint32_t)65)    /* before the separator, no variable, action of the profile or separator */
#define TPM_SECURE_BOOT_NO_VARIABLE ((uint32_t)66)   /* the data are no UEFI_VARIABLE_DATA to their end */
#define TPM_SECURE_BOOT_TWICE ((uint32_t)67)         /* SecureBoot, PK, KEK, db, dbx, dbt or dbr for the second time */
#define TPM_SECURE_BOOT_OTHER_VALUE ((uint32_t)68)   /* SecureBoot has a byte, and is neither 0 nor 1 */
#define TPM_SECURE_BOOT_DEBUGGER ((uint32_t)69)      /* the firmware could be debugged */
#define TPM_SECURE_BOOT_BAD_SEPARATOR ((uint32_t)70) /* the separator is neither 00000000 nor FFFFFFFF */
#define TPM_SECURE_BOOT_NO_SEPARATOR ((uint32_t)71)  /* the log ends without a separator */
#define TPM_SECURE_BOOT_LATE ((uint32_t)72)          /* behind the separator, another type than EV_EFI_VARIABLE_AUTHORITY */
#define TPM_SECURE_BOOT_NO_KEY ((uint32_t)73)        /* SecureBoot is 1, and PK, KEK or db holds nothing */
#define TPM_SECURE_BOOT_NO_AUTHORITY ((uint32_t)74)  /* SecureBoot is 1, and the log ends without an authority */
#define TPM_SECURE_BOOT_NO_SECURE_BOOT ((uint32_t)75) /* the log ends, and SecureBoot was not measured */

/* Tells whether Secure Boot was on, by the records of register 7 in the bank of this hash (TPM_ALG_SHA1, TPM_ALG_SHA256 or
 * TPM_ALG_SHA384; PC Client Platform Firmware Profile, "PCR[7]"). The first of these is answered: TPM_SECURE_BOOT_NO_BANK; the log's
 * first fault, TPM_LOG_..; the first fault of what the records tell, TPM_SECURE_BOOT_NOT_MEASURED to TPM_SECURE_BOOT_NO_SECURE_BOOT;
 * TPM_SECURE_BOOT_NO_ROOM; TPM_SECURE_BOOT_ON, TPM_SECURE_BOOT_OFF or TPM_SECURE_BOOT_UNSET.
 *
 * With a state, the rest is in `view`, and `authorities` has at its beginning how many bytes of the log precede each authority (the
 * records of EV_EFI_VARIABLE_AUTHORITY), as many as `count` says. `authorities_len` is how many places there is room for. With
 * TPM_SECURE_BOOT_NO_ROOM, `count` alone is written, and says how many there are. With a fault, `at` says how many bytes of the log
 * precede the token or the record that has it, or how many bytes there are, where something is missing at the end. What isn't written
 * so stays as it was.
 *
 * What is told is as true as register 7: a quote that selects it vouches for it, and this call looks at no quote. */
uint32_t tpm_log_secure_boot(const uint8_t *log, size_t len, uint16_t hash, struct tpm_secure_boot *view, uint32_t *authorities,
                             size_t authorities_len, size_t *count, uint32_t *at);

/* How many bytes the name of an answer has at most. */
#define TPM_LOG_NAME_BYTES 19

/* Writes the name of what a call on a log or a quote answered to the beginning of `out`, with no zero behind it, and says how many bytes
 * it has: TPM_LOG_NAME_BYTES at most. It is `Truncated` of TPM_LOG_TRUNCATED, `on` of TPM_SECURE_BOOT_ON, `NotMeasured` of
 * TPM_SECURE_BOOT_NOT_MEASURED, and so on, as `tpmtool check` prints them; and of TPM_ATTEST_DIFFERS to TPM_ATTEST_REQUIREMENT `digest
 * differs`, `quote refused`, `no bank`, `nonce differs`, `selection lacks`, `selects nothing` and `requirement refused`. It answers 0, and
 * nothing is written, where out_len is less, or of any other answer. */
size_t tpm_log_answer_name(uint32_t answer, uint8_t *out, size_t out_len);

/* A replay of a log that comes in pieces, however it is cut. */
struct tpm_log_replay;

/* How many bytes a replay takes, and at a multiple of which number it lies. */
size_t tpm_log_replay_size(void);
size_t tpm_log_replay_align(void);

/* Makes a replay in the room, which was fed nothing. */
void tpm_log_replay_init(struct tpm_log_replay *place);

/* Takes the next bytes of the log, of which there may be none, and answers TPM_LOG_DONE. Exactly where every log that begins with
 * what was fed, these bytes among it, has one fault, it answers that fault, and writes to `at` how many bytes of the log precede the
 * token that has it. So does each later call until the end: what is fed then is not looked at. */
uint32_t tpm_log_replay_feed(struct tpm_log_replay *replay, const uint8_t *piece, size_t len, uint32_t *at);

/* Ends the log behind the bytes that were fed, and answers and writes what tpm_log_replay does for them. The replay was then fed
 * nothing, and another log can come. */
uint32_t tpm_log_replay_end(struct tpm_log_replay *replay, uint8_t *registers, uint32_t *at);

/* What is said of a quote beside a log: its digest is that of the registers, or another; or the bytes are none; or there is no
 * bank of that hash. */
#define TPM_QUOTE_MATCHES ((uint32_t)0)
#define TPM_QUOTE_DIFFERS ((uint32_t)16)
#define TPM_QUOTE_REFUSED ((uint32_t)17)
#define TPM_QUOTE_NO_BANK ((uint32_t)18)

/* Replays a log, and compares the digest of a quote's information (TPMS_QUOTE_INFO; Part 2, 10.12.4) with that of the values of
 * its registers under this hash (TPM_ALG_SHA1, TPM_ALG_SHA256 or TPM_ALG_SHA384; Part 1, "Selecting Multiple PCR"). The first of
 * these is answered: TPM_QUOTE_NO_BANK; the log's first fault, with its place as above; TPM_QUOTE_REFUSED, with the position of
 * the first fault in `at`; TPM_QUOTE_MATCHES or TPM_QUOTE_DIFFERS. Neither a signature nor a nonce is looked at, and a quote of no register matches every log:
 * tpm_log_check_attest looks at both the nonce and the selection. */
uint32_t tpm_log_check_quote(const uint8_t *log, size_t len, const uint8_t *quote, size_t quote_len, uint16_t hash, uint32_t *at);

/* A quote as it was signed, TPMS_ATTEST of type TPM_ST_ATTEST_QUOTE (Part 2, 10.12), by its parts in the bytes that were handed in:
 * qualifiedSigner and extraData, the nonce, each without its size; the clock in milliseconds, resetCount, restartCount and safe, 0 or
 * 1; firmwareVersion; pcrSelect, a TPML_PCR_SELECTION as it is spelled; and pcrDigest without its size. */
struct tpm_attest {
    struct tpm_part signer;
    struct tpm_part nonce;
    uint64_t clock;
    uint32_t reset_count;
    uint32_t restart_count;
    uint8_t safe;
    uint64_t firmware_version;
    struct tpm_part selections;
    struct tpm_part digest;
};

/* Cuts a quote as it was signed, whatever bytes are handed in. TPM_DONE: its parts are in `view`; TPM_REFUSED: all the bytes spell
 * none, and their first fault is in `refusal`. What isn't written so stays as it was. */
uint32_t tpm_attest_decode(const uint8_t *attest, size_t len, struct tpm_attest *view, struct tpm_refusal *refusal);

/* The signature of a quote, TPMT_SIGNATURE (Part 2, 11.3.4), by its parts in the bytes that were handed in: its scheme, TPM_ALG_RSASSA,
 * TPM_ALG_RSAPSS or TPM_ALG_ECDSA; its hash; the signature by an RSA key; and the numbers r and s of one by a key on a curve, the more
 * significant byte first. What is not there is 0. */
struct tpm_signature {
    uint16_t scheme;
    uint16_t hash;
    struct tpm_part sig;
    struct tpm_part r;
    struct tpm_part s;
};

/* Cuts a signature as `tpm2_quote -s` writes it, whatever bytes are handed in. TPM_DONE: its parts are in `view`; TPM_REFUSED: all the
 * bytes spell none, and their first fault is in `refusal`. What isn't written so stays as it was. Whether the signature is right is for
 * another library. */
uint32_t tpm_signature_decode(const uint8_t *signature, size_t len, struct tpm_signature *view, struct tpm_refusal *refusal);

/* Tells what a quote with these selections, a TPML_PCR_SELECTION as it is spelled, vouches for in a record of this register and type,
 * of these data, by its digest in the bank of this hash. Where tpm_log_check_attest matched the log: the part of the data that the
 * digest is of, TPM_MEASURED_DATA to TPM_MEASURED_CUT, or with TPM_MEASURED_OTHER the digest alone, and nothing of the data. It never
 * vouches for the type. TPM_LOG_DONE: for nothing, since the register isn't selected in the bank, or the type is EV_NO_ACTION. Else
 * TPM_ATTEST_NO_BANK, or TPM_ATTEST_REQUIREMENT for bytes that are no selection. */
uint32_t tpm_log_vouched(const uint8_t *selections, size_t selections_len, uint32_t pcr, uint32_t kind, const uint8_t *bytes,
                         size_t bytes_len, uint16_t hash, const uint8_t *digest, size_t digest_len);

/* What is wrong: the response code of refused bytes; how many bytes of them, or of the log, are before what is at fault; the bank
 * (TPM_ALG_SHA1, TPM_ALG_SHA256 or TPM_ALG_SHA384) and the register that are required and not selected. What does not apply is 0. */
struct tpm_attest_fault {
    uint32_t code;
    uint32_t at;
    uint16_t hash;
    uint32_t pcr;
};

/* What is said of a quote as it was signed, besides the faults of its log. */
#define TPM_ATTEST_MATCHES ((uint32_t)0)      /* it is the one that was asked for */
#define TPM_ATTEST_DIFFERS ((uint32_t)16)     /* its digest is not that of the registers */
#define TPM_ATTEST_REFUSED ((uint32_t)17)     /* the bytes are no quote */
#define TPM_ATTEST_NO_BANK ((uint32_t)18)     /* no bank has this hash */
#define TPM_ATTEST_NONCE ((uint32_t)19)       /* extraData is not the nonce */
#define TPM_ATTEST_LACKS ((uint32_t)20)       /* a required register is not selected */
#define TPM_ATTEST_EMPTY ((uint32_t)21)       /* all else is right, and no register is selected */
#define TPM_ATTEST_REQUIREMENT ((uint32_t)22) /* `required` is no selection */

/* Replays a log, and compares a quote as it was signed with the registers that it gives, with the nonce that was sent, and with
 * what is required: a TPML_PCR_SELECTION as it is spelled (Part 2, 10.9.7), or no bytes where nothing is. `hash` is the hash of the
 * signature's scheme. The first of these is answered: TPM_ATTEST_NO_BANK; TPM_ATTEST_REQUIREMENT; the log's first fault,
 * TPM_LOG_..; TPM_ATTEST_REFUSED; TPM_ATTEST_NONCE, whatever the lengths of the two; TPM_ATTEST_LACKS; TPM_ATTEST_DIFFERS;
 * TPM_ATTEST_EMPTY; TPM_ATTEST_MATCHES. `fault` is written for the log's fault, TPM_ATTEST_REQUIREMENT, TPM_ATTEST_REFUSED and
 * TPM_ATTEST_LACKS; else it stays as it was. The signature is not looked at, nor whose key it is. */
uint32_t tpm_log_check_attest(const uint8_t *log, size_t len, const uint8_t *attest, size_t attest_len, uint16_t hash,
                              const uint8_t *nonce, size_t nonce_len, const uint8_t *required, size_t required_len,
                              struct tpm_attest_fault *fault);

/* ---- a caller's end of a session (Part 1, "Session-Based Authorizations") */

struct tpm_caller;

/* How many bytes a caller takes, and at a multiple of which number it lies. What is said above of a device's memory holds of a caller's. */
size_t tpm_caller_size(void);
size_t tpm_caller_align(void);

/* Makes a caller in the room, which holds no session. */
void tpm_caller_init(struct tpm_caller *place);

/* Holds the session that a TPM2_StartAuthSession and its reply make, each given by all its bytes, in the place of what was held, and
 * answers 1. `bind_auth` is the authorization value of what the session is bound to; it is not looked at where that is TPM_RH_NULL.
 * It answers 0, and nothing changes, where the bytes are no such command or no reply to it of code 0, or where the two nonces differ
 * in length, or have fewer than 16 bytes or more than a digest. */
uint32_t tpm_caller_start(struct tpm_caller *caller, const uint8_t *command, size_t len, const uint8_t *reply, size_t reply_len, const uint8_t *bind_auth, size_t bind_auth_len);

/* Seals a command with the session that is free, and answers how many bytes were written to `out`: the command with this session as
 * its authorization, whose HMAC is always there. The session then waits for the reply.
 *
 * The command is given by all its bytes; sessions that it has are left out, so it may have none (TPM_ST_NO_SESSIONS). `first` and
 * `second` are the Names of its handles, in their order: the 4 bytes of the handle itself, or of an index the Name that
 * TPM2_NV_ReadPublic answers; the second is not looked at where there is one handle. `auth` is what follows the session key in
 * that of the HMAC: the authorization value of what the first handle names, or nothing where the rules leave it out. `nonce` is
 * nonceCaller, a fresh random one. With a `keep` other than 0 the session goes on after the command (continueSession).
 *
 * It answers 0, and nothing changes, where no session is free, where out_len is less than TPM_BUFFER_BYTES, where the bytes are no
 * command whose first handle needs authorization, or where the Name of a handle or the nonce is too long: more than 50 or 48 bytes. */
size_t tpm_caller_seal(struct tpm_caller *caller, const uint8_t *command, size_t len, const uint8_t *first, size_t first_len, const uint8_t *second, size_t second_len, const uint8_t *auth, size_t auth_len, const uint8_t *nonce, size_t nonce_len, uint32_t keep, uint8_t *out, size_t out_len);

/* What is said of the reply to a sealed command. */
#define TPM_CALLER_OPENED ((uint32_t)0)
/* The bytes spell no response to the command. */
#define TPM_CALLER_REFUSED ((uint32_t)1)
/* The command was not done: the response has another code than TPM_RC_SUCCESS. */
#define TPM_CALLER_CODE ((uint32_t)2)
/* There is not exactly one session, or its nonceTPM has another length than the session's. */
#define TPM_CALLER_NOT_EXPECTED ((uint32_t)3)
/* The HMAC is not that of the reply. */
#define TPM_CALLER_WRONG_MAC ((uint32_t)4)
/* No command waits for its reply. */
#define TPM_CALLER_NOT_WAITING ((uint32_t)5)

/* Opens the reply to the sealed command, and answers TPM_CALLER_OPENED: the session is free again, with its new nonceTPM, or it has
 * ended where it was not kept. Otherwise nothing changes, and the first of the others is answered: the session still waits for the
 * reply. Until it is opened nothing in the reply is to be believed. */
uint32_t tpm_caller_open(struct tpm_caller *caller, const uint8_t *reply, size_t len);

/* Frees the session as it was before it sealed the command, where these bytes are a response whose code is not TPM_RC_SUCCESS, and
 * answers 1. It answers 0, and nothing changes, where they are none or no command waits. */
uint32_t tpm_caller_give_up(struct tpm_caller *caller, const uint8_t *refusal, size_t len);

/* ---- the digest of a policy, without a device (Part 1, "Enhanced Authorization"; Part 3, 23) */

/* How many bytes the digest of a policy has at most. */
#define TPM_POLICY_BYTES 48

/* A policy by its digest: the number of its hash (TPM_ALG_SHA1, TPM_ALG_SHA256 or TPM_ALG_SHA384), and as many bytes as the digests of
 * that hash have, 20, 32 or 48, at the beginning of `digest`. Behind them are zeros. It is plain bytes, which may be copied and kept. */
struct tpm_policy {
    uint16_t hash;
    uint8_t digest[TPM_POLICY_BYTES];
};

/* What the functions below answer, besides TPM_DONE and TPM_REFUSED. What one does not say that it writes stays as it was. */
#define TPM_POLICY_NO_HASH ((uint32_t)4)   /* no hash has the number that is given or that lies in the policy */
#define TPM_POLICY_NO_DIGEST ((uint32_t)5) /* the bytes are not as many as the digests of the policy's hash have */

/* Makes the policy one that asserts nothing, in the hash of this number. TPM_DONE: it is; TPM_POLICY_NO_HASH. */
uint32_t tpm_policy_start(struct tpm_policy *policy, uint16_t hash);

/* TPM2_PolicyRestart: the policy asserts nothing any more (11.2). TPM_DONE; TPM_POLICY_NO_HASH. */
uint32_t tpm_policy_restart(struct tpm_policy *policy);

/* TPM2_PolicyPCR: the registers that the TPML_PCR_SELECTION in `selections` selects have values with this digest, in the hash of the
 * policy (23.7; Part 1, "Selecting Multiple PCR"). TPM_DONE, or the first of these: TPM_POLICY_NO_HASH; TPM_POLICY_NO_DIGEST;
 * TPM_REFUSED: the bytes spell no selection, and their fault is in `refusal`. */
uint32_t tpm_policy_pcr(struct tpm_policy *policy, const uint8_t *selections, size_t len, const uint8_t *pcr_digest,
                        size_t pcr_digest_len, struct tpm_refusal *refusal);

/* TPM2_PolicyOR: the policy is one of those with the 2 to 8 digests of this TPML_DIGEST (23.6). Whether its digest is among them is not
 * asked, as in a trial session. TPM_DONE, or the first of these: TPM_REFUSED: the bytes spell no such list, and their fault is in
 * `refusal`; TPM_POLICY_NO_HASH. */
uint32_t tpm_policy_or(struct tpm_policy *policy, const uint8_t *digests, size_t len, struct tpm_refusal *refusal);

/* TPM2_PolicyCommandCode: the command is the one of this number, TPM_CC (23.11). TPM_DONE; TPM_POLICY_NO_HASH. */
uint32_t tpm_policy_command_code(struct tpm_policy *policy, uint32_t code);

/* TPM2_PolicyAuthValue: the authorization value of the entity is known (23.17). TPM_DONE; TPM_POLICY_NO_HASH. */
uint32_t tpm_policy_auth_value(struct tpm_policy *policy);

/* ---- constants (Part 2) */

/* TPM_ST: tags (6.9) */
#define TPM_ST_RSP_COMMAND           ((uint16_t)0x00C4)
#define TPM_ST_NO_SESSIONS           ((uint16_t)0x8001)
#define TPM_ST_SESSIONS              ((uint16_t)0x8002)

/* TPM_SU: kinds of startup (6.10) */
#define TPM_SU_CLEAR                 ((uint16_t)0x0000)
#define TPM_SU_STATE                 ((uint16_t)0x0001)

/* TPM_SE: kinds of session (6.11) */
#define TPM_SE_HMAC                  ((uint8_t)0x00)
#define TPM_SE_POLICY                ((uint8_t)0x01)
#define TPM_SE_TRIAL                 ((uint8_t)0x03)

/* TPM_ALG: algorithms (6.3) */
#define TPM_ALG_SHA1                 ((uint16_t)0x0004)
#define TPM_ALG_AES                  ((uint16_t)0x0006)
#define TPM_ALG_XOR                  ((uint16_t)0x000A)
#define TPM_ALG_SHA256               ((uint16_t)0x000B)
#define TPM_ALG_SHA384               ((uint16_t)0x000C)
#define TPM_ALG_NULL                 ((uint16_t)0x0010)
#define TPM_ALG_RSASSA               ((uint16_t)0x0014)
#define TPM_ALG_RSAPSS               ((uint16_t)0x0016)
#define TPM_ALG_ECDSA                ((uint16_t)0x0018)
#define TPM_ALG_CFB                  ((uint16_t)0x0043)

/* TPM_RH, TPM_RS: permanent handles (7.4) */
#define TPM_RH_OWNER                 ((uint32_t)0x40000001)
#define TPM_RH_NULL                  ((uint32_t)0x40000007)
#define TPM_RS_PW                    ((uint32_t)0x40000009)

/* TPM_CC: commands (6.5.2) */
#define TPM_CC_NV_UndefineSpace      ((uint32_t)0x00000122)
#define TPM_CC_NV_DefineSpace        ((uint32_t)0x0000012A)
#define TPM_CC_NV_Increment          ((uint32_t)0x00000134)
#define TPM_CC_PCR_Event             ((uint32_t)0x0000013C)
#define TPM_CC_PCR_Reset             ((uint32_t)0x0000013D)
#define TPM_CC_Startup               ((uint32_t)0x00000144)
#define TPM_CC_NV_Read               ((uint32_t)0x0000014E)
#define TPM_CC_FlushContext          ((uint32_t)0x00000165)
#define TPM_CC_NV_ReadPublic         ((uint32_t)0x00000169)
#define TPM_CC_PolicyAuthValue       ((uint32_t)0x0000016B)
#define TPM_CC_PolicyCommandCode     ((uint32_t)0x0000016C)
#define TPM_CC_PolicyOR              ((uint32_t)0x00000171)
#define TPM_CC_StartAuthSession      ((uint32_t)0x00000176)
#define TPM_CC_PCR_Read              ((uint32_t)0x0000017E)
#define TPM_CC_PolicyPCR             ((uint32_t)0x0000017F)
#define TPM_CC_PolicyRestart         ((uint32_t)0x00000180)
#define TPM_CC_PCR_Extend            ((uint32_t)0x00000182)
#define TPM_CC_PolicyGetDigest       ((uint32_t)0x00000189)

/* TPM_RC: response codes (6.6.3); to those of format 1 the number of a handle, session or parameter is added */
#define TPM_RC_SUCCESS               ((uint32_t)0x000)
#define TPM_RC_BAD_TAG               ((uint32_t)0x01E)
#define TPM_RC_INITIALIZE            ((uint32_t)0x100)
#define TPM_RC_AUTH_MISSING          ((uint32_t)0x125)
#define TPM_RC_PCR_CHANGED           ((uint32_t)0x128)
#define TPM_RC_AUTH_UNAVAILABLE      ((uint32_t)0x12F)
#define TPM_RC_COMMAND_SIZE          ((uint32_t)0x142)
#define TPM_RC_COMMAND_CODE          ((uint32_t)0x143)
#define TPM_RC_AUTHSIZE              ((uint32_t)0x144)
#define TPM_RC_AUTH_CONTEXT          ((uint32_t)0x145)
#define TPM_RC_NV_RANGE              ((uint32_t)0x146)
#define TPM_RC_NV_AUTHORIZATION      ((uint32_t)0x149)
#define TPM_RC_NV_UNINITIALIZED      ((uint32_t)0x14A)
#define TPM_RC_NV_SPACE              ((uint32_t)0x14B)
#define TPM_RC_NV_DEFINED            ((uint32_t)0x14C)
#define TPM_RC_SESSION_MEMORY        ((uint32_t)0x903)
#define TPM_RC_LOCALITY              ((uint32_t)0x907)
#define TPM_RC_REFERENCE_H0          ((uint32_t)0x910)
#define TPM_RC_REFERENCE_S0          ((uint32_t)0x918)
#define TPM_RC_ATTRIBUTES            ((uint32_t)0x082)
#define TPM_RC_HASH                  ((uint32_t)0x083)
#define TPM_RC_VALUE                 ((uint32_t)0x084)
#define TPM_RC_MODE                  ((uint32_t)0x089)
#define TPM_RC_HANDLE                ((uint32_t)0x08B)
#define TPM_RC_AUTH_FAIL             ((uint32_t)0x08E)
#define TPM_RC_NONCE                 ((uint32_t)0x08F)
#define TPM_RC_SCHEME                ((uint32_t)0x092)
#define TPM_RC_SIZE                  ((uint32_t)0x095)
#define TPM_RC_SYMMETRIC             ((uint32_t)0x096)
#define TPM_RC_INSUFFICIENT          ((uint32_t)0x09A)
#define TPM_RC_POLICY_FAIL           ((uint32_t)0x09D)
#define TPM_RC_INTEGRITY             ((uint32_t)0x09F)
#define TPM_RC_RESERVED_BITS         ((uint32_t)0x0A1)
#define TPM_RC_BAD_AUTH              ((uint32_t)0x0A2)
#define TPM_RC_POLICY_CC             ((uint32_t)0x0A4)
#define TPM_RC_H                     ((uint32_t)0x000)
#define TPM_RC_P                     ((uint32_t)0x040)
#define TPM_RC_S                     ((uint32_t)0x800)
#define TPM_RC_1                     ((uint32_t)0x100)
#define TPM_RC_2                     ((uint32_t)0x200)
#define TPM_RC_3                     ((uint32_t)0x300)
#define TPM_RC_4                     ((uint32_t)0x400)
#define TPM_RC_5                     ((uint32_t)0x500)
#define TPM_RC_6                     ((uint32_t)0x600)
#define TPM_RC_7                     ((uint32_t)0x700)

#ifdef __cplusplus
}
#endif

#endif
