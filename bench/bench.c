// Times the library beside the system's libcrypto, or beside copying or hashes of its own, in one process.
#include "timing.h"

#include "buffers.h"
#include "vinjakwe.h" // crates/tpm_c

// ---- the library (crates/tpm_bench; a slice is a pointer and a length)

size_t tpm_bench_hash(uint16_t alg, const uint8_t *message, size_t message_len, uint8_t *out, size_t out_len);
size_t tpm_bench_hmac(uint16_t alg, const uint8_t *key, size_t key_len, const uint8_t *text, size_t text_len,
                      uint8_t *out, size_t out_len);
uint32_t tpm_bench_same(const uint8_t *a, size_t a_len, const uint8_t *b, size_t b_len, uint32_t times);
uint32_t tpm_bench_session_hashes(const uint8_t *key, size_t key_len, const uint8_t *message, size_t message_len,
                                  const uint8_t *text, size_t text_len, uint32_t times);
uint32_t tpm_bench_decode_command(const uint8_t *bytes, size_t len);
uint32_t tpm_bench_decode_pcr_read_reply(const uint8_t *bytes, size_t len);
size_t tpm_bench_encode_command(const uint8_t *bytes, size_t len, uint32_t times, uint8_t *out, size_t out_len);
size_t tpm_bench_push_frames(const uint8_t *stream, size_t len, size_t most, uint8_t *out, size_t out_len);
size_t tpm_bench_execute(const uint8_t *prepare, size_t prepare_len, const uint8_t *first, size_t first_len,
                         const uint8_t *second, size_t second_len, uint32_t times, uint8_t *out, size_t out_len);
size_t tpm_bench_start(const uint8_t *startup, size_t len, uint32_t times, uint8_t *out, size_t out_len);
uint32_t tpm_bench_authorize(const uint8_t *bytes, size_t len, uint32_t times);
uint32_t tpm_bench_seal(uint32_t times);
uint32_t tpm_bench_open(uint32_t times);
uint32_t tpm_bench_both_ends(uint32_t times);
size_t tpm_bench_size(uint32_t which);
size_t tpm_bench_read_frames(const uint8_t *stream, size_t len, size_t most, uint8_t *out, size_t out_len);
size_t tpm_bench_read_frames_into(const uint8_t *stream, size_t len, size_t most, uint8_t *out, size_t out_len);

// ---- what is worked on: a message, under a key

enum { KEY = 32 };
enum { SHA1_ALG = 0x0004, SHA256_ALG = 0x000B, SHA384_ALG = 0x000C }; // TPM_ALG_ID

static uint8_t key[KEY];
static HMAC_CTX *macs;

// ---- a stream of frames

enum { FRAMES = 10000 };
static const size_t frame_sizes[] = {10, 59, 12, 87, 210, 14, 99, 138}; // and 4,096 bytes in each hundredth
enum { SIZES = sizeof frame_sizes / sizeof frame_sizes[0] };
static uint8_t stream[FRAMES * 256];
_Static_assert(sizeof stream <= OUT, "the frames fit in what work writes to");
static size_t stream_len;

static void make_stream(void) {
    for (size_t i = 0; i < FRAMES; i++) {
        size_t size = i % 100 == 99 ? 4096 : frame_sizes[i % SIZES];
        uint8_t *frame = stream + stream_len;
        want(stream_len + size <= sizeof stream, "the length of the stream");
        frame[0] = 0x80, frame[1] = 0x01, frame[2] = 0, frame[3] = 0, frame[4] = (uint8_t)(size >> 8),
        frame[5] = (uint8_t)size;
        for (size_t k = 6; k < size; k++)
            frame[k] = (uint8_t)(i + k);
        stream_len += size;
    }
}

#include "commands.h"

static void make_ready(void) {
    make_message();
    for (size_t i = 0; i < sizeof key; i++)
        key[i] = (uint8_t)(i + 1);
    want((macs = HMAC_CTX_new()) != NULL, "out of memory");
    make_buffers();
    make_runs();
    make_stream();
}

// ---- work: each function does it once, and answers how many bytes it wrote to out. Its argument is how many bytes of
// the message are worked on, which buffer, or how many bytes a piece of the stream has.

static size_t hash_sha1(size_t len, uint8_t *out) { return tpm_bench_hash(SHA1_ALG, message, len, out, OUT); }
static size_t hash_sha256(size_t len, uint8_t *out) { return tpm_bench_hash(SHA256_ALG, message, len, out, OUT); }
static size_t hash_sha384(size_t len, uint8_t *out) { return tpm_bench_hash(SHA384_ALG, message, len, out, OUT); }
static size_t hmac_sha1(size_t len, uint8_t *out) { return tpm_bench_hmac(SHA1_ALG, key, KEY, message, len, out, OUT); }
static size_t hmac_sha256(size_t len, uint8_t *out) {
    return tpm_bench_hmac(SHA256_ALG, key, KEY, message, len, out, OUT);
}

static size_t libcrypto_sha1(size_t len, uint8_t *out) {
    SHA_CTX hash;
    return SHA1_Init(&hash) && SHA1_Update(&hash, message, len) && SHA1_Final(out, &hash) ? SHA_DIGEST_LENGTH : 0;
}

static size_t libcrypto_sha384(size_t len, uint8_t *out) {
    SHA512_CTX hash;
    return SHA384_Init(&hash) && SHA384_Update(&hash, message, len) && SHA384_Final(out, &hash) ? SHA384_DIGEST_LENGTH
                                                                                                : 0;
}

static size_t libcrypto_hmac(const EVP_MD *md, size_t len, uint8_t *out) {
    unsigned written = 0;
    return HMAC_Init_ex(macs, key, KEY, md, NULL) && HMAC_Update(macs, message, len) && HMAC_Final(macs, out, &written)
               ? written
               : 0;
}

static size_t libcrypto_hmac_sha1(size_t len, uint8_t *out) { return libcrypto_hmac(EVP_sha1(), len, out); }
static size_t libcrypto_hmac_sha256(size_t len, uint8_t *out) { return libcrypto_hmac(EVP_sha256(), len, out); }

// Decoding writes nothing here. It answers that it was done.
static size_t decode_command(size_t which, uint8_t *out) {
    (void)out;
    return tpm_bench_decode_command(buffers[which].bytes, buffers[which].len) == 0;
}

static size_t decode_response(size_t which, uint8_t *out) {
    (void)out;
    return tpm_bench_decode_pcr_read_reply(buffers[which].bytes, buffers[which].len) == 0;
}

static size_t encode_command(size_t which, uint8_t *out) {
    return tpm_bench_encode_command(buffers[which].bytes, buffers[which].len, TIMES, out, OUT);
}

// What a framer cannot do without, in C: the size of a frame is read, and not checked; pieces are copied into a room,
// and each frame out of it.
static size_t stated(const uint8_t *frame) { return (size_t)frame[4] << 8 | frame[5]; }

static size_t push_in_c(size_t most, uint8_t *out) {
    static uint8_t room[4096];
    size_t held = 0, written = 0;
    for (size_t at = 0; at < stream_len; at += most) {
        const uint8_t *piece = stream + at;
        size_t len = stream_len - at < most ? stream_len - at : most;
        while (len > 0) {
            size_t end = held >= 6 ? stated(room) : held == 0 && len >= 6 ? stated(piece) : 6;
            size_t count = end - held < len ? end - held : len;
            memcpy(room + held, piece, count);
            held += count, piece += count, len -= count;
            if (held >= 6 && held == stated(room)) {
                memcpy(out + written, room, held);
                written += held, held = 0;
            }
        }
    }
    return written;
}

// The same of a reader, whose source is a call that gives as much as it is asked for, and at most a piece.
static size_t read_at;
static __attribute__((noinline)) size_t read_source(uint8_t *to, size_t len, size_t most) {
    size_t left = stream_len - read_at, count = len < most ? len : most;
    count = count < left ? count : left;
    memcpy(to, stream + read_at, count);
    read_at += count;
    return count;
}

static size_t read_in_c(size_t most, uint8_t *out) {
    static uint8_t room[4096];
    size_t written = 0;
    for (read_at = 0; read_at < stream_len;) {
        size_t held = 0;
        while (held < 6)
            held += read_source(room + held, 6 - held, most);
        while (held < stated(room))
            held += read_source(room + held, stated(room) - held, most);
        memcpy(out + written, room, held);
        written += held;
    }
    return written;
}

static size_t push_frames(size_t most, uint8_t *out) {
    return tpm_bench_push_frames(stream, stream_len, most, out, OUT);
}
static size_t read_frames(size_t most, uint8_t *out) {
    return tpm_bench_read_frames(stream, stream_len, most, out, OUT);
}
static size_t read_frames_into(size_t most, uint8_t *out) {
    return tpm_bench_read_frames_into(stream, stream_len, most, out, OUT);
}

// The answer has the response code in its seventh to tenth byte.
static size_t execute(size_t which, uint8_t *out) {
    return is_done(out, tpm_bench_execute(out, 0, buffers[which].bytes, buffers[which].len, out, 0, TIMES, out, OUT));
}

// The same by the device for C.
static size_t execute_through_c(size_t which, uint8_t *out) {
    static const uint8_t startup[] = {0x80, 0x01, 0, 0, 0, 12, 0, 0, 0x01, 0x44, 0, 0}, nonce[TPM_NONCE_BYTES];
    static max_align_t room[1024];
    struct tpm_device *device = (struct tpm_device *)room;
    size_t len = 0;
    want(tpm_device_size() <= sizeof room && tpm_device_align() <= _Alignof(max_align_t), "the room of a device");
    want(tpm_device_init(device, nonce, 0, 0) == 1, "a device for C");
    want(tpm_device_execute(device, startup, sizeof startup, nonce, out, OUT) == 10, "Startup through C");
    for (int i = 0; i < TIMES; i++)
        len = tpm_device_execute(device, buffers[which].bytes, buffers[which].len, nonce, out, OUT);
    return is_done(out, len);
}

static size_t decode_through_c(size_t which, uint8_t *out) {
    struct tpm_refusal refusal;
    (void)out;
    return tpm_command_decode(buffers[which].bytes, buffers[which].len, &refusal) == TPM_DONE;
}

// ---- the caller's end of a session for C, bound to the owner, and a device. The nonces are the same each time, as in
// crates/tpm_bench.

static max_align_t bound_room[1024], caller_room[64];
static uint8_t sealed[TPM_BUFFER_BYTES], opened[TPM_BUFFER_BYTES];
static size_t opened_len;

static struct tpm_device *bound_device(void) { return (struct tpm_device *)bound_room; }
static struct tpm_caller *bound_caller(void) { return (struct tpm_caller *)caller_room; }

static void transmit_through_c(const uint8_t *command, size_t len) {
    static const uint8_t nonce[TPM_NONCE_BYTES];
    opened_len = tpm_device_execute(bound_device(), command, len, nonce, opened, sizeof opened);
}

static void hold_session(void) {
    static const uint8_t startup[] = {0x80, 0x01, 0, 0, 0, 12, 0, 0, 0x01, 0x44, 0, 0}, none[1];
    const struct buffer *start = &buffers[START_AUTH_SESSION];
    want(tpm_device_size() <= sizeof bound_room && tpm_caller_size() <= sizeof caller_room, "the rooms of both ends");
    want(tpm_device_init(bound_device(), none, 0, 0) == 1, "a device for both ends");
    transmit_through_c(startup, sizeof startup);
    transmit_through_c(start->bytes, start->len);
    tpm_caller_init(bound_caller());
    want(tpm_caller_start(bound_caller(), start->bytes, start->len, opened, opened_len, none, 0) == 1,
         "a session for C");
}

static size_t seal_once(void) {
    static const uint8_t register_16[] = {0, 0, 0, 16}, none[1];
    static uint8_t nonce[NONCE];
    const struct buffer *plain = &buffers[PCR_EXTEND_PLAIN];
    nonce[0] = 0xC1;
    return tpm_caller_seal(bound_caller(), plain->bytes, plain->len, register_16, 4, register_16, 0, none, 0, nonce,
                           NONCE, 1, sealed, sizeof sealed);
}

static size_t seal_through_c(size_t argument, uint8_t *out) {
    static const uint8_t refusal[] = {0x80, 0x01, 0, 0, 0, 10, 0, 0, 0x01, 0};
    (void)argument, (void)out;
    hold_session();
    for (int i = 0; i < TIMES; i++)
        if (seal_once() == 0 || tpm_caller_give_up(bound_caller(), refusal, sizeof refusal) != 1)
            return 0;
    return 1;
}

// The HMAC is wrong in its last byte, so that the reply may be opened again.
static size_t open_through_c(size_t argument, uint8_t *out) {
    (void)argument, (void)out;
    hold_session();
    transmit_through_c(sealed, seal_once());
    opened[opened_len - 1] ^= 1;
    for (int i = 0; i < TIMES; i++)
        if (tpm_caller_open(bound_caller(), opened, opened_len) != TPM_CALLER_WRONG_MAC)
            return 0;
    return 1;
}

static size_t both_ends_through_c(size_t argument, uint8_t *out) {
    (void)argument, (void)out;
    hold_session();
    for (int i = 0; i < TIMES; i++) {
        transmit_through_c(sealed, seal_once());
        if (tpm_caller_open(bound_caller(), opened, opened_len) != TPM_CALLER_OPENED)
            return 0;
    }
    return 1;
}

// ---- a device that is kept, with eight counters

static max_align_t kept_room[1024], made_room[1024];
static uint8_t kept[TPM_DEVICE_KEPT_BYTES];
static size_t kept_len;

static struct tpm_device *eight_counters(void) {
    static const uint8_t startup[] = {0x80, 0x01, 0, 0, 0, 12, 0, 0, 0x01, 0x44, 0, 0}, nonce[TPM_NONCE_BYTES];
    static uint8_t define[] = {0x80, 0x02, 0, 0, 0, 45, 0, 0, 0x01, 0x2A, 0x40, 0, 0, 1, 0, 0, 0, 9, 0x40, 0, 0, 9, 0,
                               0, 0, 0, 0, 0, 0, 0, 14, 1, 0x80, 0, 0, 0, 0x0B, 2, 2, 0, 0x12, 0, 0, 0, 8};
    static uint8_t increment[] = {0x80, 0x02, 0, 0, 0, 31, 0, 0, 0x01, 0x34, 0x40, 0, 0, 1, 1, 0x80, 0, 0, 0, 0, 0, 9,
                                  0x40, 0, 0, 9, 0, 0, 0, 0, 0};
    struct tpm_device *device = (struct tpm_device *)kept_room;
    uint8_t out[TPM_BUFFER_BYTES];
    if (kept_len > 0)
        return device;
    want(tpm_device_size() <= sizeof kept_room && tpm_device_align() <= _Alignof(max_align_t),
         "the room of a kept device");
    want(tpm_device_init(device, nonce, 0, 0) == 1, "a device to keep");
    is_done(out, tpm_device_execute(device, startup, sizeof startup, nonce, out, sizeof out));
    for (uint8_t i = 0; i < 8; i++) {
        define[34] = increment[17] = i;
        is_done(out, tpm_device_execute(device, define, sizeof define, nonce, out, sizeof out));
        is_done(out, tpm_device_execute(device, increment, sizeof increment, nonce, out, sizeof out));
    }
    want(tpm_device_counters(device) == 8, "eight counters");
    kept_len = tpm_device_keep(device, kept, sizeof kept);
    return device;
}

static size_t keep(size_t argument, uint8_t *out) {
    struct tpm_device *device = eight_counters();
    size_t len = 0;
    for (int i = 0; i < TIMES; i++)
        len = tpm_device_keep(device, out, OUT);
    (void)argument;
    return len;
}

static size_t make_again(size_t argument, uint8_t *out) {
    static const uint8_t nobody[1];
    struct tpm_refusal refusal;
    uint32_t answers = 0;
    eight_counters();
    for (int i = 0; i < TIMES; i++)
        answers += tpm_device_restore((struct tpm_device *)made_room, nobody, 0, kept, kept_len, &refusal);
    (void)argument, (void)out;
    return answers == TPM_DONE;
}

// What both hash, by the library: all bytes but the digest at the end.
static size_t hash_of_kept(size_t argument, uint8_t *out) {
    (void)argument;
    eight_counters();
    return tpm_bench_hash(SHA256_ALG, kept, kept_len - SHA256_DIGEST_LENGTH, out, OUT);
}

// What PCR_Extend with two digests hashes, by the library: each register's value and the digest behind it.
static size_t hashes_of_extend(size_t argument, uint8_t *out) {
    (void)argument;
    return hash_sha1(2 * SHA_DIGEST_LENGTH, out) + hash_sha256(2 * SHA256_DIGEST_LENGTH, out);
}

// The same with a digest for each bank.
static size_t hashes_of_extend_all(size_t argument, uint8_t *out) {
    return hashes_of_extend(argument, out) + hash_sha384(2 * SHA384_DIGEST_LENGTH, out);
}

// What PCR_Event hashes, by the library: the event for each bank, and then as PCR_Extend.
static size_t hashes_of_event(size_t argument, uint8_t *out) {
    return hash_sha1(EVENT, out) + hash_sha256(EVENT, out) + hash_sha384(EVENT, out) +
           hashes_of_extend_all(argument, out);
}

// It answers that it was authorized each time.
static size_t authorize(size_t which, uint8_t *out) {
    (void)out;
    return tpm_bench_authorize(buffers[which].bytes, buffers[which].len, TIMES) == TIMES;
}

// What the check of that session hashes, by the library: cpHash, and the HMAC without a key.
static size_t hashes_of_authorize(size_t argument, uint8_t *out) {
    (void)argument;
    return tpm_bench_hash(SHA256_ALG, cp_hashed, CP_HASHED, out, OUT) +
           tpm_bench_hmac(SHA256_ALG, key, 0, mac_text, MAC_TEXT, out, OUT);
}

// The caller's end of a session, and both ends: each answers that it was done each time.
static size_t seal(size_t argument, uint8_t *out) {
    (void)argument, (void)out;
    return tpm_bench_seal(TIMES) == TIMES;
}

static size_t open_reply(size_t argument, uint8_t *out) {
    (void)argument, (void)out;
    return tpm_bench_open(TIMES) == TIMES;
}

static size_t both_ends(size_t argument, uint8_t *out) {
    (void)argument, (void)out;
    return tpm_bench_both_ends(TIMES) == TIMES;
}

// What sealing and opening hash, by the library, under a key that is hashed once: cpHash and the HMAC, and the HMAC
// alone, since rpHash of a reply without parameters is known. The device hashes the same, and extends besides.
static size_t hashes_of_seal(size_t argument, uint8_t *out) {
    (void)argument, (void)out;
    return tpm_bench_session_hashes(key, KEY, cp_hashed, CP_HASHED, mac_text + 32, MAC_TEXT - 32, TIMES);
}

static size_t hashes_of_open(size_t argument, uint8_t *out) {
    (void)argument, (void)out;
    return tpm_bench_session_hashes(key, KEY, cp_hashed, 0, mac_text, MAC_TEXT, TIMES);
}

static size_t hashes_of_both_ends(size_t argument, uint8_t *out) {
    size_t len = hashes_of_seal(argument, out) + hashes_of_seal(argument, out) + hashes_of_open(argument, out) +
                 hashes_of_open(argument, out);
    for (int i = 0; i < TIMES; i++)
        len += hashes_of_extend(argument, out);
    return len;
}

// Two lists of so many bytes that differ in this byte, or in none where it is behind them.
enum { SAME = 1024 };
static size_t compare(size_t len, size_t at) {
    static uint8_t a[48], b[48];
    memset(b, 0, sizeof b);
    b[at % sizeof b] = at < len;
    uint32_t found = 0;
    for (int i = 0; i < SAME; i++)
        found += tpm_bench_same(a, len, b, len, 1);
    return found == (at < len ? 0 : SAME);
}

static size_t same_but_first(size_t len, uint8_t *out) { return (void)out, compare(len, 0); }
static size_t same_but_last(size_t len, uint8_t *out) { return (void)out, compare(len, len - 1); }
static size_t same_whole(size_t len, uint8_t *out) { return (void)out, compare(len, len); }

static size_t copy_buffer(size_t which, uint8_t *out) {
    memcpy(out, buffers[which].bytes, buffers[which].len);
    return buffers[which].len;
}

static size_t copy_stream(size_t most, uint8_t *out) {
    (void)most;
    memcpy(out, stream, stream_len);
    return stream_len;
}

// ---- rows: for another one, an export in crates/tpm_bench, a function above, and a line below

static struct row rows[] = {
    {"hash SHA-1, 64 bytes", SHORT, {hash_sha1}, {libcrypto_sha1}},
    {"hash SHA-1, 1 MiB", LONG, {hash_sha1}, {libcrypto_sha1}},
    {"hash SHA-256, 64 bytes", SHORT, {hash_sha256}, {libcrypto_sha256}},
    {"hash SHA-256, 1 MiB", LONG, {hash_sha256}, {libcrypto_sha256}},
    {"hash SHA-384, 64 bytes", SHORT, {hash_sha384}, {libcrypto_sha384}},
    {"hash SHA-384, 1 MiB", LONG, {hash_sha384}, {libcrypto_sha384}},
    {"hmac SHA-1, 64 bytes", SHORT, {hmac_sha1}, {libcrypto_hmac_sha1}},
    {"hmac SHA-1, 1 MiB", LONG, {hmac_sha1}, {libcrypto_hmac_sha1}},
    {"hmac SHA-256, 64 bytes", SHORT, {hmac_sha256}, {libcrypto_hmac_sha256}},
    {"hmac SHA-256, 1 MiB", LONG, {hmac_sha256}, {libcrypto_hmac_sha256}},
    {"decode PCR_Extend", PCR_EXTEND, {decode_command}, {NULL}},
    {"decode NV_Read", NV_READ, {decode_command}, {NULL}},
    {"decode StartAuthSession", START_AUTH_SESSION, {decode_command}, {NULL}},
    {"decode reply of PCR_Read", PCR_READ_REPLY, {decode_response}, {NULL}},
    {"encode PCR_Extend", PCR_EXTEND, {encode_command, TIMES}, {copy_buffer}},
    {"encode NV_Read", NV_READ, {encode_command, TIMES}, {copy_buffer}},
    {"encode StartAuthSession", START_AUTH_SESSION, {encode_command, TIMES}, {copy_buffer}},
    {"execute PCR_Read", PCR_READ, {execute, TIMES}, {NULL}},
    {"execute PCR_Extend", PCR_EXTEND, {execute, TIMES}, {hashes_of_extend}, 1},
    {"execute PCR_Extend, 3 banks", PCR_EXTEND_ALL, {execute, TIMES}, {hashes_of_extend_all}, 1},
    {"execute PCR_Event, 4 bytes", PCR_EVENT, {execute, TIMES}, {hashes_of_event}, 1},
    {"C, PCR_Read", PCR_READ, {execute_through_c, TIMES}, {execute, TIMES}},
    {"C, PCR_Extend", PCR_EXTEND, {execute_through_c, TIMES}, {execute, TIMES}},
    {"C, decode PCR_Extend", PCR_EXTEND, {decode_through_c}, {decode_command}},
    {"C, seal PCR_Extend", 0, {seal_through_c, TIMES}, {seal, TIMES}},
    {"C, open reply of PCR_Extend", 0, {open_through_c, TIMES}, {open_reply, TIMES}},
    {"C, PCR_Extend at both ends", 0, {both_ends_through_c, TIMES}, {both_ends, TIMES}},
    {"execute Startup", 0, {start_device, TIMES}, {NULL}},
    {"execute PCR_Reset", RESET, {execute_run, TIMES}, {NULL}},
    {"execute PolicyPCR", POLICY_PCR, {execute_run, TIMES}, {hashes_of_run}, 1},
    {"execute PolicyOR", POLICY_OR, {execute_run, TIMES}, {hashes_of_run}, 1},
    {"execute PolicyCommandCode", POLICY_COMMAND_CODE, {execute_run, TIMES}, {hashes_of_run}, 1},
    {"execute PolicyAuthValue", POLICY_AUTH_VALUE, {execute_run, TIMES}, {hashes_of_run}, 1},
    {"execute PolicyRestart", POLICY_RESTART, {execute_run, TIMES}, {NULL}},
    {"execute PolicyGetDigest", POLICY_GET_DIGEST, {execute_run, TIMES}, {NULL}},
    {"execute NV_Increment", INCREMENT, {execute_run, TIMES}, {NULL}},
    {"execute NV_Read", READ, {execute_run, TIMES}, {NULL}},
    {"execute NV_ReadPublic", READ_PUBLIC, {execute_run, TIMES}, {hashes_of_run}, 1},
    {"both, StartAuthSession first", START_FLUSH, {execute_run, TIMES}, {NULL}},
    {"both, NV_DefineSpace first", DEFINE, {execute_run, TIMES}, {NULL}},
    {"both, NV_UndefineSpace first", UNDEFINE, {execute_run, TIMES}, {NULL}},
    {"kept, 8 counters written", 0, {keep, TIMES}, {hash_of_kept}, 1},
    {"kept, 8 counters read", 0, {make_again, TIMES}, {hash_of_kept}, 1},
    {"session, PCR_Extend", EXTEND_SESSION, {execute_run, TIMES}, {hashes_of_run}, 1},
    {"session, PCR_Event, 4 bytes", EVENT_SESSION, {execute_run, TIMES}, {hashes_of_run}, 1},
    {"session, PCR_Reset", RESET_SESSION, {execute_run, TIMES}, {hashes_of_run}, 1},
    {"session, NV_Increment", INCREMENT_SESSION, {execute_run, TIMES}, {hashes_of_run}, 1},
    {"session, NV_Read", READ_SESSION, {execute_run, TIMES}, {hashes_of_run}, 1},
    {"session, NV_DefineSpace", DEFINE_SESSION, {execute_run, TIMES}, {hashes_of_run}, 1},
    {"session, NV_UndefineSpace", UNDEFINE_SESSION, {execute_run, TIMES}, {hashes_of_run}, 1},
    {"authorize PCR_Extend", PCR_EXTEND_SIGNED, {authorize, TIMES}, {hashes_of_authorize}, 1},
    {"seal PCR_Extend", PCR_EXTEND_SIGNED, {seal, TIMES}, {hashes_of_seal, TIMES}, 1},
    {"open reply of PCR_Extend", PCR_EXTEND_SIGNED, {open_reply, TIMES}, {hashes_of_open, TIMES}, 1},
    {"PCR_Extend at both ends", PCR_EXTEND_SIGNED, {both_ends, TIMES}, {hashes_of_both_ends, TIMES}, 1},
    {"same, 32 bytes, first differs", 32, {same_but_first, SAME}, {NULL}},
    {"same, 32 bytes, last differs", 32, {same_but_last, SAME}, {NULL}},
    {"same, 32 bytes, none differs", 32, {same_whole, SAME}, {NULL}},
    {"same, 48 bytes, first differs", 48, {same_but_first, SAME}, {NULL}},
    {"same, 48 bytes, last differs", 48, {same_but_last, SAME}, {NULL}},
    {"same, 48 bytes, none differs", 48, {same_whole, SAME}, {NULL}},
    {"Framer, pieces of 1", 1, {push_frames}, {copy_stream}},
    {"Framer, pieces of 64", 64, {push_frames}, {copy_stream}},
    {"Framer, pieces of 4,096", 4096, {push_frames}, {copy_stream}},
    {"read_frame, pieces of 1", 1, {read_frames}, {copy_stream}},
    {"read_frame, pieces of 64", 64, {read_frames}, {copy_stream}},
    {"read_frame, pieces of 4,096", 4096, {read_frames}, {copy_stream}},
    {"read_frame_into, pieces of 1", 1, {read_frames_into}, {copy_stream}},
    {"read_frame_into, pieces of 64", 64, {read_frames_into}, {copy_stream}},
    {"read_frame_into, pieces of 4,096", 4096, {read_frames_into}, {copy_stream}},
    {"Framer, in C, pieces of 64", 64, {push_in_c}, {copy_stream}},
    {"Framer, in C, pieces of 4,096", 4096, {push_in_c}, {copy_stream}},
    {"read_frame_into, in C, pieces of 64", 64, {read_in_c}, {copy_stream}},
    {"read_frame_into, in C, pieces of 4,096", 4096, {read_in_c}, {copy_stream}},
};
enum { ROWS = sizeof rows / sizeof rows[0] };

// By how much the three rows of `same` over so many bytes differ, of the least of them.
static void print_same(size_t len) {
    double least = 0, most = 0;
    for (size_t i = 0; i < ROWS; i++) {
        work *done = rows[i].here.work;
        if (rows[i].argument != len || (done != same_but_first && done != same_but_last && done != same_whole))
            continue;
        double ns = rows[i].here.ns;
        least = least == 0 || ns < least ? ns : least;
        most = ns > most ? ns : most;
    }
    printf("same of %zu bytes: %.1f to %.1f ns, which differ by %.1f %%\n", len, least, most,
           100 * (most - least) / least);
}

int main(int argc, char **argv) {
    make_ready();
    if (argc == 3)
        return run(rows, ROWS, argv[1], atol(argv[2]));
    measure(rows, ROWS);
    printf("\n");
    print_same(32);
    print_same(48);
    static const char *const sizes[] = {"Device", "Command", "Areas"};
    printf("\n");
    for (uint32_t i = 0; i < sizeof sizes / sizeof sizes[0]; i++)
        printf("%s: %zu bytes\n", sizes[i], tpm_bench_size(i));
    return 0;
}
