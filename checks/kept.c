/* A device that is kept, through C.
 *
 *     kept rows            of each line `OWNER KEPT` in hexadecimal (`-` for no bytes): what the device that is made of
 *                          them has, whose bytes are then written again, the same; or the refusal, which leaves the
 *                          room as it was
 *     kept images N SEED   N of the images on standard input (`OWNER KEPT` a line), each changed at random: refused, or
 *                          equal to what they spell; half of them with the digest that they should have, so that more
 *                          than the digest is judged
 *     kept answers N SEED  after each of N random commands the device is put away and made again, and answers the next
 *                          hundred commands as the device does whose power was cycled
 *     kept changes N SEED  of each of N random commands it is said whether it changed NV memory, which it did exactly
 *                          where the bytes that are kept before it and behind it differ
 *
 * Its status is 0 where all is as it should be, and otherwise 1, with a line that says what is not. */
#include "random.h"

/* What lies in front of the room and behind it, and in it where no device does. */
#define GUARD 0xA5

static uint8_t out[2][TPM_BUFFER_BYTES], nonce[TPM_NONCE_BYTES];

struct image {
    uint8_t owner[TPM_OWNER_BYTES + 16], kept[2 * TPM_DEVICE_KEPT_BYTES];
    size_t owner_len, kept_len;
};

/* ---- rooms */

static void *room(void) {
    size_t size = (tpm_device_size() + tpm_device_align() - 1) / tpm_device_align() * tpm_device_align();
    void *place = aligned_alloc(tpm_device_align(), size);
    if (place == NULL)
        wrong("no memory");
    memset(place, GUARD, size);
    return place;
}

static int is_untouched(const void *place) {
    for (size_t i = 0; i < tpm_device_size(); i++)
        if (((const uint8_t *)place)[i] != GUARD)
            return 0;
    return 1;
}

/* ---- text */

static size_t bytes_of(const char *text, uint8_t *bytes, size_t most) {
    size_t count = 0;
    unsigned byte;
    for (; strcmp(text, "-") != 0 && sscanf(text, "%2x", &byte) == 1; text += 2) {
        if (count == most)
            wrong("a line is too long");
        bytes[count++] = (uint8_t)byte;
    }
    return count;
}

static int next_image(struct image *image) {
    static char line[8 * TPM_DEVICE_KEPT_BYTES], owner[256], kept[8 * TPM_DEVICE_KEPT_BYTES];
    if (fgets(line, sizeof line, stdin) == NULL)
        return 0;
    if (sscanf(line, "%255s %8000s", owner, kept) != 2)
        wrong("a line has not two words");
    image->owner_len = bytes_of(owner, image->owner, sizeof image->owner);
    image->kept_len = bytes_of(kept, image->kept, sizeof image->kept);
    return 1;
}

static void print_hex(const uint8_t *bytes, size_t count) {
    if (count == 0)
        printf("-");
    for (size_t i = 0; i < count; i++)
        printf("%02x", bytes[i]);
}

/* ---- a row */

/* The bytes are written again, the same, in a room of just so many bytes, and nothing is in one that has fewer. */
static void keeps(const struct tpm_device *device, const uint8_t *kept, size_t len) {
    uint8_t *exact = malloc(len), *less = malloc(len - 1);
    if (exact == NULL || less == NULL)
        wrong("no memory");
    if (tpm_device_keep(device, exact, len) != len || memcmp(exact, kept, len) != 0)
        wrong("the bytes are not the same when they are written again");
    memset(less, GUARD, len - 1);
    if (tpm_device_keep(device, less, len - 1) != 0)
        wrong("bytes are written to a room that is too short");
    for (size_t i = 0; i < len - 1; i++)
        if (less[i] != GUARD)
            wrong("a room that is too short is written to");
    free(exact);
    free(less);
}

static void tell(const struct tpm_device *device) {
    struct tpm_counter counter;
    size_t count = tpm_device_counters(device);
    printf("%llu", (unsigned long long)tpm_device_greatest(device));
    for (size_t i = 0; i < count; i++) {
        if (tpm_device_counter(device, i, &counter) != TPM_DONE)
            wrong("a counter that is counted is not told");
        printf(" %08x:%04x:%08x:", (unsigned)counter.index, counter.hash, (unsigned)counter.attributes);
        print_hex(counter.policy, counter.policy_len);
        printf(":%u:%llu", (unsigned)counter.has_auth, (unsigned long long)counter.value);
    }
    printf("\n");
    if (tpm_device_counter(device, count, &counter) != TPM_NO_COUNTER)
        wrong("a counter more is told");
    for (uint32_t slot = 0; slot < 3; slot++)
        if (tpm_device_session_hash(device, 0x02000000 + slot) != 0 ||
            tpm_device_session_hash(device, 0x03000000 + slot) != 0)
            wrong("a device that was made again has a session");
}

static int rows(void) {
    static struct image image;
    while (next_image(&image)) {
        struct tpm_device *device = room();
        struct tpm_refusal refusal = {7, 7};
        uint32_t answer =
            tpm_device_restore(device, image.owner, image.owner_len, image.kept, image.kept_len, &refusal);
        if (answer == TPM_DONE) {
            if (refusal.code != 7 || refusal.at != 7)
                wrong("a refusal is told where there is none");
            keeps(device, image.kept, image.kept_len);
            tell(device);
        } else if (answer == TPM_REFUSED && is_untouched(device)) {
            printf("refused 0x%03x %u\n", (unsigned)refusal.code, (unsigned)refusal.at);
        } else {
            wrong("a room is written to where no device is made");
        }
        free(device);
    }
    return 0;
}

/* ---- changed images */

static int images(unsigned long count, uint64_t seed) {
    static struct image all[64], image;
    size_t known = 0;
    unsigned long made = 0;
    while (known < 64 && next_image(&all[known]))
        if (all[known].kept_len > 32)
            known++;
    if (known == 0)
        wrong("there is no image");
    state = seed;
    struct tpm_device *device = room();
    for (unsigned long i = 0; i < count; i++) {
        struct tpm_refusal refusal;
        image = all[below(known)];
        change(image.kept, &image.kept_len, sizeof image.kept);
        if (i % 2 == 0 && image.kept_len >= 32)
            sha256(image.kept, image.kept_len - 32, image.kept + image.kept_len - 32);
        /* The bytes lie at the end of a block of their own, so that a look behind them is seen. */
        uint8_t *kept = malloc(image.kept_len + 1);
        if (kept == NULL)
            wrong("no memory");
        memcpy(kept, image.kept, image.kept_len);
        kept = realloc(kept, image.kept_len == 0 ? 1 : image.kept_len);
        if (kept == NULL)
            wrong("no memory");
        if (tpm_device_restore(device, image.owner, image.owner_len, kept, image.kept_len, &refusal) == TPM_DONE) {
            made++;
            keeps(device, image.kept, image.kept_len);
        } else if (refusal.at > image.kept_len) {
            wrong("a refusal is behind the bytes");
        }
        free(kept);
    }
    free(device);
    if (made == 0 || made == count)
        wrong("all changed images are refused, or none is");
    return 0;
}

/* ---- the next commands */

#define OWNER "owner"

static const char *const passwords[] = {"", "a", "secret"};

static const uint16_t hashes[] = {TPM_ALG_SHA1, TPM_ALG_SHA256, TPM_ALG_SHA384};
static const size_t lengths[] = {20, 32, 48};

/* The password of a session, which is as often the right one as not. */
static uint8_t *put_password(uint8_t *to, const char *password) {
    if (below(8) == 0)
        password = "wrong";
    to = put(to, 9 + strlen(password), 4);
    to = put(to, TPM_RS_PW, 4);
    to = put(to, 0, 2);
    to = put(to, 0, 1);
    to = put(to, strlen(password), 2);
    return put_bytes(to, password, strlen(password));
}

/* A command of ten kinds, or one with a byte changed; as many bytes as it has. */
static size_t random_command(uint8_t *command) {
    static const uint32_t kinds[] = {0x2, 0x4, 0x8};
    uint8_t *to = command + 10;
    uint32_t code = 0, index = 0x01800000 + (uint32_t)below(10), by = below(2) ? TPM_RH_OWNER : index;
    size_t hash = below(3), which = index % 3;
    uint16_t tag = 0x8001;
    const char *password = by == TPM_RH_OWNER ? OWNER : passwords[which];
    switch (below(13)) {
    case 0:
    case 1:
        code = TPM_CC_NV_DefineSpace, tag = 0x8002;
        to = put_password(put(to, TPM_RH_OWNER, 4), OWNER);
        to = put_bytes(put(to, strlen(passwords[which]), 2), passwords[which], strlen(passwords[which]));
        size_t policy = below(2) ? lengths[hash] : 0;
        to = put(put(to, 14 + policy, 2), index, 4);
        to = put(to, hashes[hash], 2);
        uint32_t kind = kinds[below(3)] | kinds[below(3)];
        to = put(put(to, 0x02000010u | kind | kind << 16, 4), policy, 2);
        for (size_t i = 0; i < policy; i++)
            *to++ = (uint8_t)i;
        to = put(to, 8, 2);
        break;
    case 2:
        code = TPM_CC_NV_UndefineSpace, tag = 0x8002;
        to = put_password(put(put(to, TPM_RH_OWNER, 4), index, 4), OWNER);
        break;
    case 3:
    case 4:
    case 5:
        code = TPM_CC_NV_Increment, tag = 0x8002;
        to = put_password(put(put(to, by, 4), index, 4), password);
        break;
    case 6:
        code = TPM_CC_NV_Read, tag = 0x8002;
        to = put_password(put(put(to, by, 4), index, 4), password);
        to = put(put(to, 8, 2), 0, 2);
        break;
    case 7:
        code = TPM_CC_NV_ReadPublic;
        to = put(to, index, 4);
        break;
    case 8:
        code = TPM_CC_PCR_Extend, tag = 0x8002;
        to = put_password(put(to, below(24), 4), "");
        to = put(put(to, 1, 4), hashes[hash], 2);
        for (size_t i = 0; i < lengths[hash]; i++)
            *to++ = (uint8_t)number();
        break;
    case 9:
        code = TPM_CC_PCR_Read;
        to = put(put(put(put(to, 1, 4), hashes[hash], 2), 3, 1), number() & 0xFFFFFF, 3);
        break;
    case 10:
        code = TPM_CC_StartAuthSession;
        to = put(put(put(to, TPM_RH_NULL, 4), TPM_RH_NULL, 4), 16, 2);
        for (size_t i = 0; i < 16; i++)
            *to++ = (uint8_t)number();
        to = put(put(put(put(to, 0, 2), below(2) ? 1 : 0, 1), TPM_ALG_NULL, 2), hashes[hash], 2);
        break;
    case 11:
        code = TPM_CC_FlushContext;
        to = put(to, (below(2) ? 0x02000000 : 0x03000000) + below(3), 4);
        break;
    default:
        code = TPM_CC_PolicyGetDigest;
        to = put(to, 0x03000000 + below(3), 4);
    }
    size_t len = (size_t)(to - command);
    put(put(put(command, tag, 2), len, 4), code, 4);
    if (below(16) == 0)
        command[below(len)] ^= (uint8_t)(1u << below(8));
    return len;
}

static size_t execute(struct tpm_device *device, const uint8_t *command, size_t len, uint8_t *answer) {
    return tpm_device_execute(device, command, len, nonce, answer, TPM_BUFFER_BYTES);
}

static void new_nonce(void) {
    for (size_t i = 0; i < sizeof nonce; i++)
        nonce[i] = (uint8_t)number();
}

static const uint8_t startup[] = {0x80, 0x01, 0, 0, 0, 12, 0, 0, 0x01, 0x44, 0, 0};

static int answers(unsigned long count, uint64_t seed) {
    static uint8_t command[TPM_BUFFER_BYTES], kept[TPM_DEVICE_KEPT_BYTES], again[TPM_DEVICE_KEPT_BYTES];
    struct tpm_device *first = room(), *second = room();
    unsigned long done = 0, changed = 0;
    size_t most = 0;
    state = seed;
    if (!tpm_device_init(first, (const uint8_t *)OWNER, strlen(OWNER), 40))
        wrong("no device is made");
    execute(first, startup, sizeof startup, out[0]);
    for (unsigned long i = 0; i < count; i++) {
        struct tpm_refusal refusal;
        new_nonce();
        execute(first, command, random_command(command), out[0]);
        size_t len = tpm_device_keep(first, kept, sizeof kept);
        if (tpm_device_restore(second, (const uint8_t *)OWNER, strlen(OWNER), kept, len, &refusal) != TPM_DONE)
            wrong("the bytes of a device are refused");
        tpm_device_power_cycle(first);
        execute(first, startup, sizeof startup, out[0]);
        execute(second, startup, sizeof startup, out[1]);
        for (int k = 0; k < 100; k++) {
            size_t size = random_command(command);
            new_nonce();
            size_t one = execute(first, command, size, out[0]), two = execute(second, command, size, out[1]);
            if (one != two || memcmp(out[0], out[1], one) != 0)
                wrong("a device that was made again answers otherwise");
            if (out[0][6] == 0 && out[0][7] == 0 && out[0][8] == 0 && out[0][9] == 0)
                done++;
        }
        size_t one = tpm_device_keep(first, kept, sizeof kept), two = tpm_device_keep(second, again, sizeof again);
        if (one != two || memcmp(kept, again, one) != 0)
            wrong("the two devices keep different bytes");
        if (tpm_device_counters(first) != tpm_device_counters(second) ||
            tpm_device_greatest(first) != tpm_device_greatest(second))
            wrong("the two devices have different counters");
        for (uint32_t slot = 0; slot < 3; slot++)
            changed += tpm_device_session_hash(first, 0x02000000 + slot) != 0;
        if (tpm_device_counters(first) > most)
            most = tpm_device_counters(first);
    }
    if (done == 0 || (count >= 1000 && (most < 8 || changed == 0)))
        wrong("the commands reach too little");
    free(first);
    free(second);
    return 0;
}

/* ---- what has changed NV memory */

static int changes(unsigned long count, uint64_t seed) {
    static uint8_t command[TPM_BUFFER_BYTES], kept[2][TPM_DEVICE_KEPT_BYTES];
    static const uint32_t codes[] = {TPM_CC_NV_DefineSpace, TPM_CC_NV_Increment, TPM_CC_NV_UndefineSpace};
    struct tpm_device *device = room();
    unsigned long times[3] = {0, 0, 0}, same = 0;
    state = seed;
    if (!tpm_device_init(device, (const uint8_t *)OWNER, strlen(OWNER), 40))
        wrong("no device is made");
    for (unsigned long i = 0; i < count; i++) {
        /* Now and then the power is cycled, and nothing is started before the next command. */
        size_t before = tpm_device_keep(device, kept[0], sizeof kept[0]), len = random_command(command);
        if (i % 4096 == 1)
            tpm_device_power_cycle(device);
        if (i % 4096 == 0 || i % 4096 == 8)
            len = (size_t)(put_bytes(command, startup, sizeof startup) - command);
        new_nonce();
        size_t size = execute(device, command, len, out[0]), after = tpm_device_keep(device, kept[1], sizeof kept[1]);
        int differ = before != after || memcmp(kept[0], kept[1], before) != 0;
        if (tpm_device_changes_nv(command, len, out[0], size) != (uint32_t)differ)
            wrong(differ ? "a change of NV memory is not told" : "a change of NV memory is told where there is none");
        same += !differ;
        for (size_t k = 0; k < 3; k++)
            times[k] += differ && command[8] == (uint8_t)(codes[k] >> 8) && command[9] == (uint8_t)codes[k];
    }
    if (same == 0 || times[0] == 0 || times[1] == 0 || times[2] == 0 || same + times[0] + times[1] + times[2] != count)
        wrong("the commands change too little");
    free(device);
    return 0;
}

int main(int argc, char **argv) {
    if (argc == 2 && strcmp(argv[1], "rows") == 0)
        return rows();
    if (argc == 4 && strcmp(argv[1], "images") == 0)
        return images(strtoul(argv[2], NULL, 10), strtoull(argv[3], NULL, 10));
    if (argc == 4 && strcmp(argv[1], "answers") == 0)
        return answers(strtoul(argv[2], NULL, 10), strtoull(argv[3], NULL, 10));
    if (argc == 4 && strcmp(argv[1], "changes") == 0)
        return changes(strtoul(argv[2], NULL, 10), strtoull(argv[3], NULL, 10));
    wrong("usage: kept rows | images N SEED | answers N SEED | changes N SEED");
    return 1;
}
