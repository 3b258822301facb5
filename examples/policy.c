/* The digest of a policy in each hash, without a device: that the registers 0 and 7 of SHA-256 are zeros and the
 * command is NV_Increment, or that the authorization value is known. An index that is defined with such a digest asks
 * for that policy.
 */
#include "vinjakwe.h"

#include <stdio.h>
#include <string.h>

/* TPML_PCR_SELECTION: the registers 0 and 7 of SHA-256. */
static const uint8_t selected[] = {0, 0, 0, 1, 0, 0x0b, 3, 0x81, 0, 0};

/* The digests of the values of those registers, 64 zeros, by a library for hashes. */
static const struct hash {
    const char *name;
    uint16_t number;
    size_t size;
    const char *composite;
} hashes[] = {
    {"sha1", TPM_ALG_SHA1, 20, "c8d7d0ef0eedfa82d2ea1aa592845b9a6d4b02b7"},
    {"sha256", TPM_ALG_SHA256, 32, "f5a5fd42d16a20302798ef6ed309979b43003d2320d9f0e8ea9831a92759fb4b"},
    {"sha384", TPM_ALG_SHA384, 48,
     "c516aa8d3b457c636c6826937099c0d23a13f2c3701a388b3c8fe4bc2073281b0c4462610369884c4ababa8e97b6debe"},
};

static void print(const char *name, const struct tpm_policy *policy, size_t size) {
    printf("%s ", name);
    for (size_t i = 0; i < size; i++)
        printf("%02x", policy->digest[i]);
    printf("\n");
}

static uint32_t either(struct tpm_policy *policy, const struct tpm_policy *first, const struct tpm_policy *second,
                       size_t size, struct tpm_refusal *refusal) {
    uint8_t digests[4 + 2 * (2 + TPM_POLICY_BYTES)] = {0, 0, 0, 2};
    size_t len = 4;
    for (int i = 0; i < 2; i++) {
        digests[len + 1] = (uint8_t)size;
        memcpy(digests + len + 2, i == 0 ? first->digest : second->digest, size);
        len += 2 + size;
    }
    return tpm_policy_or(policy, digests, len, refusal);
}

static uint32_t print_policy(const struct hash *hash) {
    struct tpm_policy policy, known;
    struct tpm_refusal refusal;
    uint8_t composite[TPM_POLICY_BYTES];
    uint32_t said = 0;
    unsigned byte;
    for (size_t i = 0; i < hash->size && sscanf(hash->composite + 2 * i, "%2x", &byte) == 1; i++)
        composite[i] = (uint8_t)byte;
    said |= tpm_policy_start(&policy, hash->number);
    said |= tpm_policy_pcr(&policy, selected, sizeof selected, composite, hash->size, &refusal);
    said |= tpm_policy_command_code(&policy, TPM_CC_NV_Increment);
    said |= tpm_policy_start(&known, hash->number);
    said |= tpm_policy_auth_value(&known);
    said |= either(&policy, &policy, &known, hash->size, &refusal);
    print(hash->name, &policy, hash->size);
    said |= tpm_policy_restart(&policy);
    print("restarted", &policy, hash->size);
    return said;
}

int main(void) {
    static const uint8_t one[] = {0, 0, 0, 1, 0, 0};
    /* Two empty digests, and bytes behind them that no list has. */
    static const uint8_t long_list[5000] = {0, 0, 0, 2};
    struct tpm_policy policy;
    struct tpm_refusal refusal;
    for (const struct hash *hash = hashes; hash != hashes + 3; hash++)
        if (print_policy(hash) != TPM_DONE)
            return 1;
    printf("refused");
    printf(" %lu", (unsigned long)tpm_policy_start(&policy, TPM_ALG_NULL));
    tpm_policy_start(&policy, TPM_ALG_SHA256);
    printf(" %lu",
           (unsigned long)tpm_policy_pcr(&policy, selected, sizeof selected, selected, sizeof selected, &refusal));
    printf(" %lu", (unsigned long)tpm_policy_or(&policy, one, sizeof one, &refusal));
    printf(" with %lx at %lu", (unsigned long)refusal.code, (unsigned long)refusal.at);
    printf(" %lu", (unsigned long)tpm_policy_or(&policy, long_list, sizeof long_list, &refusal));
    printf(" with %lx at %lu\n", (unsigned long)refusal.code, (unsigned long)refusal.at);
    return 0;
}
