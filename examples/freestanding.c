/* A device without a C library, on Linux for x86-64: it starts the device, extends a register, reads it, and prints
 * each response in hexadecimal. Built with -ffreestanding -nostdlib; nothing here defines memcpy or its like. */
#include "vinjakwe.h"

static uint64_t room[1024];
static uint8_t out[TPM_BUFFER_BYTES];
static char text[2 * TPM_BUFFER_BYTES + 1];
static const uint8_t nonce[TPM_NONCE_BYTES] = {0};

static const uint8_t startup[] = {0x80, 0x01, 0, 0, 0, 0x0C, 0, 0, 0x01, 0x44, 0, 0};
static const uint8_t extend[] = {
    0x80, 0x02, 0x00, 0x00, 0x00, 0x35, 0x00, 0x00, 0x01, 0x82, 0x00, 0x00, 0x00, 0x10, 0x00, 0x00,
    0x00, 0x09, 0x40, 0x00, 0x00, 0x09, 0x00, 0x00, 0x01, 0x00, 0x00, 0x00, 0x00, 0x00, 0x01, 0x00,
    0x04, 0x01, 0x02, 0x03, 0x04, 0x05, 0x06, 0x07, 0x08, 0x09, 0x0A, 0x0B, 0x0C, 0x0D, 0x0E, 0x0F,
    0x10, 0x11, 0x12, 0x13, 0x14,
};
static const uint8_t read[] = {0x80, 0x01, 0, 0, 0, 0x14, 0, 0, 0x01, 0x7E, 0, 0, 0, 1, 0, 4, 3, 0, 0, 1};

static long call(long number, long one, const void *two, long three) {
    long result;
    __asm__ volatile("syscall" : "=a"(result) : "a"(number), "D"(one), "S"(two), "d"(three) : "rcx", "r11", "memory");
    return result;
}

static void print(const uint8_t *bytes, size_t count) {
    for (size_t i = 0; i < count; i++) {
        text[2 * i] = "0123456789abcdef"[bytes[i] >> 4];
        text[2 * i + 1] = "0123456789abcdef"[bytes[i] & 15];
    }
    text[2 * count] = '\n';
    call(1, 1, text, (long)(2 * count + 1));
}

static void run(struct tpm_device *device, const uint8_t *command, size_t len) {
    print(out, tpm_device_execute(device, command, len, nonce, out, sizeof out));
}

__attribute__((force_align_arg_pointer)) void _start(void) {
    struct tpm_device *device = (struct tpm_device *)(void *)room;
    long status = 3;
    if (tpm_device_size() <= sizeof room && tpm_device_init(device, startup, 0, 0)) {
        run(device, startup, sizeof startup);
        run(device, extend, sizeof extend);
        run(device, read, sizeof read);
        status = 0;
    }
    call(60, status, 0, 0);
    for (;;)
        ;
}
