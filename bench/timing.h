// What bench.c and peers.c share: rows with work on one side or on both, how they are timed, and how they are printed.
// Where a row has work on both sides, both have to give the same bytes, unless it says otherwise. Of libcrypto the
// plain functions are taken, which look nothing up and so cost least, though later interfaces are recommended.
#define OPENSSL_SUPPRESS_DEPRECATED
#include <openssl/crypto.h>
#include <openssl/evp.h>
#include <openssl/hmac.h>
#include <openssl/sha.h>
#include <stddef.h>
#include <stdint.h>
#include <stdio.h>
#include <stdlib.h>
#include <string.h>
#include <time.h>

static void want(int ok, const char *what) {
    if (ok)
        return;
    fprintf(stderr, "bench: %s\n", what);
    exit(1);
}

// How many bytes work may write, and how many times what is short is done in a call.
enum { OUT = 10000 * 256, TIMES = 1000 };

// ---- what is worked on

enum { SHORT = 64, LONG = 1 << 20 };
static uint8_t message[LONG];

typedef size_t work(size_t argument, uint8_t *out);

struct timed {
    work *work; // NULL: nothing is done on this side
    int inner;  // how many times each call does it; 0 is once
    long times; // how many calls make a round
    double ns;  // the least that it took so far
};

struct row {
    const char *name;
    size_t argument;
    struct timed here, there;
    int apart; // the two give other bytes
};

static size_t libcrypto_sha256(size_t len, uint8_t *out) {
    SHA256_CTX hash;
    return SHA256_Init(&hash) && SHA256_Update(&hash, message, len) && SHA256_Final(out, &hash) ? SHA256_DIGEST_LENGTH
                                                                                                : 0;
}

// What the ratios are to: SHA-256 of 64 bytes by libcrypto.
static struct timed unit = {libcrypto_sha256, 0, 0, 0};

// ---- timing

// Other work on the machine only adds time, so the least of many rounds is taken, and the rounds of all rows take
// turns.
enum { ROUNDS = 100 };
static const double ROUND_NS = 1e6;

static double now(void) {
    struct timespec t;
    clock_gettime(CLOCK_MONOTONIC, &t);
    return (double)t.tv_sec * 1e9 + (double)t.tv_nsec;
}

static double once(const struct timed *timed, size_t argument) {
    static uint8_t out[OUT];
    double start = now();
    for (long i = 0; i < timed->times; i++)
        want(timed->work(argument, out) > 0, "a call failed");
    return (now() - start) / (double)timed->times / (timed->inner > 0 ? timed->inner : 1);
}

static void first(struct timed *timed, size_t argument) {
    if (timed->work == NULL)
        return;
    timed->times = 1;
    timed->ns = once(timed, argument);
    while (timed->ns * (timed->inner > 0 ? timed->inner : 1) * (double)timed->times < ROUND_NS) {
        timed->times *= 2;
        timed->ns = once(timed, argument);
    }
}

static void again(struct timed *timed, size_t argument) {
    if (timed->work == NULL)
        return;
    double ns = once(timed, argument);
    if (ns < timed->ns)
        timed->ns = ns;
}

static void check(const struct row *row) {
    static uint8_t here[OUT], there[OUT];
    if (row->there.work == NULL || row->apart)
        return;
    size_t len = row->here.work(row->argument, here);
    want(len > 0 && len == row->there.work(row->argument, there) && memcmp(here, there, len) == 0, row->name);
}

// Prints a cell: the number with so many digits behind the point, and a comma before each three.
static void print_number(double number, int digits) {
    char text[64];
    int len = snprintf(text, sizeof text, "%.*f", digits, number), whole = len - (digits > 0 ? digits + 1 : 0);
    printf(" ");
    for (int i = 0; i < len; i++)
        printf("%s%c", i > 0 && i < whole && (whole - i) % 3 == 0 ? "," : "", text[i]);
    printf(" |");
}

static void print_row(const struct row *row) {
    printf("| %s |", row->name);
    print_number(row->here.ns, 0);
    print_number(row->here.ns / unit.ns, 2);
    if (row->there.work == NULL) {
        printf(" | | |\n");
        return;
    }
    print_number(row->there.ns, 0);
    print_number(row->there.ns / unit.ns, 2);
    print_number(row->here.ns / row->there.ns, 2);
    printf("\n");
}

static void make_message(void) {
    for (size_t i = 0; i < sizeof message; i++)
        message[i] = (uint8_t)(i * 131 + (i >> 8));
}

// Times all rows, and prints them.
static void measure(struct row *rows, size_t count) {
    first(&unit, SHORT);
    for (size_t i = 0; i < count; i++) {
        check(&rows[i]);
        first(&rows[i].here, rows[i].argument);
        first(&rows[i].there, rows[i].argument);
    }
    for (int round = 0; round < ROUNDS; round++) {
        again(&unit, SHORT);
        for (size_t i = 0; i < count; i++) {
            again(&rows[i].here, rows[i].argument);
            again(&rows[i].there, rows[i].argument);
        }
    }
    printf("A unit is SHA-256 of 64 bytes by %s: %.0f ns\n\n", OpenSSL_version(OPENSSL_VERSION), unit.ns);
    printf("| | ns | units | beside it, ns | units | times |\n|---|---|---|---|---|---|\n");
    for (size_t i = 0; i < count; i++)
        print_row(&rows[i]);
}


// Does one row so many times and times nothing, for a profiler.
static int run(struct row *rows, size_t count, const char *name, long times) {
    static uint8_t out[OUT];
    for (size_t i = 0; i < count; i++) {
        if (strcmp(rows[i].name, name) != 0)
            continue;
        for (long k = 0; k < times; k++)
            want(rows[i].here.work(rows[i].argument, out) > 0, "a call failed");
        return 0;
    }
    want(0, "no row has this name");
    return 1;
}
