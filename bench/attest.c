// Quotes checked a second by tpm_log_check_attest: each thread has a log and a quote of its own, decodes the quote,
// replays the log and compares. And how much of its stack a thread takes for it. The words: the quote, the nonce and
// the TPML_PCR_SELECTION that is required in hexadecimal, and logs.
#define _GNU_SOURCE
#include <pthread.h>
#include <stdint.h>
#include <stdio.h>
#include <stdlib.h>
#include <string.h>
#include <sys/mman.h>
#include <time.h>

#include "vinjakwe.h" // crates/tpm_c

enum { THREADS = 4, ROUNDS = 10, STACK = 1 << 20, PAINT = 0xA5 };
static const double ROUND_SECONDS = 0.2;

static void want(int ok, const char *what) {
    if (ok)
        return;
    fprintf(stderr, "bench/attest: %s\n", what);
    exit(1);
}

struct bytes {
    size_t len;
    uint8_t *at;
};

static struct bytes read_file(const char *name) {
    FILE *file = fopen(name, "rb");
    want(file != NULL && fseek(file, 0, SEEK_END) == 0, name);
    struct bytes bytes = {(size_t)ftell(file), NULL};
    want((bytes.at = malloc(bytes.len + 1)) != NULL, "out of memory");
    rewind(file);
    want(fread(bytes.at, 1, bytes.len, file) == bytes.len, name);
    fclose(file);
    return bytes;
}

static struct bytes read_hex(const char *text) {
    struct bytes bytes = {strlen(text) / 2, malloc(strlen(text) + 1)};
    want(bytes.at != NULL, "out of memory");
    for (size_t i = 0; i < bytes.len; i++) {
        unsigned byte;
        want(sscanf(text + 2 * i, "%2x", &byte) == 1, "not hexadecimal");
        bytes.at[i] = (uint8_t)byte;
    }
    return bytes;
}

static struct bytes copy(struct bytes from) {
    struct bytes bytes = {from.len, malloc(from.len + 1)};
    want(bytes.at != NULL, "out of memory");
    memcpy(bytes.at, from.at, from.len);
    return bytes;
}

static double now(void) {
    struct timespec t;
    clock_gettime(CLOCK_MONOTONIC, &t);
    return (double)t.tv_sec + (double)t.tv_nsec * 1e-9;
}

// ---- a thread

struct checker {
    struct bytes log, quote, nonce, required;
    double seconds; // how long it checks; 0: nothing, once
    long checked;
    double took;
};

static pthread_barrier_t begin;

static uint32_t check_once(const struct checker *c) {
    struct tpm_attest_fault fault;
    return tpm_log_check_attest(c->log.at, c->log.len, c->quote.at, c->quote.len, TPM_ALG_SHA256, c->nonce.at,
                                c->nonce.len, c->required.at, c->required.len, &fault);
}

static void *check_for_a_time(void *argument) {
    struct checker *c = argument;
    pthread_barrier_wait(&begin);
    double start = now();
    c->checked = 0;
    do {
        for (int i = 0; i < 16; i++)
            want(check_once(c) == TPM_ATTEST_MATCHES, "the quote does not match the log");
        c->checked += 16;
    } while (now() - start < c->seconds);
    c->took = now() - start;
    return NULL;
}

// The same call, or none, for the depth of the stack.
static void *check_alone(void *argument) {
    struct checker *c = argument;
    if (c->seconds > 0)
        want(check_once(c) == TPM_ATTEST_MATCHES, "the quote does not match the log");
    return NULL;
}

// How many quotes so many threads check in a second, together.
static double rate(struct checker *checkers, unsigned threads) {
    pthread_t thread[THREADS];
    double sum = 0;
    want(pthread_barrier_init(&begin, NULL, threads) == 0, "no barrier");
    for (unsigned i = 0; i < threads; i++)
        want(pthread_create(&thread[i], NULL, check_for_a_time, &checkers[i]) == 0, "no thread");
    for (unsigned i = 0; i < threads; i++) {
        want(pthread_join(thread[i], NULL) == 0, "a thread is lost");
        sum += (double)checkers[i].checked / checkers[i].took;
    }
    pthread_barrier_destroy(&begin);
    return sum;
}

// How many bytes of a painted stack a thread writes over, the system's own at the top among them.
static size_t depth(struct checker *checker) {
    uint8_t *stack = mmap(NULL, STACK, PROT_READ | PROT_WRITE, MAP_PRIVATE | MAP_ANONYMOUS, -1, 0);
    pthread_attr_t attributes;
    pthread_t thread;
    size_t at = 0;
    want(stack != MAP_FAILED, "out of memory");
    memset(stack, PAINT, STACK);
    want(pthread_attr_init(&attributes) == 0 && pthread_attr_setstack(&attributes, stack, STACK) == 0,
         "no stack for a thread");
    want(pthread_create(&thread, &attributes, check_alone, checker) == 0 && pthread_join(thread, NULL) == 0,
         "no thread");
    while (at < STACK && stack[at] == PAINT)
        at++;
    pthread_attr_destroy(&attributes);
    munmap(stack, STACK);
    return STACK - at;
}

int main(int argc, char **argv) {
    static const unsigned counts[] = {1, 2, 4};
    enum { COUNTS = sizeof counts / sizeof counts[0] };
    want(argc > 4, "the words are a quote, a nonce, a selection, and logs");
    struct checker first = {.quote = read_file(argv[1]),
                            .nonce = read_hex(argv[2]),
                            .required = read_hex(argv[3]),
                            .seconds = ROUND_SECONDS};

    printf("| log, bytes | 1 thread, quotes a second | 2 threads | 4 threads | a quote by 1 thread, µs | MB a second "
           "by 1 thread |\n|---|---|---|---|---|---|\n");
    for (int k = 4; k < argc; k++) {
        struct checker checkers[THREADS];
        double most[COUNTS] = {0};
        first.log = read_file(argv[k]);
        for (unsigned i = 0; i < THREADS; i++) {
            checkers[i] = first;
            checkers[i].log = copy(first.log);
            checkers[i].quote = copy(first.quote);
        }
        // Other work on the machine only takes time away, so the most of many rounds is told, and they take turns.
        for (int round = 0; round < ROUNDS; round++)
            for (unsigned i = 0; i < COUNTS; i++) {
                double found = rate(checkers, counts[i]);
                most[i] = found > most[i] ? found : most[i];
            }
        printf("| %zu | %.0f | %.0f | %.0f | %.1f | %.0f |\n", first.log.len, most[0], most[1], most[2], 1e6 / most[0],
               most[0] * (double)first.log.len / 1e6);
        for (unsigned i = 0; i < THREADS; i++)
            free(checkers[i].log.at), free(checkers[i].quote.at);
    }

    // The first thread of a process is asked twice, since what is linked late is linked in the first call.
    depth(&first);
    size_t whole = depth(&first);
    struct checker idle = first;
    idle.seconds = 0;
    size_t without = depth(&idle);
    size_t buffers =
        first.log.len + first.quote.len + first.nonce.len + first.required.len + sizeof(struct tpm_attest_fault);
    printf("\n| a thread | bytes |\n|---|---|\n");
    printf("| the stack of a check | %zu |\n", whole - without);
    printf("| its buffers: the log, the quote, the nonce, the selection and the fault | %zu |\n", buffers);
    printf("| together, without the log | %zu |\n", whole - without + buffers - first.log.len);
    return 0;
}
