/* A program of examples/ on a stack of its own, painted so that it is seen how far down the program came.
 *
 *     painted BYTES    runs it on so many bytes of stack, and says on standard error how many of them were never
 *                      written to
 *
 * The program is linked to this one, its `main` or `_start` compiled as `example`, and its `printf` as `told`: what it
 * prints is formatted on the stack of this program, since a C library's printing is no part of what is measured. It
 * runs in a process of its own, which may end as it likes. Below its stack are pages that nothing may touch, more than
 * a function can step over.
 *
 * Its status is 0 where the program ended with 0 and left a part of its stack untouched. */
#define _GNU_SOURCE

#include <stdarg.h>
#include <stdio.h>
#include <stdlib.h>
#include <string.h>
#include <sys/mman.h>
#include <sys/wait.h>
#include <ucontext.h>
#include <unistd.h>

enum { PAINT = 0xA5, GUARD_BYTES = 1 << 20 };

int example(void);

static ucontext_t here, there;
static int result, has_ended, printed;
static const char *print_format;
static va_list *print_list;

static void fail(const char *what) {
    fprintf(stderr, "painted: %s\n", what);
    exit(2);
}

/* The example's printf: it is done on the other stack. */
int told(const char *format, ...) {
    va_list list;
    va_start(list, format);
    print_format = format;
    print_list = &list;
    swapcontext(&there, &here);
    va_end(list);
    return printed;
}

static void begin(void) {
    result = example();
    has_ended = 1;
}

/* Runs the example on this stack, and answers what it does. */
static int run_on(unsigned char *stack, size_t bytes) {
    if (getcontext(&there) != 0)
        fail("there is no context");
    there.uc_stack.ss_sp = stack;
    there.uc_stack.ss_size = bytes;
    there.uc_link = &here;
    makecontext(&there, begin, 0);
    for (;;) {
        if (swapcontext(&here, &there) != 0)
            fail("there is no other context");
        if (has_ended)
            return result;
        printed = vprintf(print_format, *print_list);
    }
}

int main(int argc, char **argv) {
    size_t bytes = argc == 2 ? strtoul(argv[1], NULL, 10) : 0, untouched = 0;
    int status;
    if (bytes == 0 || bytes % 1024 != 0)
        fail("usage: painted BYTES, a multiple of 1,024");
    unsigned char *below = mmap(NULL, GUARD_BYTES + bytes, PROT_READ | PROT_WRITE, MAP_SHARED | MAP_ANONYMOUS, -1, 0);
    if (below == MAP_FAILED || mprotect(below, GUARD_BYTES, PROT_NONE) != 0)
        fail("there is no memory");
    unsigned char *stack = below + GUARD_BYTES;
    memset(stack, PAINT, bytes);
    pid_t child = fork();
    if (child == 0)
        exit(run_on(stack, bytes));
    if (child < 0 || waitpid(child, &status, 0) != child)
        fail("there is no other process");
    while (untouched < bytes && stack[untouched] == PAINT)
        untouched++;
    if (WIFSIGNALED(status))
        fprintf(stderr, "painted: %zu bytes of stack: signal %d\n", bytes, WTERMSIG(status));
    else
        fprintf(stderr, "painted: %zu bytes of stack: %zu untouched, status %d\n", bytes, untouched,
                WEXITSTATUS(status));
    return !WIFEXITED(status) || WEXITSTATUS(status) != 0 || untouched == 0;
}
