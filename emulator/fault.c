#include "fault.h"

#include <errno.h>
#include <stdarg.h>
#include <stdio.h>
#include <stdlib.h>
#include <sys/random.h>

void fail(int status, const char *form, ...) {
    va_list words;
    va_start(words, form);
    fputs("emulator: ", stderr);
    vfprintf(stderr, form, words);
    fputc('\n', stderr);
    va_end(words);
    exit(status);
}

void random_bytes(uint8_t *room, size_t len) {
    size_t done = 0;
    while (done < len) {
        ssize_t count = getrandom(room + done, len - done, 0);
        if (count > 0)
            done += (size_t)count;
        else if (count == 0 || errno != EINTR)
            fail(STATUS_FAULT, "the system gives no random bytes");
    }
}

void *room_of(size_t len) {
    return more_room(NULL, len);
}

void *more_room(void *room, size_t len) {
    room = realloc(room, len ? len : 1);
    if (!room)
        fail(STATUS_FAULT, "there is no memory");
    return room;
}

void *library_room(size_t len, size_t align) {
    void *room = NULL;
    if (align < sizeof(void *))
        align = sizeof(void *);
    if (posix_memalign(&room, align, len) != 0)
        fail(STATUS_FAULT, "there is no memory");
    return room;
}
