#include "capture.h"
#include "fault.h"
#include "vinjakwe.h"

#include <errno.h>
#include <fcntl.h>
#include <string.h>
#include <unistd.h>

#define LINE_BYTES (2 + 2 * TPM_BUFFER_BYTES + 1)

void capture_begin(struct capture *capture, const char *path) {
    capture->path = path;
    capture->descriptor = open(path, O_WRONLY | O_CREAT | O_TRUNC | O_APPEND | O_CLOEXEC, 0600);
    if (capture->descriptor < 0)
        fail(STATUS_FAULT, "%s: %s", path, strerror(errno));
}

static size_t put_line(char *to, char way, const uint8_t *frame, size_t len) {
    static const char digits[] = "0123456789abcdef";
    size_t at = 0;
    to[at++] = way;
    to[at++] = ' ';
    for (size_t i = 0; i < len; i++) {
        to[at++] = digits[frame[i] >> 4];
        to[at++] = digits[frame[i] & 15];
    }
    to[at++] = '\n';
    return at;
}

void capture_exchange(struct capture *capture, const uint8_t *command, size_t len, const uint8_t *response,
                      size_t response_len) {
    char lines[2 * LINE_BYTES];
    if (len == 0 || response_len == 0)
        return;
    size_t count = put_line(lines, '>', command, len);
    count += put_line(lines + count, '<', response, response_len);
    for (size_t done = 0; done < count;) {
        ssize_t written = write(capture->descriptor, lines + done, count - done);
        if (written < 0 && errno != EINTR)
            fail(STATUS_FAULT, "%s can't be written: %s", capture->path, strerror(errno));
        if (written > 0)
            done += (size_t)written;
    }
}

void capture_end(struct capture *capture) {
    close(capture->descriptor);
}
