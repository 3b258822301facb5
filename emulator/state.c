#include "state.h"
#include "fault.h"

#include <errno.h>
#include <fcntl.h>
#include <stdio.h>
#include <stdlib.h>
#include <string.h>
#include <sys/stat.h>
#include <unistd.h>

static char *joined(const char *first, const char *second) {
    size_t room = strlen(first) + strlen(second) + 1;
    char *text = room_of(room);
    snprintf(text, room, "%s%s", first, second);
    return text;
}

static int open_folder(const char *path) {
    char *folder = joined(path, "");
    char *slash = strrchr(folder, '/');
    if (slash)
        slash[slash == folder ? 1 : 0] = '\0';
    int descriptor = open(slash ? folder : ".", O_RDONLY | O_CLOEXEC);
    if (descriptor < 0)
        fail(STATUS_FAULT, "%s: its folder: %s", path, strerror(errno));
    free(folder);
    return descriptor;
}

/* Opens the lock and holds it. */
static void hold_lock(struct state *state) {
    struct flock whole = {.l_type = F_WRLCK, .l_whence = SEEK_SET};
    state->lock = open(state->lock_path, O_RDWR | O_CREAT | O_CLOEXEC, 0600);
    if (state->lock < 0)
        fail(STATUS_FAULT, "%s: %s", state->lock_path, strerror(errno));
    if (fcntl(state->lock, F_SETLK, &whole) != 0)
        fail(STATUS_FAULT, "%s: another emulator holds it", state->path);
}

/* Whether the lock that is held has its name still: another emulator, which held it before, may have removed it. */
static bool has_its_name(const struct state *state) {
    struct stat held, named;
    return fstat(state->lock, &held) == 0 && stat(state->lock_path, &named) == 0 && held.st_dev == named.st_dev &&
           held.st_ino == named.st_ino;
}

void state_hold(struct state *state, const char *path) {
    state->path = path;
    state->beside = joined(path, ".new");
    state->lock_path = joined(path, ".lock");
    state->folder = open_folder(path);
    hold_lock(state);
    while (!has_its_name(state)) {
        close(state->lock);
        hold_lock(state);
    }
}

void state_release(struct state *state) {
    close(state->folder);
    close(state->lock);
    free(state->lock_path);
    free(state->beside);
}

void state_refuse(struct state *state) {
    unlink(state->lock_path);
    state_release(state);
}

bool state_read(struct state *state, struct kept *kept) {
    FILE *file = fopen(state->path, "rb");
    if (!file && errno == ENOENT)
        return false;
    if (file)
        kept->len = fread(kept->bytes, 1, sizeof kept->bytes, file);
    if (!file || ferror(file)) {
        int number = errno;
        state_refuse(state);
        fail(STATUS_FAULT, "%s can't be read: %s", state->path, strerror(number));
    }
    fclose(file);
    return true;
}

static bool write_all(int descriptor, const uint8_t *bytes, size_t len) {
    while (len > 0) {
        ssize_t count = write(descriptor, bytes, len);
        if (count < 0 && errno == EINTR)
            continue;
        if (count <= 0)
            return false;
        bytes += count;
        len -= (size_t)count;
    }
    return true;
}

void state_write(const struct state *state, const struct tpm_device *device) {
    uint8_t kept[TPM_DEVICE_KEPT_BYTES];
    size_t len = tpm_device_keep(device, kept, sizeof kept);
    int descriptor = open(state->beside, O_WRONLY | O_CREAT | O_TRUNC | O_CLOEXEC, 0600);
    /* The name is given to bytes that are on the disk, and the folder is on the disk before a reply says so. */
    if (descriptor < 0 || !write_all(descriptor, kept, len) || fsync(descriptor) != 0 || close(descriptor) != 0 ||
        rename(state->beside, state->path) != 0 || fsync(state->folder) != 0)
        fail(STATUS_FAULT, "%s can't be written: %s", state->path, strerror(errno));
}
