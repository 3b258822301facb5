#include "background.h"
#include "fault.h"

#include <errno.h>
#include <fcntl.h>
#include <signal.h>
#include <stdio.h>
#include <stdlib.h>
#include <string.h>
#include <sys/wait.h>
#include <unistd.h>

/* Waits for the byte that says that the other process listens, or for its end. */
static void wait_for(pid_t child, int pipe_end) {
    char byte;
    int status = 0;
    ssize_t count;
    while ((count = read(pipe_end, &byte, 1)) < 0 && errno == EINTR) {
    }
    if (count == 1)
        _exit(0);
    waitpid(child, &status, 0);
    _exit(WIFEXITED(status) ? WEXITSTATUS(status) : STATUS_FAULT);
}

int background_begin(void) {
    int ends[2];
    if (pipe(ends) != 0)
        fail(STATUS_FAULT, "there is no pipe: %s", strerror(errno));
    pid_t child = fork();
    if (child < 0)
        fail(STATUS_FAULT, "there is no process: %s", strerror(errno));
    if (child > 0) {
        close(ends[1]);
        wait_for(child, ends[0]);
    }
    close(ends[0]);
    fcntl(ends[1], F_SETFD, FD_CLOEXEC);
    setsid();
    return ends[1];
}

void background_ready(int waiting) {
    int nothing = open("/dev/null", O_RDWR);
    if (nothing < 0 || dup2(nothing, STDIN_FILENO) < 0 || dup2(nothing, STDOUT_FILENO) < 0 ||
        dup2(nothing, STDERR_FILENO) < 0)
        fail(STATUS_FAULT, "/dev/null: %s", strerror(errno));
    if (nothing > STDERR_FILENO)
        close(nothing);
    if (write(waiting, "", 1) != 1) { /* the one that waited is gone, and nobody has to be told */
    }
    close(waiting);
}

void pid_write(const char *path) {
    FILE *file = fopen(path, "w");
    if (!file || fprintf(file, "%ld\n", (long)getpid()) < 0 || fclose(file) != 0)
        fail(STATUS_FAULT, "%s: %s", path, strerror(errno));
}
