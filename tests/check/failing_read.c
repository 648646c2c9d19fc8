// Preloaded under the check program: its reads of one file fail, or all give short counts, as the environment says.
//   READ_FILE      the name of the file
//   READ_FAILS_AT  the place in it, from 0, where a read fails; a read before that place goes no further than there
//   READ_STAYS     1: each read there fails; 0: only the first
//   READ_MOST      the most bytes that a read of any file gives
#define _GNU_SOURCE
#include <errno.h>
#include <stdio.h>
#include <stdlib.h>
#include <string.h>
#include <sys/syscall.h>
#include <unistd.h>

static long setting(const char *name, long otherwise) {
    const char *text = getenv(name);
    return text ? atol(text) : otherwise;
}

static int is_chosen(int fd) {
    const char *chosen = getenv("READ_FILE");
    char link[64], path[4096];
    snprintf(link, sizeof link, "/proc/self/fd/%d", fd);
    ssize_t size = readlink(link, path, sizeof path - 1);
    if (chosen == NULL || size < 0) {
        return 0;
    }
    path[size] = 0;
    const char *name = strrchr(path, '/');
    return name != NULL && strcmp(name + 1, chosen) == 0;
}

static size_t least(size_t a, size_t b) {
    return a < b ? a : b;
}

ssize_t read(int fd, void *buffer, size_t size) {
    static int failed = 0;
    size = least(size, (size_t) setting("READ_MOST", (long) size));
    if (is_chosen(fd)) {
        long at = setting("READ_FAILS_AT", -1);
        long here = lseek(fd, 0, SEEK_CUR);
        if (here == at && (failed == 0 || setting("READ_STAYS", 0))) {
            failed = 1;
            errno = EIO;
            return -1;
        }
        if (here < at) {
            size = least(size, (size_t) (at - here));
        }
    }
    return syscall(SYS_read, fd, buffer, size);
}
