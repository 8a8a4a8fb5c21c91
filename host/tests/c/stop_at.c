/* Stops a program at the Nth of its calls that change files, to be loaded before it (LD_PRELOAD). STOP_AT is N, counted from 1. The
 * program is killed there, a write half done; with STOP_FULL the call fails as on a full disk, and so do all such calls after it. With
 * FLIP_AT instead of STOP_AT, a bit is turned over in the Nth write, and the program is told that all went well, as by a failing disk. */
#define _GNU_SOURCE
#include <dlfcn.h>
#include <errno.h>
#include <fcntl.h>
#include <signal.h>
#include <stdarg.h>
#include <stdlib.h>
#include <string.h>
#include <sys/stat.h>
#include <unistd.h>

static int calls, writes;

/* Whether this call is the one; a killed program does not come back from here. */
static int is_stopped(void) {
    const char *at = getenv("STOP_AT");
    if (at == NULL || __sync_add_and_fetch(&calls, 1) < atoi(at)) {
        return 0;
    }
    if (getenv("STOP_FULL") == NULL) {
        kill(getpid(), SIGKILL);
        pause();
    }
    errno = ENOSPC;
    return 1;
}

typedef ssize_t writer(int, const void *, size_t);

static ssize_t write_flipped(writer *real, int file, const void *bytes, size_t count) {
    unsigned char *flipped = malloc(count);
    if (flipped == NULL) {
        abort();
    }
    memcpy(flipped, bytes, count);
    flipped[count / 2] ^= 1;
    ssize_t written = real(file, flipped, count);
    free(flipped);
    return written;
}

ssize_t write(int file, const void *bytes, size_t count) {
    writer *real = dlsym(RTLD_NEXT, "write");
    /* What is told to a person is no file that could be damaged. */
    if (file > 2) {
        const char *flip = getenv("FLIP_AT");
        if (flip != NULL && count > 0 && __sync_add_and_fetch(&writes, 1) == atoi(flip)) {
            return write_flipped(real, file, bytes, count);
        }
        const char *at = getenv("STOP_AT");
        if (at != NULL && calls + 1 == atoi(at) && getenv("STOP_FULL") == NULL) {
            real(file, bytes, count / 2);
        }
        if (is_stopped()) {
            return -1;
        }
    }
    return real(file, bytes, count);
}

int open64(const char *path, int flags, ...) {
    int (*real)(const char *, int, mode_t) = dlsym(RTLD_NEXT, "open64");
    va_list more;
    va_start(more, flags);
    mode_t mode = va_arg(more, mode_t);
    va_end(more);
    return (flags & (O_WRONLY | O_RDWR)) && is_stopped() ? -1 : real(path, flags, mode);
}

int fsync(int file) {
    int (*real)(int) = dlsym(RTLD_NEXT, "fsync");
    return is_stopped() ? -1 : real(file);
}

int rename(const char *from, const char *to) {
    int (*real)(const char *, const char *) = dlsym(RTLD_NEXT, "rename");
    return is_stopped() ? -1 : real(from, to);
}

int linkat(int from_folder, const char *from, int to_folder, const char *to, int flags) {
    int (*real)(int, const char *, int, const char *, int) = dlsym(RTLD_NEXT, "linkat");
    return is_stopped() ? -1 : real(from_folder, from, to_folder, to, flags);
}

int renameat2(int from_folder, const char *from, int to_folder, const char *to, unsigned flags) {
    int (*real)(int, const char *, int, const char *, unsigned) = dlsym(RTLD_NEXT, "renameat2");
    return is_stopped() ? -1 : real(from_folder, from, to_folder, to, flags);
}

int fchown(int file, uid_t user, gid_t group) {
    int (*real)(int, uid_t, gid_t) = dlsym(RTLD_NEXT, "fchown");
    return is_stopped() ? -1 : real(file, user, group);
}

int fchmod(int file, mode_t mode) {
    int (*real)(int, mode_t) = dlsym(RTLD_NEXT, "fchmod");
    return is_stopped() ? -1 : real(file, mode);
}

int fsetxattr(int file, const char *name, const void *value, size_t size, int flags) {
    int (*real)(int, const char *, const void *, size_t, int) = dlsym(RTLD_NEXT, "fsetxattr");
    return is_stopped() ? -1 : real(file, name, value, size, flags);
}

int chmod(const char *path, mode_t mode) {
    int (*real)(const char *, mode_t) = dlsym(RTLD_NEXT, "chmod");
    return is_stopped() ? -1 : real(path, mode);
}

int ftruncate64(int file, off64_t length) {
    int (*real)(int, off64_t) = dlsym(RTLD_NEXT, "ftruncate64");
    return is_stopped() ? -1 : real(file, length);
}

ssize_t copy_file_range(int from, off64_t *from_at, int to, off64_t *to_at, size_t count, unsigned flags) {
    ssize_t (*real)(int, off64_t *, int, off64_t *, size_t, unsigned) = dlsym(RTLD_NEXT, "copy_file_range");
    return is_stopped() ? -1 : real(from, from_at, to, to_at, count, flags);
}
