/* Shows what a program does with its disk, and makes calls of it fail: journal.py builds it and loads it before the program.
 *
 *     DISK_CALLS=FILE    FILE gets each pwrite, fdatasync, fsync, and write to standard output, in the order of their ends: a `struct call`,
 *                        and the bytes that were written
 *     DISK_FAILS=KIND N  call number N of this kind, `w`, `s` or `f` of `struct call`, fails with EIO and does nothing
 *     DISK_ROOM=N        a file has room for N bytes: a pwrite past them writes what fits, or fails with ENOSPC
 *     DISK_BITS=1        each pwrite, pread, fdatasync and fsync is interrupted once before it is made, and takes at most seven bytes
 */
#define _GNU_SOURCE
#include <errno.h>
#include <fcntl.h>
#include <pthread.h>
#include <stdint.h>
#include <stdio.h>
#include <stdlib.h>
#include <string.h>
#include <sys/syscall.h>
#include <sys/uio.h>
#include <unistd.h>

struct call {
    int64_t kind; /* w pwrite, s fdatasync, f fsync, r write to standard output */
    int64_t at, size, result; /* result is -errno of a call that failed */
};

enum { FEW = 7 };

static pthread_mutex_t lock = PTHREAD_MUTEX_INITIALIZER;
static int calls = -1;
static char failing_kind;
static int64_t failing_number, room = INT64_MAX;
static int in_bits;

__attribute__((constructor)) static void start(void) {
    const char *path = getenv("DISK_CALLS"), *fails = getenv("DISK_FAILS"), *bytes = getenv("DISK_ROOM");
    if (path) calls = open(path, O_WRONLY | O_CREAT | O_APPEND | O_CLOEXEC, 0600);
    if (fails) sscanf(fails, "%c %ld", &failing_kind, &failing_number);
    if (bytes) room = atoll(bytes);
    in_bits = getenv("DISK_BITS") != 0;
}

/* Whether this call is the one that has to fail. */
static int fails(char kind) { return kind == failing_kind && --failing_number == 0; }

static int is_interrupted(void) {
    static _Thread_local int was;
    return in_bits && (was = !was);
}

/* Notes a call with the bytes that it wrote, and returns what the program gets. */
static ssize_t noted(char kind, int64_t at, int64_t size, ssize_t result, const void *bytes) {
    struct call call = {kind, at, size, result < 0 ? -errno : result};
    struct iovec parts[] = {{&call, sizeof call}, {(void *)bytes, bytes && result > 0 ? result : 0}};
    int reason = errno;
    if (calls >= 0) syscall(SYS_writev, calls, parts, 2);
    errno = reason;
    return result;
}

static ssize_t refused(int reason) {
    errno = reason;
    return -1;
}

static ssize_t write_at(int file, const void *bytes, size_t size, off_t at) {
    size_t fits = at >= room ? 0 : (int64_t)size > room - at ? (size_t)(room - at) : size;
    ssize_t result;
    if (in_bits && fits > FEW) fits = FEW;
    pthread_mutex_lock(&lock);
    if (is_interrupted()) result = refused(EINTR);
    else if (fails('w')) result = refused(EIO);
    else if (!fits && size) result = refused(ENOSPC);
    else result = syscall(SYS_pwrite64, file, bytes, fits, at);
    noted('w', at, size, result, bytes);
    pthread_mutex_unlock(&lock);
    return result;
}

static int synced(char kind, long number, int file) {
    ssize_t result;
    pthread_mutex_lock(&lock);
    if (is_interrupted()) result = refused(EINTR);
    else result = fails(kind) ? refused(EIO) : syscall(number, file);
    noted(kind, 0, 0, result, 0);
    pthread_mutex_unlock(&lock);
    return result;
}

static ssize_t read_at(int file, void *into, size_t size, off_t at) {
    if (is_interrupted()) return refused(EINTR);
    return syscall(SYS_pread64, file, into, in_bits && size > FEW ? FEW : size, at);
}

ssize_t pwrite(int file, const void *bytes, size_t size, off_t at) { return write_at(file, bytes, size, at); }

ssize_t pwrite64(int file, const void *bytes, size_t size, off64_t at) { return write_at(file, bytes, size, at); }

ssize_t pread(int file, void *into, size_t size, off_t at) { return read_at(file, into, size, at); }

ssize_t pread64(int file, void *into, size_t size, off64_t at) { return read_at(file, into, size, at); }

int fdatasync(int file) { return synced('s', SYS_fdatasync, file); }

int fsync(int file) { return synced('f', SYS_fsync, file); }

ssize_t write(int file, const void *bytes, size_t size) {
    if (file != STDOUT_FILENO) return syscall(SYS_write, file, bytes, size);
    pthread_mutex_lock(&lock);
    ssize_t result = noted('r', 0, size, syscall(SYS_write, file, bytes, size), bytes);
    pthread_mutex_unlock(&lock);
    return result;
}
