/* Appends to a file as a journal does, with four calls each: bench/journal.py builds it.
 *
 *     appends FILE COUNT SIZE    makes the file anew and appends COUNT records whose payload has SIZE bytes. Prints the seconds.
 */
#define _GNU_SOURCE
#include <endian.h>
#include <fcntl.h>
#include <stdint.h>
#include <stdio.h>
#include <stdlib.h>
#include <string.h>
#include <time.h>
#include <unistd.h>

static void fail(const char *what) {
    perror(what);
    exit(1);
}

static void write_and_sync(int file, const char *bytes, size_t size, off_t at) {
    if (pwrite(file, bytes, size, at) != (ssize_t)size) fail("pwrite");
    if (fdatasync(file)) fail("fdatasync");
}

static double now(void) {
    struct timespec time;
    clock_gettime(CLOCK_MONOTONIC, &time);
    return time.tv_sec + time.tv_nsec / 1e9;
}

int main(int count, char **words) {
    if (count != 4) {
        fprintf(stderr, "usage: appends FILE COUNT SIZE\n");
        return 2;
    }
    int file = open(words[1], O_RDWR | O_CREAT | O_TRUNC, 0600);
    if (file < 0) fail(words[1]);
    size_t size = strtoul(words[3], 0, 10);
    char *record = malloc(8 + size + 1);
    if (!record) fail("malloc");
    uint64_t length = htobe64(size);
    memcpy(record, &length, 8);
    memset(record + 8, 'x', size);
    record[8 + size] = 0;
    write_and_sync(file, "EBJRNL1\n", 9, 0);
    off_t gate = 8;
    double start = now();
    for (long left = atol(words[2]); left > 0; left--) {
        write_and_sync(file, record, 8 + size + 1, gate + 1);
        write_and_sync(file, "\1", 1, gate);
        gate += 9 + size;
    }
    printf("%.6f\n", now() - start);
    return 0;
}
