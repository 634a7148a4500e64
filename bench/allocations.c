/* Counts the memory that a program asks of the C library: bench/control.py and bench/deliveries.py build it and load it before
 * the program.
 *
 * The file that ALLOCATIONS names, of three 64-bit numbers, gets the number of allocations, the bytes of all of them, and the
 * bytes that are allocated now. It may be read while the program runs.
 */
#define _GNU_SOURCE
#include <errno.h>
#include <fcntl.h>
#include <malloc.h>
#include <stdint.h>
#include <stdlib.h>
#include <sys/mman.h>
#include <unistd.h>

struct counts {
    uint64_t calls, allocated, live;
};

static struct counts before_start;
static struct counts *counts = &before_start;

/* The C library's own calls, which these stand before. */
extern void *__libc_malloc(size_t);
extern void *__libc_calloc(size_t, size_t);
extern void *__libc_realloc(void *, size_t);
extern void *__libc_memalign(size_t, size_t);
extern void __libc_free(void *);

static void add(uint64_t *count, uint64_t bytes) { __atomic_fetch_add(count, bytes, __ATOMIC_RELAXED); }

static void *counted(void *made, size_t size) {
    if (made) {
        add(&counts->calls, 1);
        add(&counts->allocated, size);
        add(&counts->live, malloc_usable_size(made));
    }
    return made;
}

static void forget(void *made) {
    if (made) add(&counts->live, -(uint64_t)malloc_usable_size(made));
}

__attribute__((constructor)) static void start(void) {
    const char *path = getenv("ALLOCATIONS");
    int file = path ? open(path, O_RDWR) : -1;
    if (file < 0) return;
    void *shared = mmap(0, sizeof(struct counts), PROT_READ | PROT_WRITE, MAP_SHARED, file, 0);
    close(file);
    if (shared == MAP_FAILED) return;
    *(struct counts *)shared = before_start;
    counts = shared;
}

void *malloc(size_t size) { return counted(__libc_malloc(size), size); }

void *calloc(size_t count, size_t size) { return counted(__libc_calloc(count, size), count * size); }

void *realloc(void *old, size_t size) {
    size_t before = old ? malloc_usable_size(old) : 0;
    void *made = __libc_realloc(old, size);
    if (made || size == 0) add(&counts->live, -(uint64_t)before);
    return counted(made, size);
}

void *memalign(size_t align, size_t size) { return counted(__libc_memalign(align, size), size); }

void *aligned_alloc(size_t align, size_t size) { return memalign(align, size); }

int posix_memalign(void **made, size_t align, size_t size) {
    void *block = memalign(align, size);
    if (!block) return ENOMEM;
    *made = block;
    return 0;
}

void free(void *made) {
    forget(made);
    __libc_free(made);
}
