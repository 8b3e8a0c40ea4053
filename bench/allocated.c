// Counts what a program asks of its allocator, and tells it at its end: new pieces, pieces that were made larger, the most bytes that it
// had at once, and those that it had when it last wrote to its output. Loaded in front of a program by `bench/allocated`.
#define _GNU_SOURCE
#include <malloc.h>
#include <stddef.h>
#include <stdio.h>
#include <stdlib.h>
#include <sys/syscall.h>
#include <unistd.h>

extern void *__libc_malloc(size_t);
extern void *__libc_calloc(size_t, size_t);
extern void *__libc_realloc(void *, size_t);
extern void *__libc_memalign(size_t, size_t);
extern void __libc_free(void *);

static unsigned long taken, grown, held, most, left;

static void *hold(void *piece) {
    held += malloc_usable_size(piece);
    most = held > most ? held : most;
    return piece;
}

void *malloc(size_t size) {
    taken++;
    return hold(__libc_malloc(size));
}

void *calloc(size_t count, size_t size) {
    taken++;
    return hold(__libc_calloc(count, size));
}

void *memalign(size_t alignment, size_t size) {
    taken++;
    return hold(__libc_memalign(alignment, size));
}

void *aligned_alloc(size_t alignment, size_t size) {
    return memalign(alignment, size);
}

int posix_memalign(void **piece, size_t alignment, size_t size) {
    *piece = memalign(alignment, size);
    return *piece ? 0 : 12; // ENOMEM
}

void *realloc(void *old, size_t size) {
    size_t before = malloc_usable_size(old);
    void *piece = __libc_realloc(old, size);
    grown++;
    if (!piece)
        return piece;
    held -= before;
    return hold(piece);
}

void free(void *piece) {
    held -= malloc_usable_size(piece);
    __libc_free(piece);
}

ssize_t write(int file, const void *bytes, size_t length) {
    if (file == 1)
        left = held;
    return syscall(SYS_write, file, bytes, length);
}

__attribute__((destructor)) static void tell(void) {
    char line[128];
    int length = snprintf(line, sizeof line, "%lu %lu %lu %lu\n", taken, grown, most, left);
    if (write(2, line, (size_t)length) != length)
        abort();
}

// A program may end by this call, which skips what is done at an exit.
void _exit(int status) {
    tell();
    syscall(SYS_exit_group, status);
    __builtin_unreachable();
}
