/* The bare limit of a folder: appends as docs/FILES.md has them, one after another, and nothing else.

   Usage: limit FOLDER SECONDS THREADS BYTES...

   Each thread appends to files of its own, one for each BYTES, in turn: a write of so many bytes with a closing gate behind them, fdatasync, a write of
   the gate before them, fdatasync. A turn over all its files is a flush. Prints how many flushes there were, and in how many seconds. */
#define _GNU_SOURCE
#include <errno.h>
#include <fcntl.h>
#include <pthread.h>
#include <stdint.h>
#include <stdio.h>
#include <stdlib.h>
#include <string.h>
#include <time.h>
#include <unistd.h>

enum { FILES = 4, THREADS = 64 };

struct file {
    int descriptor;
    off_t gate; /* where the closing gate is */
};

struct worker {
    pthread_t thread;
    unsigned number;
    uint64_t flushes;
};

static const char *folder;
static double seconds;
static unsigned files;
static size_t sizes[FILES];
static unsigned char *batch; /* of the largest size, and a gate behind it */

static _Noreturn void fail(const char *what) {
    fprintf(stderr, "limit: %s: %s\n", what, strerror(errno));
    exit(1);
}

static double now(void) {
    struct timespec it;
    clock_gettime(CLOCK_MONOTONIC, &it);
    return it.tv_sec + it.tv_nsec / 1e9;
}

static void write_and_sync(const struct file *it, const void *bytes, size_t size, off_t at) {
    if (pwrite(it->descriptor, bytes, size, at) != (ssize_t)size) fail("write");
    if (fdatasync(it->descriptor)) fail("fdatasync");
}

static void append(struct file *it, size_t size) {
    write_and_sync(it, batch, size, it->gate + 1);
    write_and_sync(it, "\1", 1, it->gate);
    it->gate += size;
}

static struct file make_file(unsigned thread, unsigned number) {
    char path[4096];
    snprintf(path, sizeof path, "%s/limit-%u-%u.dat", folder, thread, number);
    struct file it = {open(path, O_RDWR | O_CREAT | O_TRUNC, 0666), 32};
    if (it.descriptor < 0) fail(path);
    write_and_sync(&it, batch, 17, 0);
    return it;
}

static void *work(void *of) {
    struct worker *it = of;
    struct file open_files[FILES];
    for (unsigned n = 0; n < files; n++) open_files[n] = make_file(it->number, n);
    for (double end = now() + seconds; now() < end; it->flushes++)
        for (unsigned n = 0; n < files; n++) append(&open_files[n], sizes[n]);
    return NULL;
}

int main(int count, char **words) {
    struct worker workers[THREADS] = {0};
    if (count < 5 || count > 4 + FILES || atoi(words[3]) < 1 || atoi(words[3]) > THREADS) {
        fputs("Usage: limit FOLDER SECONDS THREADS BYTES...\n", stderr);
        return 2;
    }
    folder = words[1];
    seconds = atof(words[2]);
    size_t largest = 17;
    for (files = 0; words[4 + files]; files++) {
        sizes[files] = strtoul(words[4 + files], NULL, 10);
        largest = sizes[files] > largest ? sizes[files] : largest;
    }
    batch = calloc(largest, 1);
    if (!batch) fail("memory");
    double begin = now();
    unsigned threads = atoi(words[3]);
    for (unsigned n = 0; n < threads; n++) {
        workers[n].number = n;
        if (pthread_create(&workers[n].thread, NULL, work, &workers[n])) fail("thread");
    }
    uint64_t flushes = 0;
    for (unsigned n = 0; n < threads; n++) {
        pthread_join(workers[n].thread, NULL);
        flushes += workers[n].flushes;
    }
    printf("%llu %.3f\n", (unsigned long long)flushes, now() - begin);
    return 0;
}
