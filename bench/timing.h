// What the programs of bench/ share: the clock, samples and their median, and files in memory.
#define _GNU_SOURCE
#include <fcntl.h>
#include <stdbool.h>
#include <stddef.h>
#include <stdint.h>
#include <stdio.h>
#include <stdlib.h>
#include <string.h>
#include <sys/mman.h>
#include <sys/stat.h>
#include <time.h>
#include <unistd.h>

static inline void fail(const char *what) {
    fprintf(stderr, "%s\n", what);
    exit(1);
}

// The processor time of this process, in seconds.
static inline double now(void) {
    struct timespec t;
    clock_gettime(CLOCK_PROCESS_CPUTIME_ID, &t);
    return t.tv_sec + t.tv_nsec * 1e-9;
}

// One sample: the processor time of some calls in a row, divided by their number.
static inline double sampled(int batch, void (*call)(void)) {
    double begin = now();
    for (int i = 0; i < batch; i++) {
        call();
    }
    return (now() - begin) / batch;
}

static int order(const void *a, const void *b) {
    double x = *(const double *)a, y = *(const double *)b;
    return (x > y) - (x < y);
}

// The median, not the least: the clock's difference over a short call can come out as 0, and the least of many samples would be that.
static inline double median(double *samples, int count) {
    qsort(samples, (size_t)count, sizeof *samples, order);
    return samples[count / 2];
}

// Space for so many samples.
static inline double *space(int samples) {
    double *found = samples < 1 ? NULL : malloc((size_t)samples * sizeof *found);
    if (found == NULL) {
        fail("SAMPLES is no number from 1 on");
    }
    return found;
}

// The median time of a call.
static inline double timed(int samples, int batch, void (*call)(void)) {
    double *times = space(samples);
    if (batch < 1) {
        fail("BATCH is no number from 1 on");
    }
    for (int sample = 0; sample < samples; sample++) {
        times[sample] = sampled(batch, call);
    }
    double found = median(times, samples);
    free(times);
    return found;
}

static inline int opened_file(const char *path, size_t *length) {
    int file = open(path, O_RDONLY);
    struct stat about;
    if (file < 0 || fstat(file, &about) != 0) {
        perror(path);
        exit(1);
    }
    *length = (size_t)about.st_size;
    return file;
}

// A file mapped into memory.
static inline const uint8_t *mapped(const char *path, size_t *length) {
    int file = opened_file(path, length);
    const uint8_t *bytes = mmap(NULL, *length, PROT_READ, MAP_PRIVATE | MAP_POPULATE, file, 0);
    if (bytes == MAP_FAILED) {
        perror(path);
        exit(1);
    }
    return bytes;
}
