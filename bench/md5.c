// The programs that bench/md5.py and bench/second.py build and time. The digest is that of the proved function of crates/md5_c.
// `md5 map FILE` maps the file into memory, since the function takes a message that is whole, and prints its digest and the elapsed seconds of the call.
// `md5 load FILE` does the same, but reads the file into newly allocated memory.
// `md5 read FILE` only reads a file, 32 KiB at a time as md5sum does, and prints how many bytes it has.
// `md5 digest FILE SAMPLES BATCH` prints the digest of the mapped file and the median processor time of a call in seconds.
#include "timing.h"

// From the static library of crates/md5_c.
bool md5_c_digest(const uint8_t *message, size_t message_length, uint8_t *output, size_t output_length);

static const uint8_t *message;
static size_t length;
static uint8_t digest[16];

static void digest_once(void) {
    if (!md5_c_digest(message, length, digest, sizeof digest)) {
        fail("the digest is refused");
    }
}

// Elapsed seconds: md5sum's time, which this stands beside, is measured from outside and is elapsed time.
static double elapsed(void) {
    struct timespec t;
    clock_gettime(CLOCK_MONOTONIC, &t);
    return t.tv_sec + t.tv_nsec * 1e-9;
}

static void print(double seconds) {
    for (int i = 0; i < 16; i++) {
        printf("%02x", digest[i]);
    }
    printf(" %.9f\n", seconds);
}

static void call_once(void) {
    double begin = elapsed();
    digest_once();
    print(elapsed() - begin);
}

static const uint8_t *loaded(const char *path) {
    int file = opened_file(path, &length);
    uint8_t *bytes = malloc(length);
    size_t have = 0;
    ssize_t n = 1;
    while (bytes != NULL && have < length && (n = read(file, bytes + have, length - have)) > 0) {
        have += (size_t)n;
    }
    if (bytes == NULL || have < length) {
        fail("the file cannot be read");
    }
    return bytes;
}

static void read_all(const char *path) {
    static uint8_t buffer[32768];
    int file = opened_file(path, &length);
    long total = 0;
    ssize_t n;
    while ((n = read(file, buffer, sizeof buffer)) > 0) {
        total += n;
    }
    if (n < 0) {
        fail("the file cannot be read");
    }
    printf("%ld\n", total);
}

int main(int argc, char **argv) {
    if (argc == 3 && strcmp(argv[1], "map") == 0) {
        message = mapped(argv[2], &length);
        call_once();
    } else if (argc == 3 && strcmp(argv[1], "load") == 0) {
        message = loaded(argv[2]);
        call_once();
    } else if (argc == 3 && strcmp(argv[1], "read") == 0) {
        read_all(argv[2]);
    } else if (argc == 5 && strcmp(argv[1], "digest") == 0) {
        message = mapped(argv[2], &length);
        print(timed(atoi(argv[3]), atoi(argv[4]), digest_once));
    } else {
        fputs("usage: md5 map|load|read FILE, or md5 digest FILE SAMPLES BATCH\n", stderr);
        return 2;
    }
    return 0;
}
