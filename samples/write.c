// Writes an AFF file: `write FILE EDITION` makes a file of edition 2 or 3 with two nodes, /a, which is Void, and /a/n, one Int.
//     (cd crates/aff_c && rt lib) && mkdir -p target
//     cc -I include samples/write.c crates/aff_c/out/libaff_c.a -o target/write
//     target/write target/new.aff 3
#define _POSIX_C_SOURCE 200112L
#include "aff.h"
#include <errno.h>
#include <inttypes.h>
#include <stdio.h>
#include <stdlib.h>
#include <unistd.h>

// A buffer takes the file if it has at least 168 bytes for the header, all bytes that are put and up to 7 zero bytes before each put, every name once with a
// zero, and 25 bytes for each node (13 if it stays Void).
enum { HEADER = 168 };
static uint8_t buffer[65536], text[AFF_TEXT], tree[AFF_TREE], form[AFF_FORM], kept[AFF_FORM];
static uint64_t numbers[AFF_NUMBERS];
#define WRITER buffer, sizeof buffer, numbers, kept, text, AFF_TEXT, tree, AFF_TREE

// Ends the program if a call was refused. Returns what the call reported: a new node's number, or how many bytes were stored.
static uint64_t check(const char *what, uint32_t number) {
    if (number != AFF_OK) {
        fprintf(stderr, "%s: refused %" PRIu32 " %" PRIu64 "\n", what, number, numbers[0]);
        exit(1);
    }
    return numbers[0];
}

// The bytes of an Int as a file has them.
static void big_endian(int32_t value, uint8_t bytes[4]) {
    for (int k = 0; k < 4; k++) {
        bytes[k] = (uint8_t)((uint32_t)value >> (24 - 8 * k));
    }
}

// Writes a file under another name, waits until its bytes are on the disk, and only then gives it its name. After a loss of power the name is that of the
// whole new file, or of what was there before.
static bool save(const char *path, const uint8_t *bytes, size_t length) {
    char part[4096];
    int size = snprintf(part, sizeof part, "%s.part", path);
    if (size < 0 || sizeof part <= (size_t)size) {
        errno = ENAMETOOLONG;
        return false;
    }
    FILE *file = fopen(part, "wb");
    if (file == NULL) {
        return false;
    }
    bool stored = fwrite(bytes, 1, length, file) == length && fflush(file) == 0 && fsync(fileno(file)) == 0;
    return fclose(file) == 0 && stored && rename(part, path) == 0;
}

int main(int argc, char **argv) {
    char *end = NULL;
    unsigned long edition = argc == 3 ? strtoul(argv[2], &end, 10) : 0;
    if (argc != 3 || end == argv[2] || *end != 0 || UINT32_MAX < edition) {
        fputs("usage: write FILE EDITION\n", stderr);
        return 2;
    }
    // The 12 signature bytes of the edition: for edition 1 there are some, but aff_begin returns 3, as only 2 and 3 are written.
    if (!aff_form((uint32_t)edition, form, sizeof form)) {
        fprintf(stderr, "there is no edition %lu\n", edition);
        return 1;
    }
    check("begin", aff_begin((uint32_t)edition, buffer, sizeof buffer, form, sizeof form, text, AFF_TEXT, tree, AFF_TREE, UINT64_MAX, numbers, kept));
    uint64_t a = check("/a", aff_make(WRITER, 0, (const uint8_t *)"a", 1));
    uint64_t n = check("/a/n", aff_make(WRITER, a, (const uint8_t *)"n", 1));
    uint8_t data[4];
    big_endian(-70, data);
    check("/a/n", aff_put(WRITER, n, AFF_INT, data, sizeof data, UINT64_MAX));
    uint64_t stored = check("close", aff_close(WRITER, UINT64_MAX));
    // The data end at numbers[6], which counts the header from the start of the file. close stored the header, and the strings and entries after the data.
    if (!save(argv[1], buffer, (size_t)(numbers[6] + stored - HEADER))) {
        perror(argv[1]);
        return 1;
    }
    return 0;
}
