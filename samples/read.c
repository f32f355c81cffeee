// Reads one key of an AFF file: `read FILE PATH` prints a line for each element of the node with that path.
//     (cd crates/aff_c && rt lib) && mkdir -p target
//     cc -I include samples/read.c crates/aff_c/out/libaff_c.a -o target/read
//     target/read samples/worked.aff /a/n
//     target/read samples/aligned.aff /b
#include "aff.h"
#include <inttypes.h>
#include <stdio.h>
#include <stdlib.h>
#include <string.h>

static uint32_t strings[AFF_STRINGS], entries[AFF_ENTRIES];
static uint64_t record[AFF_RECORD];

// What a number that a call returned means, in a sentence.
static const char *meaning(uint32_t number) {
    static const char *const meanings[] = {
        "accepted",
        "a length is wrong, or the file has more than 2,147,483,647 bytes",
        "the file is shorter than its header",
        "this is no AFF file, or one that was never finished; of a writer, an edition that is not written",
        "the signature is not that of a file with IEEE 754 doubles",
        "the header is damaged: its MD5 sum is wrong",
        "a section ends past the file (1 symbols, 2 tree, 3 data)",
        "a section is damaged: its MD5 sum is wrong (1 symbols, 2 tree, 3 data)",
        "withdrawn: no call returns this number; in old logs, a fault of the symbol table",
        "the tree table is malformed at this entry (0: the number of entries)",
        "the parent or the name of this node does not exist, or the name is malformed",
        "the parents of this node do not lead to the root",
        "this node has the name of a sibling",
        "the data of this node are not inside the data section",
        "the path or name is malformed at this place, counted from 0; a path is / or /name/name",
        "no node has this path or number",
        "the node has no element of this index",
        "the parent has a child of this name already",
        "the node is the root, or has data already",
        "the type is none, or the bytes are no whole number of elements",
        "there are too many nodes, strings or bytes of names",
        "the buffer is too short",
        "the file is closed or stopped",
        "the allowance of stores is spent",
        "record, work areas and image do not belong together",
        "there are more than 2,048 strings; this is the first beyond, numbered from 0",
        "the number of strings is not the one in the header",
        "this string, numbered from 0, equals an earlier one",
    };
    return number < sizeof meanings / sizeof *meanings ? meanings[number] : "an argument is wrong";
}

// Prints a malformed path and, below it, a caret at a place. If the path ends too early, the caret is one past its end. Each byte takes one column: a
// byte that is no printable ASCII character is printed as a '?'.
static void point(const char *path, uint64_t place) {
    for (; *path != 0; path++) {
        fputc(' ' <= *path && *path <= '~' ? *path : '?', stderr);
    }
    fputc('\n', stderr);
    for (uint64_t column = 0; column < place; column++) {
        fputc(' ', stderr);
    }
    fputs("^\n", stderr);
}

static void check(const char *what, uint32_t number, uint64_t place) {
    if (number != AFF_OK) {
        fprintf(stderr, "%s: refused %" PRIu32 " %" PRIu64 ": %s\n", what, number, place, meaning(number));
        if (number == AFF_ERR_NAME) {
            point(what, place);
        }
        exit(1);
    }
}

// The bytes of a whole file.
static uint8_t *load(const char *path, size_t *length) {
    FILE *file = fopen(path, "rb");
    uint8_t *bytes = NULL;
    size_t space = 0, got = 0, now = 1;
    while (file != NULL && now != 0) {
        if (got == space) {
            space = space == 0 ? 65536 : 2 * space;
            bytes = (uint8_t *)realloc(bytes, space);
            if (bytes == NULL) {
                break;
            }
        }
        now = fread(bytes + got, 1, space - got, file);
        got += now;
    }
    if (file == NULL || bytes == NULL || ferror(file)) {
        perror(path);
        exit(1);
    }
    fclose(file);
    *length = got;
    return bytes;
}

int main(int argc, char **argv) {
    if (argc != 3) {
        fputs("usage: read FILE PATH\n", stderr);
        return 2;
    }
    size_t length;
    uint8_t *image = load(argv[1], &length), form[AFF_FORM];
    aff_form_for(image, length, form, sizeof form);
    uint32_t number = aff_open_image(image, length, form, sizeof form, strings, AFF_STRINGS, entries, AFF_ENTRIES, record, AFF_RECORD);
    check(argv[1], number, record[0]);
#define OPENED image, length, record, strings, AFF_STRINGS, entries, AFF_ENTRIES
    uint64_t node, place, kind, offset, size;
    number = aff_lookup(OPENED, (const uint8_t *)argv[2], strlen(argv[2]), &node, &place);
    check(argv[2], number, place);
    // Type and place of the data are asked for once; each element is then decoded from there.
    // In a file of this library's writer, offset is a multiple of 8 for every node with data, since request C-22: if the file is mapped from its start, its
    // doubles are aligned. Their bytes are still big-endian. Files of other writers, or of this one before that request, may have data at any offset: check
    // offset % 8 before you take an address there as that of a double, or copy the bytes with memcpy. aff_decode takes bytes at any address.
    check(argv[2], aff_kind(OPENED, node, &kind), 0);
    check(argv[2], aff_view(OPENED, node, &offset, &size), 0);
    if (size == 0) {
        fprintf(stderr, "%s: %s\n", argv[2], kind == AFF_VOID ? "a Void node, which has no data" : "an empty array");
    }
    double value, imaginary;
    for (uint64_t k = 0; aff_decode(kind, image + offset, size, k, &value, &imaginary) == AFF_OK; k++) {
        if (kind == AFF_COMPLEX) {
            printf("%.17g %.17g\n", value, imaginary);
        } else {
            printf("%.17g\n", value);
        }
    }
    free(image);
    return 0;
}
