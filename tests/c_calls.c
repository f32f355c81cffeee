// Calls the library through include/aff.h and compares what it returns and leaves with what the header says:
// `c_calls samples/worked.aff samples/worked3.aff samples/unterminated.aff samples/wide_names.aff samples/aligned.aff`. In both written editions it makes
// document 01's worked file with every total allowance from 0 to 216, makes a file with padding and records other ends of its data, makes that file with its
// two puts in both orders and compares all nodes, tries each refusal of the writer with every other value of the record unchanged, passes null pointers with
// length 0 and records of every length, reads a file whose last string has no zero, and asks for the places in malformed names and paths. It tries editions
// that are not written or do not exist, makes and reads names that only edition 3 allows, and reads special numbers. It prints counts; the exit status is 1
// where anything differs.
#include "aff.h"
#include <stdio.h>
#include <stdlib.h>
#include <string.h>

enum { WORKED = 214, UNTERMINATED = 213, WIDE = 253, ALIGNED = 238, DOUBLE_FIRST = 233, STORES = 215, HEADER = 168, BUFFER = 400 };

// The edition of what is written, and the 12 signature bytes of editions 2 and 3.
static uint32_t edition;
static const uint8_t form[AFF_FORM] = {0, 64, 2, 53, 4, 0, 3, 253, 0, 0, 0, 168};
static const uint8_t seventy[4] = {0xff, 0xff, 0xff, 0xba};
static unsigned long checks, failures, refusals;

#define CHECK(right) check((right), __LINE__, #right)

static void check(bool right, int line, const char *what) {
    checks++;
    if (!right && failures++ < 20) {
        fprintf(stderr, "tests/c_calls.c:%d: %s\n", line, what);
    }
}

// Everything that a writer uses.
struct writer {
    uint8_t buffer[BUFFER], text[AFF_TEXT], tree[AFF_TREE], kept[AFF_FORM];
    uint64_t numbers[AFF_NUMBERS];
    size_t length;
};

#define WRITER(w) (w)->buffer, (w)->length, (w)->numbers, (w)->kept, (w)->text, AFF_TEXT, (w)->tree, AFF_TREE

static uint32_t begin_edition(struct writer *w, uint32_t chosen, size_t form_length, uint64_t allowance) {
    return aff_begin(chosen, w->buffer, w->length, form, form_length, w->text, AFF_TEXT, w->tree, AFF_TREE, allowance, w->numbers, w->kept);
}

static uint32_t begin(struct writer *w, uint64_t allowance) {
    return begin_edition(w, edition, AFF_FORM, allowance);
}

static uint32_t make(struct writer *w, uint64_t parent, const char *name) {
    return aff_make(WRITER(w), parent, (const uint8_t *)name, strlen(name));
}

static uint32_t put(struct writer *w, uint64_t node, uint64_t kind, size_t length, uint64_t allowance) {
    return aff_put(WRITER(w), node, kind, seventy, length, allowance);
}

static uint32_t finish(struct writer *w, uint64_t allowance) {
    return aff_close(WRITER(w), allowance);
}

// A buffer of some length, everything in it and in the work areas with one value.
static void reset(struct writer *w, size_t length, uint8_t value) {
    memset(w, value, sizeof *w);
    w->length = length;
}

// Everything that an opening leaves.
static uint32_t strings[AFF_STRINGS], entries[AFF_ENTRIES];
static uint64_t record[AFF_RECORD];

#define OPENED(image, length) image, length, record, strings, AFF_STRINGS, entries, AFF_ENTRIES

static uint32_t open_image(const uint8_t *image, size_t length) {
    return aff_open_image(image, length, form, AFF_FORM, strings, AFF_STRINGS, entries, AFF_ENTRIES, record, AFF_RECORD);
}

// ---- The worked file with every total allowance

static uint32_t worked_call(struct writer *w, int call, uint64_t allowance) {
    switch (call) {
    case 0:
        return begin(w, allowance);
    case 1:
        return make(w, 0, "a");
    case 2:
        return make(w, 1, "n");
    case 3:
        return put(w, 2, AFF_INT, 4, allowance);
    default:
        return finish(w, allowance);
    }
}

static void drill(const uint8_t *worked) {
    static struct writer w;
    unsigned refused = 0, opened = 0;
    for (uint64_t total = 0; total <= STORES + 1; total++) {
        uint64_t left = total;
        reset(&w, WORKED, 0);
        for (int call = 0; call < 5; call++) {
            uint32_t number = worked_call(&w, call, left);
            bool stores = call == 0 || 2 < call;
            CHECK(number == AFF_OK || number == AFF_ERR_ALLOWANCE || number == AFF_ERR_CLOSED);
            if (stores && number != AFF_ERR_CLOSED) {
                CHECK(w.numbers[0] <= left);
                left -= w.numbers[0];
            }
        }
        CHECK(total - left == (total < STORES ? total : STORES));
        uint32_t number = open_image(w.buffer, WORKED);
        if (total < STORES) {
            CHECK(number == AFF_ERR_SIGNATURE && record[0] == 0);
            refused += number == AFF_ERR_SIGNATURE;
        } else {
            CHECK(number == AFF_OK && memcmp(w.buffer, worked, WORKED) == 0);
            opened += number == AFF_OK;
        }
    }
    printf("edition %u: the worked file, total allowances 0 to %d: %u refused with 3, %u opened and the sample byte for byte\n", (unsigned)edition, STORES + 1,
        refused, opened);
}

// ---- What a refusal of the writer leaves

static const uint64_t FLAGS[] = {0, 1, 2, 7, 256, (uint64_t)1 << 32 | 1, UINT64_MAX};
enum { ALL_FLAGS = sizeof FLAGS / sizeof *FLAGS };

// The refusal that is expected, numbers[0] is its place, and nothing else has changed.
#define REFUSED_AT(w, expected, place, call)                                                                                          \
    do {                                                                                                                              \
        static struct writer before;                                                                                                  \
        memcpy(&before, (w), sizeof before);                                                                                          \
        CHECK((call) == (expected));                                                                                                  \
        CHECK((w)->numbers[0] == (place));                                                                                            \
        before.numbers[0] = (place);                                                                                                  \
        CHECK(memcmp(&before, (w), sizeof before) == 0);                                                                              \
        (w)->numbers[0] = 77;                                                                                                         \
        refusals++;                                                                                                                   \
    } while (0)
#define REFUSED(w, expected, call) REFUSED_AT(w, expected, 0, call)

// Names and paths, with their lengths and the place of the first byte that breaks the rule: that of editions 1 and 2, and that of edition 3.
struct malformed {
    const char *bytes;
    size_t length;
    uint64_t narrow, wide;
};
#define LAWFUL UINT64_MAX

static uint64_t place_in(const struct malformed *m, uint64_t of_edition) {
    return of_edition == 3 ? m->wide : m->narrow;
}

static const struct malformed NAMES[] = {
    {"", 0, 0, 0}, {"/", 1, 0, 0}, {"/a", 2, 0, 0}, {"\0", 1, 0, 0}, {"a/b", 3, 1, 1}, {"a\0", 2, 1, 1}, {"ab\0c", 4, 2, 2}, {"abc/", 4, 3, 3}, {" /", 2, 0, 1},
    {"\377\0/", 3, 0, 1}, {"a b/9", 5, 1, 3}, {"9a", 2, 0, LAWFUL}, {"9", 1, 0, LAWFUL}, {"-a", 2, 0, LAWFUL}, {" ", 1, 0, LAWFUL}, {"\377", 1, 0, LAWFUL},
    {"..", 2, 0, LAWFUL}, {"a b", 3, 1, LAWFUL}, {"a b c", 5, 1, LAWFUL}, {"a\377", 2, 1, LAWFUL}, {"a\n", 2, 1, LAWFUL}, {"momentum,1", 10, 8, LAWFUL}};
enum { ALL_NAMES = sizeof NAMES / sizeof *NAMES };

// A file with the nodes /a, Void, and /b, an Int, in a buffer of some length.
static void two_nodes(struct writer *w, size_t length) {
    reset(w, length, 0x33);
    CHECK(begin(w, UINT64_MAX) == AFF_OK && make(w, 0, "a") == AFF_OK && make(w, 0, "b") == AFF_OK && put(w, 2, AFF_INT, 4, UINT64_MAX) == AFF_OK);
}

static void refusals_of_writer(void) {
    static struct writer w;
    static char name[AFF_TEXT + 1];
    memset(name, 'x', AFF_TEXT);
    two_nodes(&w, BUFFER);
    for (int k = 0; k < ALL_FLAGS; k++) {
        w.numbers[7] = FLAGS[k];
        if (FLAGS[k] != 1) {
            REFUSED(&w, AFF_ERR_CLOSED, make(&w, 0, "c"));
            REFUSED(&w, AFF_ERR_CLOSED, put(&w, 1, AFF_INT, 4, UINT64_MAX));
            REFUSED(&w, AFF_ERR_CLOSED, finish(&w, UINT64_MAX));
        }
        w.numbers[5] = 3000;
        REFUSED(&w, AFF_ERR_MISMATCH, make(&w, 0, "c"));
        REFUSED(&w, AFF_ERR_MISMATCH, put(&w, 1, AFF_INT, 4, 0));
        REFUSED(&w, AFF_ERR_MISMATCH, finish(&w, 0));
        w.numbers[5] = 2;
    }
    w.numbers[7] = 1;
    REFUSED(&w, AFF_ERR_NOT_FOUND, make(&w, 3, "c"));
    for (int k = 0; k < ALL_NAMES; k++) {
        const uint8_t *bad = (const uint8_t *)NAMES[k].bytes;
        uint64_t place = place_in(&NAMES[k], edition);
        if (place != LAWFUL) {
            REFUSED_AT(&w, AFF_ERR_NAME, place, aff_make(WRITER(&w), 0, bad, NAMES[k].length));
            REFUSED_AT(&w, AFF_ERR_NAME, place, aff_make(WRITER(&w), 2, bad, NAMES[k].length));
        }
        REFUSED(&w, AFF_ERR_NOT_FOUND, aff_make(WRITER(&w), 3, bad, NAMES[k].length));
    }
    name[AFF_TEXT - 1] = '/';
    REFUSED_AT(&w, AFF_ERR_NAME, AFF_TEXT - 1, make(&w, 0, name));
    name[AFF_TEXT - 1] = 'x';
    REFUSED(&w, AFF_ERR_EXISTS, make(&w, 0, "a"));
    REFUSED(&w, AFF_ERR_FULL, make(&w, 0, name));
    REFUSED(&w, AFF_ERR_SPACE, aff_make(WRITER(&w), 0, (const uint8_t *)name, 300));
    REFUSED(&w, AFF_ERR_NOT_FOUND, put(&w, 3, AFF_INT, 4, 0));
    REFUSED(&w, AFF_ERR_HAS_DATA, put(&w, 0, AFF_INT, 4, 0));
    REFUSED(&w, AFF_ERR_HAS_DATA, put(&w, 2, AFF_INT, 4, 0));
    REFUSED(&w, AFF_ERR_TYPE, put(&w, 1, AFF_VOID, 0, 0));
    REFUSED(&w, AFF_ERR_TYPE, put(&w, 1, 6, 4, 0));
    REFUSED(&w, AFF_ERR_TYPE, put(&w, 1, AFF_INT, 3, 0));
    REFUSED(&w, AFF_ERR_SPACE, aff_put(WRITER(&w), 1, AFF_CHAR, w.text + AFF_TEXT - 300, 300, 0));
}

// 23 stores what the allowance permits, and clears the flag; a refused begin leaves a record of zeros, or after 23 a stopped one.
static void stops_of_writer(void) {
    static struct writer w, before;
    static const uint64_t zeros[AFF_NUMBERS];
    const uint64_t stopped[AFF_NUMBERS] = {0, BUFFER, edition, 0, 0, 0, HEADER, 0};
    // The data end at 172: four zeros up to 176, then the Int.
    static const uint8_t stored[8] = {0, 0, 0, 0, 0xff, 0xff, 0xff, 0xba};
    for (uint64_t allowance = 0; allowance < sizeof stored; allowance++) {
        two_nodes(&w, BUFFER);
        memcpy(&before, &w, sizeof before);
        CHECK(put(&w, 1, AFF_INT, 4, allowance) == AFF_ERR_ALLOWANCE);
        memcpy(before.buffer + 172, stored, allowance);
        before.numbers[0] = allowance;
        before.numbers[7] = 0;
        CHECK(before.numbers[6] == 172 && memcmp(&before, &w, sizeof w) == 0);
    }
    two_nodes(&w, BUFFER);
    CHECK(put(&w, 1, AFF_INT, 4, sizeof stored) == AFF_OK && w.numbers[0] == sizeof stored && w.numbers[6] == 180);
    CHECK(memcmp(w.buffer + 172, stored, sizeof stored) == 0 && w.tree[24] == 176);
    for (int call = 0; call < 3; call++) {
        reset(&w, call == 1 ? 167 : BUFFER, 0x44);
        memcpy(&before, &w, sizeof before);
        uint32_t number = call == 0 ? begin_edition(&w, edition, 11, 9) : begin(&w, 0);
        CHECK(number == (uint32_t)(call == 0 ? AFF_ERR_LENGTH : call == 1 ? AFF_ERR_SPACE : AFF_ERR_ALLOWANCE));
        memcpy(before.numbers, call < 2 ? zeros : stopped, sizeof zeros);
        memcpy(before.kept, call < 2 ? (const uint8_t *)zeros : form, AFF_FORM);
        CHECK(memcmp(&before, &w, sizeof w) == 0);
    }
}

// The length of the file after an accepted close: up to the end of data, and after it what close stored, but for the header.
static uint64_t finished(const struct writer *w) {
    return w->numbers[6] + w->numbers[0] - HEADER;
}

// The file after an accepted close; the whole buffer opens too.
static void finished_size(const uint8_t *worked) {
    static struct writer w;
    reset(&w, BUFFER, 0x55);
    CHECK(begin(&w, 1) == AFF_OK && w.numbers[0] == 1 && w.numbers[6] == HEADER && open_image(w.buffer, BUFFER) == AFF_ERR_SIGNATURE);
    CHECK(make(&w, 0, "a") == AFF_OK && make(&w, 1, "n") == AFF_OK && w.numbers[0] == 2);
    CHECK(put(&w, 2, AFF_INT, 4, 4) == AFF_OK && w.numbers[6] == 172 && finish(&w, 210) == AFF_OK && w.numbers[6] == 172 && w.numbers[7] == 0);
    CHECK(finished(&w) == WORKED && memcmp(w.buffer, worked, WORKED) == 0 && w.buffer[WORKED] == 0x55);
    CHECK(open_image(w.buffer, WORKED) == AFF_OK && open_image(w.buffer, BUFFER) == AFF_OK && record[1] == BUFFER && record[2] == edition);
}

// ---- Data at multiples of 8

static const uint8_t one[8] = {0x3f, 0xf0};

// The nodes /a and /b, and `abc` in /a.
static void before_double(struct writer *w, size_t length) {
    reset(w, length, 0x55);
    CHECK(begin(w, 1) == AFF_OK && make(w, 0, "a") == AFF_OK && make(w, 0, "b") == AFF_OK);
    CHECK(aff_put(WRITER(w), 1, AFF_CHAR, (const uint8_t *)"abc", 3, 3) == AFF_OK && w->numbers[0] == 3 && w->numbers[6] == 171);
}

// samples/aligned.aff, made: the Double stores five zeros first, which count in 21 and 23. In edition 3 all but the header is the same. Then an empty array
// in place of the Double, which stores the zeros too.
static void padded_file(const uint8_t *aligned) {
    static struct writer w;
    uint64_t offset = 77, size = 77;
    before_double(&w, ALIGNED - 1);
    REFUSED(&w, AFF_ERR_SPACE, aff_put(WRITER(&w), 2, AFF_DOUBLE, one, 8, UINT64_MAX));
    before_double(&w, ALIGNED);
    CHECK(aff_put(WRITER(&w), 2, AFF_DOUBLE, one, 8, 13) == AFF_OK && w.numbers[0] == 13 && w.numbers[6] == 184);
    CHECK(finish(&w, 222) == AFF_OK && w.numbers[0] == 222 && finished(&w) == ALIGNED && w.numbers[6] == 184);
    CHECK(memcmp(w.buffer + HEADER, aligned + HEADER, ALIGNED - HEADER) == 0 && (edition == 3 || memcmp(w.buffer, aligned, ALIGNED) == 0));
    CHECK(open_image(w.buffer, ALIGNED) == AFF_OK && record[2] == edition && record[7] == HEADER && record[8] == 16 && record[11] == 2);
    CHECK(aff_view(OPENED(w.buffer, ALIGNED), 2, &offset, &size) == AFF_OK && offset == 176 && size == 8);
    for (uint64_t allowance = 0; allowance < 13; allowance++) {
        before_double(&w, BUFFER);
        CHECK(aff_put(WRITER(&w), 2, AFF_DOUBLE, one, 8, allowance) == AFF_ERR_ALLOWANCE && w.numbers[0] == allowance);
        CHECK(w.numbers[6] == 171 && w.numbers[7] == 0 && w.tree[25] == AFF_VOID && w.buffer[171 + allowance] == 0x55);
        CHECK(memcmp(w.buffer + 171, aligned + 171, allowance) == 0 && open_image(w.buffer, BUFFER) == AFF_ERR_SIGNATURE);
    }
    before_double(&w, BUFFER);
    CHECK(aff_put(WRITER(&w), 2, AFF_DOUBLE, NULL, 0, 4) == AFF_ERR_ALLOWANCE && w.numbers[0] == 4 && w.numbers[6] == 171 && w.tree[25] == AFF_VOID);
    before_double(&w, BUFFER);
    CHECK(aff_put(WRITER(&w), 2, AFF_DOUBLE, NULL, 0, 5) == AFF_OK && w.numbers[0] == 5 && w.numbers[6] == 176 && w.tree[49] == 176);
    CHECK(finish(&w, UINT64_MAX) == AFF_OK && finished(&w) == 230 && open_image(w.buffer, 230) == AFF_OK);
}

// 24 by the end of data: below the header, before the end of some data, and where the finished file would not fit. Any other end passes, and the next put
// begins at the multiple of 8 from there on. An offset need not be such a multiple.
static void recorded_ends(void) {
    static struct writer w;
    // 400 - 4 - 38 is the highest end.
    static const uint64_t wrong[] = {0, 1, 160, 167, 168, 170, 359, BUFFER, BUFFER + 1, (uint64_t)1 << 32 | 171, (uint64_t)1 << 63, UINT64_MAX};
    static const uint64_t right[] = {171, 172, 175, 176, 300, 358};
    before_double(&w, BUFFER);
    for (size_t k = 0; k < sizeof wrong / sizeof *wrong; k++) {
        w.numbers[6] = wrong[k];
        REFUSED(&w, AFF_ERR_MISMATCH, make(&w, 0, "c"));
        REFUSED(&w, AFF_ERR_MISMATCH, put(&w, 2, AFF_INT, 4, 0));
        REFUSED(&w, AFF_ERR_MISMATCH, finish(&w, 0));
    }
    for (size_t k = 0; k < sizeof right / sizeof *right; k++) {
        w.numbers[6] = right[k];
        REFUSED(&w, AFF_ERR_NOT_FOUND, make(&w, 3, "c"));
        REFUSED(&w, AFF_ERR_NOT_FOUND, put(&w, 3, AFF_INT, 4, 0));
    }
    w.numbers[6] = 177;
    CHECK(put(&w, 2, AFF_INT, 4, 11) == AFF_OK && w.numbers[0] == 11 && w.numbers[6] == 188 && w.tree[49] == 184);
    for (uint8_t low = 168; low <= 185; low++) {
        w.tree[24] = low;
        REFUSED(&w, AFF_ERR_NOT_FOUND, make(&w, 3, "c"));
    }
    w.tree[24] = 186;
    REFUSED(&w, AFF_ERR_MISMATCH, make(&w, 3, "c"));
    w.tree[24] = 167;
    REFUSED(&w, AFF_ERR_MISMATCH, make(&w, 3, "c"));
    // Before any data the end is that of the header.
    reset(&w, BUFFER, 0x55);
    CHECK(begin(&w, 1) == AFF_OK && make(&w, 0, "a") == AFF_OK);
    w.numbers[6] = HEADER - 1;
    REFUSED(&w, AFF_ERR_MISMATCH, put(&w, 1, AFF_INT, 4, 4));
    w.numbers[6] = HEADER;
    CHECK(put(&w, 1, AFF_INT, 0, 0) == AFF_OK && w.numbers[0] == 0 && w.numbers[6] == HEADER && w.tree[24] == 168);
}

// ---- Two puts in both orders

// What the reading calls return of a node, but not where its name and data are.
struct node {
    uint64_t kind, count, name_size, path_size, data_size;
    uint8_t name[8], path[8], data[8];
};

static void copy_part(uint8_t output[8], const uint8_t *image, uint64_t offset, uint64_t size) {
    CHECK(size <= 8);
    memcpy(output, image + offset, size <= 8 ? size : 0);
}

// Node n of the opened image. Returns the place of its data.
static uint64_t read_node(const uint8_t *image, size_t length, uint64_t n, struct node *node) {
    uint64_t name = 0, data = 0;
    memset(node, 0, sizeof *node);
    CHECK(aff_kind(OPENED(image, length), n, &node->kind) == AFF_OK && aff_count(OPENED(image, length), n, &node->count) == AFF_OK);
    CHECK(aff_path(OPENED(image, length), n, node->path, sizeof node->path, &node->path_size) == AFF_OK);
    CHECK(aff_name(OPENED(image, length), n, &name, &node->name_size) == AFF_OK && aff_view(OPENED(image, length), n, &data, &node->data_size) == AFF_OK);
    copy_part(node->name, image, name, node->name_size);
    copy_part(node->data, image, data, node->data_size);
    return data;
}

// The nodes /a and /b, then `abc` in /a and the Double in /b, one of the two first. Returns the size of the finished file.
static uint64_t file_in_order(struct writer *w, size_t length, size_t first) {
    static const struct {
        uint64_t node, kind;
        size_t length;
        uint8_t data[8];
    } puts[2] = {{1, AFF_CHAR, 3, {'a', 'b', 'c'}}, {2, AFF_DOUBLE, 8, {0x3f, 0xf0}}};
    reset(w, length, 0x55);
    CHECK(begin(w, 1) == AFF_OK && make(w, 0, "a") == AFF_OK && make(w, 0, "b") == AFF_OK);
    for (size_t k = 0; k < 2; k++) {
        size_t next = (first + k) % 2;
        CHECK(aff_put(WRITER(w), puts[next].node, puts[next].kind, puts[next].data, puts[next].length, UINT64_MAX) == AFF_OK);
    }
    CHECK(finish(w, UINT64_MAX) == AFF_OK && w->numbers[0] == 222);
    return finished(w);
}

// Both files show the same nodes, though sizes and places differ. The file with `abc` first is samples/aligned.aff, which a buffer of 237 does not hold; it
// holds the other one.
static void put_orders(const uint8_t *aligned) {
    static struct writer w[2];
    static const size_t sizes[2] = {ALIGNED, DOUBLE_FIRST};
    static const uint64_t places[2][3] = {{0, 168, 176}, {0, 176, 168}};
    static const struct node expected[3] = {{AFF_VOID, 0, 0, 1, 0, "", "/", ""}, {AFF_CHAR, 3, 1, 2, 3, "a", "/a", "abc"},
        {AFF_DOUBLE, 1, 1, 2, 8, "b", "/b", {0x3f, 0xf0}}};
    struct node nodes[2][3];
    uint64_t kind = 77;
    for (size_t first = 0; first < 2; first++) {
        CHECK(file_in_order(&w[first], ALIGNED, first) == sizes[first]);
        CHECK(open_image(w[first].buffer, sizes[first]) == AFF_OK && record[2] == edition && record[10] == 2);
        for (uint64_t n = 0; n < 3; n++) {
            CHECK(read_node(w[first].buffer, sizes[first], n, &nodes[first][n]) == places[first][n]);
        }
        CHECK(aff_kind(OPENED(w[first].buffer, sizes[first]), 3, &kind) == AFF_ERR_NOT_FOUND && kind == 77);
    }
    for (size_t n = 0; n < 3; n++) {
        CHECK(memcmp(&nodes[0][n], &nodes[1][n], sizeof nodes[0][n]) == 0 && memcmp(&nodes[0][n], &expected[n], sizeof expected[n]) == 0);
    }
    CHECK(edition == 3 || memcmp(w[0].buffer, aligned, ALIGNED) == 0);
    CHECK(w[1].buffer[DOUBLE_FIRST] == 0x55 && file_in_order(&w[1], ALIGNED - 1, 1) == DOUBLE_FIRST);
}

// ---- Editions

// An edition that is not written: begin returns 3, after 1 and before 21 and 23, and leaves a record of zeros and everything else as it was. Later calls
// return 24.
static void unwritten_editions(void) {
    static struct writer w, before;
    static const uint32_t unwritten[] = {0, 1, 4, 5, 256 + 2, UINT32_MAX};
    static const size_t lengths[] = {0, 143, 144, 167, 168, BUFFER};
    for (size_t k = 0; k < sizeof unwritten / sizeof *unwritten; k++) {
        for (size_t i = 0; i < sizeof lengths / sizeof *lengths; i++) {
            reset(&w, lengths[i], 0x44);
            memcpy(&before, &w, sizeof before);
            memset(before.numbers, 0, sizeof before.numbers);
            memset(before.kept, 0, sizeof before.kept);
            for (uint64_t allowance = 0; allowance <= 1; allowance++) {
                w.numbers[2] = edition;
                CHECK(begin_edition(&w, unwritten[k], AFF_FORM, allowance) == AFF_ERR_SIGNATURE && memcmp(&before, &w, sizeof w) == 0);
                CHECK(make(&w, 0, "a") == AFF_ERR_MISMATCH && put(&w, 0, AFF_INT, 0, 0) == AFF_ERR_MISMATCH && finish(&w, 0) == AFF_ERR_MISMATCH);
                CHECK(begin_edition(&w, unwritten[k], AFF_FORM - 1, allowance) == AFF_ERR_LENGTH && memcmp(&before, &w, sizeof w) == 0);
            }
        }
        two_nodes(&w, BUFFER);
        memcpy(&before, &w, sizeof before);
        memset(before.numbers, 0, sizeof before.numbers);
        memset(before.kept, 0, sizeof before.kept);
        CHECK(begin_edition(&w, unwritten[k], AFF_FORM, 1) == AFF_ERR_SIGNATURE && memcmp(&before, &w, sizeof w) == 0);
    }
}

// A record whose edition is none of the written ones is 24, also one above 32 bits. With the other written edition it is a record of that edition.
static void recorded_editions(void) {
    static struct writer w;
    static const uint64_t wrong[] = {0, 1, 4, 5, 256 + 2, UINT32_MAX, (uint64_t)1 << 32, (uint64_t)1 << 32 | 2, (uint64_t)1 << 32 | 3, UINT64_MAX};
    uint32_t other = 5 - edition;
    two_nodes(&w, BUFFER);
    for (size_t k = 0; k < sizeof wrong / sizeof *wrong; k++) {
        for (uint64_t flag = 0; flag <= 1; flag++) {
            w.numbers[2] = wrong[k];
            w.numbers[7] = flag;
            REFUSED(&w, AFF_ERR_MISMATCH, make(&w, 0, "c"));
            REFUSED(&w, AFF_ERR_MISMATCH, put(&w, 1, AFF_INT, 4, 0));
            REFUSED(&w, AFF_ERR_MISMATCH, finish(&w, 0));
        }
    }
    w.numbers[2] = other;
    CHECK(make(&w, 0, "9") == (uint32_t)(other == 3 ? AFF_OK : AFF_ERR_NAME) && make(&w, 1, "c") == AFF_OK && w.numbers[2] == other);
    CHECK(finish(&w, UINT64_MAX) == AFF_OK && open_image(w.buffer, BUFFER) == AFF_OK && record[2] == other && record[10] == (other == 3 ? 4 : 3));
}

// The 12 bytes of each edition; there is no other edition, and no shorter output.
static void forms(const uint8_t *worked) {
    static const uint32_t none[] = {0, 4, 5, 256 + 2, UINT32_MAX};
    uint8_t bytes[AFF_FORM + 1], before[AFF_FORM + 1], image[WORKED], found[AFF_FORM];
    memset(bytes, 0x77, sizeof bytes);
    memset(before, 0x77, sizeof before);
    for (size_t k = 0; k < sizeof none / sizeof *none; k++) {
        CHECK(!aff_form(none[k], bytes, AFF_FORM) && !aff_form(none[k], NULL, 0) && memcmp(bytes, before, sizeof bytes) == 0);
    }
    for (uint32_t e = 1; e <= 3; e++) {
        for (size_t length = 0; length < AFF_FORM; length++) {
            CHECK(!aff_form(e, bytes, length) && memcmp(bytes, before, sizeof bytes) == 0);
        }
        CHECK(!aff_form(e, NULL, 0));
        for (size_t length = AFF_FORM; length <= AFF_FORM + 1; length++) {
            CHECK(aff_form(e, bytes, length) && memcmp(bytes, form, AFF_FORM - 1) == 0 && bytes[AFF_FORM] == 0x77);
            CHECK(bytes[AFF_FORM - 1] == (e == 1 ? 144 : 168));
        }
        memcpy(image, worked, WORKED);
        image[17] = (uint8_t)('0' + e);
        CHECK(aff_form_for(image, WORKED, found, AFF_FORM) && memcmp(found, bytes, AFF_FORM) == 0);
        memset(bytes, 0x77, sizeof bytes);
    }
}

// ---- Null pointers with length 0, and other lengths

// A lookup that is refused: the number and the place, which is written in every case. The node is unchanged.
static void looked_up(const uint8_t *image, size_t length, const char *path, size_t path_length, uint32_t expected, uint64_t place) {
    uint64_t n = 77, found = 77;
    CHECK(aff_lookup(OPENED(image, length), (const uint8_t *)path, path_length, &n, &found) == expected);
    CHECK(n == 77 && found == place);
}

static void null_reading(const uint8_t *worked) {
    uint8_t bytes[AFF_FORM + 1] = {0};
    uint64_t n = 77, size = 77, place = 77, numbers[AFF_RECORD + 1], before[AFF_RECORD + 1];
    double value = 77, imaginary = 77;
    CHECK(aff_form_for(NULL, 0, bytes, AFF_FORM) && memcmp(bytes, form, AFF_FORM) == 0 && !aff_form_for(worked, WORKED, NULL, 0));
    CHECK(!aff_form_for(worked, WORKED, bytes + 1, 11) && memcmp(bytes, form, AFF_FORM) == 0);
    memset(numbers, 0x66, sizeof numbers);
    memcpy(before, numbers, sizeof before);
    CHECK(aff_open_image(NULL, 0, NULL, 0, NULL, 0, NULL, 0, NULL, 0) == AFF_ERR_ARGUMENT);
    for (size_t length = 0; length < AFF_RECORD; length++) {
        CHECK(aff_open_image(worked, WORKED, form, AFF_FORM, strings, AFF_STRINGS, entries, AFF_ENTRIES, numbers, length) == AFF_ERR_ARGUMENT);
        CHECK(memcmp(before, numbers, sizeof before) == 0);
    }
    CHECK(aff_open_image(worked, WORKED, form, AFF_FORM, strings, AFF_STRINGS, entries, AFF_ENTRIES, numbers, AFF_RECORD + 1) == AFF_OK);
    CHECK(numbers[1] == WORKED && numbers[10] == 2 && numbers[12] == 0 && numbers[13] == 0x6666666666666666);
    numbers[12] = 77;
    CHECK(aff_open_image(NULL, 0, NULL, 0, NULL, 0, NULL, 0, numbers, AFF_RECORD) == AFF_ERR_LENGTH && numbers[1] == 0 && numbers[12] == 0);
    CHECK(open_image(NULL, 0) == AFF_ERR_SHORT && strings[0] == 0 && entries[0] == 0);
    CHECK(open_image(worked, WORKED) == AFF_OK && strings[1] == 174 && entries[1] == 189 && strings[2] == 0);
    CHECK(aff_lookup(OPENED(worked, WORKED), NULL, 0, &n, &place) == AFF_ERR_NAME && n == 77 && place == 0);
    looked_up(NULL, 0, "/", 1, AFF_ERR_MISMATCH, 0);
    looked_up(NULL, 0, "/9", 2, AFF_ERR_MISMATCH, 0);
    place = 77;
    CHECK(aff_lookup(worked, WORKED, record, NULL, 0, entries, AFF_ENTRIES, (const uint8_t *)"/", 1, &n, &place) == AFF_ERR_MISMATCH && n == 77 && place == 0);
    CHECK(aff_count(worked, WORKED, record, strings, AFF_STRINGS, NULL, 0, 2, &n) == AFF_ERR_MISMATCH && n == 77);
    CHECK(aff_name(OPENED(NULL, 0), 0, &n, &size) == AFF_ERR_MISMATCH && aff_view(OPENED(NULL, 0), 0, &n, &size) == AFF_ERR_MISMATCH);
    CHECK(aff_kind(OPENED(NULL, 0), 0, &n) == AFF_ERR_MISMATCH && aff_element(OPENED(NULL, 0), 2, 0, &value, &imaginary) == AFF_ERR_MISMATCH);
    CHECK(aff_listing(OPENED(NULL, 0), true, NULL, 0, &n) == AFF_ERR_MISMATCH && aff_listing(OPENED(NULL, 0), false, NULL, 0, &n) == AFF_ERR_MISMATCH);
    CHECK(aff_listing(OPENED(worked, WORKED), true, NULL, 0, &n) == AFF_ERR_SPACE && aff_listing(OPENED(worked, WORKED), false, NULL, 0, &n) == AFF_ERR_SPACE);
    CHECK(aff_path(OPENED(worked, WORKED), 2, NULL, 0, &n) == AFF_ERR_SPACE);
    CHECK(aff_decode(AFF_INT, NULL, 0, 0, &value, &imaginary) == AFF_ERR_INDEX && value == 77 && imaginary == 77 && n == 77 && size == 77);
    CHECK(aff_lookup(OPENED(worked, WORKED), (const uint8_t *)"/a/n", 4, &n, &place) == AFF_OK && n == 2 && place == 0);
}

static void null_writing(void) {
    static struct writer w;
    reset(&w, BUFFER, 0);
    CHECK(aff_begin(edition, NULL, 0, form, AFF_FORM, w.text, AFF_TEXT, w.tree, AFF_TREE, 1, w.numbers, w.kept) == AFF_ERR_SPACE);
    CHECK(aff_begin(edition, w.buffer, BUFFER, NULL, 0, w.text, AFF_TEXT, w.tree, AFF_TREE, 1, w.numbers, w.kept) == AFF_ERR_LENGTH);
    CHECK(aff_begin(edition, w.buffer, BUFFER, form, AFF_FORM, NULL, 0, NULL, 0, 1, w.numbers, w.kept) == AFF_ERR_LENGTH);
    CHECK(begin(&w, 1) == AFF_OK && aff_make(WRITER(&w), 0, NULL, 0) == AFF_ERR_NAME && make(&w, 0, "a") == AFF_OK);
    CHECK(aff_make(NULL, 0, w.numbers, w.kept, w.text, AFF_TEXT, w.tree, AFF_TREE, 0, form, 1) == AFF_ERR_MISMATCH);
    CHECK(aff_make(w.buffer, BUFFER, w.numbers, w.kept, NULL, 0, NULL, 0, 0, form, 1) == AFF_ERR_MISMATCH);
    CHECK(aff_put(NULL, 0, w.numbers, w.kept, w.text, AFF_TEXT, w.tree, AFF_TREE, 1, AFF_INT, NULL, 0, 0) == AFF_ERR_MISMATCH);
    CHECK(aff_put(WRITER(&w), 1, AFF_INT, NULL, 0, 0) == AFF_OK && w.numbers[0] == 0);
    CHECK(aff_close(NULL, 0, w.numbers, w.kept, w.text, AFF_TEXT, w.tree, AFF_TREE, 0) == AFF_ERR_MISMATCH);
    CHECK(aff_close(w.buffer, BUFFER, w.numbers, w.kept, NULL, 0, NULL, 0, 0) == AFF_ERR_MISMATCH && finish(&w, UINT64_MAX) == AFF_OK);
    uint64_t kind = 0, count = 1;
    CHECK(open_image(w.buffer, BUFFER) == AFF_OK && aff_kind(OPENED(w.buffer, BUFFER), 1, &kind) == AFF_OK && kind == AFF_INT);
    CHECK(aff_count(OPENED(w.buffer, BUFFER), 1, &count) == AFF_OK && count == 0);
}

// ---- Outputs of exactly the length needed, and special numbers

// Listing order into outputs from no place to one more than needed. Refused, it changes nothing; accepted, it stores the numbers and leaves the rest.
static void listed(const uint8_t *image, size_t length, bool all, const uint32_t *expected, size_t needed) {
    for (size_t places = 0; places <= needed + 1; places++) {
        uint32_t order[8] = {9, 9, 9, 9, 9, 9, 9, 9};
        uint64_t count = 77;
        bool fits = needed <= places;
        CHECK(aff_listing(OPENED(image, length), all, order, places, &count) == (uint32_t)(fits ? AFF_OK : AFF_ERR_SPACE));
        CHECK(count == (fits ? needed : 77));
        for (size_t k = 0; k < 8; k++) {
            CHECK(order[k] == (fits && k < needed ? expected[k] : 9));
        }
    }
}

// The worked file; a Void node, a Double with no element and an Int below the Void node; Void nodes only; no node.
static void listings(const uint8_t *worked) {
    static struct writer w;
    CHECK(open_image(worked, WORKED) == AFF_OK);
    listed(worked, WORKED, true, (const uint32_t[]){0, 1, 2}, 3);
    listed(worked, WORKED, false, (const uint32_t[]){2}, 1);
    reset(&w, BUFFER, 0);
    CHECK(begin(&w, 1) == AFF_OK && make(&w, 0, "a") == AFF_OK && make(&w, 0, "b") == AFF_OK && make(&w, 1, "c") == AFF_OK);
    CHECK(put(&w, 2, AFF_DOUBLE, 0, 0) == AFF_OK && put(&w, 3, AFF_INT, 4, 4) == AFF_OK && finish(&w, UINT64_MAX) == AFF_OK);
    CHECK(open_image(w.buffer, BUFFER) == AFF_OK);
    listed(w.buffer, BUFFER, true, (const uint32_t[]){0, 1, 3, 2}, 4);
    listed(w.buffer, BUFFER, false, (const uint32_t[]){3, 2}, 2);
    for (int nodes = 2; 0 <= nodes; nodes -= 2) {
        uint64_t count = 77;
        reset(&w, BUFFER, 0);
        CHECK(begin(&w, 1) == AFF_OK && (nodes == 0 || (make(&w, 0, "a") == AFF_OK && make(&w, 1, "b") == AFF_OK)) && finish(&w, UINT64_MAX) == AFF_OK);
        CHECK(open_image(w.buffer, BUFFER) == AFF_OK);
        listed(w.buffer, BUFFER, true, (const uint32_t[]){0, 1, 2}, (size_t)nodes + 1);
        listed(w.buffer, BUFFER, false, NULL, 0);
        CHECK(aff_listing(OPENED(w.buffer, BUFFER), false, NULL, 0, &count) == AFF_OK && count == 0);
    }
}

static void outputs(const uint8_t *worked) {
    uint8_t path[5] = "xxxx";
    uint64_t n = 3;
    CHECK(open_image(worked, WORKED) == AFF_OK);
    CHECK(aff_path(OPENED(worked, WORKED), 2, path, 3, &n) == AFF_ERR_SPACE && n == 3 && path[0] == 'x');
    CHECK(aff_path(OPENED(worked, WORKED), 2, path, 5, &n) == AFF_OK && n == 4 && memcmp(path, "/a/n", 5) == 0);
    CHECK(aff_path(OPENED(worked, WORKED), 3, path, 5, &n) == AFF_ERR_NOT_FOUND && n == 4);
}

// ---- The last string without its zero

// All that is asked of node 2, whose name begins at some place: its name, its path, and lookup of it. The name is the expected one.
static void named(const uint8_t *image, size_t length, uint64_t place, const char *name) {
    uint64_t n = 77, offset = 77, size = 77, at = 77;
    uint8_t path[8] = "xxxxxxx", expected[8] = "/a/";
    size_t letters = strlen(name), whole = letters + 3;
    memcpy(expected + 3, name, letters);
    CHECK(aff_name(OPENED(image, length), 2, &offset, &size) == AFF_OK && offset == place && size == letters);
    CHECK(aff_path(OPENED(image, length), 2, path, whole - 1, &n) == AFF_ERR_SPACE && n == 77 && path[0] == 'x');
    CHECK(aff_path(OPENED(image, length), 2, path, 7, &n) == AFF_OK && n == whole && memcmp(path, expected, whole) == 0 && path[whole] == 'x');
    CHECK(aff_lookup(OPENED(image, length), expected, whole, &n, &at) == AFF_OK && n == 2 && at == 0);
    expected[whole] = 'b';
    looked_up(image, length, (const char *)expected, whole + 1, AFF_ERR_NOT_FOUND, 0);
    expected[whole] = '/';
    looked_up(image, length, (const char *)expected, whole + 1, AFF_ERR_NAME, whole + 1);
}

// The worked file without its last zero: the symbol section is from 172 to 174, and the tree table follows at once. Then the worked file again, with
// another byte in place of that zero and another place or size recorded: the name ends at the section's end, and a string that begins there is 24.
static void unterminated_names(const uint8_t *worked, const uint8_t *unterminated) {
    static uint8_t image[WORKED];
    uint64_t n = 77, size = 77;
    CHECK(open_image(unterminated, UNTERMINATED) == AFF_OK && record[3] == 172 && record[4] == 3 && record[5] == 175 && record[9] == 2 && strings[1] == 174);
    named(unterminated, UNTERMINATED, 174, "n");
    memcpy(image, worked, WORKED);
    CHECK(open_image(image, WORKED) == AFF_OK && record[4] == 4);
    named(image, WORKED, 174, "n");
    image[175] = 'a';
    named(image, WORKED, 174, "na");
    record[4] = 3;
    named(image, WORKED, 174, "n");
    strings[1] = 175;
    CHECK(aff_name(OPENED(image, WORKED), 2, &n, &size) == AFF_ERR_MISMATCH && aff_name(OPENED(image, WORKED), 0, &n, &size) == AFF_ERR_MISMATCH);
    record[4] = 4;
    named(image, WORKED, 175, "a");
    strings[1] = 176;
    CHECK(aff_name(OPENED(image, WORKED), 2, &n, &size) == AFF_ERR_MISMATCH);
    looked_up(image, WORKED, "/a", 2, AFF_ERR_MISMATCH, 0);
    looked_up(image, WORKED, "/a/", 3, AFF_ERR_MISMATCH, 0);
    strings[1] = 174;
    record[4] = 2;
    CHECK(aff_name(OPENED(image, WORKED), 1, &n, &size) == AFF_ERR_MISMATCH);
    record[4] = 0;
    CHECK(aff_name(OPENED(image, WORKED), 1, &n, &size) == AFF_ERR_MISMATCH && n == 77 && size == 77);
}

// ---- Places in malformed names and paths

static void places_in_paths(const uint8_t *worked) {
    static const struct malformed paths[] = {
        {"", 0, 0, 0}, {"a", 1, 0, 0}, {"a/n", 3, 0, 0}, {"9", 1, 0, 0}, {"\0", 1, 0, 0}, {"\377", 1, 0, 0}, {"//", 2, 1, 1}, {"//a", 3, 1, 1}, {"/\0", 2, 1, 1},
        {"/a\0", 3, 2, 2}, {"/a/", 3, 3, 3}, {"/a//n", 5, 3, 3}, {"/a/n/", 5, 5, 5}, {"/a b//", 6, 2, 5}, {"/\377/\n/", 5, 1, 5}, {"/9a", 3, 1, LAWFUL},
        {"/ ", 2, 1, LAWFUL}, {"/\377", 2, 1, LAWFUL}, {"/a b/9", 6, 2, LAWFUL}, {"/a\377/n", 5, 2, LAWFUL}, {"/a/9", 4, 3, LAWFUL}, {"/a/n b", 6, 4, LAWFUL},
        {"/momentum,1/x", 13, 9, LAWFUL}};
    static char path[65536];
    CHECK(open_image(worked, WORKED) == AFF_OK && record[2] == edition && record[12] == 0);
    // The recorded edition decides: each of the three passes 24, another does not.
    for (uint64_t e = 0; e <= 4; e++) {
        record[2] = e;
        bool exists = 0 < e && e < 4;
        for (size_t k = 0; k < sizeof paths / sizeof *paths; k++) {
            uint64_t place = place_in(&paths[k], e);
            uint32_t expected = !exists ? AFF_ERR_MISMATCH : place == LAWFUL ? AFF_ERR_NOT_FOUND : AFF_ERR_NAME;
            looked_up(worked, WORKED, paths[k].bytes, paths[k].length, expected, expected == AFF_ERR_NAME ? place : 0);
        }
    }
    record[2] = (uint64_t)1 << 32 | edition;
    looked_up(worked, WORKED, "/a", 2, AFF_ERR_MISMATCH, 0);
    record[2] = edition;
    for (int k = 0; k < ALL_NAMES; k++) {
        uint64_t place = place_in(&NAMES[k], edition);
        path[0] = '/';
        memcpy(path + 1, NAMES[k].bytes, NAMES[k].length);
        // After a slash a name has its fault one place later. Left out: no name, and names with a slash, which is a fault in a name only.
        if (place == LAWFUL) {
            looked_up(worked, WORKED, path, NAMES[k].length + 1, AFF_ERR_NOT_FOUND, 0);
        } else if (NAMES[k].length != 0 && NAMES[k].bytes[place] != '/') {
            looked_up(worked, WORKED, path, NAMES[k].length + 1, AFF_ERR_NAME, place + 1);
        }
    }
    memset(path, 'k', sizeof path);
    path[0] = '/';
    looked_up(worked, WORKED, path, sizeof path, AFF_ERR_NOT_FOUND, 0);
    path[sizeof path - 1] = 0;
    looked_up(worked, WORKED, path, sizeof path, AFF_ERR_NAME, sizeof path - 1);
    path[sizeof path - 1] = '/';
    looked_up(worked, WORKED, path, sizeof path, AFF_ERR_NAME, sizeof path);
}

// A file with the nodes /a and /a/abc, whose names are then others: the text area is altered before close, which does not look at names. By editions: the
// lowest node with a malformed name and the place in it, or 0 where all names are lawful.
static void second_numbers(void) {
    static struct writer w;
    static const struct {
        const char *first, *second;
        uint64_t narrow[2], wide[2];
    } cases[] = {{"a", "a b", {2, 1}, {0, 0}}, {"a", "9ab", {2, 0}, {0, 0}}, {"a", "ab,", {2, 2}, {0, 0}}, {"a", "a ,", {2, 1}, {0, 0}},
        {"a", "/ab", {2, 0}, {2, 0}}, {"a", "a/b", {2, 1}, {2, 1}}, {"a", " \n/", {2, 0}, {2, 2}}, {"a", "a\377b", {2, 1}, {0, 0}},
        {" ", "a b", {1, 0}, {0, 0}}, {" ", "a /", {1, 0}, {2, 2}}, {"/", "a/b", {1, 0}, {1, 0}}};
    for (size_t k = 0; k < sizeof cases / sizeof *cases; k++) {
        const uint64_t *expected = edition == 3 ? cases[k].wide : cases[k].narrow;
        reset(&w, BUFFER, 0);
        CHECK(begin(&w, 1) == AFF_OK && make(&w, 0, "a") == AFF_OK && make(&w, 1, "abc") == AFF_OK);
        memcpy(w.text, cases[k].first, 1);
        memcpy(w.text + 2, cases[k].second, 3);
        CHECK(finish(&w, UINT64_MAX) == AFF_OK);
        memset(record, 0x66, sizeof record);
        if (expected[0] == 0) {
            CHECK(open_image(w.buffer, BUFFER) == AFF_OK && record[0] == 0 && record[10] == 2 && record[12] == 0);
        } else {
            CHECK(open_image(w.buffer, BUFFER) == AFF_ERR_NODE && record[0] == expected[0] && record[12] == expected[1]);
            for (int i = 1; i < 12; i++) {
                CHECK(record[i] == 0);
            }
        }
        memset(record, 0x66, sizeof record);
        w.buffer[0] = 0;
        CHECK(open_image(w.buffer, BUFFER) == AFF_ERR_SIGNATURE && record[0] == 0 && record[12] == 0);
    }
}

// ---- Names that only edition 3 allows

// samples/wide_names.aff, made and read: names and paths are the bytes as they are.
static void wide_names(const uint8_t *expected) {
    static struct writer w;
    static const struct {
        uint64_t parent, kind;
        const char *name, *path;
        size_t length;
        uint8_t data[8];
    } nodes[] = {{0, AFF_VOID, "9a", "/9a", 0, {0}}, {1, AFF_DOUBLE, "p x=\377\\", "/9a/p x=\377\\", 8, {0x40, 0x0c}},
        {1, AFF_CHAR, "\n", "/9a/\n", 2, {'h', 'i'}}};
    reset(&w, WIDE, 0);
    CHECK(begin(&w, 1) == AFF_OK);
    for (uint64_t n = 1; n <= 3; n++) {
        CHECK(make(&w, nodes[n - 1].parent, nodes[n - 1].name) == AFF_OK && w.numbers[0] == n);
    }
    for (uint64_t n = 2; n <= 3; n++) {
        CHECK(aff_put(WRITER(&w), n, nodes[n - 1].kind, nodes[n - 1].data, nodes[n - 1].length, 8) == AFF_OK);
    }
    CHECK(finish(&w, UINT64_MAX) == AFF_OK && finished(&w) == WIDE && memcmp(w.buffer, expected, WIDE) == 0);
    CHECK(open_image(expected, WIDE) == AFF_OK && record[2] == 3 && record[10] == 3);
    for (uint64_t n = 1; n <= 3; n++) {
        uint64_t offset = 77, size = 77, found = 77, place = 77;
        const char *name = nodes[n - 1].name, *whole = nodes[n - 1].path;
        uint8_t path[16];
        CHECK(aff_name(OPENED(expected, WIDE), n, &offset, &size) == AFF_OK && size == strlen(name) && memcmp(expected + offset, name, size) == 0);
        CHECK(aff_path(OPENED(expected, WIDE), n, path, sizeof path, &size) == AFF_OK && size == strlen(whole) && memcmp(path, whole, size) == 0);
        CHECK(aff_lookup(OPENED(expected, WIDE), path, size, &found, &place) == AFF_OK && found == n && place == 0);
    }
    looked_up(expected, WIDE, "/9A", 3, AFF_ERR_NOT_FOUND, 0);
    looked_up(expected, WIDE, "/9a/\\x0a", 8, AFF_ERR_NOT_FOUND, 0);
    looked_up(expected, WIDE, "/9a/\n/", 6, AFF_ERR_NAME, 6);
    looked_up(expected, WIDE, "/9a/\0", 5, AFF_ERR_NAME, 4);
}

static void special_numbers(void) {
    static const uint64_t exact[] = {
        0, (uint64_t)1 << 63, 1, 0x000fffffffffffff, 0x8000000000000001, 0x7ff0000000000000, 0xfff0000000000000, 0x3ff0000000000000, 0xffefffffffffffff};
    static const uint64_t nans[] = {0x7ff0000000000001, 0x7ff8000000000000, 0xfff8000000000001, 0xffffffffffffffff};
    for (size_t k = 0; k < sizeof exact / 8 + sizeof nans / 8; k++) {
        bool nan = sizeof exact / 8 <= k;
        uint64_t bits = nan ? nans[k - sizeof exact / 8] : exact[k], found;
        uint8_t bytes[16] = {0};
        double value = 77, imaginary = 77;
        for (int i = 0; i < 8; i++) {
            bytes[i] = (uint8_t)(bits >> (56 - 8 * i));
        }
        CHECK(aff_decode(AFF_DOUBLE, bytes, 15, 0, &value, &imaginary) == AFF_OK && imaginary == 0);
        memcpy(&found, &value, 8);
        CHECK(nan ? value != value : found == bits);
        CHECK(aff_decode(AFF_COMPLEX, bytes, 16, 0, &value, &imaginary) == AFF_OK && imaginary == 0);
        memcpy(&found, &value, 8);
        CHECK(nan ? value != value : found == bits);
    }
    double value = 77, imaginary = 77;
    static const uint64_t kinds[] = {0, 6, 255, (uint64_t)1 << 32 | 3, UINT64_MAX};
    for (size_t k = 0; k < sizeof kinds / 8; k++) {
        CHECK(aff_decode(kinds[k], seventy, 4, 0, &value, &imaginary) == AFF_ERR_ARGUMENT);
    }
    CHECK(aff_decode(AFF_VOID, seventy, 4, 0, &value, &imaginary) == AFF_ERR_INDEX && aff_decode(AFF_INT, seventy, 4, 1, &value, &imaginary) == AFF_ERR_INDEX);
    CHECK(aff_decode(AFF_DOUBLE, seventy, 4, 0, &value, &imaginary) == AFF_ERR_INDEX && value == 77 && imaginary == 77);
    CHECK(aff_decode(AFF_INT, seventy, 4, 0, &value, &imaginary) == AFF_OK && value == -70 && imaginary == 0);
    CHECK(aff_decode(AFF_CHAR, seventy, 4, 3, &value, &imaginary) == AFF_OK && value == 186 && imaginary == 0);
}

// Reads at most `most` bytes of a file; returns how many.
static size_t loaded(const char *path, uint8_t *bytes, size_t most) {
    FILE *file = fopen(path, "rb");
    size_t got = file == NULL ? 0 : fread(bytes, 1, most, file);
    if (file != NULL) {
        fclose(file);
    }
    return got;
}

int main(int argc, char **argv) {
    static uint8_t samples[2][WORKED + 1], unterminated[UNTERMINATED + 1], wide[WIDE + 1], aligned[ALIGNED + 1];
    if (argc != 6 || loaded(argv[1], samples[0], WORKED + 1) != WORKED || loaded(argv[2], samples[1], WORKED + 1) != WORKED ||
        loaded(argv[3], unterminated, sizeof unterminated) != UNTERMINATED || loaded(argv[4], wide, sizeof wide) != WIDE ||
        loaded(argv[5], aligned, sizeof aligned) != ALIGNED) {
        fputs("usage: c_calls samples/worked.aff samples/worked3.aff samples/unterminated.aff samples/wide_names.aff samples/aligned.aff\n", stderr);
        return 2;
    }
    for (edition = 2; edition <= 3; edition++) {
        const uint8_t *worked = samples[edition - 2];
        drill(worked);
        refusals_of_writer();
        stops_of_writer();
        finished_size(worked);
        padded_file(aligned);
        recorded_ends();
        put_orders(aligned);
        unwritten_editions();
        recorded_editions();
        forms(worked);
        null_reading(worked);
        null_writing();
        listings(worked);
        outputs(worked);
        unterminated_names(worked, unterminated);
        places_in_paths(worked);
        second_numbers();
    }
    edition = 3;
    wide_names(wide);
    special_numbers();
    printf("refused calls of the writer that change numbers[0] and nothing else: %lu\n", refusals);
    printf("%lu checks, %lu failed\n", checks, failures);
    return failures != 0;
}
