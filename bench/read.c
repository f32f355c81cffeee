// The program that bench/read.py and bench/second.py build and run.
// `read CALL FILE KEYS SAMPLES BATCH` opens the image of edition 2 in a file and then makes one call again and again, by the proved functions of
// crates/aff_c. CALL is judge (the view of the root: 24 and nothing else), lookup, view, element, decode (of an element of a view that was taken
// before), whole (a view, and the decoding of all its elements), order (listing order of all nodes, which must be that of the numbers) or short
// (listing order of the nodes that are not Void, which must be those of the keys, in their order). KEYS is a file of lines `NODE PATH`, which the
// calls take in turn; NODE is 0 where no node has the path, and only lookup takes such. Element j of node n is n + j / 1024, and a node with data
// has 64. A sample is the processor time of BATCH calls in a row, divided by BATCH. It prints the median in seconds, and fails where an answer is
// another.
#include "../include/aff.h"
#include "timing.h"

enum { KEYS = 4096, COUNT = 64, ABSENT = 15 };

static const uint8_t *image;
static size_t length;
static uint64_t record[AFF_RECORD];
static uint32_t strings[2048], entries[2048];
#define PASSED image, length, record, strings, 2048, entries, 2048

static struct {
    uint64_t node, offset, size;
    char *path;
    size_t path_length;
} keys[KEYS];

static char which;
static size_t count, k;

// Whether element `index` of a view of a key's node is decoded as expected.
static bool decodes(uint64_t node, uint64_t offset, uint64_t size, uint64_t index) {
    double value = 0, imaginary = 1;
    return aff_decode(AFF_DOUBLE, image + offset, size, index, &value, &imaginary) == 0 && value == node + index / 1024.0 && imaginary == 0;
}

// Whether listing order is that of the numbers of all nodes, or has the nodes of the keys.
static bool ordered(bool all) {
    static uint32_t output[2049];
    uint64_t listed = 0;
    memset(output, 0xff, sizeof output);
    bool right = aff_listing(PASSED, all, output, 2049, &listed) == 0 && listed == (all ? record[10] + 1 : count);
    for (uint64_t i = 0; right && i < listed; i++) {
        right = output[i] == (all ? i : keys[i].node);
    }
    return right;
}

// One call for key k. True where the answer is the expected one.
static bool call(uint64_t index) {
    uint64_t node = 0, place = 1, offset = 1, size = 1;
    double value = 0, imaginary = 1;
    switch (which) {
    case 'j':
        return aff_view(PASSED, 0, &offset, &size) == 0 && offset == 0 && size == 0;
    case 'l':
        return aff_lookup(PASSED, (const uint8_t *)keys[k].path, keys[k].path_length, &node, &place) == (keys[k].node == 0 ? ABSENT : 0) &&
               node == keys[k].node && place == 0;
    case 'v':
        return aff_view(PASSED, keys[k].node, &offset, &size) == 0 && offset == keys[k].offset && size == keys[k].size;
    case 'e':
        return aff_element(PASSED, keys[k].node, index, &value, &imaginary) == 0 && value == keys[k].node + index / 1024.0 && imaginary == 0;
    case 'w': {
        bool right = aff_view(PASSED, keys[k].node, &offset, &size) == 0 && size == 8 * COUNT;
        for (uint64_t j = 0; right && j < COUNT; j++) {
            right = decodes(keys[k].node, offset, size, j);
        }
        return right;
    }
    case 'o':
        return ordered(true);
    case 's':
        return ordered(false);
    default:
        return decodes(keys[k].node, keys[k].offset, keys[k].size, index);
    }
}

// Keys and elements come in turn.
static void call_once(void) {
    static uint64_t index;
    if (!call(index)) {
        fail("another answer than expected");
    }
    k = k + 1 < count ? k + 1 : 0;
    index = (index + 1) % COUNT;
}

static void load(const char *path) {
    static char line[32768];
    FILE *list = fopen(path, "r");
    if (list == NULL) {
        fail("the keys cannot be read");
    }
    while (count < KEYS && fscanf(list, "%lu %32767s", &keys[count].node, line) == 2) {
        keys[count].path = strdup(line);
        keys[count].path_length = strlen(line);
        if (keys[count].node != 0 && aff_view(PASSED, keys[count].node, &keys[count].offset, &keys[count].size) != 0) {
            fail("a view is refused");
        }
        count++;
    }
    if (count == 0) {
        fail("there is no key");
    }
}

int main(int argc, char **argv) {
    if (argc != 6 || strchr("jlvedwos", argv[1][0]) == NULL) {
        fputs("usage: read judge|lookup|view|element|decode|whole|order|short FILE KEYS SAMPLES BATCH\n", stderr);
        return 2;
    }
    which = argv[1][0];
    image = mapped(argv[2], &length);
    uint8_t form[12];
    aff_form_for(image, length, form, sizeof form);
    if (aff_open_image(image, length, form, sizeof form, strings, 2048, entries, 2048, record, AFF_RECORD) != 0) {
        fail("the image is refused");
    }
    load(argv[3]);
    printf("%.12f\n", timed(atoi(argv[4]), atoi(argv[5]), call_once));
    return 0;
}
