// The program that bench/write.py and bench/second.py build and run.
// `write CALL TREE FILE SAMPLES BATCH` makes a file by the proved functions of crates/aff_c, writes it to FILE, and then makes one call again and
// again. TREE is a file of lines `PARENT NAME FULL`, one a node in the order of making; a node whose FULL is 1 gets 64 Doubles, element j of node n
// being n + j / 1024. CALL is build (begin, make and put for each node, close), make (the last node), put (the data of the last node), judge (a put to
// the root, which is 24 and then 18) or close, in edition 2; with a 3 at its end, as build3, it is in edition 3. Before each make, put and close the record
// and what the call changed of the tree area are as they were. A sample is the processor time of BATCH calls in a row, divided by BATCH. It prints the
// median in seconds, and fails where an answer is another.
#include "../include/aff.h"
#include "timing.h"

enum { NODES = 2048, COUNT = 64, SLOT = 25, HEADER = 168, BUFFER_SIZE = 2 << 20, TAKEN = 18 };

static uint32_t edition;
static uint8_t form[AFF_FORM], buffer[BUFFER_SIZE], text[AFF_TEXT], tree[AFF_TREE], kept[AFF_FORM];
static uint64_t numbers[AFF_NUMBERS];
#define PASSED buffer, BUFFER_SIZE, numbers, kept, text, AFF_TEXT, tree, AFF_TREE

static struct {
    uint64_t parent;
    char name[32];
    size_t length;
    int full;
    uint8_t data[8 * COUNT];
} nodes[NODES];
static size_t count;

static void expect(int right) {
    if (!right) {
        fail("another answer than expected");
    }
}

static void begin(void) {
    expect(aff_begin(edition, buffer, BUFFER_SIZE, form, sizeof form, text, AFF_TEXT, tree, AFF_TREE, 1, numbers, kept) == 0);
}

static void make(size_t k) {
    expect(aff_make(PASSED, nodes[k].parent, (const uint8_t *)nodes[k].name, nodes[k].length) == 0 && numbers[0] == k + 1);
}

// 64 Doubles are a multiple of 8 bytes, so no put of these trees stores padding.
static void put(size_t k) {
    expect(aff_put(PASSED, k + 1, AFF_DOUBLE, nodes[k].data, sizeof nodes[k].data, UINT64_MAX) == 0 && numbers[0] == sizeof nodes[k].data);
}

static void finish(void) {
    expect(aff_close(PASSED, UINT64_MAX) == 0 && numbers[7] == 0);
}

// The file but for what the call that is measured does: the making of the last node, its data, or closing.
static void build(char which) {
    begin();
    for (size_t k = 0; k < count; k++) {
        if (which == 'm' && k + 1 == count) {
            return;
        }
        make(k);
        if (nodes[k].full && !(which == 'p' && k + 1 == count)) {
            put(k);
        }
    }
}

static char which;
static uint64_t before[AFF_NUMBERS];
static uint8_t slot[SLOT], *last;

static void call_once(void) {
    memcpy(numbers, before, sizeof before);
    memcpy(last, slot, SLOT);
    switch (which) {
    case 'b':
        build('b');
        finish();
        break;
    case 'm':
        make(count - 1);
        break;
    case 'p':
        put(count - 1);
        break;
    case 'j':
        expect(aff_put(PASSED, 0, AFF_DOUBLE, form, 0, 0) == TAKEN);
        break;
    default:
        finish();
    }
}

static void load(const char *path) {
    FILE *list = fopen(path, "r");
    expect(list != NULL);
    while (count < NODES && fscanf(list, "%lu %31s %d", &nodes[count].parent, nodes[count].name, &nodes[count].full) == 3) {
        nodes[count].length = strlen(nodes[count].name);
        for (size_t j = 0; j < COUNT; j++) {
            double value = (double)(count + 1) + (double)j / 1024;
            uint64_t bits;
            memcpy(&bits, &value, 8);
            for (size_t i = 0; i < 8; i++) {
                nodes[count].data[8 * j + i] = (uint8_t)(bits >> (56 - 8 * i));
            }
        }
        count++;
    }
    expect(count > 0 && nodes[count - 1].full);
}

// The file that close has finished: up to the end of data, and after it what close stored, but for the header, which is at the front.
static void save(const char *path) {
    size_t size = numbers[6] + numbers[0] - HEADER;
    FILE *file = fopen(path, "wb");
    expect(file != NULL && fwrite(buffer, 1, size, file) == size && fclose(file) == 0);
}

int main(int argc, char **argv) {
    if (argc != 6 || strchr("bmpjc", argv[1][0]) == NULL) {
        fputs("usage: write build|make|put|judge|close[3] TREE FILE SAMPLES BATCH\n", stderr);
        return 2;
    }
    which = argv[1][0];
    edition = argv[1][strlen(argv[1]) - 1] == '3' ? 3 : 2;
    expect(aff_form(edition, form, sizeof form));
    load(argv[2]);
    build('b');
    finish();
    save(argv[3]);
    build(which);
    memcpy(before, numbers, sizeof before);
    last = tree + SLOT * (count - 1);
    memcpy(slot, last, SLOT);
    printf("%.12f\n", timed(atoi(argv[4]), atoi(argv[5]), call_once));
    return 0;
}
