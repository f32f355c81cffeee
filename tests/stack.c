// The stack that each call of include/aff.h needs: `stack [-s BYTES] IMAGE...` runs every call in a thread with a stack of BYTES (327,680 where none
// is given) in memory of its own, above a page that cannot be touched. The stack is filled with a pattern before each call; what a call needs is
// counted from the frame of its caller down to the lowest byte that changed. An image is a chain of nodes: the calls are made for its last node in
// listing order, the deepest, which has data. The writer makes a chain of 2,048 nodes, each below the last, in both written editions; its files are read
// too.
// It prints a line for each call, `NAME BYTES`, the most over all chains; for aff_listing a line for each choice, `NAME, CHOICE BYTES`. The exit status is
// 1 where that is above 262,144, or where a call is refused.
#define _GNU_SOURCE
#include "aff.h"
#include <pthread.h>
#include <signal.h>
#include <stdio.h>
#include <stdlib.h>
#include <string.h>
#include <sys/mman.h>
#include <unistd.h>

enum { NODES = 2048, LIMIT = 262144, PAGE = 4096, PATTERN = 0xa5, BUFFER = 1 << 20, PADDING = 7 };

static uint8_t *stack;
static size_t stack_size = 327680;

static void fail(const char *what) {
    fprintf(stderr, "%s\n", what);
    exit(1);
}

// ---- One call in a thread

struct call {
    const char *name;
    uint32_t (*make)(void);
    size_t most;
};

static const struct call *running;
static uint32_t answer;
static uint8_t *frame;

static void overflow(int signal) {
    (void)signal;
    static const char text[] = ": needs more stack than there is\n";
    ssize_t done = write(2, running->name, strlen(running->name));
    done += write(2, text, sizeof text - 1);
    _exit(done < 0 ? 2 : 1);
}

static void *run(void *alternate) {
    stack_t other = {.ss_sp = alternate, .ss_size = (size_t)SIGSTKSZ};
    sigaltstack(&other, NULL);
    frame = __builtin_frame_address(0);
    // The stack below this frame is filled again: starting the thread may have used more of it than the call does.
    memset(stack, PATTERN, (size_t)(frame - stack) - 1024);
    answer = running->make();
    return NULL;
}

static void measure(struct call *call) {
    pthread_attr_t how;
    pthread_t thread;
    void *alternate = malloc((size_t)SIGSTKSZ);
    running = call;
    memset(stack, PATTERN, stack_size);
    if (alternate == NULL || pthread_attr_init(&how) != 0 || pthread_attr_setstack(&how, stack, stack_size) != 0 ||
        pthread_create(&thread, &how, run, alternate) != 0 || pthread_join(thread, NULL) != 0) {
        fail("no thread with that stack");
    }
    pthread_attr_destroy(&how);
    free(alternate);
    size_t untouched = 0;
    while (untouched < stack_size && stack[untouched] == PATTERN) {
        untouched++;
    }
    size_t used = (size_t)(frame - (stack + untouched));
    call->most = call->most < used ? used : call->most;
    if (answer != AFF_OK) {
        fprintf(stderr, "%s: refused with %u\n", call->name, answer);
        exit(1);
    }
}

static void make_stack(void) {
    uint8_t *memory = mmap(NULL, stack_size + PAGE, PROT_READ | PROT_WRITE, MAP_PRIVATE | MAP_ANONYMOUS, -1, 0);
    struct sigaction action = {.sa_handler = overflow, .sa_flags = SA_ONSTACK};
    if (memory == MAP_FAILED || mprotect(memory, PAGE, PROT_NONE) != 0 || sigaction(SIGSEGV, &action, NULL) != 0) {
        fail("no memory for the stack");
    }
    stack = memory + PAGE;
}

// ---- Opening and reading

static const uint8_t *image;
static size_t length;
static uint8_t form[AFF_FORM], *path;
static uint64_t record[AFF_RECORD], node, kind, number, other, path_length;
static uint32_t strings[AFF_STRINGS], entries[AFF_ENTRIES], order[NODES + 1];
static double value, imaginary;

#define OPENED image, length, record, strings, AFF_STRINGS, entries, AFF_ENTRIES

static uint32_t call_form_for(void) {
    return aff_form_for(image, length, form, sizeof form) ? AFF_OK : AFF_ERR_ARGUMENT;
}

static uint32_t call_open_image(void) {
    return aff_open_image(image, length, form, sizeof form, strings, AFF_STRINGS, entries, AFF_ENTRIES, record, AFF_RECORD);
}

static uint32_t call_listing(void) {
    uint64_t count = 0;
    uint32_t found = aff_listing(OPENED, false, order, NODES + 1, &count);
    node = count == 0 ? 0 : order[count - 1];
    return found;
}

static uint32_t call_listing_all(void) {
    uint32_t found = aff_listing(OPENED, true, order, NODES + 1, &number);
    return found == AFF_OK && order[number - 1] != node ? (uint32_t)AFF_ERR_NOT_FOUND : found;
}

static uint32_t call_name(void) {
    return aff_name(OPENED, node, &number, &other);
}

static uint32_t call_kind(void) {
    return aff_kind(OPENED, node, &kind);
}

static uint32_t call_count(void) {
    return aff_count(OPENED, node, &number);
}

static uint32_t call_path(void) {
    return aff_path(OPENED, node, path, BUFFER, &path_length);
}

static uint32_t call_lookup(void) {
    uint32_t found = aff_lookup(OPENED, path, path_length, &number, &other);
    return found == AFF_OK && number != node ? (uint32_t)AFF_ERR_NOT_FOUND : found;
}

static uint32_t call_element(void) {
    return aff_element(OPENED, node, 0, &value, &imaginary);
}

static uint32_t call_view(void) {
    return aff_view(OPENED, node, &number, &other);
}

static uint32_t call_decode(void) {
    return aff_decode(kind, image + number, other, 0, &value, &imaginary);
}

// In an order in which each call finds what it needs.
static struct call reading[] = {
    {"aff_form_for", call_form_for, 0},
    {"aff_open_image", call_open_image, 0},
    {"aff_listing, nodes that are not Void", call_listing, 0},
    {"aff_listing, all nodes", call_listing_all, 0},
    {"aff_name", call_name, 0},
    {"aff_kind", call_kind, 0},
    {"aff_count", call_count, 0},
    {"aff_path", call_path, 0},
    {"aff_lookup", call_lookup, 0},
    {"aff_element", call_element, 0},
    {"aff_view", call_view, 0},
    {"aff_decode", call_decode, 0},
};

static void read_chain(const char *what) {
    for (size_t k = 0; k < sizeof reading / sizeof *reading; k++) {
        measure(&reading[k]);
    }
    if (record[10] != NODES || order[0] != 0 || path_length != 2 * NODES) {
        fprintf(stderr, "%s is no chain of %d nodes with names of one byte\n", what, NODES);
        exit(1);
    }
}

// ---- Writing

static uint32_t edition;
static uint8_t buffer[BUFFER], text[AFF_TEXT], tree[AFF_TREE], kept[AFF_FORM];
static uint64_t numbers[AFF_NUMBERS];
static const uint8_t data[16] = {0x3f, 0xf0, 0, 0, 0, 0, 0, 0, 0xbf, 0xf0};

#define WRITER buffer, BUFFER, numbers, kept, text, AFF_TEXT, tree, AFF_TREE

static uint32_t call_form(void) {
    return aff_form(edition, form, sizeof form) ? AFF_OK : AFF_ERR_ARGUMENT;
}

static uint32_t call_begin(void) {
    return aff_begin(edition, buffer, BUFFER, form, AFF_FORM, text, AFF_TEXT, tree, AFF_TREE, UINT64_MAX, numbers, kept);
}

static uint32_t call_make(void) {
    return aff_make(WRITER, numbers[5], (const uint8_t *)"x", 1);
}

static uint32_t call_put(void) {
    bool first = numbers[5] == 1;
    uint32_t found = aff_put(WRITER, numbers[5], first ? AFF_CHAR : AFF_COMPLEX, data, first ? 1 : sizeof data, UINT64_MAX);
    return found == AFF_OK && numbers[5] == 2 && numbers[0] != sizeof data + PADDING ? (uint32_t)AFF_ERR_NOT_FOUND : found;
}

static uint32_t call_close(void) {
    return aff_close(WRITER, UINT64_MAX);
}

static struct call writing[] = {
    {"aff_form", call_form, 0}, {"aff_begin", call_begin, 0}, {"aff_make", call_make, 0}, {"aff_put", call_put, 0}, {"aff_close", call_close, 0}};

// A put to every node, the first of one Char, so that the second stores padding; the calls are measured for the first two nodes, one in the middle and the
// last.
static void write_chain(uint32_t of_edition) {
    edition = of_edition;
    measure(&writing[0]);
    measure(&writing[1]);
    for (size_t k = 1; k <= NODES; k++) {
        bool measured = k <= 2 || k == NODES / 2 || k == NODES;
        for (int call = 2; call <= 3; call++) {
            if (measured) {
                measure(&writing[call]);
            } else if (writing[call].make() != AFF_OK) {
                fail("the writer refuses a call");
            }
        }
    }
    measure(&writing[4]);
    image = buffer;
    length = BUFFER;
    read_chain("the writer's file");
}

// ---- The program

static void load(const char *name) {
    static uint8_t bytes[BUFFER];
    FILE *file = fopen(name, "rb");
    if (file == NULL) {
        perror(name);
        exit(1);
    }
    image = bytes;
    length = fread(bytes, 1, BUFFER, file);
    fclose(file);
}

static bool report(const struct call *calls, size_t count) {
    bool within = true;
    for (size_t k = 0; k < count; k++) {
        printf("%s %zu\n", calls[k].name, calls[k].most);
        within = within && calls[k].most <= LIMIT;
    }
    return within;
}

int main(int argc, char **argv) {
    int first = 1;
    if (2 < argc && strcmp(argv[1], "-s") == 0) {
        stack_size = strtoul(argv[2], NULL, 10) / PAGE * PAGE;
        first = 3;
    }
    if (argc <= first || stack_size < 16 * PAGE) {
        fputs("usage: stack [-s BYTES] IMAGE...\n", stderr);
        return 2;
    }
    path = malloc(BUFFER);
    if (path == NULL) {
        fail("no memory for a path");
    }
    make_stack();
    for (int k = first; k < argc; k++) {
        load(argv[k]);
        read_chain(argv[k]);
    }
    write_chain(2);
    write_chain(3);
    bool within = report(reading, sizeof reading / sizeof *reading);
    within = report(writing, sizeof writing / sizeof *writing) && within;
    free(path);
    if (!within) {
        fprintf(stderr, "a call needs more than %d bytes of stack\n", LIMIT);
    }
    return !within;
}
