// The program that bench/open.py and bench/second.py build and run.
// `open open FILE NUMBER SAMPLES BATCH` opens the image of edition 2 in a file, by the proved function of crates/aff_c, and prints the median time
// of an opening in seconds. `open both FILE NUMBER SAMPLES BATCH` also computes the MD5 digests of the image's three sections, by the function of
// crates/md5_c, and prints the median time of the three together before that of an opening. A sample is the processor time of BATCH calls in a row,
// divided by BATCH; samples of the two take turns. It fails where an opening does not hand back NUMBER: 0 for acceptance, else the
// refusal's. The file is mapped into memory.
#include "../include/aff.h"
#include "timing.h"

// From the static library of crates/md5_c.
bool md5_c_digest(const uint8_t *message, size_t message_length, uint8_t *output, size_t output_length);

static const uint8_t *image;
static size_t length;
static uint32_t expected, strings[2048], entries[2048];
static uint64_t record[AFF_RECORD];
static uint8_t form[12];

static uint64_t be64(const uint8_t *bytes) {
    uint64_t n = 0;
    for (int i = 0; i < 8; i++) {
        n = n << 8 | bytes[i];
    }
    return n;
}

static void open_once(void) {
    uint32_t number = aff_open_image(image, length, form, sizeof form, strings, 2048, entries, 2048, record, AFF_RECORD);
    if (number != expected) {
        fprintf(stderr, "handed back %u at %lu, not %u\n", number, (unsigned long)record[0], expected);
        exit(1);
    }
}

// Each digest is the one in the section's header.
static void digest_once(void) {
    uint8_t digest[16];
    for (int header = 32; header <= 112; header += 40) {
        md5_c_digest(image + be64(image + header), be64(image + header + 8), digest, sizeof digest);
        if (memcmp(digest, image + header + 24, sizeof digest) != 0) {
            fail("another digest than the header's");
        }
    }
}

int main(int argc, char **argv) {
    if (argc != 6 || (strcmp(argv[1], "open") != 0 && strcmp(argv[1], "both") != 0)) {
        fputs("usage: open open|both FILE NUMBER SAMPLES BATCH\n", stderr);
        return 2;
    }
    image = mapped(argv[2], &length);
    expected = (uint32_t)atoi(argv[3]);
    aff_form_for(image, length, form, sizeof form);
    int samples = atoi(argv[4]), batch = atoi(argv[5]);
    if (strcmp(argv[1], "open") == 0) {
        printf("%.9f\n", timed(samples, batch, open_once));
        return 0;
    }
    double *digests = space(samples), *openings = space(samples);
    for (int sample = 0; sample < samples; sample++) {
        digests[sample] = sampled(batch, digest_once);
        openings[sample] = sampled(batch, open_once);
    }
    printf("%.9f %.9f\n", median(digests, samples), median(openings, samples));
    return 0;
}
