/* The rounds of `isotope bench IMAGE SEED COUNT`, by the calls of isotope.h: two clients read and write two blocks crosswise. The image is
 * the same to the byte, and so are the sums that it prints.     bench IMAGE SEED COUNT */
#include "isotope.h"
#include <stdio.h>
#include <stdlib.h>
#include <time.h>

static uint64_t state;
static uint32_t draw(uint32_t below) {
    state = state * UINT64_C(6364136223846793005) + UINT64_C(1442695040888963407);
    return (uint32_t)(state >> 32) % below;
}

static long commits, conflicts;

/* Whether a status is none that the bench may meet. */
static int is_bad(int status) {
    commits += status == ISOTOPE_OK;
    conflicts += status == ISOTOPE_CONFLICT;
    return status != ISOTOPE_OK && status != ISOTOPE_CONFLICT;
}

static int round_fails(isotope_device device) {
    uint32_t p = draw(64), q = draw(64), i = draw(16), j = draw(16);
    uint8_t v = (uint8_t)draw(256), w = (uint8_t)draw(256), bytes[4];
    isotope_transaction first, second;
    return isotope_begin(device, ISOTOPE_IMAGE_MODE, &first, NULL) || isotope_begin(device, ISOTOPE_IMAGE_MODE, &second, NULL)
        || isotope_get(device, first, p, 4 * i, bytes, 4) || isotope_put(device, first, q, 4 * j, &v, 1)
        || isotope_get(device, second, q, 4 * i, bytes, 4) || isotope_put(device, second, p, 4 * i, &w, 1)
        || is_bad(isotope_end(device, first, NULL)) || is_bad(isotope_end(device, second, NULL));
}

int main(int argc, char **argv) {
    const isotope_geometry geometry = {64, 64, 8388608, ISOTOPE_SERIAL, 0, 0};
    isotope_device device;
    struct timespec from, to;
    if (argc != 4) return 2;
    state = strtoull(argv[2], NULL, 10);
    long rounds = atol(argv[3]);
    int status = isotope_create(argv[1], &geometry, &device);
    if (status != ISOTOPE_OK) { fprintf(stderr, "%s: %s\n", argv[1], isotope_strerror(status)); return 2; }
    clock_gettime(CLOCK_MONOTONIC, &from);
    for (long i = 0; i < rounds; i++) if (round_fails(device)) return 1;
    clock_gettime(CLOCK_MONOTONIC, &to);
    printf("rounds %ld commits %ld conflicts %ld\n", rounds, commits, conflicts);
    fprintf(stderr, "%.3f s\n", (double)(to.tv_sec - from.tv_sec) + (double)(to.tv_nsec - from.tv_nsec) / 1e9);
    return isotope_close(device) != ISOTOPE_OK;
}
