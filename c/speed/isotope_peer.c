/* Counters in blocks of 64 bytes, eight in each; a transaction claims the eight bytes of its counter alone. */
#include "../isotope.h"
#include "peer.h"
#include <stddef.h>
#include <string.h>

static isotope_device device;

static void must(int status, const char *what) {
    if (status != ISOTOPE_OK) stop("isotope", what, isotope_strerror(status));
}

static void make(const char *folder, int threads) {
    char path[4096];
    isotope_geometry geometry = {.block_size = 64, .blocks = COUNTERS / 8, .log = 16 << 20, .mode = ISOTOPE_SERIAL};
    (void)threads;
    path_in(path, folder, "counters.img");
    must(isotope_create(path, &geometry, &device), "create");
}

static void *enter(int thread) {
    (void)thread;
    return NULL;
}

static int add(void *own, uint32_t counter) {
    isotope_transaction tx;
    uint64_t value = 0;
    (void)own;
    must(isotope_begin(device, ISOTOPE_IMAGE_MODE, &tx, NULL), "begin");
    must(isotope_get(device, tx, counter / 8, counter % 8 * 8, &value, 8), "get");
    value += 1;
    must(isotope_put(device, tx, counter / 8, counter % 8 * 8, &value, 8), "put");
    int status = isotope_end(device, tx, NULL);
    if (status == ISOTOPE_LOG_FULL) {
        must(isotope_abort(device, tx), "abort");
        must(isotope_compact(device), "compact");
        return 0;
    }
    if (status == ISOTOPE_CONFLICT) return 0;
    must(status, "end");
    return 1;
}

static void leave(void *own) { (void)own; }

static uint64_t sum(void) {
    isotope_transaction tx;
    uint64_t values[8], all = 0;
    must(isotope_begin(device, ISOTOPE_IMAGE_MODE, &tx, NULL), "begin");
    for (uint32_t block = 0; block < COUNTERS / 8; block++) {
        must(isotope_read(device, tx, block, values, sizeof values), "read");
        for (int i = 0; i < 8; i++) all += values[i];
    }
    must(isotope_close(device), "close");
    return all;
}

const peer isotope_peer = {"isotope", make, enter, add, leave, sum};
