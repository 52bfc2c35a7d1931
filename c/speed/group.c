/* group FOLDER ROUNDS: what a commit takes in a group, beside the floor of one commit: what plain C takes for the calls of one commit alone,
 * two writes and two syncs of a file that is there already. Each round makes the floor, one commit by itself, and groups of 16 and 64, in
 * turn; medians are told. FOLDER is on the disk that is measured, and empty. */
#define _GNU_SOURCE
#include "../isotope.h"
#include <fcntl.h>
#include <stdio.h>
#include <stdlib.h>
#include <time.h>
#include <unistd.h>

enum { KINDS = 4, MOST_ROUNDS = 5000, FLOOR_BYTES = 16 << 20, RECORD = 37 };
static const size_t members[KINDS] = {0, 1, 16, 64}; /* 0: the floor */
static double took[KINDS][MOST_ROUNDS];
static isotope_device device;
static int plain;
static off_t at;

static void must(int holds, const char *what) {
    if (holds) return;
    perror(what);
    exit(2);
}

static double now(void) {
    struct timespec time;
    clock_gettime(CLOCK_MONOTONIC, &time);
    return (double)time.tv_sec * 1e3 + (double)time.tv_nsec / 1e6;
}

/* A file of zeros, which no write makes longer. */
static void make_plain(const char *path) {
    static char zeros[1 << 20];
    plain = open(path, O_RDWR | O_CREAT | O_EXCL, 0666);
    must(plain >= 0, path);
    for (off_t i = 0; i < FLOOR_BYTES; i += (off_t)sizeof zeros) must(pwrite(plain, zeros, sizeof zeros, i) == sizeof zeros, path);
    must(fsync(plain) == 0, path);
}

/* The calls of a commit that wrote eight bytes: the record, and then the byte before it. */
static void make_floor(void) {
    static const char record[RECORD], gate = 1;
    if (at + RECORD > FLOOR_BYTES) at = 0;
    must(pwrite(plain, record, RECORD - 1, at + 1) == RECORD - 1 && fdatasync(plain) == 0, "the floor");
    must(pwrite(plain, &gate, 1, at) == 1 && fdatasync(plain) == 0, "the floor");
    at += RECORD - 1;
}

static int make_group(size_t n, uint64_t round) {
    isotope_transaction txs[64];
    isotope_ended ended[64];
    for (size_t i = 0; i < n; i++) {
        must(isotope_begin(device, ISOTOPE_IMAGE_MODE, &txs[i], NULL) == ISOTOPE_OK, "begin");
        must(isotope_put(device, txs[i], (uint32_t)i, (uint32_t)(round % 8) * 8, &round, 8) == ISOTOPE_OK, "put");
    }
    int status = n == 1 ? isotope_end(device, txs[0], ended) : isotope_end_group(device, txs, n, ended);
    for (size_t i = 0; i < n && status == ISOTOPE_OK; i++) status = ended[i].status;
    return status;
}

static int by_size(const void *one, const void *other) {
    double a = *(const double *)one, b = *(const double *)other;
    return (a > b) - (a < b);
}

int main(int argc, char **argv) {
    const isotope_geometry geometry = {64, 64, 1 << 24, ISOTOPE_SERIAL, 0, 0};
    char path[4096];
    long rounds = argc == 3 ? atol(argv[2]) : 0;
    if (rounds < 1 || rounds > MOST_ROUNDS) return 2;
    snprintf(path, sizeof path, "%s/group.img", argv[1]);
    must(isotope_create(path, &geometry, &device) == ISOTOPE_OK, path);
    snprintf(path, sizeof path, "%s/plain", argv[1]);
    make_plain(path);
    for (long i = 0; i < rounds; i++) {
        for (int k = 0; k < KINDS; k++) {
            double from = now();
            if (members[k] == 0) make_floor();
            else must(make_group(members[k], (uint64_t)i) == ISOTOPE_OK, "a group");
            took[k][i] = now() - from;
        }
    }
    must(isotope_close(device) == ISOTOPE_OK, "close");
    for (int k = 0; k < KINDS; k++) qsort(took[k], (size_t)rounds, sizeof(double), by_size);
    double floor = took[0][rounds / 2];
    printf("the floor of one commit, plain C    %8.3f ms\n", floor);
    for (int k = 1; k < KINDS; k++) {
        double each = took[k][rounds / 2] / (double)members[k];
        printf("a commit, %2zu of them in a group     %8.3f ms %6.3f x the floor\n", members[k], each, each / floor);
    }
    return 0;
}
