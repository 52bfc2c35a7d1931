/* Threads on one device.
 *     threads IMAGE count THREADS COMMITS       all add to one number, in transactions that begin again after a conflict: nothing is lost
 *     threads IMAGE rates MICROSECONDS COMMITS  1, 4, 16 and 64 threads whose ends wait together; a sync takes so long. Linked with
 *                                               --wrap=fdatasync */
#include "isotope.h"
#include <pthread.h>
#include <stdatomic.h>
#include <stdio.h>
#include <stdlib.h>
#include <string.h>
#include <time.h>
#include <unistd.h>

enum { MOST_THREADS = 64, MOST_COMMITS = 1000000 };
static isotope_device device;
static int rounds, is_shared;
static long sync_takes;
static atomic_int wrong;
static atomic_long syncs, conflicts;
static atomic_char given[MOST_COMMITS + 1]; /* how often a number of a commit was told */

int __real_fdatasync(int fd);
int __wrap_fdatasync(int fd) {
    struct timespec time = {sync_takes / 1000000, sync_takes % 1000000 * 1000};
    syncs++;
    if (sync_takes > 0) nanosleep(&time, NULL);
    return __real_fdatasync(fd);
}

/* Adds one to the thread's own number, and to that of all where they share it. */
static int add(uint32_t own) {
    isotope_transaction tx;
    uint64_t all, mine;
    isotope_ended ended;
    int status = isotope_begin(device, ISOTOPE_IMAGE_MODE, &tx, NULL);
    if (status != ISOTOPE_OK) return status;
    status = isotope_get(device, tx, 1 + own, 0, &mine, 8);
    mine++;
    if (status == ISOTOPE_OK) status = isotope_put(device, tx, 1 + own, 0, &mine, 8);
    if (status == ISOTOPE_OK && is_shared) status = isotope_get(device, tx, 0, 0, &all, 8);
    all++;
    if (status == ISOTOPE_OK && is_shared) status = isotope_put(device, tx, 0, 0, &all, 8);
    if (status == ISOTOPE_OK) status = isotope_end(device, tx, &ended);
    if (status == ISOTOPE_OK && (ended.commit == 0 || ended.commit > MOST_COMMITS || given[ended.commit]++ != 0)) wrong++;
    return status;
}

static void *work(void *argument) {
    uint32_t own = *(uint32_t *)argument;
    for (int done = 0; done < rounds;) {
        int status = add(own);
        if (status == ISOTOPE_OK) done++;
        else if (status == ISOTOPE_CONFLICT) conflicts++;
        else {
            fprintf(stderr, "thread %u: %s\n", own, isotope_strerror(status));
            wrong++;
            return NULL;
        }
    }
    return NULL;
}

static uint64_t number_at(uint32_t block) {
    isotope_transaction tx;
    uint64_t number = UINT64_MAX;
    if (isotope_begin(device, ISOTOPE_IMAGE_MODE, &tx, NULL) != ISOTOPE_OK) return number;
    isotope_peek(device, tx, block, 0, &number, 8);
    isotope_abort(device, tx);
    return number;
}

/* An image on which so many threads make so many commits each, closed and opened again, and what each number is then. */
static double run(const char *path, uint32_t threads) {
    const isotope_geometry geometry = {64, 1 + MOST_THREADS, 33554432, ISOTOPE_SERIAL, 0, 0};
    pthread_t thread[MOST_THREADS];
    uint32_t own[MOST_THREADS];
    struct timespec from, to;
    isotope_numbers numbers;
    unlink(path);
    if (isotope_create(path, &geometry, &device) != ISOTOPE_OK) { perror(path); exit(2); }
    syncs = conflicts = 0;
    for (int i = 0; i <= MOST_COMMITS; i++) given[i] = 0;
    clock_gettime(CLOCK_MONOTONIC, &from);
    for (uint32_t i = 0; i < threads; i++) {
        own[i] = i;
        if (pthread_create(&thread[i], NULL, work, &own[i]) != 0) exit(2);
    }
    for (uint32_t i = 0; i < threads; i++) pthread_join(thread[i], NULL);
    clock_gettime(CLOCK_MONOTONIC, &to);
    if (isotope_close(device) != ISOTOPE_OK || isotope_open(path, &device, NULL) != ISOTOPE_OK) { wrong++; return 1; }
    for (uint32_t i = 0; i < threads; i++) if (number_at(1 + i) != (uint64_t)rounds) wrong++;
    if (is_shared && number_at(0) != (uint64_t)rounds * threads) wrong++;
    if (isotope_stat(device, &numbers) != ISOTOPE_OK || numbers.last != (uint64_t)rounds * threads) wrong++;
    isotope_close(device);
    return (double)(to.tv_sec - from.tv_sec) + (double)(to.tv_nsec - from.tv_nsec) / 1e9;
}

static void count(const char *path, uint32_t threads, int commits) {
    is_shared = 1;
    rounds = commits / (int)threads;
    double seconds = run(path, threads);
    printf("%u threads, %d commits of each, %s\n", threads, rounds, wrong ? "and some are lost" : "none lost");
    fprintf(stderr, "%.2f s, %ld conflicts\n", seconds, (long)conflicts);
}

static void rates(const char *path, long takes, int commits) {
    double first = 0;
    sync_takes = takes;
    for (uint32_t threads = 1; threads <= MOST_THREADS; threads *= 4) {
        rounds = commits * (threads < 16 ? 1 : (int)threads / 4) / (int)threads;
        double rate = rounds * threads / run(path, threads);
        if (threads == 1) first = rate;
        printf("%2u threads: %6.0f commits a second, %4.1f of one thread's, %.2f syncs a commit\n", threads, rate, rate / first,
               (double)syncs / (rounds * threads));
    }
}

int main(int argc, char **argv) {
    if (argc == 5 && strcmp(argv[2], "count") == 0) count(argv[1], (uint32_t)atoi(argv[3]), atoi(argv[4]));
    else if (argc == 5 && strcmp(argv[2], "rates") == 0) rates(argv[1], atol(argv[3]), atoi(argv[4]));
    else return 2;
    return wrong != 0;
}
