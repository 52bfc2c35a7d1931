/* speed PEER FOLDER COMMITS THREADS: how long a store takes for so many transactions in all, each of which adds one to a counter and is
 * stable before the next one of its thread. Prints a line: peer, threads, commits, seconds, processor seconds, commits a second. The
 * counters are summed afterwards, so that a lost or doubled commit is told. FOLDER is on the disk that is measured, and empty. */
#include "peer.h"
#include <pthread.h>
#include <stdio.h>
#include <stdlib.h>
#include <string.h>
#include <sys/resource.h>
#include <time.h>

static const peer *const peers[] = {
    &isotope_peer,
#ifdef WITH_LMDB
    &lmdb_peer,
#endif
#ifdef WITH_SQLITE
    &sqlite_peer,
#endif
#ifdef WITH_ROCKSDB
    &rocksdb_peer,
#endif
#ifdef WITH_BERKELEY
    &berkeley_peer,
#endif
};

static const peer *store;
static int threads;
static long commits;

void stop(const char *who, const char *what, const char *why) {
    fprintf(stderr, "speed: %s: %s: %s\n", who, what, why);
    exit(2);
}

void path_in(char *into, const char *folder, const char *name) {
    if (snprintf(into, 4096, "%s/%s", folder, name) >= 4096) stop("speed", folder, "the name is too long");
}

static double clock_of(clockid_t clock) {
    struct timespec now;
    clock_gettime(clock, &now);
    return (double)now.tv_sec + (double)now.tv_nsec / 1e9;
}

/* the commits of one thread, on counters that no other thread has */
static void *work(void *argument) {
    int thread = (int)(intptr_t)argument;
    long mine = commits / threads + (thread < commits % threads);
    uint64_t drawn = 0x9e3779b97f4a7c15u * (uint64_t)(thread + 1);
    void *own = store->enter(thread);
    for (long i = 0; i < mine; i++) {
        drawn ^= drawn << 13, drawn ^= drawn >> 7, drawn ^= drawn << 17;
        uint32_t counter = (uint32_t)(drawn % (uint64_t)(COUNTERS / threads)) * (uint32_t)threads + (uint32_t)thread;
        while (!store->add(own, counter)) {}
    }
    store->leave(own);
    return NULL;
}

static void run(const char *folder) {
    pthread_t started[COUNTERS];
    store->make(folder, threads);
    double real = clock_of(CLOCK_MONOTONIC), busy = clock_of(CLOCK_PROCESS_CPUTIME_ID);
    for (int i = 0; i < threads; i++)
        if (pthread_create(&started[i], NULL, work, (void *)(intptr_t)i) != 0) stop(store->name, "thread", "cannot be made");
    for (int i = 0; i < threads; i++) pthread_join(started[i], NULL);
    real = clock_of(CLOCK_MONOTONIC) - real, busy = clock_of(CLOCK_PROCESS_CPUTIME_ID) - busy;
    printf("%-10s threads %3d commits %8ld seconds %8.3f processor %8.3f a second %9.0f\n", store->name, threads, commits, real, busy,
           (double)commits / real);
    uint64_t sum = store->sum();
    if (sum != (uint64_t)commits) {
        fprintf(stderr, "speed: %s: the counters sum to %llu\n", store->name, (unsigned long long)sum);
        exit(1);
    }
}

int main(int argc, char **argv) {
    if (argc != 5) stop("speed", "usage", "speed PEER FOLDER COMMITS THREADS");
    commits = atol(argv[3]), threads = atoi(argv[4]);
    if (commits < 1 || threads < 1 || threads > 1024) stop("speed", "usage", "1 to 1024 threads, at least one commit");
    for (size_t i = 0; i < sizeof peers / sizeof *peers; i++)
        if (strcmp(peers[i]->name, argv[1]) == 0) store = peers[i];
    if (!store) stop("speed", argv[1], "is not built in");
    run(argv[2]);
    return 0;
}
