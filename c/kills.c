/* A process that commits in threads is killed at a drawn moment, again and again; each time its image opens to all that it was told.
 *     kills IMAGE ROUNDS */
#include "isotope.h"
#include <pthread.h>
#include <signal.h>
#include <stdint.h>
#include <stdio.h>
#include <stdlib.h>
#include <sys/wait.h>
#include <time.h>
#include <unistd.h>

enum { THREADS = 5 };
typedef struct { uint64_t thread, count, commit; } news;
static isotope_device device;
static int out;

/* Adds one to the thread's own number, once, and tells it. */
static int add(uint64_t thread) {
    isotope_transaction tx;
    isotope_ended ended;
    news told = {thread, 0, 0};
    int status = isotope_begin(device, ISOTOPE_SERIAL, &tx, NULL);
    if (status == ISOTOPE_OK) status = isotope_get(device, tx, (uint32_t)thread, 0, &told.count, 8);
    told.count++;
    if (status == ISOTOPE_OK) status = isotope_put(device, tx, (uint32_t)thread, 0, &told.count, 8);
    if (status == ISOTOPE_OK) status = isotope_end(device, tx, &ended);
    if (status == ISOTOPE_LOG_FULL) return isotope_abort(device, tx) == ISOTOPE_OK ? isotope_compact(device) : ISOTOPE_DISK;
    if (status != ISOTOPE_OK) return status;
    told.commit = ended.commit;
    return write(out, &told, sizeof told) == (ssize_t)sizeof told ? ISOTOPE_OK : ISOTOPE_FILE;
}

static void *work(void *argument) {
    while (add(*(uint64_t *)argument) == ISOTOPE_OK) {}
    _exit(3);
}

static void child(const char *path) {
    pthread_t thread;
    static uint64_t own[THREADS];
    if (isotope_open(path, &device, NULL) != ISOTOPE_OK) _exit(4);
    for (uint64_t i = 0; i < THREADS; i++) {
        own[i] = i;
        pthread_create(&thread, NULL, work, &own[i]);
    }
    for (;;) pause();
}

/* What the image shows: all that was told, of no thread more than one that was not, and as many commits as the numbers come to. */
static int test(const char *path, const uint64_t *told, uint64_t last) {
    isotope_transaction tx;
    isotope_numbers numbers;
    uint64_t sum = 0, count;
    int holds = isotope_open(path, &device, NULL) == ISOTOPE_OK && isotope_stat(device, &numbers) == ISOTOPE_OK
        && isotope_begin(device, ISOTOPE_SERIAL, &tx, NULL) == ISOTOPE_OK;
    for (uint32_t i = 0; holds && i < THREADS; i++) {
        holds = isotope_peek(device, tx, i, 0, &count, 8) == ISOTOPE_OK && (count == told[i] || count == told[i] + 1);
        sum += count;
    }
    holds = holds && numbers.last == sum && numbers.last >= last;
    return isotope_close(device) == ISOTOPE_OK && holds;
}

int main(int argc, char **argv) {
    const isotope_geometry geometry = {64, THREADS, 8192, ISOTOPE_SERIAL, 0, 0};
    const char *path = argc > 1 ? argv[1] : "kills.img";
    int rounds = argc > 2 ? atoi(argv[2]) : 20, bad = 0;
    uint64_t all = 0;
    srand(7);
    for (int round = 0; round < rounds; round++) {
        uint64_t told[THREADS] = {0}, last = 0;
        news one;
        int ends[2];
        struct timespec a_while = {0, 1000000 + rand() % 60000000};
        unlink(path);
        if (isotope_create(path, &geometry, &device) != ISOTOPE_OK || isotope_close(device) != ISOTOPE_OK || pipe(ends) != 0) return 2;
        fflush(stdout);
        pid_t committing = fork();
        if (committing == 0) {
            close(ends[0]);
            out = ends[1];
            child(path);
        }
        close(ends[1]);
        /* it is killed so long after its first news */
        int is_killed = 0;
        while (read(ends[0], &one, sizeof one) == (ssize_t)sizeof one) {
            told[one.thread] = one.count;
            if (one.commit > last) last = one.commit;
            if (is_killed) continue;
            is_killed = 1;
            pid_t killer = fork();
            if (killer == 0) {
                nanosleep(&a_while, NULL);
                kill(committing, SIGKILL);
                _exit(0);
            }
        }
        close(ends[0]);
        waitpid(committing, NULL, 0);
        while (waitpid(-1, NULL, 0) > 0) {}
        all += last;
        if (last == 0 || !test(path, told, last)) {
            printf("round %d: told up to commit %llu, and it is not all there\n", round, (unsigned long long)last);
            bad++;
        }
    }
    printf("%d kills: %s\n", rounds, bad ? "some commits are lost" : "each commit that was told is there");
    fprintf(stderr, "%llu commits\n", (unsigned long long)all);
    return bad != 0;
}
