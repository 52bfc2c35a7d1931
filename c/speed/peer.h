/* What is measured of each store: transactions that read a counter, add one to it and write it, each stable before the next one begins. */
#ifndef PEER_H
#define PEER_H
#include <stdint.h>

enum { COUNTERS = 4096 };

/* A store of COUNTERS counters of eight bytes, all 0 at first. What cannot be done ends the program with a text. */
typedef struct {
    const char *name;
    void (*make)(const char *folder, int threads);
    void *(*enter)(int thread);                  /* what one thread needs of its own */
    int (*add)(void *own, uint32_t counter);     /* one transaction: 1 committed, 0 to be made again */
    void (*leave)(void *own);
    uint64_t (*sum)(void);                       /* of all counters, and the store is closed */
} peer;

extern const peer isotope_peer, lmdb_peer, sqlite_peer, rocksdb_peer, berkeley_peer;

void stop(const char *peer, const char *what, const char *why) __attribute__((noreturn));
void path_in(char *into, const char *folder, const char *name);
#endif
