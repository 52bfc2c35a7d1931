/* A lock that device.c and ends.c have for a device. No program includes this file. */
#ifndef ISOTOPE_LOCK_H
#define ISOTOPE_LOCK_H
#include <stdatomic.h>
#include <stdint.h>
#if defined __has_include
#if __has_include(<sys/single_threaded.h>)
#include <sys/single_threaded.h>
#define IS_ALONE __libc_single_threaded
#endif
#endif
#ifndef IS_ALONE
#define IS_ALONE 0
#endif
#pragma GCC visibility push(hidden)

/* One word: nobody has the lock, one has it, or one has it and some may sleep on the word. In a process of one thread it is had without an
 * atomic exchange: no other thread begins before it is free again, since no call of the library begins one. */
typedef _Atomic uint32_t word_lock;
enum { FREE, TAKEN, RUNG };

/* Waits until the lock is free, and has it then. */
__attribute__((cold)) void isotope_lock_wait(word_lock *lock);
/* Wakes one who sleeps. */
__attribute__((cold)) void isotope_lock_ring(word_lock *lock);

static inline int try_lock(word_lock *lock) {
    uint32_t is = FREE;
    if (!IS_ALONE) return atomic_compare_exchange_strong(lock, &is, TAKEN);
    if (atomic_load_explicit(lock, memory_order_relaxed) != FREE) return 0;
    atomic_store_explicit(lock, TAKEN, memory_order_relaxed);
    return 1;
}

static inline void take_lock(word_lock *lock) {
    if (!try_lock(lock)) isotope_lock_wait(lock);
}

static inline void free_lock(word_lock *lock) {
    if (IS_ALONE) atomic_store_explicit(lock, FREE, memory_order_relaxed);
    else if (atomic_exchange(lock, FREE) == RUNG) isotope_lock_ring(lock);
}

#pragma GCC visibility pop
#endif
