/* Who finds a device's lock taken, and who leaves it while somebody sleeps. Nothing proves this file. */
#define _GNU_SOURCE
#include "lock.h"
#include <errno.h>
#include <linux/futex.h>
#include <sys/syscall.h>
#include <unistd.h>

/* A call is short, so who wants the lock looks for it some times before he sleeps. */
enum { MOST_LOOKS = 400 };

static void pause_a_moment(void) {
#if defined __x86_64__ || defined __i386__
    __builtin_ia32_pause();
#elif defined __aarch64__
    __asm__ volatile("isb");
#endif
}

void isotope_lock_wait(word_lock *lock) {
    int before = errno;
    for (int looks = 0; looks < MOST_LOOKS; looks++) {
        pause_a_moment();
        if (atomic_load_explicit(lock, memory_order_relaxed) == FREE && try_lock(lock)) return;
    }
    while (atomic_exchange(lock, RUNG) != FREE) syscall(SYS_futex, lock, FUTEX_WAIT_PRIVATE, RUNG, NULL, NULL, 0);
    errno = before;
}

void isotope_lock_ring(word_lock *lock) {
    int before = errno;
    syscall(SYS_futex, lock, FUTEX_WAKE_PRIVATE, 1, NULL, NULL, 0);
    errno = before;
}
