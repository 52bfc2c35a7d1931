/* Ends: those that wait at one time are made as one group. Nothing proves this file. */
#define _GNU_SOURCE
#include "device.h"
#include <errno.h>
#include <limits.h>
#include <linux/futex.h>
#include <sys/syscall.h>
#include <time.h>
#include <unistd.h>

enum { MOST_PASSED = 256, MOST_RUSH = 15, NOT_ANSWERED = -1, WOKEN_BY_ONE = 3 };
static const uint64_t SECOND = 1000000000, MOST_WAIT = 10000000; /* in nanoseconds */

/* ---- Who waits, and who is woken ---- */

/* Whether ends that wait should wait no longer: as many as a group has are there, or they let many calls go first, or nobody is on the way
 * who may end soon, neither a call that waits for the device nor who was in the last group. */
static int is_ripe(device *d) {
    return d->waiting >= ISOTOPE_MOST_GROUP || d->passed >= MOST_PASSED || (d->coming == 0 && d->returning <= 0);
}

/* Ends sleep on one word of the device, each with bits of its own, so that ends of one group can be woken, or the first end of one. */
enum { FIRST_BIT = 1, GROUP_BITS = 31 };
static uint32_t group_bit(uint32_t group) { return UINT32_C(2) << group % GROUP_BITS; }

/* A call of the system on that word. Why it failed, or 0. */
static int on_word(device *d, int call, uint32_t value, const struct timespec *until, uint32_t bits) {
    int before = errno, failed = syscall(SYS_futex, &d->told, call | FUTEX_PRIVATE_FLAG, value, until, NULL, bits) < 0 ? errno : 0;
    errno = before;
    return failed;
}

static void wake(device *d, uint32_t most, uint32_t bits) { on_word(d, FUTEX_WAKE_BITSET, most, NULL, bits); }

static void wake_first(device *d) {
    d->told++;
    wake(d, INT_MAX, FIRST_BIT);
}

/* The ends of a group that is answered wake one another, so that no processor waits for one that wakes all: each that was woken wakes some
 * more, until nobody of the group sleeps. Where so many wait that one of another group may have the same bit, one call wakes all. */
static void wake_group(device *d, uint32_t group) {
    wake(d, d->waiting < (GROUP_BITS - 1) * ISOTOPE_MOST_GROUP ? WOKEN_BY_ONE : INT_MAX, group_bit(group));
}

/* Who leaves the device looks after the ends that wait. An end counts itself before it looks who is coming, and who comes is counted until
 * he has the lock, after which he looks here: so one of the two sees the other. Who finds a leader leaves it to him, who lets go of that
 * and then wakes the next one. */
void isotope_ends_passed(device *d) {
    d->passed++;
    if (d->has_leader || !is_ripe(d)) return;
    take_lock(&d->queue);
    if (d->first && !d->has_leader && is_ripe(d)) wake_first(d);
    free_lock(&d->queue);
}

/* ---- Groups ---- */

/* What was answered to an end whose commit did not reach the file. A conflict may be with such a commit. */
static void take_back(isotope_ended *ended) {
    if (ended->status == ISOTOPE_OK || ended->status == ISOTOPE_CONFLICT) *ended = (isotope_ended){.status = ISOTOPE_DISK};
}

/* Under the lock of the queue: takes the first ends out of it. */
static size_t take_group(device *d, waiter **group) {
    size_t n = 0;
    while (d->first && n < ISOTOPE_MOST_GROUP) {
        group[n++] = d->first;
        d->first = d->first->next;
        d->waiting--;
    }
    if (!d->first) d->last = NULL;
    d->passed = 0;
    d->taken++;
    return n;
}

/* Under the device's lock: ends them, with one tape for all. */
static void end_all(device *d, waiter **group, size_t n) {
    waiter *members[ISOTOPE_MOST_GROUP];
    uint64_t numbers[ISOTOPE_MOST_GROUP];
    isotope_ended ended[ISOTOPE_MOST_GROUP];
    size_t count = 0;
    for (size_t i = 0; i < n; i++) {
        group[i]->ended.status = ISOTOPE_CLOSED;
        if (group[i]->device != d->number) continue; /* it was closed meanwhile */
        ended[count] = (isotope_ended){.status = NOT_ANSWERED};
        members[count] = group[i];
        numbers[count++] = isotope_device_inside(d, group[i]->tx);
    }
    if (count == 0) return;
    int status = isotope_c_end_waiting(&d->slot, numbers, count, ended, count);
    int settled = isotope_device_settle(d, ISOTOPE_OK);
    for (size_t i = 0; i < count; i++) {
        if (ended[i].status == NOT_ANSWERED) ended[i].status = status;
        if (settled != ISOTOPE_OK) take_back(&ended[i]);
        members[i]->ended = ended[i];
    }
}

static uint64_t now(void) {
    struct timespec time;
    clock_gettime(CLOCK_MONOTONIC, &time);
    return (uint64_t)time.tv_sec * SECOND + (uint64_t)time.tv_nsec;
}

/* Under the lock of the queue, which is let go: makes a group of those that wait once the device is free, and wakes them. Who makes it may
 * not be in it, where many were there before. */
static void lead(device *d) {
    waiter *group[ISOTOPE_MOST_GROUP];
    d->has_leader = 1;
    free_lock(&d->queue);
    take_lock(&d->lock);
    take_lock(&d->queue);
    size_t n = take_group(d, group);
    free_lock(&d->queue);
    uint64_t from = now();
    end_all(d, group, n);
    uint64_t to = now();
    /* before another end can have the lock */
    d->returning = d->rushed > 0 ? 0 : (int)n;
    free_lock(&d->lock);
    take_lock(&d->queue);
    d->members = (int)n;
    d->rushed -= d->rushed > 0;
    d->until = to + ((to - from) / 2 < MOST_WAIT ? (to - from) / 2 : MOST_WAIT);
    d->has_leader = 0;
    int has_next = d->first != NULL;
    uint32_t taken = d->taken;
    d->answered++;
    d->told++;
    free_lock(&d->queue);
    if (has_next) wake(d, INT_MAX, FIRST_BIT);
    wake_group(d, taken);
}

/* The last group in which an end of this thread was. */
static _Thread_local struct { isotope_device device; uint32_t group; } last;

/* Whether the thread was in the last group of the device. */
static int is_back(device *d, isotope_device number) { return last.device == number && last.group == d->answered; }

static int is_answered(device *d, waiter *own) { return (int32_t)(d->answered - own->group) >= 0; }

/* Under the lock of the queue: the end stands in it behind the others. A group is the first ends, so many as there are up to its most. */
static void join(device *d, waiter *own) {
    uint32_t before = (uint32_t)d->waiting;
    if (d->last) d->last->next = own; else d->first = own;
    d->last = own;
    own->group = d->taken + 1 + before / ISOTOPE_MOST_GROUP;
    own->is_first = before % ISOTOPE_MOST_GROUP == 0;
    d->waiting++;
    if (d->returning > 0 && is_back(d, own->device) && --d->returning == 0) d->rush = 0;
}

/* Under the lock of the queue, which is let go: sleeps until somebody wakes the end. The first one waits for who was in the last group, so
 * long that it would pay if all of them came; where fewer than half came the next group waits for nobody, and each time that it comes
 * to this again twice as many and one more. */
static void wait_for_turn(device *d, waiter *own) {
    struct timespec until = {(time_t)(d->until / SECOND), (long)(d->until % SECOND)};
    int is_timed = !d->has_leader && d->returning > 0 && d->first == own;
    uint32_t told = d->told, bits = group_bit(own->group) | (own->is_first ? FIRST_BIT : 0);
    free_lock(&d->queue);
    if (is_answered(d, own)) return;
    int failed = on_word(d, FUTEX_WAIT_BITSET, told, is_timed ? &until : NULL, bits);
    if (failed == 0 && is_answered(d, own)) wake_group(d, own->group);
    if (failed != ETIMEDOUT) return;
    take_lock(&d->queue);
    if (d->first == own && !d->has_leader) {
        int few = 2 * d->returning > d->members;
        d->rushed = d->rush = !few ? 0 : d->rush < MOST_RUSH ? 2 * d->rush + 1 : MOST_RUSH;
        d->returning = 0;
    }
    free_lock(&d->queue);
}

/* Waits until the end is answered, and leads where nobody does. */
static void __attribute__((noinline)) wait_for_end(device *d, isotope_device number, isotope_transaction tx, isotope_ended *ended) {
    waiter own = {.device = number, .tx = tx, .ended = {.status = ISOTOPE_CLOSED}};
    take_lock(&d->queue);
    join(d, &own);
    for (;;) {
        if (!d->has_leader && is_ripe(d)) lead(d);
        else wait_for_turn(d, &own);
        if (is_answered(d, &own)) break;
        take_lock(&d->queue);
    }
    last.device = number;
    last.group = own.group;
    *ended = own.ended;
}

/* An end that comes while nobody waits, neither in the queue nor for the lock, and nobody else is waited for has no need of the queue.
 * Whether it was so. */
static int end_alone(device *d, isotope_device number, isotope_transaction tx, isotope_ended *ended) {
    if (d->waiting > 0 || d->coming > 0 || !try_lock(&d->lock)) return 0;
    if (d->returning > 0 && d->returning > is_back(d, number)) {
        isotope_device_leave(d, 0);
        return 0;
    }
    if (d->returning != 0) d->returning = 0;
    if (d->number == number) {
        isotope_c_end(&d->slot, isotope_device_inside(d, tx), ended);
        if (isotope_device_settle(d, ISOTOPE_OK) != ISOTOPE_OK) take_back(ended);
    } else {
        *ended = (isotope_ended){.status = ISOTOPE_CLOSED};
    }
    isotope_device_leave(d, 0);
    return 1;
}

int isotope_end(isotope_device number, isotope_transaction tx, isotope_ended *ended) {
    isotope_ended told;
    device *d = isotope_device_find(number);
    if (!ended) ended = &told;
    if (!d) *ended = (isotope_ended){.status = ISOTOPE_CLOSED};
    else if (!end_alone(d, number, tx, ended)) wait_for_end(d, number, tx, ended);
    return ended->status;
}

int isotope_end_group(isotope_device number, const isotope_transaction *txs, size_t n, isotope_ended *ended) {
    uint64_t numbers[ISOTOPE_MOST_GROUP];
    if (n > ISOTOPE_MOST_GROUP) return isotope_device_find(number) ? ISOTOPE_TOO_MANY_TRANSACTIONS : ISOTOPE_CLOSED;
    device *d = isotope_device_enter(number);
    if (!d) return ISOTOPE_CLOSED;
    for (size_t i = 0; i < n; i++) numbers[i] = isotope_device_inside(d, txs[i]);
    int status = n == 0 ? ISOTOPE_OK : isotope_c_end_group(&d->slot, numbers, n, ended, n);
    int settled = isotope_device_settle(d, status);
    for (size_t i = 0; i < n && settled != ISOTOPE_OK; i++) {
        if (status == ISOTOPE_OK) take_back(&ended[i]);
        else ended[i] = (isotope_ended){.status = settled};
    }
    return isotope_device_leave(d, settled);
}
