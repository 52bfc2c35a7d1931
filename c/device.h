/* What device.c and ends.c have for each other and for isotope.c. No program includes this file. */
#ifndef ISOTOPE_DEVICE_H
#define ISOTOPE_DEVICE_H
#include "isotope_c.h"
#include "lock.h"
#pragma GCC visibility push(hidden)

/* An end that waits, on the stack of its caller, who leaves once its group is answered. All is under the lock of the queue but the answer,
 * which is written by who took it out of the queue, and read once the group counts as answered. */
typedef struct waiter {
    struct waiter *next;
    isotope_device device;
    isotope_transaction tx;
    isotope_ended ended;
    uint32_t group;                     /* the number of its group */
    int is_first;                       /* it is the first one of that */
} waiter;

/* A place for a device. `lock` is held during a call of the library and all that comes of it at the file; what is under it is looked at
 * by who has it. `queue` is held for a moment, also by who has the lock, never the other way round. */
typedef struct {
    _Alignas(64) word_lock lock;        /* with what each call looks at in one line of the cache */
    atomic_int waiting;                 /* how many ends are in the queue */
    _Atomic isotope_device number;      /* 0 while no device is open here */
    isotope_slot slot;
    int fd;                             /* of its file, or -1 */
    atomic_int coming;                  /* calls that wait for the lock; ends do not count */
    uint8_t *bytes;                     /* what is read from the file, or written */
    size_t room;
    isotope_device next;                /* the number that it gets */
    atomic_int is_taken;
    word_lock queue;
    waiter *first, *last;
    atomic_int has_leader;              /* one of them makes a group */
    atomic_int passed;                  /* calls that were made since the last group */
    int members;                        /* of the last group */
    atomic_int returning;               /* how many of them have not come with an end again */
    int rush, rushed;                   /* how many groups wait for nobody once few came, and how many more of these there are */
    uint64_t until;                     /* when the next group waits for them no longer, in nanoseconds */
    uint32_t taken;                     /* how many groups were taken out of the queue; the number of the last one */
    _Atomic uint32_t answered;          /* how many of them are answered */
    _Atomic uint32_t told;              /* how often those who sleep were told something: the word that they sleep on */
} device;

enum { DEVICES = ISOTOPE_MOST_DEVICES, INSIDE = 40 };
extern device isotope_devices[DEVICES];

/* Waits for the device's lock, and has it then; a call that does so is on its way. */
__attribute__((cold)) void isotope_device_wait(device *d);
/* A call was made while ends wait. */
__attribute__((cold)) void isotope_ends_passed(device *d);
/* Under the device's lock: does what is on the tape, in order, and answers the status, or ISOTOPE_DISK where the file failed. */
int isotope_device_settle(device *d, int status);

/* Unlocks the device, and answers the status: after a call that puts nothing onto the tape, since it ends nothing. */
static inline int isotope_device_leave(device *d, int status) {
    free_lock(&d->lock);
    if (d->waiting > 0) isotope_ends_passed(d);
    return status; /* and errno is as it was */
}

/* Does what is on the tape, unlocks the device, and answers the status. */
static inline int isotope_device_answer(device *d, int status) { return isotope_device_leave(d, isotope_device_settle(d, status)); }

/* The place where the device of this number is open, or was a moment ago; or NULL. */
static inline device *isotope_device_find(isotope_device number) {
    device *d = &isotope_devices[number % DEVICES];
    return number != 0 && d->number == number ? d : NULL;
}

/* The device of this number, locked, or NULL where none is open. */
static inline device *isotope_device_enter(isotope_device number) {
    device *d = isotope_device_find(number);
    if (!d) return NULL;
    if (!try_lock(&d->lock)) isotope_device_wait(d);
    if (d->number == number) return d;
    isotope_device_leave(d, 0);
    return NULL;
}

/* A transaction's number has 24 bits of the device's above those that the library gives, so that another opening's is none here. */
static inline uint64_t isotope_device_above(device *d) { return (d->number & 0xffffff) << INSIDE; }

/* What the library calls this one: 0 where it is another device's. */
static inline uint64_t isotope_device_inside(device *d, isotope_transaction tx) {
    uint64_t own = tx & ((UINT64_C(1) << INSIDE) - 1);
    return tx == (isotope_device_above(d) | own) ? own : 0;
}

#pragma GCC visibility pop
#endif
