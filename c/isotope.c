/* The calls of isotope.h that are one call of the proved library (isotope_c.h): each looks its numbers up, has the device for itself, hands
 * on what it was given, and answers; where something may be on the tape, once that is done. Nothing proves this file. device.c and
 * ends.c have the others. */
#include "device.h"
#include <stdio.h>
#include <string.h>

/* Answers what a call of the library comes to on the device `d` of this number, which it looks up: one that writes nothing to the file,
 * and one that may. */
#define ON(number, call)                                                  \
    do {                                                                  \
        device *d = isotope_device_enter(number);                         \
        return d ? isotope_device_leave(d, (call)) : ISOTOPE_CLOSED;      \
    } while (0)
#define AT_FILE(number, call)                                             \
    do {                                                                  \
        device *d = isotope_device_enter(number);                         \
        return d ? isotope_device_answer(d, (call)) : ISOTOPE_CLOSED;     \
    } while (0)
#define TX &d->slot, isotope_device_inside(d, tx)
/* slices of what may be NULL, and a length that may not be wanted */
static uint8_t nothing[1];
#define IN(p, n) (p) ? (const uint8_t *)(p) : nothing, (p) ? (n) : 0
#define OUT(p, n) (p) ? (uint8_t *)(p) : nothing, (p) ? (n) : 0
#define TEXT(p) (const uint8_t *)(p), strlen(p)
#define LENGTH(n) ((n) ? (n) : &(uint64_t){0})

int isotope_about(isotope_device number, isotope_geometry *geometry) { ON(number, isotope_c_about(&d->slot, geometry)); }
int isotope_compact(isotope_device number) { AT_FILE(number, isotope_c_compact(&d->slot)); }
int isotope_upgrade(isotope_device number) { AT_FILE(number, isotope_c_upgrade(&d->slot)); }
int isotope_trim(isotope_device number) { ON(number, isotope_c_trim(&d->slot)); }

int isotope_stat(isotope_device number, isotope_numbers *numbers) {
    device *d = isotope_device_enter(number);
    if (!d) return ISOTOPE_CLOSED;
    int status = isotope_c_stat(&d->slot, numbers);
    if (status == ISOTOPE_OK && numbers->oldest != 0) numbers->oldest |= isotope_device_above(d);
    return isotope_device_leave(d, status);
}

int isotope_begin(isotope_device number, int mode, isotope_transaction *tx, uint64_t *at) {
    uint64_t begun = 0, shown = 0;
    device *d = isotope_device_enter(number);
    *tx = 0;
    if (!d) return ISOTOPE_CLOSED;
    int status = isotope_c_begin(&d->slot, (uint32_t)mode, &begun, &shown);
    if (status == ISOTOPE_OK && begun >> INSIDE != 0) {
        isotope_c_abort(&d->slot, begun);
        status = ISOTOPE_WORN;
    }
    if (status == ISOTOPE_OK) *tx = isotope_device_above(d) | begun;
    if (status == ISOTOPE_OK && at) *at = shown;
    return isotope_device_leave(d, status);
}

int isotope_abort(isotope_device number, isotope_transaction tx) { ON(number, isotope_c_abort(TX)); }
int isotope_room(isotope_device number, isotope_transaction tx, uint32_t *accesses) { ON(number, isotope_c_room(TX, accesses)); }

int isotope_read(isotope_device number, isotope_transaction tx, uint32_t block, void *into, size_t n) {
    ON(number, isotope_c_read(TX, block, OUT(into, n)));
}
int isotope_write(isotope_device number, isotope_transaction tx, uint32_t block, const void *bytes, size_t n) {
    ON(number, isotope_c_write(TX, block, IN(bytes, n)));
}
int isotope_get(isotope_device number, isotope_transaction tx, uint32_t block, uint32_t off, void *into, size_t n) {
    ON(number, isotope_c_get(TX, block, off, OUT(into, n)));
}
int isotope_peek(isotope_device number, isotope_transaction tx, uint32_t block, uint32_t off, void *into, size_t n) {
    ON(number, isotope_c_peek(TX, block, off, OUT(into, n)));
}
int isotope_put(isotope_device number, isotope_transaction tx, uint32_t block, uint32_t off, const void *bytes, size_t n) {
    ON(number, isotope_c_put(TX, block, off, IN(bytes, n)));
}
int isotope_fill(isotope_device number, isotope_transaction tx, uint32_t block, uint8_t byte) {
    ON(number, isotope_c_fill(TX, block, &byte, 1));
}
int isotope_mark(isotope_device number, isotope_transaction tx, uint32_t off, uint32_t n) { ON(number, isotope_c_mark(TX, off, n)); }

/* Why ranges of a block of `n` bytes are refused. */
static int test_ranges(size_t n, const isotope_range *ranges, size_t count) {
    if (count > ISOTOPE_MOST_MARKS) return ISOTOPE_TOO_MANY_MARKS;
    for (size_t i = 0; i < count; i++)
        if (ranges[i].n == 0 || ranges[i].n > n || ranges[i].off > n - ranges[i].n) return ISOTOPE_BAD_RANGE;
    return count == 0 ? ISOTOPE_BAD_RANGE : ISOTOPE_OK;
}

int isotope_put_ranges(isotope_device number, isotope_transaction tx, uint32_t block, const void *bytes, size_t n,
                       const isotope_range *ranges, size_t count) {
    device *d = isotope_device_enter(number);
    if (!d) return ISOTOPE_CLOSED;
    int status = test_ranges(n, ranges, count);
    if (status == ISOTOPE_OK) status = isotope_c_write(TX, block, IN(bytes, n));
    for (size_t i = 0; i < count && status == ISOTOPE_OK; i++) status = isotope_c_mark(TX, ranges[i].off, ranges[i].n);
    return isotope_device_leave(d, status);
}

int isotope_hash_put(isotope_device number, isotope_transaction tx, const void *key, size_t key_n, const void *value, size_t value_n) {
    ON(number, isotope_c_hash_put(TX, IN(key, key_n), IN(value, value_n)));
}
int isotope_hash_get(isotope_device number, isotope_transaction tx, const void *key, size_t key_n, void *into, size_t room, uint64_t *n) {
    ON(number, isotope_c_hash_get(TX, IN(key, key_n), OUT(into, room), LENGTH(n)));
}
int isotope_hash_delete(isotope_device number, isotope_transaction tx, const void *key, size_t key_n) {
    ON(number, isotope_c_hash_delete(TX, IN(key, key_n)));
}
int isotope_tree_put(isotope_device number, isotope_transaction tx, const void *key, size_t key_n, const void *value, size_t value_n) {
    ON(number, isotope_c_tree_put(TX, IN(key, key_n), IN(value, value_n)));
}
int isotope_tree_get(isotope_device number, isotope_transaction tx, const void *key, size_t key_n, void *into, size_t room, uint64_t *n) {
    ON(number, isotope_c_tree_get(TX, IN(key, key_n), OUT(into, room), LENGTH(n)));
}
int isotope_tree_delete(isotope_device number, isotope_transaction tx, const void *key, size_t key_n) {
    ON(number, isotope_c_tree_delete(TX, IN(key, key_n)));
}
int isotope_tree_scan(isotope_device number, isotope_transaction tx, const void *from, size_t from_n, const void *to, size_t to_n,
                      uint32_t most, void *into, size_t room, uint64_t *n) {
    ON(number, isotope_c_tree_scan(TX, IN(from, from_n), IN(to, to_n), most, OUT(into, room), LENGTH(n)));
}

int isotope_file_create(isotope_device number, isotope_transaction tx, const char *name) {
    ON(number, isotope_c_file_new(TX, TEXT(name)));
}
int isotope_file_write(isotope_device number, isotope_transaction tx, const char *name, uint32_t off, const void *bytes, size_t n) {
    ON(number, isotope_c_file_write(TX, TEXT(name), off, IN(bytes, n)));
}
int isotope_file_read(isotope_device number, isotope_transaction tx, const char *name, uint32_t off, void *into, size_t room, uint64_t *n) {
    uint32_t most = room < ISOTOPE_MOST_FILE_BYTES ? (uint32_t)room : ISOTOPE_MOST_FILE_BYTES;
    ON(number, isotope_c_file_read(TX, TEXT(name), off, most, OUT(into, room), LENGTH(n)));
}
int isotope_file_size(isotope_device number, isotope_transaction tx, const char *name, uint64_t *n) {
    *n = 0;
    ON(number, isotope_c_file_size(TX, TEXT(name), n));
}
int isotope_file_rename(isotope_device number, isotope_transaction tx, const char *from, const char *to) {
    ON(number, isotope_c_file_move(TX, TEXT(from), TEXT(to)));
}
int isotope_file_remove(isotope_device number, isotope_transaction tx, const char *name) {
    ON(number, isotope_c_file_delete(TX, TEXT(name)));
}

/* ---- Texts ---- */

const char *isotope_strerror(int status) {
    static const char *const texts[] = {
        "ok", "conflict with a later commit", "no such key or file", "the name has a file", "the log is full", "too many transactions",
        "the image has transactions of its own mode alone", "no such block", "bad range", "no access to mark", "too many marks",
        "too many accesses", "the image has no such store", "the transaction is not serial", "bad key", "bad value", "bad name",
        "no free blocks in the store", "the store is broken", "the numbers are used up", "no memory", "the file failed",
        "the device is down", "no such transaction", "no such device", "in use", "not an Isotope image", "bad numbers for an image",
        "the buffer has another length", "bad mode", "the file cannot be used", "too many devices", "no such file",
        "another opening has the file", "a file of this name exists", "the image is damaged",
    };
    return status >= 0 && (size_t)status < sizeof texts / sizeof *texts ? texts[status] : "no such status";
}

const char *isotope_refusal_text(const isotope_refusal *refusal, char *into, size_t n) {
    unsigned long long at = refusal->at, have = refusal->have;
    switch (refusal->why) {
    case 1: snprintf(into, n, "not an Isotope image"); break;
    case 2: snprintf(into, n, "bad geometry field %u", refusal->what); break;
    case 3: snprintf(into, n, "wrong size want %llu have %llu", at, have); break;
    case 4: snprintf(into, n, "no open half"); break;
    case 5: snprintf(into, n, "damaged at %llu cause %u", at, refusal->what); break;
    case 6: snprintf(into, n, "unknown form %u", refusal->what); break;
    default: snprintf(into, n, "no refusal");
    }
    return into;
}
