/* The exports of the proved library isotope_c, as C declares them. No program includes this file: isotope.c makes these calls, one at a
 * time for a slot. A Rattle slice is a pointer, which is not NULL, and a length. The structs are those of isotope.h, and so are the
 * statuses; each call but isotope_c_size answers ISOTOPE_CLOSED where the slot has no open device. */
#ifndef ISOTOPE_C_H
#define ISOTOPE_C_H
#include "isotope.h"

/* What the library keeps for a device. It is made of zeros, which is none, and C writes no more to it. */
typedef struct { uint64_t holds; void *at; } isotope_slot;

/* What isotope_c_calls() shows of a call of the tape: a write of n bytes at `at` of the file, a sync, the end of the tape, a write whose
 * bytes have no room. */
enum { TAPE_WRITE = 0, TAPE_SYNC = 1, TAPE_END = 2, TAPE_NO_ROOM = 28 };
typedef struct { uint64_t what, at, n; } isotope_tape_call;

int32_t isotope_c_size(const isotope_geometry *, uint64_t *size);
int32_t isotope_c_create(isotope_slot *, const isotope_geometry *);
int32_t isotope_c_load(isotope_slot *, uint64_t size);
int32_t isotope_c_lay(isotope_slot *, uint64_t at, const uint8_t *bytes, size_t n);
int32_t isotope_c_open(isotope_slot *, isotope_refusal *);
int32_t isotope_c_close(isotope_slot *);

int32_t isotope_c_calls(isotope_slot *, uint64_t index, isotope_tape_call *, size_t places, uint8_t *into, size_t room);
int32_t isotope_c_handed_on(isotope_slot *);
int32_t isotope_c_fail(isotope_slot *);

int32_t isotope_c_about(isotope_slot *, isotope_geometry *);
int32_t isotope_c_stat(isotope_slot *, isotope_numbers *);
int32_t isotope_c_compact(isotope_slot *);
int32_t isotope_c_upgrade(isotope_slot *);
int32_t isotope_c_trim(isotope_slot *);

int32_t isotope_c_begin(isotope_slot *, uint32_t mode, uint64_t *tx, uint64_t *at);
int32_t isotope_c_end(isotope_slot *, uint64_t tx, isotope_ended *);
int32_t isotope_c_end_group(isotope_slot *, const uint64_t *txs, size_t n, isotope_ended *, size_t n_ended);
int32_t isotope_c_end_waiting(isotope_slot *, const uint64_t *txs, size_t n, isotope_ended *, size_t n_ended);
int32_t isotope_c_abort(isotope_slot *, uint64_t tx);
int32_t isotope_c_room(isotope_slot *, uint64_t tx, uint32_t *accesses);

int32_t isotope_c_read(isotope_slot *, uint64_t tx, uint32_t block, uint8_t *into, size_t n);
int32_t isotope_c_write(isotope_slot *, uint64_t tx, uint32_t block, const uint8_t *bytes, size_t n);
int32_t isotope_c_get(isotope_slot *, uint64_t tx, uint32_t block, uint32_t off, uint8_t *into, size_t n);
int32_t isotope_c_peek(isotope_slot *, uint64_t tx, uint32_t block, uint32_t off, uint8_t *into, size_t n);
int32_t isotope_c_put(isotope_slot *, uint64_t tx, uint32_t block, uint32_t off, const uint8_t *bytes, size_t n);
int32_t isotope_c_fill(isotope_slot *, uint64_t tx, uint32_t block, const uint8_t *byte, size_t one);
int32_t isotope_c_mark(isotope_slot *, uint64_t tx, uint32_t off, uint32_t n);

int32_t isotope_c_hash_put(isotope_slot *, uint64_t tx, const uint8_t *key, size_t key_n, const uint8_t *value, size_t value_n);
int32_t isotope_c_hash_get(isotope_slot *, uint64_t tx, const uint8_t *key, size_t key_n, uint8_t *into, size_t room, uint64_t *n);
int32_t isotope_c_hash_delete(isotope_slot *, uint64_t tx, const uint8_t *key, size_t key_n);
int32_t isotope_c_tree_put(isotope_slot *, uint64_t tx, const uint8_t *key, size_t key_n, const uint8_t *value, size_t value_n);
int32_t isotope_c_tree_get(isotope_slot *, uint64_t tx, const uint8_t *key, size_t key_n, uint8_t *into, size_t room, uint64_t *n);
int32_t isotope_c_tree_delete(isotope_slot *, uint64_t tx, const uint8_t *key, size_t key_n);
int32_t isotope_c_tree_scan(isotope_slot *, uint64_t tx, const uint8_t *from, size_t from_n, const uint8_t *to, size_t to_n,
                            uint32_t most, uint8_t *into, size_t room, uint64_t *n);
int32_t isotope_c_file_new(isotope_slot *, uint64_t tx, const uint8_t *name, size_t name_n);
int32_t isotope_c_file_write(isotope_slot *, uint64_t tx, const uint8_t *name, size_t name_n, uint32_t off, const uint8_t *, size_t n);
int32_t isotope_c_file_read(isotope_slot *, uint64_t tx, const uint8_t *name, size_t name_n, uint32_t off, uint32_t most, uint8_t *into,
                            size_t room, uint64_t *n);
int32_t isotope_c_file_size(isotope_slot *, uint64_t tx, const uint8_t *name, size_t name_n, uint64_t *size);
int32_t isotope_c_file_move(isotope_slot *, uint64_t tx, const uint8_t *from, size_t from_n, const uint8_t *to, size_t to_n);
int32_t isotope_c_file_delete(isotope_slot *, uint64_t tx, const uint8_t *name, size_t name_n);
#endif
