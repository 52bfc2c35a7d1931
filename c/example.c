/* Two transactions on one image: the second read what the first one wrote, and is told so. Then each further kind of call once, and calls
 * that are wrong, which are answered and not done.     example IMAGE: no such file may be there */
#include "expect.h"
#include <string.h>

static isotope_device device;

/* Who commits first wins. */
static void conflict(void) {
    isotope_transaction a, b;
    isotope_ended ended;
    unsigned char bytes[5];
    expect("begin a", isotope_begin(device, ISOTOPE_IMAGE_MODE, &a, NULL), ISOTOPE_OK);
    expect("begin b", isotope_begin(device, ISOTOPE_IMAGE_MODE, &b, NULL), ISOTOPE_OK);
    expect("a puts", isotope_put(device, a, 2, 5, "hello", 5), ISOTOPE_OK);
    expect("b gets what stood there at its begin", isotope_get(device, b, 2, 5, bytes, 5), ISOTOPE_OK);
    expect_that("these are zeros", memcmp(bytes, "\0\0\0\0", 5) == 0);
    expect("b puts", isotope_put(device, b, 0, 0, "\1", 1), ISOTOPE_OK);
    expect("a ends", isotope_end(device, a, &ended), ISOTOPE_OK);
    printf("    commit %llu\n", (unsigned long long)ended.commit);
    expect("b ends", isotope_end(device, b, &ended), ISOTOPE_CONFLICT);
    printf("    with commit %llu, block %u at %u\n", (unsigned long long)ended.with, ended.block, ended.at);
    expect("b ends once more", isotope_end(device, b, NULL), ISOTOPE_NO_TRANSACTION);
}

/* One of each call on blocks. */
static void blocks(void) {
    const isotope_range ranges[] = {{0, 2}, {60, 4}};
    isotope_transaction tx;
    isotope_ended ended;
    uint64_t at;
    uint32_t room;
    unsigned char block[64], shown[64];
    for (int i = 0; i < 64; i++) block[i] = (unsigned char)i;
    expect("begin", isotope_begin(device, ISOTOPE_SERIAL, &tx, &at), ISOTOPE_OK);
    expect_that("it is shown commit 1", at == 1);
    expect("read", isotope_read(device, tx, 2, shown, 64), ISOTOPE_OK);
    expect_that("which has a's bytes", memcmp(shown + 5, "hello", 5) == 0);
    expect("fill", isotope_fill(device, tx, 1, 7), ISOTOPE_OK);
    expect("put of ranges", isotope_put_ranges(device, tx, 1, block, 64, ranges, 2), ISOTOPE_OK);
    expect("peek at what it wrote", isotope_peek(device, tx, 1, 0, shown, 64), ISOTOPE_OK);
    expect_that("the ranges are over the filling", shown[0] == 0 && shown[1] == 1 && shown[2] == 7 && shown[59] == 7 && shown[60] == 60);
    expect("write", isotope_write(device, tx, 3, block, 64), ISOTOPE_OK);
    expect("mark", isotope_mark(device, tx, 10, 3), ISOTOPE_OK);
    expect("room", isotope_room(device, tx, &room), ISOTOPE_OK);
    expect_that("four accesses were made", room == ISOTOPE_MOST_ACCESSES - 4);
    expect("end", isotope_end(device, tx, &ended), ISOTOPE_OK);
    expect("begin", isotope_begin(device, ISOTOPE_IMAGE_MODE, &tx, NULL), ISOTOPE_OK);
    expect("read", isotope_read(device, tx, 3, shown, 64), ISOTOPE_OK);
    expect_that("only what was marked is written", shown[9] == 0 && shown[10] == 10 && shown[12] == 12 && shown[13] == 0);
    expect("read into less than a block", isotope_read(device, tx, 3, shown, 63), ISOTOPE_TOO_SMALL);
    expect("end of what wrote nothing", isotope_end(device, tx, &ended), ISOTOPE_OK);
    expect_that("it is no commit", ended.commit == 0);
}

/* Three end as a group: the second conflicts with the first, and the third is named twice. */
static void group(void) {
    isotope_transaction txs[4];
    isotope_ended ended[4];
    unsigned char byte;
    for (int i = 0; i < 3; i++) expect("begin", isotope_begin(device, ISOTOPE_IMAGE_MODE, &txs[i], NULL), ISOTOPE_OK);
    expect("put", isotope_put(device, txs[0], 0, 0, "a", 1), ISOTOPE_OK);
    expect("get", isotope_get(device, txs[1], 0, 0, &byte, 1), ISOTOPE_OK);
    expect("put", isotope_put(device, txs[1], 0, 1, "b", 1), ISOTOPE_OK);
    expect("put", isotope_put(device, txs[2], 0, 2, "c", 1), ISOTOPE_OK);
    txs[3] = txs[2];
    expect("end of a group", isotope_end_group(device, txs, 4, ended), ISOTOPE_OK);
    for (int i = 0; i < 4; i++) printf("    %s, commit %llu\n", isotope_strerror(ended[i].status), (unsigned long long)ended[i].commit);
}

/* What is wrong is answered, and the transaction is as before. */
static void refusals(void) {
    isotope_transaction tx, other;
    isotope_ended ended;
    isotope_numbers numbers;
    unsigned char bytes[64];
    const isotope_range beyond = {60, 5};
    expect("begin", isotope_begin(device, ISOTOPE_IMAGE_MODE, &tx, NULL), ISOTOPE_OK);
    expect("a mode that is none", isotope_begin(device, 9, &other, NULL), ISOTOPE_BAD_MODE);
    expect("another mode", isotope_begin(device, ISOTOPE_SNAPSHOT, &other, NULL), ISOTOPE_MODE_FIXED);
    expect("a mark before any access", isotope_mark(device, tx, 0, 1), ISOTOPE_NO_ACCESS);
    expect("a block beyond the image", isotope_put(device, tx, 4, 0, "x", 1), ISOTOPE_BAD_BLOCK);
    expect("bytes beyond the block", isotope_put(device, tx, 0, 62, "xyz", 3), ISOTOPE_BAD_RANGE);
    expect("no bytes", isotope_put(device, tx, 0, 0, NULL, 0), ISOTOPE_BAD_RANGE);
    expect("a range beyond the block", isotope_put_ranges(device, tx, 0, bytes, 64, &beyond, 1), ISOTOPE_BAD_RANGE);
    expect("no range", isotope_put_ranges(device, tx, 0, bytes, 64, NULL, 0), ISOTOPE_BAD_RANGE);
    expect("a write of less than a block", isotope_write(device, tx, 0, bytes, 63), ISOTOPE_BAD_RANGE);
    expect("a store on an image without one", isotope_hash_put(device, tx, "k", 1, "v", 1), ISOTOPE_NO_STORE);
    expect("read", isotope_read(device, tx, 0, bytes, 64), ISOTOPE_OK);
    for (uint32_t i = 0; i < ISOTOPE_MOST_MARKS; i++) expect_that("eight marks", isotope_mark(device, tx, i, 1) == ISOTOPE_OK);
    expect("a ninth mark", isotope_mark(device, tx, 8, 1), ISOTOPE_TOO_MANY_MARKS);
    for (int i = 1; i < ISOTOPE_MOST_ACCESSES; i++) expect_that("4,096 accesses", isotope_get(device, tx, 0, 0, bytes, 1) == ISOTOPE_OK);
    expect("one access more", isotope_get(device, tx, 0, 0, bytes, 1), ISOTOPE_TOO_MANY_ACCESSES);
    expect("a peek, which is none", isotope_peek(device, tx, 0, 0, bytes, 1), ISOTOPE_OK);
    expect("abort", isotope_abort(device, tx), ISOTOPE_OK);
    expect("abort once more", isotope_abort(device, tx), ISOTOPE_NO_TRANSACTION);
    expect("begin", isotope_begin(device, ISOTOPE_IMAGE_MODE, &tx, NULL), ISOTOPE_OK);
    for (uint32_t i = 0; i < 4; i++) expect("fill", isotope_fill(device, tx, i, 1), ISOTOPE_OK);
    expect("end where the log has no room", isotope_end(device, tx, &ended), ISOTOPE_LOG_FULL);
    expect_that("it needs 20, 8 and 64 for each block, and a gate", ended.need == 20 + 4 * (8 + 64) + 1);
    expect_that("33, 103 and two times 29 bytes of 300 are taken", ended.room == 300 - 33 - 103 - 2 * 29);
    expect("stat", isotope_stat(device, &numbers), ISOTOPE_OK);
    expect_that("it is live still, and the oldest", numbers.live == 1 && numbers.oldest == tx);
    expect("abort", isotope_abort(device, tx), ISOTOPE_OK);
}

static void upkeep(void) {
    isotope_transaction tx;
    isotope_numbers numbers;
    expect("trim", isotope_trim(device), ISOTOPE_OK);
    expect("compact", isotope_compact(device), ISOTOPE_OK);
    expect("stat", isotope_stat(device, &numbers), ISOTOPE_OK);
    printf("    last %llu base %llu live %u used %u of %u form %u\n", (unsigned long long)numbers.last, (unsigned long long)numbers.base,
           numbers.live, numbers.used, numbers.log, numbers.form);
    expect("upgrade", isotope_upgrade(device), ISOTOPE_OK);
    expect("begin in the other mode", isotope_begin(device, ISOTOPE_SNAPSHOT, &tx, NULL), ISOTOPE_OK);
    expect("abort", isotope_abort(device, tx), ISOTOPE_OK);
}

int main(int argc, char **argv) {
    const isotope_geometry geometry = {64, 4, 300, ISOTOPE_SERIAL, 0, 0};
    const char *path = argc > 1 ? argv[1] : "example.img";
    isotope_device other;
    isotope_transaction stale, tx;
    isotope_geometry about;
    isotope_refusal refusal;
    unsigned char bytes[5];
    expect("open of what is not there", isotope_open(path, &device, &refusal), ISOTOPE_ABSENT);
    expect("create", isotope_create(path, &geometry, &device), ISOTOPE_OK);
    if (wrong) return told();
    expect("create once more", isotope_create(path, &geometry, &other), ISOTOPE_NAME_TAKEN);
    expect("open while it is open", isotope_open(path, &other, NULL), ISOTOPE_LOCKED);
    conflict();
    blocks();
    group();
    refusals();
    upkeep();
    expect("begin", isotope_begin(device, ISOTOPE_IMAGE_MODE, &stale, NULL), ISOTOPE_OK);
    expect("close with a live transaction", isotope_close(device), ISOTOPE_OK);
    expect("close once more", isotope_close(device), ISOTOPE_CLOSED);
    expect("begin on what is closed", isotope_begin(device, ISOTOPE_IMAGE_MODE, &tx, NULL), ISOTOPE_CLOSED);
    expect("open", isotope_open(path, &device, &refusal), ISOTOPE_OK);
    expect("about", isotope_about(device, &about), ISOTOPE_OK);
    expect_that("it has the numbers with which it was made", memcmp(&about, &geometry, sizeof about) == 0);
    expect("begin", isotope_begin(device, ISOTOPE_IMAGE_MODE, &tx, NULL), ISOTOPE_OK);
    expect("get", isotope_get(device, tx, 2, 5, bytes, 5), ISOTOPE_OK);
    expect_that("what was committed is there", memcmp(bytes, "hello", 5) == 0);
    expect("a transaction of the opening before", isotope_end(device, stale, NULL), ISOTOPE_NO_TRANSACTION);
    expect("close", isotope_close(device), ISOTOPE_OK);
    return told();
}
