/* The stores and files of an image from C, and what they refuse.     stores IMAGE: no such file may be there, nor IMAGE-long */
#include "expect.h"
#include <string.h>

static isotope_device device;
static isotope_transaction tx;
static unsigned char bytes[ISOTOPE_MOST_FILE_BYTES];
static uint64_t n;

static void begin(void) { expect("begin", isotope_begin(device, ISOTOPE_IMAGE_MODE, &tx, NULL), ISOTOPE_OK); }
static void end(void) { expect("end", isotope_end(device, tx, NULL), ISOTOPE_OK); }

/* Whether this was found. */
static void found(const char *wanted, size_t length) { expect_that("what is found", n == length && memcmp(bytes, wanted, length) == 0); }

static void hash(void) {
    const char key[ISOTOPE_MOST_KEY + 1] = "twenty-eight bytes for a key";
    begin();
    expect("hash put", isotope_hash_put(device, tx, "key", 3, "value", 5), ISOTOPE_OK);
    expect("hash get", isotope_hash_get(device, tx, "key", 3, bytes, sizeof bytes, &n), ISOTOPE_OK);
    found("value", 5);
    expect("hash put over it", isotope_hash_put(device, tx, "key", 3, "other", 5), ISOTOPE_OK);
    expect("hash put of no bytes", isotope_hash_put(device, tx, key, ISOTOPE_MOST_KEY, NULL, 0), ISOTOPE_OK);
    end();
    begin();
    expect("hash get", isotope_hash_get(device, tx, "key", 3, bytes, 5, &n), ISOTOPE_OK);
    found("other", 5);
    expect("hash get of no bytes", isotope_hash_get(device, tx, key, ISOTOPE_MOST_KEY, NULL, 0, &n), ISOTOPE_OK);
    found("", 0);
    expect("into too few bytes", isotope_hash_get(device, tx, "key", 3, bytes, 4, &n), ISOTOPE_TOO_SMALL);
    expect_that("its length is told", n == 5);
    expect("a length that is not wanted", isotope_hash_get(device, tx, "key", 3, bytes, 5, NULL), ISOTOPE_OK);
    expect("hash delete", isotope_hash_delete(device, tx, "key", 3), ISOTOPE_OK);
    expect("hash delete once more", isotope_hash_delete(device, tx, "key", 3), ISOTOPE_MISSING);
    expect("hash get of what is not there", isotope_hash_get(device, tx, "key", 3, bytes, sizeof bytes, &n), ISOTOPE_MISSING);
    expect("hash put", isotope_hash_put(device, tx, "kept", 4, "by C", 4), ISOTOPE_OK);
    end();
}

static void tree(void) {
    begin();
    expect("tree put", isotope_tree_put(device, tx, "b", 1, "22", 2), ISOTOPE_OK);
    expect("tree put", isotope_tree_put(device, tx, "a", 1, "1", 1), ISOTOPE_OK);
    expect("tree put", isotope_tree_put(device, tx, "c", 1, "333", 3), ISOTOPE_OK);
    expect("tree get", isotope_tree_get(device, tx, "c", 1, bytes, sizeof bytes, &n), ISOTOPE_OK);
    found("333", 3);
    expect("tree scan", isotope_tree_scan(device, tx, "a", 1, "c", 1, 10, bytes, sizeof bytes, &n), ISOTOPE_OK);
    found("\1a\0011\1b\00222", 9);
    expect("tree scan for one pair", isotope_tree_scan(device, tx, "a", 1, "z", 1, 1, bytes, sizeof bytes, &n), ISOTOPE_OK);
    found("\1a\0011", 4);
    expect("into too few bytes", isotope_tree_scan(device, tx, "a", 1, "z", 1, 9, bytes, 14, &n), ISOTOPE_TOO_SMALL);
    expect_that("its length is told", n == 15);
    expect("tree scan for no pair", isotope_tree_scan(device, tx, "a", 1, "c", 1, 0, bytes, sizeof bytes, &n), ISOTOPE_BAD_RANGE);
    expect("tree scan where nothing is", isotope_tree_scan(device, tx, "d", 1, "z", 1, 9, bytes, sizeof bytes, &n), ISOTOPE_MISSING);
    expect("tree delete", isotope_tree_delete(device, tx, "b", 1), ISOTOPE_OK);
    expect("tree delete once more", isotope_tree_delete(device, tx, "b", 1), ISOTOPE_MISSING);
    expect("tree get of what is not there", isotope_tree_get(device, tx, "b", 1, bytes, sizeof bytes, &n), ISOTOPE_MISSING);
    /* names of files are keys of this store */
    expect("tree delete", isotope_tree_delete(device, tx, "a", 1), ISOTOPE_OK);
    expect("tree delete", isotope_tree_delete(device, tx, "c", 1), ISOTOPE_OK);
    end();
}

static void files(void) {
    begin();
    expect("file create", isotope_file_create(device, tx, "notes"), ISOTOPE_OK);
    expect("file create once more", isotope_file_create(device, tx, "notes"), ISOTOPE_EXISTS);
    expect("size of what is empty", isotope_file_size(device, tx, "notes", &n), ISOTOPE_OK);
    expect_that("no bytes", n == 0);
    expect("file write", isotope_file_write(device, tx, "notes", 0, "hello, file", 11), ISOTOPE_OK);
    expect("file write at its end", isotope_file_write(device, tx, "notes", 11, "s", 1), ISOTOPE_OK);
    expect("file size", isotope_file_size(device, tx, "notes", &n), ISOTOPE_OK);
    expect_that("twelve bytes", n == 12);
    expect("file write beyond its end", isotope_file_write(device, tx, "notes", 13, "x", 1), ISOTOPE_BAD_RANGE);
    expect("file write of no bytes", isotope_file_write(device, tx, "notes", 0, NULL, 0), ISOTOPE_BAD_RANGE);
    expect("file rename", isotope_file_rename(device, tx, "notes", "letters"), ISOTOPE_OK);
    end();
    begin();
    expect("file read", isotope_file_read(device, tx, "letters", 7, bytes, sizeof bytes, &n), ISOTOPE_OK);
    found("files", 5);
    expect("file read of a part", isotope_file_read(device, tx, "letters", 0, bytes, 5, &n), ISOTOPE_OK);
    found("hello", 5);
    expect("file read at its end", isotope_file_read(device, tx, "letters", 12, bytes, 1, &n), ISOTOPE_OK);
    found("", 0);
    expect("file read beyond its end", isotope_file_read(device, tx, "letters", 13, bytes, 1, &n), ISOTOPE_BAD_RANGE);
    expect("file read into no bytes", isotope_file_read(device, tx, "letters", 0, bytes, 0, &n), ISOTOPE_BAD_RANGE);
    expect("file read of what is not there", isotope_file_read(device, tx, "notes", 0, bytes, 1, &n), ISOTOPE_MISSING);
    expect("size of what is not there", isotope_file_size(device, tx, "notes", &n), ISOTOPE_MISSING);
    expect("file rename to a name that is taken", isotope_file_rename(device, tx, "letters", "letters"), ISOTOPE_EXISTS);
    expect("file create", isotope_file_create(device, tx, "old"), ISOTOPE_OK);
    expect("file remove", isotope_file_remove(device, tx, "old"), ISOTOPE_OK);
    expect("file remove once more", isotope_file_remove(device, tx, "old"), ISOTOPE_MISSING);
    end();
}

/* Sizes of a file that grows to many reads' length, on an image of its own. */
static void sizes(const char *path) {
    const isotope_geometry geometry = {4096, 40, 524288, ISOTOPE_SERIAL, 0, 4};
    const uint32_t lengths[] = {1, 4095, 4096, 4097, 8192, 8193, 12288, 20000, 40960, 65535, 100000};
    char name[4096];
    uint32_t size = 0;
    snprintf(name, sizeof name, "%s-long", path);
    expect("create", isotope_create(name, &geometry, &device), ISOTOPE_OK);
    begin();
    expect("file create", isotope_file_create(device, tx, "long"), ISOTOPE_OK);
    for (size_t i = 0; i < sizeof lengths / sizeof *lengths; i++) {
        while (size < lengths[i]) {
            uint32_t more = lengths[i] - size < sizeof bytes ? lengths[i] - size : (uint32_t)sizeof bytes;
            if (isotope_file_write(device, tx, "long", size, bytes, more) != ISOTOPE_OK) break;
            size += more;
        }
        expect("its size", isotope_file_size(device, tx, "long", &n), ISOTOPE_OK);
        expect_that("is what was written", n == lengths[i]);
    }
    end();
    expect("close", isotope_close(device), ISOTOPE_OK);
}

static void refusals(void) {
    begin();
    expect("a key of no bytes", isotope_hash_put(device, tx, NULL, 0, "value", 5), ISOTOPE_BAD_KEY);
    expect("a key of 29 bytes", isotope_tree_get(device, tx, bytes, ISOTOPE_MOST_KEY + 1, bytes + 64, 32, &n), ISOTOPE_BAD_KEY);
    expect("a value of 33 bytes", isotope_hash_put(device, tx, "key", 3, bytes, ISOTOPE_MOST_VALUE + 1), ISOTOPE_BAD_VALUE);
    expect("a name of no bytes", isotope_file_create(device, tx, ""), ISOTOPE_BAD_NAME);
    expect("a name of 29 bytes", isotope_file_create(device, tx, "a name that has twenty-nine.."), ISOTOPE_BAD_NAME);
    end();
    expect("upgrade", isotope_upgrade(device), ISOTOPE_OK);
    expect("begin in the snapshot mode", isotope_begin(device, ISOTOPE_SNAPSHOT, &tx, NULL), ISOTOPE_OK);
    expect("a store in it", isotope_hash_get(device, tx, "kept", 4, bytes, sizeof bytes, &n), ISOTOPE_STORE_MODE);
    expect("abort", isotope_abort(device, tx), ISOTOPE_OK);
    begin();
    expect("a write over the hash store", isotope_fill(device, tx, 0, 255), ISOTOPE_OK);
    for (uint32_t b = 1; b < 16; b++) expect_that("and over its other blocks", isotope_fill(device, tx, b, 255) == ISOTOPE_OK);
    expect("hash get in what is broken", isotope_hash_get(device, tx, "kept", 4, bytes, sizeof bytes, &n), ISOTOPE_BROKEN);
    expect("abort", isotope_abort(device, tx), ISOTOPE_OK);
}

int main(int argc, char **argv) {
    const isotope_geometry geometry = {256, 64, 262144, ISOTOPE_SERIAL, 16, 32};
    const char *path = argc > 1 ? argv[1] : "stores.img";
    expect("create", isotope_create(path, &geometry, &device), ISOTOPE_OK);
    if (wrong) return told();
    hash();
    tree();
    files();
    refusals();
    expect("close", isotope_close(device), ISOTOPE_OK);
    sizes(path);
    return told();
}
