/* What comes of calls that are wrong, where the C files answer for it: numbers of devices and transactions, files that fail or are no
 * image, forks, closing under other threads. Linked with --wrap of fdatasync, pwrite and fsync.     misuse FOLDER: an empty one */
#define _GNU_SOURCE
#include "expect.h"
#include <errno.h>
#include <fcntl.h>
#include <pthread.h>
#include <stdlib.h>
#include <string.h>
#include <sys/stat.h>
#include <sys/wait.h>
#include <unistd.h>

static const isotope_geometry small = {256, 32, 4096, ISOTOPE_SERIAL, 8, 8};
static long calls, fails_at;            /* calls of a file, and the one that fails; 0: none */
static char order[32];                  /* the first of them: w a write, d a sync of what is written, f of the file or folder whole */

static int fails(char kind) {
    if (calls < (long)sizeof order - 1) order[calls] = kind;
    errno = EIO;
    return ++calls == fails_at;
}
ssize_t __real_pwrite(int fd, const void *bytes, size_t n, off_t at);
ssize_t __wrap_pwrite(int fd, const void *bytes, size_t n, off_t at) { return fails('w') ? -1 : __real_pwrite(fd, bytes, n, at); }
int __real_fdatasync(int fd);
int __wrap_fdatasync(int fd) { return fails('d') ? -1 : __real_fdatasync(fd); }
int __real_fsync(int fd);
int __wrap_fsync(int fd) { return fails('f') ? -1 : __real_fsync(fd); }

static isotope_device made(const char *path) {
    isotope_device device = 0;
    unlink(path);
    expect_that("an image is made", isotope_create(path, &small, &device) == ISOTOPE_OK);
    return device;
}

static isotope_transaction begun(isotope_device device) {
    isotope_transaction tx = 0;
    expect_that("a transaction begins", isotope_begin(device, ISOTOPE_IMAGE_MODE, &tx, NULL) == ISOTOPE_OK);
    return tx;
}

/* Each call on a transaction is answered so. */
static void on_transaction(const char *what, isotope_device device, isotope_transaction tx, int wanted) {
    uint8_t b[256] = {0};
    uint64_t n;
    uint32_t room;
    isotope_range range = {0, 1};
    isotope_ended ended;
    const int answers[] = {
        isotope_read(device, tx, 20, b, 256), isotope_write(device, tx, 20, b, 256), isotope_get(device, tx, 20, 0, b, 1),
        isotope_put(device, tx, 20, 0, b, 1), isotope_peek(device, tx, 20, 0, b, 1), isotope_put_ranges(device, tx, 20, b, 256, &range, 1),
        isotope_fill(device, tx, 20, 1), isotope_mark(device, tx, 0, 1), isotope_room(device, tx, &room),
        isotope_hash_put(device, tx, "k", 1, "v", 1), isotope_hash_get(device, tx, "k", 1, b, 32, &n),
        isotope_hash_delete(device, tx, "k", 1), isotope_tree_put(device, tx, "k", 1, "v", 1),
        isotope_tree_get(device, tx, "k", 1, b, 32, &n), isotope_tree_delete(device, tx, "k", 1),
        isotope_tree_scan(device, tx, "a", 1, "z", 1, 1, b, 256, &n), isotope_file_create(device, tx, "f"),
        isotope_file_write(device, tx, "f", 0, b, 1), isotope_file_read(device, tx, "f", 0, b, 1, &n),
        isotope_file_size(device, tx, "f", &n), isotope_file_rename(device, tx, "f", "g"), isotope_file_remove(device, tx, "f"),
        isotope_end(device, tx, &ended), isotope_end(device, tx, NULL), isotope_abort(device, tx),
    };
    int count = sizeof answers / sizeof *answers, bad = 0;
    for (int i = 0; i < count; i++) {
        if (answers[i] == wanted) continue;
        printf("    call %d: %d %s\n", i, answers[i], isotope_strerror(answers[i]));
        bad++;
    }
    wrong += bad + (ended.status != wanted);
    printf("%s: %d calls, %s\n", what, count, bad ? "and not all so" : isotope_strerror(wanted));
}

/* Each call on a device is answered so. */
static void on_device(const char *what, isotope_device device, isotope_transaction tx, int wanted) {
    isotope_transaction other;
    isotope_numbers numbers;
    isotope_geometry geometry;
    isotope_ended ended;
    on_transaction(what, device, tx, wanted);
    other = 1;
    expect_that("begin", isotope_begin(device, ISOTOPE_IMAGE_MODE, &other, NULL) == wanted && other == 0);
    expect_that("end of a group", isotope_end_group(device, &tx, 1, &ended) == wanted);
    expect_that("compact", isotope_compact(device) == wanted);
    expect_that("upgrade", isotope_upgrade(device) == wanted);
    expect_that("trim", isotope_trim(device) == wanted);
    expect_that("stat", isotope_stat(device, &numbers) == wanted);
    expect_that("about", isotope_about(device, &geometry) == wanted);
}

static void numbers_of_devices(void) {
    isotope_device device = made("a.img"), again;
    isotope_transaction tx = begun(device);
    on_device("the device 0", 0, tx, ISOTOPE_CLOSED);
    on_device("a device that was never given", device + 1, tx, ISOTOPE_CLOSED);
    on_device("another one in the same place", device + ISOTOPE_MOST_DEVICES, tx, ISOTOPE_CLOSED);
    on_device("the largest number", UINT64_MAX, tx, ISOTOPE_CLOSED);
    expect("close", isotope_close(device), ISOTOPE_OK);
    on_device("a device that is closed", device, tx, ISOTOPE_CLOSED);
    expect("close once more", isotope_close(device), ISOTOPE_CLOSED);
    expect("open", isotope_open("a.img", &again, NULL), ISOTOPE_OK);
    expect_that("it has a number of its own", again != device);
    expect("close what was closed, while its file is open", isotope_close(device), ISOTOPE_CLOSED);
    on_transaction("a transaction of an opening before", again, tx, ISOTOPE_NO_TRANSACTION);
    isotope_close(again);
}

static void numbers_of_transactions(void) {
    isotope_device device = made("a.img"), other = made("b.img");
    isotope_transaction tx = begun(device), theirs = begun(other), ended = begun(device), aborted = begun(device);
    isotope_transaction live[ISOTOPE_MOST_TRANSACTIONS], more;
    isotope_ended how[2];
    isotope_numbers numbers;
    expect("end", isotope_end(device, ended, NULL), ISOTOPE_OK);
    expect("abort", isotope_abort(device, aborted), ISOTOPE_OK);
    on_transaction("the transaction 0", device, 0, ISOTOPE_NO_TRANSACTION);
    on_transaction("one that is ended", device, ended, ISOTOPE_NO_TRANSACTION);
    on_transaction("one that is aborted", device, aborted, ISOTOPE_NO_TRANSACTION);
    on_transaction("one that was never given", device, tx + 1000, ISOTOPE_NO_TRANSACTION);
    on_transaction("one of another device", device, theirs, ISOTOPE_NO_TRANSACTION);
    on_transaction("its number alone", device, tx & 0xffffffffff, ISOTOPE_NO_TRANSACTION);
    live[0] = theirs;
    live[1] = tx;
    expect("a group with one of another device", isotope_end_group(device, live, 2, how), ISOTOPE_OK);
    expect_that("which is none", how[0].status == ISOTOPE_NO_TRANSACTION && how[1].status == ISOTOPE_OK);
    expect("a group of nobody", isotope_end_group(device, NULL, 0, NULL), ISOTOPE_OK);
    expect("a group of sixty-five", isotope_end_group(device, live, ISOTOPE_MOST_GROUP + 1, NULL), ISOTOPE_TOO_MANY_TRANSACTIONS);
    for (int i = 0; i < ISOTOPE_MOST_TRANSACTIONS; i++) live[i] = begun(device);
    expect("one more than may be live", isotope_begin(device, ISOTOPE_IMAGE_MODE, &more, NULL), ISOTOPE_TOO_MANY_TRANSACTIONS);
    expect("stat", isotope_stat(device, &numbers), ISOTOPE_OK);
    expect_that("all are live, the first is the oldest", numbers.live == ISOTOPE_MOST_TRANSACTIONS && numbers.oldest == live[0]);
    expect("abort one", isotope_abort(device, live[7]), ISOTOPE_OK);
    expect("then one may begin", isotope_begin(device, ISOTOPE_IMAGE_MODE, &more, NULL), ISOTOPE_OK);
    expect("close with all of them", isotope_close(device), ISOTOPE_OK);
    isotope_close(other);
}

static void calls_are(const char *what, const char *wanted) {
    printf("the calls of %s:%s%s\n", what, *order ? " " : "", order);
    expect_that(wanted, strcmp(order, wanted) == 0);
    memset(order, 0, sizeof order);
    calls = 0;
}

/* What is called of the file, in which order: docs/image.md has why. */
static void order_of_calls(void) {
    isotope_transaction txs[3], many[ISOTOPE_MOST_GROUP];
    isotope_ended ended[ISOTOPE_MOST_GROUP];
    memset(order, 0, sizeof order);
    calls = 0;
    isotope_device device = made("a.img");
    calls_are("a creation: zeros, the image, its gate, its folder", "wfwwdwdf");
    expect_that("close", isotope_close(device) == ISOTOPE_OK);
    calls_are("a closing", "");
    expect_that("open", isotope_open("a.img", &device, NULL) == ISOTOPE_OK);
    calls_are("an opening, before it reads, and once it is read", "fd");
    for (int i = 0; i < 3; i++) {
        txs[i] = begun(device);
        expect_that("put", isotope_put(device, txs[i], 20, (uint32_t)i, "x", 1) == ISOTOPE_OK);
    }
    calls_are("what ends nothing", "");
    expect_that("end", isotope_end(device, txs[0], NULL) == ISOTOPE_OK);
    calls_are("a commit: its record, its gate", "wdwd");
    expect_that("end of a group", isotope_end_group(device, txs + 1, 2, ended) == ISOTOPE_OK);
    calls_are("two in a group", "wdwd");
    for (uint32_t i = 0; i < ISOTOPE_MOST_GROUP; i++) {
        many[i] = begun(device);
        expect_that("put", isotope_put(device, many[i], 20, i, "y", 1) == ISOTOPE_OK);
    }
    expect_that("end of as many as a group has", isotope_end_group(device, many, ISOTOPE_MOST_GROUP, ended) == ISOTOPE_OK);
    for (uint64_t i = 0; i < ISOTOPE_MOST_GROUP; i++)
        expect_that("which are all made", ended[i].status == ISOTOPE_OK && ended[i].commit == 4 + i);
    calls_are("as many as a group has", "wdwd");
    expect_that("end", isotope_end(device, begun(device), NULL) == ISOTOPE_OK);
    calls_are("an end of what wrote nothing", "");
    isotope_close(device);
}

/* Each call of the file that a compaction makes fails once: down, and the image opens to the commit that was there. */
static void compactions_that_fail(void) {
    long failing = 1;
    for (;; failing++) {
        isotope_device device = made("b.img"), closed;
        isotope_transaction tx = begun(device);
        isotope_numbers numbers;
        expect_that("a put", isotope_put(device, tx, 20, 0, "x", 1) == ISOTOPE_OK && isotope_end(device, tx, NULL) == ISOTOPE_OK);
        calls = 0;
        fails_at = failing;
        int status = isotope_compact(device);
        fails_at = 0;
        expect_that("a compaction whose file fails is told so", status == (calls < failing ? ISOTOPE_OK : ISOTOPE_DISK));
        expect_that("and down then", status == ISOTOPE_OK || isotope_compact(device) == ISOTOPE_DOWN);
        expect_that("nothing is called after it", calls <= failing);
        expect_that("close", isotope_close(device) == ISOTOPE_OK);
        expect_that("it opens to the commit", isotope_open("b.img", &closed, NULL) == ISOTOPE_OK
                    && isotope_stat(closed, &numbers) == ISOTOPE_OK && numbers.last == 1);
        isotope_close(closed);
        if (status == ISOTOPE_OK) break;
    }
    expect_that("a compaction calls the file", failing > 4);
}

/* A call of the file fails in an end: down, and the file is not called any more. */
static void files_that_fail(void) {
    for (long failing = 1; failing <= 4; failing++) {
        isotope_device device = made("a.img"), closed;
        isotope_transaction tx = begun(device), other = begun(device);
        isotope_numbers numbers;
        expect_that("a put", isotope_put(device, tx, 20, 0, "x", 1) == ISOTOPE_OK);
        calls = 0;
        fails_at = failing;
        expect("an end whose file fails", isotope_end(device, tx, NULL), ISOTOPE_DISK);
        expect_that("nothing is called after it", calls == failing);
        on_device("a call after it", device, other, ISOTOPE_DOWN);
        expect("close", isotope_close(device), ISOTOPE_OK);
        expect_that("nothing was called since", calls == failing);
        fails_at = 0;
        expect("open", isotope_open("a.img", &closed, NULL), ISOTOPE_OK);
        expect_that("it has the commit or not", isotope_stat(closed, &numbers) == ISOTOPE_OK && numbers.last <= 1);
        isotope_close(closed);
    }
}

/* Whether a folder has just so many files. */
static int has_files(const char *command_for_count, int wanted) {
    int count = -1;
    FILE *said = popen(command_for_count, "r");
    if (!said || fscanf(said, "%d", &count) != 1) count = -1;
    if (said) pclose(said);
    return count == wanted;
}

static void creations_that_fail(void) {
    isotope_device device;
    const isotope_geometry odd = {100, 4, 1024, ISOTOPE_SERIAL, 0, 0}, no_mode = {64, 4, 1024, 0, 0, 0};
    char name[64];
    mkdir("empty", 0777);
    expect("a geometry that is none", isotope_create("empty/x.img", &odd, &device), ISOTOPE_BAD_GEOMETRY);
    expect("a mode that is none", isotope_create("empty/x.img", &no_mode, &device), ISOTOPE_BAD_MODE);
    for (fails_at = 1;; fails_at++) {
        calls = 0;
        int status = isotope_create("empty/x.img", &small, &device), error = errno;
        if (status == ISOTOPE_OK) break;
        expect_that("a creation whose file fails is told so", status == ISOTOPE_FILE && error == EIO);
        expect_that("and leaves nothing", has_files("ls -A empty | wc -l", 0));
    }
    expect_that("eight calls or more can fail in it", fails_at > 8);
    fails_at = 0;
    isotope_close(device);
    expect_that("one file is there then", has_files("ls -A empty | wc -l", 1));
    errno = 0;
    expect("create in no folder", isotope_create("nowhere/x.img", &small, &device), ISOTOPE_FILE);
    expect_that("errno says why", errno == ENOENT);
    expect_that("a link to nothing", symlink("nothing", "link.img") == 0);
    expect("create over a link to nothing", isotope_create("link.img", &small, &device), ISOTOPE_NAME_TAKEN);
    /* what a process of this number left that was killed in a creation */
    for (int i = 0; i < 200; i++) {
        snprintf(name, sizeof name, "y.img.making-%ld-%d-0", (long)getpid(), i);
        close(open(name, O_CREAT | O_WRONLY, 0666));
    }
    expect("create where half an image was left", isotope_create("y.img", &small, &device), ISOTOPE_OK);
    isotope_close(device);
}

/* An image with some bytes changed, and made this long, does not open, for this reason, and stays as it is. */
static void damaged(const char *what, long at, const char *bytes, size_t n, off_t size, int wanted, const char *words) {
    static char before[32768], after[32768];
    isotope_device device = made("a.img");
    isotope_refusal refusal;
    char text[64];
    struct stat about;
    isotope_close(device);
    int fd = open("a.img", O_RDWR);
    if (n > 0 && __real_pwrite(fd, bytes, n, at) != (ssize_t)n) wrong++;
    if (size >= 0 && ftruncate(fd, size) != 0) wrong++;
    ssize_t had = pread(fd, before, sizeof before, 0);
    expect(what, isotope_open("a.img", &device, &refusal), wanted);
    isotope_refusal_text(&refusal, text, sizeof text);
    printf("    %s\n", text);
    expect_that(words, strcmp(text, words) == 0);
    expect_that("it is as it was", pread(fd, after, sizeof after, 0) == had && memcmp(before, after, (size_t)had) == 0
                && fstat(fd, &about) == 0 && (size < 0 || about.st_size == size));
    close(fd);
}

/* half 1 of `small` begins at 96 + 32 * 256 + 4096, which is 12384 */
static void files_that_are_no_image(void) {
    isotope_device device;
    isotope_refusal refusal;
    char text[8];
    damaged("an empty file", 0, "", 0, 0, ISOTOPE_NO_IMAGE, "not an Isotope image");
    damaged("another file", 0, "SQLite", 6, -1, ISOTOPE_NO_IMAGE, "not an Isotope image");
    damaged("a file that was not made whole", 63, "\0", 1, -1, ISOTOPE_NO_IMAGE, "not an Isotope image");
    damaged("a version that is none", 11, "\2", 1, -1, ISOTOPE_DAMAGED, "bad geometry field 1");
    damaged("a file that is cut", 0, "", 0, 1000, ISOTOPE_DAMAGED, "wrong size want 24704 have 1000");
    damaged("a file that is longer than any image", 0, "", 0, INT64_C(1) << 40, ISOTOPE_DAMAGED,
            "wrong size want 24704 have 1099511627776");
    damaged("no half that counts", 64, "\0", 1, -1, ISOTOPE_DAMAGED, "no open half");
    damaged("a form that is none", 65, "\3", 1, -1, ISOTOPE_DAMAGED, "unknown form 3");
    damaged("a zero of the header", 66, "\1", 1, -1, ISOTOPE_DAMAGED, "damaged at 66 cause 3");
    damaged("a record that is none", 96 + 32 * 256, "\1\7", 2, -1, ISOTOPE_DAMAGED, "damaged at 8289 cause 2");
    expect("open of nothing", isotope_open("none.img", &device, &refusal), ISOTOPE_ABSENT);
    expect_that("which is no refusal", refusal.why == 0 && strcmp(isotope_refusal_text(&refusal, text, 3), "no") == 0);
    expect("open of a folder", isotope_open("empty", &device, NULL), ISOTOPE_FILE);
    expect_that("the device is 0 then", device == 0);
    expect_that("a file that nobody may read", chmod("a.img", 0) == 0 && (geteuid() != 0 || seteuid(65534) == 0));
    int status = isotope_open("a.img", &device, NULL), error = errno;
    expect_that("and the one who may again", (getuid() != 0 || seteuid(0) == 0) && chmod("a.img", 0644) == 0);
    expect("open of a file that nobody may read", status, ISOTOPE_FILE);
    expect_that("with the reason", error == EACCES);
}

static void many_devices(void) {
    isotope_device devices[ISOTOPE_MOST_DEVICES], more;
    char name[32];
    for (int i = 0; i < ISOTOPE_MOST_DEVICES; i++) {
        snprintf(name, sizeof name, "many-%d.img", i);
        devices[i] = made(name);
    }
    expect("one more than may be open", isotope_create("more.img", &small, &more), ISOTOPE_TOO_MANY_DEVICES);
    expect("open one more", isotope_open("y.img", &more, NULL), ISOTOPE_TOO_MANY_DEVICES);
    expect("close one", isotope_close(devices[3]), ISOTOPE_OK);
    expect("then one can be made", isotope_create("more.img", &small, &more), ISOTOPE_OK);
    isotope_close(more);
    for (int i = 0; i < ISOTOPE_MOST_DEVICES; i++) if (i != 3) expect_that("close", isotope_close(devices[i]) == ISOTOPE_OK);
}

/* The exit status of a child that does this. */
static int in_child(int (*body)(isotope_device, isotope_transaction), isotope_device device, isotope_transaction tx) {
    int status;
    fflush(stdout);
    pid_t child = fork();
    if (child == 0) _exit(body(device, tx));
    return waitpid(child, &status, 0) == child && WIFEXITED(status) ? WEXITSTATUS(status) : -1;
}

static int has_none(isotope_device device, isotope_transaction tx) {
    isotope_device own;
    if (isotope_put(device, tx, 20, 0, "c", 1) != ISOTOPE_CLOSED || isotope_end(device, tx, NULL) != ISOTOPE_CLOSED) return 1;
    if (isotope_close(device) != ISOTOPE_CLOSED) return 2;
    if (isotope_open("a.img", &own, NULL) != ISOTOPE_LOCKED) return 3;
    if (isotope_create("child.img", &small, &own) != ISOTOPE_OK || own == device) return 4;
    return isotope_close(own);
}

static void forks(void) {
    isotope_device device = made("a.img"), again;
    isotope_transaction tx = begun(device);
    int ends[2];
    expect_that("a put", isotope_put(device, tx, 20, 0, "p", 1) == ISOTOPE_OK);
    int status = in_child(has_none, device, tx);
    printf("a child has none of the devices: %d\n", status);
    wrong += status != 0;
    expect("the parent's transaction ends", isotope_end(device, tx, NULL), ISOTOPE_OK);
    if (pipe(ends) != 0) exit(2);
    fflush(stdout);
    pid_t child = fork();
    if (child == 0) {
        char byte;
        close(ends[1]);
        _exit(read(ends[0], &byte, 1) != 0);
    }
    expect("close while a child lives", isotope_close(device), ISOTOPE_OK);
    expect("open, which the child does not hinder", isotope_open("a.img", &again, NULL), ISOTOPE_OK);
    isotope_close(again);
    close(ends[0]);
    close(ends[1]);
    waitpid(child, NULL, 0);
}

static void *call_until_closed(void *argument) {
    isotope_device device = *(isotope_device *)argument;
    isotope_transaction tx;
    for (;;) {
        int status = isotope_begin(device, ISOTOPE_IMAGE_MODE, &tx, NULL);
        if (status == ISOTOPE_OK) status = isotope_put(device, tx, 20, 0, "x", 1);
        if (status == ISOTOPE_OK) status = isotope_end(device, tx, NULL);
        if (status == ISOTOPE_LOG_FULL) status = isotope_abort(device, tx) == ISOTOPE_OK ? isotope_compact(device) : ISOTOPE_CLOSED;
        if (status == ISOTOPE_CLOSED) return NULL;
        if (status != ISOTOPE_OK) return argument;
    }
}

/* A device is closed while eight threads call it, and its file is opened by the next one meanwhile. */
static void closing_under_threads(void) {
    pthread_t threads[8];
    isotope_device device = made("a.img"), given[20];
    void *bad;
    int many = 0;
    for (int turn = 0; turn < 20; turn++) {
        given[turn] = device;
        for (int i = 0; i < 8; i++) pthread_create(&threads[i], NULL, call_until_closed, &given[turn]);
        usleep(2000);
        expect_that("close", isotope_close(device) == ISOTOPE_OK);
        expect_that("open", isotope_open("a.img", &device, NULL) == ISOTOPE_OK);
        for (int i = 0; i < 8; i++) {
            pthread_join(threads[i], &bad);
            many += bad == NULL;
        }
    }
    isotope_close(device);
    printf("of 160 threads on devices that are closed %d are told so\n", many);
    wrong += many != 160;
}

/* No stream may become the image. */
static void closed_streams(void) {
    isotope_device device;
    int kept = dup(0);
    close(0);
    unlink("a.img");
    int status = isotope_create("a.img", &small, &device), fd = open("/dev/null", O_RDONLY);
    expect("create without a standard input", status, ISOTOPE_OK);
    expect_that("it is not the image", fd == 0);
    dup2(kept, 0);
    close(kept);
    isotope_close(device);
}

int main(int argc, char **argv) {
    if (argc != 2 || chdir(argv[1]) != 0) return 2;
    numbers_of_devices();
    numbers_of_transactions();
    order_of_calls();
    files_that_fail();
    compactions_that_fail();
    creations_that_fail();
    files_that_are_no_image();
    many_devices();
    forks();
    closing_under_threads();
    closed_streams();
    return told();
}
