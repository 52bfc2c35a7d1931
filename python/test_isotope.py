"""Tests of isotope.py over the shared object that LIBISOTOPE names: python3 test_isotope.py. Where ISOTOPE names the program, it reads what
was written here, and the other way round. What is expected is said in docs/script.md, docs/stores.md and isotope.h."""
import doctest
import os
import subprocess
import tempfile
import threading
import unittest

import isotope
from isotope import Status

PROGRAM = os.environ.get("ISOTOPE")


class ImageTest(unittest.TestCase):
    """Each test has a folder, and a device on an image of these numbers."""

    numbers = {"block_size": 64, "blocks": 4, "log": 256}

    def setUp(self):
        folder = tempfile.TemporaryDirectory()
        self.addCleanup(folder.cleanup)
        self.path = os.path.join(folder.name, "test.img")
        self.device = isotope.create(self.path, **self.numbers)
        self.addCleanup(self.device.close)

    def put(self, block, off, data):
        """A commit of these bytes."""
        with self.device.begin() as tx:
            tx.put(block, off, data)
        return tx.commit

    def shown(self, block, off, n):
        with self.device.begin() as tx:
            return tx.get(block, off, n)

    def reopen(self):
        self.device.close()
        self.device = isotope.open(self.path)

    def assertRefused(self, status, call, *words, kind=isotope.Error):
        with self.assertRaises(kind) as caught:
            call(*words)
        self.assertEqual(caught.exception.status, status)
        return caught.exception


class Devices(ImageTest):
    def test_geometry(self):
        wanted = isotope.Geometry(64, 4, 256, isotope.SERIAL, 0, 0)
        self.assertEqual(self.device.about(), wanted)
        self.reopen()
        self.assertEqual(self.device.geometry, wanted)

    def test_an_open_image_is_locked(self):
        self.assertRefused(Status.LOCKED, isotope.open, self.path, kind=isotope.Locked)

    def test_no_image_is_made_over_a_file(self):
        refused = self.assertRefused(Status.NAME_TAKEN, isotope.create, self.path, kind=FileExistsError)
        self.assertIsInstance(refused, isotope.FileExists)

    def test_an_absent_file(self):
        self.assertRefused(Status.ABSENT, isotope.open, self.path + ".none", kind=FileNotFoundError)

    def test_a_path_through_a_file(self):
        refused = self.assertRefused(Status.FILE, isotope.open, self.path + "/none", kind=isotope.FileFailed)
        self.assertIn(os.strerror(refused.errno), str(refused))

    def test_no_image_has_such_numbers(self):
        for numbers in ({"block_size": 65}, {"block_size": 8192}, {"blocks": 0}, {"blocks": 16385}, {"log": 63}, {"blocks": 1 << 32},
                        {"blocks": -1}, {"hash": 2}, {"block_size": 128, "tree": 4}):
            with self.subTest(**numbers):
                self.assertRefused(Status.BAD_GEOMETRY, lambda: isotope.create(self.path + ".new", **numbers), kind=ValueError)
                self.assertFalse(os.path.exists(self.path + ".new"))

    def test_a_file_that_is_no_image(self):
        with open(self.path + ".text", "wb") as file:
            file.write(b"words " * 1000)
        self.assertRefused(Status.NO_IMAGE, isotope.open, self.path + ".text", kind=isotope.NoImage)

    def test_an_image_of_another_size(self):
        self.device.close()
        size = os.path.getsize(self.path)
        with open(self.path, "ab") as file:
            file.write(b"x")
        refused = self.assertRefused(Status.DAMAGED, isotope.open, self.path, kind=isotope.Damaged)
        self.assertIn(f"wrong size want {size} have {size + 1}", str(refused))

    def test_commits_stay(self):
        self.put(2, 5, b"hello")
        live = self.device.begin()
        live.put(2, 5, b"jelly")
        self.reopen()
        self.assertEqual(self.shown(2, 5, 5), b"hello")
        self.assertRefused(Status.CLOSED, live.end)
        live.device = self.device
        self.assertRefused(Status.NO_TRANSACTION, live.end)

    def test_a_closed_device(self):
        tx = self.device.begin()
        self.device.close()
        self.device.close()
        for call in (self.device.begin, self.device.stat, self.device.compact, tx.end, tx.abort, lambda: tx.get(0, 0, 1)):
            self.assertRefused(Status.CLOSED, call, kind=isotope.Closed)

    def test_transactions_that_are_live_at_once(self):
        live = [self.device.begin() for _ in range(1024)]
        self.assertRefused(Status.TOO_MANY_TRANSACTIONS, self.device.begin, kind=isotope.TooManyTransactions)
        live[7].abort()
        self.device.begin()
        self.assertEqual(self.device.stat().live, 1024)

    def test_modes(self):
        self.assertRefused(Status.MODE_FIXED, self.device.begin, isotope.SNAPSHOT)
        self.assertRefused(Status.BAD_MODE, self.device.begin, 9, kind=isotope.BadArgument)
        self.assertEqual(self.device.stat().form, 1)
        self.device.upgrade()
        self.assertEqual(self.device.stat().form, 2)
        one, two = (self.device.begin(isotope.SNAPSHOT) for _ in range(2))
        one.get(0, 0, 1), two.get(0, 1, 1), one.put(0, 1, b"a"), two.put(0, 0, b"b")
        self.assertEqual((one.end(), two.end()), (1, 2))

    def test_floor_base_and_trim(self):
        self.put(0, 0, b"a")
        reader = self.device.begin()
        self.put(0, 0, b"b")
        self.put(0, 0, b"c")
        numbers = dict(last=3, base=0, trim=0, versions=3, oldest=reader.number, live=1, used=87, log=256, form=1)
        self.assertEqual(self.device.stat(), isotope.Numbers(**numbers))
        self.device.trim()
        self.device.compact()
        numbers.update(base=1, trim=1, used=58, versions=2)
        self.assertEqual(self.device.stat(), isotope.Numbers(**numbers))
        self.assertEqual(reader.end(), 0)
        self.device.trim()
        numbers.update(trim=3, oldest=0, live=0, versions=1)
        self.assertEqual(self.device.stat(), isotope.Numbers(**numbers))
        self.device.compact()
        numbers.update(base=3, used=0, versions=0)
        self.assertEqual(self.device.stat(), isotope.Numbers(**numbers))


class Transactions(ImageTest):
    def test_a_with_block(self):
        with self.assertRaises(ZeroDivisionError):
            with self.device.begin() as tx:
                tx.put(0, 0, b"a")
                1 // 0
        self.assertIsNone(tx.commit)
        self.assertRefused(Status.NO_TRANSACTION, tx.end, kind=isotope.NoTransaction)
        with self.device.begin() as tx:
            tx.put(0, 1, b"b")
        self.assertEqual((tx.begin, tx.commit), (0, 1))
        with self.device.begin() as tx:
            tx.abort()
        with self.device.begin() as tx:
            self.assertEqual(tx.get(0, 0, 3), b"\0b\0")
        self.assertEqual((tx.begin, tx.commit), (1, 0))

    def test_blocks(self):
        with self.device.begin() as tx:
            tx.write(1, bytes(range(64)))
            tx.put(1, 3, bytearray(b"xyz"))
            self.assertEqual(tx.read(1), b"\0\1\2xyz" + bytes(range(6, 64)))
            tx.fill(2, 0xAB)
            tx.put_ranges(2, memoryview(bytes(range(64))), [(0, 1), (10, 2)])
            self.assertEqual(tx.peek(2, 0, 13), b"\0" + b"\xab" * 9 + b"\n\x0b\xab")
        self.assertEqual(self.shown(2, 9, 3), b"\xab\n\x0b")

    def test_refusals_of_blocks(self):
        with self.device.begin() as tx:
            self.assertRefused(Status.NO_ACCESS, tx.mark, 0, 1)
            self.assertRefused(Status.BAD_BLOCK, tx.read, 4, kind=ValueError)
            self.assertRefused(Status.BAD_BLOCK, tx.put, 1 << 32, 0, b"a")
            self.assertRefused(Status.BAD_RANGE, tx.put, 0, 63, b"ab", kind=isotope.BadArgument)
            self.assertRefused(Status.BAD_RANGE, tx.put, 0, 0, b"")
            self.assertRefused(Status.BAD_RANGE, tx.get, 0, -1, 1)
            self.assertRefused(Status.BAD_RANGE, tx.get, 0, 0, 65)
            self.assertRefused(Status.BAD_RANGE, tx.write, 0, b"short")
            self.assertRefused(Status.BAD_RANGE, tx.put_ranges, 0, bytes(64), [])
            self.assertRefused(Status.BAD_RANGE, tx.put_ranges, 0, bytes(64), [(60, 5)])
            self.assertRefused(Status.TOO_MANY_MARKS, tx.put_ranges, 0, bytes(64), [(n, 1) for n in range(9)])
            self.assertRaises(TypeError, tx.put, 0, 0, 5)
            self.assertEqual(tx.room(), 4096)
            tx.read(0)
            for n in range(8):
                tx.mark(n, 1)
            self.assertRefused(Status.TOO_MANY_MARKS, tx.mark, 8, 1)
            self.assertEqual(tx.room(), 4095)

    def test_accesses(self):
        with self.device.begin() as tx:
            for n in range(4096):
                tx.get(0, n % 64, 1)
            self.assertEqual(tx.room(), 0)
            self.assertRefused(Status.TOO_MANY_ACCESSES, tx.get, 0, 0, 1, kind=isotope.TooManyAccesses)
            self.assertEqual(tx.peek(0, 0, 1), b"\0")

    def test_a_conflict(self):
        one, two = self.device.begin(), self.device.begin()
        one.put(2, 5, b"\xab\xcd")
        self.assertEqual(two.get(2, 5, 2), b"\0\0")
        self.assertEqual(one.end(), 1)
        two.put(0, 0, b"\1")
        met = self.assertRefused(Status.CONFLICT, two.end, kind=isotope.Conflict)
        self.assertEqual((met.commit, met.block, met.at), (1, 2, 5))
        self.assertRefused(Status.NO_TRANSACTION, two.end)
        self.assertEqual(self.shown(0, 0, 1), b"\0")

    def test_a_peek_is_no_access(self):
        one, two = self.device.begin(), self.device.begin()
        one.put(2, 5, b"a")
        self.assertEqual(two.peek(2, 5, 1), b"\0")
        one.end()
        self.assertEqual(two.peek(2, 5, 1), b"\0")
        two.put(0, 0, b"b")
        self.assertEqual(two.end(), 2)

    def test_marks_and_ranges_narrow(self):
        one, two = self.device.begin(), self.device.begin()
        one.put_ranges(3, b"1" * 64, [(0, 4), (8, 4)])
        two.read(3)
        two.mark(4, 4)
        two.write(3, b"2" * 64)
        two.mark(4, 4)
        self.assertEqual((one.end(), two.end()), (1, 2))
        self.assertEqual(self.shown(3, 0, 13), b"1111222211110".replace(b"0", b"\0"))

    def test_a_group(self):
        one, two, over, three = (self.device.begin() for _ in range(4))
        over.abort()
        one.put(0, 0, b"\xaa")
        two.put(0, 1, b"\xbb")
        three.get(0, 0, 1)
        three.put(1, 0, b"c")
        ends = self.device.end_group([one, two, over, three, one])
        self.assertEqual(ends[:2], [1, 2])
        self.assertEqual([error.status for error in ends[2:]], [Status.NO_TRANSACTION, Status.CONFLICT, Status.NO_TRANSACTION])
        self.assertEqual((ends[3].commit, ends[3].block, ends[3].at), (1, 0, 0))
        self.assertEqual((one.commit, two.commit, three.commit), (1, 2, None))
        self.assertEqual(self.device.end_group([]), [])
        many = [self.device.begin() for _ in range(65)]
        self.assertRefused(Status.TOO_MANY_TRANSACTIONS, self.device.end_group, many, kind=isotope.TooManyTransactions)
        self.assertEqual(self.device.end_group(many[:64]), [0] * 64)
        many[64].abort()

    def test_a_group_with_a_full_log(self):
        one, two = self.device.begin(), self.device.begin()
        one.fill(0, 1), one.fill(1, 1)
        two.fill(2, 1), two.fill(3, 1)
        ends = self.device.end_group([one, two])        # 164 bytes each, and one for the next gate; the log has 256
        self.assertEqual(ends[0], 1)
        self.assertEqual((ends[1].status, ends[1].need, ends[1].room), (Status.LOG_FULL, 165, 92))
        self.assertRefused(Status.NO_TRANSACTION, two.end)

    def test_another_device(self):
        with isotope.create(self.path + ".other", **self.numbers) as other:
            tx = other.begin()
            self.assertRefused(Status.NO_TRANSACTION, self.device.end_group, [tx])
            tx.device = self.device
            self.assertRefused(Status.NO_TRANSACTION, tx.end)
            tx.device = other
            self.assertEqual(tx.end(), 0)


class LogIsFull(ImageTest):
    numbers = {"block_size": 64, "blocks": 4, "log": 64}

    def test_the_way_out(self):
        reader = self.device.begin()
        self.put(0, 0, b"a")
        self.put(0, 0, b"b")
        tx = self.device.begin()
        tx.put(1, 0, b"c")
        full = self.assertRefused(Status.LOG_FULL, tx.end, kind=isotope.LogFull)
        self.assertEqual((full.need, full.room), (30, 6))
        self.device.compact()
        self.assertRefused(Status.LOG_FULL, tx.end)
        reader.abort()
        self.device.compact()
        self.assertEqual(tx.end(), 3)

    def test_a_with_block_aborts(self):
        self.put(0, 0, b"a")
        self.put(0, 0, b"b")
        with self.assertRaises(isotope.LogFull):
            with self.device.begin() as tx:
                tx.put(1, 0, b"c")
        self.assertEqual(self.device.stat().live, 0)

    def test_transact_compacts(self):
        for n in range(20):
            self.device.transact(lambda tx: tx.put(1, 0, bytes([n])))
        self.assertEqual((self.device.stat().last, self.shown(1, 0, 1)), (20, b"\x13"))

    def test_transact_gives_up_what_never_fits(self):
        with self.assertRaises(isotope.LogFull) as caught:
            self.device.transact(lambda tx: tx.fill(1, 7))
        self.assertEqual((caught.exception.need, caught.exception.room), (93, 64))
        self.assertEqual((self.device.stat().live, self.device.stat().base), (0, 0))


class Transact(ImageTest):
    numbers = {"block_size": 64, "blocks": 4, "log": 65536}

    def add(self, tx):
        n = int.from_bytes(tx.get(0, 0, 8), "big") + 1
        tx.put(0, 0, n.to_bytes(8, "big"))
        return n

    def test_a_conflict_is_tried_again(self):
        seen = []

        def function(tx):
            seen.append(tx.get(0, 7, 1))
            if len(seen) < 3:
                self.put(0, 7, bytes([len(seen)]))
            tx.put(1, 0, b"x")
            return "done"

        self.assertEqual(self.device.transact(function), "done")
        self.assertEqual(seen, [b"\0", b"\1", b"\2"])

    def test_tries_end(self):
        tries = []

        def function(tx):
            tries.append(tx.get(0, 7, 1))
            self.put(0, 7, bytes([len(tries)]))
            tx.put(1, 0, b"x")

        with self.assertRaises(isotope.Conflict) as caught:
            self.device.transact(function, tries=2)
        self.assertEqual((len(tries), caught.exception.commit, self.device.stat().live), (2, 2, 0))

    def test_an_exception_aborts(self):
        with self.assertRaises(ZeroDivisionError):
            self.device.transact(lambda tx: (tx.put(0, 0, b"a"), 1 // 0))
        self.assertEqual((self.device.stat().live, self.device.stat().last), (0, 0))

    def test_threads(self):
        def work():
            for _ in range(50):
                self.device.transact(self.add, tries=10000)

        self.reopen()
        four = [threading.Thread(target=work) for _ in range(4)]
        for thread in four:
            thread.start()
        for thread in four:
            thread.join()
        self.assertEqual(self.device.transact(self.add), 201)


class Stores(ImageTest):
    numbers = {"block_size": 256, "blocks": 16, "log": 65536, "hash": 3, "tree": 4}

    def test_maps(self):
        for kind in ("hash", "tree"):
            with self.subTest(kind), self.device.begin() as tx:
                store = getattr(tx, kind)
                store[b"one"] = b"1"
                store[b"two"] = b""
                store[b"one"] = b"first"
                self.assertEqual((store[b"one"], store[b"two"], store.get(b"three", 3)), (b"first", b"", 3))
                self.assertTrue(b"two" in store and b"three" not in store)
                del store[b"one"]
                self.assertRefused(Status.MISSING, store.__getitem__, b"one", kind=KeyError)
                self.assertRefused(Status.MISSING, store.__delitem__, b"one", kind=isotope.Missing)
                for key in (b"", b"k" * 29):
                    self.assertRefused(Status.BAD_KEY, store.__setitem__, key, b"v", kind=isotope.BadArgument)
                self.assertRefused(Status.BAD_VALUE, store.__setitem__, b"k", b"v" * 33, kind=isotope.BadArgument)
                store[b"k" * 28] = b"v" * 32
        self.reopen()
        with self.device.begin() as tx:
            self.assertEqual((tx.hash[b"k" * 28], tx.tree[b"k" * 28], tx.hash[b"two"]), (b"v" * 32, b"v" * 32, b""))

    def test_a_scan(self):
        with self.device.begin() as tx:
            self.assertEqual(tx.tree.scan(b"a", b"z"), [])
            for key in (b"b", b"d", b"a", b"c"):
                tx.tree[key] = b"=" + key
            self.assertEqual(tx.tree.scan(b"b", b"d"), [(b"b", b"=b"), (b"c", b"=c")])
            self.assertEqual(tx.tree.scan(b"a", b"z", 3), [(b"a", b"=a"), (b"b", b"=b"), (b"c", b"=c")])
            self.assertEqual(len(tx.tree.scan(b"a", b"z", 1 << 31)), 4)
            self.assertRefused(Status.BAD_RANGE, tx.tree.scan, b"a", b"z", 0)
            self.assertRefused(Status.BAD_KEY, tx.tree.scan, b"", b"z")

    def test_the_longest_pairs(self):
        pairs = [(bytes([n]) * 28, bytes([n]) * 32) for n in range(4)]
        with self.device.begin() as tx:
            for key, value in pairs:
                tx.tree[key] = value
            self.assertEqual(tx.tree.scan(b"\0", b"\xff", 8), pairs)

    def test_a_full_store(self):
        with self.device.begin() as tx:
            with self.assertRaises(isotope.NoBlocks):
                for n in range(200):
                    tx.hash[bytes([n])] = b""

    def test_stores_want_a_serial_transaction(self):
        self.device.upgrade()
        tx = self.device.begin(isotope.SNAPSHOT)
        self.assertRefused(Status.STORE_MODE, tx.hash.get, b"key")

    def test_an_image_without_stores(self):
        with isotope.create(self.path + ".none", blocks=4) as device, device.begin() as tx:
            self.assertRefused(Status.NO_STORE, tx.hash.get, b"key", kind=isotope.NoStore)
            self.assertRefused(Status.NO_STORE, tx.tree.scan, b"a", b"b", kind=isotope.NoStore)
            self.assertRefused(Status.NO_STORE, tx.files.size, "name", kind=isotope.NoStore)


class FilesInAnImage(ImageTest):
    numbers = {"block_size": 256, "blocks": 16, "log": 65536, "tree": 4}

    def test_files(self):
        with self.device.begin() as tx:
            files = tx.files
            files.create("a")
            self.assertRefused(Status.EXISTS, files.create, b"a", kind=isotope.Exists)
            files.write("a", 0, b"\1\2")
            self.assertRefused(Status.BAD_RANGE, files.write, "a", 3, b"\1")
            self.assertEqual((files.read("a", 1), files.read("a", 2), files.size("a")), (b"\2", b"", 2))
            self.assertRefused(Status.BAD_RANGE, files.read, "a", 3)
            files.rename("a", "b")
            self.assertRefused(Status.MISSING, files.read, "a", 0, kind=isotope.Missing)
            self.assertRefused(Status.EXISTS, files.rename, "b", "b", kind=isotope.Exists)
            files.write("b", 2, b"x" * 600)
        self.reopen()
        with self.device.begin() as tx:
            self.assertEqual(tx.files.read("b", 0), b"\1\2" + b"x" * 600)
            self.assertEqual(tx.files.read("b", 1, 2), b"\2x")
            tx.files.remove("b")
            self.assertRefused(Status.MISSING, tx.files.remove, "b", kind=KeyError)
            self.assertRefused(Status.MISSING, tx.files.size, "b")
            for name in ("", "n" * 29, "n\0m"):
                self.assertRefused(Status.BAD_NAME, tx.files.create, name, kind=isotope.BadArgument)
            self.assertRefused(Status.BAD_RANGE, tx.files.write, "b", 0, b"")
            self.assertRefused(Status.BAD_RANGE, tx.files.write, "b", 0, bytes(4097))


@unittest.skipUnless(PROGRAM, "ISOTOPE names no program")
class TheProgram(ImageTest):
    numbers = {"block_size": 256, "blocks": 16, "log": 65536, "hash": 3, "tree": 4}

    def run_script(self, *lines):
        self.device.close()
        text = "".join(f"1 {line}\n" for line in lines)
        done = subprocess.run([PROGRAM, "run", self.path], input=text.encode(), stdout=subprocess.PIPE, check=True)
        self.device = isotope.open(self.path)
        return done.stdout.decode().splitlines()

    def test_each_reads_the_other(self):
        with self.device.begin() as tx:
            tx.put(15, 3, b"\xab\xcd")
            tx.hash[b"k"] = b"v"
            tx.files.create("f")
            tx.files.write("f", 0, b"\5\6")
        lines = self.run_script("begin", "get 15 2 4", "hget 6b", "fread 66 0 9", "put 15 0 ff", "tput 74 75", "fwrite 66 2 07", "end")
        self.assertEqual(lines, ["1 ok begin 1", "1 ok 00abcd00", "1 ok 76", "1 ok 0506", "1 ok", "1 ok", "1 ok", "1 ok commit 2"])
        with self.device.begin() as tx:
            self.assertEqual((tx.begin, tx.get(15, 0, 5), tx.tree[b"t"]), (2, b"\xff\0\0\xab\xcd", b"u"))
            self.assertEqual(tx.files.read("f", 0), b"\5\6\7")


class Statuses(unittest.TestCase):
    def test_each_has_a_text(self):
        texts = [str(isotope.Error(status)) for status in Status]
        self.assertEqual(len(set(texts)), len(texts))


def set_up(test):
    folder = tempfile.TemporaryDirectory()
    path = os.path.join(folder.name, "data.img")
    device = isotope.create(path + ".device", blocks=64, hash=8, tree=8)
    test.globs.update(isotope=isotope, path=path, device=device, folder=folder)


def tear_down(test):
    test.globs["device"].close()
    test.globs["folder"].cleanup()


def load_tests(loader, tests, pattern):
    """The examples of the docstrings, each with a device of its own."""
    tests.addTests(doctest.DocTestSuite(isotope, setUp=set_up, tearDown=tear_down))
    return tests


if __name__ == "__main__":
    unittest.main()
