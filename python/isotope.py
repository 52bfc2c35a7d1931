"""Isotope from Python: transactions on the blocks of one image file, by ctypes over libisotope.so.

    >>> with isotope.create(path, blocks=64, hash=8, tree=8) as device:
    ...     with device.begin() as tx:              # ends where the block ends, aborts where it raises
    ...         tx.put(20, 0, b"hello")
    ...         tx.hash[b"key"] = b"value"
    ...     device.transact(lambda tx: tx.get(20, 0, 5))
    b'hello'
    >>> tx.commit
    1

A transaction is shown the last commit of its begin, with its own writes on top. Its end makes all that it wrote one commit, or none of it:
a later commit that wrote what it read is a `Conflict`. `Device.transact` runs a function again until there is none.

Each status of isotope.h but OK is an exception below `Error`, with a class of its own where a caller would catch it; where a docstring says
no more, the device and the transaction are as before. Any thread may use any device and any transaction. In a child of fork() the devices
of its parent are closed.

The variable LIBISOTOPE names the shared object; else it is looked for beside this file, in ../c/out, and where the system looks. In the
examples below `device` is an image like the one above, just made.
"""
import ctypes
import enum
import errno
import os
import pathlib
from typing import NamedTuple

__all__ = [
    "IMAGE_MODE", "SERIAL", "SNAPSHOT", "create", "open", "Device", "Transaction", "Geometry", "Numbers", "Status", "Error",
    "BadArgument", "Closed", "Conflict", "Damaged", "DiskFailed", "Down", "Exists", "FileAbsent", "FileExists", "FileFailed", "Locked",
    "LogFull", "Missing", "NoBlocks", "NoImage", "NoMemory", "NoStore", "NoTransaction", "TooManyAccesses", "TooManyTransactions",
]

IMAGE_MODE, SERIAL, SNAPSHOT = 0, 1, 2
_MOST_KEY, _MOST_VALUE, _MOST_FILE_BYTES = 28, 32, 4096
_U8, _U32, _U64, _SIZE = ctypes.c_uint8, ctypes.c_uint32, ctypes.c_uint64, ctypes.c_size_t


# ---- what is refused ----


class Status(enum.IntEnum):
    """The statuses of isotope.h, which says what each of them means."""

    OK = 0
    CONFLICT = 1
    MISSING = 2
    EXISTS = 3
    LOG_FULL = 4
    TOO_MANY_TRANSACTIONS = 5
    MODE_FIXED = 6
    BAD_BLOCK = 7
    BAD_RANGE = 8
    NO_ACCESS = 9
    TOO_MANY_MARKS = 10
    TOO_MANY_ACCESSES = 11
    NO_STORE = 12
    STORE_MODE = 13
    BAD_KEY = 14
    BAD_VALUE = 15
    BAD_NAME = 16
    NO_BLOCKS = 17
    BROKEN = 18
    WORN = 19
    MEMORY = 20
    DISK = 21
    DOWN = 22
    NO_TRANSACTION = 23
    CLOSED = 24
    NO_IMAGE = 26
    BAD_GEOMETRY = 27
    TOO_SMALL = 28
    BAD_MODE = 29
    FILE = 30
    TOO_MANY_DEVICES = 31
    ABSENT = 32
    LOCKED = 33
    NAME_TAKEN = 34
    DAMAGED = 35


_KNOWN = frozenset(Status)


class Error(Exception):
    """A call was refused. `status` is a `Status`."""

    def __init__(self, status, note=""):
        self.status = Status(status) if status in _KNOWN else status
        self._text = _library.isotope_strerror(status).decode() + (f": {note}" if note else "")
        super().__init__(self._text)

    def __str__(self):
        return self._text


class Conflict(Error):
    """A later commit wrote what the transaction read: the commit, and the block and the byte `at` which they met. It is over."""

    def __init__(self, status, commit, block, at):
        super().__init__(status, f"commit {commit}, block {block} at {at}")
        self.commit, self.block, self.at = commit, block, at


class LogFull(Error):
    """The commit needs `need` bytes of the log, which has `room`. The transaction is live: `compact` the device, and end it again."""

    def __init__(self, status, need, room):
        super().__init__(status, f"{need} bytes, room for {room}")
        self.need, self.room = need, room


class Missing(Error, KeyError):
    """There is no such key, or no such file in the image."""


class Exists(Error):
    """The name has a file in the image."""


class TooManyTransactions(Error):
    """1,024 transactions of the device are live, or more than 64 are to end as a group."""


class TooManyAccesses(Error):
    """A transaction has up to 4,096 accesses. A peek is none."""


class NoStore(Error):
    """The image has no such store, or no room for files."""


class NoBlocks(Error):
    """The store, or the room for files, has too few free blocks."""


class BadArgument(Error, ValueError):
    """No such block, range, mark, key, value, name, mode or geometry; `status` says which."""


class NoMemory(Error, MemoryError):
    """Want of memory, before anything was made. After one of a store's calls abort."""


class Down(Error):
    """The file failed earlier: close the device, and open the image again."""


class DiskFailed(Down):
    """The file failed in this call, and the device is down. After an end the commit is in the image, or it is not."""


class NoTransaction(Error):
    """The transaction is over."""


class Closed(Error):
    """The device is closed."""


class NoImage(Error):
    """The file is no Isotope image."""


class Damaged(NoImage):
    """The file begins as an image, and is none; the text says why."""


class Locked(Error):
    """Another opening has the file, here or in another process."""


class FileAbsent(Error, FileNotFoundError):
    """There is no file of this name."""

    errno = errno.ENOENT


class FileExists(Error, FileExistsError):
    """There is a file of this name, and no image is made over it."""

    errno = errno.EEXIST


class FileFailed(Error, OSError):
    """The file cannot be made, opened, locked, read or written. `errno` says why."""


_CLASSES = {
    Status.MISSING: Missing, Status.EXISTS: Exists, Status.TOO_MANY_TRANSACTIONS: TooManyTransactions,
    Status.TOO_MANY_ACCESSES: TooManyAccesses, Status.NO_STORE: NoStore, Status.NO_BLOCKS: NoBlocks, Status.MEMORY: NoMemory,
    Status.DISK: DiskFailed, Status.DOWN: Down, Status.NO_TRANSACTION: NoTransaction, Status.CLOSED: Closed, Status.NO_IMAGE: NoImage,
    Status.DAMAGED: Damaged, Status.LOCKED: Locked, Status.ABSENT: FileAbsent, Status.NAME_TAKEN: FileExists, Status.FILE: FileFailed,
    **dict.fromkeys(
        (Status.BAD_BLOCK, Status.BAD_RANGE, Status.NO_ACCESS, Status.TOO_MANY_MARKS, Status.BAD_KEY, Status.BAD_VALUE, Status.BAD_NAME,
         Status.BAD_GEOMETRY, Status.TOO_SMALL, Status.BAD_MODE), BadArgument),
}


def _error(status, note=""):
    return _CLASSES.get(status, Error)(status, note)


# ---- the library ----


class _Geometry(ctypes.Structure):
    _fields_ = [(name, _U32) for name in ("block_size", "blocks", "log", "mode", "hash", "tree")]


class _Ended(ctypes.Structure):
    _fields_ = [("status", ctypes.c_int32), *((name, _U32) for name in ("block", "at", "pad")),
                *((name, _U64) for name in ("commit", "with_", "need", "room"))]

    def error(self):
        """The exception for this end, or None."""
        if self.status == Status.OK:
            return None
        if self.status == Status.CONFLICT:
            return Conflict(self.status, self.with_, self.block, self.at)
        if self.status == Status.LOG_FULL:
            return LogFull(self.status, self.need, self.room)
        return _error(self.status)


class _Range(ctypes.Structure):
    _fields_ = [("off", _U32), ("n", _U32)]


class _Numbers(ctypes.Structure):
    _fields_ = [*((name, _U64) for name in ("last", "base", "trim", "versions", "oldest")),
                *((name, _U32) for name in ("live", "used", "log", "form"))]


class _Refusal(ctypes.Structure):
    _fields_ = [("why", _U32), ("what", _U32), ("at", _U64), ("have", _U64)]


def _load():
    here = pathlib.Path(__file__).resolve().parent
    named = os.environ.get("LIBISOTOPE")
    places = [named] if named else [here / "libisotope.so", here.parent / "c" / "out" / "libisotope.so"]
    there = [place for place in places if pathlib.Path(place).exists()]
    library = ctypes.CDLL(str(there[0] if there else named or "libisotope.so"), use_errno=True)
    library.isotope_strerror.restype = library.isotope_refusal_text.restype = ctypes.c_char_p
    return library


_library = _load()


def _call(name, *words):
    """Makes a call of isotope.h, and raises what it is refused with."""
    status = getattr(_library, "isotope_" + name)(*words)
    if status == Status.FILE:
        number = ctypes.get_errno()
        failed = FileFailed(status, os.strerror(number))
        failed.errno = number
        raise failed
    if status != Status.OK:
        raise _error(status)


def _slice(data):
    """A pointer to the bytes and their count, as isotope.h takes them."""
    data = bytes(memoryview(data))
    return data, _SIZE(len(data))


def _u32(n, wrong=Status.BAD_RANGE):
    """A number that C has room for."""
    if not 0 <= n < 1 << 32:
        raise _error(wrong)
    return _U32(n)


def _name(name):
    """A file's name, as C has it: no byte of it is 0."""
    name = name.encode() if isinstance(name, str) else bytes(memoryview(name))
    if b"\0" in name:
        raise _error(Status.BAD_NAME)
    return name


def _path(path):
    path = os.fsencode(path)
    if b"\0" in path:
        raise ValueError("embedded null byte")
    return path


# ---- devices ----


class Geometry(NamedTuple):
    """The numbers of an image: its blocks, the bytes of its log, its mode, and how many blocks the hash and the tree store have."""

    block_size: int
    blocks: int
    log: int
    mode: int
    hash: int
    tree: int


class Numbers(NamedTuple):
    """The last commit; the commit before the log's first; the commit that versions go back to, and how many there are; the `number` of the
    live transaction that began first and so keeps the log from being compacted further, 0 for none; how many are live; the bytes of the log
    that are used, and all; the form, 2 after an upgrade."""

    last: int
    base: int
    trim: int
    versions: int
    oldest: int
    live: int
    used: int
    log: int
    form: int


def create(path, *, block_size=4096, blocks=1024, log=4194304, mode=SERIAL, hash=0, tree=0):
    """Makes a new file with an image in it, and opens it. FileExists, BadArgument, FileFailed: there is no new file."""
    words = (block_size, blocks, log, mode, hash, tree)
    geometry = _Geometry(*(_u32(word, Status.BAD_GEOMETRY) for word in words))
    number = _U64()
    _call("create", _path(path), ctypes.byref(geometry), ctypes.byref(number))
    return Device(number.value)


def open(path):
    """Opens an image. FileAbsent, Locked, NoImage, Damaged or FileFailed: the file is as it was.

    >>> try:
    ...     isotope.open("no such file")
    ... except isotope.FileAbsent as absent:        # and a FileNotFoundError
    ...     print(absent.status.name)
    ABSENT
    """
    number, refusal = _U64(), _Refusal()
    try:
        _call("open", _path(path), ctypes.byref(number), ctypes.byref(refusal))
    except NoImage as error:
        text = ctypes.create_string_buffer(64)
        _library.isotope_refusal_text(ctypes.byref(refusal), text, _SIZE(64))
        raise type(error)(error.status, text.value.decode()) from None
    return Device(number.value)


class Device:
    """An open image, from `create` or `open`; `geometry` are its numbers. `with` closes it."""

    def __init__(self, number):
        self._number = _U64(number)
        self.geometry = self.about()

    def begin(self, mode=IMAGE_MODE):
        """Begins a transaction: SERIAL, SNAPSHOT, or in the image's mode. `with` ends it, and aborts it where its block raises.

        >>> with device.begin() as tx:
        ...     tx.put(21, 0, b"!")
        >>> tx.begin, tx.commit
        (0, 1)
        """
        number, at = _U64(), _U64()
        _call("begin", self._number, _u32(mode, Status.BAD_MODE), ctypes.byref(number), ctypes.byref(at))
        return Transaction(self, number.value, at.value)

    def transact(self, function, mode=IMAGE_MODE, tries=100):
        """Calls `function(tx)` in a transaction, ends it, and gives what the function gave. After a Conflict all of that is done again, up
        to `tries` times, so the function does nothing but through `tx`. Where the log is full it is compacted, and the end tried once more.

        >>> def count(tx):
        ...     n = int.from_bytes(tx.get(30, 0, 8), "big") + 1
        ...     tx.put(30, 0, n.to_bytes(8, "big"))
        ...     return n
        >>> device.transact(count), device.transact(count)
        (1, 2)
        """
        while True:
            tries -= 1
            try:
                with self.begin(mode) as tx:
                    found = function(tx)
                    tx._end_with_room()
                return found
            except Conflict:
                if tries <= 0:
                    raise

    def end_group(self, transactions):
        """Ends up to 64 transactions in this order, with two syncs for all of them: after a crash all their commits stand, or none. Gives a
        list: of each the number of its commit (0: it wrote nothing), or the exception that its end would have raised. All are over then;
        after TooManyTransactions none is.

        >>> first, second = device.begin(), device.begin()
        >>> first.put(40, 0, b"a")
        >>> second.put(40, 1, b"b")
        >>> device.end_group([first, second])
        [1, 2]
        """
        transactions = list(transactions)
        if any(tx.device is not self for tx in transactions):
            raise _error(Status.NO_TRANSACTION)
        numbers = (_U64 * len(transactions))(*(tx.number for tx in transactions))
        ends = (_Ended * len(transactions))()
        try:
            _call("end_group", self._number, numbers, _SIZE(len(transactions)), ends)
        except (DiskFailed, NoMemory):
            for tx in transactions:
                tx._over = True
            raise
        for tx, ended in zip(transactions, ends):
            tx._over = True
            if ended.status == Status.OK:
                tx.commit = ended.commit
        return [ended.error() or ended.commit for ended in ends]

    def compact(self):
        """Makes room in the log: what no live transaction can be shown any more goes into the base, in the other half of the file."""
        _call("compact", self._number)

    def upgrade(self):
        """As `compact`, and transactions of either mode may begin from then on. There is no way back."""
        _call("upgrade", self._number)

    def trim(self):
        """Lets versions go from memory that no transaction can be shown any more."""
        _call("trim", self._number)

    def stat(self):
        """The `Numbers` of now."""
        numbers = _Numbers()
        _call("stat", self._number, ctypes.byref(numbers))
        return Numbers(*(getattr(numbers, name) for name in Numbers._fields))

    def about(self):
        """The `Geometry` that the image was made with."""
        geometry = _Geometry()
        _call("about", self._number, ctypes.byref(geometry))
        return Geometry(*(getattr(geometry, name) for name in Geometry._fields))

    def close(self):
        """Aborts what is live, and lets the file go. To close it again does nothing."""
        try:
            _call("close", self._number)
        except Closed:
            pass

    def __enter__(self):
        return self

    def __exit__(self, *what):
        self.close()


# ---- transactions ----


class Transaction:
    """A transaction, from `Device.begin`. It has its `device`; its `number`; `begin`, the commit that it is shown; `commit`, the number of
    its own, 0 where it wrote nothing, None while there is none; and the stores `hash`, `tree` and `files`."""

    def __init__(self, device, number, begin):
        self.device, self.number, self.begin, self.commit = device, number, begin, None
        self.hash, self.tree, self.files = Store(self, "hash"), Tree(self), Files(self)
        self._over = False

    def _call(self, name, *words):
        _call(name, self.device._number, _U64(self.number), *words)

    def _shown(self, name, block, n, *off):
        into = ctypes.create_string_buffer(max(n, 1))
        self._call(name, _u32(block, Status.BAD_BLOCK), *off, into, _SIZE(n))
        return into.raw[:n]

    def read(self, block):
        """A whole block."""
        return self._shown("read", block, self.device.geometry.block_size)

    def get(self, block, off, n):
        """`n` bytes of a block from `off` on. What another commit writes beside them does not conflict."""
        _u32(n)
        return self._shown("get", block, min(n, self.device.geometry.block_size + 1), _u32(off))

    def peek(self, block, off, n):
        """As `get`, and no access: no conflict comes of it, and there may be any number."""
        _u32(n)
        return self._shown("peek", block, min(n, self.device.geometry.block_size + 1), _u32(off))

    def write(self, block, data):
        """Writes a whole block."""
        self._call("write", _u32(block, Status.BAD_BLOCK), *_slice(data))

    def put(self, block, off, data):
        """Writes these bytes of a block from `off` on. Two transactions that put other bytes of one block both commit."""
        self._call("put", _u32(block, Status.BAD_BLOCK), _u32(off), *_slice(data))

    def put_ranges(self, block, data, ranges):
        """Writes up to 8 ranges (off, n) of a block, as one access. `data` is the whole block."""
        pairs = [_Range(_u32(off), _u32(n)) for off, n in ranges]
        self._call("put_ranges", _u32(block, Status.BAD_BLOCK), *_slice(data), (_Range * len(pairs))(*pairs), _SIZE(len(pairs)))

    def fill(self, block, byte):
        """Writes a block full of one byte."""
        if not 0 <= byte < 256:
            raise _error(Status.BAD_RANGE)
        self._call("fill", _u32(block, Status.BAD_BLOCK), _U8(byte))

    def mark(self, off, n):
        """Narrows the last access to a range of its block: what conflicts with it, and what a write writes. Up to 8, each adds a range."""
        self._call("mark", _u32(off), _u32(n))

    def room(self):
        """How many accesses it may still make."""
        accesses = _U32()
        self._call("room", ctypes.byref(accesses))
        return accesses.value

    def end(self):
        """Ends it, and gives the number of its commit, or 0 where it wrote nothing. After a Conflict and a DiskFailed it is over; after
        LogFull and NoMemory it is live.

        >>> first, second = device.begin(), device.begin()
        >>> second.get(50, 0, 1)
        b'\\x00'
        >>> first.put(50, 0, b"x")
        >>> second.put(50, 1, b"y")
        >>> first.end()
        1
        >>> try:
        ...     second.end()
        ... except isotope.Conflict as conflict:
        ...     print(conflict.commit, conflict.block, conflict.at)
        1 50 0
        """
        ended = _Ended()
        ended.status = _library.isotope_end(self.device._number, _U64(self.number), ctypes.byref(ended))
        self._over = self._over or ended.status in (Status.OK, Status.CONFLICT, Status.DISK)
        error = ended.error()
        if error is not None:
            raise error
        self.commit = ended.commit
        return self.commit

    def _end_with_room(self):
        """Ends it, unless it is over; where the log is full, once more after a compaction."""
        if self._over:
            return
        try:
            self.end()
        except LogFull as full:
            if full.need > self.device.geometry.log:
                raise
            self.device.compact()
            self.end()

    def abort(self):
        """Ends it with nothing of it left."""
        self._call("abort")
        self._over = True

    def __enter__(self):
        return self

    def __exit__(self, kind, *what):
        try:
            if kind is None and not self._over:
                self.end()
        finally:
            if not self._over:
                try:
                    self.abort()
                except (NoTransaction, Closed, Down):
                    pass


class Store:
    """The hash store of an image, in a transaction: keys of 1 to 28 bytes, values of 0 to 32.

    >>> with device.begin() as tx:
    ...     tx.hash[b"colour"] = b"red"
    ...     tx.hash[b"colour"], tx.hash.get(b"shape"), b"shape" in tx.hash
    ...     del tx.hash[b"colour"]
    (b'red', None, False)
    """

    def __init__(self, transaction, kind):
        self._transaction, self._kind = transaction, kind

    def __getitem__(self, key):
        into, n = ctypes.create_string_buffer(_MOST_VALUE), _U64()
        self._transaction._call(self._kind + "_get", *_slice(key), into, _SIZE(len(into)), ctypes.byref(n))
        return into.raw[: n.value]

    def __setitem__(self, key, value):
        self._transaction._call(self._kind + "_put", *_slice(key), *_slice(value))

    def __delitem__(self, key):
        self._transaction._call(self._kind + "_delete", *_slice(key))

    def get(self, key, otherwise=None):
        """The value of a key, or `otherwise`."""
        try:
            return self[key]
        except Missing:
            return otherwise

    def __contains__(self, key):
        return self.get(key) is not None


class Tree(Store):
    """The tree store: as the hash store, and in the order of its keys.

    >>> with device.begin() as tx:
    ...     for word in (b"pear", b"apple", b"plum"):
    ...         tx.tree[word] = b"fruit of " + word
    ...     tx.tree.scan(b"p", b"q")
    [(b'pear', b'fruit of pear'), (b'plum', b'fruit of plum')]
    """

    def __init__(self, transaction):
        super().__init__(transaction, "tree")

    def scan(self, first, end, most=100):
        """The first pairs with first <= key < end, at most so many, as a list of (key, value)."""
        # a pair takes more bytes in the tree's blocks than here
        geometry = self._transaction.device.geometry
        room = min(most * (2 + _MOST_KEY + _MOST_VALUE), geometry.tree * geometry.block_size)
        into, n = ctypes.create_string_buffer(max(room, 1)), _U64()
        try:
            self._transaction._call("tree_scan", *_slice(first), *_slice(end), _u32(most), into, _SIZE(max(room, 0)), ctypes.byref(n))
        except Missing:
            return []
        text, parts, at = into.raw[: n.value], [], 0
        while at < len(text):
            parts.append(text[at + 1 : at + 1 + text[at]])
            at += 1 + text[at]
        return list(zip(parts[::2], parts[1::2]))


class Files:
    """Files in an image, on the blocks after the tree store, in a transaction. A name, text or bytes, has 1 to 28 bytes.

    >>> with device.begin() as tx:
    ...     tx.files.create("notes")
    ...     tx.files.write("notes", 0, b"some words")
    ...     tx.files.rename("notes", "words")
    ...     tx.files.read("words", 5, 100), tx.files.size("words")
    (b'words', 10)
    """

    def __init__(self, transaction):
        self._transaction = transaction

    def create(self, name):
        """Makes an empty file. Exists."""
        self._transaction._call("file_create", _name(name))

    def write(self, name, off, data):
        """Writes 1 to 4,096 bytes at `off`, which is up to the file's size; it grows where they pass its end."""
        self._transaction._call("file_write", _name(name), _u32(off), *_slice(data))

    def read(self, name, off, n=_MOST_FILE_BYTES):
        """The bytes from `off` on, which is up to the file's size: at most `n`, and at most 4,096."""
        room = min(max(n, 0), _MOST_FILE_BYTES)
        into, got = ctypes.create_string_buffer(max(room, 1)), _U64()
        self._transaction._call("file_read", _name(name), _u32(off), into, _SIZE(room), ctypes.byref(got))
        return into.raw[: got.value]

    def size(self, name):
        """How many bytes a file has."""
        n = _U64()
        self._transaction._call("file_size", _name(name), ctypes.byref(n))
        return n.value

    def rename(self, old, new):
        """Gives a file another name. Exists: the new name has a file, also where it is the old one."""
        self._transaction._call("file_rename", _name(old), _name(new))

    def remove(self, name):
        """Removes a file."""
        self._transaction._call("file_remove", _name(name))
