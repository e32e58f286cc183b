"""A client whose ledger is in an SQLite file, and is there again after a crash.

    import kip as tb
    from kip.durable import DurableClient

    with DurableClient("ledger.db") as client:
        client.create_accounts([tb.Account(id=1, ledger=1, code=1)])

The file has one table, `entry`: a row with the settings, and one for each packet and pulse that is committed, by its place
(docs/DURABLE.md has the columns). `tbpipe replay FILE` and `tbpipe list --journal FILE` open it too, and so do programs over `tb_durable`.

The file and its log, `ledger.db-wal`, are the ledger together: copy or move both, while no client has them open. An older file beside a newer
log may open without what was committed in between, and without a word.

The pages of the file have no sums: a bit that flipped in it isn't noticed, and one that flipped in the log ends the log there, without a word.
Keep copies. Or have `tbpipe list --journal` make the file, whose pages then have sums, and which only `tbpipe` and `tb_durable` continue.
"""
import collections
import contextlib
import ctypes
import functools
import os
import sqlite3
import struct
import threading
import weakref

from . import BUSY, CLOSED, LOOKUP_ACCOUNTS, NO_MEMORY, ClientSync, KipError, _bytes, _Entry, _moment, _number

TABLE = ("CREATE TABLE entry (place INTEGER PRIMARY KEY, operation INTEGER NOT NULL, moment INTEGER NOT NULL, stubs BLOB NOT NULL, "
         "body BLOB NOT NULL) STRICT")
SETTINGS = "clock", "limit", "submitters"
# The place of the settings, the version of the format, which is their operation, and what a pulse has for an operation.
SETTINGS_PLACE, FORMAT_VERSION, PULSE = -1, 1, 0
# How many events share a row at most. The limit of another program that wrote it may have been higher than the file's.
BATCH_MAX = 8190
# Of a packet its number in its run, its submitter, and its count of events.
_STUB = struct.Struct("<QII")
# The clients of this process, and the device and inode of each file that one has open.
_clients, _open_files, _opening = weakref.WeakSet(), set(), threading.RLock()


class BadFile(ValueError):
    """The file isn't a ledger's, or its rows aren't a journal. It and its log stay as they were."""


def _event_size(operation):
    return 16 if operation == LOOKUP_ACCOUNTS else 128


def _may_share(operation, data):
    """Returns whether a packet may share a batch: it looks nothing up, and its last event isn't linked to one that follows."""
    return operation != LOOKUP_ACCOUNTS and not (data and data[-10] & 1)


def _stat(path):
    with contextlib.suppress(FileNotFoundError):
        return os.stat(path)


def _identity(path):
    found = _stat(path)
    return found and (found.st_dev, found.st_ino)


def _refuse_other_files(path):
    """Refuses a file that another client of this process has open, one that isn't SQLite's, unless it was being made, and one that this
    SQLite would spoil: one with another name, by which its log may be named, one whose pages end in sums, as `tb_durable` makes it, and a
    log without its file."""
    file, log = _stat(path), _stat(f"{path}-wal")
    # (looked at ahead of `open`: when a process closes a file, it loses all its locks of it, also those of another client)
    if file and (file.st_dev, file.st_ino) in _open_files:
        raise BlockingIOError(f"{path}: another client of this process has it open, or failed with it: close that one, or start again")
    if not (file and file.st_size) and log and log.st_size:
        raise BadFile(f"{path}: there is no file, or an empty one, but its log has pages: put the file back, or move the log away")
    if file and not os.path.isfile(path) and not os.path.isdir(path):  # (a pipe's `open` would wait for ever, and a folder's says why it fails)
        raise BadFile(f"{path}: it is no plain file: give another")
    if file and file.st_nlink > 1 and os.path.isfile(path):
        raise BadFile(f"{path}: it has another name, by which its log may be named: remove that hard link")
    with contextlib.suppress(FileNotFoundError), open(path, "rb") as file:
        head = file.read(21)
        if head and not head.startswith(b"SQLite format 3\0"):
            if not _stat(f"{path}-journal"):  # (by which SQLite empties a file that was being made)
                raise BadFile(f"{path}: it is no SQLite database: give another file")
        elif head[20:] not in (b"", b"\0"):
            raise BadFile(f"{path}: its pages have sums, which Python's SQLite doesn't write: continue it by tbpipe or tb_durable")


def _is_new(path, database):
    """Returns whether a database has no table. One that has anything but a ledger's table is refused."""
    found = database.execute("select type, name, sql from sqlite_master").fetchall()
    if found not in ([], [("table", "entry", TABLE)]):
        raise BadFile(f"{path}: it has the tables of another program: give another file")
    for name, wanted in ("auto_vacuum", 0), ("encoding", "UTF-8"):
        if (value := database.execute(f"pragma {name}").fetchone()[0]) != wanted:
            raise BadFile(f"{path}: its {name} is {value}, which tbpipe doesn't read: copy its rows to a new file")
    return not found


def _never_close(database):
    """Keeps a connection for ever, also at the end of the process: as SQLite closes one, it copies the log into the file and deletes it."""
    ctypes.pythonapi.Py_IncRef(ctypes.py_object(database))


def _close_beside_log(database):
    """Closes a connection without copying the log into the file. Before Python 3.12 there is no setting for it: SQLite ends the copy at the
    interrupt, but deletes a log in which it finds no whole transaction."""
    if hasattr(database, "setconfig"):
        database.setconfig(sqlite3.SQLITE_DBCONFIG_NO_CKPT_ON_CLOSE)
    database.interrupt()
    database.close()


def _leave_to_parent():
    """Closes the clients in a child, without their files: those are its parent's, which still writes them."""
    global _opening
    _opening = threading.RLock()
    _open_files.clear()
    for client in list(_clients):
        client._leave()


os.register_at_fork(after_in_child=_leave_to_parent)


@contextlib.contextmanager
def _naming(path):
    """Has errors of SQLite name the file. One that is no database, or damaged, is a BadFile."""
    try:
        yield
    except sqlite3.OperationalError as why:
        if "locked" in str(why):
            raise BlockingIOError(f"{path}: another process or client has it open: wait until it ends") from None
        raise sqlite3.OperationalError(f"{path}: {why}") from None
    except sqlite3.DatabaseError as why:
        raise BadFile(f"{path}: {why}") from None


def _lock(path, database, settings):
    """Locks a ledger's file until it is closed, and makes the table of a new one, with these settings."""
    # (the mode is first: a setting that reads a file with a log would use memory that is shared with others; the last two are of a new file)
    for setting in "locking_mode = exclusive", "synchronous = full", "auto_vacuum = none", "page_size = 4096":
        database.execute(f"pragma {setting}")
    database.execute("begin exclusive")
    if _is_new(path, database):
        database.execute(TABLE)
    if database.execute("select * from entry limit 1").fetchone() is None:
        clock, limit, submitters = settings
        row = SETTINGS_PLACE, FORMAT_VERSION, clock, _STUB.pack(0, submitters, limit), b""
        database.execute("insert into entry values (?, ?, ?, ?, ?)", row)
    database.execute("commit")


class DurableClient(ClientSync):
    """A client whose ledger is in a file. What is committed is on the disk before `flush`, `pulse`, a `create_` call or `reply` returns.

    A new file is made with these settings: by default the clock 0, a limit of 8190 and one submitter. A file keeps its settings, and
    other ones raise BadFile. One client at a time has a file open: another raises BlockingIOError.

    Many packets may be submitted ahead of one `flush`, which waits for the disk once. What waits for a flush isn't in the file, and
    look-ups may show what a `submit` committed ahead of the next flush. `shut` isn't stored: it ends only this client's run. User data
    and results aren't stored either. Opening applies all rows, some 90,000 packets a second.

    A submitter's packets have the numbers that count on from those in the file. If the file can't be written, the call raises
    sqlite3.Error and the client is closed: open the file again, which has all that was acknowledged. So it is if memory runs out as a call
    stores, which raises MemoryError, and if a signal handler raises in the middle of a call. A handler that calls the client while it
    writes gets KipError `busy`.

    A `with` commits and stores what waits also if it ends by an exception, and so does a client that isn't closed as Python frees it. What
    waits as a daemon thread is ended isn't stored. Ids are hashed with a random seed, unless one is given.

    While a client is open, its process doesn't open the file by other means, as `shutil.copy` does: closing it there takes the lock from
    the client too. If then another program writes to the file, or if the file or its log is moved or deleted, the next call that stores
    raises sqlite3.OperationalError, and the client is closed. After a fork the client is the parent's, and the child's copy refuses
    each call that would store as `closed`.
    """

    _is_recorded = True

    def __init__(self, path, clock=None, limit=None, submitters=None, **more):
        self._is_open = self._is_writing = self._is_behind = self._keeps_log = False
        self._database = self._seen = self._key = None
        if sqlite3.sqlite_version_info < (3, 37):
            raise RuntimeError(f"SQLite {sqlite3.sqlite_version} has no strict tables: Python needs one with SQLite 3.37 or newer")
        path, asked = os.path.realpath(os.fsdecode(path)), (clock, limit, submitters)  # (SQLite follows links too)
        settings = [_number(name, default if it is None else it, 64) for name, it, default in zip(SETTINGS, asked, (0, 8190, 1))]
        ClientSync(**dict(zip(SETTINGS, settings)), **more).close()  # wrong settings are refused ahead of a file
        self._path = path
        _clients.add(self)
        with _naming(path):
            try:
                self._open_file(settings)
                kept = self._kept_settings(path, asked)
                try:
                    super().__init__(**kept, **more)
                except (KipError, OverflowError) as why:
                    if getattr(why, "status", None) == NO_MEMORY:
                        raise
                    raise BadFile(f"{path}: its first row has wrong settings: {why}") from None
                self._restore_all(path)
                self._database.execute("pragma journal_mode = wal")
                self._seen = self._look()
                self._keeps_log = False
            except BaseException:
                self._end()
                raise

    def _open_file(self, settings):
        with _opening:
            _refuse_other_files(self._path)
            log = _stat(f"{self._path}-wal")
            self._keeps_log = bool(log and log.st_size)  # (until the client is open: a file that is refused stays as it was)
            self._database = sqlite3.connect(self._path, isolation_level=None, timeout=0, check_same_thread=False)
            _lock(self._path, self._database, settings)
            self._key = _identity(self._path)
            _open_files.add(self._key)

    def _kept_settings(self, path, asked):
        """Returns the settings in the first row. Those that are asked for must be the same."""
        first = self._database.execute("select * from entry order by place limit 1").fetchone()
        if first is None or first[0] != SETTINGS_PLACE or len(first[3]) != _STUB.size:
            raise BadFile(f"{path}: its first row has no settings")
        if first[1] != FORMAT_VERSION:
            raise BadFile(f"{path}: its format has version {first[1]}, and this program reads version {FORMAT_VERSION}")
        _, submitters, limit = _STUB.unpack(first[3])
        kept = dict(zip(SETTINGS, (first[2], limit, submitters)))
        for name, wanted in zip(SETTINGS, asked):
            if wanted not in (None, kept[name]):
                raise BadFile(f"{path}: its {name} is {kept[name]}, not {wanted}: leave it out, or give another file")
        return kept

    def _restore_all(self, path):
        """Commits what is in the file. The replies were given when it was committed first."""
        self._first = collections.Counter()  # of each submitter how many packets were in the file
        following = collections.Counter()
        for row in self._database.execute(f"select * from entry where place > {SETTINGS_PLACE} order by place"):
            try:
                self._restore(following, *row)
            except (BadFile, KipError, struct.error, OverflowError, TypeError) as why:
                if getattr(why, "status", None) == NO_MEMORY:
                    raise
                raise BadFile(f"{path}: the row at place {row[0]} is no entry of a journal: {why}") from None

    def _restore(self, following, place, operation, moment, stubs, body):
        if place != self.places():
            raise BadFile(f"the next place is {self.places()}")
        _moment("its moment", moment)
        if operation == PULSE:
            self._restore_entry(_Entry(place, PULSE, moment))
            return
        packets, size, at = list(_STUB.iter_unpack(stubs)), _event_size(operation), 0
        together = sum(events for _, _, events in packets)
        if not packets or together * size != len(body):
            raise BadFile("its packets and its bytes don't fit")
        for index, (number, submitter, events) in enumerate(packets):
            data = body[at:at + events * size]
            at += len(data)
            if number not in (0, following[submitter]):
                raise BadFile(f"packet {number} of submitter {submitter} isn't the next")
            if len(packets) > 1 and (together > BATCH_MAX or not _may_share(operation, data)):
                raise BadFile("its packets can't share a batch")
            self._restore_entry(_Entry(place + index, operation, 0, submitter, self._first[submitter], data))
            following[submitter] = number + 1
            self._first[submitter] += 1

    def _refusal(self, status):
        """Returns a refusal of the library. Neither it nor a frame of its refers to the other, or they would keep the client."""
        refusal = KipError(status)
        refusal._client = id(self)
        return refusal

    def _must(self, status):
        if status:
            raise self._refusal(status)

    def _alone(self, call):
        """Makes a call that a signal handler's calls may not divide. What fails and isn't refused by the library closes the client."""
        with self._lock:
            if self._is_writing:
                raise KipError(BUSY)
            try:
                self._is_writing = True
                if self._is_behind:  # (a call failed to store what it took, and then to close the client)
                    self._end()
                if not self._is_open:  # (looked at here, since a signal handler may have closed it just before)
                    self._must(CLOSED)
                return call()
            except BaseException as why:
                # (what is committed may not be in the file, and what was handed out is nowhere else)
                if self._is_behind or getattr(why, "_client", None) != id(self):
                    self._end()
                raise
            finally:
                self._is_writing = False

    def _is_mine(self):
        """Returns whether the file and its log are where they were, as far as can be told."""
        try:
            return self._seen is None or self._is_same(self._look())
        except OSError:
            return False

    def _end(self):
        """Closes the client. It can be called again if it fails in the middle."""
        if (database := self._database) is not None:
            if self._is_mine():
                if self._keeps_log:
                    _close_beside_log(database)
                else:
                    database.close()
                _open_files.discard(self._key)
            else:
                _never_close(database)
            self._database = None
        if self._is_open:
            super().close()

    def _leave(self):
        """Closes the client without its file, in a child."""
        database, self._database, self._is_open, self._lock = self._database, None, False, threading.RLock()
        if database is not None:
            _never_close(database)

    def _look(self):
        """Returns which file and log are at the path, and the log's size and time. A log is made by the first write."""
        log = _stat(f"{self._path}-wal")
        return _identity(self._path), log and (log.st_dev, log.st_ino), log and (log.st_size, log.st_mtime_ns)

    def _is_same(self, look):
        return look[0] == self._seen[0] and self._seen[1] in (None, look[1])

    def _must_be_mine(self, is_mine):
        """Fails if another program has changed the file or its log, or where they are. SQLite doesn't look, and its lock may be lost."""
        if not is_mine:
            self._seen = None, (), None  # (so that SQLite doesn't copy the log as it closes)
            raise sqlite3.OperationalError(f"{self._path}: the file or its log was moved, deleted, or written by another program, which can be "
                                           "if this process opened and closed it by other means: look at both, and start again")

    def _row(self, entry):
        number, events = entry.number - self._first[entry.submitter], len(entry.data) // _event_size(entry.operation)
        stub = b"" if entry.operation == PULSE else _STUB.pack(number, entry.submitter, events)
        return entry.place, entry.operation, entry.moment, stub, entry.data

    def _rows(self):
        """Takes what is committed and isn't in the file yet. If it fails, the client can't go on without what it took."""
        try:
            return [self._row(entry) for entry in iter(self._entry, None)]
        except KipError as why:
            if why.status != NO_MEMORY:  # (a signal handler raised it)
                raise
            raise MemoryError(f"{self._path}: {why}") from None

    def _write(self, rows):
        """Writes rows in one transaction. An error of SQLite names the file, and keeps its type."""
        try:
            self._database.execute("begin")
            self._database.executemany("insert into entry values (?, ?, ?, ?, ?)", rows)
            self._database.execute("commit")
        except sqlite3.Error as why:
            why.args = f"{self._path}: {why}",
            raise

    def _store(self):
        """Stores what is committed and isn't in the file yet, in one transaction. Then its replies can be read."""
        self._is_behind = True  # (until what was taken is in the file: no later call may return as if it were)
        rows = self._rows()
        if rows:
            self._must_be_mine(self._look() == self._seen)
            self._write(rows)
            look = self._look()
            self._must_be_mine(self._is_same(look))
            self._seen = look
            self._durable(self.places())
        self._is_behind = False

    def _next(self):
        """Returns the next reply, or None. Its packet is in the file."""
        self._alone(self._store)
        return super()._next()

    def submit(self, operation, data, submitter=0, user_data=0):
        """Queues a packet and returns its number, as `Ledger.submit` does."""
        words = _number("operation", operation, 8), _bytes(data), _number("submitter", submitter, 32), _number("user_data", user_data, 64)
        return self._alone(functools.partial(super().submit, *words))

    def _pulse_and_store(self, moment):
        super().pulse(moment)
        self._store()

    def pulse(self, nanoseconds):
        """Queues a pulse, which raises the clock, and stores it with what was committed ahead of it."""
        self._alone(functools.partial(self._pulse_and_store, _moment("nanoseconds", nanoseconds)))

    def shut(self):
        """Queues the Close: packets after it aren't committed. It isn't stored."""
        self._alone(super().shut)

    def _flush_and_store(self):
        super().flush()
        self._store()

    def flush(self):
        """Commits the packets that wait for others to join, and stores them."""
        self._alone(self._flush_and_store)

    def _flush_and_close(self):
        self._flush_and_store()
        self._must_be_mine(self._look() == self._seen)

    def close(self):
        """Commits and stores what waits, and frees the ledger. A second close raises `closed`."""
        with self._lock:
            try:
                self._alone(self._flush_and_close)
            finally:
                if not self._is_writing:
                    self._end()
