"""TigerBeetle's ledger in one process and in memory, for tests; by ctypes over libkip.so.

    import kip as tb

    with tb.ClientSync() as client:
        client.create_accounts([tb.Account(id=1, ledger=1, code=1), tb.Account(id=2, ledger=1, code=1)])
        results = client.create_transfers([tb.Transfer(id=1, debit_account_id=1, credit_account_id=2, amount=30,
                                                       ledger=1, code=1)])
        assert results == [] and client.lookup_accounts([1])[0].debits_posted == 30

`ClientSync` has the names and arguments of TigerBeetle's Python client; `Ledger` is what is behind it, with packets, pulses
and submitters. Only events that failed have a result. A packet that isn't committed raises `NotCommitted`.

The library is that of the environment variable KIP_SO, else the one in this package, else the one that the system's
loader finds.
"""
import collections
import contextlib
import ctypes
import dataclasses
import enum
import functools
import itertools
import operator
import os
import pathlib
import secrets
import struct
import threading
import time
import types
import typing

from .results import CreateAccountResult, CreateTransferResult

CREATE_ACCOUNTS, CREATE_TRANSFERS, LOOKUP_ACCOUNTS = 129, 130, 131
COMMITTED, SHUTDOWN, STOPPED = 0, 7, 8
STATUSES = {1: "invalid_operation", 2: "invalid_data_size", 3: "too_much_data", 5: "full", 6: "no_memory", 7: "shutdown",
            8: "stopped", 9: "bad_limit", 11: "bad_submitters", 12: "moment_too_large", 100: "closed", 101: "already_open", 106: "busy",
            107: "no_entry", 108: "not_next", 109: "in_use", 110: "not_recorded", 111: "not_handed_out"}
OUTCOMES = {COMMITTED: "committed", SHUTDOWN: "shutdown", STOPPED: "stopped"}
NO_MEMORY, CLOSED, NO_REPLY, TOO_SMALL, NOT_FOUND, BUSY, NO_ENTRY = 6, 100, 102, 103, 104, 106, 107
VERSION = 0x000100  # of kip.h: major, minor, patch
HALF = 2**64 - 1
amount_max = 2**128 - 1


class KipError(Exception):
    """A refused call. The ledger is as it was. `name` is the status's name as in kip.h.

    `queued` is None, unless memory ran out as a packet was committed that `create_accounts` or `create_transfers` had queued.
    Then it is the packet's number: `flush` commits it once memory is there, and `reply(number)` has its results.
    """

    def __init__(self, status):
        self.status = status
        self.name = STATUSES.get(status, "unknown")
        self.queued = None
        super().__init__(self.name)

    def __reduce__(self):
        return type(self), (self.status,), self.__dict__


class NotCommitted(Exception):
    """A packet was queued and isn't committed: after `shut`, or because the ledger stopped. `outcome` says which.

    It isn't a KipError. That says of a refused call that nothing has changed, so that the call can be made again. This packet has
    a number, and its answer is final. Catch both if both can come.
    """

    def __init__(self, outcome):
        self.outcome = outcome
        super().__init__(OUTCOMES[outcome])

    def __reduce__(self):
        return type(self), (self.outcome,), self.__dict__


class AccountFlags(enum.IntFlag):
    NONE = 0
    LINKED = 1
    DEBITS_MUST_NOT_EXCEED_CREDITS = 2
    CREDITS_MUST_NOT_EXCEED_DEBITS = 4
    HISTORY = 8


class TransferFlags(enum.IntFlag):
    NONE = 0
    LINKED = 1
    PENDING = 2
    POST_PENDING_TRANSFER = 4
    VOID_PENDING_TRANSFER = 8


class PendingStatus(enum.IntEnum):
    """The status of a transfer; `NONE` if it isn't pending."""

    NONE = 0
    PENDING = 1
    POSTED = 2
    VOIDED = 3
    EXPIRED = 4


class CreateAccountsResult(typing.NamedTuple):
    index: int
    result: CreateAccountResult


class CreateTransfersResult(typing.NamedTuple):
    index: int
    result: CreateTransferResult


@dataclasses.dataclass(slots=True)
class Account:
    id: int = 0
    debits_pending: int = 0
    debits_posted: int = 0
    credits_pending: int = 0
    credits_posted: int = 0
    user_data_128: int = 0
    user_data_64: int = 0
    user_data_32: int = 0
    ledger: int = 0
    code: int = 0
    flags: int = 0
    timestamp: int = 0
    reserved: int = 0


@dataclasses.dataclass(slots=True)
class Transfer:
    id: int = 0
    debit_account_id: int = 0
    credit_account_id: int = 0
    amount: int = 0
    pending_id: int = 0
    user_data_128: int = 0
    user_data_64: int = 0
    user_data_32: int = 0
    timeout: int = 0
    ledger: int = 0
    code: int = 0
    flags: int = 0
    timestamp: int = 0


_RECORD = struct.Struct("<12QQIIIHHQ")
_BITS = {"user_data_64": 64, "user_data_32": 32, "reserved": 32, "timeout": 32, "ledger": 32, "code": 16, "flags": 16, "timestamp": 64}


def _number(name, value, bits):
    """Returns an integer of so many bits as an int. Another type is a TypeError, and one out of the range an OverflowError."""
    try:
        number = operator.index(value)
    except TypeError:
        raise TypeError(f"{name} must be an int from 0 to 2^{bits} - 1, not {type(value).__name__}") from None
    if not 0 <= number < 1 << bits:
        shown = number if number.bit_length() <= 256 else f"one of {number.bit_length()} bits"
        raise OverflowError(f"{name} must be an int from 0 to 2^{bits} - 1, not {shown}")
    return number


def _checked(index, record, put):
    """Returns a copy of an event with its fields as ints. One that isn't an int of its field's size raises an error that names it."""
    names = (field.name for field in dataclasses.fields(Account if put is _put_account else Transfer))
    return types.SimpleNamespace(**{name: _number(f"event {index}: {name}", getattr(record, name), _BITS.get(name, 128)) for name in names})


def _pack(records, put):
    """Returns the records' bytes in one buffer."""
    buffer = bytearray(128 * len(records))
    for index, record in enumerate(records):
        try:
            put(buffer, 128 * index, record)
        except (struct.error, TypeError, OverflowError):  # also of an integer that isn't an int, as numpy's
            put(buffer, 128 * index, _checked(index, record, put))
    return buffer


def _put_account(buffer, offset, it, pack_into=_RECORD.pack_into):
    id, user = it.id, it.user_data_128
    if it.debits_pending or it.debits_posted or it.credits_pending or it.credits_posted:
        sums = (it.debits_pending, it.debits_posted, it.credits_pending, it.credits_posted)
        halves = [half for value in sums for half in (value & HALF, value >> 64)]
        pack_into(buffer, offset, id & HALF, id >> 64, *halves, user & HALF, user >> 64, it.user_data_64, it.user_data_32,
                  it.reserved, it.ledger, it.code, it.flags, it.timestamp)
        return
    # (packed as they are, since None and an empty list are false too, and no numbers)
    pack_into(buffer, offset, id & HALF, id >> 64, it.debits_pending, 0, it.debits_posted, 0, it.credits_pending, 0,
              it.credits_posted, 0, user & HALF, user >> 64, it.user_data_64, it.user_data_32, it.reserved, it.ledger, it.code,
              it.flags, it.timestamp)


def _put_transfer(buffer, offset, it, pack_into=_RECORD.pack_into):
    id, debit, credit, amount = it.id, it.debit_account_id, it.credit_account_id, it.amount
    pending, user = it.pending_id, it.user_data_128
    pack_into(buffer, offset, id & HALF, id >> 64, debit & HALF, debit >> 64, credit & HALF, credit >> 64, amount & HALF,
              amount >> 64, pending & HALF, pending >> 64, user & HALF, user >> 64, it.user_data_64, it.user_data_32,
              it.timeout, it.ledger, it.code, it.flags, it.timestamp)


def _wide(words):
    return [words[i] | words[i + 1] << 64 for i in range(0, 12, 2)]


def _account(data):
    words = _RECORD.unpack(data)
    user_64, user_32, reserved, *rest = words[12:]
    return Account(*_wide(words), user_64, user_32, *rest, reserved)


def _transfer(data):
    words = _RECORD.unpack(data)
    return Transfer(*_wide(words), *words[12:])


class _Ids:
    """Makes ids as TigerBeetle's clients do: milliseconds since 1970 in 48 bits, above 80 bits that are random and rise.

    Ids rise over all threads of a process, in signal handlers too. Those of a forked child differ from its parent's.
    """

    def __init__(self):
        self._rising = {}  # a counter of random parts for the last millisecond, and seldom for one before it
        self._start()
        os.register_at_fork(after_in_child=self._start)

    def _start(self):
        """Takes a lock that no other thread holds, and a later millisecond than any before, so that its random part is new."""
        self._lock = threading.RLock()
        self._first = max(self._rising, default=-1) + 1
        self._rising = {}

    def __call__(self):
        with self._lock:
            moment = None
            # (each step is one operation, which no signal handler divides: one that makes an id in between uses the same counter, or
            # a later one)
            while moment is None or moment < max(self._rising):
                moment = max([time.time_ns() // 10**6, self._first, *self._rising])
                rising = self._rising.get(moment) or self._rising.setdefault(moment, itertools.count(secrets.randbits(80)))
                random = next(rising)
            if len(self._rising) > 1:
                for old in sorted(self._rising)[:-1]:
                    self._rising.pop(old, None)
            if random >> 80:
                raise OverflowError("no id is left in this millisecond: make another in the next one")
            return moment << 80 | random


id = _Ids()


class _Handle(ctypes.Structure):
    _fields_ = [("engine", ctypes.c_void_p), ("is_open", ctypes.c_bool)]


class _Head(ctypes.Structure):
    _fields_ = [("user_data", ctypes.c_uint64), ("number", ctypes.c_uint64), ("place", ctypes.c_uint64),
                ("size", ctypes.c_uint64), ("submitter", ctypes.c_uint32), ("outcome", ctypes.c_uint32),
                ("operation", ctypes.c_uint32), ("reserved", ctypes.c_uint32)]


class _EntryHead(ctypes.Structure):
    _fields_ = [("place", ctypes.c_uint64), ("moment", ctypes.c_uint64), ("number", ctypes.c_uint64), ("size", ctypes.c_uint64),
                ("submitter", ctypes.c_uint32), ("operation", ctypes.c_uint32)]


class _Entry(typing.NamedTuple):
    """An entry of the journal: a packet that is committed, or a pulse, whose operation is 0 and which has only a moment."""

    place: int
    operation: int
    moment: int = 0
    submitter: int = 0
    number: int = 0
    data: bytes = b""


def _failures(operation, results):
    """Returns the failures in a reply's results; a look-up has none."""
    if operation == CREATE_ACCOUNTS:
        return [CreateAccountsResult(index, CreateAccountResult(code)) for index, code in struct.iter_unpack("<II", results)]
    if operation == CREATE_TRANSFERS:
        return [CreateTransfersResult(index, CreateTransferResult(code)) for index, code in struct.iter_unpack("<II", results)]
    return []


@dataclasses.dataclass(frozen=True)
class Reply:
    """The reply to one packet. `results`, `failures`, `accounts` and `place` raise `NotCommitted` if the packet isn't committed.

    Ask `succeeded` whether all went well: a packet that isn't committed has no failures either.
    """

    submitter: int
    number: int
    operation: int
    user_data: int
    outcome: int
    _place: int
    _results: bytes

    def _checked(self):
        if self.outcome != COMMITTED:
            raise NotCommitted(self.outcome)

    @property
    def place(self):
        self._checked()
        return self._place

    @property
    def results(self):
        """The bytes of the failures, or of a look-up the accounts."""
        self._checked()
        return self._results

    @property
    def succeeded(self):
        """Whether the packet is committed and none of its events failed. A look-up that is committed has no event that fails."""
        return self.outcome == COMMITTED and (not self._results or self.operation == LOOKUP_ACCOUNTS)

    @property
    def failures(self):
        """The events that failed, as `create_accounts` and `create_transfers` return them."""
        return _failures(self.operation, self.results)

    @property
    def accounts(self):
        """The accounts that a look-up found; other packets have none."""
        data = self.results
        return [_account(data[at:at + 128]) for at in range(0, len(data), 128)] if self.operation == LOOKUP_ACCOUNTS else []


class Counts(typing.NamedTuple):
    """How much a ledger stores."""

    accounts: int
    transfers: int
    failed_ids: int


def _moment(name, value):
    """Returns a moment in nanoseconds. One above 64 bits is cut to the largest, which the library refuses as too large."""
    return _number(name, min(value, HALF) if isinstance(value, int) else value, 64)


def _bytes(data):
    """Returns bytes-like data as bytes. An int is none: `bytes` would make as many zeros of it."""
    if isinstance(data, bytes):
        return data
    try:
        return bytes(memoryview(data))
    except TypeError:
        raise TypeError(f"data must be bytes-like, as bytes or a bytearray, not {type(data).__name__}") from None


def library_path():
    """Returns the library's path."""
    here = pathlib.Path(__file__).resolve().parent
    beside = here / "libkip.so"
    return str(beside) if beside.exists() else "libkip.so.0.1"


@functools.cache
def _load(path):
    library = ctypes.CDLL(path)
    u8, u32, u64 = ctypes.c_uint8, ctypes.c_uint32, ctypes.c_uint64
    address, size = ctypes.c_void_p, ctypes.c_size_t
    for name, arguments in {
        "version": [], "open": [address, u64, u32, u32], "close": [address],
        "open_seeded": [address, u64, u32, u32, u64, u64], "reserve": [address, size, size],
        "submit_bytes": [address, u32, u8, address, size, u64, address], "pulse": [address, u64],
        "shut": [address], "flush": [address], "reply_bytes": [address, address, address, size], "stopped": [address],
        "lookup_account": [address, u64, u64, address], "account_at": [address, size, address], "transfer_at": [address, size, address, address],
        "lookup_transfer": [address, u64, u64, address, address], "clock": [address, address],
        "counts": [address, address], "places": [address, address], "open_recorded": [address, u64, u32, u32, u64, u64],
        "entry_bytes": [address, address, address, size], "durable": [address, u64], "restore_bytes": [address, address, address, size],
    }.items():
        call = getattr(library, f"kip_{name}", None)
        if call is None:
            raise OSError(f"{path} lacks kip_{name}, so it is older than this package: unset KIP_SO, or give it a newer library's path")
        call.argtypes, call.restype = arguments, u32
    version = library.kip_version()
    if version >> 8 != VERSION >> 8:
        raise OSError(f"{path} has version {version >> 16}.{version >> 8 & 255} of the library, and this package needs "
                      f"{VERSION >> 16}.{VERSION >> 8 & 255}: unset KIP_SO, or give it that library's path")
    return library


def _locked(method):
    """Makes a method wait while another thread is in one of this ledger."""
    @functools.wraps(method)
    def wrapped(self, *arguments, **named):
        with self._lock:
            return method(self, *arguments, **named)
    return wrapped


class Ledger:
    """A ledger in memory. Any thread may use it, one at a time; close it or use it in a `with`.

    Give a seed if ids can be chosen by someone you don't trust: `seed=(secrets.randbits(64), secrets.randbits(64))`.
    Replies don't depend on it.

    A signal handler or a `__del__` may call the ledger in the middle of another call on the same thread. Both calls have their
    own results: each packet's reply is found by its number. Only `reply()` without a number raises KipError `busy` there, since it
    could take the reply that the other call waits for. A list of `accounts` or `transfers` may have some of what such a call changes.

    A ledger can't be copied or pickled. Don't use one on both sides of a fork: the child has a copy of its own, and waits for ever
    if another thread was in a call. Open a ledger in each process.

    A handler that raises, as for KeyboardInterrupt, ends a call anywhere. Its packet may be queued or committed, and its reply
    unread or lost: look up what it makes, or send it again with the same ids.
    """

    _is_recorded = False  # whether it hands out the entries of its journal, and gives no reply to a packet before it is stored

    def __init__(self, clock=0, limit=8190, submitters=1, library=None, seed=None):
        self._is_open = False
        self._lock = threading.RLock()
        self._replies = collections.OrderedDict()  # read, and not yet returned
        self._unread = set()  # packets whose replies aren't returned yet
        self._library = _load(str(library or os.environ.get("KIP_SO") or library_path()))
        self._handle = _Handle()
        self._at = ctypes.addressof(self._handle)
        settings = _moment("clock", clock), _number("limit", limit, 32), _number("submitters", submitters, 32)
        if seed is None and self._is_recorded:
            seed = secrets.randbits(64), secrets.randbits(64)
        if seed is None:
            self._must(self._library.kip_open(self._at, *settings))
        else:
            low, high = seed
            open_seeded = self._library.kip_open_recorded if self._is_recorded else self._library.kip_open_seeded
            self._must(open_seeded(self._at, *settings, _number("a seed", low, 64), _number("a seed", high, 64)))
        self._is_open = True

    @staticmethod
    def _must(status):
        if status:
            raise KipError(status)

    def __enter__(self):
        return self

    def __exit__(self, *_):
        if self._is_open:
            self.close()

    def __reduce_ex__(self, protocol):
        raise TypeError(f"a {type(self).__name__} can't be copied or pickled, since it owns what is in the library: open another one")

    def __del__(self):
        if getattr(self, "_is_open", False):
            self.close()

    @_locked
    def close(self):
        """Frees the ledger. A second close raises `closed`."""
        self._is_open = False
        self._must(self._library.kip_close(self._at))

    @_locked
    def reserve(self, accounts=0, transfers=0):
        """Reserves capacity for accounts and transfers that are still to be made.

        Until then no commit waits for their maps to grow. After `no_memory` the ledger can be used further.
        """
        self._must(self._library.kip_reserve(self._at, _number("accounts", accounts, 64), _number("transfers", transfers, 64)))

    @_locked
    def submit(self, operation, data, submitter=0, user_data=0):
        """Queues a packet with a copy of its bytes, and returns its number among its submitter's. Data is bytes-like.

        A call for which memory runs out, also as it commits what waits, raises `no_memory`: nothing has changed, and it can be
        made again.
        """
        number, submitter = ctypes.c_uint64(), _number("submitter", submitter, 32)
        # A bytes object without bytes has an address too, so no null is passed.
        data = _bytes(data)
        self._must(self._library.kip_submit_bytes(self._at, submitter, _number("operation", operation, 8), data, len(data),
                                                  _number("user_data", user_data, 64), ctypes.byref(number)))
        self._unread.add((submitter, number.value))
        return number.value

    @_locked
    def pulse(self, nanoseconds):
        """Queues a pulse, which raises the clock. A moment above 2^62 is refused as `moment_too_large`."""
        self._must(self._library.kip_pulse(self._at, _moment("nanoseconds", nanoseconds)))

    @_locked
    def shut(self):
        """Queues the Close: packets after it aren't committed."""
        self._must(self._library.kip_shut(self._at))

    @_locked
    def flush(self):
        """Commits the packets that wait for others to join."""
        self._must(self._library.kip_flush(self._at))

    @_locked
    def stopped(self):
        """Returns whether 2^63 places are used up: nothing more is committed."""
        status = self._library.kip_stopped(self._at)
        if status not in (0, STOPPED):
            raise KipError(status)
        return status == STOPPED

    def _read(self, call, head):
        """Returns the bytes that a call writes besides a head, or None if there is no next. The buffer is this call's own: a signal handler
        that reads has another."""
        buffer = ctypes.create_string_buffer(128)
        while (status := call(self._at, ctypes.byref(head), buffer, len(buffer))) == TOO_SMALL:
            buffer = ctypes.create_string_buffer(head.size)
        if status in (NO_REPLY, NO_ENTRY):
            return None
        self._must(status)
        return ctypes.string_at(buffer, head.size)

    def _next(self):
        """Reads the next reply, or None."""
        head = _Head()
        results = self._read(self._library.kip_reply_bytes, head)
        if results is None:
            return None
        return Reply(head.submitter, head.number, head.operation, head.user_data, head.outcome, head.place, results)

    def _entry(self):
        """Takes the next entry of the journal, or None. The reply to its packet isn't there before `_durable`."""
        head = _EntryHead()
        data = self._read(self._library.kip_entry_bytes, head)
        return None if data is None else _Entry(head.place, head.operation, head.moment, head.submitter, head.number, data)

    def _durable(self, places):
        """Notes that all entries at lower places are stored."""
        self._must(self._library.kip_durable(self._at, places))

    def _restore_entry(self, entry):
        """Commits an entry again, at the next place. It has no reply."""
        place, operation, moment, submitter, number, data = entry
        head = _EntryHead(place, moment, number, len(data), submitter, _number("operation", operation, 8))
        self._must(self._library.kip_restore_bytes(self._at, ctypes.byref(head), data, len(data)))

    def _oldest(self):
        """Returns the oldest reply, or None. A signal handler may keep replies meanwhile, or take them."""
        while True:
            reply = None
            with contextlib.suppress(KeyError):  # there is none
                reply = self._replies.popitem(last=False)[1]
            if reply is not None or (reply := self._next()) is not None:
                self._unread.discard((reply.submitter, reply.number))
                return reply
            if not self._replies:
                return None

    def _reply_to(self, packet):
        """Returns the reply to a packet of a submitter, or None if it isn't there yet."""
        if packet not in self._unread:
            submitter, number = packet
            if not self._is_open:
                raise KipError(CLOSED)
            raise LookupError(f"submitter {submitter} has no packet {number} whose reply is still to be read: it was read already, "
                              "or no such packet was queued")
        while packet not in self._replies and (reply := self._next()) is not None:
            self._replies[reply.submitter, reply.number] = reply
        reply = self._replies.pop(packet, None)
        if reply is not None:
            self._unread.discard(packet)
        return reply

    def reply(self, number=None, submitter=0):
        """Returns the next reply, or with a number that packet's; None if it isn't there yet, as `flush` makes it be.

        Replies come in the order in which packets were queued, unless a signal handler reads some in the middle. Numbers count each
        submitter's packets, so give the submitter too. Replies to other packets that are read meanwhile are kept, and returned by
        later calls. A number raises LookupError if its reply was returned before, or if no such packet was queued.

        Raises KipError `busy` if it has no number and is called in the middle of another call, as by a signal handler.
        """
        # (only this thread's own calls matter: another thread's end before this one begins)
        if number is None and self._lock._is_owned():
            raise KipError(BUSY)
        with self._lock:
            return self._oldest() if number is None else self._reply_to((submitter, number))

    def _committed(self, operation, data):
        """Commits one packet of submitter 0, and returns its results."""
        number = self.submit(operation, data)
        try:
            self.flush()
        except KipError as why:
            why.queued = number
            raise
        reply = self.reply(number)
        if reply is None:
            raise RuntimeError(f"the reply to packet {number} was lost as a signal handler raised: look up what the packet makes")
        return reply.results

    @_locked
    def create_accounts(self, accounts):
        """Commits one packet, and returns a result for each event that failed.

        If memory runs out as it is committed, it stays queued, and `queued` of the error has its number.
        """
        return _failures(CREATE_ACCOUNTS, self._committed(CREATE_ACCOUNTS, _pack(accounts, _put_account)))

    @_locked
    def create_transfers(self, transfers):
        """Commits one packet, and returns a result for each event that failed, as `create_accounts` does."""
        return _failures(CREATE_TRANSFERS, self._committed(CREATE_TRANSFERS, _pack(transfers, _put_transfer)))

    def _found(self, status, buffer, made):
        if status == NOT_FOUND:
            return None
        self._must(status)
        return made(buffer.raw)

    @_locked
    def lookup_account(self, id):
        """Returns the account with an id, or None. Packets that wait aren't in it."""
        buffer, id = ctypes.create_string_buffer(128), _number("id", id, 128)
        return self._found(self._library.kip_lookup_account(self._at, id & HALF, id >> 64, buffer), buffer, _account)

    def _transfer_and_status(self, id):
        buffer, pending, id = ctypes.create_string_buffer(128), ctypes.c_uint32(), _number("id", id, 128)
        status = self._library.kip_lookup_transfer(self._at, id & HALF, id >> 64, buffer, ctypes.byref(pending))
        return self._found(status, buffer, _transfer), PendingStatus(pending.value)

    @_locked
    def lookup_transfer(self, id):
        """Returns the transfer with an id, or None. Packets that wait aren't in it."""
        return self._transfer_and_status(id)[0]

    @_locked
    def transfer_status(self, id):
        """Returns the status of the transfer with an id; `NONE` if it isn't pending or there is none."""
        return self._transfer_and_status(id)[1]

    def lookup_accounts(self, ids):
        """Returns the accounts with these ids, in their order; ids without one are left out."""
        return [found for found in map(self.lookup_account, ids) if found is not None]

    def lookup_transfers(self, ids):
        """Returns the transfers with these ids, in their order; ids without one are left out."""
        return [found for found in map(self.lookup_transfer, ids) if found is not None]

    @_locked
    def accounts(self):
        """Returns all accounts in the order of making."""
        found, buffer = [], ctypes.create_string_buffer(128)
        while (account := self._found(self._library.kip_account_at(self._at, len(found), buffer), buffer, _account)):
            found.append(account)
        return found

    @_locked
    def transfers(self):
        """Returns all transfers in the order of making, each with its status, as pairs; a post or a void has its resolved fields."""
        found, buffer, pending = [], ctypes.create_string_buffer(128), ctypes.c_uint32()
        while True:
            status = self._library.kip_transfer_at(self._at, len(found), buffer, ctypes.byref(pending))
            if (transfer := self._found(status, buffer, _transfer)) is None:
                return found
            found.append((transfer, PendingStatus(pending.value)))

    @_locked
    def counts(self):
        """Returns how many accounts, transfers and failed ids are stored; packets that are held aren't in it.

        A failed id is that of a transfer that failed so that later transfers with it fail as ID_ALREADY_FAILED. It takes 36 bytes, and
        nothing limits these ids.
        """
        counts = (ctypes.c_uint64 * 3)()
        self._must(self._library.kip_counts(self._at, counts))
        return Counts(*counts)

    @_locked
    def clock(self):
        """Returns the clock in nanoseconds."""
        now = ctypes.c_uint64()
        self._must(self._library.kip_clock(self._at, ctypes.byref(now)))
        return now.value

    @_locked
    def places(self):
        """Returns how many packets and pulses are committed: the place of the next one."""
        places = ctypes.c_uint64()
        self._must(self._library.kip_places(self._at, ctypes.byref(places)))
        return places.value


class ClientSync(Ledger):
    """A stand-in for TigerBeetle's client: the same names and arguments, and a ledger of its own in place of a cluster."""

    def __init__(self, cluster_id=0, replica_addresses="", **settings):
        super().__init__(**settings)
