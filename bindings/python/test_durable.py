"""Tests of kip.durable: python3 -m unittest test_durable. KIP_SO may name the library."""
import contextlib
import ctypes
import os
import pathlib
import resource
import shutil
import signal
import sqlite3
import struct
import subprocess
import sys
import tempfile
import threading
import time
import unittest
import unittest.mock

from kip import CREATE_ACCOUNTS, CREATE_TRANSFERS, LOOKUP_ACCOUNTS, NO_MEMORY, SHUTDOWN, Account, KipError, Ledger, NotCommitted, Transfer
from kip.durable import TABLE, BadFile, DurableClient

ROUTE = dict(debit_account_id=1, credit_account_id=2, ledger=1, code=1)
IDS = (1).to_bytes(16, "little")


def event(id, flags=0):
    """Returns an account's bytes."""
    return struct.pack("<16s96sIHHQ", id.to_bytes(16, "little"), bytes(96), 1, 1, flags, 0)


def stub(number=0, submitter=0, events=1):
    return struct.pack("<QII", number, submitter, events)


EVENT = event(1)
SETTINGS = -1, 1, 0, stub(0, 1, 8190), b""
MADE = 0, CREATE_ACCOUNTS, 0, stub(), EVENT


class InFolder(unittest.TestCase):
    def setUp(self):
        folder = tempfile.TemporaryDirectory()
        self.addCleanup(folder.cleanup)
        self.path = pathlib.Path(folder.name) / "ledger.db"

    def write(self, *rows, table=TABLE):
        """Writes a file with these rows."""
        with contextlib.closing(sqlite3.connect(self.path)) as database:
            database.execute(table)
            database.executemany("insert into entry values (?, ?, ?, ?, ?)", rows)
            database.commit()

    def rows(self):
        """Returns the rows, of copies of the file and its log: as a crash would leave them."""
        for end in "", "-wal":
            with contextlib.suppress(FileNotFoundError):
                shutil.copy(f"{self.path}{end}", f"{self.path}.copy{end}")
        with contextlib.closing(sqlite3.connect(f"{self.path}.copy")) as database:
            return database.execute("select place, operation, moment, stubs, length(body) from entry order by place").fetchall()


class Recorded(Ledger):
    """A ledger whose journal is kept by the test."""

    _is_recorded = True


class Recording(unittest.TestCase):
    def refused(self, name, call, *arguments):
        with self.assertRaises(KipError) as caught:
            call(*arguments)
        self.assertEqual(caught.exception.name, name)

    def entries(self, ledger):
        return list(iter(ledger._entry, None))

    def test_a_reply_is_given_once_its_place_is_durable(self):
        for seed in None, (3, 5):
            with Recorded(seed=seed) as ledger:
                numbers = [ledger.submit(CREATE_ACCOUNTS, EVENT) for _ in range(2)]
                ledger.flush()
                self.assertEqual((ledger.places(), ledger.reply()), (2, None))
                self.assertEqual((self.entries(ledger)[1][:5], ledger.reply(1)), ((1, 129, 0, 0, 1), None))
                self.refused("not_handed_out", ledger._durable, 3)
                self.assertIsNone(ledger.reply())
                ledger._durable(1)
                self.assertEqual((ledger.reply(1), ledger.reply(0).place), (None, 0))
                ledger._durable(2)
                self.assertEqual((ledger.reply(numbers[1]).place, ledger.reply()), (1, None))

    def test_entries_are_in_order_and_are_restored(self):
        with Recorded(submitters=2) as ledger, Recorded(submitters=2) as other:
            ledger.submit(CREATE_ACCOUNTS, event(1) + event(2))
            ledger.pulse(70)
            ledger.submit(CREATE_ACCOUNTS, event(3) * 8000, 1)
            ledger.submit(LOOKUP_ACCOUNTS, IDS, 1)
            ledger.pulse(8100)
            entries = self.entries(ledger)
            heads = [(0, 129, 0, 0, 0), (1, 0, 70, 0, 0), (2, 129, 0, 1, 0), (3, 131, 0, 1, 1), (4, 0, 8100, 0, 0)]
            self.assertEqual([it[:5] for it in entries], heads)
            self.assertEqual([it.data for it in entries], [event(1) + event(2), b"", event(3) * 8000, IDS, b""])
            for place, entry in enumerate(entries):
                self.refused("not_next", other._restore_entry, entry._replace(place=place + 1))
                if entry.operation:
                    self.refused("not_next", other._restore_entry, entry._replace(number=entry.number + 1))
                    self.refused("invalid_operation", other._restore_entry, entry._replace(operation=77))
                    with self.assertRaises(OverflowError):
                        other._restore_entry(entry._replace(operation=256 + 129))
                other._restore_entry(entry)
            self.assertEqual((other.accounts(), other.clock(), other.places()), (ledger.accounts(), ledger.clock(), 5))
            self.assertEqual((other._entry(), other.reply(), other.submit(CREATE_ACCOUNTS, b"", 1)), (None, None, 2))
            self.refused("in_use", other._restore_entry, entry._replace(place=5))

    def test_seventy_thousand_packets_and_pulses_wait_and_are_restored(self):
        """None is given up, however many weren't handed out, stored or read before it."""
        count, latest = 70_000, 2**62
        with Recorded() as ledger, Recorded() as other:
            for number in range(count):
                ledger.submit(CREATE_ACCOUNTS, b"")
                ledger.pulse(number if number < count - 1 else latest)
            entries = self.entries(ledger)
            self.assertEqual([it.place for it in entries], list(range(2 * count)))
            self.assertEqual((ledger.submit(CREATE_ACCOUNTS, b""), ledger.pulse(0), ledger.shut(), ledger.reply()), (count, None, None, None))
            entries += self.entries(ledger)
            ledger._durable(2 * count + 2)
            for number in range(count + 1):
                self.assertEqual(ledger.reply().number, number)
            for entry in entries:
                other._restore_entry(entry)
            self.assertEqual((other.places(), other.clock(), ledger.clock()), (2 * count + 2, latest, latest))

    def test_a_seed_is_used(self):
        """Ids with one upper half have one hash without a seed: a ledger with another takes a small part of the time."""
        crafted = b"".join(struct.pack("<QQ96sIHHQ", it, 0x9e3779b97f4a7c15, bytes(96), 1, 1, 0, 0) for it in range(4000))

        def seconds(ledger):
            with ledger:
                begun = time.process_time()
                ledger.submit(CREATE_ACCOUNTS, crafted)
                ledger.flush()
                return time.process_time() - begun
        self.assertLess(4 * min(seconds(Recorded(seed=(3, 5))) for _ in range(3)), seconds(Ledger()))

    def test_what_is_refused_writes_nothing(self):
        with Recorded() as ledger, Ledger() as plain, Recorded() as closed:
            closed.close()
            for it, status in (ledger, 107), (plain, 110), (closed, 100):
                head, buffer = ctypes.create_string_buffer(bytes([7]) * 40, 40), ctypes.create_string_buffer(bytes([7]) * 128, 128)
                self.assertEqual(it._library.kip_entry_bytes(it._at, head, buffer, 128), status)
                self.assertEqual((head.raw, buffer.raw), (bytes([7]) * 40, bytes([7]) * 128))
            ledger.submit(CREATE_ACCOUNTS, EVENT)
            ledger.flush()
            head, buffer = ctypes.create_string_buffer(40), ctypes.create_string_buffer(1 << 24)
            self.assertEqual((ledger._library.kip_entry_bytes(ledger._at, head, buffer, 1 << 24), buffer.raw[:128]), (0, EVENT))

    def test_what_is_not_committed_waits_for_nothing(self):
        with Recorded() as ledger:
            ledger.shut()
            ledger.submit(CREATE_ACCOUNTS, EVENT)
            self.assertEqual((ledger.reply().outcome, ledger._entry()), (SHUTDOWN, None))

    def test_another_ledger_keeps_no_journal(self):
        with Ledger() as ledger:
            self.refused("not_recorded", ledger._entry)
            self.refused("not_recorded", ledger._durable, 0)


class Committing(InFolder):
    def test_what_is_committed_is_there_again(self):
        with DurableClient(self.path) as client:
            self.assertEqual(client.create_accounts([Account(id=1, ledger=1, code=1), Account(id=2, ledger=1, code=1)]), [])
            self.assertEqual(client.create_transfers([Transfer(id=1, amount=30, **ROUTE), Transfer(id=1, amount=31, **ROUTE)]), [(1, 39)])
            client.pulse(10**9)
        with DurableClient(self.path) as client:
            self.assertEqual((client.places(), client.clock(), client.lookup_account(1).debits_posted), (3, 10**9, 30))
            self.assertEqual(client.create_transfers([Transfer(id=1, amount=31, **ROUTE)]), [(0, 39)])
            self.assertIsNone(client.reply())
        self.assertEqual([row[:3] for row in self.rows()], [(-1, 1, 0), (0, 129, 0), (1, 130, 0), (2, 0, 10**9), (3, 130, 0)])

    def test_packets_share_a_transaction_and_have_rows_of_their_own(self):
        with DurableClient(self.path, submitters=2) as client:
            numbers = [client.submit(CREATE_ACCOUNTS, EVENT * count, submitter, 7) for submitter, count in ((0, 1), (1, 2), (0, 0))]
            self.assertEqual((numbers, self.rows()[1:]), ([0, 0, 1], []))
            client.submit(LOOKUP_ACCOUNTS, IDS, 1)
            client.flush()
            copied = self.rows()
            replies = [client.reply() for _ in range(4)]
            self.assertEqual([(it.submitter, it.number, it.place, it.user_data) for it in replies],
                             [(0, 0, 0, 7), (1, 0, 1, 7), (0, 1, 2, 7), (1, 1, 3, 0)])
            self.assertEqual(replies[3].accounts[0].id, 1)
        self.assertEqual(copied[1:], self.rows()[1:])
        self.assertEqual([row[3:] for row in self.rows()[1:]], [(stub(), 128), (stub(0, 1, 2), 256), (stub(1, 0, 0), 0), (stub(1, 1), 16)])

    def test_numbers_count_on_and_each_run_begins_at_0_in_the_file(self):
        for run in range(3):
            with DurableClient(self.path) as client:
                self.assertEqual([client.submit(CREATE_ACCOUNTS, EVENT) for _ in range(2)], [2 * run, 2 * run + 1])
        self.assertEqual([row[3] for row in self.rows()[1:]], [stub(), stub(1)] * 3)

    def test_pulses_are_stored_between_packets(self):
        with DurableClient(self.path) as client:
            client.submit(CREATE_ACCOUNTS, EVENT)
            client.pulse(70)
            self.assertEqual([row[:3] for row in self.rows()[1:]], [(0, 129, 0), (1, 0, 70)])
            client.submit(CREATE_ACCOUNTS, EVENT)
            client.submit(LOOKUP_ACCOUNTS, IDS)
            client.pulse(80)
            client.pulse(90)
            client.submit(CREATE_ACCOUNTS, EVENT)
            self.assertEqual([client.reply(it).place for it in (2, 0, 1)], [3, 0, 2])
        wanted = [(0, 129, 0), (1, 0, 70), (2, 129, 0), (3, 131, 0), (4, 0, 80), (5, 0, 90), (6, 129, 0)]
        self.assertEqual([row[:3] for row in self.rows()[1:]], wanted)
        with DurableClient(self.path) as client:
            self.assertEqual((client.places(), client.clock(), client.reply()), (7, 91, None))

    def test_a_row_of_several_packets(self):
        first = 0, CREATE_ACCOUNTS, 0, stub(0, 0, 2) + stub(0, 1, 0) + stub(1), event(1) + event(2) + event(1)
        later = 4, CREATE_ACCOUNTS, 0, stub(1, 1) + stub(0, 0), event(3) + event(4)
        self.write((*SETTINGS[:3], stub(0, 2, 2), b""), first, (3, 0, 70, b"", b""), later)
        for run in range(2):
            with DurableClient(self.path) as client:
                self.assertEqual(([it.id for it in client.accounts()], client.places()), ([1, 2, 3, 4], 6 + run))
                self.assertEqual((client.submit(CREATE_ACCOUNTS, b"", run), client.reply()), (3 - run, None))
        self.assertEqual([row[0] for row in self.rows()], [-1, 0, 3, 4, 6, 7])

    def test_ten_thousand_packets(self):
        with DurableClient(self.path) as client:
            for id in range(10**4):
                client.submit(CREATE_ACCOUNTS, event(id + 1))
            client.flush()
            self.assertEqual([client.reply().place for _ in range(10**4)], list(range(10**4)))
            self.assertIsNone(client.reply())
        with DurableClient(self.path) as client:
            self.assertEqual((client.places(), [it.id for it in client.accounts()]), (10**4, list(range(1, 10**4 + 1))))
            self.assertEqual(client.submit(CREATE_ACCOUNTS, b""), 10**4)

    def test_a_packet_of_8190_events(self):
        with DurableClient(self.path) as client:
            self.assertEqual(len(client.create_accounts([Account()] * 8190)), 8190)
        with DurableClient(self.path) as client:
            self.assertEqual((client.places(), client.clock()), (1, 8190))

    def test_the_close_ends_a_run_and_is_not_stored(self):
        with DurableClient(self.path) as client:
            client.shut()
            with self.assertRaises(NotCommitted):
                client.create_accounts([Account(id=1, ledger=1, code=1)])
        with DurableClient(self.path) as client:
            self.assertEqual((client.places(), client.create_accounts([Account(id=1, ledger=1, code=1)])), (0, []))

    def test_threads_share_a_client(self):
        with DurableClient(self.path) as client:
            def make(first):
                for id in range(first, first + 50):
                    client.create_accounts([Account(id=id, ledger=1, code=1)])
            threads = [threading.Thread(target=make, args=(1 + 50 * it,)) for it in range(4)]
            for thread in threads:
                thread.start()
            for thread in threads:
                thread.join()
        with DurableClient(self.path) as client:
            self.assertEqual(sorted(it.id for it in client.accounts()), list(range(1, 201)))

    def test_a_close_among_calls_of_other_threads_loses_none_that_returned(self):
        # (16 threads make accounts until the client is closed, by two of them at once)
        for pause in 0, 0.001, 0.01, 0.05:
            with self.subTest(pause=pause):
                self.close_among_calls(pathlib.Path(f"{self.path}.{pause}"), pause)

    def close_among_calls(self, path, pause):
        client, made, ends, closed = DurableClient(path), [], [], []

        def until_closed(call, done):
            try:
                call()
            except KipError as why:
                done.append(why.name)
            except BaseException as why:
                done.append(why)
            else:
                done.append("returned")

        def make(first):
            for id in range(first, first + 10_000):
                client.create_accounts([Account(id=id, ledger=1, code=1)])
                made.append(id)

        def close():
            time.sleep(pause)
            client.close()

        threads = [threading.Thread(target=until_closed, args=(lambda first=1 + 10_000 * it: make(first), ends)) for it in range(16)]
        threads += [threading.Thread(target=until_closed, args=(close, closed)) for _ in range(2)]
        for thread in threads:
            thread.start()
        for thread in threads:
            thread.join()
        self.assertEqual((sorted(closed), ends), (["closed", "returned"], 16 * ["closed"]))
        with DurableClient(path) as client:
            found = {it.id for it in client.accounts()}
            self.assertLessEqual(set(made), found)
            self.assertLessEqual(len(found - set(made)), 16)  # (each thread had one call that didn't return)

    def test_a_client_that_refused_a_call_is_freed_with_its_last_name(self):
        client = DurableClient(self.path)
        with contextlib.suppress(KipError):  # (assertRaises would clear the frames of the error)
            client.submit(77, b"")
        del client
        DurableClient(self.path).close()

    def test_a_closed_client_refuses(self):
        client = DurableClient(self.path)
        client.close()
        for call in client.close, client.flush, lambda: client.pulse(1), lambda: client.submit(CREATE_ACCOUNTS, EVENT), client.reply:
            with self.assertRaises(KipError) as caught:
                call()
            self.assertEqual(caught.exception.name, "closed")


class FailingStore:
    """A connection that fails ahead of a statement, or right after it."""

    def __init__(self, database, text, is_done=False):
        self.database, self.text, self.is_done, self.close = database, text, is_done, database.close

    def execute(self, text, *rows, call="execute"):
        if self.is_done or not text.startswith(self.text):
            getattr(self.database, call)(text, *rows)
        if text.startswith(self.text):
            raise sqlite3.OperationalError("no disk")

    def executemany(self, text, rows):
        self.execute(text, rows, call="executemany")


class Failing(InFolder):
    def test_no_reply_is_given_without_its_row(self):
        for text, is_done in ("begin", False), ("insert", False), ("insert", True), ("commit", False), ("commit", True):
            for way in "flush", "reply", "pulse", "close":
                with self.subTest((text, is_done, way)):
                    self.path.unlink(missing_ok=True)
                    client = DurableClient(self.path)
                    client.create_accounts([Account(id=1, ledger=1, code=1)])
                    numbers = client.submit(CREATE_ACCOUNTS, event(2)), client.submit(LOOKUP_ACCOUNTS, IDS)
                    client._database = FailingStore(client._database, text, is_done)
                    with self.assertRaisesRegex(sqlite3.OperationalError, "no disk"):
                        {"flush": client.flush, "reply": client.reply, "pulse": lambda: client.pulse(5), "close": client.close}[way]()
                    for call in client.reply, lambda: client.reply(numbers[0]), client.flush, client.close:
                        with self.assertRaises(KipError) as caught:
                            call()
                        self.assertEqual(caught.exception.name, "closed")
                    with DurableClient(self.path) as client:
                        self.assertEqual([it.id for it in client.accounts()], [1, 2] if text == "commit" and is_done else [1])

    def test_no_memory_for_an_entry_closes_the_client(self):
        client = DurableClient(self.path)
        client.submit(CREATE_ACCOUNTS, EVENT)
        client.submit(LOOKUP_ACCOUNTS, IDS)
        client._entry = unittest.mock.Mock(side_effect=[client._entry(), client._refusal(NO_MEMORY)])
        with self.assertRaisesRegex(MemoryError, "no_memory"):
            client.flush()
        with self.assertRaises(KipError) as caught:
            client.reply()
        self.assertEqual(caught.exception.name, "closed")
        with DurableClient(self.path) as client:
            self.assertEqual(client.places(), 0)

    def test_a_file_that_can_not_grow_closes_the_client_and_keeps_what_was_acknowledged(self):
        made, soft = 0, resource.getrlimit(resource.RLIMIT_FSIZE)
        self.addCleanup(signal.signal, signal.SIGXFSZ, signal.signal(signal.SIGXFSZ, signal.SIG_IGN))
        client = DurableClient(self.path)
        resource.setrlimit(resource.RLIMIT_FSIZE, (64 << 10, soft[1]))
        try:
            with self.assertRaisesRegex(sqlite3.OperationalError, f"^{self.path}: "):
                for made in range(1000):
                    client.create_accounts([Account(id=made + 1, ledger=1, code=1)])
            with self.assertRaises(KipError):
                client.flush()
        finally:
            resource.setrlimit(resource.RLIMIT_FSIZE, soft)
        self.assertGreater(made, 3)
        with DurableClient(self.path) as client:
            self.assertIn(client.counts().accounts, (made, made + 1))
            self.assertEqual(len(client.create_accounts([Account(id=2000, ledger=1, code=1)])), 0)

    def is_lost(self, client, error):
        """Has a flush fail after it took a packet, and asserts that no later call is told that the packet is stored."""
        number = client.submit(CREATE_ACCOUNTS, event(2))
        with self.assertRaises(error):
            client.flush()
        for call in client.flush, lambda: client.reply(number), client.close:
            with self.assertRaises(Exception):
                call()

    def test_a_look_that_fails_closes_the_client(self):
        client = DurableClient(self.path)
        client.create_accounts([Account(id=1, ledger=1, code=1)])
        client._look = unittest.mock.Mock(side_effect=[OSError("no disk"), OSError("no disk"), *[client._look()] * 9])
        self.is_lost(client, OSError)

    def test_memory_that_stays_out_closes_the_client(self):
        client = DurableClient(self.path)
        client._entry = unittest.mock.Mock(side_effect=[client._refusal(NO_MEMORY), None, None])
        client._look = unittest.mock.Mock(side_effect=[MemoryError, *[client._look()] * 9])
        self.is_lost(client, MemoryError)

    def raise_in_store(self, client, *handlers):
        """Has these handlers called at once, as rows are inserted."""
        signals = signal.SIGUSR1, signal.SIGUSR2
        for number, handler in zip(signals, handlers):
            self.addCleanup(signal.signal, number, signal.signal(number, handler))

        class Signalled(FailingStore):
            def executemany(self, text, rows):
                self.database.executemany(text, rows)
                signal.pthread_sigmask(signal.SIG_BLOCK, signals)
                for number in signals[:len(handlers)]:
                    os.kill(os.getpid(), number)
                signal.pthread_sigmask(signal.SIG_UNBLOCK, signals)

        client._database = Signalled(client._database, "no statement")

    def test_two_handlers_that_raise_close_the_client(self):
        def interrupt(*_):
            raise KeyboardInterrupt

        client = DurableClient(self.path)
        self.raise_in_store(client, interrupt, interrupt)
        self.is_lost(client, KeyboardInterrupt)

    def test_a_handler_that_raises_a_refusal_closes_the_client(self):
        client = DurableClient(self.path)
        self.raise_in_store(client, lambda *_: client.reserve(2**60))
        self.is_lost(client, KipError)

    def test_wrong_settings_make_no_file(self):
        for settings, error in ({"limit": 0}, KipError), ({"submitters": 17}, KipError), ({"clock": 2**63}, KipError), ({"clock": -1}, OverflowError):
            with self.assertRaises(error):
                DurableClient(self.path, **settings)
            self.assertFalse(self.path.exists())

    def test_a_file_keeps_its_settings(self):
        DurableClient(self.path, clock=5, limit=100, submitters=3).close()
        with DurableClient(self.path) as client:
            self.assertEqual(client.clock(), 5)
        for settings in {"clock": 6}, {"limit": 8190}, {"submitters": 1}:
            with self.assertRaisesRegex(BadFile, next(iter(settings))):
                DurableClient(self.path, **settings)
        DurableClient(self.path, clock=5, limit=100, submitters=3).close()

    def test_a_table_without_rows_is_a_new_ledger(self):
        self.write()
        with DurableClient(self.path, limit=7) as client:
            self.assertEqual(client.places(), 0)
        self.assertEqual(self.rows(), [(-1, 1, 0, stub(0, 1, 7), 0)])

    def test_a_path_that_is_no_file_is_named(self):
        for path in self.path.parent, self.path.parent / "none/ledger.db", bytes(self.path.parent):
            with self.assertRaisesRegex((sqlite3.OperationalError, IsADirectoryError), str(self.path.parent)):
                DurableClient(path)

    def test_a_pipe_and_a_device_are_refused(self):
        os.mkfifo(self.path)
        self.addCleanup(signal.signal, signal.SIGALRM, signal.signal(signal.SIGALRM, lambda *_: self.fail("it waits for the pipe")))
        signal.alarm(10)
        self.addCleanup(signal.alarm, 0)
        for path in self.path, "/dev/null":
            with self.assertRaisesRegex(BadFile, "plain file"):
                DurableClient(path)

    def test_one_client_has_a_file(self):
        with DurableClient(self.path) as client:
            with self.assertRaises(BlockingIOError):
                DurableClient(self.path)
            self.assertEqual(client.create_accounts([Account(id=1, ledger=1, code=1)]), [])


class OtherPrograms(InFolder):
    def run_python(self, text):
        """Runs a program that has the path as an argument, and returns the lines that it prints."""
        begin = "import os, signal, sqlite3, sys\nfrom kip import *\nfrom kip.durable import DurableClient\npath = sys.argv[1]\n"
        begin += "def make(id): return client.create_accounts([Account(id=id, ledger=1, code=1)])\n"
        ran = subprocess.run([sys.executable, "-B", "-c", begin + text, self.path], capture_output=True, text=True,
                             env={**os.environ, "PYTHONPATH": os.path.dirname(os.path.abspath(__file__))})
        self.assertEqual(ran.stderr, "")
        return ran.stdout.splitlines()

    def ids(self):
        with DurableClient(self.path) as client:
            return [it.id for it in client.accounts()]

    def test_a_client_that_is_refused_leaves_the_lock_of_the_first(self):
        with DurableClient(self.path):
            with self.assertRaises(BlockingIOError):
                DurableClient(self.path)
            found = self.run_python("try: DurableClient(path)\nexcept BlockingIOError: print('refused')")
            self.assertEqual(found, ["refused"])
        self.assertEqual(self.ids(), [])

    def test_the_end_of_a_child_leaves_its_parent_the_file(self):
        for end in "sys.exit(0)", "client.close()", "make(4)", "del client":
            with self.subTest(end):
                self.path.unlink(missing_ok=True)
                found = self.run_python(
                    "client = DurableClient(path)\nmake(1)\nclient.submit(CREATE_ACCOUNTS, b'')\nif os.fork() == 0:\n"
                    f"    try: {end}\n    except KipError as why: print(why)\n    sys.exit(0)\n"
                    "os.wait()\nmake(2)\nsys.stdout.flush()\nos.kill(os.getpid(), signal.SIGKILL)")
                self.assertEqual(found, ["closed"] if "(" in end and "exit" not in end else [])
                with DurableClient(self.path) as client:
                    self.assertEqual(([it.id for it in client.accounts()], client.places()), ([1, 2], 3))

    def test_a_client_whose_file_is_written_by_another_program_is_closed(self):
        for other in "sqlite3.connect(path).execute('select * from entry').fetchall()", "client = DurableClient(path)\nmake(7)":
            with self.subTest(other):
                self.path.unlink(missing_ok=True)
                client = DurableClient(self.path)
                client.create_accounts([Account(id=1, ledger=1, code=1)])
                shutil.copy(self.path, f"{self.path}.copy")  # (this process has lost its lock then)
                self.run_python(other)
                with self.assertRaisesRegex(sqlite3.OperationalError, "another program"):
                    client.create_accounts([Account(id=2, ledger=1, code=1)])
                with self.assertRaisesRegex(BlockingIOError, "this process"):
                    DurableClient(self.path)
                found = self.run_python("with DurableClient(path) as client: print(*[it.id for it in client.accounts()])")
                self.assertEqual(found, ["1 7" if "7" in other else "1"])

    def test_a_client_whose_file_is_moved_or_deleted_is_closed(self):
        log = pathlib.Path(f"{self.path}-wal")
        for lost in self.path, log:
            for call in lambda: client.create_accounts([Account(id=2, ledger=1, code=1)]), lambda: client.close():
                with self.subTest(lost):
                    self.path.unlink(missing_ok=True)
                    log.unlink(missing_ok=True)
                    client = DurableClient(self.path)
                    client.create_accounts([Account(id=1, ledger=1, code=1)])
                    lost.rename(f"{lost}.moved")
                    with self.assertRaisesRegex(sqlite3.OperationalError, "moved"):
                        call()
                    with self.assertRaises(KipError):
                        client.flush()
                    pathlib.Path(f"{lost}.moved").rename(lost)
                    self.assertEqual(self.rows()[1], (0, CREATE_ACCOUNTS, 0, stub(), 128))

    def test_a_file_that_still_has_its_log_uses_no_shared_memory(self):
        self.run_python("client = DurableClient(path)\nmake(1)\nsys.stdout.flush()\nos.kill(os.getpid(), signal.SIGKILL)")
        left = ["ledger.db", "ledger.db-wal"]
        self.assertEqual(sorted(os.listdir(self.path.parent)), left)
        with DurableClient(self.path) as client:
            self.assertEqual(sorted(os.listdir(self.path.parent)), left)
            client.create_accounts([Account(id=2, ledger=1, code=1)])
            self.assertEqual(sorted(os.listdir(self.path.parent)), left)
        self.assertEqual(self.ids(), [1, 2])

    def test_a_file_that_is_refused_keeps_its_log(self):
        row = "client._database.execute(\"insert into entry values (7, 0, 3, x'', x'')\")\n"
        cases = {"clock": ({"clock": 5}, ""), "next place": ({}, row), "another program": ({}, "client._database.execute('create table other (id)')\n")}
        for word, (settings, more) in cases.items():
            with self.subTest(word):
                files = [pathlib.Path(f"{self.path}{end}") for end in ("", "-wal")]
                for file in files:
                    file.unlink(missing_ok=True)
                self.run_python("client = DurableClient(path)\nmake(1)\n" + more + "os._exit(0)")
                before = [file.read_bytes() for file in files]
                for _ in range(2):
                    with self.assertRaisesRegex(BadFile, word):
                        DurableClient(self.path, **settings)
                    self.assertEqual([file.read_bytes() for file in files if file.exists()], before)
                self.assertEqual(sorted(os.listdir(self.path.parent)), ["ledger.db", "ledger.db-wal"])
                if settings:
                    self.assertEqual(self.ids(), [1])
                    self.assertEqual(os.listdir(self.path.parent), ["ledger.db"])

    def test_a_file_with_another_name_is_refused(self):
        self.run_python("client = DurableClient(path)\nmake(1)\nsys.stdout.flush()\nos.kill(os.getpid(), signal.SIGKILL)")
        other = f"{self.path}.other"
        os.link(self.path, other)
        for path in self.path, other:
            with self.assertRaisesRegex(BadFile, "another name"):
                DurableClient(path)
        os.unlink(other)
        self.assertEqual(self.ids(), [1])

    def test_a_link_leads_to_the_file_and_its_log(self):
        self.run_python("client = DurableClient(path)\nmake(1)\nsys.stdout.flush()\nos.kill(os.getpid(), signal.SIGKILL)")
        moved, link = f"{self.path}.moved", f"{self.path}.link"
        os.symlink(self.path, link)
        os.rename(self.path, moved)
        with self.assertRaisesRegex(BadFile, "its log"):
            DurableClient(link)
        os.rename(moved, self.path)
        with DurableClient(link) as client:
            self.assertEqual(len(client.accounts()), 1)


class BadFiles(InFolder):
    def refused(self, word):
        before = self.path.read_bytes()
        with self.assertRaisesRegex(BadFile, word):
            DurableClient(self.path)
        self.assertEqual(self.path.read_bytes(), before)

    def test_bad_rows(self):
        cases = {
            "next place is 1": [SETTINGS, MADE, (2, 0, 1, b"", b"")],
            "next place is 0": [SETTINGS, (1, CREATE_ACCOUNTS, 0, stub(), EVENT)],
            "no settings": [MADE],
            "version 2": [(-1, 2, *SETTINGS[2:])],
            "invalid_operation": [SETTINGS, (0, 77, 0, stub(), EVENT)],
            "packet 2 of submitter 0": [SETTINGS, MADE, (1, CREATE_ACCOUNTS, 0, stub(2), EVENT)],
            "packet 1 of submitter 0": [SETTINGS, (0, CREATE_ACCOUNTS, 0, stub(1), EVENT)],
            "bad_submitters": [SETTINGS, (0, CREATE_ACCOUNTS, 0, stub(0, 1), EVENT)],
            "fit": [SETTINGS, (0, CREATE_ACCOUNTS, 0, stub(), EVENT * 2)],
            "buffer|invalid_data_size|fit": [SETTINGS, (0, CREATE_ACCOUNTS, 0, stub(0, 0, 2), EVENT)],
            "moment_too_large": [SETTINGS, (0, 0, 2**62 + 1, b"", b"")],
            "its moment": [SETTINGS, (0, CREATE_ACCOUNTS, -5, stub(), EVENT)],
            "wrong settings: bad_limit": [(*SETTINGS[:3], stub(0, 1, 0), b"")],
            "wrong settings: bad_submitters": [(*SETTINGS[:3], stub(0, 17, 1), b"")],
            "wrong settings: clock": [(*SETTINGS[:2], -1, *SETTINGS[3:])],
            "multiple": [SETTINGS, (0, CREATE_ACCOUNTS, 0, stub()[1:], EVENT)],
        }
        for word, rows in cases.items():
            with self.subTest(word):
                self.path.unlink(missing_ok=True)
                self.write(*rows)
                self.refused(word)

    def test_packets_that_can_not_share_a_batch(self):
        linked, two = event(1, flags=1), stub() + stub(1)
        for row in ((0, CREATE_ACCOUNTS, 0, stub(0, 0, 8190) + stub(1), EVENT * 8191), (0, LOOKUP_ACCOUNTS, 0, two, IDS * 2),
                    (0, CREATE_ACCOUNTS, 0, two, EVENT + linked), (0, CREATE_ACCOUNTS, 0, two, linked + EVENT)):
            self.path.unlink(missing_ok=True)
            self.write(SETTINGS, row)
            self.refused("can't share")

    def test_empty_stubs(self):
        self.write(SETTINGS, (0, CREATE_ACCOUNTS, 0, b"", b""))
        self.refused("fit")

    def test_other_tables(self):
        self.write(SETTINGS, table=TABLE.replace(" STRICT", ""))
        self.refused("another program")

    def test_a_database_that_tbpipe_does_not_read(self):
        for setting in "auto_vacuum", "encoding":
            self.path.unlink(missing_ok=True)
            with contextlib.closing(sqlite3.connect(self.path)) as database:
                database.execute(f"pragma {setting} = '{'full' if setting == 'auto_vacuum' else 'UTF-16'}'")
                database.execute(TABLE)
            self.refused(setting)

    def test_no_database(self):
        for data in b"a text of 50 bytes, which is no database at all..\n" * 100, b"a text of 21 bytes..\n", b"short", bytes(4096):
            self.path.write_bytes(data)
            self.refused(f"^{self.path}: it is no SQLite database: give another file$")
        self.path.write_bytes(b"SQLite format 3\0")
        self.refused("not a database")

    def test_a_file_that_was_being_made_as_the_power_failed_is_emptied(self):
        # (the head of a journal: no page to be put back, a file of no pages before, sectors of 512 bytes and pages of 4096)
        journal = pathlib.Path(f"{self.path}-journal")
        journal.write_bytes(struct.pack(">8s5I", bytes.fromhex("d9d505f920a163d7"), 0, 7, 0, 512, 4096).ljust(512, b"\0"))
        self.path.write_bytes(bytes(4096))
        with DurableClient(self.path) as client:
            self.assertEqual((client.places(), journal.exists()), (0, False))
        journal.touch()
        self.path.write_bytes(b"a text of 21 bytes..\n")
        self.refused("not a database")

    def test_a_damaged_page(self):
        with DurableClient(self.path) as client:
            for id in range(200):
                client.submit(CREATE_ACCOUNTS, EVENT)
        data = bytearray(self.path.read_bytes())
        data[4096:4200] = bytes(104)
        self.path.write_bytes(data)
        self.refused("malformed|journal|settings|next place")

    def test_a_log_without_its_file(self):
        pathlib.Path(f"{self.path}-wal").write_bytes(b"pages")
        with self.assertRaisesRegex(BadFile, "log"):
            DurableClient(self.path)
        self.assertEqual(os.listdir(self.path.parent), ["ledger.db-wal"])


if __name__ == "__main__":
    unittest.main()
