"""Tests of kip: python3 -m unittest test_kip. KIP_SO may name the library."""
import array
import copy
import dataclasses
import os
import pathlib
import pickle
import resource
import signal
import subprocess
import sys
import threading
import unittest
import unittest.mock
import warnings

import kip
from kip import (
    CREATE_ACCOUNTS, CREATE_TRANSFERS, LOOKUP_ACCOUNTS, SHUTDOWN, Account, AccountFlags, ClientSync, CreateAccountResult, CreateTransferResult,
    KipError, Ledger, NotCommitted, PendingStatus, Transfer, TransferFlags,
)

PAIR = [Account(id=1, ledger=1, code=1), Account(id=2, ledger=1, code=1)]
ROUTE = dict(debit_account_id=1, credit_account_id=2, ledger=1, code=1)


class Refused(unittest.TestCase):
    def refused(self, name, call, *arguments):
        with self.assertRaises(KipError) as caught:
            call(*arguments)
        self.assertEqual(caught.exception.name, name)

    def test_settings(self):
        self.refused("bad_limit", Ledger, 0, 0)
        self.refused("bad_submitters", Ledger, 0, 1, 17)
        self.refused("moment_too_large", Ledger, 2**63)

    def test_packets(self):
        with Ledger(limit=1) as ledger:
            self.refused("invalid_operation", ledger.submit, 77, b"")
            self.refused("invalid_data_size", ledger.submit, CREATE_ACCOUNTS, b"x")
            self.refused("too_much_data", ledger.submit, CREATE_ACCOUNTS, bytes(256))
            self.refused("bad_submitters", ledger.submit, CREATE_ACCOUNTS, b"", 1)
            self.refused("moment_too_large", ledger.pulse, 2**62 + 1)
            with self.assertRaises(OverflowError):
                ledger.submit(CREATE_ACCOUNTS + 256, b"")
            self.assertEqual(ledger.submit(CREATE_ACCOUNTS, b""), 0)

    def test_moments(self):
        """A moment of a pulse is at most 2^62, and one of a start at most 2^63 - 1."""
        with Ledger() as ledger:
            for moment in 2**62 + 1, 2**63, 2**64 - 1, 2**64, 2**5000:
                self.refused("moment_too_large", ledger.pulse, moment)
            for moment, error in (-1, OverflowError), (1.5, TypeError), ("1", TypeError), (None, TypeError), (float("inf"), TypeError):
                with self.subTest(moment=moment), self.assertRaisesRegex(error, r"^nanoseconds must be an int from 0 to 2\^64 - 1, not "):
                    ledger.pulse(moment)
            ledger.pulse(2**62)
            self.assertEqual(ledger.clock(), 2**62)
        self.refused("moment_too_large", Ledger, 2**64)

    def test_data_is_bytes(self):
        account = kip._pack([PAIR[0]], kip._put_account)
        with Ledger() as ledger:
            for data in 0, 128, True, 10**13, -1, "", "x" * 128, None, [0] * 128, 1.5, PAIR[0]:
                with self.subTest(data=data), self.assertRaisesRegex(TypeError, "^data must be bytes-like, as bytes or a bytearray, not "):
                    ledger.submit(CREATE_ACCOUNTS, data)
            self.assertEqual(ledger.counts().accounts, 0)
            for data in account, bytes(account), memoryview(account), memoryview(account).cast("Q"), array.array("Q", bytes(account)):
                number = ledger.submit(CREATE_ACCOUNTS, data)
            ledger.flush()
            self.assertEqual((number, ledger.counts().accounts, ledger.accounts()[0].id), (4, 1, 1))

    def wrong_field(self, error, create, record, field, value, bits):
        object = record(**{"id": 1, "ledger": 1, "code": 1, field: value})
        wanted = rf"^event 1: {field} must be an int from 0 to 2\^{bits} - 1, not "
        with self.subTest(record=record.__name__, field=field, type=type(value).__name__), self.assertRaisesRegex(error, wanted):
            create([record(id=2, ledger=1, code=1), object])

    def test_fields_out_of_range(self):
        """Each field has the bits of FORMATS: all that aren't here have 128."""
        bits = dict(user_data_64=64, user_data_32=32, reserved=32, timeout=32, ledger=32, code=16, flags=16, timestamp=64)
        with Ledger() as ledger:
            for create, record in (ledger.create_accounts, Account), (ledger.create_transfers, Transfer):
                for field in (it.name for it in dataclasses.fields(record)):
                    size = bits.get(field, 128)
                    for value in -1, 2**size, 10**5000:
                        self.wrong_field(OverflowError, create, record, field, value, size)
                    for value in "1", "", 1.0, 0.0, 1.5, float("nan"), None, [], (), b"", b"1", set(), {1}:
                        self.wrong_field(TypeError, create, record, field, value, size)
            self.assertIsNone(ledger.reply())
            self.assertEqual(ledger.counts(), (0, 0, 0))

    def test_largest_fields_and_other_integers(self):
        """An integer of another type is taken by its value, and a bool as Python takes it."""
        class Whole:
            def __init__(self, value):
                self.value = value

            def __index__(self):
                return self.value

        with Ledger() as ledger:
            most = Account(id=2**128 - 2, user_data_128=2**128 - 1, user_data_64=2**64 - 1, user_data_32=2**32 - 1, ledger=2**32 - 1,
                           code=2**16 - 1, flags=AccountFlags.HISTORY)
            self.assertEqual(ledger.create_accounts([most, Account(id=Whole(2**70), ledger=True, code=Whole(7), debits_posted=False)]), [])
            self.assertEqual(ledger.accounts(), [dataclasses.replace(most, timestamp=1),
                                                 Account(id=2**70, ledger=1, code=7, timestamp=2)])
            self.assertEqual(ledger.lookup_account(Whole(2**70)).code, 7)

    def test_closed(self):
        ledger = Ledger()
        ledger.close()
        self.refused("closed", ledger.close)
        self.refused("closed", ledger.clock)
        self.refused("closed", ledger.stopped)
        self.refused("closed", ledger.accounts)
        self.refused("closed", ledger.reply)
        self.refused("closed", ledger.reply, 0)

    def test_an_error_in_a_with_is_the_users(self):
        with self.assertRaisesRegex(ValueError, "mine"), Ledger() as ledger:
            ledger.close()
            raise ValueError("mine")
        with Ledger() as ledger:
            ledger.close()
        self.refused("closed", ledger.close)

    def test_a_ledger_has_one_owner(self):
        with ClientSync() as client:
            client.create_accounts([PAIR[0]])
            for own in copy.copy, copy.deepcopy, pickle.dumps:
                with self.subTest(own=own.__name__), self.assertRaisesRegex(TypeError, "a ClientSync can't be copied or pickled"):
                    own(client)
            self.assertEqual(client.counts().accounts, 1)

    def test_errors_pass_between_processes(self):
        refused = KipError(6)
        refused.queued = 5
        for own in copy.copy, copy.deepcopy, lambda it: pickle.loads(pickle.dumps(it)):
            again, shut = own(refused), own(NotCommitted(SHUTDOWN))
            self.assertEqual((type(again), again.status, again.name, again.queued, str(again)), (KipError, 6, "no_memory", 5, "no_memory"))
            self.assertEqual((type(shut), shut.outcome, str(shut)), (NotCommitted, 7, "shutdown"))

    def test_shut(self):
        with Ledger() as ledger:
            ledger.shut()
            self.refused("shutdown", ledger.shut)
            ledger.submit(CREATE_ACCOUNTS, b"", user_data=5)
            reply = ledger.reply()
            self.assertEqual((reply.outcome, reply.user_data), (SHUTDOWN, 5))
            self.assertIs(reply.succeeded, False)
            for name in "results", "failures", "accounts", "place":
                with self.subTest(name=name), self.assertRaises(NotCommitted):
                    getattr(reply, name)

    def test_another_version_of_the_library(self):
        other = unittest.mock.MagicMock()
        other.kip_version.return_value = 0x000200
        with unittest.mock.patch.object(kip.ctypes, "CDLL", return_value=other), self.assertRaisesRegex(OSError, "version 0.2 .* needs 0.1"):
            Ledger(library="libkip-of-another-version.so")

    def test_not_committed_never_looks_like_success(self):
        with Ledger() as ledger:
            ledger.create_accounts(PAIR)
            ledger.shut()
            for call in ledger.create_accounts, ledger.create_transfers:
                with self.subTest(call=call.__name__), self.assertRaises(NotCommitted) as caught:
                    call([])
                self.assertEqual(caught.exception.outcome, SHUTDOWN)
            self.assertFalse(ledger.stopped())


class Bank(unittest.TestCase):
    def test_transfers(self):
        with Ledger() as ledger:
            self.assertEqual(ledger.create_accounts(PAIR), [])
            lost = Transfer(id=2, amount=1, **ROUTE | {"credit_account_id": 9})
            self.assertEqual(ledger.create_transfers([Transfer(id=1, amount=30, **ROUTE), lost]), [(1, 22)])
            self.assertEqual(ledger.lookup_account(1).debits_posted, 30)
            self.assertEqual(ledger.lookup_account(2).credits_posted, 30)
            self.assertIsNone(ledger.lookup_account(7))

    def test_hold_that_expires(self):
        with Ledger() as ledger:
            ledger.create_accounts(PAIR)
            self.assertEqual(ledger.create_transfers([Transfer(id=3, amount=10, flags=2, timeout=5, **ROUTE)]), [])
            self.assertEqual(ledger.lookup_account(1).debits_pending, 10)
            self.assertEqual(ledger.transfer_status(3), PendingStatus.PENDING)
            ledger.pulse(10 * 10**9)
            self.assertEqual(ledger.lookup_account(1).debits_pending, 0)
            self.assertEqual(ledger.transfer_status(3), PendingStatus.EXPIRED)
            self.assertEqual((ledger.clock(), ledger.places()), (10 * 10**9, 3))

    def test_results_larger_than_the_buffer(self):
        with Ledger() as ledger:
            self.assertEqual(len(ledger.create_accounts([Account()] * 8190)), 8190)

    def test_a_packet_without_memory_to_commit_it_stays_queued(self):
        """Ids that fail are stored as a packet is committed, so that is where memory runs out. More memory, and it is committed."""
        size = os.sysconf("SC_PAGE_SIZE") * int(pathlib.Path("/proc/self/statm").read_text().split()[0])
        before = resource.getrlimit(resource.RLIMIT_AS)
        with Ledger() as ledger:
            ledger.create_accounts(PAIR)
            packet = lambda first: [Transfer(id=first + it, amount=1, **ROUTE | {"credit_account_id": 9}) for it in range(1, 8191)]
            resource.setrlimit(resource.RLIMIT_AS, (size + (32 << 20), before[1]))
            try:
                with self.assertRaises(KipError) as caught:
                    for number in range(1, 1000):
                        self.assertEqual(len(ledger.create_transfers(packet(number * 8190))), 8190)
            finally:
                resource.setrlimit(resource.RLIMIT_AS, before)
            self.assertEqual((caught.exception.name, caught.exception.queued), ("no_memory", number))
            self.assertIsNone(ledger.reply(number))
            ledger.flush()
            self.assertEqual(len(ledger.reply(number).results), 8 * 8190)
            self.assertEqual(ledger.counts().failed_ids, number * 8190)
            self.assertEqual(len(ledger.create_transfers(packet((number + 1) * 8190))), 8190)

    def test_a_call_returns_its_own_reply(self):
        """A packet queued earlier, whose event fails, leaves its reply to whoever asks for it."""
        with Ledger() as ledger:
            ledger.create_accounts(PAIR)
            failing = Transfer(id=1, amount=1, **ROUTE | {"credit_account_id": 9})
            number = ledger.submit(CREATE_TRANSFERS, kip._pack([failing], kip._put_transfer), user_data=7)
            self.assertEqual(ledger.create_transfers([Transfer(id=2, amount=5, **ROUTE)]), [])
            reply = ledger.reply(number)
            self.assertEqual((reply.user_data, reply.results), (7, bytes([0, 0, 0, 0, 22, 0, 0, 0])))
            self.assertIsNone(ledger.reply())

    def test_replies_that_succeeded(self):
        """Succeeded is what is committed without a failure; a packet after the Close has no failure either."""
        with Ledger() as ledger:
            ledger.create_accounts(PAIR)
            good = kip._pack([Transfer(id=1, amount=1, **ROUTE)], kip._put_transfer)
            ids = b"".join(id.to_bytes(16, "little") for id in (2, 7, 1))
            numbers = [ledger.submit(CREATE_TRANSFERS, good), ledger.submit(CREATE_ACCOUNTS, kip._pack([PAIR[1]], kip._put_account)),
                       ledger.submit(CREATE_TRANSFERS, good), ledger.submit(LOOKUP_ACCOUNTS, ids)]
            ledger.shut()
            numbers.append(ledger.submit(CREATE_TRANSFERS, good))
            replies = [ledger.reply(number) for number in numbers]
            self.assertEqual([reply.succeeded for reply in replies], [True, False, False, True, False])
            self.assertEqual([reply.failures for reply in replies[:4]],
                             [[], [(0, CreateAccountResult.EXISTS)], [(0, CreateTransferResult.EXISTS)], []])
            self.assertEqual([[(it.id, it.debits_posted) for it in reply.accounts] for reply in replies[:4]], [[], [], [], [(2, 0), (1, 1)]])

    def test_a_number_without_an_unread_reply_is_refused(self):
        with Ledger(submitters=2) as ledger:
            number = ledger.submit(CREATE_ACCOUNTS, b"", submitter=1)
            self.assertIsNone(ledger.reply(number, submitter=1))
            ledger.flush()
            for packet in (number, 0), (number + 1, 1), (-1, 1), ("0", 1):
                with self.subTest(packet=packet), self.assertRaisesRegex(LookupError, "read already, or no such packet"):
                    ledger.reply(*packet)
            self.assertEqual(ledger.reply(number, submitter=1).number, number)
            with self.assertRaises(LookupError):
                ledger.reply(number, submitter=1)

    def replies_to_colliding_ids(self, ledger):
        """Returns the results of accounts and transfers whose ids all have hash 0 without a seed."""
        upper = 0x9E3779B97F4A7C15 << 64
        made = ledger.create_accounts([Account(id=upper + i, ledger=1, code=1) for i in range(100)])
        moved = [Transfer(id=upper + i, amount=5, **ROUTE | {"debit_account_id": upper + i,
                                                             "credit_account_id": upper + 2 * i}) for i in range(100)]
        failed = ledger.create_transfers(moved), ledger.create_transfers(moved)
        return made, *failed, repr(ledger.lookup_account(upper + 2))

    def test_seed_and_reservations_change_no_reply(self):
        with Ledger() as fair, Ledger(seed=(3, 5)) as seeded:
            seeded.reserve(accounts=100, transfers=200)
            for refused in {"transfers": 2**60}, {"accounts": 2**64 - 1}:
                with self.assertRaises(KipError) as caught:
                    seeded.reserve(**refused)
                self.assertEqual(caught.exception.name, "no_memory")
            replies = self.replies_to_colliding_ids(fair)
            # The transfer from account 0 to itself, and the 50 to accounts that aren't there, fail; then all 100 again.
            self.assertEqual([len(failures) for failures in replies[:3]], [0, 51, 100])
            self.assertEqual(self.replies_to_colliding_ids(seeded), replies)
        with self.assertRaises(OverflowError):
            Ledger(seed=(0, 2**64))


def interrupted(step, call, handler):
    """Returns a call's result and whether it had as many steps. A handler runs ahead of this step: an instruction of kip, as for a signal."""
    left = step

    def each(_frame, event, _argument):
        nonlocal left
        if event == "opcode":
            left -= 1
            if left == 0:
                handler()
        return each

    def begin(frame, _event, _argument):
        if frame.f_code.co_filename == kip.__file__:
            frame.f_trace, frame.f_trace_opcodes = each, True
            return each

    before = sys.gettrace()
    sys._getframe().f_trace_opcodes = True  # Python 3.12 looks at it here
    sys.settrace(begin)
    try:
        return call(), left <= 0
    finally:
        sys.settrace(before)


class Handlers(unittest.TestCase):
    """A signal handler calls the ledger ahead of each instruction of another call, in turn."""

    def each_step(self, call, handler, check, least):
        """Checks the results of a call and of its handler, which interrupts it at each step. There are some steps at least."""
        for step in range(1, 100_000):
            inner = []
            outer, reached = interrupted(step, call, lambda: inner.append(handler()))
            if not reached:
                break
            check(step, outer, inner[0])
        self.assertGreater(step, least)

    def test_each_create_has_its_own_results(self):
        """The call's transfer isn't committed, since its code is 0; the handler's is there already."""
        with Ledger() as ledger:
            ledger.create_accounts(PAIR)
            done, bad = Transfer(id=1, amount=1, **ROUTE), Transfer(id=2, amount=1, **ROUTE | {"code": 0})
            ledger.create_transfers([done])
            self.each_step(lambda: ledger.create_transfers([bad]), lambda: ledger.create_transfers([done]),
                           lambda step, *results: self.assertEqual(results, ([(0, 20)], [(0, 46)]), f"step {step}"), 100)
            self.assertIsNone(ledger.reply())

    def test_each_look_up_has_its_own_results(self):
        """A look-up by hand of account 1 or 2, with large replies among them."""
        def look_up(ledger, id, times):
            number = ledger.submit(LOOKUP_ACCOUNTS, id.to_bytes(16, "little") * times)
            ledger.flush()
            results = ledger.reply(number).results
            return len(results), set(int.from_bytes(results[at:at + 16], "little") for at in range(0, len(results), 128))

        with Ledger() as ledger:
            ledger.create_accounts(PAIR)
            for outer, inner in ((1, 1), (1, 5), (5, 1), (5, 5)):
                self.each_step(lambda: look_up(ledger, 1, outer), lambda: look_up(ledger, 2, inner),
                               lambda step, *found: self.assertEqual(found, ((128 * outer, {1}), (128 * inner, {2})), f"step {step}"), 50)

    def test_a_reply_without_a_number_leaves_those_of_other_calls(self):
        with Ledger() as ledger:
            ledger.create_accounts(PAIR)

            def take_any():
                ledger.flush()
                try:
                    return ledger.reply()
                except KipError as why:
                    return why.name

            def check(step, results, taken):
                self.assertEqual(results, [(0, 21)], f"step {step}")
                self.assertIn(taken, ("busy", None), f"step {step}")

            self.each_step(lambda: ledger.create_accounts([PAIR[0]]), take_any, check, 100)
            with self.assertRaises(KipError) as caught:
                interrupted(50, lambda: ledger.create_accounts([PAIR[0]]), ledger.reply)
            self.assertEqual((caught.exception.status, caught.exception.name), (106, "busy"))

    def test_replies_come_once_and_in_order(self):
        """The call reads the next reply, and the handler that of its own packet, past those that are ahead of it."""
        with Ledger() as ledger:
            def call():
                for user_data in 5, 6, 7:
                    ledger.submit(CREATE_ACCOUNTS, b"", user_data=user_data)
                ledger.flush()
                return [reply.user_data for reply in iter(ledger.reply, None)]

            self.each_step(call, lambda: ledger.create_accounts([Account()]),
                           lambda step, *results: self.assertEqual(results, ([5, 6, 7], [(0, 6)]), f"step {step}"), 100)

    def test_a_handler_takes_a_reply_that_the_call_was_about_to_return(self):
        with Ledger() as ledger:
            numbers = []

            def call():
                numbers.append(ledger.submit(CREATE_ACCOUNTS, b"", user_data=5))
                ledger.create_accounts([])
                return ledger.reply()

            def check(step, outer, inner):
                taken = [reply.user_data for reply in (outer, inner) if reply is not None]
                self.assertEqual(taken, [5], f"step {step}")

            def take():
                try:
                    return ledger.reply(numbers[-1])
                except LookupError:
                    return None

            numbers.append(0)
            self.each_step(call, take, check, 100)


class Ids(unittest.TestCase):
    def test_ids_rise(self):
        ids = [kip.id() for _ in range(10_000)]
        self.assertTrue(all(one < other for one, other in zip(ids, ids[1:])))
        self.assertTrue(0 < ids[0] < 2**128 - 1)

    def rising_at_each_step(self, moments):
        """Makes ids in a handler at each step of another call. `moments` returns the clock's milliseconds during such a call, in turn."""
        for step in range(1, 1000):
            make, inner, clock = kip._Ids(), [], iter(moments)
            with unittest.mock.patch.object(kip.time, "time_ns", lambda: next(clock, moments[-1]) * 10**6):
                before = make(), make()
                outer, reached = interrupted(step, make, lambda: inner.extend((make(), make())))
                after = make(), make()
            if not reached:
                break
            # The two calls are at once, so either order will do.
            for made in sorted([outer, *inner]), inner:
                ids = [*before, *made, *after]
                self.assertTrue(all(one < other for one, other in zip(ids, ids[1:])), f"step {step}: {[hex(id) for id in ids]}")
        self.assertGreater(step, 30)

    def test_ids_rise_in_a_signal_handler(self):
        """The clock stays, rises at each look, or is set back."""
        for moments in [5], [5, 5, 6, 7, 8, 9, 10, 11, 12], [5, 5, 6], [5, 5, 5, 6], [5, 5, 6, 6, 7], [9, 9, 8, 7, 6, 5, 4, 3], [5, 5, 7, 6]:
            with self.subTest(moments=moments):
                self.rising_at_each_step(moments)

    def test_a_signal_handler_makes_ids_without_a_deadlock(self):
        """The handler runs while the lock is held, in a process of its own, which ends by itself or is killed."""
        program = ("import signal, time, kip; signal.signal(signal.SIGALRM, lambda *_: kip.id())\n"
                   "signal.setitimer(signal.ITIMER_REAL, .0001, .0001); end = time.monotonic() + .5\n"
                   "while time.monotonic() < end: kip.id()\n"
                   "signal.setitimer(signal.ITIMER_REAL, 0)")
        environment = {**os.environ, "PYTHONPATH": str(pathlib.Path(kip.__file__).parents[1]), "PYTHONDONTWRITEBYTECODE": "1"}
        ended = subprocess.run([sys.executable, "-c", program], env=environment, timeout=60)
        self.assertEqual(ended.returncode, 0)

    def test_a_forked_child_has_ids_of_its_own(self):
        """The clock stays, so that both would continue one millisecond's ids. Another thread has the lock as the process forks."""
        with unittest.mock.patch.object(kip.time, "time_ns", lambda: 2**60):
            last, (reading, writing), held = kip.id(), os.pipe(), threading.Event()

            def hold():
                with kip.id._lock:
                    held.set()
                    done.wait()

            done, thread = threading.Event(), threading.Thread(target=hold)
            thread.start()
            held.wait()
            with warnings.catch_warnings():
                warnings.simplefilter("ignore", DeprecationWarning)  # of a fork with threads, which is what is tried
                child = os.fork()
            if child == 0:
                signal.alarm(20)  # which kills it if it waits for the lock
                os.write(writing, kip.id().to_bytes(16, "little"))
                os._exit(0)
            done.set()
            thread.join()
            mine = kip.id()
            os.waitpid(child, 0)
            os.close(writing)
            with open(reading, "rb") as pipe:
                theirs = int.from_bytes(pipe.read(), "little")
        self.assertGreater(mine, last)
        self.assertGreater(theirs, last)
        self.assertNotEqual(theirs & 2**80 - 1, mine & 2**80 - 1)


class Threads(unittest.TestCase):
    """Four threads with one ledger: each waits for the others' calls, and gets the reply to its own packet."""

    def test_each_call_returns_its_own_reply(self):
        rounds, threads, wrong = 1500, 4, []
        with Ledger() as ledger:
            ledger.create_accounts(PAIR)

            def work(thread):
                # An odd thread's transfers fail, an even one's don't.
                route = ROUTE | {"credit_account_id": 9} if thread % 2 else ROUTE
                wanted = [(0, 22), (1, 22)] if thread % 2 else []
                for i in range(rounds):
                    id = 1 + 2 * (thread * rounds + i)
                    try:
                        results = ledger.create_transfers([Transfer(id=id, amount=1, **route), Transfer(id=id + 1, amount=1, **route)])
                    except Exception as error:  # a race may break anything
                        results = error
                    if results != wanted:
                        wrong.append((thread, i, results))
                        return

            running = [threading.Thread(target=work, args=(thread,)) for thread in range(threads)]
            for thread in running:
                thread.start()
            for thread in running:
                thread.join()
            self.assertEqual(wrong, [])
            self.assertEqual(ledger.lookup_account(1).debits_posted, 4 * rounds)


class StandIn(unittest.TestCase):
    """The calls and names of TigerBeetle's Python client."""

    def test_results_have_indices_and_names(self):
        with ClientSync(cluster_id=0, replica_addresses="3000") as client:
            bad = Account(id=2, ledger=1, code=0, flags=AccountFlags.LINKED | AccountFlags.DEBITS_MUST_NOT_EXCEED_CREDITS)
            results = client.create_accounts([PAIR[0], bad])
            self.assertEqual([(it.index, it.result) for it in results], [(1, CreateAccountResult.LINKED_EVENT_CHAIN_OPEN)])
            client.create_accounts([PAIR[1]])
            results = client.create_transfers([Transfer(id=5, amount=1, **ROUTE), Transfer(id=5, amount=1, **ROUTE)])
            self.assertEqual([(it.index, it.result) for it in results], [(1, CreateTransferResult.EXISTS)])

    def test_ids_are_kept_by_result(self):
        with ClientSync() as client:
            client.create_accounts(PAIR)
            failing = [Transfer(id=7, amount=1, **ROUTE | {"credit_account_id": 9}), Transfer(id=8, amount=1, **ROUTE | {"code": 0})]
            self.assertEqual([it.result.keeps_id for it in client.create_transfers(failing)], [True, False])
            self.assertEqual(client.counts(), kip.Counts(accounts=2, transfers=0, failed_ids=1))
            again = client.create_transfers([Transfer(id=7, amount=1, **ROUTE), Transfer(id=8, amount=1, **ROUTE)])
            self.assertEqual([(it.index, it.result) for it in again], [(0, CreateTransferResult.ID_ALREADY_FAILED)])
            self.assertEqual(client.counts(), (2, 1, 1))

    def test_lookups(self):
        with ClientSync() as client:
            client.create_accounts(PAIR)
            held = Transfer(id=3, amount=10, flags=TransferFlags.PENDING, **ROUTE)
            post = Transfer(id=4, pending_id=3, amount=kip.amount_max, flags=TransferFlags.POST_PENDING_TRANSFER)
            self.assertEqual(client.create_transfers([held, post]), [])
            self.assertEqual([it.id for it in client.lookup_accounts([2, 7, 1])], [2, 1])
            found = client.lookup_transfers([4, 9, 3])
            self.assertEqual([it.id for it in found], [4, 3])
            # A post has the pending transfer's accounts and amount.
            self.assertEqual((found[0].amount, found[0].debit_account_id, found[0].code), (10, 1, 1))
            self.assertEqual([client.transfer_status(id) for id in (3, 4, 9)],
                             [PendingStatus.POSTED, PendingStatus.NONE, PendingStatus.NONE])
            self.assertEqual([it.id for it in client.accounts()], [1, 2])
            self.assertEqual([(it.id, it.amount, status) for it, status in client.transfers()],
                             [(3, 10, PendingStatus.POSTED), (4, 10, PendingStatus.NONE)])


if __name__ == "__main__":
    unittest.main()
