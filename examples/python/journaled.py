"""A ledger that survives the process: python3 examples/python/journaled.py FILE CALLS

Makes the calls of a little bank up to number CALLS, and prints `committed NUMBER` for each. A call is in the file before its line is
printed. Each call takes one place of the ledger, so the next run continues at the first place that isn't in the file.
"""
import pathlib
import sqlite3
import sys

try:
    import kip as tb
except ImportError:  # not installed: the package of this checkout
    sys.dont_write_bytecode = True
    sys.path.insert(0, str(pathlib.Path(__file__).resolve().parents[2] / "bindings/python"))
    import kip as tb
from kip.durable import DurableClient


def go_on(bank, number):
    """Makes call `number` of the bank. An event that fails as `exists` was committed before, so it isn't made twice."""
    failures = []
    if number == 0:
        failures = bank.create_accounts([tb.Account(id=1, ledger=1, code=1), tb.Account(id=2, ledger=1, code=1)])
    elif number % 10 == 0:
        bank.pulse(number * 10**9)
    else:
        transfer = tb.Transfer(id=number, debit_account_id=1, credit_account_id=2, amount=number, ledger=1, code=1)
        failures = bank.create_transfers([transfer])
    for failed in failures:
        if failed.result.name != "EXISTS":
            raise ValueError(f"call {number}: {failed.result.name.lower()}")
    print(f"committed {number}", flush=True)


def main():
    try:
        if len(sys.argv) != 3 or not sys.argv[2].isdecimal():
            raise ValueError("usage: journaled.py FILE CALLS")
        path, calls = sys.argv[1], int(sys.argv[2])
        with DurableClient(path) as bank:
            print(f"recovered {bank.places()}", flush=True)
            for number in range(bank.places(), calls):
                go_on(bank, number)
            print(f"debits {sum(it.debits_posted for it in bank.lookup_accounts([1]))}, clock {bank.clock()}")
    except (ValueError, OSError, MemoryError, sqlite3.Error, tb.KipError, tb.NotCommitted) as why:
        print(f"journaled: {why}", file=sys.stderr)
        return 2
    except KeyboardInterrupt:
        print("journaled: interrupted: what was printed as committed is in the file", file=sys.stderr)
        return 130


if __name__ == "__main__":
    sys.exit(main())
