"""Two accounts, one transfer that succeeds and one that fails, and a call after the Close: python3 examples/python/two_accounts.py"""
import pathlib
import sys

try:
    import kip as tb
except ImportError:  # not installed: the package of this checkout
    sys.dont_write_bytecode = True
    sys.path.insert(0, str(pathlib.Path(__file__).resolve().parents[2] / "bindings/python"))
    import kip as tb

with tb.ClientSync(cluster_id=0, replica_addresses="3000") as client:
    client.create_accounts([tb.Account(id=1, ledger=1, code=1), tb.Account(id=2, ledger=1, code=1)])
    route = dict(debit_account_id=1, ledger=1, code=1, amount=30)
    results = client.create_transfers([tb.Transfer(id=1, credit_account_id=2, **route), tb.Transfer(id=2, credit_account_id=9, **route)])
    for failed in results:
        print(f"event {failed.index}: {failed.result.name.lower()}")
    print("account 1: debits posted", client.lookup_accounts([1])[0].debits_posted)
    client.shut()
    try:
        client.create_transfers([tb.Transfer(id=3, credit_account_id=2, **route)])
    except tb.NotCommitted as why:
        print("not committed:", why)
