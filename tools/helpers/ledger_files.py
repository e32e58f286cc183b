"""What the checks know of ledgers in files: the table, its rows, and a disk that is full."""

import pathlib
import resource
import signal
import struct
import sys

TOP = pathlib.Path(__file__).resolve().parents[2]
sys.path.append(str(TOP / "bindings/python"))
import kip.durable  # noqa: E402: its folder is known only now

# The text by which the client in Python makes the table.
TABLE = kip.durable.TABLE
PUT = "insert into entry (place, operation, moment, stubs, body) values (?, ?, ?, ?, ?)"
# A packet's number, submitter and number of events.
STUB = struct.Struct("<QII")


def stub(number, submitter=0, events=1):
    return STUB.pack(number, submitter, events)


def stubs_of(row):
    return list(STUB.iter_unpack(row[3]))


# The row of the settings: clock 0, two submitters and a limit of 8190 events.
SETTINGS = (-1, 1, 0, stub(0, 2, 8190), b"")


def limit_files(size):
    """Has a write fail that makes a file longer than this, as on a full disk."""
    signal.signal(signal.SIGXFSZ, signal.SIG_IGN)
    resource.setrlimit(resource.RLIMIT_FSIZE, (size, size))
