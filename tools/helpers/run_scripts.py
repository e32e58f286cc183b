"""Scripts for `tbpipe run` by name, each with the lines that the rules give for it, whatever the schedule is."""

import collections.abc
import dataclasses
import re


@dataclasses.dataclass
class Run:
    """A script, and its output: a `*` in a line stands for a number that the schedule decides, and ` or ` divides lines of which one
    must come. What else the rules say of these numbers is a function of them, in their order."""

    name: str
    script: str
    wanted: list
    holds: collections.abc.Callable = lambda numbers: True

    def differs(self, output):
        """Returns in what an output isn't the wanted one, or None."""
        lines, numbers = output.splitlines(), []
        if len(lines) != len(self.wanted):
            return f"{self.name} has {len(lines)} lines, not {len(self.wanted)}"
        for line, wanted in zip(lines, self.wanted):
            patterns = (re.escape(one).replace(r"\*", r"(\d+)") for one in wanted.split(" or "))
            found = next(filter(None, (re.fullmatch(pattern, line) for pattern in patterns)), None)
            if not found:
                return f"{self.name} has {line!r}, not {wanted!r}"
            numbers += map(int, found.groups())
        return None if self.holds(numbers) else f"{self.name} has other numbers: {numbers}"


def lines_of(text):
    return text.strip().split("\n")


# A packet that isn't admitted has its line among its submitter's packets, in order, and uses no number.
REFUSALS = """
limit 2
packet 0 200
packet 1 129
account id=0
packet 0 129
account id=1
packet 1 131
hex 00
packet 0 131
id 1
id 2
id 3
packet 1 129
packet 0 129
account id=1 ledger=1
packet 1 128
"""

REFUSALS_WANTED = """
packet 0 refused 1 InvalidOperation
packet 0 0 committed * 0:13
packet 0 refused 3 TooMuchData
packet 0 1 committed * 0:14
packet 1 0 committed * 0:6
packet 1 refused 2 InvalidDataSize
packet 1 1 committed *
packet 1 refused 1 InvalidOperation
clock 3
"""

# Packets of the two may be joined, and each gets the results of its own events.
ANSWERS = """
packet 0 129
account id=1 ledger=1 code=1
account id=2 code=1
packet 1 129
account id=3 ledger=1
packet 1 129
account id=3 ledger=1 code=1 flags=6
account id=4 ledger=1 code=1 flags=16
packet 0 129
account id=1 ledger=1 code=2
packet 0 131
id 1
packet 1 131
id 9
packet 0 130
transfer id=1
packet 1 130
transfer id=2 debit_account_id=5
transfer id=3 debit_account_id=5 credit_account_id=5
"""

ANSWERS_WANTED = """
packet 0 0 committed * 1:13
packet 0 1 committed * 0:20
packet 0 2 committed * 1:0:0:0:0
packet 0 3 committed * 0:8
packet 1 0 committed * 0:14
packet 1 1 committed * 0:8 1:5
packet 1 2 committed *
packet 1 3 committed * 0:10 1:12
clock 9
account 1 * 0 0 0 0
"""


def is_timestamp_of_account_1(numbers):
    """Account 1 is the first event of submitter 0. Those of submitter 1's packets that were committed before it raised the clock."""
    first, others, timestamp = numbers[0], numbers[4:8], numbers[8]
    return timestamp == 1 + sum(events for events, place in zip((1, 2, 0, 2), others) if place < first)


def packets_behind_a_close():
    """Four packets of each of two submitters, and a Close amid them. Queue and credit have room for all, so no submitter learns of the
    shutdown before it has queued its last packet."""
    half = "packet 0 129\naccount id=0\npacket 1 129\naccount id=0\n" * 2
    packets = [f"packet {submitter} {number}" for submitter in range(2) for number in range(4)]
    wanted = [*(f"{packet} committed * 0:6 or {packet} shutdown" for packet in packets), "clock *"]
    # (each committed packet has one event)
    return Run("packets_behind_a_close", half + "shut\n" + half, wanted, lambda numbers: numbers[-1] == len(numbers) - 1)


def refused_behind_a_close():
    """200 packets, each of which waits for the reply to the one before it. Once that says Shutdown all others are refused."""
    script = "submitters 1\ncredit 1\nshut\n" + "packet 0 129\naccount id=0\n" * 200
    ends = "packet 0 {0} committed * 0:6 or packet 0 {0} shutdown or packet 0 refused 7 Shutdown"
    wanted = [*(ends.format(number) for number in range(200)), "clock *"]
    # (the places of the committed packets, and their number as the clock)
    return Run("refused_behind_a_close", script, wanted, lambda numbers: numbers == [*range(len(numbers))])


def sixteen_drivers():
    """Three packets of each of 16 submitters for a queue of four slots, each of one account. There is no account of id 0."""
    script = "submitters 16\ncapacity 4\ncredit 1\n"
    script += "".join(f"packet {number // 3} 129\naccount id={number} ledger=1 code=1\n" for number in range(48))
    wanted = [f"packet {number // 3} {number % 3} committed *" + " 0:6" * (number == 0) for number in range(48)]
    return Run("sixteen_drivers", script, [*wanted, "clock 48", *["account * * 0 0 0 0"] * 47])


RUNS = [
    Run("refusals_of_two_submitters", REFUSALS.lstrip(), lines_of(REFUSALS_WANTED)),
    Run("each_submitter_its_own_answers", ANSWERS.lstrip(), lines_of(ANSWERS_WANTED), is_timestamp_of_account_1),
    packets_behind_a_close(),
    refused_behind_a_close(),
    sixteen_drivers(),
]
