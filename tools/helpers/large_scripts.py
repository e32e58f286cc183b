"""Scripts of the largest sizes, each with the lines that the rules give for it: packets of 8,190 events, chains of each length, ids
near 2^128, 70,000 packets, lines of 65,536 bytes, 16 submitters, the longest timeout and the last timestamps."""

import functools

MAX = 2**128 - 1
BATCH_MAX = 8190
CLOCK_MAX = 2**63 - 1
# The longest timeout, in nanoseconds.
TIMEOUT_MAX = (2**32 - 1) * 10**9


def account(number, flags=0):
    return f"account id={number} ledger=1 code=1 flags={flags}"


def transfer(number, debit=1, credit=2, amount=1, flags=0):
    return f"transfer id={number} debit_account_id={debit} credit_account_id={credit} amount={amount} ledger=1 code=1 flags={flags}"


def failed(codes):
    """Returns what the line of a packet says of its failures, given as pairs of index and code."""
    return "".join(f" {index}:{code}" for index, code in codes)


def account_bytes(number):
    """Returns an account in ledger 1 with code 1 as a line of `hex` has it."""
    return (number.to_bytes(16, "little") + bytes(96) + (1).to_bytes(4, "little") + (1).to_bytes(2, "little") + bytes(10)).hex()


def account_lines(ids):
    return [f"account {number} {timestamp} 0 0 0 0" for timestamp, number in enumerate(ids, 1)]


def largest_packet():
    """One packet of 8,190 accounts, with the greatest ids that there are."""
    ids = range(MAX - BATCH_MAX, MAX)
    script = ["packet 0 129", *map(account, ids)]
    return script, ["packet 0 0 committed 0", f"clock {BATCH_MAX}", *account_lines(ids)]


def one_event_too_many():
    """8,191 accounts in one packet are refused."""
    return ["packet 0 129", *map(account, range(1, BATCH_MAX + 2))], ["packet 0 refused 3 TooMuchData", "clock 0"]


def many_events_too_many():
    """20,000 accounts in one packet are refused, as one too many are: no size of a packet ends the program."""
    return ["packet 0 129", *map(account, range(1, 20_001))], ["packet 0 refused 3 TooMuchData", "clock 0"]


def largest_settings():
    """The greatest capacity, credit and number of submitters, for a packet of the last one."""
    script = ["limit 1", "capacity 65536", "credit 65536", "submitters 16", "packet 15 129", account(MAX - 1)]
    return script, ["packet 15 0 committed 0", "clock 1", *account_lines([MAX - 1])]


def many_packets():
    """25,000 packets of one event each, of one submitter."""
    script, printed = [], []
    for number in range(25_000):
        script += ["packet 0 129", account(number + 1)]
        printed.append(f"packet 0 {number} committed {number}")
    return script, [*printed, "clock 25000", *account_lines(range(1, 25_001))]


def longest_line():
    """A line of 65,536 bytes: 255 accounts in hexadecimal digits, and spaces."""
    ids = range(1, 256)
    line = "hex " + "".join(map(account_bytes, ids))
    script = ["packet 0 129", line.ljust(65_536)]
    return script, ["packet 0 0 committed 0", "clock 255", *account_lines(ids)]


def line_too_long():
    return ["packet 0 129", "#".ljust(65_537)], ["fault 2 line too long"]


def largest_lookup():
    """8,190 ids looked up, of which every second is there."""
    there = range(2, BATCH_MAX + 1, 2)
    script = ["packet 0 129", *map(account, there), "packet 0 131", *(f"id {number}" for number in range(1, BATCH_MAX + 1))]
    found = "".join(f" {number}:0:0:0:0" for number in there)
    return script, ["packet 0 0 committed 0", "packet 0 1 committed 1" + found, f"clock {len(there)}", *account_lines(there)]


def resolved_late():
    """1,110 pending transfers with the longest timeout. After 6,790 other transfers half of the first 1,100 are posted and half voided.
    The last ten expire one by one, to the nanosecond: their timestamps are 1,103 to 1,112."""
    resolved, posted = 1100, 550
    script = ["packet 0 129", account(1), account(2), "packet 0 130"]
    script += [f"{transfer(number, amount=3, flags=2)} timeout=4294967295" for number in range(1, resolved + 11)]
    script += ["packet 0 130", *(transfer(number + 10_000) for number in range(6790)), "packet 0 130"]
    script += [f"transfer id={number + 20_000} pending_id={number} amount={MAX} flags=4" for number in range(1, posted + 1)]
    script += [f"transfer id={number + 20_000} pending_id={number} flags=8" for number in range(posted + 1, resolved + 1)]
    printed = [f"packet 0 {number} committed {number}" for number in range(4)]
    for turn, (timestamp, left) in enumerate([(1102, 10), (1107, 5), (1111, 1), (1112, 0)]):
        script += [f"pulse {TIMEOUT_MAX + timestamp}", "packet 0 131", "id 1"]
        printed += [f"pulse {4 + 2 * turn}", f"packet 0 {4 + turn} committed {5 + 2 * turn} 1:{3 * left}:{6790 + 3 * posted}:0:0"]
    both = 6790 + 3 * posted
    return script, [*printed, f"clock {TIMEOUT_MAX + 1112}", f"account 1 1 0 {both} 0 0", f"account 2 2 0 0 0 {both}"]


def many_timeouts():
    """73,710 pending transfers with a timeout in nine packets of 8,190, of one second if the id is odd, else of two. The first packet's are
    posted by a packet of their own. The odd ones up to 36,855 expire by a pulse to the nanosecond, and the others by the next."""
    count, expired = 9 * BATCH_MAX, (36_855 - BATCH_MAX + 1) // 2
    script, printed = ["packet 0 129", account(1), account(2)], [f"packet 0 {number} committed {number}" for number in range(11)]
    for first in range(1, count, BATCH_MAX):
        ids = range(first, first + BATCH_MAX)
        script += ["packet 0 130", *(f"{transfer(number, flags=2)} timeout={2 - number % 2}" for number in ids)]
    script += ["packet 0 130", *(f"transfer id={count + number} pending_id={number} amount={MAX} flags=4" for number in range(1, BATCH_MAX + 1))]
    script += [f"pulse {10**9 + 2 + 36_855}", "packet 0 131", "id 1", f"pulse {3 * 10**9}"]
    printed += ["pulse 11", f"packet 0 11 committed 12 1:{count - BATCH_MAX - expired}:{BATCH_MAX}:0:0", "pulse 13"]
    return script, [*printed, f"clock {3 * 10**9}", f"account 1 1 0 {BATCH_MAX} 0 0", f"account 2 2 0 0 0 {BATCH_MAX}"]


def seventy_thousand_pulses():
    """70,000 pulses, then a pulse and a packet that are refused, the Close, and a packet and a refused packet after it."""
    script = [*(f"pulse {number}" for number in range(70_000)), f"pulse {2**62 + 1}", "packet 1 200", "shut", "packet 1 131", "packet 0 0"]
    return script, [
        *(f"pulse {number}" for number in range(70_000)), "pulse refused 12 MomentTooLarge", "packet 1 refused 1 InvalidOperation", "shut",
        "packet 1 0 shutdown", "packet 0 refused 1 InvalidOperation", "clock 69999",
    ]


def many_transfers():
    """139,230 transfers in 17 packets of 8,190, past 2^17 rows, then the last of them again, and the first with another amount."""
    packets, script = 17, ["packet 0 129", account(1), account(2)]
    for first in range(1, packets * BATCH_MAX, BATCH_MAX):
        script += ["packet 0 130", *(transfer(number) for number in range(first, first + BATCH_MAX))]
    script += ["packet 0 130", transfer(packets * BATCH_MAX), transfer(1, amount=2)]
    moved = packets * BATCH_MAX
    printed = [f"packet 0 {number} committed {number}" for number in range(packets + 1)]
    return script, [
        *printed, f"packet 0 {packets + 1} committed {packets + 1} 0:46 1:39", f"clock {4 + moved}", f"account 1 1 0 {moved} 0 0",
        f"account 2 2 0 0 0 {moved}",
    ]


def failed_ids():
    """1,100 transfers whose account isn't there, each refused with 68 afterwards."""
    transfers = [transfer(number, credit=9) for number in range(1, 1101)]
    script = ["packet 0 129", account(1), account(2), "packet 0 130", *transfers, "packet 0 130", *transfers]
    return script, [
        "packet 0 0 committed 0",
        "packet 0 1 committed 1" + failed((index, 22) for index in range(1100)),
        "packet 0 2 committed 2" + failed((index, 68) for index in range(1100)),
        "clock 2202", "account 1 1 0 0 0 0", "account 2 2 0 0 0 0",
    ]


def full_bodies():
    """8,190 accounts, 8,190 transfers between them, each of another pair, and 8,190 more accounts."""
    first, more = range(1, BATCH_MAX + 1), range(BATCH_MAX + 1, 2 * BATCH_MAX + 1)
    script = ["packet 0 129", *map(account, first), "packet 0 130"]
    script += [transfer(number, number, BATCH_MAX + 1 - number) for number in first]
    script += ["packet 0 129", *map(account, more)]
    printed = [f"packet 0 {number} committed {number}" for number in range(3)]
    printed += [f"clock {3 * BATCH_MAX}", *(f"account {number} {number} 0 1 0 1" for number in first)]
    return script, printed + [f"account {number} {BATCH_MAX + number} 0 0 0 0" for number in more]


# Numbers of single events, each with the length of the chain after them.
CHAINS = [(0, 2), (1, 2), (7, 3), (255, 256), (1000, 1024), (4000, 4190), (8000, 190), (1, 8189), (0, BATCH_MAX)]


def chain_packet(event, first, chain, code):
    """Returns the events of a packet, with ids from `first` on, and its failures. After single events comes a chain, which succeeds
    (code 0), is left open (2), or fails by another code, since the id of its last event is 0."""
    before, length = chain
    last = before + length - 1
    events = []
    for index in range(last + 1):
        linked = before <= index < last or index == last and code == 2
        events.append(event(0 if index == last and code > 2 else first + index, flags=int(linked)))
    return events, [(index, 1 if index < last else code) for index in range(before, last + 1) if code]


def chains(operation):
    """A packet for each chain and each of its ends. The id of an event is its timestamp."""
    event, id_is_zero = (account, 6) if operation == 129 else (transfer, 5)
    script, printed, made, clock = ["packet 0 129", account(1), account(2)], ["packet 0 0 committed 0"], [], 2
    packets = [(chain, code) for chain in CHAINS for code in (0, id_is_zero, 2)]
    for number, (chain, code) in enumerate(packets, 1):
        events, failures = chain_packet(event, clock + 1, chain, code)
        script += [f"packet 0 {operation}", *events]
        printed.append(f"packet 0 {number} committed {number}" + failed(failures))
        made += range(clock + 1, clock + 1 + len(events) - len(failures))
        clock += len(events)
    amount = len(made) if operation == 130 else 0
    printed += [f"clock {clock}", f"account 1 1 0 {amount} 0 0", f"account 2 2 0 0 0 {amount}"]
    return script, printed + [f"account {id} {id} 0 0 0 0" for id in made if operation == 129]


def chains_of_accounts():
    return chains(129)


def chains_of_transfers():
    return chains(130)


def end_of_clock(operation, left):
    """Three events of which the last timestamps are left for some; the others have code 201."""
    codes = failed((index, 201) for index in range(left, 3))
    if operation == 129:
        script = [f"clock {CLOCK_MAX - left}", "packet 0 129", *map(account, range(1, 4))]
        accounts = [f"account {number} {CLOCK_MAX - left + number} 0 0 0 0" for number in range(1, left + 1)]
        return script, ["packet 0 0 committed 0" + codes, f"clock {CLOCK_MAX}", *accounts]
    clock = CLOCK_MAX - 2 - left
    script = [f"clock {clock}", "packet 0 129", account(1), account(2), "packet 0 130", *map(transfer, range(1, 4))]
    accounts = [f"account 1 {clock + 1} 0 {left} 0 0", f"account 2 {clock + 2} 0 0 0 {left}"]
    return script, ["packet 0 0 committed 0", "packet 0 1 committed 1" + codes, f"clock {CLOCK_MAX}", *accounts]


def limits_of_accounts():
    """The debits of account 2 must not exceed its credits, nor the credits of account 3 its debits; pending amounts count."""
    script = ["packet 0 129", account(1), account(2, flags=2), account(3, flags=4), "packet 0 130"]
    moves = [(2, 1, 1, 0), (1, 3, 1, 2), (1, 2, 5, 0), (2, 1, 6, 2), (2, 1, 5, 2), (3, 1, 5, 0), (1, 3, 6, 0), (1, 3, 5, 0)]
    script += [transfer(number, *move) for number, move in enumerate(moves, 1)]
    return script, [
        "packet 0 0 committed 0", "packet 0 1 committed 1" + failed([(0, 54), (1, 55), (3, 54), (6, 55)]), "clock 11",
        "account 1 1 0 10 5 5", "account 2 2 5 0 0 5", "account 3 3 0 5 0 5",
    ]


def many_entries():
    """1,000 packets without events, which are one batch, and then 150 lookups, each followed by a pulse."""
    script, printed = ["packet 0 129"] * 1000, [f"packet 0 {number} committed {number}" for number in range(1000)]
    for number in range(150):
        script += ["packet 0 131", "id 0", f"pulse {number}"]
        printed += [f"packet 0 {1000 + number} committed {1000 + 2 * number}", f"pulse {1001 + 2 * number}"]
    return script, [*printed, "clock 149"]


def one_place_one_credit():
    """50 packets, each of which waits for the reply to the one before it. There is no account of id 0."""
    script = ["submitters 1", "capacity 1", "credit 1"]
    for number in range(50):
        script += ["packet 0 129", account(number)]
    printed = ["packet 0 0 committed 0 0:6", *(f"packet 0 {number} committed {number}" for number in range(1, 50))]
    return script, [*printed, "clock 50", *(f"account {number} {number + 1} 0 0 0 0" for number in range(1, 50))]


def two_thousand_packets():
    """A transfer in each packet but the first; each even one repeats the transfer before it, which exists."""
    script = ["submitters 1", "capacity 4", "credit 3", "packet 0 129", account(1), account(2)]
    printed = ["packet 0 0 committed 0"]
    for number in range(1, 2000):
        script += ["packet 0 130", transfer(number - (number % 2 == 0))]
        printed.append(f"packet 0 {number} committed {number}" + " 0:46" * (number % 2 == 0))
    return script, [*printed, "clock 2001", "account 1 1 0 1000 0 0", "account 2 2 0 0 0 1000"]


def sixteen_submitters():
    """Ten packets of each of 16 submitters, in turn, for `list`: the places are those of the script."""
    script, printed = ["submitters 16"], []
    for place in range(160):
        script += [f"packet {place % 16} 129", *map(account, range(place * 50 + 1, place * 50 + 51))]
        printed.append(f"packet {place % 16} {place // 16} committed {place}")
    return script, [*printed, "clock 8000", *account_lines(range(1, 8001))]


def between_sixteen_thousand_accounts():
    """8,190 transfers between 16,380 accounts, each of two others, while more accounts are stored than a packet has events."""
    ids = range(1, 2 * BATCH_MAX + 1)
    script = ["packet 0 129", *map(account, ids[:BATCH_MAX]), "packet 0 129", *map(account, ids[BATCH_MAX:]), "packet 0 130"]
    script += [transfer(number, number, 2 * BATCH_MAX + 1 - number, amount=number) for number in ids[:BATCH_MAX]]
    # A transfer that is there, one whose debit account isn't, and the post of one that isn't pending.
    script += ["packet 0 130", transfer(1, 1, 2 * BATCH_MAX), transfer(9000, 99_999, 1), f"transfer id=9001 pending_id=2 amount={MAX} flags=4"]
    printed = [*(f"packet 0 {number} committed {number}" for number in range(3)), "packet 0 3 committed 3 0:46 1:21 2:26"]
    printed.append(f"clock {3 * BATCH_MAX + 3}")
    printed += [f"account {number} {number} 0 {number} 0 0" for number in ids[:BATCH_MAX]]
    return script, printed + [f"account {number} {number} 0 0 0 {2 * BATCH_MAX + 1 - number}" for number in ids[BATCH_MAX:]]


def seventy_thousand_lookups():
    """70,000 look-ups of one submitter, each a batch, an entry and a place of its own."""
    script, printed = ["packet 0 129", account(7)], ["packet 0 0 committed 0"]
    for number in range(1, 70_000):
        script += ["packet 0 131", f"id {7 if number % 10_000 == 0 else 0}"]
        printed.append(f"packet 0 {number} committed {number}" + " 7:0:0:0:0" * (number % 10_000 == 0))
    return script, [*printed, "clock 1", "account 7 1 0 0 0 0"]


def full_packet_after_an_empty_one():
    """A packet without events, and one of 8,190 transfers that joins it."""
    script = ["packet 0 129", account(1), account(2), "packet 0 130", "packet 0 130"]
    script += [transfer(number) for number in range(1, BATCH_MAX + 1)]
    return script, [
        *(f"packet 0 {number} committed {number}" for number in range(3)), f"clock {BATCH_MAX + 2}",
        f"account 1 1 0 {BATCH_MAX} 0 0", f"account 2 2 0 0 0 {BATCH_MAX}",
    ]


def post_with_wide_user_data():
    """A post with the greatest user data: the same again exists, and what differs in one bit of each has that field's code."""
    wide = {"user_data_128": MAX, "user_data_64": 2**64 - 1, "user_data_32": 2**32 - 1}
    post = lambda **fields: f"transfer id=2 pending_id=1 amount={MAX} flags=4 " + " ".join(f"{name}={value}" for name, value in fields.items())
    script = ["packet 0 129", account(1), account(2), "packet 0 130", transfer(1, amount=9, flags=2), post(**wide), post(**wide)]
    script += [post(**{**wide, name: value - 2**bit}) for name, value, bit in (
        ("user_data_128", MAX, 127), ("user_data_64", 2**64 - 1, 63), ("user_data_32", 2**32 - 1, 31))]
    return script, [
        "packet 0 0 committed 0", "packet 0 1 committed 1" + failed([(2, 46), (3, 41), (4, 42), (5, 43)]), "clock 8",
        "account 1 1 0 9 0 0", "account 2 2 0 0 0 9",
    ]


# Where a chain of transfers has its first fault, by its number of events: its code is transient, so it is undone, and then its id kept.
# The last event of an open chain isn't examined.
TRANSIENT = [(length, at, code, is_open) for length in (2, 1024, 4096, BATCH_MAX) for at in (0, length // 2, length - 1)
             for code in (22, 54) for is_open in (False, True) if not (is_open and at == length - 1)]


def chains_with_transient_faults():
    """Chains whose event fails by 22 or 54, closed and left open. Later its id is refused with 68, and another id of the chain isn't."""
    script, printed = ["packet 0 129", account(1), account(2), account(3, flags=2)], ["packet 0 0 committed 0"]
    clock, moved, number = 3, 0, 0
    for length, at, code, is_open in TRANSIENT:
        first = clock + 1
        script.append("packet 0 130")
        for index in range(length):
            sides = {} if index != at else {"credit": 9} if code == 22 else {"debit": 3}
            script.append(transfer(first + index, **sides, flags=int(index < length - 1 or is_open)))
        codes = [code if index == at else 2 if is_open and index == length - 1 else 1 for index in range(length)]
        script += ["packet 0 130", transfer(first + at), transfer(first if at else first + length - 1)]
        number += 2
        printed += [f"packet 0 {number - 1} committed {number - 1}" + failed(enumerate(codes)), f"packet 0 {number} committed {number} 0:68"]
        clock += length + 2
        moved += 1
    return script, [*printed, f"clock {clock}", f"account 1 1 0 {moved} 0 0", f"account 2 2 0 0 0 {moved}", "account 3 3 0 0 0 0"]


# How many items or events the scripts of modest size have: more than a power of two, so that what grows in larger steps has no capacity.
# What grows to sixteen times its size, or adds as much to it, grows to more than 65,000 past 4,096 or 4,624.
MODEST = 4700


def lookups_and_pulses():
    """4,700 look-ups, each followed by a pulse: each of both has an entry of its own."""
    script, printed = [], []
    for number in range(MODEST):
        script += ["packet 0 131", "id 0", f"pulse {number}"]
        printed += [f"packet 0 {number} committed {2 * number}", f"pulse {2 * number + 1}"]
    return script, [*printed, f"clock {MODEST - 1}"]


def accounts_and_pending_transfers():
    """4,700 accounts, and as many pending transfers with a timeout between the first two."""
    ids = range(1, MODEST + 1)
    script = ["packet 0 129", *map(account, ids), "packet 0 130", *(f"{transfer(number, flags=2)} timeout=9" for number in ids)]
    return script, [
        "packet 0 0 committed 0", "packet 0 1 committed 1", f"clock {2 * MODEST}", f"account 1 1 {MODEST} 0 0 0",
        f"account 2 2 0 0 {MODEST} 0", *(f"account {number} {number} 0 0 0 0" for number in ids[2:]),
    ]


# What `list` and `run` print alike: scripts of one submitter, whose order is no schedule's.
ALIKE = [
    largest_packet, one_event_too_many, many_events_too_many, largest_settings, many_packets, longest_line, line_too_long, largest_lookup, failed_ids, full_bodies,
    chains_of_accounts, chains_of_transfers, limits_of_accounts, one_place_one_credit, two_thousand_packets,
    many_transfers, between_sixteen_thousand_accounts, seventy_thousand_lookups, full_packet_after_an_empty_one,
    post_with_wide_user_data, chains_with_transient_faults,
    *(functools.partial(end_of_clock, operation, left) for operation in (129, 130) for left in range(4)),
]

# What is for `list` alone: scripts with pulses or of several submitters.
BY_LIST = [sixteen_submitters, resolved_late, many_entries, many_timeouts, seventy_thousand_pulses]

# What takes no allocation of more than 256 bytes for each of its 4,700 items of a kind, or events.
IN_SMALL_STEPS = [lookups_and_pulses, accounts_and_pending_transfers]
