"""Runs two programs in turn, and counts their instructions."""
import os
import re
import statistics
import subprocess
import sys
import tempfile
import time
from collections import namedtuple

# What one run of a program took, in seconds, and what it printed.
Run = namedtuple("Run", "wall processor output")

# The medians of two programs that ran in turn, in seconds, and of their ratio pair by pair, next to its quartiles.
Pair = namedtuple("Pair", "ours peers low ratio high")


def run(command, source=os.devnull):
    """One run, with a file as standard input."""
    with open(source, "rb") as stdin, tempfile.TemporaryFile() as output:
        start = time.perf_counter()
        child = subprocess.Popen(command, stdin=stdin, stdout=output)
        _, status, used = os.wait4(child.pid, 0)
        wall = time.perf_counter() - start
        child.returncode = os.waitstatus_to_exitcode(status)
        if child.returncode != 0:
            raise SystemExit(f"{command} ended with status {child.returncode}")
        output.seek(0)
        return Run(wall, used.ru_utime + used.ru_stime, output.read())


# What installs the peers' compiler and crates, and valgrind.
INSTALL = "tools/gate/needs --install cargo valgrind peer"


def done(command, installed_by=INSTALL, **options):
    """Runs a command to its end. Where it is missing or fails, ends with what installs it."""
    try:
        return subprocess.run(command, check=True, **options)
    except (FileNotFoundError, subprocess.CalledProcessError) as why:
        raise SystemExit(f"{why}\nWhat it needs comes by: {installed_by}") from None


def in_turn(commands, turns, source=os.devnull):
    """The runs of programs in turn, beginning with another one each time. All must print the same."""
    rounds = []
    for turn in range(turns):
        runs = {}
        for place in range(len(commands)):
            at = (turn + place) % len(commands)
            runs[at] = run(commands[at], source)
        if len({ended.output for ended in runs.values()}) > 1:
            raise SystemExit(f"these don't print the same: {commands}")
        rounds.append(tuple(runs[at] for at in range(len(commands))))
    return rounds


def quartiles(numbers):
    low, _, high = statistics.quantiles(numbers, n=4, method="inclusive")
    return low, high


def medians(rounds, measure, peer=1):
    """What the first program and another one took in one measure: `wall` or `processor`."""
    times = [(getattr(runs[0], measure), getattr(runs[peer], measure)) for runs in rounds]
    ours, peers = zip(*times)
    low, middle, high = statistics.quantiles([our / other for our, other in times], n=4, method="inclusive")
    return Pair(statistics.median(ours), statistics.median(peers), low, middle, high)


# A process begins with the memory of the one that starts it, so a small one starts it and tells its greatest memory.
STARTER = """
import os, sys
silent = [(os.POSIX_SPAWN_OPEN, 1, os.devnull, os.O_WRONLY, 0)]
child = os.posix_spawn(sys.argv[1], sys.argv[1:], os.environ, file_actions=silent)
_, status, used = os.wait4(child, 0)
print(used.ru_maxrss)
sys.exit(status != 0)
"""


def resident(command):
    """The greatest resident set of a run, in bytes. What takes less than some 10 MB can't be told."""
    ended = subprocess.run([sys.executable, "-S", "-c", STARTER, *command], stdout=subprocess.PIPE, check=True)
    return int(ended.stdout) * 1024


def instructions(command, source=os.devnull):
    """How many instructions a program of one thread takes (valgrind's callgrind)."""
    with tempfile.NamedTemporaryFile() as counts, open(source, "rb") as stdin:
        valgrind = ["valgrind", "--tool=callgrind", f"--callgrind-out-file={counts.name}"]
        done(valgrind + command, stdin=stdin, capture_output=True)
        text = open(counts.name).read()
    return int(re.search(r"^(?:summary|totals): (\d+)", text, re.MULTILINE).group(1))
