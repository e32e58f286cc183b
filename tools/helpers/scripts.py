"""What the tools know of scripts, their settings, packets and pulses, and of the program."""

import pathlib
import subprocess
import sys

TOP = pathlib.Path(__file__).resolve().parents[2]

EVENT_SIZES = {129: 128, 130: 128, 131: 16}
SETTINGS = {"clock": 0, "limit": 8190, "capacity": 64, "credit": 16, "submitters": 2}


def is_said(line):
    """Whether a line says something: it has words, and is no comment."""
    return line.strip(" ") != "" and not line.lstrip(" ").startswith("#")


def size_of(line):
    """How many bytes a line adds to its packet's data."""
    words = line.split()
    return {"id": 16, "hex": len(words[-1]) // 2}.get(words[0], 128)


class Packet:
    def __init__(self, submitter, operation):
        self.submitter, self.operation, self.lines = submitter, operation, []

    def size(self):
        return sum(size_of(line) for line in self.lines)

    def refusal(self, limit):
        """Why it isn't admitted, or None."""
        size = EVENT_SIZES.get(self.operation)
        if size is None:
            return 1
        if self.size() % size:
            return 2
        return 3 if self.size() // size > limit else None

    def lines_of(self, event):
        """The lines in which an event's bytes stand: mostly one."""
        size = EVENT_SIZES[self.operation]
        found, start = [], 0
        for line in self.lines:
            end = start + size_of(line)
            if start < (event + 1) * size and end > event * size:
                found.append(line.strip(" "))
            start = end
        return found


class Script:
    """The settings, packets and pulses of a script that has no fault."""

    def __init__(self, text):
        self.settings, self.packets, self.pulses, self.shuts = dict(SETTINGS), [], [], False
        for line in filter(is_said, text.splitlines()):
            self.add(line.split(), line)

    def add(self, words, line):
        if words[0] in self.settings:
            self.settings[words[0]] = int(words[1])
        elif words[0] == "packet":
            self.packets.append(Packet(int(words[1]), int(words[2])))
        elif words[0] == "pulse":
            self.pulses.append(int(words[1]))
        elif words[0] == "shut":
            self.shuts = True
        else:
            self.packets[-1].lines.append(line)


def program_path():
    """Returns the path of the program that ./tbpipe runs. If it isn't built, ./tbpipe has said how to build it."""
    # (an archive of tools/release has the program itself)
    if (TOP / "bin/tbpipe").exists():
        return str(TOP / "bin/tbpipe")
    asked = subprocess.run([TOP / "tbpipe", "--which"], stdout=subprocess.PIPE, text=True)
    if asked.returncode != 0:
        sys.exit(asked.returncode)
    return asked.stdout.strip()
