"""The workspace that crates.txt describes: what each crate depends on, what is built of it, of which sources, and how rattle, the
prover that rt calls, is called for it.

Its calls of rattle repeat what `rt ci` gives it. If another kit renames a word of that command line, or a folder of the kit
(`rlibs`, `logic_built`, `toolchain`, `c`), `rattle` and `build` of tools/build-crates change; `rt check` in a crate shows the words,
by `ps`."""

import argparse
import functools
import hashlib
import importlib.machinery
import importlib.util
import os
import pathlib
import shutil
import signal
import subprocess
import sys
import threading

TOP = pathlib.Path(__file__).resolve().parents[2]
CRATES = TOP / "crates"
SOURCES = ("src", "specs", "proofs")
# The memory that one proof takes at most, in bytes.
PROOF_MAX = 4 << 30


def named_crates(usage, how_many):
    """Returns the crates that the command line names. `--help` prints the usage and ends; so does another word, with status 2."""
    return options_with_crates(usage, how_many).crates


def options_with_crates(usage, how_many, *options, flags=()):
    """Returns the options of the command line, each with its value or None, the flags, and as `crates` the crates that it names."""
    parser = argparse.ArgumentParser(usage=usage, formatter_class=argparse.RawDescriptionHelpFormatter)
    parser.add_argument("crates", nargs=how_many, metavar="CRATE")
    for option in options:
        parser.add_argument(option)
    for flag in flags:
        parser.add_argument(flag, action="store_true")
    found = parser.parse_args()
    for crate in [*found.crates, *filter(None, [getattr(found, "anew", None)])]:
        if crate not in dependencies():
            parser.error(f"crates.txt has no crate {crate}")
    return found


@functools.cache
def lines():
    """Returns the lines of crates.txt in their order: for each crate, what is said of it and the libraries that it names."""
    parts = [line.partition("#")[0].partition(":") for line in (TOP / "crates.txt").read_text().splitlines()]
    # (a name may be followed by a word for rt, as in "kip staticlib")
    return {name.split()[0]: (name.split()[1:], below.split()) for name, _, below in parts if name.strip()}


@functools.cache
def dependencies():
    """Returns the workspace's crates in the order of crates.txt, each with those of the workspace that it names."""
    return {name: [it for it in below if it in lines()] for name, (_, below) in lines().items()}


@functools.cache
def closure(crate):
    """Returns a crate and all that it depends on, each after what it depends on, in whatever order crates.txt has them."""
    return [*dict.fromkeys(it for dependency in dependencies()[crate] for it in closure(dependency)), crate]


def is_program(crate):
    return (CRATES / crate / "src/main.rt").exists()


def is_static(crate):
    """Returns whether a crate is a library for C."""
    return "staticlib" in lines()[crate][0]


def built(crate):
    """Returns what is built of a crate: a program, or a library for C or for the crates above."""
    out = CRATES / crate / "out"
    if is_program(crate) or is_static(crate):
        return out / (crate if is_program(crate) else f"lib{crate}.a")
    # (below a crate's folder rt wants no other sources, and a library has some)
    return out / f"rlib/statements/{crate}.rlib"


@functools.cache
def kit():
    """Returns the folder of the Rattle kit."""
    rt = shutil.which("rt")
    if rt is None:
        sys.exit("the Rattle kit is missing: its command rt proves and builds crates")
    return pathlib.Path(rt).resolve().parent.parent


def rattle(verb, crate, *words):
    """Returns a command of rattle for a crate over the libraries that are built, as `rt ci` gives it, and these words."""
    externs = {it: kit() / f"rlibs/{it}.rlib" for it in ["std", *lines()[crate][1]]}
    externs.update((it, built(it)) for it in dependencies()[crate])
    below = [kit() / "rlibs", *(built(it).parent for it in closure(crate)[:-1])]
    return [
        *(TOP / "tools/helpers/in-memory", kit() / "bin/rattle", verb),
        *("--crate-name", crate, "src/main.rt" if is_program(crate) else "src/lib.rt"),
        *(word for it, path in externs.items() for word in ("--extern", f"{it}={path}")),
        *(word for it in below for word in ("-L", f"dependency={it}")),
        *("--antt-project", kit() / "rattle/logic/antt-project.json", "--logic-built", kit() / "logic_built"),
        *("--links", f"{crate}="),
        *(["--crate-type", "staticlib"] if is_static(crate) else []),
        *words,
    ]


# The process groups of the commands that are running.
RUNNING, RUNNING_LOCK = set(), threading.Lock()


def run_prover(words, **how):
    """Runs a command in a process group of its own, with what it prints as text, and ends the group if this program is ended."""
    pipes = {"stdin": subprocess.DEVNULL, "stdout": subprocess.PIPE, "stderr": subprocess.STDOUT, "text": True}
    with RUNNING_LOCK:
        command = subprocess.Popen(words, start_new_session=True, **pipes, **how)
        RUNNING.add(command.pid)
    printed, _ = command.communicate()
    with RUNNING_LOCK:
        RUNNING.discard(command.pid)
    return subprocess.CompletedProcess(words, command.returncode, printed)


def end_provers_with_this(tool):
    """Has an interrupt, and what ends this program otherwise, end all commands of run_prover first."""

    def end(number, _):
        for group in list(RUNNING):
            try:
                os.killpg(group, signal.SIGTERM)
            except ProcessLookupError:
                pass
        print(f"{tool}: interrupted; what is built stays", file=sys.stderr, flush=True)
        os._exit(128 + number)

    for number in (signal.SIGINT, signal.SIGTERM, signal.SIGHUP):
        signal.signal(number, end)


def show(crate, printed):
    """Shows what rattle printed of a crate on standard error, but not what only says that a thing is proved or was read."""
    usual = ("logic ", "statements ", "library ", "crate ", "axioms ", "linked ", "by-macro: ")
    for line in printed.splitlines():
        if ": proved" not in line and not line.startswith(usual):
            print(f"{crate}: {line.split(' sum=')[0]}", file=sys.stderr, flush=True)


def link(source, copy):
    """Links a file, or copies it if it is on another disk."""
    try:
        os.link(source, copy)
    except OSError:
        shutil.copy2(source, copy)


def link_checked(source, copy):
    """Links a checked module, which a check replaces and never writes into, and copies any other file."""
    (link if source.endswith(".oantt") else shutil.copy2)(source, copy)


def proof_lanes():
    """Returns how many proofs the processors and the free memory allow at a time."""
    with open("/proc/meminfo") as found:
        free = next(1024 * int(line.split()[1]) for line in found if line.startswith("MemAvailable:"))
    return max(1, min(len(os.sched_getaffinity(0)), free // PROOF_MAX))


@functools.cache
def files_read(crate):
    """Returns the files of a crate that its proof and build read, each with its sum."""
    found = [it for part in SOURCES for it in (CRATES / crate / part).rglob("*") if it.is_file()]
    return [f"{sum_of_file(it)}  {it.relative_to(TOP)}" for it in sorted(found)]


def sum_of_file(file):
    """Returns the SHA-256 of a file, or nothing if there is no file."""
    return hashlib.sha256(file.read_bytes()).hexdigest() if file.is_file() else ""


def sum_of_workspace(crate):
    """Returns the sum of all that a crate's proof and build read of this workspace: HANDLES, and for the crate and each that it
    depends on, its line of crates.txt and its files."""
    read = [(TOP / "HANDLES").read_text()]
    for name in sorted(closure(crate)):
        files = files_read(name)
        if not files:
            sys.exit(f"crates.txt names {name}, and crates/{name} has no sources: without them no sum says what a program was made of")
        words, below = lines()[name]
        read += [f"{' '.join([name, *words])}: {' '.join(below)}", *files]
    return hashlib.sha256("\n".join(read).encode()).hexdigest()


def sum_of_sources(crate):
    """Returns the sum of all that a crate's proof and build read of this workspace, and the name of the kit."""
    return f"{sum_of_workspace(crate)} {(kit() / 'KIT-ID').read_text()}"


def sums_anew():
    """Forgets the sums of files, which may have changed."""
    files_read.cache_clear()


def stamp(crate):
    """Returns the file that says of which sources a crate is built, and which program or library for C that gave."""
    return built(crate).parent / "sources"


def check_stamp(crate):
    """Returns the file that says of which sources a crate was last proved by tools/check, which builds nothing."""
    return CRATES / crate / "out/check_sources"


def is_checked(crate):
    return check_stamp(crate).exists() and check_stamp(crate).read_text() == sum_of_sources(crate)


def length(crate):
    """Returns a crate's lines of source, by which its proof's time is guessed."""
    return sum(it.read_bytes().count(b"\n") for it in (CRATES / crate / "src").rglob("*.rt"))


def tool(name):
    """Returns a tool that is written in Python as a module."""
    loader = importlib.machinery.SourceFileLoader(name.replace("-", "_"), str(TOP / "tools" / name))
    found = importlib.util.module_from_spec(importlib.util.spec_from_loader(loader.name, loader))
    sys.modules[loader.name] = found
    loader.exec_module(found)
    return found


def stamp_of(crate, sources, made=None):
    """Returns what the stamp of a crate has that is built of sources with this sum, or that of another file made of it."""
    return sources + sum_of_file(made or built(crate))


def tests_of(crate):
    """Returns the program of a crate's tests."""
    return CRATES / crate / f"out/{crate}_tests"


def tests_stamp(crate):
    """Returns the file that says of which sources a crate's tests are built."""
    return CRATES / crate / "out/tests_sources"


def are_tests_built(crate):
    found = tests_stamp(crate)
    return tests_of(crate).exists() and found.exists() and found.read_text() == stamp_of(crate, sum_of_sources(crate), tests_of(crate))


def is_built(crate):
    """Returns whether a crate is built of the sources here by this kit, and is still what that gave."""
    return built(crate).exists() and stamp(crate).exists() and stamp(crate).read_text() == stamp_of(crate, sum_of_sources(crate))
