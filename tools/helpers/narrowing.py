"""A crate narrowed to the goals that its edits must break, so that a check of them proves little more than these.

A function's goals depend on its own code and on the contracts of what it calls. So

- if a function has answers on file to such goals, no other of its goals is searched for, and only these answers stay;
- if it has none, it stays as it is, with what it calls: a search for a goal waits for the proofs of these;
- each other function gets a body that never ends, and a proof file that fails at once.

So no goal fails here that would hold in the whole crate, unless its answer lacks a name that was left out, which the check says."""

import re

from functions import functions_in

# Where a part of a file of answers begins, and how an answer begins: with its name and that of its goal.
PART = re.compile(r"^(?=pub |abbrev |module |use |--|\S+ : )", re.M)
ANSWER = re.compile(r"pub \S+ : goal\.(\S+)")
# An attribute that has goals searched for, and the first line of a function.
SEARCH = re.compile(r"^ *#\[tactic\(auto.*\)\]\n", re.M)
HEAD = re.compile(r"[^/#]*\bfn ")
# What a function may call: names ahead of a parenthesis or behind two colons.
CALL = re.compile(r"\b(\w+)\(|::(\w+)\b")
# The text of a proof file that fails at once.
UNPROVED = "pub {name}_spec : left_out\n{name}_spec = left_out\n"


def narrow(folder, texts, aims):
    """Narrows the copy of a crate in a folder, whose sources have these texts. `aims` has the functions with goals that must fail, each
    with a predicate that says which of its goals these are."""
    functions = {path: outer_functions(path, texts) for path in texts}
    answered = answer_only(folder / "proofs", aims)
    whole, left = with_called(aims.keys() - answered, [it for found in functions.values() for it in found]), set()
    for path, text in texts.items():
        for function in reversed(functions[path]):
            is_left = function.name not in answered | whole
            changed = without_body(function.text) if is_left else without_search(function.text) if function.name in answered else None
            if changed:
                text = text[: function.end - len(function.text)] + changed + text[function.end :]
                left |= {function.name} if is_left else set()
        replace(folder / path, text)
    leave_unproved(folder / "proofs", left)


def answer_only(proofs, aims):
    """Leaves only the answers to the goals that must fail in the files of functions that have such answers, and returns these functions."""
    answered = set()
    for file, names in proof_files(proofs, "Answers.antt"):
        aim = next((it for it in names if it in aims), None)
        parts = PART.split(file.read_text())
        answers = {part: found[1] for part in parts if (found := ANSWER.match(part))}
        if aim and any(aims[aim](goal) for goal in answers.values()):
            replace(file, "".join(it for it in parts if it not in answers or aims[aim](answers[it])))
            answered.add(aim)
    return answered


def leave_unproved(proofs, left):
    """Has the proofs of functions fail at once, without their proof files."""
    for name in ("Answers.antt", "Invariants.antt", "Proof.antt"):
        for file, names in proof_files(proofs, name):
            if left.intersection(names):
                file.unlink()
    for name in left:
        replace(proofs / name.replace("::", "/") / "Proof.antt", UNPROVED.format(name=name.split("::")[-1]))


def proof_files(proofs, name):
    """Returns the proof files of this name, each with the functions that it may be of: a closure's, which is below a folder `fn`, is of the
    function around it too."""
    for file in [*proofs.rglob(name)]:
        folders = file.relative_to(proofs).parts[:-1]
        parts = [it for it in folders if it != "fn"]
        yield file, ["::".join(parts[:end]) for end in range(len(parts), 0 if "fn" in folders else len(parts) - 1, -1)]


def with_called(names, functions):
    """Returns the names of functions and of all that these may call, by their texts."""
    found, added = set(), set(names)
    while added:
        found |= added
        called = {word for it in functions if it.name in added for words in CALL.findall(it.text) for word in words}
        # (`drop` is called where a value ends)
        added = {it.name for it in functions if it.name.split("::")[-1] in called | {"drop"}} - found
    return found


def outer_functions(path, texts):
    """Returns the functions of a file that aren't in another."""
    found = functions_in(path, texts)
    return [it for it in found if not any(other is not it and other.is_around(it.end - 1) for other in found)]


def without_search(text):
    """Returns a function none of whose goals is searched for."""
    lines = SEARCH.sub("", text).split("\n")
    at = next(at for at, line in enumerate(lines) if HEAD.match(line))
    return "\n".join([*lines[:at], "#[tactic(none)]", *lines[at:]])


def without_body(text):
    """Returns a function with a body that never ends, or None if it has no body, or one that runs while it is compiled."""
    lines = text.split("\n")
    indent = re.match(" *", lines[-1])[0]
    begin, *others = [at for at, line in enumerate(lines) if line.startswith(indent) and HEAD.match(line[len(indent) :])]
    end = begin if lines[begin].endswith("{") else next((at for at, line in enumerate(lines) if line == indent + "{"), None)
    if others or end is None or re.search(r"\bconst .*fn ", lines[begin]):
        return None
    return "\n".join([*lines[: end + 1], f"{indent}    loop {{}}", lines[-1]])


def replace(file, text):
    """Writes a file anew. It may be a link to the crate's own."""
    file.unlink(missing_ok=True)
    file.parent.mkdir(parents=True, exist_ok=True)
    file.write_text(text)
