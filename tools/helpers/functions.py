"""The functions of a crate's sources, with the names that a check gives them. It goes by the layout that `rt fmt` gives."""

import dataclasses
import re

FUNCTION = re.compile(r'( *)(?:pub(?:\(\w+\))? )?(?:const |unsafe |extern "C" )*fn (\w+)')
TYPE = re.compile(r"(?:pub(?:\(\w+\))? )?(?:struct|enum) (\w+)", re.M)
IMPL = re.compile(r"impl(?:<(?P<generics>.*?)>)? (?:(?P<trait>[\w:<>()', ]+) for )?(?P<type>[\w:]+)")
TUPLE = re.compile(r"\(([^()]*)\)")


@dataclasses.dataclass
class Function:
    """A function of a file: as a check names it, whether it is of a trait's `impl`, and its text, which ends at an offset."""

    name: str
    is_of_trait: bool
    text: str
    end: int

    def is_around(self, offset):
        return self.end - len(self.text) <= offset < self.end


def worded(found):
    """Returns the words that a check has for a tuple that TUPLE found: `Tuple2` if it has two types, and then theirs."""
    return f"Tuple{found[1].count(',') + 1} {found[1]}"


def module_of(path):
    """Returns the words ahead of the names of a file's items, as a check has them."""
    module = path.removeprefix("src/").removesuffix(".rt").replace("/", "::")
    return "" if module in ("lib", "main") else module + "::"


def functions_in(path, texts):
    """Returns the functions of a file, each with its attributes and what documents it. It goes by the layout that rt fmt gives."""
    lines, found = texts[path].split("\n"), []
    for number, line in enumerate(lines):
        head = FUNCTION.match(line)
        if head and head[1] + "}" in lines[number:]:
            start, end = number, lines.index(head[1] + "}", number) + 1
            while start and lines[start - 1] and not lines[start - 1].endswith(("{", "}", ";")):
                start -= 1
            implementor, is_of_trait = implementor_of(lines, number, path, texts) if head[1] else (module_of(path), False)
            body = "\n".join(lines[start:end])
            offset = sum(len(it) + 1 for it in lines[:start])
            found.append(Function(implementor + head[2], is_of_trait, body, offset + len(body)))
    return found


def enclosing_function(path, texts, offset):
    """Returns the innermost function around an offset of a file, or None."""
    return next((it for it in reversed(functions_in(path, texts)) if it.is_around(offset)), None)


def implementor_of(lines, number, path, texts):
    """Returns what a check puts ahead of the name of a method: `stop::Stop::`, or `gate::OpenGate::` for the trait `Gate`; and
    whether its `impl` is of a trait. A type's own methods are named by the file of the type, a trait's by the file of the `impl`. A
    type's `drop` is named as if it were its own."""
    header = next((IMPL.match(line) for line in reversed(lines[:number]) if line.startswith("impl")), None)
    if header is None:
        return module_of(path), False
    generics = set(re.findall(r"(?:^|, )'?(\w+)", header["generics"] or ""))
    kind, trait = header["type"].split("::")[-1], header["trait"] and TUPLE.sub(worded, header["trait"])
    homes = [it for it, text in texts.items() if kind in TYPE.findall(text)] if trait is None else []
    parts = [kind, *re.findall(r"\w+", "" if trait in (None, "Drop") else trait)]
    home = path if path in homes or not homes else homes[0]
    return module_of(home) + "".join(it for it in parts if it not in generics) + "::", trait is not None
