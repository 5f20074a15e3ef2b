"""The declarations of the sources, read from their text, for the scripts beside this file.

A declaration is a theorem, a definition, a record or a data type of an .antt file; a function, a type or a constant of an .rt file. Each is
read with what stands right above it, the headers that it stands under, and what it says: of a theorem that is its type, of a function its
signature and contract, of anything else all of it. Rests on the layout that `rt fmt` keeps.
"""
import glob
import os
import re
import sys
from dataclasses import dataclass
from functools import cache

NAMED = re.compile(r"((?:`[^`]+`,?\s)+)in\s`(crates/[^`]+)`")
DEMANDS = "## The demands, and what says them\n"
MARKED = re.compile(r" *((?:(?:abbrev|unfoldable|pub|record|data) )*)(\S+)(?: |$)")
RATTLE = re.compile(r'( *)(pub )?(extern "C" )?(fn|struct|enum|const|impl) (\w+)')
# a block of a trait's functions for a type
TRAIT_FOR = re.compile(r"impl(?:<[^{]*>)? (\S.* for .*\S) \{")
CLAUSE = re.compile(r"^ *(requires|ensures)(?: \w+)? \{(.*?)\}(?=\n *(?:requires|ensures)\b|\Z)", re.M | re.S)


@dataclass(frozen=True)
class Declaration:
    """One declaration: `headers` are those it stands under, each with its line; `parts` are its type and its clauses, or its head and what it has."""
    name: str
    path: str
    line: int
    kind: str
    public: bool
    exported: bool
    headers: tuple[tuple[int, str], ...]
    above: str
    parts: tuple[str, ...]

    def said(self) -> str:
        return "\n".join(self.parts)

    def signature(self) -> str:
        return re.split(r"\n *(?:requires|ensures)\b", self.said())[0]

    def parameters(self) -> list[str]:
        """The names of a function's parameters, `self` left out."""
        return re.findall(r"(\w+):(?!:)", self.signature())

    def clauses(self, which: str) -> list[str]:
        """What stands in each `requires` or `ensures` of a function."""
        return [inside.strip() for word, inside in CLAUSE.findall(self.said()) if word == which]

    def makers(self) -> list[str]:
        """The constructors of a data type, or the variants of an enum."""
        if self.kind not in ("data", "enum"):
            return []
        return [re.match(r"[^\s:(,{]+", bare(part)).group() for part in self.parts[1:] if bare(part) not in ("", "}")]


def bare(text: str) -> str:
    """A text without its comments."""
    return re.sub(r"(?:^|(?<=\s))(?:--|//).*", "", text, flags=re.M).strip()


@cache
def read(path: str) -> str:
    with open(path, encoding="utf-8") as file:
        return file.read()


@cache
def crates() -> dict[str, list[str]]:
    """What each crate of crates.txt rests on, in that order."""
    lines = [line.split(":") for line in read("crates.txt").split("\n") if line.strip() and not line.startswith("#")]
    return {name.removesuffix(" staticlib"): rest.split() for name, rest in lines}


def named(text: str) -> list[tuple[str, str]]:
    """What a page names as `name` in `file`, or as `name`, `name` in `file`, each once."""
    return list(dict.fromkeys((name, path) for names, path in NAMED.findall(text) for name in re.findall(r"`([^`]+)`", names)))


def demands(text: str) -> str:
    """The section of STATEMENTS.md that says first what is demanded and names the headline theorems."""
    return text.split(DEMANDS, 1)[1].split("\n## ", 1)[0]


def those(text: str) -> list[Declaration]:
    """The declarations that a page names, each once."""
    missing = [f"no {name} in {path}" for name, path in named(text) if name not in declared(path)]
    if missing or not named(text):
        sys.exit("; ".join(missing) or "nothing is named")
    return [declared(path)[name] for name, path in named(text)]


def depth(line: str) -> int:
    return len(line) - len(line.lstrip())


def items(lines: list[str], at: int, inside: int) -> list[tuple[int, list[str]]]:
    """Lines grouped: each that is no deeper than `inside` begins a group, and the deeper ones go with it. Blank lines go with what is deeper."""
    found: list[tuple[int, list[str]]] = []
    for number, line in enumerate(lines, at):
        if found and (not line.strip() or depth(line) > inside):
            found[-1][1].append(line)
        elif line.strip():
            found.append((number, [line]))
    return [(number, "\n".join(group).rstrip().split("\n")) for number, group in found]


def definitions(path: str, lines: list[str], at: int, headers: tuple[tuple[int, str], ...]) -> list[Declaration]:
    """The declarations of an .antt file, or of a module in it, from a line on."""
    found, above, current, last = [], [], None, -1
    for number, group in items(lines, at, depth(lines[0])):
        word = group[0].split()[0]
        if number != last:
            above = []
        last = number + len(group)
        if word == "--":
            above.append(group[0])
        elif word == "module":
            close = next(i for i, line in enumerate(group) if line.endswith("where"))
            body = "\n".join(group[close + 1:]).strip("\n").split("\n")
            skipped = next(i for i, line in enumerate(group[close + 1:]) if line.strip())
            header = (number, "\n".join(group[:close + 1]))
            found += definitions(path, body, number + close + 1 + skipped, (*headers, header))
            current, above = None, []
        elif word == "use" and headers:
            sys.exit(f"{path} has an import inside a module, which is not read")
        elif word == "use" or group[0].startswith(("pub mod ", "mod ")):
            current, above = None, []
        elif current and word in (current.name, "unfolding", ")"):
            found[-1] = current = with_clause(current, group)
            above = []
        else:
            current = definition(path, number, group, headers, above)
            found.append(current)
            above = []
    return found


def definition(path: str, line: int, group: list[str], headers: tuple[tuple[int, str], ...], above: list[str]) -> Declaration:
    marks, name = MARKED.match(group[0]).groups()
    words = marks.split()
    kind = "record" if "record" in words else "data" if "data" in words else "theorem"
    parts = ("\n".join(group),)
    if kind != "theorem":
        head = next(i for i, each in enumerate(group) if each.endswith("where")) + 1
        inside = [part for _, part in items(group[head:], 0, depth(group[0]) + 2)]
        parts = ("\n".join(group[:head]), *("\n".join(part) for part in inside))
    elif "abbrev" in words or "unfoldable" in words or "/specs/" in path:
        kind = "definition"
    return Declaration(name, path, line, kind, "pub" in words, False, headers, "\n".join(above), parts)


def with_clause(one: Declaration, group: list[str]) -> Declaration:
    """A definition with one clause more; what a theorem says is not its clauses."""
    if one.kind != "definition":
        return one
    more = (*one.parts[:-1], "\n".join([one.parts[-1], *group])) if group[0].strip() == ")" else (*one.parts, "\n".join(group))
    return Declaration(one.name, one.path, one.line, one.kind, one.public, False, one.headers, one.above, more)


def rattle(path: str, lines: list[str]) -> list[Declaration]:
    """The functions, types and constants of an .rt file."""
    found, above, headers, at = [], [], (), 0
    while at < len(lines):
        line, head = lines[at], RATTLE.match(lines[at])
        if line.strip().startswith("#[tactic("):
            # how the check is to find the proof, which says nothing of the function
            pass
        elif line.strip().startswith(("//", "#[")):
            above.append(line)
        elif head and head.group(4) == "impl":
            headers, above = ((at, line),), []
        elif head:
            end = ending(lines, at, head.group(1), head.group(4))
            found.append(rattle_item(path, at, lines[at:end], head, headers, above))
            # a trait's function has no body
            bodied = head.group(4) == "fn" and not lines[end - 1].endswith(";")
            at = closing(lines, end - 1, head.group(1)) if bodied else end - 1
            above = []
        else:
            headers, above = () if line == "}" else headers, []
        at += 1
    return found


def ending(lines: list[str], at: int, indent: str, kind: str) -> int:
    """The line after a function's contract, or after a type or a constant."""
    if kind == "fn":
        return next(i for i in range(at + 1, len(lines) + 1) if lines[i - 1].endswith((" {", ";")) or lines[i] == indent + "{")
    return at + 1 if lines[at].endswith(";") else closing(lines, at, indent) + 1


def closing(lines: list[str], at: int, indent: str) -> int:
    return next(i for i in range(at, len(lines)) if lines[i] == indent + "}")


def rattle_item(path: str, at: int, lines: list[str], head: re.Match, headers: tuple, above: list[str]) -> Declaration:
    kind = {"fn": "function"}.get(head.group(4), head.group(4))
    if kind == "function":
        parts = ("\n".join(lines).removesuffix(" {"),)
    else:
        parts = (lines[0], *("\n".join(part) for _, part in items(lines[1:], 0, len(head.group(1)) + 4)))
    # a trait's functions bear the same names in each type's block
    block = TRAIT_FOR.match(headers[0][1]) if headers else None
    name = f"{block.group(1)}::{head.group(5)}" if block else head.group(5)
    return Declaration(name, path, at + 1, kind, bool(head.group(2)), bool(head.group(3)), headers, "\n".join(above), parts)


@cache
def declared(path: str) -> dict[str, Declaration]:
    """The declarations of a file, by name and in their order; none if there is no such file."""
    if not os.path.exists(path):
        return {}
    lines = read(path).split("\n")
    found = rattle(path, lines) if path.endswith(".rt") else definitions(path, lines, 1, ())
    by_name = {one.name: one for one in found}
    if len(by_name) < len(found):
        sys.exit(f"{path} declares a name twice")
    return by_name


def rattle_files(crate: str) -> list[str]:
    """A crate's sources, lib.rt before the others."""
    return sorted(glob.glob(f"crates/{crate}/src/**/*.rt", recursive=True), key=lambda path: (not path.endswith("/lib.rt"), path))
