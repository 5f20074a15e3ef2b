"""calls.py README STATEMENTS: holds the public calls to what README says of them: none demands anything of its caller but the reader's.

The public calls are those that README's table `From the Rust to here` has in its second column, with all public functions of the crate that it says so
of. Each is there, with the parameters that the table gives, is `pub` and has an `ensures`; it has no `requires`, but for a reader's calls,
which ask that the reader came from `open` or an earlier call; and STATEMENTS names it. What is exported, under C names, is what README has of
that crate, each with the same signature and contract, and nothing else. Prints how many public calls there are.
"""
import re
import sys

from edits import report
from sources import Declaration, crates, declared, named, rattle_files, read

CALL = re.compile(r"`((?:\w+(?:::|\.))*)(\w+)(?:\(([^)]*)\))?`")
ALL = "the other public functions of that crate"
# what a reader's calls ask, by value and where the reader stands
ASKED = dict.fromkeys(("piece", "end", "owed"), ["Reached self"])
ASKED |= dict.fromkeys(("klov_piece", "klov_end"), ["Reached reader.old"])


def cells(text: str) -> list[str]:
    """The second column of the first table under the heading."""
    table = text.split("\n## From the Rust to here\n", 1)[1].lstrip("\n").split("\n\n", 1)[0]
    return [row.split("|")[2] for row in table.split("\n")[2:]]


def found_at(way: list[str], name: str) -> Declaration | None:
    """The function that a call's way leads to: a crate, and then a file of it, a type, or a reader by its variable."""
    inside = f"crates/{way[0]}/src/{way[1]}.rt" if len(way) > 1 else ""
    one = declared(inside if declared(inside) else f"crates/{way[0]}/src/lib.rt").get(name)
    of_type = len(way) > 1 and not declared(inside)
    return one if one and one.kind == "function" and (not of_type or one.headers[-1:] and one.headers[-1][1] == f"impl {way[1]} {{") else None


def public(crate: str) -> list[Declaration]:
    return [one for path in rattle_files(crate) for one in declared(path).values() if one.kind == "function" and one.public]


def same(one: Declaration, other: Declaration) -> bool:
    """Whether an export says what a function says, but for the layout."""
    one_said, other_said = (re.sub(r"\s+|,(?=\s*\))", "", it.said().replace('extern "C" ', "")) for it in (one, other))
    return one_said == other_said


def exports(found: list[Declaration]) -> list[str]:
    """What is wrong with the exports: each is a public call by its name and words, and each call that has a C name is exported."""
    every = [one for crate in crates() for one in public(crate) if one.exported]
    wrong = [f"{one.path}: {one.name} is exported and is no public call" for one in every if not any(one.name == it.name and same(one, it) for it in found)]
    names = [one.name for one in every]
    return wrong + [f"{one.path}: {one.name} is not exported" for one in found if one.name.startswith("klov_") and names.count(one.name) != 1]


def calls(text: str) -> tuple[list[Declaration], list[str]]:
    """The public calls, and what README says of them that is not so."""
    found, wrong, way = [], [], []
    for cell in cells(text):
        some = CALL.findall(cell)
        wrong += [f"README: a row with no call: {cell}"] if not some else []
        for before, name, given in some:
            way = re.split(r"::|\.", before)[:-1] or way
            one = found_at(way, name)
            if not one:
                wrong.append(f"README: no function {before}{name}")
            elif given and given.split(", ") != one.parameters():
                wrong.append(f"{one.path}: {name} takes {', '.join(one.parameters())}")
            found += [one] if one else []
        if ALL in cell:
            found += [one for one in public(way[0]) if one not in found]
    return list(dict.fromkeys(found)), wrong


def faults(one: Declaration, stated: list[tuple[str, str]]) -> list[str]:
    """What is wrong with a public call."""
    wrong = [] if one.public else ["is not public"]
    wrong += [] if one.clauses("ensures") else ["promises nothing"]
    asked, may = one.clauses("requires"), ASKED.get(one.name, [])
    if asked != may or one.said().count("requires") != len(may):
        wrong.append(f"demands {' and '.join(asked) or 'nothing'}, and is to demand {' and '.join(may) or 'nothing'}")
    wrong += [] if (one.name, one.path) in stated else ["is not named in STATEMENTS"]
    return [f"{one.path}: {one.name} {fault}" for fault in wrong]


def main() -> int:
    found, wrong = calls(read(sys.argv[1]))
    stated = named(read(sys.argv[2]))
    wrong += [fault for one in found for fault in faults(one, stated)]
    wrong += exports(found)
    wrong += [f"{name} is no public call, though it may demand something" for name in ASKED if name not in [one.name for one in found]]
    return report("calls", f"{len(found)} public calls", wrong, bool(found))


if __name__ == "__main__":
    sys.exit(main())
