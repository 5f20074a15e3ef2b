"""resting.py STATEMENTS FILE [write]: for each declaration that STATEMENTS names, the definitions that its statement cites.

What a theorem says is its type, with the headers of the modules that it stands in; what a function promises is its contract, with the types
of its signature. For the headline theorems stands at the end all that they rest on. Compares FILE, docs/RESTING.md, with that, or writes it.
"""
import sys
from itertools import groupby

from cited import citations, cited, closure
from made import kept
from sources import Declaration, demands, read, those

HEAD = """# What the statements rest on

Made from the sources by .ci/resting.py, and compared with them by the gate: for each declaration that STATEMENTS.md names, the definitions that
its statement cites. To believe a statement is to read these, and what they cite in turn; how it is proved need not be read, as the check has.
The text of all of them is in THEOREMS.md. A constructor stands here by its type, and a name that a statement binds itself is none of them.

Beside the definitions every statement rests on: the logic of the kit, its libraries of lists, numbers and slices, and the check itself. Nothing
is assumed by this project: it has no axiom and no foreign function of its own, and each file of definitions or laws says so in its head. The
programs rest, besides, on what the kit's standard library assumes of the C library, where it reads and writes; the archive does not.

"""
WHOLE = """
## All that the headline theorems rest on

For each of the theorems and contracts that STATEMENTS.md opens with: every definition and every type that it cites, that these cite, and so on.
Each stands after those that it cites.
"""


def by_file(ones: list[Declaration]) -> list[tuple[str, list[str]]]:
    """The names of declarations, file by file, in the order given."""
    return [(path, [named(one) for one in group]) for path, group in groupby(ones, lambda one: one.path)]


def named(one: Declaration) -> str:
    return f"the contract of `{one.name}`" if one.kind == "function" else f"`{one.name}`"


def row(one: Declaration) -> str:
    """What a declaration cites; of the kit's own crates too, whose contracts are theirs."""
    of_crates = [each.one for each in citations(one) if each.one.path.startswith("the kit's")]
    told = "; ".join(f"{', '.join(names)} ({path})" for path, names in by_file([*of_crates, *cited(one)]))
    return f"| `{one.name}` in `{one.path}` | {told or 'none: it is said in numbers and lists alone'} |\n"


def whole(one: Declaration) -> str:
    """All that a headline theorem rests on."""
    return f"\n### `{one.name}` in `{one.path}`\n\n" + "".join(f"- {', '.join(names)} ({path})\n" for path, names in by_file(closure([one])))


def main() -> int:
    text = read(sys.argv[1])
    ones, headline = those(text), those(demands(text))
    rows = "| declaration | definitions that it cites |\n|---|---|\n" + "".join(row(one) for one in ones)
    made = HEAD + rows + WHOLE + "".join(whole(one) for one in headline)
    return kept("resting", sys.argv[2], made, sys.argv[3:], f"{len(ones)} declarations, {len(headline)} of them with all that they rest on")


if __name__ == "__main__":
    sys.exit(main())
