"""theorems.py STATEMENTS FILE [write]: the full text of what STATEMENTS names, and of the definitions that it rests on.

Of each declaration stands there what it says, with the comment above it and the headers that it stands under; proofs and code are left out.
Compares FILE, docs/THEOREMS.md, with that, or writes it: so no statement is changed, nor a definition under it, unless this page is.
"""
import sys
import textwrap

from cited import BLANK, citations, closure, place
from made import kept
from sources import Declaration, demands, read, those

HEAD = """# What is stated, in full

Made from the sources by .ci/theorems.py, and compared with them by the gate. Who changes a statement, or a definition that one rests on,
changes this page.

First stand the theorems and contracts that STATEMENTS.md names: a theorem's type, with the headers of the modules that it stands in, whose
parameters it has; a function's signature and contract. Proofs and code are left out. Then stand the definitions that the headline theorems
rest on, those that STATEMENTS.md opens with; and then those that the other statements name or rest on. A definition stands there whole, and
so does a type of the code that a definition speaks of. Nothing stands here twice. Each part goes by crates in the order of crates.txt, so
that a definition comes after those that it cites. Above the text of a file stands which names in it are another file's.

Names of the kit, of its logic and its libraries of lists, numbers and slices, are not followed: which they are stands at the end.
"""


def excerpt(ones: list[Declaration]) -> str:
    """Declarations of one file, under their headers, each of which is said once."""
    shown, under = [], ()
    for one in ones:
        shown += [header[1] for at, header in enumerate(one.headers) if header not in under[at:at + 1]]
        under = one.headers
        shown.append("\n".join(part for part in (one.above, one.said()) if part))
    return "\n\n".join(shown)


def from_elsewhere(ones: list[Declaration]) -> str:
    """The names in declarations of one file that are those of another, as imports have them; a theorem's form of a contract by the function."""
    found: dict[str, dict[str, list[str]]] = {}
    for each in sorted({each for one in ones for each in citations(one)}, key=lambda each: (place(each.one), each.word)):
        if each.one.kind != "kit" and each.one.path != ones[0].path:
            contract = each.one.kind == "function"
            name = each.one.name if contract else each.word if each.word.endswith("." + each.name) else each.name
            words = found.setdefault(each.one.path, {}).setdefault(name, [])
            words += [word for word in (each.word.split(".")[0] if contract else each.word,) if word not in (name, *words)]
    told = "; ".join(f"{path}: {', '.join(renamed(*name) for name in names.items())}" for path, names in found.items())
    return textwrap.fill(told, 145, break_on_hyphens=False, break_long_words=False) + "\n\n" if told else ""


def renamed(name: str, words: list[str]) -> str:
    return f"`{name}`" + (" as " + " and ".join(f"`{word}`" for word in words) if words else "")


def listing(ones: list[Declaration]) -> str:
    """Declarations in reading order, file by file."""
    files: list[list[Declaration]] = []
    for one in sorted(ones, key=place):
        if files and files[-1][0].path == one.path:
            files[-1].append(one)
        else:
            files.append([one])
    return "".join(f"\n### {group[0].path}\n\n{from_elsewhere(group)}```\n{excerpt(group)}\n```\n" for group in files)


def kit_names(ones: list[Declaration]) -> str:
    """The kit's names in declarations, by their modules. One that is two things, or is called otherwise, is an error: it would read as another."""
    modules: dict[str, dict[str, None]] = {}
    meant: dict[str, Declaration] = {}
    every = sorted({each for one in ones for each in citations(one) if each.one.kind == "kit"}, key=lambda each: (each.one.path, each.name))
    for each in every:
        if each.word.strip(BLANK) != each.name.strip(BLANK) or meant.setdefault(each.name, each.one) != each.one:
            sys.exit(f"{each.word} of the kit is {each.name} of {each.one.path}, and not only that")
        modules.setdefault(each.one.path, {})[f"`{each.name}`"] = None
    return "\n" + "".join(f"- {path}: {', '.join(names)}\n" for path, names in modules.items())


def main() -> int:
    text = read(sys.argv[1])
    named, headline = those(text), those(demands(text))
    every = {*named, *closure(named)}
    stated = [one for one in every if one.kind in ("theorem", "function")]
    first = [one for one in {*headline, *closure(headline)} if one in every and one not in stated]
    rest = [one for one in every if one not in stated and one not in first]
    made = (f"{HEAD}\n## Theorems and contracts\n{listing(stated)}"
            f"\n## Definitions under the headline theorems\n{listing(first)}"
            f"\n## The other definitions\n{listing(rest)}"
            f"\n## Names of the kit\n{kit_names(list(every))}")
    found = f"{len(stated)} theorems and contracts, {len(first)} definitions under the headline theorems, {len(rest)} others"
    return kept("theorems", sys.argv[2], made, sys.argv[3:], found)


if __name__ == "__main__":
    sys.exit(main())
