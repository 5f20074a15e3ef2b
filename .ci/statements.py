"""statements.py STATEMENTS PROGRAMS: holds docs/STATEMENTS.md and docs/WRONG-PROGRAMS.md against the tree.

Whatever STATEMENTS names as `name` in `file` stands there: a theorem or definition that is `pub`, or a function that has an `ensures`. Under
each heading that begins with a number every row of the table names one at least and six at most. What the page quotes, between fences, is a
whole statement of those that the text right above it names, line breaks, comments and `pub` left aside. In PROGRAMS every wrong program of
crates/*/must-fail is named, as `crate/program`, and no other, and it is said how many there are. Prints how many were found, and what was not.
"""
import glob
import re
import sys

import edits
from sources import Declaration, bare, declared, named, read

FENCED = re.compile(r"^```\w*\n(.*?)^```$", re.M | re.S)
PROGRAM = re.compile(r"`([a-z0-9_]+/[a-z0-9_]+)`")


def stands(name: str, path: str) -> bool:
    one = declared(path).get(name)
    return bool(one and one.public and (one.kind != "function" or one.clauses("ensures")))


def wrong_programs() -> set[str]:
    paths = glob.glob("crates/*/must-fail/*.edit")
    return {f"{path.split('/')[1]}/{program['name']}" for path in paths for program in edits.programs(path)}


def one_line(text: str) -> str:
    return " ".join(word for word in bare(text).split() if word != "pub")


def quotable(one: Declaration) -> str:
    """A whole statement, under all its headers."""
    return one_line("\n".join([*(header for _, header in one.headers), one.said()]))


def misquoted(text: str) -> list[str]:
    """The paragraphs of quotes that are not what something says that the text right above them names."""
    wrong, near = [], []
    for at, part in enumerate(FENCED.split(text)):
        if at % 2 == 0:
            near = named(part) or near
            continue
        said = {quotable(declared(path)[name]) for name, path in near if name in declared(path)}
        wrong += [quote for quote in map(one_line, part.split("\n\n")) if quote not in said]
    return wrong


def rows(section: str) -> list[str]:
    return [row for row in section.split("\n") if row.startswith("|")][2:]


def main() -> int:
    text = read(sys.argv[1])
    sections = re.split(r"^## ", text, flags=re.M)[1:]
    names = named(text)
    wrong = [f"no {name} in {path}" for name, path in names if not stands(name, path)]
    wrong += [f"a quote that is not in the sources: {quote[-90:]}" for quote in misquoted(text)]
    in_rows = [row for section in sections if section[0].isdigit() for row in rows(section)]
    wrong += [f"a row that names none, or more than six: {row[:60]}" for row in in_rows if not 1 <= len(named(row)) <= 6]
    page, programs = read(sys.argv[2]), wrong_programs()
    listed, counted = set(PROGRAM.findall("\n".join(rows(page)))), edits.counted()
    wrong += [] if counted in " ".join(page.split()) else [f"{sys.argv[2]} does not say: {counted}"]
    wrong += [f"a wrong program that is not named: {program}" for program in sorted(programs - listed)]
    wrong += [f"no wrong program {program}" for program in sorted(listed - programs)]
    return edits.report("statements", f"{len(names)} declarations and {len(programs)} wrong programs", wrong, bool(in_rows))


if __name__ == "__main__":
    sys.exit(main())
