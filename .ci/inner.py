"""inner.py STATEMENTS: holds each file of crates/*/specs to what it is for.

What only contracts of inner functions speak of stands in Inner.antt: no definition there is named by STATEMENTS or rested on by what it names.
Every definition of another file is. Prints how many there are of both, and what stands in the wrong file.
"""
import glob
import sys

from cited import closure
from edits import report
from sources import declared, read, those


def main() -> int:
    named = those(read(sys.argv[1]))
    reached = {*named, *closure(named)}
    every = [one for path in sorted(glob.glob("crates/*/specs/*.antt")) for one in declared(path).values()]
    inner = [one for one in every if one.path.endswith("/Inner.antt")]
    wrong = [f"{one.path}: a statement rests on {one.name}" for one in inner if one in reached]
    wrong += [f"{one.path}: no statement rests on {one.name}" for one in every if one not in reached and one not in inner]
    return report("inner", f"{len(inner)} definitions that no statement rests on and {len(every) - len(inner)} others", wrong, bool(inner))


if __name__ == "__main__":
    sys.exit(main())
