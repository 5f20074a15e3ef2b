"""A page that a script makes from the sources: it is written, or held to what was made. For the scripts beside this file."""
import difflib
import sys

TOLD = 40


def kept(part: str, path: str, made: str, words: list[str], found: str, words_to_write: str = "write") -> int:
    """Writes the page if the only word is `write`, and otherwise compares it. Prints what was found, or that the page is another, some of the
    lines in which it is, and the command that writes it; the status."""
    if words == ["write"]:
        with open(path, "w", encoding="utf-8") as file:
            file.write(made)
    else:
        with open(path, encoding="utf-8") as file:
            old = file.read()
        if old != made:
            print(f"{part}: {path} is not what the sources say; it is written by python3 {' '.join(sys.argv)} {words_to_write}")
            lines = difflib.unified_diff(old.split("\n"), made.split("\n"), n=0, lineterm="")
            changed = [line for line in lines if line[0] in "+-"][2:]
            for line in changed[:TOLD]:
                print(f"{part}: {line[:140]}")
            return 1
    print(f"{part}: {found}")
    return 0
