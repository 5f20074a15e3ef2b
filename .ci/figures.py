"""figures.py FILE [write [LOG [REMARK]]]: the project's figures. Holds the counts of FILE, docs/PROOFS.md, to the sources; or writes FILE, with the
times of one run of the gate from LOG, which .ci/run left, or with no LOG those that FILE has.

Lines that are blank or only a comment are not counted. Of a crate's sources, contracts are the lines of `requires` and `ensures`, and code is the
rest but for what is imported for contracts. Rests on the sources' own layout, which `rt fmt` keeps, and on the lines that rt writes.
"""
import glob
import re
import sys

import edits
from made import kept
from sources import crates

HEAD = """# Figures of the proofs

Made by .ci/figures.py. The counts are those of the sources, and the gate compares them; the times are those of one run of the gate:

"""
TAIL = """
What a run of `rt ci` passed is kept on its machine: of the crates and edits that have not changed since it proves and tries none anew, and its
time above is that of what it did. A crate's wrong programs are tried by its edits, under must-fail/, which rt tries and .ci/edits.py once more, and one
of several by itself where the check does not come to it. Lines that are blank or only a comment are not counted; `use` lines are, but for
those that sources have for their contracts alone. Functions are all of a crate's, public or not; each is proved to meet its contract.
"""
COUNTS = ["functions", "code", "contracts", "definitions", "proof", "wrong programs", "edits"]
WRITE = "write target/gate.log"


def lines(pattern, comment):
    found = []
    for path in glob.glob(pattern, recursive=True):
        with open(path, encoding="utf-8") as file:
            found += [line.strip() for line in file]
    return [line for line in found if line and not line.startswith(comment)]


def edits_of(name):
    return glob.glob(f"crates/{name}/must-fail/*.edit")


def counts(name):
    source = lines(f"crates/{name}/src/**/*.rt", "//")
    contracts = [line for line in source if re.match(r"(requires|ensures) ", line)]
    ghosts = [line for line in source if line.startswith("ghost use ")]
    functions = [line for line in source if re.match(r"(pub )?(extern \"C\" )?fn ", line)]
    definitions = lines(f"crates/{name}/specs/**/*.antt", "--")
    proofs = lines(f"crates/{name}/proofs/**/*.antt", "--")
    wrong = sum(len(edits.programs(path)) for path in edits_of(name))
    code = len(source) - len(contracts) - len(ghosts)
    return [len(functions), code, len(contracts), len(definitions), len(proofs), wrong, len(edits_of(name))]


def of_log(log, remark):
    """What the run was; or nothing, where the log does not tell."""
    took = dict(re.findall(r"^gate: (.+) took (\d+) s$", log, re.M))
    machine = re.search(r"^gate: run on (.+)$", log, re.M)
    run = re.search(r"^gate: (not run: .+|every part was run)$", log, re.M)
    did = re.search(r"^rt: ok; .*; ((?:done in this run: .*?(?=;|$))|every proof and must-fail edit was done in this run)", log, re.M)
    if not (machine and run and did and "all" in took):
        return None
    parts = "; ".join(f"{what} {seconds} s" for what, seconds in took.items() if what not in ("rt ci", "archive", "all"))
    whole = f"`rt ci` took {took['rt ci']} s ({did.group(1)}), .ci/run in all {took['all']} s (then the archive {took['archive']} s, and in two lanes: {parts}; {run.group(1)})"
    return f"{machine.group(1)}: {whole}.{remark}"


def main():
    path, words = sys.argv[1], sys.argv[2:]
    if words[1:]:
        with open(words[1], encoding="utf-8") as file:
            told = of_log(file.read(), "".join(f" {remark}" for remark in words[2:]))
    else:
        with open(path, encoding="utf-8") as file:
            told = file.read()[len(HEAD):].split("\n\n")[0]
    if told is None:
        print("figures: the log lacks the times of the gate")
        return 1
    rows = [[name, *counts(name)] for name in crates()]
    rows.append([f"{len(crates())} crates", *(sum(column) for column in list(zip(*rows))[1:])])
    titles = ["crate", *COUNTS]
    table = [titles, ["---"] * len(titles), *rows]
    shown = "\n".join("| " + " | ".join(f"{cell:,}" if isinstance(cell, int) else cell for cell in row) + " |" for row in table)
    functions, wrong = rows[-1][1 + COUNTS.index("functions")], rows[-1][1 + COUNTS.index("wrong programs")]
    found = f"{len(crates())} crates, {functions} functions, {wrong} wrong programs"
    return kept("figures", path, HEAD + told + "\n\n" + shown + "\n" + TAIL, words[:1], found, WRITE)


if __name__ == "__main__":
    sys.exit(main())
