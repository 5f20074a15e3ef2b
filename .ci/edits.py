"""edits.py LOGS: tries each edit of crates/*/must-fail on a copy of the crates, and holds it against what the check says of it, which is left in
LOGS/CRATE/EDIT/.log.

An edit has one wrong program or several, each in another function: a line `wrong: NAME`, what is wrong with it, a line `refused: F`, and its
replacements. F is the function that is not proved then, as a path of its crate, or a law or theorem. rt asks that the edit is refused; here
each of its wrong programs is: F is to be refused by a fact of its own, and not since something that it rests on is refused. A function that the
check does not come to, since it calls one that is refused, is tried with its wrong program alone: LOGS/CRATE/EDIT/NAME.log. An edit that only
makes a proof unfit for its code shows nothing, and is wrong too. Prints how many there are, how many of them change no code but a contract,
how many a definition, and what is wrong.
"""
import concurrent.futures
import glob
import os
import queue
import re
import shutil
import subprocess
import sys
import tempfile

ERROR = re.compile(r"^\./([^\s:]+):\d+:\d+: error: `([^`]+)`: (.*)", re.M)
# what is said of a name that the edit took away, and of what rests on another
UNFIT = re.compile(r"has no `|has no field|is not in scope|is no name")
FOLLOWS = re.compile(r"was not admitted|was not checked")
# what the check of a function says where it has goals that neither an answer nor `search` proves
OPEN = re.compile(r"`search` did not prove ")
AT_MOST = 4


def programs(path: str) -> list[dict]:
    """The wrong programs of an edit: each one's name, what refuses it, and its replacements, each as a file, the old text and the new. What stands
    before the first has no name."""
    found, where, old = [{"name": "", "refused": [], "pairs": []}], "", ""
    with open(path, encoding="utf-8") as file:
        for line in file:
            if line.startswith("wrong:"):
                found.append({"name": line[6:].strip(), "refused": [], "pairs": []})
            elif line.startswith("refused:"):
                found[-1]["refused"].append(line[8:].strip())
            elif line.startswith("file: "):
                where = line[6:].rstrip("\n")
            elif line.startswith("old: "):
                old = line[5:].rstrip("\n")
            elif line.startswith("new:"):
                found[-1]["pairs"].append((where, old, line[4:].rstrip("\n").removeprefix(" ")))
    return found if found[0]["refused"] or found[0]["pairs"] else found[1:]


def change(crate: str, where: str, old: str) -> str:
    """What a replacement is in: a definition, a proof, a contract, of which each clause has a line, what is imported for contracts, or code."""
    if not where.startswith("src/"):
        return "proof" if where.startswith("proofs/") else "definition"
    with open(f"crates/{crate}/{where}", encoding="utf-8") as file:
        text = file.read()
    at = text.find(old)
    line = text[text.rfind("\n", 0, at) + 1 : at + len(old)].lstrip()
    return "contract" if re.match(r"(requires|ensures) ", line) else "import" if line.startswith("ghost use ") else "code"


def is_function(crate: str, what: str) -> bool:
    """Whether the crate's sources have a function of that name."""
    for path in glob.glob(f"crates/{crate}/src/**/*.rt", recursive=True):
        with open(path, encoding="utf-8") as file:
            if re.search(rf"\bfn {re.escape(what.split('::')[-1])}\b", file.read()):
                return True
    return False


def copied(room: str) -> None:
    """Puts the crates' texts into a folder of their own, where an edit changes nothing here, beside the libraries that are built."""
    shutil.copytree("crates", f"{room}/crates", ignore=shutil.ignore_patterns("out", "must-fail"))
    for library in glob.glob("crates/*/out/rlib"):
        shutil.copytree(library, f"{room}/{library}", copy_function=linked)
    for name in ("crates.txt", "HANDLES"):
        if os.path.exists(name):
            shutil.copyfile(name, f"{room}/{name}")


def linked(one: str, other: str) -> None:
    """What is built is written anew, and never where it stands: so a copy of it is a second name, where the folder allows that."""
    try:
        os.link(one, other)
    except OSError:
        shutil.copy2(one, other)


def said(room: str, crate: str, found: list[dict], log: str) -> str:
    """What the check says of a crate with these wrong programs in the copy, which is left in a log too: nothing, if a replacement cannot be made."""
    texts = {}
    for where, old, new in [pair for program in found for pair in program["pairs"]]:
        with open(f"crates/{crate}/{where}", encoding="utf-8") as file:
            text = texts.get(where) or file.read()
        if text.count(old) != 1:
            return ""
        texts[where] = text.replace(old, new)
    try:
        for where, text in texts.items():
            with open(f"{room}/crates/{crate}/{where}", "w", encoding="utf-8") as file:
                file.write(text)
        both = {"stdout": subprocess.PIPE, "stderr": subprocess.STDOUT, "encoding": "utf-8", "errors": "replace"}
        ran = subprocess.run(["rt", "check", "--jobs", "1"], cwd=f"{room}/crates/{crate}", stdin=subprocess.DEVNULL, check=False, **both)
    finally:
        for where in texts:
            shutil.copyfile(f"crates/{crate}/{where}", f"{room}/crates/{crate}/{where}")
    os.makedirs(os.path.dirname(log), exist_ok=True)
    with open(log, "w", encoding="utf-8") as file:
        file.write(ran.stdout)
    return ran.stdout


def refused_itself(crate: str, what: str, log: str) -> bool:
    """Whether the log has an error of the function's own facts, or of the law or theorem, that does not follow from another."""
    errors = [(path, name) for path, name, text in ERROR.findall(log) if not FOLLOWS.search(text) and not UNFIT.search(text)]
    if not is_function(crate, what):
        return what in [name for path, name in errors]
    told = re.search(rf"^fn {crate}::{re.escape(what)}: (.*)", log, re.M)
    if not told or told.group(1) == "proved":
        return False
    # a fact is a goal, or what an invariant or a measure says
    own = [name for path, name in errors if path.startswith(f"proofs/{what.replace('::', '/')}/")]
    return bool(OPEN.search(told.group(1)) or own)


def unfit(log: str) -> bool:
    """Whether what the check says is that a name is gone, on which a proof rests."""
    return any(UNFIT.search(text) for path, name, text in ERROR.findall(log))


def faults(room: str, logs: str, crate: str, edit: str) -> list[str]:
    """What is wrong with an edit."""
    found = programs(f"crates/{crate}/must-fail/{edit}.edit")
    wrong = [f"{crate}/{edit} names no wrong program"] if not found else []
    log = said(room, crate, found, f"{logs}/{crate}/{edit}/.log")
    if "\nlogic=not-proved" not in log:
        return wrong + [f"{crate}/{edit} was not tried to an end, or is proved"]
    if unfit(log):
        wrong.append(f"{crate}/{edit} makes a proof unfit for its code")
    refusing = [what for program in found for what in program["refused"]]
    if len(set(refusing)) < len(refusing):
        wrong.append(f"{crate}/{edit} has two wrong programs in one function")
    for program in found:
        name, refused = program["name"], program["refused"]
        if not re.fullmatch(r"[a-z0-9_]+", name) or len(refused) != 1 or not program["pairs"]:
            wrong.append(f"{crate}/{edit}: '{name}' lacks its name, what refuses it or a replacement")
        elif not refused_itself(crate, refused[0], log):
            alone = said(room, crate, [program], f"{logs}/{crate}/{edit}/{name}.log") if len(found) > 1 else ""
            if unfit(alone) or not refused_itself(crate, refused[0], alone):
                wrong.append(f"{crate}/{name}: {refused[0]} is not refused by a fact of its own in {edit}")
    return wrong


def report(part: str, found: str, wrong: list[str], some: bool) -> int:
    """Prints what is wrong and what was found, and gives the status: finding nothing at all is wrong too."""
    for line in wrong:
        print(f"{part}: {line}")
    print(f"{part}: {found}, {len(wrong)} wrong")
    return 1 if wrong or not some else 0


def counted() -> str:
    """How many wrong programs there are, and how many of them change a contract alone, or a definition."""
    changes = [{change(path.split("/")[1], *pair[:2]) for pair in program["pairs"]} for path in every() for program in programs(path)]
    contracts = sum("contract" in kinds and kinds <= {"contract", "import"} for kinds in changes)
    definitions = sum("definition" in kinds for kinds in changes)
    return f"{len(changes)} wrong programs, {contracts} of them in a contract alone and {definitions} in a definition"


def every() -> list[str]:
    return sorted(glob.glob("crates/*/must-fail/*.edit"))


def tried(logs: str, room: str) -> list[str]:
    """What is wrong with the edits, of which as many are tried at once as there are processors. Each crate's are tried in one copy."""
    rooms, crates = queue.Queue(), sorted({path.split("/")[1] for path in every()}, key=lambda it: -len(glob.glob(f"crates/{it}/must-fail/*.edit")))
    many = min(AT_MOST, len(os.sched_getaffinity(0)))
    for number in range(many):
        copied(f"{room}/{number}")
        rooms.put(f"{room}/{number}")

    def of_crate(crate: str) -> list[str]:
        place = rooms.get()
        try:
            return [fault for path in every() if path.split("/")[1] == crate for fault in faults(place, logs, crate, path.split("/")[3][:-5])]
        finally:
            rooms.put(place)

    with concurrent.futures.ThreadPoolExecutor(many) as lanes:
        return sorted(fault for wrong in lanes.map(of_crate, crates) for fault in wrong)


def main() -> int:
    shutil.rmtree(sys.argv[1], ignore_errors=True)
    with tempfile.TemporaryDirectory(prefix="edits-") as room:
        wrong = tried(sys.argv[1], room)
    names = [f"{path.split('/')[1]}/{program['name']}" for path in every() for program in programs(path)]
    wrong += [f"{name} is there twice" for name in sorted(set(names)) if names.count(name) > 1]
    return report("edits", f"{counted()}, by {len(every())} edits", wrong, bool(names))


if __name__ == "__main__":
    sys.exit(main())
