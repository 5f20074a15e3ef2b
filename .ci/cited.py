"""What a declaration cites: the declarations of this project that what it says names, and what those cite in turn. For the scripts beside this file.

A name that a text binds is no citation where it is bound: by `(x : T)` and `{x : T}` up to the end of the bracket that the group stands in, by
`λ x.` and `let x` likewise, by the headers of modules, by the patterns of a clause, by the fields of a record in those after it, and by a
function's parameters in its contract. Constructors and variants lead to their type, and the form in which a theorem names a contract leads to
the function. Names of the kit are not followed. A word that is none of all this is an error, so that no citation is passed over.
"""
import os
import re
import subprocess
import sys
from functools import cache
from typing import NamedTuple

from sources import TRAIT_FOR, Declaration, bare, crates, declared, rattle_files, read

USE = re.compile(r"^(?:ghost )?use ([^\s{;:]+?)(?:\.\{([^}]*)\}| as ([^\s;]+));?$", re.M)
OF_CRATE = re.compile(r"Rattle\.(\w+)\.(specs|proofs)\.(.+)")
PASSED_ON = re.compile(r"^pub use ([^\s{;:]+?)\.\{([^}]*)\}", re.M)
RATTLE_USE = re.compile(r"^use (\w+)::(?:\w+::)*(?:(\w+)|\{([^}]*)\});$", re.M)
TOKEN = re.compile(r"[(){},;\[\]]|[^\s(){},;\[\]]+")
NAME = re.compile(r"[^\s.:=(){}\[\],;]+")
# what an operator is imported with
BLANK = "◌"
NUMBER = re.compile(r"\d+|0x[0-9A-Fa-f]+")
# what the languages have of themselves
WORDS = set("pub abbrev unfoldable unfolding module where record data Type : → = × _ , ; . ⊥ Unit".split())
# the kit's libraries whose names stand in the statements as those of its logic do
OF_LANGUAGE = ("core", "std", "std_alloc", "std_collections", "std_heap", "std_io")
TYPES = ("struct", "enum", "const")
# the types that the code has of its language; a letter alone is a parameter
OF_RATTLE = ("Option", "Result", "Ok", "Err", "Some", "None", "Fn", "FnMut", "FnOnce")


class Citation(NamedTuple):
    """A word that cites, the name that it stands for where that is declared, and what it leads to."""
    word: str
    name: str
    one: Declaration


@cache
def kits(name: str, module: str) -> Declaration:
    """A name of the kit, which is not followed, by the module that declares it: others pass it on."""
    return Declaration(name, home(name, module), 0, "kit", True, False, (), "", ())


@cache
def kit() -> str:
    """The kit's folder of libraries, by the page that `rt doc` names."""
    return os.path.join(os.path.dirname(subprocess.run(["rt", "doc"], capture_output=True, text=True, check=True).stdout.strip()), "rattle")


@cache
def passed_on(module: str) -> dict[str, str]:
    """The names that a module of the kit's libraries passes on, each with the module that it has it from."""
    found = OF_CRATE.fullmatch(module)
    path = f"{kit()}/{found[1]}/{found[2]}/{found[3].replace('.', '/')}.antt" if found else ""
    if not os.path.isfile(path):
        return {}
    return {here: of for of, names in PASSED_ON.findall(read(path)) for there, here in each_name(names) if there == here}


def home(name: str, module: str) -> str:
    while name in passed_on(module):
        module = passed_on(module)[name]
    return module


def in_file(path: str, name: str) -> list[Declaration]:
    """What a name of a file is: a declaration, or those that have a constructor of that name."""
    found = [one for one in declared(path).values() if one.name == name] or [one for one in declared(path).values() if name in one.makers()]
    if not found:
        sys.exit(f"no {name} in {path}")
    return found


def in_module(crate: str, folder: str, module: str, name: str) -> list[Declaration]:
    """What a name of a module is: one of a file, or that type or function of the code from which the check makes the module."""
    steps = module.split(".")
    if crate not in crates():
        return [kits(name, f"Rattle.{crate}.{folder}.{module}" if crate in OF_LANGUAGE else f"the kit's {crate}")]
    path, inside = f"crates/{crate}/{folder}/{steps[0]}.antt", f"crates/{crate}/src/{steps[0]}.rt"
    if declared(path):
        return in_file(path, name)
    for source in [inside] if declared(inside) else rattle_files(crate):
        for step in reversed(steps):
            if step in declared(source):
                return [declared(source)[step]]
    sys.exit(f"{crate} has no module {module}")


def each_name(names: str) -> list[tuple[str, str]]:
    """The names of an import, each with the one that it has here."""
    return [(words[0].strip(), words[-1].strip()) for words in (name.split(" as ") for name in names.split(",")) if words[0].strip()]


@cache
def scope(path: str) -> dict[str, list[Citation]]:
    """The names that a file has by imports and of itself, with what each cites. An operator is imported with its blanks, and used without."""
    found = []
    for module, names, _ in USE.findall(read(path)):
        for there, here in each_name(names):
            found += [(key, [Citation(key, there, one) for one in imported(module, there)]) for key in {here, here.strip(BLANK)}]
    if path.endswith(".antt"):
        own = dict.fromkeys(name for one in declared(path).values() for name in (*one.makers(), one.name))
        found += [(name, [Citation(name, name, one) for one in in_file(path, name)]) for name in own]
    by_name = dict(found)
    if len(by_name) < len(found):
        sys.exit(f"{path} has a name of two imports, or of one and of its own")
    return by_name


def imported(module: str, name: str) -> list[Declaration]:
    """What a name of an imported module is."""
    of_crate = OF_CRATE.fullmatch(module)
    return in_module(*of_crate.groups(), name) if of_crate else [kits(name, module)]


def is_maker(path: str, word: str) -> bool:
    """Whether a word of a pattern is a constructor and binds nothing: those of the kit that a file imports are."""
    return "." in word or any(each.one.kind == "kit" or each.name in each.one.makers() for each in scope(path).get(word, []))


def resolved(path: str, word: str) -> list[Citation]:
    """What a word of a file cites, that is not bound there: nothing, if it is one of the language. After a dot stands a name of the module
    that a name stands for, or a field of what it is."""
    before, dot, after = word.partition(".")
    for module, _, alias in USE.findall(read(path)) if dot else ():
        if alias == before:
            return [Citation(word, after, one) for one in imported(module, after)]
    for name in (word, before):
        if name in scope(path):
            return scope(path)[name]
    if word in WORDS or NUMBER.fullmatch(word):
        return []
    sys.exit(f"{path}: what is {word}?")


def bound_by_group(words: list[str], at: int) -> list[str]:
    """The names that the group of a bracket binds: those before a colon, if nothing else stands there."""
    end = at
    while end < len(words) and NAME.fullmatch(words[end]):
        end += 1
    return words[at:end] if end > at and words[end:end + 1] == [":"] else []


class Walk:
    """A walk over a text, which gathers what is cited. `frames` are the names bound in each bracket that is open, those of the text first."""

    def __init__(self, path: str, bound: set[str]):
        self.path = path
        self.frames: list[set[str]] = [set(bound)]
        self.waiting: list[list[str]] = []
        self.lets: list[str] = []
        self.found: list[Citation] = []

    def over(self, text: str, pattern: bool = False) -> "Walk":
        """Over a text. In a pattern, which ends with the first `=` that stands in no bracket, names are bound unless they are constructors."""
        words = TOKEN.findall(bare(text))
        binding, at = 0, 0
        while at < len(words):
            word = words[at]
            if word in ("(", "{", "["):
                self.frames.append(set())
                self.waiting.append(bound_by_group(words, at + 1))
                at += len(self.waiting[-1])
            elif word in (")", "}", "]"):
                self.frames.pop()
                self.frames[-1].update(self.waiting.pop())
            elif word == "λ":
                binding = len(self.frames)
            elif binding == len(self.frames):
                self.frames[-1].add(word.rstrip("."))
                binding = 0 if word.endswith(".") else binding
            elif word == "let":
                self.lets.append(words[at + 1])
                at += 1
            elif word == "in" and self.lets:
                self.frames[-1].add(self.lets.pop())
            elif word == "=" and len(self.frames) == 1:
                pattern = False
            elif not (words[at + 1:at + 2] == ["="] and words[at - 1] in ("{", ";")):
                self.meet(word, pattern)
            at += 1
        return self

    def meet(self, word: str, pattern: bool) -> None:
        """A word that binds nothing itself, unless it is a pattern's: a field after its dot, a name that is bound, or a citation."""
        if word.startswith(".") and word != "." or any(word.split(".")[0] in frame for frame in self.frames if word != "."):
            return
        if pattern and not is_maker(self.path, word):
            self.frames[0].add(word)
        else:
            self.found += resolved(self.path, word)


def in_antt(one: Declaration) -> list[Citation]:
    """What a theorem's type cites, or all that a definition, record or data type says, with the headers above."""
    outer = Walk(one.path, set())
    for _, header in one.headers:
        outer.over(header)
    head = Walk(one.path, outer.frames[0] | {one.name}).over(one.parts[0])
    found, bound = outer.found + head.found, head.frames[0]
    for part in one.parts[1:]:
        if one.kind == "definition":
            found += Walk(one.path, outer.frames[0] | {one.name}).over(part, part.split()[0] == one.name).found
        else:
            label, _, text = bare(part).partition(":")
            found += Walk(one.path, bound).over(text).found
            bound = bound | (set(label.split()[-1:]) if one.kind == "record" else set())
    return found


@cache
def types_in(path: str) -> dict[str, Declaration]:
    """The types and constants that an .rt file has of itself and by imports."""
    found = {one.name: one for one in declared(path).values() if one.kind in TYPES}
    for crate, alone, names in RATTLE_USE.findall(read(path)):
        for source in rattle_files(path.split("/")[1] if crate == "crate" else crate):
            for name in re.findall(r"\w+", alone or names):
                if name in declared(source) and declared(source)[name].kind in TYPES:
                    found[name] = declared(source)[name]
    return found


def in_types(one: Declaration, text: str) -> list[Citation]:
    """The types and constants that a text of an .rt file names, besides its own: all words that begin with a capital, but for an enum's variants."""
    found = []
    for word in re.findall(r"\b[A-Z]\w*", bare(text).replace('extern "C"', "")):
        if word == "Self":
            block = TRAIT_FOR.match(one.headers[-1][1])
            word = re.match(r"\w+", block.group(1).split(" for ")[1]).group() if block else one.headers[-1][1].split()[1]
        if word in OF_RATTLE or len(word) == 1:
            continue
        if word in types_in(one.path):
            found.append(Citation(word, word, types_in(one.path)[word]))
        elif word not in one.makers():
            sys.exit(f"{one.path}: what is {word}?")
    return found


def in_rattle(one: Declaration) -> list[Citation]:
    """The types that a function's signature names, or a type's fields, and what a contract cites."""
    if one.kind != "function":
        return in_types(one, one.said())
    bound = {*one.parameters(), "self", "result"}
    found = in_types(one, one.signature())
    for clause in one.clauses("requires") + one.clauses("ensures"):
        found += Walk(one.path, bound | {f"«{name}»" for name in bound}).over(clause).found
    return found


@cache
def citations(one: Declaration) -> tuple[Citation, ...]:
    """What a declaration cites, each as it names it, in reading order; names of the kit too."""
    if one.kind == "kit":
        return ()
    found = in_rattle(one) if one.path.endswith(".rt") else in_antt(one)
    return tuple(sorted(set(found), key=lambda each: (place(each.one), each.word)))


@cache
def cited(one: Declaration) -> tuple[Declaration, ...]:
    """The declarations of this project that one cites, each once and in reading order; itself left out."""
    return tuple(dict.fromkeys(each.one for each in citations(one) if each.one != one and each.one.kind != "kit"))


def closure(ones: list[Declaration]) -> list[Declaration]:
    """What these cite, what that cites, and so on, in reading order: each after what it cites. No theorem is among it, whose body is not read."""
    found, due = set(), list(ones)
    while due:
        new = set(cited(due.pop())) - found
        found |= new
        due += new
    for one in found:
        if one.kind == "theorem" or any(place(each) > place(one) for each in cited(one)):
            sys.exit(f"{one.path}: {one.name} is cited and is no definition, or cites what is to be read after it")
    return sorted(found, key=place)


@cache
def modules_of(crate: str, folder: str) -> list[str]:
    """The files of a folder, in the order in which its Lib.antt names them."""
    return re.findall(r"^(?:pub )?mod (\w+)", read(f"crates/{crate}/{folder}/Lib.antt"), re.M)


def place(one: Declaration) -> tuple:
    """Where a declaration stands in reading order: by crates, and in each its types, its definitions, its functions, its theorems."""
    if one.kind == "kit":
        return -1, 0, 0, 0, one.path, one.name
    crate, folder, name = re.match(r"crates/(\w+)/(\w+)/(?:.*/)?(\w+)\.", one.path).groups()
    if folder == "src":
        return list(crates()).index(crate), 0 if one.kind in TYPES else 2, rattle_files(crate).index(one.path), one.line
    return list(crates()).index(crate), 1 if folder == "specs" else 3, modules_of(crate, folder).index(name), one.line
