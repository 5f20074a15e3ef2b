#!/usr/bin/env python3
"""Spells the project's own definitions, lemmas, fields and constructors in snake case, in the crates' sources and proofs.

usage: tools/respell.py          writes the files anew
       tools/respell.py --list   prints each old and new name, and does nothing

A name is the project's own if a file of specs/ or proofs/ declares it: what Rattle makes of the source keeps its spelling, and so do types,
modules, the Rust's names and what stands in strings. In comments a name is respelled where it stands in backticks. A name whose new
spelling another has in one of its files is listed as falling together, and then nothing is written, but where TOGETHER says its new name.
"""

import os
import re
import sys

TOP = os.path.join(os.path.dirname(os.path.realpath(__file__)), "..", "crates")
# a declaration: its name stands before a colon, with the arguments of a record or a definition between them
DECLARED = re.compile(r"(?m)^ *(?:(?:abbrev|pub|unfoldable|package) )*([^\s(){}.;,@\"«»:]+)(?: \{[^{}\n]*\})* :(?=\s)(.*)$")
LOCAL = re.compile(r"\blet ([^\s(){}.;,@\"«»:]+)(?= =| :)")
TOKEN = re.compile(r"[^\s(){}.;,@\"«»`\[\]]+")
# what a proof by goals declares for the check, whose names come from the goals
ANSWER = re.compile(r"\btie\.|\bstatement\b")
# names that would fall together with a definition's: a lemma of it, or a field
TOGETHER = {
    "after-end": "after_end_lem",
    "after-piece": "after_piece_lem",
    "adds-by": "adds_by_lem",
    "block-fits": "block_fits_lem",
    "carry-past": "carry_past_lem",
    "contents-of": "contents_of_lem",
    "dss-start": "dss_start_lem",
    "first-wrong": "first_wrong_lem",
    "gathered-from": "gathered_from_lem",
    "handed-by": "handed_by_lem",
    "header-full": "header_full_lem",
    "index_read": "index_read_lem",
    "kind-there": "kind_there_lem",
    "past_by": "past_by_lem",
    "payload-shown": "payload_shown_lem",
    "read-by": "read_by_lem",
    "segment-words": "segment_words_lem",
    "two_blocks": "two_blocks_lem",
    "with-block": "with_block_lem",
}


def snake(name):
    if name[0].isupper():
        return name
    words = re.sub(r"(?<=[a-z0-9])([A-Z])", lambda m: "_" + m[1].lower(), name)
    return re.sub(r"(?<=\w)-(?=\w)", "_", words)


def files():
    for folder, dirs, names in os.walk(TOP):
        dirs[:] = sorted(d for d in dirs if d != "out")
        for name in sorted(names):
            if name.endswith((".antt", ".rt")):
                yield os.path.join(folder, name)


def of_a_function(path):
    return re.search(r"/proofs/.*/(Proof|Answers|Invariants)\.antt$", path)


def parts(text, source):
    """The text in pieces: code, and comments with strings."""
    mark = "//" if source else "--"
    pattern = re.compile(r'(b?"(?:[^"\\\n]|\\.)*"|(?<![^\s(])' + mark + r"(?![^\s]).*|^" + mark + ".*)", re.M)
    at = 0
    for m in pattern.finditer(text):
        yield True, text[at : m.start()]
        yield False, m[0]
        at = m.end()
    yield True, text[at:]


def main():
    texts = {}
    for path in files():
        with open(path, encoding="utf-8") as f:
            texts[path] = f.read()
    own = set()
    for path, text in texts.items():
        if not path.endswith(".antt"):
            continue
        for m in DECLARED.finditer(text):
            if of_a_function(path) and ANSWER.search(m[2]):
                continue
            own.add(m[1])
        if not of_a_function(path):
            own |= set(LOCAL.findall(text))
    turned = {name: TOGETHER.get(name, snake(name)) for name in own if name in TOGETHER or snake(name) != name}
    if "--list" in sys.argv:
        for old in sorted(turned):
            print(old, turned[old])
        return 0
    back = {}
    for old, new in turned.items():
        back.setdefault(new, set()).add(old)
    bad = False
    # no clause and no proof can name a function of the Rust, so a definition may have its name
    functions = set()
    for path, text in texts.items():
        if path.endswith(".rt"):
            functions |= set(re.findall(r"\bfn (\w+)", text))
    declared = own | {new for new in back if len(back[new]) > 1}
    for path, text in texts.items():
        seen = set()
        for code, piece in parts(text, path.endswith(".rt")):
            if code:
                seen |= set(TOKEN.findall(piece))
        for new, olds in back.items():
            found = {it for it in (olds | {new}) & seen if turned.get(it, it) == new}
            if len(found & set(turned)) == 1 and new in functions and new not in declared:
                continue
            if len(found) > 1:
                bad = True
                print("falls together:", os.path.relpath(path, TOP), sorted(found), "as", new)
    if bad:
        return 1
    for path, text in texts.items():
        out = []
        for code, piece in parts(text, path.endswith(".rt")):
            if code:
                # what is in snake case in a source is the Rust's own
                piece = TOKEN.sub(lambda m: m[0] if path.endswith(".rt") and snake(m[0]) == m[0] else turned.get(m[0], m[0]), piece)
            elif not piece.startswith(('"', 'b"')):
                piece = re.sub(r"`([^`\s]+)`", lambda m: "`" + TOKEN.sub(lambda t: turned.get(t[0], t[0]), m[1]) + "`", piece)
            out.append(piece)
        new = "".join(out)
        if new != text:
            with open(path, "w", encoding="utf-8") as f:
                f.write(new)
    print(len(turned), "names respelled")
    return 0


if __name__ == "__main__":
    raise SystemExit(main())
