#!/usr/bin/env python3
"""Makes the list of packets that are asked for by their number: make.py SOURCE_FOLDER > stdin

SOURCE_FOLDER is the original's folder `src`. Every run writes the same bytes. What a file is and what its whole reading gives is test_vectors'
model, and the original Rust is asked by test_vectors' probe: its make.py is read as a module. A packet's answer is that packet of the whole
reading, as the model walks to it. The script stops with the case if the Rust's whole reading has another number of packets, other ones up to
that packet, or another one there; and it stops if some refusal or some kind of case never comes. Refusal 2 cannot: no file of the list is long
enough.

The list is text: a number is a run of digits, and every other byte stands between numbers. A case has a title without digits, and three lines:

- The file, as test_vectors/LIST.md says it.
- What is asked: the packet's number, from 0 on, and how many bytes of output and how many counts are lent.
- The answers: the refusal and the number beside it (0 and 0 for none); how many packets, 1 or 0; a digest of the output and up to 64 bytes past
  the packet; and one of the counts and up to 64 past. In front of each stands `r` if it is the Rust's, and else `d`. The Rust's are the digest
  of a packet, and how many there are, which stands beside refusal 18. It is not asked about files that end at their audio start or before.

Digests are as in test_vectors/LIST.md, and so is lent memory: 165 before the call.
"""
import collections
import importlib.util
from itertools import product
import pathlib
import random
import sys
import types

def module(path):
    """A make.py as a module, which makes no list then; nothing is left beside it."""
    found = importlib.util.spec_from_file_location("vectors", path)
    made, sys.dont_write_bytecode = importlib.util.module_from_spec(found), True
    found.loader.exec_module(made)
    return made

vectors = module(pathlib.Path(__file__).resolve().parents[1] / "test_vectors" / "make.py")
DS2_ONE, DS2_THREE, DS2_SEVEN = vectors.DS2
AMPLE, BLOCK, PAYLOAD, SILENT, head = vectors.AMPLE, vectors.BLOCK, vectors.PAYLOAD, vectors.SILENT, vectors.head
OUT, COUNTS, PAST = 256, 128, 64  # the most that the program lends, and how far a digest goes past a packet

# ---- The description

def packet(file, number, room):
    """The packet alone, or a refusal: the file, the number, the room, in this order."""
    found = vectors.read_sp(file, AMPLE)
    if number >= len(found):
        raise vectors.Refused(18, len(found))
    return vectors.fits(found[number:number + 1], room)

def answers(case, file):
    """The first one stands at 1."""
    return [None, *vectors.sp_answers(lambda file, room: packet(file, case.number, room), file, case)]

def kinds(case, file, found):
    """Of each kind of case, whether this one is of it."""
    given, beyond, lacking = (found[1] == number for number in (0, 18, 8))
    blocks = vectors.admit(file, vectors.DS2, "SP") if given or beyond else vectors.Blocks(b"", 0)
    whole = vectors.packets(blocks, False)
    number, total, end = case.number, len(whole), len(blocks.stream)
    here = whole[number] if given else vectors.Packet(bytes(42), 0, 0, 0, False)
    place, swapped = here.ready - here.size, here.size == 40
    across = given and here.ready <= end and place // PAYLOAD < (here.ready - 1) // PAYLOAD
    return {
        "packet 0": given and number == 0,
        "the last": given and 0 < number == total - 1,
        "a middle one": given and 0 < number < total - 1,
        "partly past the end": given and 0 < here.count < here.size,
        "wholly past the end": given and here.count == 0,
        "packet 0 swapped": given and number == 0 and swapped and here.bytes[1] == 0,
        "carried over a seam": swapped and place % PAYLOAD < 2 and place < end and here.bytes[1] > 0,
        "carried to the end": swapped and place == end and here.bytes[1] > 0,
        "unswapped across a seam": across and not swapped,
        "swapped across a seam": across and swapped,
        **{f"first byte {magic[0]}": given and file[:4] == magic for magic in vectors.DS2},
        "silent blocks": given and not all(h[2] for h in blocks.headers),
        "nothing announced": beyond and total == 0,
        "the total": beyond and number == total > 0,
        "one above it": beyond and number == total + 1 > 1,
        "far above it": beyond and number >= 10 ** 16,
        "18 with no room": beyond and case.for_packets == 0,
        "41 bytes": lacking and case.out == 41 and case.counts > 0,
        "no counts": lacking and case.out >= 42 and case.counts == 0,
        "more room": given and case.out > 42 + PAST and case.counts > 1 + PAST}

# ---- The Rust: what the probe says of a whole reading stands at these places

NOT_DS2, MANY, DIGEST = 9, 11, 12
NO_PIECES = types.SimpleNamespace(ends=[0], agrees=lambda: False)

def reaches(case, found):
    """How many packets the Rust is asked for: those before the packet, and those with it; none where there is no answer."""
    return (case.number, case.number + 1) if found[1] == 0 else (0, 0)

def request(file, many):
    return vectors.request(types.SimpleNamespace(out=42 * many, kind=0, probe=0, part=0), file, NO_PIECES)

def expected(file, many):
    """What the Rust is to say: that the file is none of DS2, how many packets it has, and a digest of so many of them."""
    refusal, whole = vectors.attempt(vectors.read_sp, [], file, AMPLE)
    if not vectors.allowed(file, NO_PIECES) & vectors.DEMUX_DS2 or refusal[0] > 1:
        return {}
    return {NOT_DS2: 1} if refusal[0] else {MANY: len(whole), DIGEST: vectors.digest(vectors.bytes_of(whole[:many]))}

def places(found, said):
    """Which answers are the Rust's."""
    return {0: {4}, 18: {2}}.get(found[1], set()) if MANY in said else set()

def ask_rust(folder, cases, files, every):
    """For each case which answers are the Rust's; stops where it says something else than the model."""
    asked = [(case, file, found, many) for case, file, found in zip(cases, files, every) for many in reaches(case, found)]
    given = vectors.ask_rust(folder, (request(file, many) for _, file, _, many in asked))
    assert len(given) == len(asked)
    for (case, file, _, many), rust in zip(asked, given):
        said = {place: rust[place] for place in (NOT_DS2, MANY, DIGEST) if place in rust}
        if said != expected(file, many):
            sys.exit(f"{case.title}, {many} packets: {expected(file, many)} by the description, {said} by the Rust\n{vars(case)}")
    return [places(found, rust) for (_, _, found, _), rust in zip(asked[::2], given[::2])]

# ---- The cases; a title's numbers are spelled out

def case(title, magic, headers, number, out=42 + PAST, counts=1 + PAST, **given):
    return vectors.Case(title, magic, headers, number=number, out=out, counts=counts, room=0, **given)

def start_of(swap, number):
    """Where a packet's read starts, by the parity of packet 0."""
    return 41 * number + number % 2 * (1 - 2 * swap)

def every_packet():
    for magic, swap in ((DS2_ONE, 0), (DS2_THREE, 1)):
        headers = vectors.recording(magic, 4, 0, swap)
        for number in range(sum(h[2] for h in headers) + 2):
            yield case(f"four blocks, flag {swap}, packet {number}", magic, headers, number)

def past_the_end():
    """Blocks that announce more than they hold: the packets around the stream's end, and the last."""
    for blocks, swap, fill in product((1, 2, 3, 41), (0, 1), (1, 2)):
        headers = [head(3, 20, 0, swap)] * blocks
        edge = PAYLOAD * blocks // 41
        for number in (*range(edge - 1, edge + 3), 20 * blocks - 1):
            yield case(f"{blocks} blocks end, flag {swap}, fill {fill}, packet {number}", DS2_ONE, headers, number, fill=fill)

def seams():
    """The packets that touch a seam. A swapped read begins at the front of block 3 and of 44, and of 41 where packet 0 is swapped."""
    for (blocks, there), swap in product(((8, range(1, 8)), (45, (3, 41, 44))), (0, 1)):
        headers = vectors.recording(DS2_THREE, blocks, 0, swap)
        for seam in there:
            for number in range(sum(h[2] for h in headers)):
                if start_of(swap, number) <= PAYLOAD * seam <= start_of(swap, number + 1):
                    yield case(f"{blocks} blocks, flag {swap}, seam {seam}, packet {number}", DS2_THREE, headers, number)

def scanned():
    """Files whose audio start is found by a scan: where good headers stand, where a flag or a silent block stands first, and where none is good."""
    good, flagged = head(3, 12), head(3, 12, 0, 1)
    for start, number in product((512, 1536, 4096, 5120, 65536), (0, 1, 12, 47, 48)):
        yield case(f"scan to {start}, packet {number}", DS2_SEVEN, [good] * 4, number, start=start)
    for title, headers in (("flag first", [flagged] + [good] * 4), ("silent first", [SILENT] + [good] * 5),
                           ("no good one", [flagged] * 3), ("one good", [flagged, good, SILENT]), ("two good", [good, SILENT, good, good])):
        for number in (0, 1, 13, 24, 30, 36):
            yield case(f"scan, {title}, packet {number}", DS2_SEVEN, headers, number, start=4096)

def silent_blocks():
    for pattern, swap in product("shh hsh hhs ssh hss hshsh shshs hsshh".split(), (0, 1)):
        headers = [head(3, 12 if p == "h" else 0, 0, swap if b == 0 else b % 2) for b, p in enumerate(pattern)]
        total = sum(h[2] for h in headers)
        for number in (0, total // 2, total - 1):
            yield case(f"silent as {pattern}, flag {swap}, packet {number}", DS2_ONE, headers, number)

def nothing_announced():
    for magic, (title, headers, extra) in product((DS2_ONE, DS2_SEVEN), (
            ("bare header", [], 0), ("silent", [SILENT], 0), ("three silent", [SILENT] * 3, 0), ("a cut block", [head(3, 12)], -1),
            ("silent, then a cut block", [SILENT, head(3, 12)], -500))):
        for number, out in ((0, 42), (1, 106), (10 ** 16, 41)):
            yield case(f"{vectors.name(magic)}, {title}, packet {number}", magic, headers, number, out, extra=extra)

def beyond():
    for swap, above in product((0, 1), (0, 1, 2, 41, 42, 255, 256, 1 << 16, 1 << 31, 1 << 32, 1 << 48, 1 << 53, 10 ** 16)):
        headers = [head(3, 12, 0, swap), head(3, 13)]
        for out, counts in ((106, 65), (41, 65), (106, 0)):
            title = f"{above} above the total, flag {swap}, output {out}, counts {counts}"
            yield case(title, DS2_THREE, headers, 25 + above, out, counts)

def rooms():
    asked = product((0, 1, 41, 42, 43, 84, 105, 106, 107, OUT), (0, 1, 2, 64, 65, 66, COUNTS))
    for i, (out, counts) in enumerate(asked):
        number = (0, 5, 12, 13)[i % 4]
        yield case(f"output {out}, counts {counts}, packet {number}", DS2_ONE, [head(3, 14, 0, i % 3 % 2)], number, out, counts)

def other_files():
    for first, letters in product((0, 1, 2, 3, 6, 7), (b"dss", b"ds2", b"enc", b"dt2")):
        yield case(f"magic {first} {letters.decode()}", bytes([first]) + letters, [head(3, 4)] * 4, 5)
    for magic, less in product(vectors.DS2, (1, 2, BLOCK, BLOCK + 1, 2000)):
        length = vectors.usual_start(magic) + BLOCK - less
        yield case(f"{vectors.name(magic)}, length {length}", magic, [head(3, 4)], 3, length=length)
    for length in range(6):
        yield case(f"no more than {length}", DS2_ONE, [], 0, length=length)
    for kind in (*range(10), 127, 128, 255):
        yield case(f"type {kind}", DS2_ONE, [head(3, 4, kind), head(3, 9, 6)], 3)
        yield case(f"type {kind} after a silent block", DS2_THREE, [head(3, 0, 7), head(3, 9, kind)], 8)

def order():
    """Every choice of the causes of a refusal."""
    for magic, length, kind, number, out in product((DS2_ONE, vectors.DSS_TWO), (2560, 1535), (0, 7), (7, 8), (42, 41)):
        title = f"order, {vectors.name(magic)}, length {length}, type {kind}, packet {number}, output {out}"
        yield case(title, magic, [head(3, 4, kind)] * 2, number, out, length=length)

def chance(count=90):
    dice = random.Random(1).random  # promised to be the same in every version of Python
    roll = lambda sides: int(dice() * sides)
    for i in range(count):
        magic, seed = vectors.DS2[roll(3)], roll(1 << 31)
        headers = [bytearray(h) for h in vectors.recording(magic, 1 + roll(7), roll(4), roll(2), seed)]
        for _ in range(i % 3 * (1 + roll(3))):
            headers[roll(len(headers))][2 * roll(2)] = roll(256)
        number = roll(3 + sum(h[2] for h in headers))
        yield case(f"damaged {i % 3}, number {i}", magic, headers, number, roll(OUT), roll(COUNTS), extra=roll(512), seed=seed)

# ---- The list

GROUPS = every_packet, past_the_end, seams, scanned, silent_blocks, nothing_announced, beyond, rooms, other_files, order, chance

def entry(number, case, found, rust):
    """As in the list of test_vectors, but for what is asked."""
    lines = vectors.entry(number, case, found, rust).split("\n")
    lines[2] = f"{case.number} {case.out} {case.counts}"
    return "\n".join(lines)

def summary(entries, refusals, sorts):
    """Counts of cases, letters, refusals and kinds."""
    text = "".join(e.split("\n")[3] for e in entries)
    print(f"{len(entries)} cases, {sum(map(len, entries))} bytes, {text.count('r')} r, {text.count('d')} d", file=sys.stderr)
    print("refusals:", ", ".join(f"{number} in {refusals[number]}" for number in sorted(refusals)), file=sys.stderr)
    print("kinds:", ", ".join(f"{sort} in {many}" for sort, many in sorts.items()), file=sys.stderr)

def main(folder):
    cases = [case for group in GROUPS for case in group()]
    files = [case.complete(number) for number, case in enumerate(cases, 1)]
    assert len({case.title for case in cases}) == len(cases)
    assert all(case.out <= OUT and case.counts <= COUNTS and case.length <= 67584 for case in cases)
    every = list(map(answers, cases, files))
    rust = ask_rust(folder, cases, files, every)
    entries = list(map(entry, range(1, len(cases) + 1), cases, every, rust))
    refusals = collections.Counter(found[1] for found in every)
    told = list(map(kinds, cases, files, every))
    sorts = {sort: sum(of[sort] for of in told) for sort in told[0]}
    summary(entries, refusals, sorts)
    assert set(refusals) == {0, 1, 3, 8, 11, 18} and all(sorts.values())
    sys.stdout.write("".join(entries))

if __name__ == "__main__":
    if len(sys.argv) != 2:
        sys.exit("usage: make.py SOURCE_FOLDER > stdin")
    main(pathlib.Path(sys.argv[1]))
