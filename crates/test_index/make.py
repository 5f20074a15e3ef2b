#!/usr/bin/env python3
"""Makes the list of files, indexes and packets that are asked for by them: make.py > stdin

Every run writes the same bytes. What a file is and what its whole reading gives is test_vectors' model, which is held to the Rust there, and a
case is made as one of test_packets: make.py of both is read as a module. What an index is and what the four calls answer is worked out by the
model below, for the Rust has no index. The script stops if some call is never refused by a number that it can give, or if some kind of case
never comes. Refusal 2 cannot: no file of the list is long enough.

The list is text: a number is a run of digits, and every other byte stands between numbers. A case has a title without digits, and three lines:

- The file, as test_vectors/LIST.md says it, but for its length, which is at most 135,168.
- What is asked: the packet's number, from 0 on; how many bytes of output, how many counts and how many bytes for an index are lent; and the
  index that is read: how many bytes it has, its first four as a number, its byte 4, how many numbers follow, and these, which are the bytes from 5
  on, four by four. Zeros stand for bytes past its end.
- The answers, the letter `d` in front of each: a refusal and the number beside it are 0 and 0 for none, and with one the other numbers are 0.

| answers | call | what they are |
|---|---|---|
| 1 to 5 | `build_index` | refusal, beside, bytes, entries, digest of all bytes that were lent for an index |
| 6 to 9 | `read_index` | refusal, beside, entries, packets |
| 10 to 14 | `find_entry` | refusal, beside, and the entry: block, first packet, place |
| 15 to 19 | `dss_packet` | refusal, beside, packets, digests of the output and of the counts, as in the list of test_packets |

Digests are as in test_vectors/LIST.md, and so is lent memory: 165 before the call.
"""
import collections
from itertools import chain, cycle, product, zip_longest
import pathlib
import random
import struct
import sys

sys.dont_write_bytecode = True
sys.path.insert(0, str(pathlib.Path(__file__).resolve().parents[1] / "test_packets"))
import make as packets

vectors = packets.vectors
DSS_TWO, DSS_THREE = vectors.DSS
AMPLE, BLOCK, PAYLOAD, SILENT, head = packets.AMPLE, packets.BLOCK, packets.PAYLOAD, packets.SILENT, packets.head
FRONT, ENTRY = 5, 12  # the bytes of an index before its entries, and of an entry
FILE, INDEX = 135168, 4096  # the longest file, and the most bytes for an index
NO_BLOCKS = vectors.Blocks(b"", 0)

# ---- The description

def entries(blocks):
    """Of each announcing block its number, the number of its first packet, and where its reads start in the payload stream."""
    counts = [h[2] for h in blocks.headers]
    numbers = [number for number, count in enumerate(counts) if count > 0]
    return [(number, sum(counts[:number]), walk.start) for number, walk in zip(numbers, vectors.walks(blocks, True))]

def framed(rest):
    """What follows the length, with that in front."""
    return struct.pack(">I", len(rest)) + rest

def index_of(found):
    return framed(b"\1" + b"".join(struct.pack(">III", *entry) for entry in found))

def parts(index):
    """The bytes of each entry; the last may be cut."""
    return [index[place:place + ENTRY] for place in range(FRONT, len(index), ENTRY)]

def build(file, room):
    """The index, or a refusal: the file, the room, in this order."""
    return vectors.fits(index_of(entries(vectors.admit(file, vectors.DSS))), room)

def read(file, index):
    """The blocks, or a refusal: the file, the length, the version, the entries, in this order."""
    blocks, length = vectors.admit(file, vectors.DSS), int.from_bytes(index[:4], "big")
    if len(index) < 4 or length == 0 or length != len(index) - 4:
        raise vectors.Refused(19, 0)
    if index[4] != 1:
        raise vectors.Refused(20, index[4])
    for number, (given, right) in enumerate(zip_longest(parts(index), parts(index_of(entries(blocks))))):
        if given != right:
            raise vectors.Refused(21, number)
    return blocks

def find(file, index, number):
    """The entry of the block that announces the packet."""
    blocks = read(file, index)
    if number >= blocks.announced:
        raise vectors.Refused(18, blocks.announced)
    return next(entry for entry in entries(blocks) if entry[1] <= number < entry[1] + blocks.headers[entry[0]][2])

def packet(file, index, number, room):
    """The packet of the whole reading, alone."""
    find(file, index, number)
    return vectors.fits(vectors.read_dss(file, AMPLE)[number:number + 1], room)

def answers(case, file):
    """The first one stands at 1."""
    unbuilt, index = vectors.attempt(build, b"", file, case.for_index)
    unread, blocks = vectors.attempt(read, NO_BLOCKS, file, case.index)
    unfound, entry = vectors.attempt(find, (0, 0, 0), file, case.index, case.number)
    return [None, *unbuilt, len(index), len(parts(index)), vectors.lent(index, case.for_index, case.for_index),
            *unread, len(entries(blocks)), blocks.announced, *unfound, *entry,
            *vectors.sp_answers(lambda file, room: packet(file, case.index, case.number, room), file, case)]

# Where each call's refusal stands, and by which numbers it is refused somewhere in the list
REFUSALS = {"build_index": (1, {0, 1, 3, 8}), "read_index": (6, {0, 1, 3, 19, 20, 21}), "find_entry": (10, {0, 1, 3, 18, 19, 20, 21}),
            "dss_packet": (15, {0, 1, 3, 8, 18, 19, 20, 21})}

# ---- The kinds of cases: of each, whether a case is of it

def of_file(blocks, file):
    """The file, if it is taken."""
    taken, found = blocks is not NO_BLOCKS, entries(blocks)
    silent = [number for number, h in enumerate(blocks.headers) if h[2] == 0]
    announcing = [h for h in blocks.headers if h[2] > 0]
    return {
        **{f"first byte {magic[0]}": taken and file[:4] == magic for magic in vectors.DSS},
        "bare header": taken and len(file) == blocks.start,
        "nothing announced": silent != [] == found,
        "one announcing block": len(found) == 1,
        "silent blocks between": any(found[0][0] < number < found[-1][0] for number in silent if found),
        "a block of the most packets": any(h[2] == 255 for h in announcing),
        "a start held to its block's front": any(2 * h[1] + 2 * (h[0] >> 7) < 6 for h in announcing),
        "a start at its block's end": any(place == PAYLOAD * (number + 1) for number, _, place in found),
        "numbers above two bytes": any(min(first, place) >= 1 << 16 for _, first, place in found),
        "a part of a block": taken and (len(file) - blocks.start) % BLOCK > 0}

def carried_over(walks, at):
    """How many announcing blocks before number `at` of them the last one stands that has an unswapped read; 0 if none has."""
    return next((back for back, walk in enumerate(reversed(walks[:at]), 1) if walk.count > walk.swap), 0)

def of_packet(blocks, number, given):
    """The packet, if it is handed out."""
    firsts = [first for _, first, _ in entries(blocks)]
    here = vectors.packets(blocks, True)[number] if given else vectors.Packet(bytes(42), 0, 0, 0, True)
    at = sum(first <= number for first in firsts) - 1
    begins, carried = given and number == firsts[at], here.bytes[1] > 0
    back = carried_over(vectors.walks(blocks, True), at) if begins and here.size == 40 else None
    return {
        "packet 0": given and number == 0,
        "the last": given and 0 < number == blocks.announced - 1,
        "the first of a block": begins and number > 0,
        "the last of a block": given and number + 1 in firsts,
        "in the midst of a block": given and number not in firsts and number + 1 not in firsts,
        "carried in its block": given and not begins and here.size == 40 and carried,
        "carried from the block before": back == 1 and carried,
        "carried from many blocks back": (back or 0) > 9 and carried,
        "carried from nowhere": back == 0 and here.count == 40 and not carried,
        "from nowhere, many blocks on": back == 0 and at > 9 and here.count == 40 and not carried,
        "carried from past the end": (back or 0) > 0 and here.count == 40 and not here.whole,
        "partly past the end": given and 0 < here.count < here.size,
        "wholly past the end": given and here.count == 0}

def of_index(blocks, case, unbuilt, unread):
    """The room for an index, and the index that is read."""
    index, right = case.index, index_of(entries(blocks))
    length, follow, spare = int.from_bytes(index[:4], "big"), len(index) - 4, case.for_index - len(right)
    built, ill, differs, over = unbuilt in (0, 8), unread == 19, unread == 21, len(index[FRONT:]) % ENTRY
    short, long = (differs and index[4:most] == right[4:most] for most in (len(index), len(right)))
    return {
        "no room for it": built and case.for_index == 0,
        "one less": built and spare == -1,
        "exactly enough": built and spare == 0,
        "one more": built and spare == 1,
        "ample room": built and spare > 1,
        "under 4 bytes": ill and follow < 0,
        "length 0 of none": ill and length == follow == 0,
        "length 0 of some": ill and length == 0 < follow,
        "length too small": ill and 0 < length < follow,
        "length too large": ill and 0 <= follow < length,
        "an entry differs": differs and len(index) == len(right),
        "an entry cut": short and over > 0,
        "an entry absent": short and over == 0,
        "one too many": long and over == 0,
        "a cut one too many": long and over > 0}

def of_number(number, total, unfound, out):
    """The number, if it is too high."""
    beyond = unfound == 18
    return {
        "none to be found": beyond and total == 0,
        "the total": beyond and number == total > 0,
        "one above it": beyond and number == total + 1 > 1,
        "past four bytes": beyond and number == 1 << 32,
        "18 with no room": beyond and out < 42}

def kinds(case, file, found):
    unbuilt, unread, unfound, refused = (found[place] for place, _ in REFUSALS.values())
    blocks = vectors.admit(file, vectors.DSS) if unbuilt in (0, 8) else NO_BLOCKS
    return {**of_file(blocks, file), **of_packet(blocks, case.number, refused == 0), **of_index(blocks, case, unbuilt, unread),
            **of_number(case.number, blocks.announced, unfound, case.out)}

# ---- The cases; a title's numbers are spelled out

ROOM, NO_ROOM = (106, 65), ((41, 65), (106, 0), (0, 0))  # for a packet: bytes of output, and counts

class File:
    """What the cases of one file share."""
    def __init__(self, title, magic, headers=(), **given):
        self.title, self.magic, self.headers, self.given = title, magic, headers, given
        file = vectors.Case(title, magic, headers, room=0, **given).complete(0)
        self.blocks = vectors.Blocks(file, vectors.usual_start(magic))
        self.index = index_of(entries(self.blocks))

    def case(self, title, number, lent=ROOM, spare=0, index=None):
        """With so much more room for an index than its own takes; its own index is read if no other is given."""
        return packets.case(f"{self.title}, {title}", self.magic, self.headers, number, *lent, **self.given,
                            for_index=max(0, len(self.index) + spare), index=self.index if index is None else index)

    def numbers(self):
        """The first and the last packet of each block, the total, and numbers above it."""
        total = self.blocks.announced
        ends = [first for _, first, _ in entries(self.blocks)] + [total]
        return sorted({*ends, *(end - 1 for end in ends if end > 0), 0, total + 1, 1 << 32})

def as_shown(pattern, magic, count, byte1=3):
    """A letter for each block: it begins unswapped, begins swapped, or is silent."""
    block = {"u": head(byte1, count), "s": head(byte1, count, 0, 1), "-": SILENT}
    return File(f"{vectors.name(magic)}, {count} in a block as {pattern}", magic, [block[letter] for letter in pattern])

def few_blocks():
    for magic in vectors.DSS:
        title = vectors.name(magic)
        yield File(f"{title}, bare header", magic)
        yield File(f"{title}, a part of a block", magic, extra=511)
        yield File(f"{title}, a silent block", magic, [SILENT])
        yield File(f"{title}, silent blocks", magic, [SILENT] * 3, extra=5)
        for count, swap in product((1, 12), (0, 1)):
            yield File(f"{title}, a block of {count}, flag {swap}", magic, [head(3, count, 0, swap)])
        for swap in (0, 1):
            yield File(f"{title}, as a recorder makes it, flag {swap}", magic, vectors.recording(magic, 4, 0, swap))
        for extra in (-1, 0, 12):
            yield File(f"{title}, two blocks, end {extra % BLOCK}", magic, [head(9, 5), head(3, 6)], extra=extra)

def silent_between():
    for i, pattern in enumerate("-u u- -s- u-u s--s --u-s u-s-u us--su".split()):
        yield as_shown(pattern, vectors.DSS[i % 2], 5)

def most_packets():
    yield File("255 in a block", DSS_TWO, [head(3, 255)])
    yield File("255 in each of two", DSS_THREE, [head(3, 255, 0, 1)] * 2)
    yield File("255, silent, 255", DSS_TWO, [head(255, 255), SILENT, head(9, 255, 0, 1)])
    yield File("255, then one in a block", DSS_THREE, [head(3, 255), head(3, 1, 0, 1), head(3, 1)])

def starts():
    for byte1, swap in product((0, 1, 2, 3, 4, 127, 128, 254, 255), (0, 1)):
        yield File(f"start byte {byte1}, flag {swap}", vectors.DSS[swap], [head(byte1, 2, 0, swap), head(byte1, 1, 0, 1 - swap)])

def carried():
    """What is carried to a block's first packet comes from the block before, from one many blocks back, or from nowhere."""
    for pattern in ("s", "us", "uss", "ssus", "u-s-s", "sssssssssssss", "ussssssssssss", "-u-s-sss-ssssssss-su"):
        yield as_shown(pattern, DSS_TWO, 1)
    for pattern, count, byte1 in (("ssssssssssss", 1, 255), ("ss-s", 2, 3), ("susus", 3, 3)):
        yield as_shown(pattern, DSS_THREE, count, byte1)

def past_the_end():
    yield File("more than one block holds", DSS_TWO, [head(3, 14)])
    yield File("more than two blocks hold", DSS_THREE, [head(3, 20, 0, 1), head(44, 13)])
    yield File("from the end on", DSS_TWO, [SILENT, head(255, 3, 0, 1)])
    yield File("from the end on, a block cut", DSS_TWO, [head(3, 2), head(255, 4), SILENT], extra=-1)
    for more in (0, 1, 2, 20, 21, 22):  # the last unswapped read ends with the stream, and for each more it lacks two bytes
        yield File(f"23 from byte {37 + more}, then swapped", DSS_TWO, [head(37 + more, 23), head(3, 3, 0, 1)])

def of_noise():
    for blocks in (1, 6):
        yield File(f"{blocks} blocks of noise", DSS_THREE, length=1536 + BLOCK * blocks + 100, seed=11 * blocks)

def own_indexes():
    """Each file with its own index: at the ends of each block and above all of them, with room and without."""
    for made in chain(few_blocks(), silent_between(), most_packets(), starts(), carried(), past_the_end(), of_noise()):
        spares, without = cycle((0, -1, -len(made.index), 64, 1)), cycle(NO_ROOM)
        for number, room in product(made.numbers(), (True, False)):
            title = f"packet {number}, {'room' if room else 'no room'}"
            yield made.case(title, number, ROOM if room else next(without), next(spares))

def every_packet():
    for made in (as_shown("us-su", DSS_TWO, 4), as_shown("su--us", DSS_THREE, 3, 240)):
        for number in range(made.blocks.announced):
            yield made.case(f"packet {number}", number)

def rooms():
    made = as_shown("u-s", DSS_TWO, 7)
    for i, lent in enumerate(product((0, 1, 41, 42, 43, 84, 106, packets.OUT), (0, 1, 2, 65, packets.COUNTS))):
        yield made.case(f"output {lent[0]}, counts {lent[1]}", i % 14, lent)
    for lent in range(len(made.index) + 5):
        yield made.case(f"{lent} for an index", 3, spare=lent - len(made.index))

def many_blocks():
    """First packets and places of three bytes: with fill 2 every block announces 255, and starts at its end."""
    made = File("260 blocks", DSS_TWO, length=1024 + BLOCK * 260, fill=2)
    for number, spare in zip((0, 254, 255, 65534, 65535, 65536, 65789, 65790, 66299, 66300, 1 << 32), cycle((0, -1, 1, 64))):
        yield made.case(f"packet {number}", number, spare=spare)
    for place in (0, 2, 4, 5, 3108, 3114, 3118, 3124):
        yield made.case(f"byte {place} changed", 65790, index=changed(made.index, place, 1))

# ---- Other indexes

def changed(index, place, mask):
    return index[:place] + bytes([index[place] ^ mask]) + index[place + 1:]

def cut(index):
    """At every byte: with its length as it was, and with another that is right."""
    for long in range(len(index)):
        yield f"cut to {long}", index[:long]
        if long >= 4:
            yield f"cut to {long}, length right", framed(index[4:long])

def flipped(index):
    for place, bit in product(range(len(index)), range(8)):
        yield f"byte {place}, bit {bit}", changed(index, place, 1 << bit)

def lengths(index):
    right = len(index) - 4
    for length in sorted({0, right - 1, right + 1, right + 4, right + ENTRY, right << 8, right << 24, right + (1 << 16), (1 << 32) - 1}):
        yield f"length {length}", struct.pack(">I", length) + index[4:]

def versions(index):
    for version in (0, 2, 3, 49, 128, 255):
        yield f"version {version}", framed(bytes([version]) + index[FRONT:])
        yield f"version {version}, no entry", framed(bytes([version]))
        yield f"version {version}, a byte between", framed(bytes([version, 0]) + index[FRONT:])

def longer(index):
    for more in range(1, 2 * ENTRY + 2):
        yield f"{more} bytes more", index + bytes(more)
        yield f"{more} bytes more, length right", framed(index[4:] + bytes(more))

def other_entries(blocks):
    found, counts, end = entries(blocks), [h[2] for h in blocks.headers], len(blocks.headers)
    yield "silent blocks too", [(block, sum(counts[:block]), PAYLOAD * block) for block in range(end)]
    yield "one that would follow", found + [(end, blocks.announced, PAYLOAD * end)]
    yield "places in the file", [(block, first, blocks.start + BLOCK * block + 6 + place % PAYLOAD) for block, first, place in found]
    yield "places in the payload", [(block, first, place % PAYLOAD) for block, first, place in found]
    yield "packets up to each block's end", [(block, first + counts[block], place) for block, first, place in found]
    yield "counts for packets", [(block, counts[block], place) for block, _, place in found]
    yield "backwards", found[::-1]
    for at, right in enumerate(found):
        yield f"without {at}", found[:at] + found[at + 1:]
        yield f"{at} twice", found[:at + 1] + found[at:]
        yield f"{at} alone", [right]
        for field, (how, by) in product(range(3), (("more", 1), ("less", -1))):
            wrong = [number + by * (place == field) for place, number in enumerate(right)]
            if min(wrong) >= 0:
                yield f"{at} with one {how} at {field}", found[:at] + [wrong] + found[at + 1:]

def wrong_indexes():
    """Every way to be wrong, of two files, and with each a packet that there is or one that there is not, with room or without."""
    three = File("three entries", DSS_TWO, [head(9, 2), SILENT, head(3, 3, 0, 1), head(4, 2)])
    none = File("no entry", DSS_THREE, [SILENT])
    other = File("three others", DSS_TWO, [head(9, 2), SILENT, head(3, 3), head(4, 2)])
    asked = cycle(product((0, 3, 7), (ROOM, *NO_ROOM)))
    for made in (three, none):
        ways = [way(made.index) for way in (cut, flipped, lengths, versions, longer)]
        ways.append((title, index_of(found)) for title, found in other_entries(made.blocks))
        ways.append((f"with that of {one.title}", one.index) for one in (three, none, other))
        for title, index in chain.from_iterable(ways):
            if index != made.index:
                yield made.case(title, *next(asked), index=index)

# ---- Other files, and the order of refusals

def other_files():
    headers = [head(3, 4)] * 2
    index = File("", DSS_TWO, headers).index
    lent = {"index": index, "for_index": len(index)}
    for first, letters in product((0, 1, 2, 3, 6, 7), (b"dss", b"ds2", b"enc", b"dst")):
        yield packets.case(f"magic {first} {letters.decode()}", bytes([first]) + letters, headers, 5, **lent)
    for length in range(6):
        yield packets.case(f"no more than {length}", DSS_TWO, [], 0, length=length, **lent)
    for magic in vectors.DSS:
        start = vectors.usual_start(magic)
        for length in sorted({5, 511, 512, 1023, start - 1, start, start + BLOCK - 1, start + BLOCK}):
            yield packets.case(f"{vectors.name(magic)}, length {length}", magic, headers, 3, length=length, **lent)

def order():
    """Every choice of the causes of a refusal; of an index's, with those that are asked later."""
    made = File("", DSS_THREE, [head(3, 4)] * 2)
    differs = changed(made.index, len(made.index) - 1, 1)
    other = changed(differs, 4, 2)
    indexes = ("right", made.index), ("entry", differs), ("version", other), ("length", changed(other, 0, 1))
    for magic, length, (cause, index), number, out, room in product(
            (DSS_THREE, vectors.DS2_THREE), (2560, 1535), indexes, (7, 8), (42, 41), (29, 28)):
        title = f"order, {vectors.name(magic)}, length {length}, {cause}, packet {number}, output {out}, {room} for an index"
        yield packets.case(title, magic, made.headers, number, out, length=length, index=index, for_index=room)

def chance(count=120):
    dice = random.Random(1).random  # promised to be the same in every version of Python
    roll = lambda sides: int(dice() * sides)
    for i in range(count):
        magic, seed = vectors.DSS[roll(2)], roll(1 << 31)
        headers = [bytearray(h) for h in vectors.recording(magic, 1 + roll(7), 0, roll(2), seed)]
        for _ in range(i % 3 * (1 + roll(5))):
            headers[roll(len(headers))][roll(3)] = roll(256)
        made = File(f"damaged {i % 3}, number {i}", magic, headers, extra=roll(512), seed=seed)
        index = made.index if i % 4 else changed(made.index, roll(len(made.index)), 1 + roll(255))
        lent, spare = (roll(packets.OUT), roll(packets.COUNTS)), roll(80) - 16
        yield made.case("by chance", roll(3 + made.blocks.announced), lent, spare, index)

# ---- The list

GROUPS = own_indexes, every_packet, rooms, many_blocks, wrong_indexes, other_files, order, chance

def in_numbers(index):
    """An index as the list has it."""
    filled = index + bytes(max(FRONT - len(index), (FRONT - len(index)) % 4))
    follow = (len(filled) - FRONT) // 4
    length, version, *rest = struct.unpack(f">IB{follow}I", filled)
    return [len(index), length, version, follow, *rest]

def entry(number, case, found):
    """As in the list of test_packets, but for what is asked more."""
    lines = packets.entry(number, case, found, set()).split("\n")
    lines[2] = " ".join(map(str, [lines[2], case.for_index, *in_numbers(case.index)]))
    return "\n".join(lines)

def main():
    cases = [case for group in GROUPS for case in group()]
    files = [case.complete(number) for number, case in enumerate(cases, 1)]
    assert len({case.title for case in cases}) == len(cases)
    assert all(case.out <= packets.OUT and case.counts <= packets.COUNTS and case.length <= FILE for case in cases)
    assert all(max(case.for_index, len(case.index)) <= INDEX for case in cases)
    every = list(map(answers, cases, files))
    lines = list(map(entry, range(1, len(cases) + 1), cases, every))
    refusals = collections.Counter(f"{call} {found[place]}" for call, (place, _) in REFUSALS.items() for found in every)
    told = list(map(kinds, cases, files, every))
    sorts = {sort: sum(of[sort] for of in told) for sort in told[0]}
    packets.summary(lines, refusals, sorts)
    assert set(refusals) == {f"{call} {number}" for call, (_, given) in REFUSALS.items() for number in given} and all(sorts.values())
    sys.stdout.write("".join(lines))

if __name__ == "__main__":
    main()
