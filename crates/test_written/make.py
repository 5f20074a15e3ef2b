#!/usr/bin/env python3
"""Makes the list of headers and packets for the writer of DS2 SP files: make.py > stdin

Every run writes the same bytes. The script lays out the cases and works out every answer by a model of its own of what a written file is
(docs/FORMAT.md): it reads neither the project's code nor the Rust's, which has no writer. It stops if some refusal that it tries never comes.
Refusal 17 is not tried: its packets, over 271 million bytes, are more memory than a program of the language has. It is tried elsewhere.

The list is text: a number is a run of digits, and every other byte stands between numbers. A case has a title without digits, and two lines:

- Its number, from 1 on; the header's first four bytes and its length; how many bytes of packets there are; what is put at byte 40 of two
  packets (0: neither), and which they are; how many bytes are lent for the file.
- The answers: the refusal and the number beside it (0 and 0 for none), the file's length (0 if refused), and a digest of all that was lent;
  and of the file's whole reading a digest of the counts, 42 and 40 in turn (0 if refused). Its packets are those that were written.

The header's bytes from 4 on are noise of the case's number, and the packets noise of the next: the state, which is that number at first,
goes to state * 1103515245 + 12345 modulo 2^31 before each byte, and the byte is state / 65536 modulo 256. Byte 40 of a packet is 0 but where
it is put. Lent bytes are 165 before the call. A digest begins with 0, and takes a number v more by (digest * 1000003 + v + 1) modulo 2^43.
"""
import collections
import random
import sys

HEADER, BLOCK, HEAD, PACKET = 1536, 512, 6, 42
PAYLOAD = BLOCK - HEAD
ONE, THREE = b"\x01ds2", b"\x03ds2"

# ---- What a written file is

class Refused(Exception):
    """A refusal: its number and the number beside it."""

def read_of(number, packets):
    """The bytes of the payload stream that give a packet."""
    x = packets[number]
    if number % 2:
        return bytes(x[j - 1] if j % 2 else x[j + 3] for j in range(40))
    following = packets[number + 1][1] if number + 1 < len(packets) else 0
    return x[:40] + bytes([following]) + x[41:]

def block_of(place, stream, starts):
    """The block whose payload begins at a place of the stream; `starts` has where each packet's read begins."""
    here = [(start - place, number) for number, start in enumerate(starts) if 0 <= start - place < PAYLOAD]
    head = [0x0F, 0, 0, 0xFF, 0, 0xFF]
    if here:
        first, number = here[0]
        head[:3] = 0x8F if number % 2 else 0x0F, 3 + first // 2, len(here)
    return bytes(head) + stream[place:place + PAYLOAD].ljust(PAYLOAD, b"\0")

def file_of(header, packets):
    reads = [read_of(number, packets) for number in range(len(packets))]
    starts = [sum(map(len, reads[:number])) for number in range(len(reads))]
    assert starts == [41 * number + number % 2 for number in range(len(reads))]
    stream = b"".join(reads)
    return header + b"".join(block_of(place, stream, starts) for place in range(0, len(stream), PAYLOAD))

def write(header, joined, room):
    """The file, or a refusal: the header, the packets, the room, in this order."""
    if len(header) != HEADER or header[:4] not in (ONE, THREE):
        raise Refused(15, 0)
    packets = [joined[place:place + PACKET] for place in range(0, len(joined), PACKET)]
    for number, packet in enumerate(packets):
        if len(packet) < PACKET or packet[40] != 0:
            raise Refused(16, number)
    file = file_of(header, packets)
    if len(file) > room:
        raise Refused(8, len(file))
    return file

# ---- A case, and its answers

# `value` is what stands at byte 40 of the packets `one` and `other`
Case = collections.namedtuple("Case", "title magic long whole more value one other room")

def case(title, magic=ONE, long=HEADER, whole=5, more=0, value=0, one=0, other=None, room=None, spare=0):
    """A case with so many bytes of room, or with so many more than its file takes."""
    if room is None:
        blocks = -(-(41 * whole + whole % 2) // PAYLOAD)
        room = HEADER + BLOCK * blocks + spare
    return Case(title, magic, long, whole, more, value, one, one if other is None else other, room)

def noise(state, count):
    made = bytearray()
    for _ in range(count):
        state = (state * 1103515245 + 12345) % (1 << 31)
        made.append(state >> 16 & 255)
    return made

def digest(numbers):
    found = 0
    for number in numbers:
        found = (found * 1000003 + number + 1) % (1 << 43)
    return found

def header_of(case, seed):
    return (case.magic + bytes(noise(seed, case.long))[4:])[:case.long]

def packets_of(case, seed):
    joined = noise(seed + 1, PACKET * case.whole + case.more)
    for place in range(40, len(joined), PACKET):
        joined[place] = case.value if place // PACKET in (case.one, case.other) else 0
    return bytes(joined)

def answers(case, seed):
    file, refusal = b"", (0, 0)
    try:
        file = write(header_of(case, seed), packets_of(case, seed), case.room)
    except Refused as refused:
        refusal = refused.args
    counts = [40 if number % 2 else 42 for number in range(case.whole)] if file else []
    return [*refusal, len(file), digest(file.ljust(case.room, b"\xA5")), digest(counts)]

# ---- The cases

# none; one or two; one block, full but for its end; one that ends in a block in which none starts; exactly three blocks; one more, swapped,
# at the front of a block; as many as there are places in a payload, in exactly 41 blocks
SIZES = ("none", 0), ("one", 1), ("two", 2), ("one block", 12), ("none starts in the last block", 13), ("three blocks", 37), \
        ("a swapped one first in a block", 38), ("many", 506)

def sizes():
    for title, whole in SIZES:
        for spare, how in ((0, "exact room"), (-1, "room one short"), (1, "room one over"), (700, "ample room")):
            yield case(f"{title}, {how}", THREE if whole % 2 else ONE, whole=whole, spare=spare)

def chance(count=20):
    dice = random.Random(1).random  # promised to be the same in every version of Python
    roll = lambda sides: int(dice() * sides)
    for _ in range(count):
        yield case("some", (ONE, THREE)[roll(2)], whole=roll(601), spare=roll(1000))

def headers():
    for long in (0, 1, 3, 4, 1535, 1537, 2048):
        yield case("header of another length", long=long)
    for first in (0, 2, 6, 7, 49, 129, 255):
        yield case("another first byte", bytes([first]) + b"ds2")
    for magic in (b"\x01ts2", b"\x01dt2", b"\x03dst", b"\x01DS2", b"\x03dss", b"\x02dss", b"\x03enc", b"\x012sd"):
        yield case("other letters", magic)

def cut_packets():
    for cut in range(1, PACKET):
        yield case("the last packet cut", THREE if cut % 2 else ONE, whole=cut % 16, more=PACKET - cut, spare=BLOCK)

def marked_packets():
    for whole in (1, 2, 13, 38, 500):
        for title, number in (("first", 0), ("middle", whole // 2), ("last", whole - 1)):
            for value in (1, 128, 255):
                yield case(f"byte set in the {title} packet", THREE, whole=whole, value=value, one=number)
    for one, other in ((0, 1), (3, 9), (9, 3), (11, 12), (12, 0)):
        yield case("byte set in two packets", whole=13, value=7, one=one, other=other)
    for more, one in ((41, 12), (41, 13), (40, 0), (40, 12), (41, 5), (1, 5), (1, 0)):
        yield case("byte set, and the last packet cut", whole=13, more=more, value=9, one=one, room=4096)

def rooms():
    for whole, room in ((0, 0), (0, 1), (1, 0), (1, 1535), (1, 1536), (13, 2048), (13, 2559), (300, 4096), (600, 26623)):
        yield case("too little room", whole=whole, room=room)

def order():
    """Every choice of the three causes, each of two sorts or none."""
    for magic, long in ((ONE, HEADER), (ONE, HEADER - 1), (b"\x07ds2", HEADER)):
        for more, value in ((0, 0), (20, 0), (0, 1)):
            for spare in (0, -1, -600):
                yield case("order of causes", magic, long, 13, more, value, 4, spare=spare)

# ---- The list

GROUPS = sizes, chance, headers, cut_packets, marked_packets, rooms, order

def entry(number, case, found):
    lent = [number, *case.magic, case.long, PACKET * case.whole + case.more, case.value, case.one, case.other, case.room]
    lines = [case.title], lent, found, []
    return "".join(" ".join(map(str, line)) + "\n" for line in lines)

def main():
    cases = [case for group in GROUPS for case in group()]
    every = [answers(case, number) for number, case in enumerate(cases, 1)]
    counts = collections.Counter(found[0] for found in every)
    print(f"{len(cases)} cases, refusals:", ", ".join(f"{number} in {counts[number]}" for number in sorted(counts)), file=sys.stderr)
    assert set(counts) == {0, 8, 15, 16}
    for number, (case, found) in enumerate(zip(cases, every), 1):
        assert not any(letter.isdigit() for letter in case.title)
        sys.stdout.write(entry(number, case, found))

if __name__ == "__main__":
    main()
