#!/usr/bin/env python3
"""Compares an intake program with its description: intake_test.py PROGRAM [RUNNER].

The expected line, packets file and exit status come from a model written here from the format's description (docs/FORMAT.md); it knows
nothing of the library, nor of pieces. The sentences of refusals are the header's, and the text of --help is the C program's. Every
recording is read in pieces of several sizes, and through a pipe. Prints how many runs there were, and how many of them were wrong.
"""
import os
import random
import re
import resource
import shutil
import subprocess
import sys
import tempfile
import time

BLOCK, HEAD, PAYLOAD, LIMIT = 512, 6, 506, 268435456
COMPLETE, INCOMPLETE, REFUSED, FAILED, WRONG_USE = 0, 1, 3, 4, 64
PIECES = (1, 7, 512, None, 100000)  # None: no argument, which means 4096
LONG = 20000  # a longer recording is not read byte by byte, which takes long under an emulator
LEFT = b"left over" * 20000  # what is in the packets file before
NOBODY = 65534  # a user who may read only what all may


def source(name):
    with open(os.path.join(os.path.dirname(os.path.abspath(__file__)), name), encoding="utf-8") as f:
        return f.read()


def literals(text, begin, end):
    """The strings of C between two marks."""
    part = text[text.index(begin) + len(begin):]
    return [bytes(s, "ascii").decode("unicode_escape") for s in re.findall(r'"((?:[^"\\]|\\.)*)"', part[:part.index(end)])]


def sentences(header):
    """By its number, a refusal's sentence and the names of the numbers that stand in it."""
    numbers = dict(re.findall(r"\bKLOV_REFUSED_(\w+) = (\d+)", header))
    found = re.findall(r'case KLOV_REFUSED_(\w+):\s+return snprintf\(text, room, "(.*)"((?:, \w+)*)\);', header)
    return {int(numbers[name]): (text, re.findall(r"\w+", given)) for name, text, given in found}


SENTENCES = sentences(source("../../include/klovdrun.h"))
HELP = "".join(literals(source("intake.c"), "help[] =", ";\n\n"))


# The model: what a recording holds.

def good(data, place):
    h = data[place:place + HEAD]
    return len(h) == HEAD and h[0] == 0x0F and h[3] == 0xFF and h[5] == 0xFF and h[2] > 0 and h[4] in (0, 1, 2, 3, 6, 7)


def audio_start(data):
    if data[1:4] == b"dss":
        return 512 * data[0]
    if data[0] != 7:
        return 0x600
    best, best_score = 0x1000, 0
    for place in range(BLOCK, min(0x10000, max(0, len(data) - HEAD)) + 1, BLOCK):
        score = 0
        while score < 16 and good(data, place + BLOCK * score):
            score += 1
        if score >= 4:
            return place
        if score > best_score:
            best, best_score = place, score
    return best


class Refused(Exception):
    """A refusal's numbers: its own, the one beside it, and of a record that cannot be read its size and how many bytes are absent."""

    def __init__(self, number, beside, size=0, absent=0):
        super().__init__(number, beside, size, absent)


class Recording:
    """Headers and payload stream of a recording that is not refused by 1, 2 or 3."""

    def __init__(self, data):
        magic = data[:4]
        if magic not in (b"\x02dss", b"\x03dss", b"\x01ds2", b"\x03ds2", b"\x07ds2"):
            raise Refused(1, 0)
        if len(data) > LIMIT:
            raise Refused(2, LIMIT)
        start = audio_start(data)
        if len(data) < start:
            raise Refused(3, start)
        self.dss = magic[1:] == b"dss"
        self.cut = (len(data) - start) % BLOCK
        blocks = [data[p:p + BLOCK] for p in range(start, len(data) - BLOCK + 1, BLOCK)]
        self.heads = [b[:HEAD] for b in blocks]
        self.stream = b"".join(b[HEAD:] for b in blocks)
        self.announced = sum(h[2] for h in self.heads)
        self.type = 0 if self.dss else next((h[4] for h in self.heads if h[2] > 0), 0)


def runs(rec):
    """SP: the runs of reads, each a start, whether its first read is swapped, and how many reads."""
    if not rec.dss:
        return [(0, rec.heads[0][0] >= 0x80, rec.announced)] if rec.heads else []
    return [(PAYLOAD * i + min(PAYLOAD, max(0, 2 * h[1] + 2 * (h[0] >> 7) - 6)), h[0] >= 0x80, h[2])
            for i, h in enumerate(rec.heads) if h[2] > 0]


def reads(run):
    place, swapped, count = run
    for _ in range(count):
        size = 40 if swapped else 42
        yield place, size
        place += size
        swapped = not swapped


def sp_packets(rec):
    """The packets, and which of them are short: of whose reads, or of the byte that is carried to a swapped one, some are not in the stream."""
    packets, short, carry = [], [], b""
    for run in runs(rec):
        for place, size in reads(run):
            stored = rec.stream[place:place + size]
            if len(stored) < size or (size == 40 and not carry):
                short.append(len(packets))
            c = stored + bytes(size - len(stored))
            if size == 42:
                packets.append(c[:40] + b"\0" + c[41:])
                carry = stored[40:41]
                continue
            packet = bytearray(42)
            packet[0:40:2] = c[1::2]
            packet[1:2] = carry or b"\0"
            packet[3:42:2] = c[0::2]
            packets.append(bytes(packet))
    return packets, short


def sp_owed(rec):
    """DS2: packets whose reads are not complete. DSS: all packets from the first block on that has such a read."""
    owed = 0
    for run in runs(rec):
        missing = sum(1 for place, size in reads(run) if place + size > len(rec.stream))
        if rec.dss:
            owed += run[2] if missing or owed else 0
        else:
            owed += missing
    return owed


def frames_start(rec, i):
    return PAYLOAD * i + max(0, 2 * rec.heads[i][1] - 6)


def qp_frames(rec):
    segments, start, place, count = [], 0, 0, 0
    for i, h in enumerate(rec.heads):
        if i == 0 or frames_start(rec, i) != place:
            segments.append((start, place, count))
            start = place = frames_start(rec, i)
            count = 0
        count += h[2]
        place += 56 * h[2]
    segments.append((start, place, count))
    frames = []
    for start, end, count in segments:
        part = rec.stream[start:end] if count > 0 else b""
        frames += [part[p:p + 56] for p in range(0, len(part), 56)]
    return frames, [n for n, f in enumerate(frames) if len(f) < 56]


def qp7_records(rec):
    records, place = [], 0
    for i, h in enumerate(rec.heads):
        place = max(place, PAYLOAD * (i + 1) if h[2] == 0 else frames_start(rec, i))
        for _ in range(h[2]):
            there = max(0, len(rec.stream) - place)
            if there < 2:
                raise Refused(4, place, 0, 2 - there)
            size = 56 if rec.stream[place + 1] & 0x80 else 12
            if there < size:
                raise Refused(5, place, size, size - there)
            records.append(rec.stream[place:place + size])
            place += size
    return records


def in_ranges(numbers):
    spans = []
    for n in numbers:
        if spans and spans[-1][1] == n - 1:
            spans[-1][1] = n
        else:
            spans.append([n, n])
    return " ".join(str(a) if a == b else f"{a}-{b}" for a, b in spans)


def refused(number, beside, size=0, absent=0):
    """The line of a refusal; of a record that cannot be read it tells how much is missing, too."""
    told = {"beside": beside, "size": size, "absent": absent}
    numbers = [number, beside, size, absent] if number in (4, 5) else [number, beside]
    text, names = SENTENCES[number]
    sentence = text.replace("%llu", "%d") % tuple(told[name] for name in names)
    return f"refused {' '.join(map(str, numbers))}: {sentence}\n"


def expected(data):
    """The line, the packets file, if there is one, and the exit status."""
    try:
        rec = Recording(data)
        if rec.type == 7:
            unit, parts, short, owed = "records", qp7_records(rec), [], 0
        elif rec.type >= 6:
            parts, short = qp_frames(rec)
            unit, owed = "frames", rec.announced - len(parts)
        else:
            parts, short = sp_packets(rec)
            unit, owed = "packets", sp_owed(rec)
    except Refused as r:
        return refused(*r.args), None, REFUSED
    if rec.cut == 0 and len(parts) == rec.announced and not short:
        return f"complete as announced: {len(parts)} {unit}\n", b"".join(parts), COMPLETE
    which = f": {in_ranges(short)}" if short else ""
    line = f"incomplete: {len(parts)} {unit}, {rec.cut} bytes of a cut block, {owed} frames owed, {len(short)} short{which}\n"
    return line, b"".join(parts), INCOMPLETE


# The recordings.

class Maker:
    """Makes recordings from a fixed seed."""

    def __init__(self, seed):
        self.rng = random.Random(seed)

    def payload(self):
        return bytes(self.rng.randrange(256) for _ in range(PAYLOAD))

    def block(self, count, byte1=3, flag=0x0F, kind=0, payload=None):
        return bytes((flag, byte1, count, 0xFF, kind, 0xFF)) + (self.payload() if payload is None else payload)

    def file(self, magic, start, *blocks, tail=b""):
        filler = bytes(self.rng.randrange(1, 256) for _ in range(start - 4))
        if magic[0] == 7:
            filler = bytes(start - 4)
        return magic + filler + b"".join(blocks) + tail

    def continuous(self, blocks, dss, swapped=False, kind=0):
        """SP blocks as a recorder makes them: the reads of one run, each announced by the block in which it begins."""
        made, place = [], 0
        for i in range(blocks):
            first, flag, count = place - PAYLOAD * i, swapped, 0
            while place < PAYLOAD * (i + 1):
                place += 40 if swapped else 42
                swapped = not swapped
                count += 1
            byte1 = (first + 6 - (2 if flag else 0)) // 2
            made.append(self.block(count, byte1 if dss or not flag else byte1 + 1, 0x8F if flag else 0x0F, kind))
        return made

    def recorded(self, kind, dss=False, blocks=100):
        """Blocks of any kind as a recorder makes them, with all that they announce."""
        n = PAYLOAD * blocks // 12
        sizes = {6: [56] * n, 7: self.rng.choices((12, 56), k=n)}.get(kind, [42, 40] * n)
        stream = bytearray(self.rng.randrange(256) for _ in range(PAYLOAD * blocks))
        made = []
        for first, which, count in laid(sizes, blocks):
            swapped = kind < 6 and which % 2 == 1
            byte1 = (first + 6 - (2 if dss and swapped else 0)) // 2
            made.append((0x8F if swapped else 0x0F, byte1, count))
        if kind == 7:
            place = 0
            for size in sizes[:sum(count for _, _, count in made)]:
                stream[place + 1] = stream[place + 1] % 128 + (128 if size == 56 else 0)
                place += size
        payloads = [bytes(stream[PAYLOAD * i:PAYLOAD * (i + 1)]) for i in range(blocks)]
        return [self.block(count, byte1, flag, kind, payload) for (flag, byte1, count), payload in zip(made, payloads)]

    def records(self, count):
        """QP7 records joined; about half of them long."""
        made = b""
        for _ in range(count):
            long = self.rng.random() < 0.5
            rest = bytes(self.rng.randrange(256) for _ in range(54 if long else 10))
            made += bytes((self.rng.randrange(256), self.rng.randrange(128) + (128 if long else 0))) + rest
        return made


def laid(sizes, blocks):
    """Items without a gap, as many as fit: of each block where in it its first item begins, which one that is, and how many begin in it."""
    made, item, place = [], 0, 0
    for i in range(blocks):
        first, which = place - PAYLOAD * i, item
        while place < PAYLOAD * (i + 1) and place + sizes[item] <= PAYLOAD * blocks:
            place += sizes[item]
            item += 1
        made.append((first, which, item - which))
    return made


def ds2_named(m):
    blocks = m.continuous(5, dss=False)
    swapped = m.continuous(4, dss=False, swapped=True)
    silent = [m.block(0) for _ in range(30)]
    yield "ds2 complete", m.file(b"\x01ds2", 1536, *m.continuous(41, dss=False))
    yield "ds2 complete, first byte 3", m.file(b"\x03ds2", 1536, m.block(12), m.block(12), m.block(12))
    yield "ds2 owed", m.file(b"\x01ds2", 1536, *blocks)
    yield "ds2 swapped first", m.file(b"\x01ds2", 1536, *swapped)
    yield "ds2 swapped by a silent first block", m.file(b"\x03ds2", 1536, m.block(0, flag=0x8F), m.block(24))
    yield "ds2 not swapped by a later block", m.file(b"\x03ds2", 1536, m.block(0), m.block(26, flag=0x8F))
    yield "ds2 cut block", m.file(b"\x01ds2", 1536, *blocks, tail=blocks[1][:311])
    yield "ds2 cut block, nothing owed", m.file(b"\x01ds2", 1536, m.block(4), tail=m.block(9)[:511])
    yield "ds2 cut block of one byte, silent", m.file(b"\x01ds2", 1536, m.block(0), tail=b"\x0f")
    yield "ds2 one short", m.file(b"\x01ds2", 1536, m.block(13))
    yield "ds2 many short", m.file(b"\x01ds2", 1536, m.block(255), m.block(255))
    yield "ds2 40 of an unswapped read", m.file(b"\x01ds2", 1536, *[m.block(n) for n in (255, 1, 1)], tail=b"1234")
    yield "ds2 23 silent blocks", m.file(b"\x01ds2", 1536, *silent[:23], m.block(255))
    yield "ds2 24 silent blocks", m.file(b"\x01ds2", 1536, *silent[:24], m.block(255))
    yield "ds2 25 silent blocks", m.file(b"\x01ds2", 1536, *silent[:25], m.block(255))
    yield "ds2 25 silent blocks, nothing else", m.file(b"\x03ds2", 1536, *silent[:25])
    yield "ds2 31 silent blocks, swapped, cut", m.file(b"\x03ds2", 1536, m.block(0, flag=0x9F), *silent, m.block(255), tail=b"tail")
    yield "ds2 packets, then 30 silent blocks", m.file(b"\x01ds2", 1536, *blocks, *silent, m.block(255))
    yield "ds2 packets, then 30 silent blocks, swapped", m.file(b"\x01ds2", 1536, *swapped, *silent, m.block(255))
    yield "ds2 types 4 and 5", m.file(b"\x01ds2", 1536, m.block(12, kind=5), m.block(13, kind=7))
    yield "ds2 type 6 later", m.file(b"\x01ds2", 1536, m.block(0, kind=6), m.block(12), m.block(13, kind=6))
    yield "ds2 bare header", m.file(b"\x01ds2", 1536)
    yield "ds2 cut header", m.file(b"\x03ds2", 1535)
    yield "ds2 magic alone", b"\x01ds2"
    yield "ds2 60 blocks", m.file(b"\x01ds2", 1536, *m.continuous(60, dss=False))


def dss_named(m):
    recorder = m.continuous(6, dss=True)
    held = [m.block(40), m.block(3), m.block(2, flag=0x8F), m.block(0)]
    yield "dss complete, 2", m.file(b"\x02dss", 1024, m.block(12), m.block(6, byte1=100), m.block(0))
    yield "dss complete, 3", m.file(b"\x03dss", 1536, m.block(12), m.block(1, byte1=2))
    yield "dss as a recorder makes it", m.file(b"\x02dss", 1024, *recorder, m.block(0))
    yield "dss owed", m.file(b"\x03dss", 1536, *recorder)
    yield "dss cut block", m.file(b"\x02dss", 1024, *recorder, tail=recorder[2][:200])
    yield "dss held-back blocks", m.file(b"\x02dss", 1024, *held)
    yield "dss held-back blocks let go", m.file(b"\x02dss", 1024, *held, m.block(0))
    yield "dss held back, later ones short", m.file(b"\x02dss", 1024, m.block(60), m.block(5), m.block(20), m.block(1, byte1=250))
    yield "dss short here and there", m.file(b"\x03dss", 1536, m.block(26), m.block(12, byte1=40, flag=0x8F), m.block(3))
    yield "dss 40 of an unswapped read", m.file(b"\x02dss", 1024, m.block(1, byte1=236))
    yield "dss 40 of a swapped read", m.file(b"\x02dss", 1024, m.block(1, byte1=235, flag=0x8F))
    yield "dss short, whole, short", m.file(b"\x02dss", 1024, m.block(25), m.block(2, byte1=225))
    yield "dss ranges", m.file(b"\x02dss", 1024, m.block(1, byte1=236), m.block(14), m.block(12), m.block(3, byte1=220))
    yield "dss start at 506", m.file(b"\x02dss", 1024, m.block(2, byte1=255, flag=0x8F), m.block(2, byte1=0))
    yield "dss 255 a block", m.file(b"\x02dss", 1024, *[m.block(255, flag=0x0F + 128 * (i % 2)) for i in range(24)])
    yield "dss 40 silent blocks", m.file(b"\x02dss", 1024, *[m.block(0) for _ in range(40)], m.block(3))
    yield "dss bare header", m.file(b"\x02dss", 1024)
    yield "dss cut header", m.file(b"\x03dss", 1535)
    yield "dss cut header, 2", m.file(b"\x02dss", 1023)
    yield "dss magic alone", b"\x02dss"


def qp_named(m):
    def blocks(*heads, kind=6):
        return [m.block(count, byte1, kind=kind) for byte1, count in heads]
    yield "qp complete", m.file(b"\x01ds2", 1536, *blocks((3, 9), (3, 9), (3, 9)))
    yield "qp short and missing", m.file(b"\x01ds2", 1536, *blocks((3, 12)))
    yield "qp missing, none short", m.file(b"\x01ds2", 1536, *blocks((4, 10)))
    yield "qp one segment over blocks", m.file(b"\x03ds2", 1536, *blocks((3, 10), (30, 9), (29, 8)))
    yield "qp two segments", m.file(b"\x03ds2", 1536, *blocks((3, 9), (3, 9), (200, 3)))
    yield "qp short inside", m.file(b"\x03ds2", 1536, *blocks((3, 9), (100, 255), (5, 0), (255, 1)))
    yield "qp missing by far", m.file(b"\x01ds2", 1536, *blocks((3, 255), (3, 255)), tail=b"12345")
    yield "qp type 8", m.file(b"\x01ds2", 1536, *blocks((3, 9), (3, 8), kind=8))
    yield "qp type 255", m.file(b"\x01ds2", 1536, *blocks((3, 10), kind=255))
    yield "qp that starts like sp", m.file(b"\x01ds2", 1536, m.block(0), m.block(0), *blocks((3, 9), (3, 9)), m.block(12))
    yield "qp after 23 silent blocks", m.file(b"\x01ds2", 1536, *[m.block(0) for _ in range(23)], *blocks((3, 9)))
    yield "qp after 24 silent blocks", m.file(b"\x01ds2", 1536, *[m.block(0) for _ in range(24)], *blocks((3, 9)))
    yield "qp after 25 silent blocks", m.file(b"\x01ds2", 1536, *[m.block(0) for _ in range(25)], *blocks((3, 10)))
    yield "qp swapped flag", m.file(b"\x01ds2", 1536, m.block(255, flag=0x8F, kind=6), m.block(1, kind=0))
    yield "qp cut block", m.file(b"\x01ds2", 1536, *blocks((3, 9)), tail=b"\x0f" * 6)


def qp7_named(m):
    def joined(stream, *counts):
        stream += bytes(-len(stream) % PAYLOAD)
        return [m.block(c, payload=stream[PAYLOAD * i:PAYLOAD * (i + 1)], kind=7) for i, c in enumerate(counts)]
    long = b"\x01\x80" + b"\x55" * 54
    yield "qp7 complete", m.file(b"\x01ds2", 1536, *joined(m.records(9), 9))
    yield "qp7 over blocks", m.file(b"\x03ds2", 1536, *joined(m.records(40), 20, 10, 9, 1, 0, 0, 0, 0))
    two = joined(m.records(8), 8), joined(m.records(7), 7)
    yield "qp7 segments", m.file(b"\x03ds2", 1536, *two[0], m.block(0, kind=7), *two[1], tail=b"x")
    yield "qp7 second bytes 80 and 7F", m.file(b"\x03ds2", 1536, *joined(long + b"\x02\x7f" + b"\xaa" * 10 + long, 3))
    yield "qp7 refused 5", m.file(b"\x01ds2", 1536, *joined(long * 10, 10)[:1])
    yield "qp7 refused 4", m.file(b"\x01ds2", 1536, m.block(10, 4, kind=7, payload=b"\0\0" + long * 9))
    yield "qp7 refused 4 by far", m.file(b"\x03ds2", 1536, m.block(9, kind=7), m.block(255, 255, kind=7))
    yield "qp7 all refused late", m.file(b"\x03ds2", 1536, *joined(m.records(30), 9, 9, 255))
    yield "qp7 after silence", m.file(b"\x03ds2", 1536, m.block(0), *joined(m.records(9), 9))


def seven_named(m):
    quiet = bytes(510)
    yield "magic 7 sp", m.file(b"\x07ds2", 2048, *m.continuous(6, dss=False))
    yield "magic 7 sp short", m.file(b"\x07ds2", 512, m.block(12), m.block(12), m.block(12), m.block(14), tail=b"abc")
    yield "magic 7 sp swapped", m.file(b"\x07ds2", 2048, m.block(13, flag=0x8F), *[m.block(12) for _ in range(4)])
    yield "magic 7 qp", m.file(b"\x07ds2", 3072, *[m.block(9, kind=6) for _ in range(4)], m.block(10, kind=6))
    yield "magic 7 qp7", m.file(b"\x07ds2", 1536, m.block(9, kind=7, payload=(m.records(9) + bytes(506))[:506]))
    yield "magic 7 best score", m.file(b"\x07ds2", 1024, m.block(1), bytes(512), m.block(2), m.block(3), bytes(512), m.block(1))
    yield "magic 7 no header", m.file(b"\x07ds2", 4096)
    yield "magic 7 no header, short", m.file(b"\x07ds2", 4095)
    yield "magic 7 silent", m.file(b"\x07ds2", 4096, m.block(0), tail=quiet)


def other_named(m):
    yield "empty file", b""
    yield "3 bytes", b"\x01ds"
    yield "3 bytes of dss", b"\x02ds"
    yield "first byte 6", m.file(b"\x06dss", 1536, m.block(3))
    yield "first byte 2 of ds2", m.file(b"\x02ds2", 1536, m.block(3))
    yield "first byte 1 of dss", m.file(b"\x01dss", 1536, m.block(3))
    yield "encrypted", m.file(b"\x03enc", 1536, m.block(3))
    yield "text", b"a text of more than four bytes"


def carried_named(m):
    """Recordings in which a byte is carried to a swapped packet, or none is."""
    def ds2(*blocks, tail=b"", magic=b"\x01ds2"):
        return m.file(magic, 1536, *[m.block(count, flag=flag) for flag, count in blocks], tail=tail)

    def dss(*blocks, tail=b""):
        return m.file(b"\x02dss", 1024, *[m.block(count, byte1, flag) for flag, byte1, count in blocks], tail=tail)

    silent = [(0x0F, 0)] * 30
    yield "carried, ds2 swapped block", ds2((0x8F, 12))
    yield "carried, ds2 begins swapped, else complete", ds2((0x8F, 13), (0x0F, 12), (0x0F, 12), magic=b"\x03ds2")
    yield "carried, ds2 begins swapped, one packet", ds2((0x8F, 1))
    yield "carried, ds2 begins swapped, owed", ds2((0x8F, 13))
    yield "carried, ds2 begins swapped, cut block", ds2((0x8F, 12), tail=b"\x0f" * 300)
    yield "carried, ds2 begins swapped, cut block, owed", ds2((0x8F, 26), tail=b"\x0f" * 300)
    yield "carried, ds2 swapped by a silent block", ds2((0x8F, 0), (0x0F, 24))
    yield "carried, ds2 swapped and without packets", ds2((0x8F, 0), (0x8F, 0))
    yield "carried, ds2 not swapped by a later block", ds2((0x0F, 1), (0x8F, 23))
    yield "carried, dss after a cut read", dss((0x0F, 3, 255), (0x8F, 3, 1))
    yield "carried, dss swapped first and last", dss((0x8F, 3, 1), (0x0F, 3, 1), (0x8F, 3, 1))
    yield "carried, dss blocks of one swapped packet", dss((0x8F, 3, 1), (0x8F, 90, 1), (0x8F, 3, 1), (0x8F, 3, 12), (0x8F, 3, 1))
    yield "carried, dss blocks of one swapped packet alone", dss((0x8F, 3, 1), (0x8F, 3, 0), (0x8F, 3, 1), (0x0F, 3, 0))
    yield "carried, dss begins swapped, cut block", dss((0x8F, 3, 1), (0x8F, 3, 1), tail=b"\x8f\3\1")
    yield "carried, dss begins swapped, owed", dss((0x8F, 3, 1), (0x8F, 3, 13))
    yield "carried, dss not swapped by a silent block", dss((0x8F, 3, 0), (0x0F, 3, 12))
    yield "carried, dss from block to block", dss((0x0F, 3, 1), (0x8F, 3, 1), (0x8F, 200, 1), (0x8F, 3, 0), (0x8F, 3, 12), (0x8F, 3, 1))
    yield "carried, dss 40 of an unswapped read before", dss((0x0F, 38, 23), (0x8F, 3, 1))
    yield "carried, dss a swapped read is cut before", dss((0x0F, 18, 24), (0x8F, 3, 1))
    yield "carried, dss after a cut read, and again", dss((0x0F, 3, 25), (0x8F, 3, 3))
    yield "carried, dss after a cut read, earlier and later", dss((0x0F, 3, 63), (0x8F, 3, 1), (0x8F, 250, 1), (0x8F, 100, 1), (0x0F, 3, 2))
    yield "carried, refused by 7, begins swapped", ds2((0x8F, 12), *silent)
    yield "carried, refused by 7, begins swapped, owed", ds2((0x8F, 13), (0x0F, 12), *silent, *[(0x0F, 255)] * 5)
    yield "carried, refused by 7, swapped by a silent block, owed", ds2((0x8F, 0), *silent[:25], (0x0F, 255), (0x0F, 255), tail=b"cut")
    yield "carried, refused by 7, not swapped", ds2((0x0F, 13), (0x8F, 12), *silent)
    for flag in (0x8F, 0x0E):  # no good header, so that the audio starts at 4096
        for count in (12, 13):
            yield f"carried, magic 7, flag {flag >> 7}, {count} packets", m.file(b"\x07ds2", 4096, m.block(count, flag=flag))


def random_recording(m):
    r = m.rng
    magic, start = r.choice(((b"\x02dss", 1024), (b"\x03dss", 1536), (b"\x01ds2", 1536), (b"\x03ds2", 1536), (b"\x07ds2", 2048)))
    kind = r.choice((0, 0, 1, 3, 5, 6, 6, 7, 200))
    most = 10 if kind == 7 else r.choice((12, 13, 30, 255))
    blocks = []
    for _ in range(r.randrange(12) if r.random() < 0.9 else r.randrange(20, 45)):
        count = 0 if r.random() < 0.25 else r.randrange(most + 1)
        flag = r.choice((0x0F, 0x0F, 0x8F, r.randrange(256)))
        byte1 = r.choice((3, 3, r.randrange(30), r.randrange(256)))
        blocks.append(m.block(count, byte1, flag, kind if r.random() < 0.9 else r.randrange(9)))
    return m.file(magic, start, *blocks, tail=b"\x11" * r.choice((0, 0, r.randrange(512))))


def cut_named(m):
    """QP7 records without a gap, all of a size, in one block or two; of the last announced one so many bytes are there."""
    for blocks, size, second in ((1, 12, 0x7F), (1, 56, 0x80), (2, 12, 0), (2, 56, 0xFF)):
        for there in (0, 2, size // 2, size - 2):
            whole, first = divmod(PAYLOAD * blocks - there, size)
            record = bytes((1, second)) + b"\x55" * (size - 2)
            stream = (bytes(first) + record * (whole + 1))[:PAYLOAD * blocks]
            heads = [(whole + 1, 3 + first // 2)] if blocks == 1 else [(whole, 3 + first // 2), (1, 3)]
            made = [m.block(count, byte1, kind=7, payload=stream[PAYLOAD * i:PAYLOAD * (i + 1)]) for i, (count, byte1) in enumerate(heads)]
            yield f"qp7, blocks {blocks}, {there} of {size} bytes", m.file(b"\x01ds2", 1536, *made)


def damages(b, i=40):
    """Twelve ways in which the blocks of a recording are damaged."""
    head, payload = b[i][:HEAD], b[i][HEAD:]
    yield "a block zeroed", b[:i] + [bytes(BLOCK)] + b[i + 1:]
    yield "a block of FF", b[:i] + [b"\xff" * BLOCK] + b[i + 1:]
    yield "a block lost", b[:i] + b[i + 1:]
    yield "a block doubled", b[:i + 1] + b[i:]
    yield "a payload zeroed", b[:i] + [head + bytes(PAYLOAD)] + b[i + 1:]
    yield "a count of 0", b[:i] + [head[:2] + b"\0" + head[3:] + payload] + b[i + 1:]
    yield "a count one more", b[:i] + [head[:2] + bytes((head[2] + 1,)) + head[3:] + payload] + b[i + 1:]
    yield "the last ten blocks zeroed", b[:-10] + [bytes(BLOCK)] * 10
    yield "the last block lost", b[:-1]
    yield "the last block cut", b[:-1] + [b[-1][:300]]
    yield "two neighbours exchanged", b[:i] + [b[i + 1], b[i]] + b[i + 2:]
    yield "a header zeroed", b[:i] + [bytes(HEAD) + payload] + b[i + 1:]


def damaged():
    """A recording of each kind, as a recorder makes it, and damaged."""
    m = Maker(21)
    for name, magic, start, kind in (("ds2 sp", b"\x01ds2", 1536, 0), ("dss", b"\x02dss", 1024, 0), ("qp", b"\x03ds2", 1536, 6),
                                     ("qp7", b"\x01ds2", 1536, 7)):
        blocks = m.recorded(kind, dss=magic[3:] == b"s")
        before = m.file(magic, start)
        assert expected(before + b"".join(blocks))[2] == COMPLETE, name
        for damage, left in damages(blocks):
            yield f"{name}, {damage}", before + b"".join(left)


def recordings():
    m = Maker(20)
    for named in (ds2_named, dss_named, qp_named, qp7_named, seven_named, other_named):
        yield from named(m)
    for n in range(80):
        yield f"random {n}", random_recording(m)
    yield from cut_named(m)
    yield from carried_named(m)


# The runs.

def contents(path):
    """None: no file. What may not be read is read all the same."""
    if not os.path.lexists(path):
        return None
    if not os.access(path, os.R_OK):
        os.chmod(path, 0o600)
    with open(path, "rb") as f:
        return f.read()


def write(path, data):
    """A new file; None: no file."""
    if os.path.lexists(path):
        os.remove(path)
    if data is not None:
        with open(path, "wb") as f:
            f.write(data)


class Trial:
    """Runs of one program, which has that name in its messages and writes a file of that name in a folder of its own."""
    program, output = "intake", "packets"

    def __init__(self, command, folder):
        self.command = command
        self.recording = os.path.join(folder, "recording")
        self.folder = os.path.join(folder, "out")
        os.mkdir(self.folder)
        self.packets = os.path.join(self.folder, self.output)
        self.runs = self.wrong = 0
        self.left_out = ""  # what is said behind the counts of what could not be tried here

    def hold(self, name, complaint):
        if complaint:
            self.wrong += 1
            print(f"wrong: {name}: {complaint}")

    def run(self, name, arguments, want, says="", **given):
        """One run. It has to print that line, leave those bytes in the file that it writes and nothing else in its folder, and end with that
        status; with a failure, one line on standard error that says so."""
        line, packets, status = want
        before = set(os.listdir(self.folder))
        if "input" not in given:
            given.setdefault("stdin", subprocess.DEVNULL)
        given.setdefault("stdout", subprocess.PIPE)
        done = subprocess.run(self.command + arguments, stderr=subprocess.PIPE, timeout=300, **given)
        self.runs += 1
        out, errors = (done.stdout or b"").decode("latin-1"), done.stderr.decode("latin-1")
        complaint = ""
        if (out, done.returncode) != (line, status):
            complaint = f"expected {status} {line!r}, got {done.returncode} {out!r} {errors!r}"
        elif status in (FAILED, WRONG_USE) and not re.fullmatch(rf"{self.program}: [^\n]*{re.escape(says)}[^\n]*\n", errors):
            complaint = f"expected a line with {says!r} on standard error, got {errors!r}"
        elif status not in (FAILED, WRONG_USE) and errors:
            complaint = f"expected nothing on standard error, got {errors!r}"
        elif os.path.isfile(self.packets) or packets is not None:
            got = contents(self.packets)
            if got != packets:
                complaint = f"{self.output} file: expected {packets and len(packets)} bytes, got {got and len(got)}, or others"
        changed = (set(os.listdir(self.folder)) ^ before) - {self.output}
        self.hold(f"{name}, {' '.join(arguments)}", complaint or (f"left or removed: {changed}" if changed else ""))

    def read(self, name, data, want, piece=None, by="file", force=False):
        """Reads a recording from a file or, by `-` or by name, from a pipe. With force there is a packets file, and it is replaced."""
        line, packets, status = want
        write(self.recording, data)
        write(self.packets, LEFT if force else None)
        if packets is None and force:
            packets = LEFT
        arguments = (["--force"] if force else []) + [self.recording if by == "file" else by, self.packets]
        given = {} if by == "file" else {"input": data}
        self.run(name, arguments + ([str(piece)] if piece else []), (line, packets, status), **given)

    def fails(self, name, arguments, says, status=FAILED, packets=None, **given):
        self.run(name, arguments, ("", packets, status), says, **given)


# Lines of some recordings word for word, which hold the model and the header's sentences to them.
LINES = {
    "qp7 refused 4": "refused 4 506 0 2: a record should begin at place 506 of the payload stream: 2 of its first 2 bytes are missing\n",
    "qp7 refused 5": "refused 5 504 56 54: a record of 56 bytes at place 504 of the payload stream: 54 bytes are missing\n",
    "qp7, blocks 2, 2 of 12 bytes": "refused 5 1010 12 10: a record of 12 bytes at place 1010 of the payload stream: 10 bytes are missing\n",
    "carried, ds2 swapped block": "incomplete: 12 packets, 0 bytes of a cut block, 0 frames owed, 1 short: 0\n",
    "carried, ds2 begins swapped, owed": "incomplete: 13 packets, 0 bytes of a cut block, 1 frames owed, 2 short: 0 12\n",
    "carried, ds2 swapped and without packets": "complete as announced: 0 packets\n",
    "carried, ds2 not swapped by a later block": "complete as announced: 24 packets\n",
    "carried, dss after a cut read": "incomplete: 256 packets, 0 bytes of a cut block, 256 frames owed, 232 short: 24-255\n",
    "carried, dss swapped first and last": "incomplete: 3 packets, 0 bytes of a cut block, 0 frames owed, 1 short: 0\n",
    "carried, dss blocks of one swapped packet": "incomplete: 16 packets, 0 bytes of a cut block, 0 frames owed, 4 short: 0-3\n",
    "carried, dss not swapped by a silent block": "complete as announced: 12 packets\n",
    "carried, dss from block to block": "complete as announced: 16 packets\n",
    "carried, dss 40 of an unswapped read before": "incomplete: 24 packets, 0 bytes of a cut block, 24 frames owed, 2 short: 22-23\n",
    "carried, dss a swapped read is cut before": "incomplete: 25 packets, 0 bytes of a cut block, 25 frames owed, 1 short: 23\n",
    "carried, dss after a cut read, and again": "incomplete: 28 packets, 0 bytes of a cut block, 28 frames owed, 2 short: 24-25\n",
    "carried, refused by 7, begins swapped": "incomplete: 12 packets, 0 bytes of a cut block, 0 frames owed, 1 short: 0\n",
    "carried, refused by 7, not swapped": "complete as announced: 25 packets\n",
    "carried, magic 7, flag 1, 12 packets": "incomplete: 12 packets, 0 bytes of a cut block, 0 frames owed, 1 short: 0\n",
    "carried, magic 7, flag 1, 13 packets": "incomplete: 13 packets, 0 bytes of a cut block, 1 frames owed, 2 short: 0 12\n",
    "carried, magic 7, flag 0, 13 packets": "incomplete: 13 packets, 0 bytes of a cut block, 1 frames owed, 1 short: 12\n",
}


def read_all(trial):
    """Every recording in pieces of every size, and once through a pipe; how many there were of each outcome."""
    seen, lines = {}, dict(LINES)
    for n, (name, data) in enumerate(recordings()):
        want = expected(data)
        line = lines.pop(name, want[0])
        trial.hold(name, "" if line == want[0] else f"the model expects {want[0]!r}, and not {line!r}")
        outcome = " ".join(want[0].replace(":", "").split(" ")[:2]) if want[2] == REFUSED else want[0].split(":")[0]
        seen[outcome] = seen.get(outcome, 0) + 1
        pieces = PIECES[1 if len(data) > LONG else 0:]
        for piece in pieces:
            trial.read(name, data, want, piece, force=piece == 512)
        trial.read(name, data, want, pieces[n % len(pieces)], by="/dev/stdin" if n % 10 == 0 else "-")
    trial.hold("lines", f"no recording is called {sorted(lines)}" if lines else "")
    return seen


def read_damaged(trial):
    """How many damaged recordings there are of each outcome: what is complete as announced for all that nobody can tell."""
    seen = {COMPLETE: 0, INCOMPLETE: 0, REFUSED: 0}
    for name, data in damaged():
        want = expected(data)
        seen[want[2]] += 1
        trial.read(name, data, want)
        trial.read(name, data, want, 512, by="-")
    return (f"of {sum(seen.values())} damaged recordings {seen[COMPLETE]} are complete as announced, {seen[INCOMPLETE]} incomplete, "
            f"{seen[REFUSED]} refused")


EMPTY = b"\x01ds2" + bytes(1532)


def wrong_uses(trial, folder):
    both = [trial.recording, trial.packets]
    write(trial.recording, EMPTY)
    write(trial.packets, None)
    for piece in ("0", "x", "", "7x", " 7", "+7", "00"):
        trial.fails(f"piece {piece!r}", both + [piece], f"and not {piece}; --help tells more", WRONG_USE)
    for option in ("-1", "--forces", "-f", "--help=1"):
        trial.fails(f"option {option}", both + [option], f"no option {option}; --help tells more", WRONG_USE)
    for names in ([], both[:1], both + ["1", "1"], ["--force"] + both[:1], ["--"]):
        trial.fails("names", names, "it takes RECORDING PACKETS [PIECE]; --help tells more", WRONG_USE)
    trial.run("help", ["--help"], (HELP, None, COMPLETE))
    trial.run("help beside others", ["--force", *both, "--help", "-x"], (HELP, None, COMPLETE))
    for missing in ("none", "none/recording"):
        name = os.path.join(folder, missing)
        trial.fails("no such recording", [name, trial.packets], f"{name}: No such file or directory")
    trial.fails("a folder for a recording", [folder, trial.packets], f"{folder}: Is a directory")
    trial.read("a huge piece", EMPTY, expected(EMPTY), 10 ** 30)
    write(os.path.join(trial.folder, "--force"), EMPTY)
    write(trial.packets, None)
    trial.run("names after --", ["--", "--force", "packets", "9"], expected(EMPTY), cwd=trial.folder)
    os.remove(os.path.join(trial.folder, "--force"))
    write(trial.packets, LEFT)
    trial.run("options last", both + ["9", "--force"], expected(EMPTY))


def not_replaced(trial, folder):
    """What is there stays as it was, but for a file with --force."""
    write(trial.recording, EMPTY)
    for left in (LEFT, b""):
        write(trial.packets, left)
        trial.fails("there already", [trial.recording, trial.packets], f"{trial.packets}: it is there already; --force replaces it", packets=left)
    for other in (Maker(22).file(b"\x02dss", 1024, tail=b"another recording"), EMPTY, b"\x07ds2"):
        write(trial.packets, other)
        for options in ([], ["--force"]):
            trial.fails("another recording", options + [trial.recording, trial.packets], f"{trial.packets}: it is a recording", packets=other)
            trial.fails("this one, through a pipe", options + ["-", trial.packets], f"{trial.packets}: it is a recording", packets=other, input=other)
    os.remove(trial.packets)
    for name, make in (("by name", None), ("by a symlink", os.symlink), ("by a hard link", os.link)):
        packets = os.path.join(trial.folder, "itself") if make else trial.recording
        if make:
            make(trial.recording, packets)
        for options in ([], ["--force"]):
            trial.fails(f"itself {name}", options + [trial.recording, packets], f"{packets}: it is the recording itself")
            with open(trial.recording, "rb") as f:
                trial.fails(f"itself {name}, as input", options + ["-", packets], f"{packets}: it is the recording itself", stdin=f)
        trial.hold(f"itself {name}", "" if contents(packets) == EMPTY else "the recording was written over")
        if make:
            os.remove(packets)
    fifo = os.path.join(trial.folder, "fifo")
    os.mkfifo(fifo)
    for packets in (folder, trial.folder + "/", fifo, "/dev/null"):
        if packets == "/dev/null" and trial.wrong > 0:
            break  # only a program that was right so far is let at what is not the test's own
        for options in ([], ["--force"]):
            kind = os.lstat(packets).st_mode
            trial.fails("not a file", options + [trial.recording, packets], f"{packets}: it is not a file")
            trial.hold("not a file", "" if os.lstat(packets).st_mode == kind else f"{packets} was replaced")
    os.remove(fifo)


def stamp(path):
    """What changes if a file or folder is written or replaced; None if there is none."""
    return (os.lstat(path).st_ino, os.lstat(path).st_mtime_ns) if os.path.lexists(path) else None


def links_replaced(trial, folder):
    """With --force a link to a file or to nothing is replaced, and what it leads to is left."""
    target = os.path.join(folder, "target")
    for name, make in (("dangling", None), ("to a file", lambda: write(target, LEFT))):
        if make:
            make()
        before = stamp(target)
        write(trial.packets, None)
        os.symlink(target, trial.packets)
        done = subprocess.run(trial.command + [trial.recording, trial.packets], capture_output=True, stdin=subprocess.DEVNULL)
        trial.runs += 1
        fine = done.returncode == FAILED and b"it is there already" in done.stderr and os.readlink(trial.packets) == target
        trial.hold(f"a link {name}", "" if fine else f"expected the link to stay, got {done!r}")
        trial.run(f"a link {name}", ["--force", trial.recording, trial.packets], expected(EMPTY))
        fine = stamp(target) == before and not os.path.islink(trial.packets)
        trial.hold(f"a link {name}", "" if fine else "the link was not replaced, or its target was")
        if make:
            os.remove(target)
    write(trial.packets, None)
    os.symlink(folder, trial.packets)
    for options in ([], ["--force"]):
        trial.fails("a link to a folder", options + [trial.recording, trial.packets], f"{trial.packets}: it is not a file")
        trial.hold("a link to a folder", "" if os.path.islink(trial.packets) else "it was replaced")
    write(trial.packets, None)


def failing_outputs(trial, folder):
    data = Maker(23).file(b"\x01ds2", 1536, *Maker(23).continuous(9, dss=False))
    write(trial.packets, None)
    for options in ([], ["--force"]):
        packets = os.path.join(folder, "none", "packets")
        trial.fails("packets in no folder", options + [trial.recording, packets], f"{packets}: No such file or directory")
    packets = trial.recording + "/packets"
    trial.fails("packets in a file", [trial.recording, packets], f"{packets}: Not a directory")

    def small_files():
        resource.setrlimit(resource.RLIMIT_FSIZE, (1000, 1000))

    for left in (None, LEFT):
        write(trial.recording, data)
        write(trial.packets, left)
        # the signal that goes with it is ignored, as Python does
        trial.fails("no room for packets", ["--force", trial.recording, trial.packets], f"{trial.packets}: File too large", packets=left,
                    preexec_fn=small_files, restore_signals=False)
    write(trial.packets, None)
    with open("/dev/full", "wb") as full:
        parts = expected(data)[1]
        for name, arguments in (("line", [trial.recording, trial.packets]), ("help", ["--help"])):
            trial.run(f"no room for the {name}", arguments, ("", parts, FAILED), "standard output: No space left on device", stdout=full)
    write(trial.packets, None)
    read_end, write_end = os.pipe()
    os.close(read_end)
    trial.run("nobody reads the line", [trial.recording, trial.packets], ("", parts, FAILED), "standard output: Broken pipe", stdout=write_end)
    os.close(write_end)


def made_meanwhile(trial):
    """A packets file that is made while the recording is read is not overwritten."""
    for force in ([], ["--force"]):
        write(trial.packets, None)
        with subprocess.Popen(trial.command + force + ["-", trial.packets], stdin=subprocess.PIPE, stdout=subprocess.PIPE,
                              stderr=subprocess.PIPE) as program:
            program.stdin.write(EMPTY[:1000])
            program.stdin.flush()
            while program.poll() is None and not os.listdir(trial.folder):
                time.sleep(0.01)
            names = os.listdir(trial.folder)
            write(trial.packets, LEFT)
            out, errors = program.communicate(EMPTY[1000:], timeout=300)
        trial.runs += 1
        want = expected(EMPTY) if force else ("", LEFT, FAILED)
        fine = (out.decode(), contents(trial.packets), program.returncode) == want
        fine = fine and names == [f".intake-{program.pid}"] and os.listdir(trial.folder) == ["packets"]
        trial.hold("made meanwhile", "" if fine else f"got {program.returncode} {out!r} {errors!r}, temporary {names}")


def lost_meanwhile(trial, names, given):
    """A temporary file that is lost while the rest is read cannot be put in place, and what is there is as it was. As it cannot be linked
    either, without --force the name is first taken by an empty file, which must not stay."""
    for options, left in (([], None), (["--force"], None), (["--force"], LEFT)):
        write(trial.packets, left)
        with subprocess.Popen(trial.command + options + names, stdin=subprocess.PIPE, stdout=subprocess.PIPE,
                              stderr=subprocess.PIPE) as program:
            program.stdin.write(given[:50])
            program.stdin.flush()
            temporary = os.path.join(trial.folder, f".{trial.program}-{program.pid}")
            while program.poll() is None and not os.path.exists(temporary):
                time.sleep(0.01)
            write(temporary, None)
            out, errors = program.communicate(given[50:], timeout=300)
        trial.runs += 1
        fine = (out, contents(trial.packets), program.returncode) == (b"", left, FAILED) and b"No such file or directory" in errors
        fine = fine and os.listdir(trial.folder) == ([] if left is None else [trial.output])
        trial.hold("lost meanwhile", "" if fine else f"got {program.returncode} {out!r} {errors!r}, left {os.listdir(trial.folder)}")


def may_run(command, **given):
    """Whether the program can be run so at all."""
    try:
        return subprocess.run(command + ["--help"], stdout=subprocess.DEVNULL, stderr=subprocess.DEVNULL, **given).returncode == 0
    except PermissionError:
        return False


def unreadable(trial, folders, names):
    """A file that may not be read might be a recording, and stays. Root may read any, so there another user runs a copy of the program; where
    that cannot be had, as in a folder that only root may enter, it is not tried, and the last line says so."""
    *rest, program = command = trial.command
    given = {}
    if os.geteuid() == 0:
        copy = shutil.copy(program, os.path.join(folders[-1], "program"))
        for path in (*folders, copy, *names[:-1]):
            os.chmod(path, 0o755)
        os.chmod(trial.folder, 0o777)
        trial.command, given = rest + [copy], {"user": NOBODY}
    if not may_run(trial.command, **given):
        trial.left_out = "; not tried with a file that may not be read, as no other user can run the program here"
    else:
        for options in ([], ["--force"]):
            write(trial.packets, LEFT)
            os.chmod(trial.packets, 0)
            trial.fails("unreadable", options + names, f"{trial.packets}: Permission denied", packets=LEFT, **given)
    write(trial.packets, None)
    trial.command = command


def taken_name(trial):
    """A file with the temporary file's name is left alone. The shell's process number becomes the program's."""
    write(trial.recording, EMPTY)
    write(trial.packets, None)
    shell = ["sh", "-c", 'echo mine >"$0/.intake-$$"; echo mine >"$0/.intake-$$-1"; exec "$@"', trial.folder]
    done = subprocess.run(shell + trial.command + [trial.recording, trial.packets], capture_output=True, stdin=subprocess.DEVNULL)
    trial.runs += 1
    others = [os.path.join(trial.folder, n) for n in os.listdir(trial.folder) if n != "packets"]
    fine = (done.stdout.decode(), contents(trial.packets), done.returncode) == expected(EMPTY)
    trial.hold("taken name", "" if fine and [contents(n) for n in others] == [b"mine\n"] * 2 else f"got {done!r}, {others}")
    for name in others:
        os.remove(name)


def standard_input(trial):
    """Standard input that can be gone back in, and in which the recording does not begin at the front."""
    m = Maker(24)
    silent = [m.block(0) for _ in range(30)]
    for name, data in (("sp refused by 7", m.file(b"\x01ds2", 1536, *m.continuous(9, dss=False), *silent, m.block(9))),
                       ("qp", m.file(b"\x01ds2", 1536, m.block(9, kind=6), m.block(12, kind=6))),
                       ("dss, incomplete", m.file(b"\x02dss", 1024, *m.continuous(9, dss=True)))):
        write(trial.recording, b"\x02dss before" + data)
        write(trial.packets, None)
        with open(trial.recording, "rb", buffering=0) as f:
            f.seek(11)
            trial.run(f"standard input, {name}", ["-", trial.packets, "700"], expected(data), stdin=f)


def closed_streams(trial):
    """A closed stream brings nothing and takes anything, and no file of the program gets its number."""
    for stream in (0, 1, 2):
        for data in (EMPTY, b"no recording"):
            write(trial.recording, data)
            write(trial.packets, None)
            line, packets, status = expected(data)
            trial.run(f"stream {stream} closed", [trial.recording, trial.packets], ("" if stream == 1 else line, packets, status),
                      preexec_fn=lambda: os.close(stream), restore_signals=True)
    write(trial.packets, None)
    trial.run("recording from a closed stream", ["-", trial.packets], expected(b""), preexec_fn=lambda: os.close(0))


def sparse(trial, magic, length):
    """A recording of zeros and of a length that is not held in memory here."""
    with open(trial.recording, "wb") as f:
        f.write(magic)
        f.truncate(length)
    write(trial.packets, None)
    return ("complete as announced: 0 packets\n", b"", COMPLETE) if length <= LIMIT else (refused(2, LIMIT), None, REFUSED)


def over_the_limit(trial):
    """Zeros: all blocks are silent. A DS2 recording is then read whole, a DSS one in pieces to its end."""
    for magic, length in ((b"\x01ds2", LIMIT), (b"\x02dss", LIMIT), (b"\x07ds2", LIMIT), (b"\x01ds2", LIMIT + 1), (b"\x02dss", LIMIT + 1),
                          (b"\x07ds2", LIMIT + 1), (b"\x07ds2", 3 * LIMIT)):
        want = sparse(trial, magic, length)
        trial.run(f"{length} bytes, {magic}", [trial.recording, trial.packets, "1048576"], want)
    for magic, length, most in ((b"\x01ds2", LIMIT + 1, LIMIT), (b"\x02dss", LIMIT + 1, 0), (b"\x07ds2", 3 * LIMIT, LIMIT)):
        want = sparse(trial, magic, length)
        through_pipe(trial, f"{length} bytes through a pipe, {magic}", want, most)


def through_pipe(trial, name, want, most):
    """What is kept of a pipe's bytes is seen in the memory that the program has taken; the emulator takes some too."""
    with subprocess.Popen(["cat", trial.recording], stdout=subprocess.PIPE, stderr=subprocess.DEVNULL) as cat:
        program = subprocess.Popen(trial.command + ["-", trial.packets, "1048576"], stdin=cat.stdout, stdout=subprocess.PIPE)
        cat.stdout.close()
        with program.stdout as stdout:
            line = stdout.read().decode()
        _, status, usage = os.wait4(program.pid, 0)
        program.returncode = os.waitstatus_to_exitcode(status)
    trial.runs += 1
    fine = (line, contents(trial.packets), program.returncode) == want and os.listdir(trial.folder) == []
    trial.hold(name, "" if fine else f"expected {want!r}, got {program.returncode} {line!r}, {os.listdir(trial.folder)}")
    trial.hold(name, "" if usage.ru_maxrss * 1024 < most + 80000000 else f"it has taken {usage.ru_maxrss} KiB of memory")


def main():
    if len(sys.argv) not in (2, 3):
        sys.exit("usage: intake_test.py PROGRAM [RUNNER]")
    command = sys.argv[2:] + [os.path.abspath(sys.argv[1])]
    with tempfile.TemporaryDirectory() as folder:
        trial = Trial(command, folder)
        seen = read_all(trial)
        damage = read_damaged(trial)
        wrong_uses(trial, folder)
        not_replaced(trial, folder)
        links_replaced(trial, folder)
        failing_outputs(trial, folder)
        made_meanwhile(trial)
        lost_meanwhile(trial, ["-", trial.packets], EMPTY)
        write(trial.recording, EMPTY)
        unreadable(trial, [folder], [trial.recording, trial.packets])
        taken_name(trial)
        standard_input(trial)
        closed_streams(trial)
        over_the_limit(trial)
    kinds = ", ".join(f"{k} {n}" for k, n in sorted(seen.items()))
    print(f"intake_test: {damage}")
    print(f"intake_test: {sum(seen.values())} recordings ({kinds}), {trial.runs} runs, {trial.wrong} wrong{trial.left_out}")
    sys.exit(1 if trial.wrong else 0)


if __name__ == "__main__":
    main()
