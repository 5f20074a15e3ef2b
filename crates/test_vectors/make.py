#!/usr/bin/env python3
"""Makes the list of test vectors: make.py SOURCE_FOLDER > list

SOURCE_FOLDER is the original's folder `src`, with demux/mod.rs, demux/ds2.rs and demux/dss.rs. The
script lays out the cases (every run writes the same bytes), works out every answer by its own model
of the format's description (docs/FORMAT.md), asks the original Rust through probe.rs, and stops with
the case if the two differ where docs/DIFFERENCES.md names no difference. In the list an answer that the
Rust gave has the letter `r`, any other the letter `d`: refusals, their other numbers and file-byte
counts always, though some are held to the Rust too; tables, most of the tally, and all that the Rust
cannot be asked or answers otherwise. It also stops if some call is never refused by a number that it
can give.

The list has the description's examples, each magic, type, refusal and boundary, the scan, SP packets,
QP, QP7, fetches, payloads, pieces, the hold, rooms, the inputs that show the Rust's faults, then
recordings as a recorder makes them, damaged copies of these, random headers and noise, and at last
swapped packets whose carried byte is the file's or is not. LIST.md says what each number of the list is.
"""
import collections
from itertools import product
import pathlib
import random
import re
import struct
import subprocess
import sys
import tempfile

DSS = (b"\x02dss", b"\x03dss")
DS2 = (b"\x01ds2", b"\x03ds2", b"\x07ds2")
DSS_TWO, DSS_THREE, DS2_ONE, DS2_THREE, DS2_SEVEN = DSS + DS2
ENC, NONE = b"\x03enc", b"\0non"
BLOCK, PAYLOAD, HOLD, LIST_LIMIT, AMPLE = 512, 506, 12288, 65536, 1 << 30
QP_WORDS, QP7_WORDS = 4, 3  # of a segment's entry

# ---- The description: the whole readings

class Refused(Exception):
    """A refusal: its number and the number beside it; and of a record its size, and how many bytes are absent."""
    def __init__(self, number, beside, size=0, absent=0):
        super().__init__(number, beside, size, absent)
        self.numbers, self.lack = (number, beside), (size, absent)

def attempt(call, empty, *arguments):
    """The refusal (0, 0 if none) and the answer (the empty one if refused)."""
    try:
        return (0, 0), call(*arguments)
    except Refused as refused:
        return refused.numbers, empty

def lack(call, *arguments):
    """Of a record that is refused its size, and how many bytes are absent; else 0, 0."""
    try:
        call(*arguments)
        return (0, 0)
    except Refused as refused:
        return refused.lack

def good_header(h):
    fixed = len(h) >= 6 and (h[0], h[3], h[5]) == (0x0F, 0xFF, 0xFF)
    return fixed and h[2] > 0 and h[4] in (0, 1, 2, 3, 6, 7)

def audio_start(file):
    if file[:1] != b"\x07":
        return 0x600
    best, start = 0, 0x1000
    for place in range(BLOCK, min(0x10000, max(0, len(file) - 6)) + 1, BLOCK):
        score = 0
        while score < 16 and good_header(file[place + BLOCK * score:][:6]):
            score += 1
        if score >= 4:
            return place
        if score > best:
            best, start = score, place
    return start

class Blocks:
    """The whole blocks of a file from a start on."""
    def __init__(self, file, start):
        places = range(start, len(file) - BLOCK + 1, BLOCK)
        self.start = start
        self.headers = [file[p:p + 6] for p in places]
        self.stream = b"".join(file[p + 6:p + BLOCK] for p in places)
        self.announced = sum(h[2] for h in self.headers)
        self.type = next((h[4] for h in self.headers if h[2] > 0), 0)
        self.reading = "QP7" if self.type == 7 else "QP" if self.type >= 6 else "SP"

def detect_format(file):
    magic, start = file[:4], audio_start(file)
    if magic in DSS + (b"\x06dss",):
        return 5 if magic[0] == 6 else 1
    if magic not in DS2 or len(file) <= max(0x604, start + 4):
        return 0
    return {6: 3, 7: 4}.get(Blocks(file, start).type, 2)

def admit(file, magics, reading=None):
    """Refusals 1, 3 and 11 in their order; no file of the list is long enough for 2."""
    if file[:4] not in magics:
        raise Refused(1, 0)
    start = audio_start(file) if file[:4] in DS2 else BLOCK * file[0]
    if len(file) < start:
        raise Refused(3, start)
    blocks = Blocks(file, start)
    if reading not in (None, blocks.reading):
        raise Refused(11, blocks.type)
    return blocks

def fits(found, room, number=8):
    if len(found) > room:
        raise Refused(number, len(found))
    return found

Walk = collections.namedtuple("Walk", "start swap count end")
# `ready`: a reader in pieces lets the packet out once whole blocks reach this stream place
# `whole`: all of its read came from the stream, and if it is swapped its carried byte too
Packet = collections.namedtuple("Packet", "bytes count size ready whole")

def walks(blocks, dss):
    """One walk for DS2; for DSS one for each announcing block."""
    found = [(0, h[0] >> 7, blocks.announced) for h in blocks.headers[:1]]
    if dss:
        found = [(PAYLOAD * b + min(PAYLOAD, max(0, 2 * h[1] + 2 * (h[0] >> 7) - 6)), h[0] >> 7, h[2])
                 for b, h in enumerate(blocks.headers) if h[2] > 0]
    return [Walk(start, swap, count, start + 41 * count + count % 2 * (1 - 2 * swap))
            for start, swap, count in found]

def packets(blocks, dss):
    out, carry = [], b""  # the carried byte where it is the stream's, else nothing, for which a zero stands
    for walk in walks(blocks, dss):
        place, swap = walk.start, walk.swap
        for _ in range(walk.count):
            size = 42 - 2 * swap
            read = blocks.stream[place:place + size]
            c, packet = read.ljust(size, b"\0"), bytearray(42)
            if swap:
                packet[0:40:2], packet[1:2], packet[3:42:2] = c[1::2], carry or b"\0", c[0::2]
            else:
                packet[:], carry = c, read[40:41]
            packet[40] = 0
            whole = len(read) == size and (not swap or carry != b"")
            place, swap = place + size, 1 - swap
            out.append(Packet(bytes(packet), len(read), size, walk.end if dss else place, whole))
    return out

def read_dss(file, room):
    return fits(packets(admit(file, DSS), True), room)

def read_sp(file, room):
    return fits(packets(admit(file, DS2, "SP"), False), room)

def first_place(b, h):
    return PAYLOAD * b + max(0, 2 * h[1] - 6)

def read_qp(file, room):
    """The blocks and the segments: start, length, frames, reset."""
    blocks, segments = admit(file, DS2, "QP"), []
    start = place = first_place(0, blocks.headers[0])
    frames = 0

    def close():
        if frames > 0:
            segments.append((start, min(place, len(blocks.stream)) - start, frames, int(segments != [])))

    for b, h in enumerate(blocks.headers):
        if first_place(b, h) != place:
            close()
            start, place, frames = first_place(b, h), first_place(b, h), 0
        frames, place = frames + h[2], place + 56 * h[2]
    close()
    return blocks, fits(segments, room, 9)

def read_qp7(file, room, for_segments):
    """The records (place, bytes) and the segments: first record, records, reset."""
    blocks, records, segments, place = admit(file, DS2, "QP7"), [], [], 0
    for b, h in enumerate(blocks.headers + [bytes(6)]):  # the end closes a segment as a silent block does
        first = sum(count for _, count, _ in segments)
        if h[2] == 0 and len(records) > first:
            segments.append((first, len(records) - first, int(segments != [])))
        place = max(place, first_place(b, h) if h[2] else PAYLOAD * (b + 1))
        for _ in range(h[2]):
            left = len(blocks.stream) - place
            if left < 2:
                raise Refused(4, place, 0, 2 - left)
            size = 56 if blocks.stream[place + 1] & 128 else 12
            if left < size:
                raise Refused(5, place, size, size - left)
            records.append((place, blocks.stream[place:place + size]))
            place += size
    return fits(records, room), fits(segments, for_segments, 9)

def tally(file):
    dss = file[1:4] == b"dss"
    blocks = admit(file, DSS if dss else DS2)
    if dss or blocks.reading == "SP":
        handed = [(p.count, p.whole) for p in packets(blocks, dss)]
    elif blocks.reading == "QP":  # a frame past its segment's end is missing, the one before perhaps short
        handed = [(min(56, length - at), length - at >= 56) for _, length, _, _ in read_qp(file, AMPLE)[1]
                  for at in range(0, length, 56)]
    else:
        handed = [(len(r), True) for _, r in read_qp7(file, AMPLE, AMPLE)[0]]
    kind = 0 if dss else 1 + ("SP", "QP", "QP7").index(blocks.reading)
    return [kind, blocks.start, len(blocks.headers), blocks.announced, len(handed),
            sum(not whole for _, whole in handed), sum(have for have, _ in handed)]

def listing(file):
    refusal, counts = attempt(tally, None, file)
    refusal = refusal + lack(tally, file) if refusal[0] in (4, 5) else refusal
    refusal = (2, LIST_LIMIT) if len(file) > LIST_LIMIT else refusal
    names = ("DSSSP", "DS2SP", "DS2QP", "DS2QP7")
    parts = ["refused", *refusal] if refusal[0] else [names[counts[0]], *counts[1:]]
    return " ".join(map(str, parts)) + "\n"

def fetch(file, place, size, scratch):
    """If it takes the scratch, the file place if not, the bytes."""
    blocks = admit(file, DS2)
    if not 0 < size <= 56 or place + size > len(blocks.stream) or scratch < 56:
        raise Refused(12, 0)
    across = place % PAYLOAD + size > PAYLOAD
    where = blocks.start + BLOCK * (place // PAYLOAD) + 6 + place % PAYLOAD
    return int(across), 0 if across else where, blocks.stream[place:place + size]

def payload(file, block):
    blocks = admit(file, DSS + DS2)
    if block >= len(blocks.headers):
        raise Refused(12, 0)
    return blocks.start + BLOCK * block + 6, blocks.stream[PAYLOAD * block:PAYLOAD * (block + 1)]

# ---- The description: the reader in pieces

class Reader:
    """What a reader answers to the case's pieces, then to the strict end and the lenient end."""
    def __init__(self, case, file, room):
        self.known, self.dss, self.start = case.kind in (0, 2, 3), case.kind > 0, BLOCK * case.kind or 0x600
        self.ends, self.numbers, self.refused = [0], [], (0, 0)
        if self.known:
            self.feed(case, Blocks(file, self.start), room)
        elif file:
            self.refused = (6, 0)  # a refused open gives an ended reader
        self.blocks = Blocks(file[:self.ends[-1]], self.start)
        self.packets, self.out = packets(self.blocks, self.dss), sum(self.numbers)
        self.owed = len(self.packets) - self.out
        self.strict = self.strict_end()
        self.goes_on = self.strict[0] == 3  # the lenient end is then refused too
        self.last = self.packets[self.out:][:room]
        self.more = self.packets[self.out + len(self.last):][:room]  # if the lenient end is asked again

    def feed(self, case, blocks, room):
        states, before = self.states(blocks), 0
        for end in case.cuts():
            whole = max(0, end - self.start) // BLOCK
            needed = states[whole][0] - states[before][0]
            overflows = any(full for _, full in states[before + 1:whole + 1])
            if overflows or needed > room:
                self.refused = (7, HOLD) if overflows else (8, needed)
                break
            self.ends.append(end)
            self.numbers.append(needed)
            before = whole

    def states(self, blocks):
        """After 0, 1, 2, .. whole blocks: packets let out, and if the last block overflowed the hold."""
        every, found, out, announced = packets(blocks, self.dss), [(0, False)], 0, 0
        for n, h in enumerate(blocks.headers, 1):
            unread = PAYLOAD * n - (every[out - 1].ready if out else 0)
            announced += h[2]
            while out < announced and every[out].ready <= PAYLOAD * n:
                out += 1
            found.append((out, not self.dss and unread > HOLD))
        return found

    def strict_end(self):
        over = self.ends[-1] - self.start
        if over < 0:
            return (3, self.start) if self.ends[-1] else (0, 0)
        return (13, over % BLOCK) if over % BLOCK else (14, self.owed) if self.owed else (0, 0)

    def agrees(self):
        """If the Rust's reader must answer the same; for DSS in the domain that docs/DIFFERENCES.md names."""
        found = walks(self.blocks, True) if self.dss else []
        return self.known and all(a.end <= b.start and a.end % PAYLOAD for a, b in zip(found, found[1:]))

# ---- The answers to one case

def noise(x):
    return (x * 1103515245 + 12345) % 2147483648

def noise_bytes(seed, count):
    out = bytearray()
    for _ in range(count):
        seed = noise(seed)
        out.append(seed // 65536 % 256)
    return bytes(out)

def usual_start(magic):
    return BLOCK * magic[0] if magic in DSS else 0x1000 if magic == DS2_SEVEN else 0x600

# choices of an end that are neither 0 nor 1; of some the lowest bytes are
NEITHER = 2, 3, 10, 255, 256, 257, 65536, 65537, 1 << 32, (1 << 32) + 1, 1 << 56

class Case:
    """A file and the parameters; `complete` fills in what is not given, by the case's number."""
    def __init__(self, title, magic, headers=(), extra=0, spare=2, **given):
        self.title, self.magic, self.headers, self.extra = title, magic, headers, extra
        self.spare, self.given = spare, given  # spare: room beyond what the calls need

    def complete(self, number):
        self.title = re.sub(r"\d+", lambda digits: "-".join(DIGITS[int(d)] for d in digits[0]), self.title)
        start = self.given.get("start", usual_start(self.magic))
        length = self.given.get("length", start + BLOCK * len(self.headers) + self.extra)
        kind = self.magic[0] if self.magic in DSS else 0
        vars(self).update(dict(start=start, length=length, fill=1, seed=number, kind=kind, first=0, second=0,
                               step=number % 3 * number * 31 % 1900, place=number * 37 % max(100, length - start),
                               size=1 + number % 56, scratch=56 + number % 9,
                               block=number % (len(self.headers) + 1), part=number % 9, choice=NEITHER[number % len(NEITHER)],
                               probe=(start, start + BLOCK * (number % 3), 0, number * 37 % (length + 700))[number % 4]),
                          **self.given)
        file = self.file()
        if "room" not in self.given:
            self.room = min(4096, max(0, self.room_needed(file) + self.spare))
        for lent, unit in (("out", 42), ("counts", 1), ("table", 4), ("records", 1), ("segments", 3)):
            vars(self).setdefault(lent, unit * self.room)
        self.for_packets = min(self.out // 42, self.counts)
        return file

    def room_needed(self, file):
        calls = (read_dss, 0), (read_sp, 0), (read_qp, 0), (read_qp7, 0, AMPLE), (read_qp7, AMPLE, 0)
        refusals = [attempt(call, None, file, *room)[0] for call, *room in calls]
        reader = Reader(self, file, AMPLE)
        return max([beside for number, beside in refusals if number in (8, 9)] + reader.numbers + [reader.owed])

    def file(self):
        count = max(0, self.length - self.start)
        file = bytearray(self.length - count)
        file += noise_bytes(self.seed, count) if self.fill == 1 else (b"\xff" if self.fill else b"\0") * count
        for place, head in [(self.start + BLOCK * b, h) for b, h in enumerate(self.headers)] + [(0, self.magic)]:
            for i, byte in enumerate(head[:max(0, self.length - place)]):
                file[place + i] = byte
        return bytes(file)

    def cuts(self):
        """Where the pieces end."""
        at = 0
        while at < self.length:
            end = at + 1 + noise(at + self.step) // 65536 % self.step if self.step else self.length
            end = self.first if at < self.first else self.second if at < self.second else end
            at = min(end, self.length)
            yield at

def digest(values):
    d = 0
    for v in values:
        d = (d * 1000003 + v + 1) % 8796093022208
    return d

def lent(used, size, tail):
    """Digest of what a call wrote into a lent table and of some untouched entries after that."""
    return digest((list(used) + [165] * tail)[:size])

def bytes_of(found):
    return b"".join(p.bytes for p in found)

def counts_of(found):
    return [p.count for p in found]

def sp_answers(call, file, case):
    refusal, found = attempt(call, [], file, case.for_packets)
    return [*refusal, len(found), lent(bytes_of(found), case.out, 64), lent(counts_of(found), case.counts, 64)]

def qp_answers(file, case):
    refusal, (blocks, segments) = attempt(read_qp, (None, []), file, case.table // QP_WORDS)
    values = [v for start, length, frames, reset in segments
              for v in (frames, reset, *blocks.stream[start:start + length])]
    announced = 0 if refusal[0] else blocks.announced
    return [*refusal, len(segments), announced, lent(sum(segments, ()), case.table, 16), digest(values)]

def qp7_answers(file, case):
    rooms = case.records, case.segments // QP7_WORDS
    refusal, (records, segments) = attempt(read_qp7, ([], []), file, *rooms)
    values = [v for first, count, reset in segments
              for v in (count, reset, *b"".join(r for _, r in records[first:first + count]))]
    return [*refusal, len(records), len(segments), lent([place for place, _ in records], case.records, 16),
            lent(sum(segments, ()), case.segments, 16), digest(values), *lack(read_qp7, file, *rooms)]

def reader_answers(case, r):
    out = r.packets[:r.out]
    return [*((0, 0) if r.known else (10, case.kind)), r.ends[-1], *r.refused,
            r.out, digest(r.numbers), digest(bytes_of(out)), digest(counts_of(out)), r.owed,
            *r.strict, *(r.strict if r.goes_on else (0, 0)), len(r.last), digest(bytes_of(r.last)),
            digest(counts_of(r.last)), r.owed - len(r.last), 0 if r.goes_on else 6, 0, 0]

def past(case, numbers):
    """Digest of the lent bytes past those that each call used for so many packets; all are untouched."""
    return digest(v for n in numbers for size in (case.out - 42 * n, case.counts - n) for v in [165] * min(64, size))

def second_end(r):
    """After the lenient end: the strict end, then the lenient end again."""
    if r.goes_on:
        return [*r.strict, *r.strict, 0, 0, 0, 0]
    draining = (6, 0) if r.owed > len(r.last) else (0, 0)
    left = r.owed - len(r.last) - len(r.more)
    return [*draining, 0, 0, len(r.more), digest(bytes_of(r.more)), digest(counts_of(r.more)), left]

def more_answers(case, file, r):
    """At a place of the file; then of the reader; where a frame stands; and of the reader's ends by a choice that is neither."""
    calls = r.numbers + [0] * (r.refused[0] > 0)
    refusal, (across, where, _) = attempt(fetch, (0, 0, b""), file, case.place, case.size, case.scratch)
    return [Blocks(file, case.probe).type, int(good_header(file[case.probe:][:case.part])),
            0, 0 if r.known else 6, 0, past(case, calls), 0, 0 if r.strict[0] else 6,
            past(case, [0 if r.goes_on else len(r.last)]), *second_end(r), *refusal, across, where,
            past(case, [0]), 22, 0, 0, 22, 0, 0]

def part_answers(case, file):
    refusal, (across, where, shown) = attempt(fetch, (0, 0, b""), file, case.place, case.size, case.scratch)
    fetched = [*refusal, across, where, digest(shown), lent(shown if across else b"", case.scratch, 64)]
    refusal, (where, shown) = attempt(payload, (0, b""), file, case.block)
    return fetched + [*refusal, where, digest(shown)]

def answers(case, file, reader):
    """The description's answers; the first one stands at 1."""
    start = audio_start(file)
    refusal, counts = attempt(tally, [0] * 7, file)
    return [None, detect_format(file), start, Blocks(file, start).type, *sp_answers(read_dss, file, case),
            *sp_answers(read_sp, file, case), *qp_answers(file, case), *qp7_answers(file, case),
            *reader_answers(case, reader), *part_answers(case, file), digest(listing(file).encode()), *refusal, *counts,
            *lack(tally, file), *more_answers(case, file, reader)]

# ---- The Rust

DEMUX_DSS, DEMUX_DS2, READ_PIECES, FORMAT = 1, 2, 4, 8
# Where the Rust answers: the answers, the call that gives them, when they must be the same.
RUST = (((2, 3, 72, 73), 0, lambda a: True), ((1,), FORMAT, lambda a: True), ((6, 7), DEMUX_DSS, lambda a: a[4] == 0),
        ((11, 12), DEMUX_DS2, lambda a: a[9] == 0), ((16, 17, 19), DEMUX_DS2, lambda a: a[14] == 0),
        ((22, 23, 26), DEMUX_DS2, lambda a: a[20] == 0), ((34, 35, 36), READ_PIECES, lambda a: a[32] == 0),
        ((43, 44), READ_PIECES, lambda a: a[32] == a[41] == a[46] == 0),
        ((67,), DEMUX_DS2, lambda a: a[61] == 0 and a[63] > 1))
# Also compared, but the description's: refusals for which the Rust has an error, the bytes of QP frames.
ALSO = (((4,), DEMUX_DSS, lambda a: a[4] == 1), ((9, 14, 20), DEMUX_DS2, lambda a: a[9] == 1),
        ((20, 21), DEMUX_DS2, lambda a: a[20] in (4, 5)), ((69,), DEMUX_DS2, lambda a: a[61] == 0 and a[63] > 1),
        ((34, 35, 36, 39, 41), READ_PIECES, lambda a: True))

def allowed(file, reader):
    """The calls to make; where the Rust faults, it may end the process. Its name for an encrypted file is asked, and not counted."""
    dss = file[:4] not in DSS or len(file) >= BLOCK * file[0]
    ds2 = file[:4] not in DS2 or len(file) > audio_start(file)
    same = file[:4] != ENC or len(file) <= 0x604
    return DEMUX_DSS * dss + DEMUX_DS2 * ds2 + READ_PIECES * reader.agrees() + FORMAT * same

def places(rules, calls, found):
    return {p for them, call, holds in rules if calls & call == call and holds(found) for p in them}

def ask_rust(folder, requests):
    """Builds the probe over links to the original's files; gives its answers to each request."""
    with tempfile.TemporaryDirectory() as name:
        here = pathlib.Path(name)
        (here / "demux").mkdir()
        (here / "demux" / "grundig.rs").touch()
        for part in ("mod.rs", "ds2.rs", "dss.rs"):
            (here / "demux" / part).symlink_to((folder / "demux" / part).resolve(strict=True))
        (here / "probe.rs").write_text(pathlib.Path(__file__).with_name("probe.rs").read_text())
        subprocess.run(["rustc", "-O", "--edition", "2021", "probe.rs"], cwd=here, check=True)
        printed = subprocess.run([here / "probe"], input=b"".join(requests), stdout=subprocess.PIPE, check=True).stdout
    numbers = [list(map(int, line.split())) for line in printed.splitlines()]
    return [dict(zip(line[::2], line[1::2])) for line in numbers]

def request(case, file, reader):
    pieces = reader.ends[1:]
    numbers = [len(file), allowed(file, reader), case.out, case.kind, case.probe, case.part, len(pieces), *pieces]
    return struct.pack(f"<{len(numbers)}I", *numbers) + file

# ---- The cases; a title's numbers are spelled out, for in the list only numbers have digits

DIGITS = "zero one two three four five six seven eight nine".split()

def head(byte1, count, kind=0, swap=0):
    return bytes([0x0F | swap << 7, byte1, count, 0xFF, kind, 0xFF])

def around(number):
    return number - 1, number, number + 1

SILENT, GOOD, BAD = head(0, 0), head(3, 2), head(3, 2, 4)  # good and bad for the scan

def name(magic):
    return f"{magic[0]} {magic[1:].decode()}"

def recording(magic, blocks, kind=0, swap=0, seed=0):
    """Headers as a recorder makes them: frame after frame, none that the end would cut."""
    stream = Blocks(noise_bytes(seed, BLOCK * blocks), 0).stream
    headers, place = [], 0
    for b in range(blocks):
        first, parity, count = place - PAYLOAD * b, swap, 0
        while place < PAYLOAD * (b + 1):
            size = 42 - 2 * swap if kind < 6 else 12 if kind == 7 and stream[place + 1] < 128 else 56
            if place + size > len(stream):
                break
            place, swap, count = place + size, 1 - swap, count + 1
        byte1 = (first + 6) // 2 - parity * (magic in DSS)
        headers.append(head(byte1, count, kind, parity * (kind < 6)) if count else head(0, 0, kind))
    return headers

def examples():
    yield Case("example 1, header alone", DS2_ONE)
    yield Case("example 1, one byte less", DS2_ONE, extra=-1)
    yield Case("example 2, one segment", DS2_ONE, [head(3, 10, 6), head(30, 8, 6)])
    yield Case("example 2, two segments", DS2_ONE, [head(3, 9, 6)] * 2)
    yield Case("example 2, second block silent", DS2_ONE, [head(3, 9, 6), head(3, 0, 6)])
    yield Case("example 3, one byte less", DS2_SEVEN, extra=-1)
    yield Case("example 3, empty", DS2_SEVEN)
    yield Case("example 4, a swapped read after an unswapped one, of noise", DS2_ONE, [head(0, 2)])
    yield Case("example 5, refusal 5", DS2_ONE, [head(3, 10, 7)], fill=2)
    yield Case("example 5, refusal 4", DS2_ONE, [head(4, 10, 7)], fill=2)
    yield Case("example 6", DS2_ONE, [head(0, 13)])
    for byte1 in (255, 2, 3):
        yield Case(f"example 7, byte {byte1}", DSS_TWO, [head(byte1, 1, 0, 1)])
    yield Case("example of the listing", DS2_ONE, [head(3, 12, 6)], fill=0)

def magics_and_types():
    for first, letters in product(range(9), (b"dss", b"ds2", b"enc", b"abc", b"dst", b"dr2", b"es2")):
        magic = bytes([first]) + letters
        yield Case(f"magic {name(magic)}", magic, [head(3, 3, (0, 6, 7)[first % 3])] * 3)
    for t in (*range(10), 127, 128, 255):
        yield Case(f"type {t}, then another", DS2_ONE, [head(3, 4, t), head(115, 4, 6 + t % 2)])
        yield Case(f"type {t} after a silent block", DS2_THREE, [head(3, 0, 1), head(3, 4, t)])
        yield Case(f"type {t} and the scan", DS2_SEVEN, [head(3, 4, t)] * 2)
        yield Case(f"type {t}, encrypted", ENC, [head(3, 4, t)])

def lengths():
    edges = {e + d for e in (512, 1024, 1536, 0x604, 0x605, 0x606, 2048, 4096, 4608) for d in (-1, 0, 1)}
    for length, magic in product(sorted({*range(9), 4100, 4101} | edges), DSS + DS2 + (ENC,)):
        yield Case(f"{name(magic)}, length {length}", magic, [head(3, 2 + b) for b in range(6)], length=length)
    for length in (517, 518, 519, 1023, 1024, 1025, 1539, 1540, 1541):
        yield Case(f"good header at 512, length {length}", DS2_SEVEN, [GOOD], length=length, start=512)

def headers_alone():
    for part, header in product(range(9), (GOOD, BAD, SILENT)):
        yield Case(f"part of {part}, {'gbs'[(GOOD, BAD, SILENT).index(header)]}", DS2_ONE, [header] * 2, probe=1536, part=part)
    for i, value in ((0, 14), (0, 143), (2, 0), (2, 1), (3, 254), (5, 254), (4, 3), (4, 4), (4, 5), (4, 6), (4, 7), (4, 8)):
        spoiled = GOOD[:i] + bytes([value]) + GOOD[i + 1:]
        yield Case(f"header, byte {i} is {value}", NONE, [spoiled], probe=1536, part=6)
    for probe in (0, 1, 1535, 1536, 1537, 2048, 2559, 2560, 2561, 4294967295):
        yield Case(f"type from {probe}", DS2_ONE, [head(3, 0, 1), head(3, 2, 6)], probe=probe, part=6)

def scan():
    for k in range(1, 129):
        blocks = [head(3, 2, (0, 1, 2, 3, 6, 7)[k % 6])] * (1 + k % 4)
        title, kind = f"scan, {len(blocks)} good from block {k}", (0, 2, 3)[k % 3]
        yield Case(title, DS2_SEVEN, blocks, start=BLOCK * k, kind=kind)
    for run in range(1, 18):
        yield Case(f"scan, run of {run}", DS2_SEVEN, [BAD] + [GOOD] * run + [BAD], start=1024)
    patterns = "g-g gg-gg ggg-ggg g-gg gg-ggg ggg-gggg gggg-ggggg gg-g ggg-g-ggg g-gg-ggg-gggg --g -ggg--ggg- ---"
    for pattern in patterns.split():
        headers = [GOOD if p == "g" else BAD for p in pattern]
        yield Case(f"scan, good ones as {pattern}", DS2_SEVEN, headers, start=512)
    for i, value in ((0, 14), (0, 143), (0, 31), (1, 0), (2, 0), (2, 1), (3, 254), (3, 0), (5, 254), (5, 127),
                     (4, 4), (4, 5), (4, 8)):
        changed = GOOD[:i] + bytes([value]) + GOOD[i + 1:]
        yield Case(f"scan, byte {i} is {value}", DS2_SEVEN, [changed, GOOD, changed], start=512)
    for extra in (0, 1, 5, 6, 7, 8, 511, 512, 513, 1024, 1030, 1536, 1541, 1542, 2047, 2048):
        yield Case(f"scan, {extra} bytes from the last place", DS2_SEVEN, [GOOD] * 4, length=65536 + extra, start=65536)
    yield Case("scan, past the last place", DS2_SEVEN, [GOOD] * 3, start=66048)
    yield Case("scan, over the last place", DS2_SEVEN, [GOOD] * 4, start=65024)
    for run in (1, 3, 4):
        headers = [GOOD] + [bytes(6)] * 126 + [GOOD] * run
        yield Case(f"scan, {run} at the last place against the first", DS2_SEVEN, headers, start=512)
    for cut in (5, 6):
        headers = [GOOD, BAD, GOOD, GOOD]
        yield Case(f"scan, header of {cut} bytes at the end", DS2_SEVEN, headers, length=2048 + cut, start=512)

def sp_packets():
    for magic, swap, count in product((DSS_TWO, DS2_ONE), (0, 1), (0, 1, 2, 11, 12, 13, 255)):
        title = f"{name(magic)}, {count} packets, flag {swap}"
        yield Case(title, magic, [head(3 - swap, count, 0, swap)])
        yield Case(title + ", two blocks", magic, [head(3, count, 0, swap), head(3, 5, 0, 1 - swap)])
    for byte1, swap in product((0, 1, 2, 3, 4, 5, 6, 252, 253, 254, 255), (0, 1)):
        title = f"start byte {byte1}, flag {swap}"
        yield Case(title, DSS_TWO, [head(byte1, 1, 0, swap)])
        yield Case(title + ", then a block", DSS_TWO, [head(byte1, 1, 0, swap), head(30, 1)])
        yield Case(title + ", last block", DSS_THREE, [SILENT, head(byte1, 13, 0, swap)])
    for (count, byte1), swap, more in product(((1, 235), (2, 215)), (0, 1), (-1, 0, 1)):
        headers = [head(byte1 + more, count, 0, swap), SILENT, SILENT]
        yield Case(f"{count} from byte {byte1 + more}, flag {swap}, end near the edge", DSS_TWO, headers, step=512)
    for count, between in product((1, 2, 3), (0, 1, 3)):
        headers = [head(3, count)] + [SILENT] * between + [head(9, 2, 0, 1), head(2, 1, 0, 1)]
        yield Case(f"carry of {count} over {between} silent", DSS_THREE, headers)

def silent_blocks():
    patterns = "shh hsh hhs ssh hss s ss hshsh shshs hsshh".split()
    for (kind, magic), pattern in product(((0, DSS_TWO), (0, DS2_THREE), (6, DS2_ONE), (7, DS2_ONE)), patterns):
        headers = [head(3, 5 if p == "h" else 0, kind) for p in pattern]
        yield Case(f"{name(magic)}, type {kind}, silent as {pattern}", magic, headers)

def qp_segments():
    for byte1, count in product((0, 3, 4, 5, 255), (1, 8, 9, 10, 11, 255)):
        yield Case(f"qp, {count} frames from byte {byte1}", DS2_ONE, [head(byte1, count, 6)])
    for kind, (title, *pairs) in product((6, 9), (
            ("empty in front", (3, 0), (5, 4)), ("empty between", (3, 9), (9, 0), (5, 4)),
            ("empty at the end", (3, 9), (9, 0)), ("two empty", (3, 2), (9, 0), (7, 0), (3, 2)),
            ("silent that joins", (3, 10), (30, 0)), ("silent that joins, then a split", (3, 10), (30, 0), (3, 1)),
            ("overlap", (3, 20), (3, 5), (3, 5)), ("over all blocks", (3, 255), (3, 0), (4, 255)),
            ("gap", (3, 2), (99, 3)), ("joins and splits", (3, 10), (30, 9), (29, 8), (29, 9), (29, 1)))):
        yield Case(f"qp, type {kind}, {title}", DS2_ONE, [head(b, c, kind) for b, c in pairs])

def qp7_records():
    for (sort, fill, full), byte1, more in product((("short", 0, 42), ("long", 2, 9)), (0, 3, 4, 5, 255), (-1, 0, 1)):
        title, first = f"qpseven, {full + more} {sort} from byte {byte1}", head(byte1, full + more, 7)
        yield Case(title, DS2_ONE, [first], fill=fill)
        yield Case(title + ", later block", DS2_ONE, [head(3, 4, 7), first], fill=fill)
    for count in range(1, 40, 3):
        yield Case(f"qpseven, {count} mixed", DS2_ONE, [head(3, 3, 7), head(3, count, 7)])
        yield Case(f"qpseven, {count} mixed, silent between", DS2_ONE, [head(3, count, 7), SILENT, head(7, 5, 7)])
    yield Case("qpseven, silent around", DS2_ONE, [SILENT, head(9, 3, 7), SILENT, SILENT, head(3, 2, 7), SILENT])
    yield Case("qpseven, other types later", DS2_ONE, [head(3, 3, 7), head(30, 3, 0), head(60, 2, 6)])

def fetches_and_payloads():
    edges = (0, 1, 449, 450, 451, 505, 506, 507, 955, 956, 957, 1011, 1012, 1013)
    asks = [*product(edges, (0, 1, 56, 57), (56,)), *product((8,), (56,), (0, 1, 55, 57, 64)),
            *product((480,), (40,), (0, 55, 56, 64)), (504, 2, 64), (505, 2, 64), (451, 55, 60), (452, 55, 60),
            (1010, 2, 64), (0, 255, 64), (268435456, 1, 64), (4294967295, 56, 64), (4294967240, 56, 64)]
    for place, size, scratch in asks:
        yield Case(f"fetch {size} at {place}, scratch {scratch}", DS2_ONE, [head(3, 9, 6), head(4, 9, 6)],
                   place=place, size=size, scratch=scratch)
    for magic, block in product(DSS + DS2, (0, 1, 2, 3, 4, 4294967295)):
        yield Case(f"{name(magic)}, payload {block}, fetch across", magic, [head(3, 3)] * 3, extra=511,
                   block=block, place=506 * (block % 3) + 470, size=40)
    for magic, extra in product(DSS + DS2, (-1, 0, 511, 512)):
        yield Case(f"{name(magic)}, payload and fetch, end {extra % 1000}", magic, extra=extra, block=0, place=0)

def pieces():
    for title, magic, headers in (("sp", DS2_ONE, [head(0, 12), head(0, 13), head(0, 12)]),
                                  ("dss 2", DSS_TWO, [head(3, 12)] * 3), ("dss run", DSS_TWO, recording(DSS_TWO, 3)),
                                  ("dss 3", DSS_THREE, [head(3, 12, 0, 1), SILENT, head(9, 12)])):
        a = usual_start(magic)
        for cut in [1, 4] + [a + BLOCK * b + d for b, d in product(range(4), (-1, 0, 1, 5, 6, 7))]:
            yield Case(f"{title}, cut at {cut}", magic, headers, first=cut, step=0, extra=8)
        for first, second in ((1, a), (a - 1, a + 511), (a, a + 512), (a + 1, a + 513), (a + 511, a + 513),
                              (a + 6, a + 518), (a + 512, a + 1024), (a + 511, a + 1535)):
            yield Case(f"{title}, cut at {first} and {second}", magic, headers, first=first, second=second, step=0)
        for extra in (-1, 0, 7):
            yield Case(f"{title}, byte by byte, end {extra % 512}", magic, headers, extra=extra, step=1)
        for extra in (-1024, -512, -511, 3, 511):
            yield Case(f"{title}, end {extra % 2048}", magic, headers, extra=extra, step=2 + extra % 700)

def other_kinds():
    for magic, kind in product((DS2_ONE, *DSS, NONE), (0, 2, 3)):
        yield Case(f"{name(magic)}, read as kind {kind}", magic, recording(magic, 5), kind=kind)
        yield Case(f"{name(magic)}, read as kind {kind}, type 7", magic, [head(7, 11, 7, 1)] * 4, kind=kind)
    for kind in (1, 4, 5, 6, 7, 8, 255):
        yield Case(f"open with kind {kind}", DS2_ONE, [head(0, 3)], kind=kind)
        yield Case(f"open with kind {kind}, no piece", DS2_ONE, kind=kind, length=0)

def hold():
    for count in (23, 24, 25, 26):
        for step in (0, 1, 512, 3000):
            yield Case(f"{count} silent blocks, step {step}", DS2_ONE, [SILENT] * count, step=step)
        yield Case(f"{count} silent blocks, then packets", DS2_ONE, [SILENT] * count + [head(0, 255)], step=600)
        yield Case(f"{count} silent blocks of dss", DSS_TWO, [SILENT] * count + [head(3, 12), head(3, 13)])
    # 268 packets from an unswapped start leave 12,288 of 46 blocks unread, 231 from a swapped one of 43
    for (swap, count, blocks), (less, more, step) in product(
            ((0, 268, 46), (1, 231, 43)), ((0, 0, 0), (1, 0, 0), (0, 0, 512), (0, 1, 512), (1, 0, 900))):
        first, blocks = min(255, count - less), blocks + more
        headers = [head(0, first, 0, swap), head(0, count - less - first)] + [SILENT] * (blocks - 2)
        yield Case(f"{count - less} packets, {blocks} blocks, step {step}", DS2_THREE, headers, step=step)
    for room, step in product((0, 1, 5), (0, 512)):
        yield Case(f"hold and room {room}, step {step}", DS2_ONE, [head(0, 5)] + [SILENT] * 26, room=room, step=step)

def rooms():
    # where one call alone is meant: kind 1 keeps the reader out, no magic the whole calls
    for title, magic, headers, kind in (
            ("dss", DSS_TWO, [head(3, 12)] * 2, 2), ("dss, whole", DSS_TWO, [head(3, 255)] * 2, 1),
            ("sp", DS2_ONE, [head(0, 12)] * 2, 0), ("sp, whole", DS2_THREE, [head(0, 40)] * 2, 1),
            ("qp", DS2_ONE, [head(3, 2, 6)] * 3, 1), ("qpseven", DS2_ONE, [head(3, 3, 7), SILENT, head(3, 3, 7)], 1),
            ("pieces", NONE, [head(0, 12)] * 3, 0), ("pieces of dss", NONE, [head(3, 12)] * 3, 3),
            ("lenient end", NONE, [head(0, 40)], 0), ("lenient end of dss", NONE, [head(3, 40)], 3)):
        for spare, how in ((-1, "one short"), (0, "full"), (1, "one over"), (70, "ample")):
            yield Case(f"{title}, room {how}", magic, headers, kind=kind, spare=spare, step=0)
        for room in (0, 1, 2, 11, 12, 13):
            yield Case(f"{title}, room {room}", magic, headers, kind=kind, room=room, step=512)
    # the smaller of output and counts decides, and what is left over by 42 and by an entry's words is no room
    for title, magic, headers, kind in (("dss", DSS_TWO, [head(3, 12)] * 2, 2), ("sp", DS2_ONE, [head(0, 12)] * 2, 0),
                                        ("lenient end", NONE, [head(0, 40)], 0), ("pieces", NONE, [head(0, 12)] * 3, 3)):
        for out, counts in ((1007, 24), (1008, 24), (1049, 24), (1008, 23), (5000, 23), (1007, 99), (503, 12), (504, 12)):
            yield Case(f"{title}, output {out}, counts {counts}", magic, headers, kind=kind, out=out, counts=counts, step=512)
    for table in (*around(2 * QP_WORDS), *around(3 * QP_WORDS), 4 * QP_WORDS - 1):
        yield Case(f"qp, table {table}", DS2_ONE, [head(3, 2, 6)] * 3, table=table)
    silent_between = [head(3, 3, 7), SILENT, head(3, 3, 7), SILENT, head(3, 1, 7)]
    for records, segments in product(around(7), (2 * QP7_WORDS, *around(3 * QP7_WORDS))):
        yield Case(f"qpseven, records {records}, segments {segments}", DS2_ONE, silent_between, records=records, segments=segments)
    for magic in (DSS_TWO, DS2_ONE):
        yield Case(f"{name(magic)}, over the largest room", magic, [head(3, 255)] * 17)
        yield Case(f"{name(magic)}, largest room full", magic, [head(3, 255)] * 16 + [head(3, 16)], room=4096)

def faults():
    """The inputs that show where the Rust's reader of DSS in pieces faults, and others near them."""
    for magic, (byte1, count), step in product(DSS, ((235, 1), (235, 13), (255, 1)), (0, 512, 1)):
        headers = [head(byte1, 1), head(3, count)]
        yield Case(f"{name(magic)}, fault after {byte1}, {count} packets, step {step}", magic, headers, step=step)
    for magic in DSS:
        yield Case(f"{name(magic)}, below the start", magic, extra=-1)
        yield Case(f"{name(magic)}, 22 blocks wait", magic, [head(255, 255)] + [head(3, 1)] * 22, step=512)
        for swap in (0, 1):
            yield Case(f"{name(magic)}, long recording, flag {swap}", magic, recording(magic, 44, 0, swap))
        for more in (0, 18, 19, 20):
            headers = [head(3, 255), head(3, 1, 0, 1)] + [SILENT] * more
            yield Case(f"{name(magic)}, carry from a packet once short, {more} silent", magic, headers)

def carried():
    """Where the byte that a swapped packet is given comes from: the file, a read that was cut before it, or nowhere."""
    block = {"s": head(3, 1, 0, 1), "u": head(3, 1), "-": SILENT}
    for magic in DSS + DS2:
        yield Case(f"{name(magic)}, begins swapped", magic, [head(3, 12, 0, 1)])
    for magic, first, second in product((DSS_TWO, DS2_ONE), (0, 1), (0, 1)):
        headers = [head(3, 0, 0, first), head(3, 5, 0, second)]
        yield Case(f"{name(magic)}, silent with flag {first}, then flag {second}", magic, headers)
    for pattern in "s ss -s su sus ssus ssssu s-s-u-s us uss u-s- susus".split():
        yield Case(f"a packet a block as {pattern}", DSS_TWO, [block[p] for p in pattern])
        yield Case(f"a packet a block as {pattern}, after 255", DSS_THREE, [head(3, 255), *(block[p] for p in pattern)])
    # the last unswapped read ends with the stream of the two blocks, and for each more it lacks two bytes:
    # at one more it has 40, and byte 40 is not among them
    for (byte1, count, swap), beyond, more in product(((37, 23, 0), (16, 24, 1)), (0, 1), (0, 1, 2, 20, 21, 22)):
        headers = [head(byte1 + more, count + beyond, 0, swap), head(3, 3, 0, 1)]
        yield Case(f"{count + beyond} from byte {byte1 + more}, flag {swap}, then swapped", DSS_TWO, headers)
    for pattern in ("us", "sus"):  # a zero that came from the file is a byte like others
        yield Case(f"a packet a block as {pattern}, of zeros", DSS_TWO, [block[p] for p in pattern], fill=0)
    for byte1, count in product((235, 236, 254, 255), (1, 2)):
        yield Case(f"begins swapped, {count} from byte {byte1}", DSS_THREE, [head(byte1, count, 0, 1)])
    for extra in (0, -1):
        yield Case(f"swapped after 35, end {extra % 512}", DSS_TWO, [head(44, 35), block["s"], SILENT], extra)

def chance(count=230):
    dice = random.Random(1).random  # promised to be the same in every version of Python
    roll = lambda sides: int(dice() * sides)
    pick = lambda *choices: choices[roll(len(choices))]
    for i in range(count):
        magic, kind = pick(*product(DSS, (0,)), *product(DS2, (roll(6), 6, 7)))
        seed, blocks, sort = roll(1 << 31), 1 + roll(8), i % 13 and 1 + i % 3
        headers = [bytearray(h) for h in recording(magic, blocks, kind, roll(2), seed)]
        for _ in range((0, 0, 1 + roll(3), 4 * blocks)[sort]):
            hit, at = pick(*headers), pick(0, 1, 1, 2, 2, 2, 3, 4, 5)
            hit[at] = pick(0, 3, kind if at == 4 else roll(20), hit[at] ^ 1 << roll(8), roll(256))
        first, second = [pick(0, roll(1536 + BLOCK * blocks)) for _ in range(2)]
        extra, step = pick(0, 0, roll(512), -roll(512)), pick(0, 1 + roll(600), 1 + roll(4000))
        if sort == 0:
            headers, extra = [], extra + BLOCK * blocks
        title = f"{('noise', 'recording', 'damaged copy', 'headers')[sort]}, number {i}"
        yield Case(title, magic, headers, extra, seed=seed, first=first, second=second, step=step)

# ---- The list

GROUPS = (examples, magics_and_types, lengths, headers_alone, scan, sp_packets, silent_blocks, qp_segments, qp7_records,
          fetches_and_payloads, pieces, other_kinds, hold, rooms, faults, chance, carried)
# Where each call's refusal stands, and by which numbers it is refused somewhere in the list. Refusal 2 is not
# among them: no file of the list is long enough.
REFUSALS = {"demux_dss": (4, {0, 1, 3, 8}), "SP": (9, {0, 1, 3, 8, 11}), "QP": (14, {0, 1, 3, 9, 11}),
            "QP7": (20, {0, 1, 3, 4, 5, 8, 9, 11}), "open": (29, {0, 10}), "piece": (32, {0, 6, 7, 8}),
            "strict end": (39, {0, 3, 13, 14}), "lenient end": (41, {0, 3}), "piece after": (47, {0, 6}),
            "fetch": (50, {0, 1, 3, 12}), "payload": (56, {0, 1, 3, 12}), "tally": (61, {0, 1, 3, 4, 5}),
            "strict end after": (81, {0, 3, 6}), "frame_place": (89, {0, 1, 3, 12}),
            "other end": (94, {22}), "other end after": (97, {22})}

def entry(number, case, found, rust):
    file = [number, *case.magic, case.length, case.start, case.fill, case.seed, len(case.headers)]
    asked = [case.kind, case.first, case.second, case.step, case.out, case.counts, case.table, case.records,
             case.segments, case.place, case.size, case.scratch, case.block, case.probe, case.part, case.choice]
    marked = ["dr"[place in rust] + str(found[place]) for place in range(1, len(found))]
    lines = [case.title], file + list(b"".join(case.headers)), asked, marked, []
    return "".join(" ".join(map(str, line)) + "\n" for line in lines)

def summary(entries, every):
    """Counts of cases, letters, and refusals in each call."""
    text = "".join(e.split("\n")[3] for e in entries)
    size = sum(map(len, entries))
    print(f"{len(entries)} cases, {size} bytes, {text.count('r')} r, {text.count('d')} d", file=sys.stderr)
    for call, (place, given) in REFUSALS.items():
        counts = collections.Counter(found[place] for found in every)
        print(f"{call}:", ", ".join(f"{number} in {counts[number]}" for number in sorted(counts)), file=sys.stderr)
        assert set(counts) == given, (call, given)

def main():
    cases = [case for group in GROUPS for case in group()]
    files = [case.complete(number) for number, case in enumerate(cases, 1)]
    readers = [Reader(case, file, case.for_packets) for case, file in zip(cases, files)]
    given = ask_rust(pathlib.Path(sys.argv[1]), map(request, cases, files, readers))
    assert len(given) == len(cases) == len({case.title for case in cases})
    entries, every = [], list(map(answers, cases, files, readers))
    for number, (case, file, reader, found, rust) in enumerate(zip(cases, files, readers, every, given), 1):
        calls = allowed(file, reader)
        for place in sorted(places(RUST + ALSO, calls, found)):
            if rust.get(place) != found[place]:
                sys.exit(f"case {number}, {case.title}: answer {place} is {found[place]} by the description, "
                         f"{rust.get(place)} by the Rust\n{vars(case)}")
        entries.append(entry(number, case, found, places(RUST, calls, found)))
    sys.stdout.write("".join(entries))
    summary(entries, every)

if __name__ == "__main__":
    if len(sys.argv) != 2:
        sys.exit("usage: make.py SOURCE_FOLDER > list")
    main()
