"""Measures every job of target/bench/bench by both sides, and prints three tables: x86-64 instructions for each unit, those of the ways to one
packet, and those of an index for each block; and time where the machine is x86-64. Arguments: quick, check, write; bench/run says what they do. Rests
on what bench/build built, and on bench/targets.txt."""
import datetime
import os
import platform
import re
import subprocess
import sys

BENCH = "target/bench/bench"
PLUGIN = "target/bench/count.so"
PAPER = "docs/PERFORMANCE.md"
BEGIN, END = "<!-- bench/run write: begin -->\n", "<!-- bench/run write: end -->\n"
MIB = 1 << 20
COUNTED, QUICK, TIMED, REPETITIONS = 8 * MIB, MIB, 32 * MIB, 7
SIZES = [MIB, 8 * MIB, 64 * MIB]
# the job's name for the driver, what it is, its unit, and whether its growth is looked at
ROWS = [
    ("ds2", "whole DS2 SP", "packet", True),
    ("dss", "whole DSS", "packet", True),
    ("qp", "QP", "block", True),
    ("qp7", "QP7", "record", True),
    ("ds2-512", "DS2 SP in pieces of 512 B", "packet", False),
    ("ds2-4096", "DS2 SP in pieces of 4 KiB", "packet", True),
    ("ds2-65536", "DS2 SP in pieces of 64 KiB", "packet", False),
    ("dss-512", "DSS in pieces of 512 B", "packet", False),
    ("dss-4096", "DSS in pieces of 4 KiB", "packet", True),
    ("dss-65536", "DSS in pieces of 64 KiB", "packet", False),
    ("ds2-tally", "tally of DS2 SP", "packet", True),
    ("dss-tally", "tally of DSS", "packet", True),
    ("ds2-write", "writing DS2 SP", "packet", True),
]
# one packet of DS2 SP: the end of its jobs' names, and which it is
PACKETS = [("0", "0"), ("middle", "the middle one"), ("last", "the last one")]
# a way to it: the beginning of the job's name, the side, and what it is
WAYS = [("ds2-at-", "ours", "ours at once"), ("ds2-to-", "ours", "ours walking"), ("ds2-to-", "rust", "the Rust walking")]
# an index beside DSS: the end of its jobs' names, what is done, and with which recordings, by the beginning of the names
INDEXES = [
    ("-build", "building", ["dss"]),
    ("-read", "reading", ["dss"]),
    ("-find-last", "finding the last packet's entry", ["dss"]),
    ("-by-last", "the last packet by it", ["dss", "dsson", "dss1"]),
]
DSS = {"dss": "12 packets a block", "dsson": "without a gap", "dss1": "one packet a block"}
RECORDINGS = """\
The recordings, each with payload bytes that look random, and a last block that announces only what is complete, so that nothing is short:

- DS2 SP: packets without a gap, reads of 42 and 40 bytes in turn; a block announces those whose first byte it has, 12 or 13.
- DSS: in each block 12 packets, 492 bytes from its payload's start on, the first of them unswapped. There the Rust's stream demuxer reads
  what its whole reading does.
- DSS for an index, too: without a gap, as DS2 SP; and with one packet a block, each swapped but the first, whose byte is carried to all of them.
- QP: frames of 56 bytes without a gap, one segment; a block announces those whose first byte it has, 9 or 10.
- QP7: records of 12 and of 56 bytes, as the payload's bytes have it, about as many of each, without a gap, one segment.
- Writing: the packets of the DS2 SP recording, joined, under its header.
"""
WRITING = "The Rust writes no files: beside writing stands a copy of the packets' bytes, without a ratio, and the target is in instructions of ours."
SOUGHT = "One packet of a DS2 SP recording, at once by its number, or by a walk to it from the start: instructions in all, by the recording's size.\n"
INDEXED = """\
An index beside a DSS recording. The Rust has none: these are instructions of ours alone, for each block of the recording, by its size, and what a
call takes besides, whatever the size is. A call that takes an index holds all of it to the recording first.
"""
NATIVE = platform.machine() == "x86_64"


def run(*command):
    """What a command writes, both ways. The environment is empty, since its length moves the stack."""
    done = subprocess.run(command, env={}, stdout=subprocess.PIPE, stderr=subprocess.PIPE, universal_newlines=True)
    if done.returncode != 0:
        sys.exit("bench: %s: %s" % (" ".join(command), done.stderr.strip()))
    return done.stdout, done.stderr


def driver(*arguments):
    return run(*([] if NATIVE else [qemu(), "-cpu", "qemu64"]), BENCH, *map(str, arguments))[0]


def qemu():
    for folder in os.environ.get("PATH", "").split(":"):
        if os.access(os.path.join(folder, "qemu-x86_64"), os.X_OK):
            return os.path.join(folder, "qemu-x86_64")
    return None


def executed(job, size, side, repetitions):
    command = [qemu(), "-cpu", "qemu64", "-plugin", "file=" + PLUGIN, BENCH, job, size, "count", side, repetitions]
    return int(re.search(r"^instructions: (\d+)$", run(*map(str, command))[1], re.M).group(1))


def instructions(job, size, side):
    """Of one reading alone: making the recording and the lent memory is in both counts."""
    return executed(job, size, side, 1) - executed(job, size, side, 0)


def units(job, size):
    """Both sides hand out the same bytes, or the driver fails."""
    return int(driver(job, size, "check").split()[0])


def targets():
    """Of each job the target, a ratio, or None where the Rust has no such call; and the limit."""
    rows = [line.split() for line in open("bench/targets.txt") if line.strip() and not line.startswith("#")]
    return {job: (None if target == "-" else float(target), float(limit)) for job, target, limit in rows}


def figure(value):
    return "{:,.0f}".format(value) if value >= 99.95 else "%.1f" % value if value >= 9.995 else "%.2f" % value


def share(ratio):
    return "%.3f" % ratio if ratio >= 0.01 else "%.4f" % ratio


def counted(job, size, target, limit, quick, growing):
    """The cells of a row that are instructions, what it reached if that is above its target, and ours for each unit."""
    many = units(job, size)
    ours, rust = instructions(job, size, "ours"), instructions(job, size, "rust")
    if target is None:
        reached, most, told = ours / many, limit, figure(ours / many)
        cells = [told, "copy: " + figure(rust / many), "", "%g instructions" % limit]
    else:
        reached, most, told = ours / rust, target, share(ours / rust)
        cells = [figure(ours / many), figure(rust / many), told, "%.2f" % target]
    above = reached > most
    cells.append("missed by %.0f %%" % (100 * (reached / most - 1)) if above else "")
    if not quick:
        cells += [figure(grown(job, at, size, ours, many)) if growing else "" for at in SIZES]
    return cells, told if above else None, ours / many


def grown(job, at, size, ours, many):
    return ours / many if at == size else instructions(job, at, "ours") / units(job, at)


def timed(job, target):
    """The cells of a row that are time: nanoseconds for each unit, and the file's megabytes a second, a copy's too."""
    many, long = map(int, driver(job, TIMED, "check").split())
    ours, rust, copy = map(int, driver(job, TIMED, "time", REPETITIONS).split())
    speeds = ["%.0f" % (1000 * long / spent) for spent in (ours, rust, copy)]
    if target is None:
        return [figure(ours / many), "copy: " + figure(rust / many), speeds[0], "", speeds[2]]
    return [figure(ours / many), figure(rust / many)] + speeds


def heads(counts, quick):
    cells = ["job", "per"]
    if counts:
        cells += ["ours", "the Rust", "ratio", "target", ""]
        cells += [] if quick else ["ours at %d MiB" % (at // MIB) for at in SIZES]
    if NATIVE and not quick:
        cells += ["ours, ns", "the Rust, ns", "ours, MB/s", "the Rust, MB/s", "copy, MB/s"]
    return cells


def line(cells):
    return "| " + " | ".join(cells) + " |\n"


def grid(rows):
    """The lines of a table whose first row are its heads."""
    return [line(cells) for cells in rows[:1] + [["---"] * len(rows[0])] + rows[1:]]


def table(quick, counts):
    """The table's lines, the rows that miss their target, and each row's instructions of ours."""
    said, missed, spent = targets(), [], {}
    rows = [heads(counts, quick)]
    for job, name, unit, growing in ROWS:
        cells = [name, unit]
        if counts:
            more, above, spent[job] = counted(job, QUICK if quick else COUNTED, *said[job], quick, growing)
            cells += more
            missed += ["%s (%s)" % (name, above)] if above else []
        if NATIVE and not quick:
            cells += timed(job, said[job][0])
        rows.append(cells)
    return grid(rows), missed, spent


def blocks(size, header):
    """Of a recording whose size is a multiple of a block's, by how many blocks its header is as long as."""
    return size // 512 - header


def ways_compared(end, size):
    """The jobs whose ways lead to this packet. Each hands out the same bytes, or the driver fails."""
    jobs = sorted({begin + end for begin, _, _ in WAYS})
    for job in jobs:
        units(job, size)
    return jobs


def ways_counted(end, size):
    """Instructions of each way to a packet."""
    ways_compared(end, size)
    return [instructions(begin + end, size, side) for begin, side, _ in WAYS]


def ways_timed(end):
    """Microseconds of each way to a packet."""
    spent = {job: driver(job, TIMED, "time", REPETITIONS).split() for job in ways_compared(end, TIMED)}
    return [int(spent[begin + end][["ours", "rust"].index(side)]) / 1000 for begin, side, _ in WAYS]


def ways_heads(sizes, counts, timing):
    cells = ["packet"]
    cells += ["%s, %d MiB" % (what, at // MIB) for _, _, what in WAYS for at in sizes] if counts else []
    return cells + (["%s, %d MiB, microseconds" % (what, TIMED // MIB) for _, _, what in WAYS] if timing else [])


def ways(quick, counts):
    """The lines of the table of ways to one packet, and of the last one at once the instructions for each block."""
    sizes, timing, last = [QUICK] if quick else SIZES, NATIVE and not quick, []
    rows = [ways_heads(sizes, counts, timing)]
    for end, name in PACKETS:
        cells = [name]
        if counts:
            found = [ways_counted(end, at) for at in sizes]
            cells += [figure(count) for way in zip(*found) for count in way]
            last = [count[0] / blocks(at, 3) for count, at in zip(found, sizes)]
        cells += map(figure, ways_timed(end)) if timing else []
        rows.append(cells)
    told = ["\n", "At once, the last one takes %s instructions for each block.\n" % ", ".join(map(figure, last))] if counts else []
    return ["\n", SOUGHT, "\n"] + grid(rows) + told, {"ds2-at-last": last[0]} if counts else {}


def index_counted(job, sizes):
    """Instructions of ours for each block, at each size; and, where there are two sizes, those besides, by the first and the last."""
    for size in sizes:
        units(job, size)
    spent, many = [instructions(job, size, "ours") for size in sizes], [blocks(size, 2) for size in sizes]
    each = [count / of_blocks for count, of_blocks in zip(spent, many)]
    return each + [spent[0] - many[0] * (spent[-1] - spent[0]) / (many[-1] - many[0])] if len(sizes) > 1 else each


def index_timed(job):
    """Microseconds of ours."""
    units(job, TIMED)
    return int(driver(job, TIMED, "time", REPETITIONS).split()[0]) / 1000


def index_heads(sizes, counts, timing):
    cells = ["index", "recording"]
    cells += ["for each block, %d MiB" % (at // MIB) for at in sizes] if counts else []
    cells += ["besides"] if counts and len(sizes) > 1 else []
    return cells + (["%d MiB, microseconds" % (TIMED // MIB)] if timing else [])


def indexes(quick, counts):
    """The lines of the table of an index, and of each of its jobs the instructions for each block, at the first size."""
    sizes, timing, spent = [QUICK] if quick else SIZES, NATIVE and not quick, {}
    rows = [index_heads(sizes, counts, timing)]
    for job, what, recording in [(begin + end, what, DSS[begin]) for end, what, beginnings in INDEXES for begin in beginnings]:
        cells = [what, recording]
        if counts:
            figures = index_counted(job, sizes)
            spent[job] = figures[0]
            cells += map(figure, figures)
        cells += [figure(index_timed(job))] if timing else []
        rows.append(cells)
    return ["\n", INDEXED, "\n"] + grid(rows), spent


def processor():
    told = run("/usr/bin/lscpu")[0] if os.access("/usr/bin/lscpu", os.X_OK) else ""
    found = re.search(r"^Model name:\s*(.+)$", told, re.M)
    return found.group(1) if found else "of a model that is not told"


def machine(counts):
    rustc = subprocess.check_output([os.environ.get("RUSTC", "rustc"), "--version"], universal_newlines=True).strip()
    kit = subprocess.check_output(["rt", "version"], universal_newlines=True).split()[0]
    emulator = run(qemu(), "--version")[0].splitlines()[0] if counts else "no emulator"
    return "%s, %s, processor %s; %s; %s; %s.\n" % (datetime.date.today(), platform.machine(), processor(), kit, rustc, emulator)


def steady(size):
    """Whether one row, counted again, is the same."""
    counts = [[executed("ds2-512", size, side, 1) for side in ("ours", "rust")] for _ in range(2)]
    return "A row counted again gave the same number to the instruction." if counts[0] == counts[1] else "Counted again, a row gave %s for %s." % tuple(counts)


def notes(quick, counts, missed):
    size = QUICK if quick else COUNTED
    lines = []
    if counts:
        lines.append("Instructions are counted on recordings of %d MiB. %s" % (size // MIB, steady(size)))
    else:
        lines.append("Instructions are not counted: qemu-x86_64 or a C compiler is missing.")
    if not NATIVE:
        lines.append("Time is left out: the machine is not x86-64, and the time of an emulator says nothing.")
    elif not quick:
        lines.append("Time is the best of %d repetitions on recordings of %d MiB." % (REPETITIONS, TIMED // MIB))
    lines.append(WRITING)
    if counts:
        lines.append("Targets missed: %s." % (", ".join(missed) or "none"))
    return ["\n"] + [text + "\n" for text in lines] + ["\n", RECORDINGS]


def write(lines):
    text = open(PAPER).read()
    before, rest = text.split(BEGIN)
    open(PAPER, "w").write(before + BEGIN + "".join(lines) + END + rest.split(END)[1])


def main(words):
    quick, counts = "quick" in words, os.path.exists(PLUGIN)
    lines, missed, spent = table(quick, counts)
    lines = [machine(counts), "\n"] + lines + notes(quick, counts, missed)
    for further in (ways, indexes):
        more, of_calls = further(quick, counts)
        spent.update(of_calls)
        lines += more
    sys.stdout.write("".join(lines))
    if "write" in words:
        write(lines)
    if "check" not in words:
        return 0
    above = [job for job in spent if spent[job] > targets()[job][1]]
    for job in above:
        print("bench: %s takes %.2f instructions, above its limit %.2f" % (job, spent[job], targets()[job][1]))
    return 1 if above or not counts else 0


if __name__ == "__main__":
    sys.exit(main(sys.argv[1:]))
