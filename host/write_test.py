#!/usr/bin/env python3
"""Compares the writing program with its description, and reads what it writes by both intake programs: write_test.py FOLDER [RUNNER].

FOLDER has the programs write, intake-c and intake-rust. The expected file, line and exit status come from a model written here from the
format's description (docs/FORMAT.md); what the runs have in common with an intake's, and the recordings, are those of c/intake_test.py.
Prints how many runs there were, and how many of them were wrong.
"""
import os
import random
import resource
import subprocess
import sys
import tempfile
import time

HERE = os.path.dirname(os.path.abspath(__file__))
sys.path.insert(0, os.path.join(HERE, "c"))
import intake_test
from intake_test import COMPLETE, FAILED, LEFT, LIMIT, PAYLOAD, REFUSED, WRONG_USE, Maker, contents, refused, stamp, write

PACKET, HEADER = 42, 1536
MOST = 6470444  # packets of the longest file
MOST_READ = LIMIT // 40  # packets that are read at most


def source(name):
    with open(os.path.join(HERE, name), encoding="utf-8") as f:
        return f.read()


HELP = source("examples/write.rs").split('const HELP: &str = "\\\n', 1)[1].split('";\n', 1)[0]


# The model: the recording of some packets.

def reads(packets):
    """The packets' reads, every other one swapped."""
    for k, packet in enumerate(packets):
        if k % 2 == 0:
            carried = packets[k + 1][1:2] if k + 1 < len(packets) else b"\0"
            yield packet[:40] + carried + packet[41:]
        else:
            read = bytearray(40)
            read[0::2] = packet[3::2]
            read[1::2] = packet[0:40:2]
            yield bytes(read)


def recording(header, packets):
    joined, begins = b"", []
    for read in reads(packets):
        begins.append(len(joined))
        joined += read
    blocks = []
    for at in range(0, len(joined), PAYLOAD):
        inside = [k for k, place in enumerate(begins) if at <= place < at + PAYLOAD]
        flag = 0x8F if inside and inside[0] % 2 == 1 else 0x0F
        byte1 = 3 + (begins[inside[0]] - at) // 2 if inside else 0
        blocks.append(bytes((flag, byte1, len(inside), 0xFF, 0, 0xFF)) + joined[at:at + PAYLOAD].ljust(PAYLOAD, b"\0"))
    return header + b"".join(blocks)


def expected(header, joined):
    """The line, the recording, if there is one, and the exit status."""
    packets = [joined[i:i + PACKET] for i in range(0, len(joined), PACKET)]
    if len(header) != HEADER or header[:4] not in (b"\x01ds2", b"\x03ds2"):
        return refused(15, 0), None, REFUSED
    for k, packet in enumerate(packets):
        if len(packet) < PACKET or packet[40] != 0:
            return refused(16, k), None, REFUSED
    made = recording(header, packets)
    return f"written: {len(packets)} packets, {len(made)} bytes\n", made, COMPLETE


# The runs.

class Trial(intake_test.Trial):
    program, output = "write", "recording"

    def __init__(self, command, folder):
        super().__init__(command, folder)
        self.out = self.packets
        self.header, self.given = os.path.join(folder, "header"), os.path.join(folder, "given")
        self.all = [self.header, self.given, self.out]

    def write(self, name, header, joined, by="files", force=False, pipe="-"):
        """Writes a recording of a header and of packets, from files or one of the two through a pipe, which is called so. With force there is a
        file, and it is replaced."""
        line, made, status = expected(header, joined)
        self.give(header, joined, LEFT if force else None)
        names, given = list(self.all), {}
        if by != "files":
            names[by == "packets"] = pipe
            given = {"input": joined if by == "packets" else header}
        self.run(name, (["--force"] if force else []) + names, (line, LEFT if made is None and force else made, status), **given)

    def give(self, header, joined, left=None):
        write(self.header, header)
        write(self.given, joined)
        write(self.out, left)

    def read_back(self, name, readers, joined):
        """Both intakes say of what was written that it is complete, and give the packets that it was made of."""
        line = f"complete as announced: {len(joined) // PACKET} packets\n"
        for reader in readers:
            write(reader.packets, None)
            reader.run(name, [self.out, reader.packets], (line, joined, COMPLETE))


def header_of(rng, first):
    return bytes((first,)) + b"ds2" + bytes(rng.randrange(256) for _ in range(HEADER - 4))


def packets_of(rng, number):
    return b"".join(bytes(0 if i == 40 else rng.randrange(256) for i in range(PACKET)) for _ in range(number))


def written(trial, readers):
    rng = random.Random(30)
    for number in (0, 1, 2, 11, 12, 13, 14, 24, 25, 36, 37, 38, 506, 507, *(rng.randrange(200) for _ in range(4))):
        header, joined = header_of(rng, rng.choice((1, 3))), packets_of(rng, number)
        for by in ("files", "packets", "header"):
            pipe = "/dev/stdin" if number % 3 == 0 else "-"
            trial.write(f"{number} packets by {by}", header, joined, by, force=number % 2 == 0, pipe=pipe)
        trial.read_back(f"{number} packets", readers, joined)


def refusals(trial):
    rng = random.Random(31)
    good, joined = header_of(rng, 1), packets_of(rng, 14)
    for length in (0, 3, 4, 512, 1535, 1537, 2048, 100000):
        trial.write(f"a header of {length} bytes", (good * 70)[:length], joined, force=length % 2 == 0)
    for magic in (b"\x07ds2", b"\x02ds2", b"\x03dss", b"\x02dss", b"\x03enc", b"RIFF"):
        trial.write(f"a header {magic}", magic + good[4:], joined[:-1], by="header" if magic[0] == 7 else "files")
    for length in (1, 41, 43, PACKET * 14 - 1, PACKET * 13 + 1):
        trial.write(f"{length} bytes of packets", good, joined[:length], by="packets" if length == 43 else "files", force=length == 41)
    for places in ((40,), (PACKET * 13 + 40,), (PACKET * 5 + 40, PACKET * 9 + 40)):
        changed = bytearray(joined)
        for place in places:
            changed[place] = 1 + rng.randrange(255)
        for cut in (0, 1):
            trial.write(f"byte 40 set at {places}", good, bytes(changed[:len(changed) - cut]))


def header_first(trial):
    """A header that is refused is told while packets may still come."""
    read_end, write_end = os.pipe()
    for header in (b"", BARE[:-1], b"\x07" + BARE[1:]):
        trial.give(header, None)
        trial.run("a bad header, and packets to come", [trial.header, "-", trial.out], (refused(15, 0), None, REFUSED), stdin=read_end)
    os.close(write_end)
    os.close(read_end)


def from_intakes(trial, readers):
    """The packets that an intake writes of a recording, complete or not, are written again; of one as a recorder makes it, which ends with
    a packet, the same recording comes."""
    m = Maker(32)
    same = m.file(b"\x01ds2", HEADER, *m.continuous(41, dss=False))
    silent = [m.block(0) for _ in range(30)]
    cases = [("as a recorder makes it", same),
             ("ds2 swapped first", m.file(b"\x03ds2", HEADER, *m.continuous(7, dss=False, swapped=True))),
             ("ds2 many short", m.file(b"\x01ds2", HEADER, m.block(255), m.block(255), tail=b"cut")),
             ("ds2 silent", m.file(b"\x01ds2", HEADER, *m.continuous(3, dss=False), *silent, m.block(9))),
             ("ds2 empty", m.file(b"\x03ds2", HEADER)),
             ("dss", m.file(b"\x02dss", 1024, *m.continuous(6, dss=True))),
             ("dss swapped first", m.file(b"\x03dss", HEADER, *m.continuous(6, dss=True, swapped=True)))]
    for name, data in cases:
        line, joined, status = intake_test.expected(data)
        header = data[:HEADER] if data[1:4] == b"ds2" else header_of(m.rng, 3)
        for reader in readers:
            write(reader.recording, data)
            write(reader.packets, None)
            reader.run(name, [reader.recording, reader.packets], (line, joined, status))
            trial.write(f"{name}, again", header, contents(reader.packets))
        trial.hold(name, "" if data != same or contents(trial.out) == same else "another recording came")
        trial.read_back(f"{name}, again", readers, joined)


def wrong_uses(trial, folder):
    trial.give(BARE, TWO)
    for option in ("-1", "--forces", "-f", "--help=1"):
        trial.fails(f"option {option}", trial.all + [option], f"no option {option}; --help tells more", WRONG_USE)
    for names in ([], trial.all[:1], trial.all[:2], trial.all + ["1"], ["--force"] + trial.all[:2], ["--"], ["--", *trial.all, "--force"]):
        trial.fails("names", names, "it takes HEADER PACKETS OUT; --help tells more", WRONG_USE)
    trial.fails("both from standard input", ["-", "-", trial.out], "standard input is either HEADER or PACKETS; --help tells more", WRONG_USE)
    trial.run("help", ["--help"], (HELP, None, COMPLETE))
    trial.run("help beside others", ["--force", *trial.all, "--help", "-x"], (HELP, None, COMPLETE))
    for missing in ("none", "none/file"):
        name = os.path.join(folder, missing)
        trial.fails("no such header", [name, trial.given, trial.out], f"{name}: No such file or directory")
        trial.fails("no such packets", [trial.header, name, trial.out], f"{name}: No such file or directory")
    trial.fails("a folder for a header", [folder, trial.given, trial.out], f"{folder}: Is a directory")
    trial.fails("a folder for packets", [trial.header, folder, trial.out], f"{folder}: Is a directory")
    trial.run("names after --", ["--", *trial.all], expected(BARE, TWO))
    write(trial.out, LEFT)
    trial.run("options last", trial.all + ["--force"], expected(BARE, TWO))


BARE = b"\x03ds2" + bytes(range(256)) * 5 + bytes(HEADER - 4 - 256 * 5)
TWO = b"x" * 40 + b"\0x" + b"y" * 40 + b"\0y"


def not_replaced(trial, folder):
    """What is there stays as it was, but for a file with --force."""
    for left in (LEFT, b""):
        trial.give(BARE, TWO, left)
        trial.fails("there already", trial.all, f"{trial.out}: it is there already; --force replaces it", packets=left)
    for other in (BARE, recording(BARE, [TWO[:PACKET]]), b"\x02dss and more", b"\x07ds2"):
        trial.give(BARE, TWO, other)
        for options in ([], ["--force"]):
            trial.fails("a recording", options + trial.all, f"{trial.out}: it is a recording", packets=other)
    write(trial.out, None)
    for path, itself in ((trial.header, "it is the header itself"), (trial.given, "it is the packets themselves")):
        before = contents(path)
        for name, make in (("by name", None), ("by a symlink", os.symlink), ("by a hard link", os.link)):
            out = os.path.join(trial.folder, "itself") if make else path
            if make:
                make(path, out)
            for options in ([], ["--force"]):
                trial.fails(f"an input {name}", options + [trial.header, trial.given, out], f"{out}: {itself}")
                with open(path, "rb") as f:
                    names = ["-" if one == path else one for one in (trial.header, trial.given)]
                    trial.fails(f"an input {name}, as standard input", options + [*names, out], f"{out}: {itself}", stdin=f)
            trial.hold(f"an input {name}", "" if contents(path) == before else "it was written over")
            if make:
                os.remove(out)
    not_files(trial, folder)


def not_files(trial, folder):
    fifo = os.path.join(trial.folder, "fifo")
    os.mkfifo(fifo)
    for out in (folder, trial.folder + "/", fifo, "/dev/null"):
        if out == "/dev/null" and trial.wrong > 0:
            break  # only a program that was right so far is let at what is not the test's own
        for options in ([], ["--force"]):
            kind = os.lstat(out).st_mode
            trial.fails("not a file", options + [trial.header, trial.given, out], f"{out}: it is not a file")
            trial.hold("not a file", "" if os.lstat(out).st_mode == kind else f"{out} was replaced")
    os.remove(fifo)


def links_replaced(trial, folder):
    """With --force a link to a file is replaced, and what it leads to is left."""
    target = os.path.join(folder, "target")
    trial.give(BARE, TWO)
    write(target, LEFT)
    before = stamp(target)
    os.symlink(target, trial.out)
    trial.fails("a link", trial.all, f"{trial.out}: it is there already; --force replaces it", packets=LEFT)
    trial.run("a link", ["--force", *trial.all], expected(BARE, TWO))
    trial.hold("a link", "" if stamp(target) == before and not os.path.islink(trial.out) else "it was not replaced, or its target was")
    os.remove(target)


def failing_outputs(trial, folder):
    for options in ([], ["--force"]):
        trial.give(BARE, TWO)
        for out, says in ((os.path.join(folder, "none", "out"), "No such file or directory"), (trial.header + "/out", "Not a directory"),
                          ("/proc/out", "")):  # where nobody makes files
            trial.fails("a folder for no files", options + [trial.header, trial.given, out], f"{out}: {says}")

    def small_files():
        resource.setrlimit(resource.RLIMIT_FSIZE, (1000, 1000))

    for left in (None, LEFT):
        trial.give(BARE, TWO, left)
        # the signal that goes with it is ignored, as Python does
        trial.fails("no room for the file", ["--force", *trial.all], f"{trial.out}: File too large", packets=left,
                    preexec_fn=small_files, restore_signals=False)
    made = expected(BARE, TWO)[1]
    with open("/dev/full", "wb") as full:
        for name, arguments in (("line", trial.all), ("help", ["--help"])):
            write(trial.out, None)
            trial.run(f"no room for the {name}", arguments, ("", made if name == "line" else None, FAILED),
                      "standard output: No space left on device", stdout=full)
    read_end, write_end = os.pipe()
    os.close(read_end)
    trial.run("nobody reads the line", trial.all, ("", made, FAILED), "standard output: Broken pipe", stdout=write_end)
    os.close(write_end)


def made_meanwhile(trial):
    """A file that is made while the packets are read is not overwritten."""
    for force in ([], ["--force"]):
        trial.give(BARE, None)
        with subprocess.Popen(trial.command + force + [trial.header, "-", trial.out], stdin=subprocess.PIPE, stdout=subprocess.PIPE,
                              stderr=subprocess.PIPE) as program:
            program.stdin.write(TWO[:50])
            program.stdin.flush()
            while program.poll() is None and not os.listdir(trial.folder):
                time.sleep(0.01)
            names = os.listdir(trial.folder)
            write(trial.out, LEFT)
            out, errors = program.communicate(TWO[50:], timeout=300)
        trial.runs += 1
        want = expected(BARE, TWO) if force else ("", LEFT, FAILED)
        fine = (out.decode(), contents(trial.out), program.returncode) == want
        fine = fine and names == [f".write-{program.pid}"] and os.listdir(trial.folder) == ["recording"]
        trial.hold("made meanwhile", "" if fine else f"got {program.returncode} {out!r} {errors!r}, temporary {names}")


def taken_name(trial):
    """A file with the temporary file's name is left alone. The shell's process number becomes the program's."""
    trial.give(BARE, TWO)
    shell = ["sh", "-c", 'echo mine >"$0/.write-$$"; exec "$@"', trial.folder]
    done = subprocess.run(shell + trial.command + trial.all, capture_output=True, stdin=subprocess.DEVNULL)
    trial.runs += 1
    others = [os.path.join(trial.folder, n) for n in os.listdir(trial.folder) if n != "recording"]
    fine = (done.stdout.decode(), contents(trial.out), done.returncode) == expected(BARE, TWO)
    trial.hold("taken name", "" if fine and [contents(n) for n in others] == [b"mine\n"] else f"got {done!r}, {others}")
    for name in others:
        os.remove(name)


def closed_streams(trial):
    """A closed stream brings nothing and takes anything, and no file of the program gets its number."""
    for stream in (0, 1, 2):
        for joined in (TWO, TWO[1:]):
            trial.give(BARE, joined)
            line, made, status = expected(BARE, joined)
            trial.run(f"stream {stream} closed", trial.all, ("" if stream == 1 else line, made, status), preexec_fn=lambda: os.close(stream),
                      restore_signals=True)
    trial.give(BARE, None)
    trial.run("packets from a closed stream", [trial.header, "-", trial.out], expected(BARE, b""), preexec_fn=lambda: os.close(0))


def over_the_limit(trial):
    """Zeros, which are not held in memory here; and more than is ever read."""
    trial.give(BARE, b"")
    os.truncate(trial.given, PACKET * (MOST + 1))
    for packets in (trial.given, "/dev/zero"):
        trial.run(f"too many packets, {packets}", [trial.header, packets, trial.out], (refused(17, LIMIT), None, REFUSED))
    os.truncate(trial.given, PACKET * MOST + 1)
    trial.run("a cut packet after too many", trial.all, (refused(16, MOST), None, REFUSED))
    os.truncate(trial.given, PACKET * MOST_READ + 100)
    for bad, told in ((MOST_READ, refused(17, LIMIT)), (MOST_READ - 1, refused(16, MOST_READ - 1))):
        with open(trial.given, "r+b") as f:
            f.seek(PACKET * bad + 40)
            f.write(b"x")
        trial.run(f"packet {bad} is bad", trial.all, (told, None, REFUSED))
    trial.run("a header without an end", ["/dev/zero", trial.given, trial.out], (refused(15, 0), None, REFUSED))


def main():
    if len(sys.argv) not in (2, 3):
        sys.exit("usage: write_test.py FOLDER [RUNNER]")

    def command(name):
        return sys.argv[2:] + [os.path.abspath(os.path.join(sys.argv[1], name))]

    with tempfile.TemporaryDirectory() as folder:
        trials = {}
        for name in ("write", "intake-c", "intake-rust"):
            own = os.path.join(folder, name)
            os.mkdir(own)
            trials[name] = (Trial if name == "write" else intake_test.Trial)(command(name), own)
        trial, *readers = trials.values()
        own = os.path.dirname(trial.folder)
        written(trial, readers)
        refusals(trial)
        header_first(trial)
        from_intakes(trial, readers)
        wrong_uses(trial, own)
        not_replaced(trial, own)
        links_replaced(trial, own)
        failing_outputs(trial, own)
        made_meanwhile(trial)
        trial.give(BARE, None)
        intake_test.lost_meanwhile(trial, [trial.header, "-", trial.out], TWO)
        trial.give(BARE, TWO)
        intake_test.unreadable(trial, [folder, own], trial.all)
        taken_name(trial)
        closed_streams(trial)
        over_the_limit(trial)
    wrong = sum(one.wrong for one in trials.values())
    print(f"write_test: {trial.runs} runs, {sum(one.runs for one in readers)} of the intakes beside them, {wrong} wrong{trial.left_out}")
    sys.exit(1 if wrong else 0)


if __name__ == "__main__":
    main()
