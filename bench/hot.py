"""Where the instructions of a job go: python3 bench/hot.py JOB [SIZE] [SIDE] prints, for each function, its instructions for each call of
the job's piece (or for the whole reading), and then the same for the hottest straight runs of code. Rests on what bench/build built, on the
plugin's list of blocks, and on nm."""
import bisect
import collections
import os
import subprocess
import sys
import tempfile

sys.dont_write_bytecode = True
from table import BENCH, MIB, PLUGIN, qemu, run

# where the emulator puts a program that is linked to lie anywhere; one that is linked to lie somewhere ends far below
LOADED = 0x4000000000


def blocks(job, size, side, repetitions):
    """Of each translated block, by address and length, how often it was executed."""
    with tempfile.NamedTemporaryFile("r") as told:
        plugin = "file=%s,blocks=%s" % (PLUGIN, told.name)
        run(*map(str, [qemu(), "-cpu", "qemu64", "-plugin", plugin, BENCH, job, size, "count", side, repetitions]))
        found = collections.Counter()
        for address, instructions, executed in map(str.split, told):
            found[int(address, 16) % LOADED, int(instructions)] += int(executed)
    return found


def functions():
    """Addresses in order, and the names that begin there."""
    told = subprocess.check_output([os.environ.get("NM", "nm"), "-C", "--defined-only", "-n", BENCH], universal_newlines=True)
    rows = [text.split(" ", 2) for text in told.splitlines()]
    rows = [(int(address, 16), name.strip()) for address, kind, name in rows if kind in "tTwWiI"]
    return [address for address, _ in rows], [name for _, name in rows]


def main(job, size=MIB, side="ours"):
    spent = blocks(job, size, side, 1)
    spent.subtract(blocks(job, size, side, 0))
    bytes_a_call = job.partition("-")[2]
    calls = -(-int(size) // int(bytes_a_call)) if bytes_a_call.isdigit() else 1
    addresses, names = functions()
    name_of = lambda address: names[bisect.bisect(addresses, address) - 1] if address <= addresses[-1] else "a library"
    by_name = collections.Counter()
    for (address, instructions), executed in spent.items():
        by_name[name_of(address)] += instructions * executed
    print("%s, %s, %s bytes, for each of %d calls: %.1f instructions" % (job, side, size, calls, sum(by_name.values()) / calls))
    for name, sum_of in by_name.most_common(16):
        print("%10.1f  %s" % (sum_of / calls, name))
    print("the hottest runs: instructions, of them in the run, how often, address, function")
    runs = sorted(spent.items(), key=lambda item: -item[0][1] * item[1])
    for (address, instructions), executed in runs[:24]:
        row = (instructions * executed / calls, instructions, executed / calls, address, name_of(address))
        print("%10.1f %4d %9.2f  %x  %s" % row)


if __name__ == "__main__":
    main(*sys.argv[1:])
