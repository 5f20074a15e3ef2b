"""listing.py LIST WORD ..: tries the program `list`, which the words run, on the files of LIST, crates/test_vectors/stdin, and through slow pipes.

Each file of the list is made anew and given to it, and the line is held to the tally that the list has for it. Some go through a
pipe that delivers them in small parts. Then what no list holds: no input, input of a byte too many and of millions, and input that
cannot be read. Prints how many files there were, and every line that is wrong.
"""
import os
import re
import subprocess
import sys
import time

MOST = 65536
NAMES = ["DSSSP", "DS2SP", "DS2QP", "DS2QP7"]
TALLY = slice(60, 71)  # the tally among a case's answers
OF_RECORD = (4, 5)  # refusals of a record, whose size and absent bytes the line has too


def made(numbers: list) -> bytes:
    """The file of a case, as the list's maker describes it."""
    magic, (length, start, fill, seed, blocks), headers = numbers[:4], numbers[4:9], numbers[9:]
    file = bytearray(length)
    state = seed
    for at in range(start, length):
        state = (state * 1103515245 + 12345) % 2147483648
        file[at] = [0, state // 65536 % 256, 255][fill]
    for block in range(blocks):
        for k in range(6):
            if start + 512 * block + k < length:
                file[start + 512 * block + k] = headers[6 * block + k]
    file[: min(4, length)] = bytes(magic)[: min(4, length)]
    return bytes(file)


def cases(path: str):
    """Number, file and expected line of each case."""
    with open(path, encoding="ascii") as text:
        groups = [group.split("\n") for group in text.read().strip().split("\n\n")]
    for _title, file, _asked, answers in groups:
        numbers = [int(n) for n in re.findall(r"\d+", file)]
        tally = [int(n) for n in re.findall(r"\d+", answers)][TALLY]
        told = tally[:2] + (tally[9:] if tally[0] in OF_RECORD else [])
        line = " ".join(map(str, ["refused", *told] if tally[0] else [NAMES[tally[2]], *tally[3:9]]))
        content = made(numbers[1:])
        yield numbers[0], content, f"refused 2 {MOST}" if len(content) > MOST else line


def listed(program: list, file: bytes) -> str:
    return subprocess.run(program, input=file, stdout=subprocess.PIPE, check=True).stdout.decode()


def listed_slowly(program: list, file: bytes, part: int) -> str:
    """The same through a pipe that delivers so many bytes at a time."""
    with subprocess.Popen(program, stdin=subprocess.PIPE, stdout=subprocess.PIPE) as process:
        try:
            for at in range(0, len(file), part):
                os.write(process.stdin.fileno(), file[at : at + part])
                time.sleep(0.001)
            process.stdin.close()
        except BrokenPipeError:
            pass
        return process.stdout.read().decode()


def main() -> int:
    path, program = sys.argv[1], sys.argv[2:]
    tried, slow, wrong = 0, 0, []

    def expect(what: str, got: str, line: str) -> None:
        if got != line + "\n":
            wrong.append(f"{what}: expected {line!r}, got {got!r}")

    for number, file, line in cases(path):
        tried += 1
        expect(f"case {number}", listed(program, file), line)
        if number % 60 == 0:
            slow += 1
            expect(f"case {number}, slowly", listed_slowly(program, file, max(1, len(file) // 40)), line)
    expect("no input", listed(program, b""), "refused 1 0")
    expect("four bytes, one by one", listed_slowly(program, b"\1ds2", 1), "refused 3 1536")
    expect("one byte too many, slowly", listed_slowly(program, b"\2dss" + bytes(MOST - 3), 4099), f"refused 2 {MOST}")
    expect("far too long", listed(program, b"\2dss" + bytes(64 * MOST)), f"refused 2 {MOST}")
    folder = os.open(".", os.O_RDONLY)
    unread = subprocess.run(program, stdin=folder, stdout=subprocess.PIPE, stderr=subprocess.PIPE, check=False)
    if unread.stdout or not unread.stderr:
        wrong.append(f"a folder, which cannot be read: got {unread.stdout!r} and {unread.stderr!r}")
    for line in wrong:
        print(f"listing: {line}")
    print(f"listing: {tried} files, {slow} of them slowly, and 5 inputs more, {len(wrong)} wrong")
    return 1 if wrong or tried < 1000 else 0


if __name__ == "__main__":
    sys.exit(main())
