#!/usr/bin/env python3
"""Times two frame books on whole inputs: the proved `framebook` and `second`, both from a file and to nowhere, in turn, the least of some
runs each. First 66 MB each of lines that are refused early, in five kinds; then 100 MB of frames with bodies of 1,500 octets to seal, and the
same ones sealed to open, and as much with the longest bodies. Last what a line takes where each read gives one.

  bench/books.py [RUNS]        5 runs where none is given; needs Cargo

FRAMEBOOK in the environment names another program than target/bin/framebook.
"""
import fcntl
import filecmp
import os
import pathlib
import subprocess
import sys
import tempfile
import time

root = pathlib.Path(__file__).resolve().parent.parent
runs = int(sys.argv[1]) if len(sys.argv) > 1 else 5
framebook = pathlib.Path(os.environ.get("FRAMEBOOK", root / "target/bin/framebook")).resolve()
second = root / "second/target/release/second"

# The peer has the own address, so that the book opens what it sealed.
KEY = b"key\t000102030405060708090a0b0c0d0e0f\t0\t020000000001\t020000000001\n"


def seal_line(first, octets):
    """A line that seals a frame of so many octets from the own address."""
    header = first + b"000000ffffffffffff0200000000010200000000030000"
    return b"seal\t" + header + bytes(i * 7 % 256 for i in range(octets - 24)).hex().encode() + b"\n"


BODIES = (1_500, 7_935)
REFUSED = {
    "short frames": b"seal\t08\n",
    "malformed lines": b"send\t08\nseal 08\nseal\t0g\nopen\t080\nopen\t08\r\nseal\n\n",
    "wrong type, 3,053 octets": seal_line(b"04", 1_524),
    "wrong type, 15,999 octets": seal_line(b"04", 7_997),
    "bad, 16,000 octets": seal_line(b"04", 7_997)[:-1] + b"0\n",
}


def write_book(file, lines, octets):
    with file.open("wb") as book:
        book.write(KEY)
        repeats = octets // len(lines)
        for _ in range(repeats // 1_000):
            book.write(lines * 1_000)
        book.write(lines * (repeats % 1_000))


def write_sealed(file, answers):
    """A book that opens what those answers sealed."""
    with answers.open("rb") as lines, file.open("wb") as book:
        book.write(KEY)
        book.writelines(b"open\t" + line.rpartition(b"\t")[2] for line in lines)


def answers(program, book, output):
    with book.open("rb") as lines, output.open("wb") as written:
        subprocess.run([program], stdin=lines, stdout=written, check=True)


def seconds(program, book):
    with book.open("rb") as lines:
        start = time.perf_counter()
        subprocess.run([program], stdin=lines, stdout=subprocess.DEVNULL, check=True)
        return time.perf_counter() - start


def seconds_by_reads(pieces):
    """Of `framebook`, where each read gives it one of these pieces. It answers each at once, which `second` does not."""
    source, sink = os.pipe2(os.O_DIRECT)
    fcntl.fcntl(sink, fcntl.F_SETPIPE_SZ, 1 << 20)
    start = time.perf_counter()
    with subprocess.Popen([framebook], stdin=source, stdout=subprocess.DEVNULL):
        os.close(source)
        for piece in pieces:
            os.write(sink, piece)
        os.close(sink)
    return time.perf_counter() - start


def compare(work, book, ours, theirs):
    """Leaves what each of the two writes in `ours` and `theirs`."""
    answers(framebook, book, ours)
    answers(second, book, theirs)
    if not filecmp.cmp(ours, theirs, shallow=False):
        sys.exit(f"{work}: the two write different answers")
    times = [(seconds(framebook, book), seconds(second, book)) for _ in range(runs)]
    rates = [book.stat().st_size / 1e6 / min(column) for column in zip(*times)]
    print(f"{work:<26} {rates[0]:>7.1f} MB/s {rates[1]:>7.1f} MB/s {rates[1] / rates[0]:>6.2f}", flush=True)


if not framebook.exists():
    sys.exit(f"{framebook} isn't there: `tools/program framebook` makes it")
subprocess.run(["cargo", "build", "--release", "--quiet", "--manifest-path", root / "second/Cargo.toml"], check=True)
print(f"{'work':<26} {'framebook':>12} {'second':>12} {'ratio':>6}")
with tempfile.TemporaryDirectory() as folder:
    book, ours, theirs = (pathlib.Path(folder, name) for name in ("book", "ours", "theirs"))
    for work, lines in REFUSED.items():
        write_book(book, lines, 66_000_000)
        compare(work, book, ours, theirs)
    for length in BODIES:
        write_book(book, seal_line(b"08", 24 + length), 100_000_000)
        compare(f"{length} octets to seal", book, ours, theirs)
        write_sealed(book, theirs)
        compare(f"{length} octets to open", book, ours, theirs)
lines = [KEY] + 100_000 * [REFUSED["short frames"]]
print(f"short frames, one at each read: {min(seconds_by_reads(lines) for _ in range(runs)) / len(lines) * 1e6:.2f} µs a line")
