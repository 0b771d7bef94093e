#!/usr/bin/env python3
"""A day of aggregated pictures, by two frame books: the proved `framebook` and `second` seal frames with the longest body, of every header
shape, and open what they sealed after a radio that loses some, repeats some, and damages some that then come again. What each writes is
compared octet for octet with the other's, and what is opened with what is due: the plain frame once, 10 for one that was opened, 11 for a
damaged one.

  tests/day.py [FRAMES [SEED]]        10,000 frames and seed 1 where none is given; needs Cargo

FRAMEBOOK in the environment names another program than target/bin/framebook.
"""
import collections
import filecmp
import os
import pathlib
import random
import subprocess
import sys
import tempfile

root = pathlib.Path(__file__).resolve().parent.parent
frames = int(sys.argv[1]) if len(sys.argv) > 1 else 10_000
seed = int(sys.argv[2]) if len(sys.argv) > 2 else 1
framebook = pathlib.Path(os.environ.get("FRAMEBOOK", root / "target/bin/framebook")).resolve()
second = root / "second/target/release/second"
source = random.Random(seed)

MOST_BODY = 7_935
# A Frame Control for each header shape, with the octets of the header.
SHAPES = [(b"\x08\x00", 24), (b"\x88\x00", 26), (b"\x08\x03", 30), (b"\x88\x03", 32), (b"\x88\x80", 30), (b"\x88\x83", 36)]
# The peer has the own address, so that the book opens what it sealed.
ADDRESS = b"\x02\x00\x00\x00\x00\x01"
KEY = b"key\t%s\t2\t%s\t%s\n" % (source.randbytes(16).hex().encode(), ADDRESS.hex().encode(), ADDRESS.hex().encode())


def plain_frame():
    control, header = source.choice(SHAPES)
    return control + source.randbytes(8) + ADDRESS + source.randbytes(header - 16 + MOST_BODY)


def arrivals():
    """What the radio makes of a frame: whole or damaged, each time that it comes, and the answer due."""
    return source.choice([[], [(True, 0), (True, 10)], [(False, 11), (True, 0)]] + 17 * [[(True, 0)]])


def write_air(sealed, plain, book, due):
    """The book that opens those frames, and the output due."""
    with sealed.open("rb") as answers, plain.open("rb") as lines, book.open("wb") as air, due.open("wb") as output:
        air.write(lines.readline())
        number, counts = 1, collections.Counter()
        for answer, line in zip(answers, lines, strict=True):
            text = answer.rpartition(b"\t")[2]
            for whole, expected in arrivals():
                number += 1
                counts[expected] += 1
                air.write(b"open\t" + (text if whole else text[:-2] + b"%x\n" % (int(text[-2:-1], 16) ^ 1)))
                output.write(b"%d\topen\t%d\t" % (number, expected) + (line[5:] if expected == 0 else b"-\n"))
    return counts


def compare(book, ours, theirs):
    for program, written in ((framebook, ours), (second, theirs)):
        with book.open("rb") as lines, written.open("wb") as answers:
            subprocess.run([program], stdin=lines, stdout=answers, check=True)
    if not filecmp.cmp(ours, theirs, shallow=False):
        sys.exit(f"seed {seed}: the two write different answers")


if not framebook.exists():
    sys.exit(f"{framebook} isn't there: `tools/program framebook` makes it")
subprocess.run(["cargo", "build", "--release", "--quiet", "--manifest-path", root / "second/Cargo.toml"], check=True)
with tempfile.TemporaryDirectory() as folder:
    plain, sealed, air, due, ours, theirs = (pathlib.Path(folder, name) for name in ("plain", "sealed", "air", "due", "ours", "theirs"))
    with plain.open("wb") as book:
        book.write(KEY)
        for _ in range(frames):
            book.write(b"seal\t" + plain_frame().hex().encode() + b"\n")
    compare(plain, sealed, theirs)
    with sealed.open("rb") as answers:
        if not all(line.startswith(b"%d\tseal\t0\t" % number) for number, line in enumerate(answers, 2)):
            sys.exit(f"seed {seed}: a frame isn't sealed")
    counts = write_air(sealed, plain, air, due)
    compare(air, ours, theirs)
    if not filecmp.cmp(ours, due, shallow=False):
        sys.exit(f"seed {seed}: what is opened isn't what is due")
    lost = frames - counts[0]
    print(f"{frames} frames of seed {seed} sealed, {plain.stat().st_size:,} octets of book: all alike")
    print(f"{counts[0]} opened, {counts[10]} again, {counts[11]} damaged, {lost} lost, {air.stat().st_size:,} octets of book: all alike and as due")
