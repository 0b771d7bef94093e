#!/usr/bin/env python3
"""Compares two frame books octet for octet: the proved `framebook` and `second`, on small texts whose output documents 01 and 02 settle, on
generated books, and on books that reach `framebook` in small pieces.

  tests/books.py [LINES [SEED]]        20,000 lines and seed 1 where none is given; needs Cargo

FRAMEBOOK in the environment names another program than target/bin/framebook.
"""
import collections
import itertools
import os
import pathlib
import random
import subprocess
import sys
import tempfile

root = pathlib.Path(__file__).resolve().parent.parent
lines = int(sys.argv[1]) if len(sys.argv) > 1 else 20_000
first_seed = int(sys.argv[2]) if len(sys.argv) > 2 else 1
framebook = pathlib.Path(os.environ.get("FRAMEBOOK", root / "target/bin/framebook")).resolve()
release = root / "second/target/release"
LONGEST = 16_000  # the octets of a line, without its line feed
BAD_FIRST = 16  # a seed of 15 modulo this has a bad line 1

# The answers that a book can show.
ANSWERS = [("seal", n) for n in (0, 2, 3, 4, 5, 7)] + [("open", n) for n in (0, 2, 3, 4, 5, 7, 8, 9, 10, 11)] + [("", "bad")]

KEY = b"key\t000102030405060708090a0b0c0d0e0f\t0\t020000000001\t020000000002\n"
SELF = b"key\t000102030405060708090a0b0c0d0e0f\t0\t020000000001\t020000000001\n"  # the peer has the own address
PLAIN = b"08000000ffffffffffff0200000000010200000000030000aa"
SEALED_1 = b"08400000ffffffffffff0200000000010200000000030000010000200000000062d8e2bb33b8dacf0f"
SEALED_2 = b"08400000ffffffffffff02000000000102000000000300000200002000000000f1a6849bec660aad19"
# IEEE 802.11's example of CCMP, and the frame that it seals.
STANDARD_KEY = b"key\tc97c1f67ce371185514a8a19f2bdd52f\t0\t020000000001\t5030f1844408\n"
STANDARD_HEADER = b"c32c0fd2e128a57c5030f1844408abaea5b8fcba8033"
STANDARD = b"0848" + STANDARD_HEADER + b"0ce70020769703b5f3d0a2fe9a3dbf2342a643e43246e80c3c04d0197845ce0b16f97623"
STANDARD_PLAIN = b"0808" + STANDARD_HEADER + b"f8ba1a55d02f85ae967bb62fb6cda8eb7e78a050"
# A QoS header between Frame Control and HT Control, and what follows it in the sealed frame: with and without HT Control the same.
QOS = b"0000ffffffffffff02000000000102000000000300000500"
QOS_SEALED = b"0100002000000000c84fd7a210442d6d09"
# The same with A4.
QOS_4 = b"0000ffffffffffff02000000000102000000000300000200000000040500"
QOS_4_SEALED = b"0100002000000000c8702270e0eb569c18"
# PLAIN sealed with b15, after its header.
B15_SEALED = b"010000200000000062d1001191c5b124cd"
# HT Control, and the answer where b15 is cleared, so that its last octet is taken for the key octet.
HT_CONTROLS = [(b"c1c2c3c4", 8), (b"c1c2c3e4", 9), (b"c1c2c324", 11)]


def digits(line_length):
    """A line to seal of this length: a frame whose body is too long."""
    return (b"seal\t08" + b"0" * line_length)[:line_length]


def turned(what, plain, sealed, answer):
    """A text: this frame sealed, opened with b15 turned over, which has this answer, and opened whole."""
    other = sealed[:2] + b"%02x" % (int(sealed[2:4], 16) ^ 0x80) + sealed[4:]
    book = SELF + b"seal\t" + plain + b"\nopen\t" + other + b"\nopen\t" + sealed + b"\n"
    return f"{what}, b15 turned over", book, b"2\tseal\t0\t%s\n3\topen\t%d\t-\n4\topen\t0\t%s\n" % (sealed, answer, plain)


# What a book says and what is written, each with what it shows.
TEXTS = [
    ("document 01's run", KEY + b"open\t08\nseal\t\nsend\t08\n", b"2\topen\t2\t-\n3\tseal\t2\t-\n4\tbad\n"),
    ("no octet at all", b"", b""),
    ("an empty line 1", b"\n", b"1\tbad\n"),
    ("an empty line 1 and a good one", b"\n" + KEY, b"1\tbad\n"),
    ("line 1 alone", KEY, b""),
    ("line 1 alone without its line feed", KEY[:-1], b""),
    ("half of line 1", KEY[:30], b"1\tbad\n"),
    ("line 1 over-long, with a good one as its tail", digits(LONGEST + 1) + KEY + b"seal\t\n", b"1\tbad\n"),
    *[
        (f"line 1 with {name}", line + b"seal\t\n", b"1\tbad\n")
        for name, line in [
            *[(f"key ID {chr(c)}", KEY.replace(b"\t0\t", b"\t%c\t" % c)) for c in b"456789af/:"],
            ("no key ID", KEY.replace(b"\t0\t", b"\t\t")),
            ("two digits of key ID", KEY.replace(b"\t0\t", b"\t00\t")),
            ("a carriage return", KEY.replace(b"\n", b"\r\n")),
            ("a tab at the end", KEY.replace(b"\n", b"\t\n")),
            ("a field more", KEY.replace(b"\n", b"\t00\n")),
            ("a field less", KEY.replace(b"\t020000000002", b"")),
            ("upper-case digits", KEY.replace(b"0f", b"0F")),
            ("31 digits of key", KEY.replace(b"0f", b"0")),
            ("34 digits of key", KEY.replace(b"0f", b"0f10")),
            ("11 digits of address", KEY.replace(b"01\t", b"0\t")),
            ("14 digits of address", KEY.replace(b"02\n", b"0202\n")),
            ("a longer word", KEY.replace(b"key", b"keys")),
            ("a shorter word", KEY.replace(b"key", b"ke")),
            ("a capital", KEY.replace(b"key", b"Key")),
            ("another word", KEY.replace(b"key", b"seal")),
            ("a NUL", KEY.replace(b"\n", b"\0\n")),
            ("a space before", b" " + KEY),
        ]
    ],
    ("no line feed at the end", KEY + b"seal\t\nseal\t", b"2\tseal\t2\t-\n3\tseal\t2\t-\n"),
    ("a bad last line without a line feed", KEY + b"seal", b"2\tbad\n"),
    ("empty lines", KEY + b"\n\nseal\t\n\n", b"2\tbad\n3\tbad\n4\tseal\t2\t-\n5\tbad\n"),
    *[
        (f"{length} octets", KEY + digits(length) + b"\nseal\t\n", b"2\tseal\t5\t-\n3\tseal\t2\t-\n")
        for length in (LONGEST - 3, LONGEST - 1)
    ],
    *[
        (f"{length} octets, {name}", KEY + digits(length) + tail, written)
        for length in (LONGEST, LONGEST + 1, LONGEST + 2, 2 * LONGEST - 1, 65_535, 65_536, 65_537, 1_000_001)
        for name, tail, written in [
            ("then a good line", b"\nseal\t\n", b"2\tbad\n3\tseal\t2\t-\n"),
            ("a good line as its tail", b"seal\t" + PLAIN + b"\nseal\t\n", b"2\tbad\n3\tseal\t2\t-\n"),
            ("without a line feed", b"", b"2\tbad\n"),
            ("then an empty line", b"\n\n", b"2\tbad\n3\tbad\n"),
        ]
    ],
    *[
        (f"the line {line}", KEY + line + b"\nopen\t00\n", b"2\tbad\n3\topen\t2\t-\n")
        for line in [
            *[b"seal", b"open", b"s", b"\t", b"seal08", b"seal 08", b" seal\t08", b"seal\t 08", b"seals\t08", b"sea\t08", b"SEAL\t08"],
            *[b"Open\t08", b"key\t08", KEY[:-1], b"seal\t\t", b"seal\t\t08", b"seal\t08\t", b"seal\t08\t08", b"seal\t0\t8"],
            *[b"seal\t0", b"seal\t080", b"seal\t08 "],
            *[b"seal\t08\r", b"seal\r", b"\r", b"seal\t\r", b"seal\0\t08", b"seal\t08\0", b"seal\t0\0", b"\0", b"\0seal\t08", b"\xffseal\t08"],
            *[b"seal\t%c0" % c for c in b"/:`g@GAF\0\r\t\v\f \x7f\x80\x85\xb0\xe1\xff"],
            *[b"seal\t0%c" % c for c in b"/:`g@GAF\0\r\t\v\f \x7f\x80\x85\xb0\xe1\xff"],
            *[b"seal\t08%copen\t08" % c for c in b"\0\r\v\f\x1a\x1c\x1e\x85\xa0"],
            *["seal\t08\u2028open\t08".encode(), "\ufeffseal\t08".encode()],
        ]
    ],
    *[
        (f"{word} with {more} octets after the header", KEY + word + b"\t" + control + b"00" * (22 + more), b"2\t%s\t%d\t-\n" % (word, answer))
        for word, control, least, most in ((b"seal", b"0800", 1, 7_935), (b"open", b"0840", 17, 7_951))
        for more, answer in ((least - 1, 5), (least, 7), (most, 7), (most + 1, 5))
    ],
    (
        "a bad line moves no number, and the peer is not the own address",
        KEY + b"seal\t" + PLAIN + b"\nseal\t" + PLAIN + b"a\nseal\t" + PLAIN + b"\nopen\t" + SEALED_1 + b"\n",
        b"2\tseal\t0\t" + SEALED_1 + b"\n3\tbad\n4\tseal\t0\t" + SEALED_2 + b"\n5\topen\t7\t-\n",
    ),
    (
        "a book opens its own frames, out of order and once",
        SELF + b"".join(b"open\t" + frame + b"\n" for frame in (SEALED_1, SEALED_1, SEALED_2, SEALED_1)),
        b"2\topen\t0\t" + PLAIN + b"\n3\topen\t10\t-\n4\topen\t0\t" + PLAIN + b"\n5\topen\t10\t-\n",
    ),
    (
        "the standard's frame after a damaged copy of it, and again",
        STANDARD_KEY + b"open\t" + STANDARD[:-1] + b"2\nopen\t" + STANDARD + b"\nopen\t" + STANDARD,
        b"2\topen\t11\t-\n3\topen\t0\t" + STANDARD_PLAIN + b"\n4\topen\t10\t-\n",
    ),
    *[
        (
            f"a QoS frame with b15 and {length} octets",
            KEY + b"seal\t8880" + (QOS + b"c1c2c3c4")[: 2 * length - 4] + b"\nopen\t88c0" + (QOS + b"c1c2c3c4")[: 2 * length - 4] + b"\n",
            b"2\tseal\t%d\t-\n3\topen\t%d\t-\n" % (answer, answer),
        )
        for length, answer in ((24, 2), (26, 2), (29, 2), (30, 5))
    ],
    turned("b15 without QoS Control", b"0880" + PLAIN[4:], b"08c0" + PLAIN[4:-2] + B15_SEALED, 11),
    turned("QoS Control alone", b"8800" + QOS + b"aa", b"8840" + QOS + QOS_SEALED, 5),
    turned("A4 and QoS Control", b"8803" + QOS_4 + b"aa", b"8843" + QOS_4 + QOS_4_SEALED, 5),
    *[turned(f"HT Control {ht}", b"8880" + QOS + ht + b"aa", b"88c0" + QOS + ht + QOS_SEALED, answer) for ht, answer in HT_CONTROLS],
    *[turned(f"A4, HT Control {ht}", b"8883" + QOS_4 + ht + b"aa", b"88c3" + QOS_4 + ht + QOS_4_SEALED, answer) for ht, answer in HT_CONTROLS],
]


def run(program, *arguments, book=b""):
    done = subprocess.run([program, *arguments], input=book, capture_output=True, timeout=60)
    if done.returncode:
        sys.exit(f"{program.name} {' '.join(arguments)}: status {done.returncode}: {done.stderr.decode()}")
    return done.stdout


def fed(program, pieces):
    """What it writes where its input comes through a pipe in these pieces."""
    with tempfile.TemporaryFile() as output:
        process = subprocess.Popen([program], stdin=subprocess.PIPE, stdout=output, bufsize=0)
        for piece in pieces:
            process.stdin.write(piece)
        process.stdin.close()
        if status := process.wait(timeout=60):
            sys.exit(f"{program.name}: status {status}")
        output.seek(0)
        return output.read()


def compare(where, **outputs):
    (name, one), (other_name, other) = outputs.items()
    if one == other:
        return
    for number, pair in enumerate(itertools.zip_longest(one.split(b"\n"), other.split(b"\n")), 1):
        if pair[0] != pair[1]:
            sys.exit(f"{where}: output line {number} differs\n{name}: {pair[0]}\n{other_name}: {pair[1]}")


def cut(book, source):
    at = 0
    while at < len(book):
        size = source.choice((source.randint(1, 9), source.randint(1, 300), source.randint(1, 2 * LONGEST)))
        yield book[at : at + size]
        at += size


if not framebook.exists():
    sys.exit(f"{framebook} isn't there: `tools/program framebook` makes it")
subprocess.run(["cargo", "build", "--release", "--quiet", "--manifest-path", root / "second/Cargo.toml"], check=True)
second, generate = release / "second", release / "generate"

for what, book, written in TEXTS:
    compare(what, framebook=run(framebook, book=book), expected=written)
    compare(what, second=run(second, book=book), expected=written)

counts = collections.Counter()
seed, answered = first_seed, 0
while answered < lines:
    size = 1_000 + seed * 389 % 1_001
    book = run(generate, str(seed), str(size))
    ours = run(framebook, book=book)
    compare(f"seed {seed}, {size} lines", framebook=ours, second=run(second, book=book))
    for line in ours.splitlines():
        _, word, *rest = line.decode().split("\t")
        counts[(word, int(rest[0])) if rest else ("", word)] += 1
        answered += 1
    seed += 1

for seed in range(BAD_FIRST - 1, 64 * BAD_FIRST, BAD_FIRST):
    book = run(generate, str(seed), "5")
    compare(f"seed {seed}", framebook=run(framebook, book=book), expected=b"1\tbad\n")
    compare(f"seed {seed}", second=run(second, book=book), expected=b"1\tbad\n")

source = random.Random(first_seed)
for seed in range(BAD_FIRST * first_seed, BAD_FIRST * (first_seed + 3), BAD_FIRST):
    book = run(generate, str(seed), "120")
    theirs = run(second, book=book)
    compare(f"seed {seed}, octet by octet", framebook=fed(framebook, (bytes([octet]) for octet in book)), second=theirs)
    for _ in range(3):
        compare(f"seed {seed}, in pieces", framebook=fed(framebook, cut(book, source)), second=theirs)

for word, answer in ANSWERS:
    print(f"{word:<4} {answer:>3} {counts[word, answer]:>6}")
if wrong := set(ANSWERS).symmetric_difference(counts):
    sys.exit(f"never given, or given where they can't be: {sorted(wrong, key=str)}")
print(f"{len(TEXTS)} texts and {answered} lines from seed {first_seed} on: all alike")
