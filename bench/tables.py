#!/usr/bin/env python3
"""Times sealing and opening through a table with sixteen entries in use, by its last entry, beside the record's own call on the same
frames: the program `table_times`, all ways in turn, the least of some rounds each, less a run of one call, which has the start and what
is sealed beforehand. Ends with status 1 where the table takes over 0.7 µs more.

  tools/program table_times && bench/tables.py [ROUNDS]        5 rounds where none is given
"""
import itertools
import pathlib
import subprocess
import sys
import time

rounds = int(sys.argv[1]) if len(sys.argv) > 1 else 5
program = pathlib.Path(__file__).resolve().parent.parent / "target/bin/table_times"

# The letters of a request. Of a body also its octets and the calls that are timed.
RECORD, TABLE = "r", "t"
DIRECTIONS = {"s": "sealed", "o": "opened"}
BODIES = {"s": (64, 150_000), "l": (1_500, 10_000)}
WORKS = list(itertools.product(DIRECTIONS, BODIES))
LIMIT = 0.7e-6  # seconds


def run(letters, calls):
    """The seconds that a request takes, and what it writes."""
    start = time.perf_counter()
    written = subprocess.run([program], input=f"{letters}{calls:06}\n", check=True, capture_output=True, text=True).stdout
    seconds = time.perf_counter() - start
    if not written.startswith(f"{calls} done, "):
        sys.exit(f"{letters}: {calls} calls, and {written.strip() or 'nothing'}")
    return seconds, written


def all_runs():
    """The seconds of each way, work and number of calls, once."""
    seconds = {}
    for direction, body in WORKS:
        for calls in 1, BODIES[body][1]:
            written = set()
            for way in RECORD, TABLE:
                seconds[way, direction, body, calls], line = run(way + direction + body, calls)
                written.add(line)
            if len(written) > 1:
                sys.exit(f"{direction}{body}: the record and the table write different frames")
    return seconds


if not program.exists():
    sys.exit(f"{program} isn't there: `tools/program table_times` makes it")
times = [all_runs() for _ in range(rounds)]
least = {work: min(each[work] for each in times) for work in times[0]}
over = False
print(f"{'work':<20} {'record':>10} {'table':>10} {'more':>8} {'ratio':>6}")
for direction, body in WORKS:
    octets, calls = BODIES[body]
    record, table = ((least[way, direction, body, calls] - least[way, direction, body, 1]) / (calls - 1) for way in (RECORD, TABLE))
    work, more, ratio = f"{octets:,} octets {DIRECTIONS[direction]}", table - record, table / record
    over |= more > LIMIT
    print(f"{work:<20} {record * 1e6:>7.3f} µs {table * 1e6:>7.3f} µs {more * 1e9:>5.0f} ns {ratio:>6.3f}")
sys.exit(over)
