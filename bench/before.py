#!/usr/bin/env python3
"""Times opening frames with a body of 64 octets by this build, with windows of 1 and of 16, beside another build from before windows: the
program `table_times` of each, all ways in turn, the least of some rounds each, less a run of one call, which has the start and what is
sealed beforehand. Ends with status 1 where the record's own call takes over 1.03 times as long as in the other build.

  tools/program table_times && bench/before.py PROGRAM [ROUNDS]        PROGRAM is the other build's; 15 rounds where none is given
"""
import pathlib
import subprocess
import sys
import time

if len(sys.argv) < 2:
    sys.exit(__doc__)
before = pathlib.Path(sys.argv[1])
rounds = int(sys.argv[2]) if len(sys.argv) > 2 else 15
now = pathlib.Path(__file__).resolve().parent.parent / "target/bin/table_times"

CALLS = 150_000
LIMIT = 1.03
# Of each way what it is, the letter of a request at size 1, and that at 16. A build from before windows has the first alone.
WAYS = [("record", "r", "R"), ("table", "t", "T")]


def run(program, way, calls):
    """The seconds that a request takes."""
    start = time.perf_counter()
    written = subprocess.run([program], input=f"{way}os{calls:06}\n", check=True, capture_output=True, text=True).stdout
    seconds = time.perf_counter() - start
    if not written.startswith(f"{calls} done, "):
        sys.exit(f"{program}, {way}: {calls} calls, and {written.strip() or 'nothing'}")
    return seconds


works = [work for _, small, large in WAYS for work in ((before, small), (now, small), (now, large))]
times = [{(*work, calls): run(*work, calls) for work in works for calls in (1, CALLS)} for _ in range(rounds)]
least = {work: min(each[work] for each in times) for work in times[0]}


def each(program, way):
    """The seconds of a call."""
    return (least[program, way, CALLS] - least[program, way, 1]) / (CALLS - 1)


over = False
print(f"{'64 octets opened':<18} {'before':>10} {'now':>10} {'ratio':>6}")
for name, small, large in WAYS:
    old = each(before, small)
    for size, way in (1, small), (16, large):
        new = each(now, way)
        over |= name == "record" and new > LIMIT * old
        print(f"{f'{name}, size {size}':<18} {old * 1e6:>7.3f} µs {new * 1e6:>7.3f} µs {new / old:>6.3f}")
sys.exit(over)
