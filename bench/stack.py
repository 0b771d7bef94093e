#!/usr/bin/env python3
"""The most stack that one seal, open, split and join can take by the compiled code, the calls on a table, those of a C host, and the whole frame
book: the return address, what is pushed and the room for locals, followed from instruction to instruction to each call, and what is used below the
stack pointer (x86-64 gives a function that calls no other 128 octets there), along the deepest chain of calls. A call on a table is counted without
bench's function around it, which holds the tables passed and handed back. What the platform takes, `memcpy`, `memset` and the start of a program, is
not counted. bench/src/bin/stack.rs measures what calls do take; what the frame book takes shows here, as the least limit of the stack under which it
still answers, with the platform's start in it.

  tools/staticlib bench && tools/staticlib kondrivai && tools/program framebook && bench/stack.py        needs objdump and setarch
"""
import pathlib
import re
import resource
import subprocess

root = pathlib.Path(__file__).resolve().parent.parent
PAGE = 4_096

# The parts in which the longest body is opened: one function calls itself for each.
PARTS = 5


def walked(lines):
    """The most that a function takes by itself, and for each of its calls what it has taken there and the function called. At a place that only a jump
    leads to it has taken what it had at the jump; jumps lead back too, so it is walked until no place is new."""
    at, known = {}, None
    while known != len(at):
        known, taken, most, calls = len(at), 8, 8, []
        tabled = probed = None
        for line, following in zip(lines, lines[1:] + [""]):
            instruction = re.match(r"\s+([0-9a-f]+):\t(\S+) *(.*)", line)
            if not instruction:
                continue
            place, name, operands = instruction.groups()
            if taken is None:
                taken = at.get(place, tabled)
            if taken is None:
                continue
            amount = re.match(r"\$(0x[0-9a-f]+),%(rsp|r11)$", operands)
            if amount and name in ("sub", "add"):
                octets = int(amount[1], 16) * (1 if name == "sub" else -1)
                if amount[2] == "r11":
                    probed = octets  # a large room, taken page by page in a loop down to the place in r11
                else:
                    taken, probed = taken + (probed or octets), None
            elif name in ("push", "pop"):
                taken += 8 if name == "push" else -8
            elif name == "call":
                # A library names a function where the call's address is filled in, a program in the call.
                filled = re.search(r"R_X86_64_\w+\s+(?:\.text\.)?([^\s+-]+)", following) or re.search(r"<([^>+@]+)", operands)
                calls += [(taken, filled[1])] if filled else []
            elif name.startswith("j") and (target := re.match(r"([0-9a-f]+) <", operands)):
                at.setdefault(target[1], taken)
            elif name == "jmp":
                tabled = taken  # the jump of a table, to places that no other names
            below = re.search(r"-(0x[0-9a-f]+)\(%rsp", operands)
            most = max(most, taken + (int(below[1], 16) if below else 0))
            if name in ("ret", "jmp"):
                taken = None
    return most, calls


def functions(file):
    text = subprocess.run(["objdump", "-dr", "--no-show-raw-insn", root / "target" / file], check=True, capture_output=True, text=True).stdout
    sections = [section.split("\n") for section in re.split(r"\n(?=[0-9a-f]+ <)", text)]
    return {named[1]: walked(lines[1:]) for lines in sections if (named := re.match(r"[0-9a-f]+ <(.+)>:", lines[0]))}


def deepest(code, name, parts):
    """What a function takes along its deepest chain of calls, and the chain."""
    most, calls = code[name]
    chains = [(most, [f"{name} {most}"])]
    for taken, callee in calls:
        if callee in code and callee != name:
            octets, chain = deepest(code, callee, parts)
            chains.append((taken + octets, [f"{name} {taken}"] + chain))
    octets, chain = max(chains)
    again = max((taken for taken, callee in calls if callee == name), default=0)
    if again and parts > 1:
        return octets + (parts - 1) * again, [f"{name} {again} {parts - 1} times"] + chain
    return octets, chain


def answers(program, book, pages):
    """Whether the program answers the book to its end with a stack of so many pages."""
    limit = (pages * PAGE, pages * PAGE)
    command = ["setarch", "--addr-no-randomize", program]
    run = subprocess.run(command, input=book, capture_output=True, env={}, preexec_fn=lambda: resource.setrlimit(resource.RLIMIT_STACK, limit))
    return run.returncode == 0


ENTRIES = {
    "staticlib/libbench.a": ["bench_ccm_seal", "bench_ccm_open", "bench_ccmp_seal", "bench_ccmp_open", "bench_split", "bench_join", "table::adding::add", "table::serving::seal", "table::serving::open"],
    "staticlib/libkondrivai.a": ["kondrivai_fresh_sender", "kondrivai_fresh_receiver", "kondrivai_seal", "kondrivai_open"],
    "bin/framebook": ["main"],
}
for file, names in ENTRIES.items():
    code = functions(file)
    for name in names:
        octets, chain = deepest(code, name, PARTS)
        short, _ = deepest(code, name, 1)
        one_part = f", {short} where the message is one part" if short < octets else ""
        print(f"{name}: {octets} octets{one_part} ({', '.join(chain)})")

# A last line without a line feed: it is answered by `finish`, with an array of its own.
book = (root / "examples/replay.book").read_bytes().rstrip(b"\n")
least, most = 0, 512
while least + 1 < most:
    middle = (least + most) // 2
    least, most = (least, middle) if answers(root / "target/bin/framebook", book, middle) else (middle, most)
print(f"framebook: answers with a stack of {most * PAGE} octets, and not with {least * PAGE}")
