#!/usr/bin/env python3
"""The script ./framebook: files and standard input, its options, and what it says where it can't run. Needs the program, which
`tools/program framebook` makes.
"""
import os
import pathlib
import re
import shutil
import subprocess
import tempfile

root = pathlib.Path(__file__).resolve().parent.parent
version = re.search(rb"^## (\d+\.\d+\.\d+)", (root / "CHANGES.md").read_bytes(), re.M)[1]
book, answers = root / "examples/day.book", (root / "examples/day.out").read_bytes()


def run(*arguments, script=root / "framebook", **more):
    return subprocess.run([script, *arguments], capture_output=True, timeout=60, **more)


def answered(done):
    assert (done.returncode, done.stdout) == (0, answers), done


def refused(done, sentence):
    assert done.returncode != 0 and not done.stdout and done.stderr.startswith(sentence), done


with tempfile.TemporaryDirectory() as name:
    folder = pathlib.Path(name)
    answered(run(input=book.read_bytes()))
    answered(run(book))
    answered(run("-", input=book.read_bytes()))

    # Cut in the middle of a line: the files are one text.
    (folder / "a part").write_bytes(book.read_bytes()[:100])
    (folder / "the rest").write_bytes(book.read_bytes()[100:])
    answered(run("a part", "the rest", cwd=folder))
    (folder / "-b").write_bytes(book.read_bytes())
    answered(run("--", "-b", cwd=folder))

    # A link to a link, by a relative path and from another folder.
    (folder / "linked").symlink_to(root / "framebook")
    (folder / "again").symlink_to("linked")
    answered(run(book, script=folder / "again"))
    answered(run(book, script="./again", cwd=folder))

    assert run("--version").stdout.startswith(b"framebook " + version + b"\nrattle-kit-"), run("--version")
    assert run("--help").returncode == 0 and run("--help").stdout.startswith(b"usage: framebook")
    refused(run("--colour"), b"framebook: there is no option '--colour'")
    refused(run(book, folder / "absent"), b"framebook: the file '%s' can't be read" % bytes(folder / "absent"))
    refused(run(folder), b"framebook: the file '%s' can't be read" % bytes(folder))
    terminal = os.openpty()
    refused(run(stdin=terminal[1]), b"usage: framebook")

    # A copy that has no program yet, on a search path without rt.
    tools, copy = folder / "tools", folder / "copy"
    tools.mkdir()
    for tool in ("sh", "dirname", "readlink", "sed", "cat", "find"):
        (tools / tool).symlink_to(shutil.which(tool))
    (copy / "crates").mkdir(parents=True)
    shutil.copy(root / "framebook", copy)
    for file in ("CHANGES.md", "crates.txt"):
        shutil.copy(root / file, copy)
    refused(run(book, script=copy / "framebook", env={"PATH": tools}), b"framebook: the Rattle toolchain is missing")
print("the script framebook: all as it should be")
