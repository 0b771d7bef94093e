"""The proved code for Python: what crates/bench_c exports, in a shared library made of `tools/staticlib bench`."""
import ctypes
import pathlib
import subprocess

root = pathlib.Path(__file__).resolve().parent.parent


def library():
    subprocess.run([root / "tools/staticlib", "bench"], check=True, stdout=subprocess.DEVNULL)
    shared = root / "target/staticlib/libbench.so"
    subprocess.run(["cc", "-shared", "-o", shared, "-Wl,--whole-archive", root / "target/staticlib/libbench.a", "-Wl,--no-whole-archive"], check=True)
    return ctypes.CDLL(str(shared))
