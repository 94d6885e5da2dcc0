"""The library that is loaded before the C library, so that devices, memory and threads fail: `shim.c` and `threads.c`."""

import shutil
import subprocess
from pathlib import Path

from tables.trying import PATHS, Untried


def build(path):
    """Builds it in this folder, where there is a C compiler."""
    compiler = shutil.which("cc") or shutil.which("gcc") or shutil.which("clang")
    PATHS["shim"] = compiler and Path(path) / "shim.so"
    if compiler:
        sources = [Path(__file__).with_name(name) for name in ("shim.c", "threads.c")]
        subprocess.run([compiler, "-shared", "-fPIC", "-O1", "-o", PATHS["shim"], *sources, "-ldl", "-lpthread"], check=True)


def over(folder, *words, **faults):
    """Runs a command with these faults, as FAIL=3."""
    if not PATHS["shim"]:
        raise Untried("devices that fail, want of memory and threads that are held, for want of a C compiler")
    return folder.run(*words, LD_PRELOAD=PATHS["shim"], **faults)
