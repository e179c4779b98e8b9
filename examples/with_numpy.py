"""Sees to it that numpy and soundfile are there, for the helpers of this folder that need them. They may be those of the system's Python, where another
one stands before it on the PATH. It is not proved.
"""

from __future__ import annotations

import importlib.util
import os
import subprocess
import sys

SYSTEM = "/usr/bin/python3"
LIBRARIES = ("numpy", "soundfile")
# One processor is used: the matrices are small.
for name in ("OMP_NUM_THREADS", "OPENBLAS_NUM_THREADS", "MKL_NUM_THREADS"):
    os.environ.setdefault(name, "1")


def here(libraries: tuple[str, str] = LIBRARIES) -> bool:
    """Tells whether this Python has the libraries."""
    return all(importlib.util.find_spec(it) is not None for it in libraries)


def in_system(libraries: tuple[str, str] = LIBRARIES) -> bool:
    """Tells whether the system's Python, where it is another one, has the libraries."""
    if not os.access(SYSTEM, os.X_OK) or os.path.realpath(sys.executable) == os.path.realpath(SYSTEM):
        return False
    return subprocess.run([SYSTEM, "-c", f"import {', '.join(libraries)}"], stdout=subprocess.DEVNULL, stderr=subprocess.DEVNULL).returncode == 0


def are_there() -> bool:
    """Tells whether a script that goes over has the libraries."""
    return here() or in_system()


def go_over() -> None:
    """Runs this script again by the system's Python, where that has more of the libraries. It ends the script where neither has numpy."""
    for libraries in (LIBRARIES, LIBRARIES[:1]):
        if here(libraries):
            return
        if in_system(libraries):
            os.execv(SYSTEM, [SYSTEM, *sys.argv])
    sys.exit(f"{os.path.basename(sys.argv[0])}: numpy is needed, as in Debian's python3-numpy")
