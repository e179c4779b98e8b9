#!/usr/bin/env python3
"""Counts tags from Python, over the library: count_tags.py LIBRARY. docs/GUIDE.md says how to build the library.

It has the levels of a reply explained, and counts generated tags under ten seeds, without a process for each. Two threads play the seeds: a call
shares nothing with another one, and the interpreter goes on meanwhile.
"""

import concurrent.futures
import ctypes
import sys
from typing import Tuple

NO_ROOM = 5


class Gen2Run:
    """The library, as one call that gives the status and the text. Threads may share it: each call has an output of its own."""

    def __init__(self, path: str) -> None:
        self.call = ctypes.CDLL(path).gen2run_over_memory
        size = ctypes.c_size_t
        self.call.argtypes = [ctypes.c_char_p, size, ctypes.c_char_p, size, ctypes.c_char_p, size, ctypes.POINTER(size)]
        self.call.restype = ctypes.c_uint32

    def __call__(self, words: str, given: bytes = b"") -> Tuple[int, str]:
        text, room = words.encode(), 4096
        while True:
            output, written = ctypes.create_string_buffer(room), ctypes.c_size_t()
            status = self.call(text, len(text), given, len(given), output, room, ctypes.byref(written))
            if status != NO_ROOM:
                return status, output.raw[: written.value].decode("utf-8")
            room *= 4


def main() -> int:
    if sys.argv[1:] == ["--help"]:
        print(__doc__.strip())
        return 0
    try:
        if len(sys.argv) != 2 or sys.argv[1].startswith("-"):
            raise ValueError("it wants one LIBRARY; --help says more")
        gen2run = Gen2Run(sys.argv[1])
    except (OSError, ValueError, AttributeError) as why:
        print(f"count_tags.py: {why}", file=sys.stderr)
        return 2
    status, text = gen2run("decode", b"heard fm0 0 rn16 1101001000110010110101010100110100110101001011\n")
    print(status, text, end="")
    seeds = range(1, 11)
    with concurrent.futures.ThreadPoolExecutor(2) as threads:
        for seed, (status, text) in zip(seeds, threads.map(lambda seed: gen2run(f"gen {seed} 64"), seeds)):
            lines = dict(line.split(" ") for line in text.splitlines()[:-1])
            print(seed, status, lines["listed"], lines["slots"], lines["end"])
    return 0


sys.exit(main())
