#!/usr/bin/env python3
"""Prints the least processor time of so many runs of each program, in milliseconds: times.py RUNS INPUT PROGRAM,PROGRAM.. WORD ..

Each run reads the file INPUT, under the words, and its output is thrown away. The programs take turns, so that what runs beside them hardly
counts, and for none of them more than for another.
"""

from __future__ import annotations

import os
import sys


def milliseconds(program: str, words: list[str], given: str) -> float:
    files = [(os.POSIX_SPAWN_OPEN, 0, given, os.O_RDONLY, 0), (os.POSIX_SPAWN_OPEN, 1, os.devnull, os.O_WRONLY, 0)]
    _, _, used = os.wait4(os.posix_spawn(program, [program, *words], os.environ, file_actions=files), 0)
    return (used.ru_utime + used.ru_stime) * 1000


runs, given, programs, *words = sys.argv[1:]
least = {}
for _ in range(int(runs)):
    for program in programs.split(","):
        took = milliseconds(program, words, given)
        least[program] = min(took, least.get(program, took))
print(*(f"{least[program]:.3f}" for program in programs.split(",")))
