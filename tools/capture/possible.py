"""Computes how many replies a receiver could read that knows the clock, the baseline and the amplitude: by the union bound.

Such a receiver takes the stream nearest to what it saw. It takes another one where noise has brought what it saw nearer to that. Two streams differ
over a run of symbols, from where their paths in the trellis part to where they meet again. Where the half of their difference, of which a level
counts A, has the energy E (in levels times A squared), there are n samples to a level, and the noise of a sample has the standard deviation s,
this happens with the probability Q(A sqrt(n E) / s). So a reply of N bits is read wrongly with at most N times the sum of these over the runs that may begin at a bit,
each by the probability that the bits sent have it.
"""

from __future__ import annotations

import functools
import itertools
import math

import numpy as np

from . import codes

# Runs of so many symbols at most are summed: longer ones have far more energy.
LONGEST = {"fm0": 5, "m2": 4, "m4": 4, "m8": 4}
# Edges are filtered over so many points to a level.
FINE = 16


def tail(value: float) -> float:
    """Gives Q: the part of a normal distribution above a value."""
    return 0.5 * math.erfc(value / math.sqrt(2))


def run(code: str, state: "tuple[int, int]", bits: "tuple[int, ...]") -> "tuple[list[int], list[tuple[int, int]]]":
    """Gives the levels of bits behind a state, and the state behind each."""
    levels, states = [], []
    for bit in bits:
        levels += codes.symbol(code, state, bit)
        state = levels[-1], bit
        states.append(state)
    return levels, states


@functools.lru_cache(maxsize=None)
def energies(code: str, edge: float) -> "tuple[tuple[float, float], ...]":
    """Gives the energy of each run that may begin at a bit, and how often it does, where an edge takes so many levels."""
    found: "dict[float, float]" = {}
    for state in codes.STATES:
        for size in range(1, LONGEST[code] + 1):
            for sent in itertools.product((0, 1), repeat=size):
                levels, states = run(code, state, sent)
                for taken in itertools.product((0, 1), repeat=size):
                    if taken[0] == sent[0]:
                        continue
                    others, ends = run(code, state, taken)
                    # They meet at the last symbol, and not before.
                    if [one == other for one, other in zip(states, ends)] != [False] * (size - 1) + [True]:
                        continue
                    half = np.repeat((np.array(levels) - np.array(others)) / 2, FINE)
                    width = max(1, round(edge * FINE))
                    energy = round(float(np.sum(np.convolve(half, np.ones(width) / width) ** 2)) / FINE, 6)
                    found[energy] = found.get(energy, 0.0) + 2.0**-size / len(codes.STATES)
    return tuple(sorted(found.items()))


def read(code: str, bits: int, amplitude: float, noise: float, samples: float, edge: float = 0.0) -> float:
    """Gives the least part of replies of so many bits that such a receiver reads right."""
    if not noise:
        return 1.0
    wrong = sum(often * tail(amplitude * math.sqrt(samples * energy) / noise) for energy, often in energies(code, edge))
    return max(0.0, 1.0 - bits * wrong)
