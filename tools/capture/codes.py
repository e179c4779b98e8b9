"""The line codes of a tag: leads, symbols, and which symbol may follow which (sections 6.3.1.3.2.1 to 6.3.1.3.2.4 of the standard).

A level is half a period of the backscatter link frequency, and is +1 or -1. A symbol of FM0 has 2 levels, one of Miller M has 2 M.
"""

from __future__ import annotations

import functools
from dataclasses import dataclass

import numpy as np

from levels import fm0_lead

CODES = ("fm0", "m2", "m4", "m8")
# A level is seen together with the one behind it and the two before it.
REACH_BEHIND, REACH_BEFORE = 1, 2
TAPS = REACH_BEHIND + 1 + REACH_BEFORE
# The state of a stream between two symbols: its last level and its last bit.
STATES = [(level, bit) for level in (-1, 1) for bit in (0, 1)]


def levels_of(text: str) -> np.ndarray:
    """Gives the levels of digits: 1 is +1, and 0 is -1."""
    return np.array([1 if it == "1" else -1 for it in text], dtype=np.int8)


def text_of(levels: np.ndarray) -> str:
    return (ord("0") + (levels > 0)).astype(np.uint8).tobytes().decode()


def cycles(code: str) -> int:
    """Gives the subcarrier cycles to a symbol of Miller."""
    return int(code[1])


def symbol_length(code: str) -> int:
    return 2 if code == "fm0" else 2 * cycles(code)


def symbol(code: str, state: tuple[int, int], bit: int) -> list[int]:
    """Gives the levels of a symbol behind a state."""
    last, before = state
    if code == "fm0":
        # The level changes at each begin of a symbol, and in the middle of a 0.
        return [-last, -last] if bit else [-last, last]
    # The phase of the subcarrier turns between two zeros, and in the middle of a 1.
    first = last if before == 0 and bit == 0 else -last
    half = [first, -first] * (cycles(code) // 2)
    return half + ([-it for it in half] if bit else half)


def lead(code: str, trext: str) -> np.ndarray:
    """Gives the levels before the first bit: the pilot, where there is one, and the preamble."""
    if code == "fm0":
        return levels_of(fm0_lead(int(trext)))
    levels = [1, -1] * cycles(code) * (16 if trext == "1" else 4)
    # No phase turns between the subcarrier alone and the 0 behind it.
    state = (levels[-1], 1)
    for bit in (0, 1, 0, 1, 1, 1):
        levels += symbol(code, state, bit)
        state = (levels[-1], bit)
    return np.array(levels, dtype=np.int8)


def encode(code: str, trext: str, bits: str) -> np.ndarray:
    """Gives the stream of bits: lead, symbols, and the dummy 1."""
    levels = list(lead(code, trext))
    state = (levels[-1], 1)
    for bit in map(int, bits + "1"):
        levels += symbol(code, state, bit)
        state = (levels[-1], bit)
    return np.array(levels, dtype=np.int8)


@dataclass(frozen=True)
class Trellis:
    """The branches from state to state. A branch is a state and a bit: `branch = 2 * state + bit`.

    `seen` has, for each branch, each level from the last one of the symbol before to the last but one of this symbol, with what is seen with it:
    the level behind, itself, and the two before. `into` has the two branches into each state, `source` the states they come from.
    """

    code: str
    length: int
    symbols: np.ndarray
    seen: np.ndarray
    into: np.ndarray
    source: np.ndarray


def before(code: str, state: tuple[int, int]) -> list[int]:
    """Gives the three levels up to a state."""
    last, bit = state
    if code == "fm0":
        # (the level before the symbol isn't its first one)
        first = last if bit else -last
        return [-first, first, last]
    return [-last if bit and cycles(code) == 2 else last, -last, last]


@functools.lru_cache(maxsize=None)
def trellis(code: str) -> Trellis:
    length = symbol_length(code)
    symbols, seen, ends = [], [], []
    for state in STATES:
        for bit in (0, 1):
            levels = symbol(code, state, bit)
            row = before(code, state) + levels
            symbols.append(levels)
            ends.append(STATES.index((levels[-1], bit)))
            seen.append([[row[at + 1], row[at], row[at - 1], row[at - 2]] for at in range(2, 2 + length)])
    into = np.array([[branch for branch, end in enumerate(ends) if end == state] for state in range(len(STATES))])
    return Trellis(code, length, np.array(symbols, dtype=np.int8), np.array(seen, dtype=float), into, into // 2)
