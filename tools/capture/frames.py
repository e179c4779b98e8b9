"""Finds frames among the reader's lows, and puts their lengths back onto the frame's own Tari, RTcal and TRcal.

A frame begins with a low of 12.5 microseconds, the delimiter. Behind it stand pairs of a high and a low: Tari, RTcal, maybe TRcal, and a pair for
each bit, of Tari for a 0 and of RTcal less Tari for a 1 (section 6.3.1.2 of the standard). All lengths are in nanoseconds.
"""

from __future__ import annotations

from dataclasses import dataclass, field

import numpy as np

DELIMITER = 12_500
# What may be a delimiter, and how many Tari may be an RTcal, so that it is found where lengths are measured badly; `decode` knows the limits.
LIKE_DELIMITER = (9_000, 16_500)
LIKE_TARI = (5_500, 28_000)
LIKE_RTCAL = (1.8, 3.8)
# A pair behind another one in a frame has at most twice its length, so there a frame begins from here on.
LIKE_RTCAL_INSIDE = 2.3
# How many standard deviations a length may be off its own Tari, RTcal or TRcal, and how far it may be off in any case, as a part.
DEVIATIONS, LEAST = 4.5, 0.01


@dataclass
class Frame:
    """A frame: the times at which it begins and ends, its intervals as measured, and as they go to `decode`, with the most that one was moved."""

    begin: float
    end: float
    measured: np.ndarray
    intervals: list[int] = field(default_factory=list)
    moved: float = 0.0
    remarks: list[str] = field(default_factory=list)


@dataclass
class Stray:
    """Lows that begin no frame and stand in none."""

    begin: float
    count: int
    why: str


def why_no_frame(lows: np.ndarray, at: int, least: float = LIKE_RTCAL[0]) -> str | None:
    """Says why no frame begins at a low, or nothing where one does. An RTcal has at least so many Tari."""
    low = lows[at, 1] - lows[at, 0]
    if not LIKE_DELIMITER[0] <= low <= LIKE_DELIMITER[1]:
        return f"it is {low / 1000:.3f} us long, and a delimiter has 12.5"
    if at + 2 >= len(lows):
        return "no Tari and RTcal stand behind it"
    tari, rtcal = np.diff(lows[at : at + 3, 1])
    if not LIKE_TARI[0] <= tari <= LIKE_TARI[1]:
        return f"the pair behind it has {tari / 1000:.3f} us, and a Tari has 6.25 to 25"
    if not least <= rtcal / tari <= LIKE_RTCAL[1]:
        return f"behind it stand {tari / 1000:.3f} and {rtcal / 1000:.3f} us, and an RTcal has 2.5 to 3 Tari"
    return None


def split(lows: np.ndarray) -> tuple[list[Frame], list[Stray]]:
    """Gives the frames, and the lows that belong to none."""
    frames, strays = [], []
    lengths = lows[:, 1] - lows[:, 0]
    may_begin = ((lengths >= LIKE_DELIMITER[0]) & (lengths <= LIKE_DELIMITER[1])).tolist()
    rises = lows[:, 1].tolist()
    at = 0
    while at < len(lows):
        why = why_no_frame(lows, at)
        if why is not None:
            if strays and strays[-1].begin + 2e6 > lows[at, 0] and (not frames or frames[-1].end < strays[-1].begin):
                strays[-1].count += 1
            else:
                strays.append(Stray(float(lows[at, 0]), 1, why))
            at += 1
            continue
        rtcal = lows[at + 2, 1] - lows[at + 1, 1]
        end = at + 3
        while end < len(lows):
            # A TRcal has at most 3 RTcal, and a bit less than one.
            longest = 3.3 * rtcal if end == at + 3 else 1.1 * rtcal
            if rises[end] - rises[end - 1] > longest:
                break
            if end > at + 3 and may_begin[end] and why_no_frame(lows, end, LIKE_RTCAL_INSIDE) is None:
                break
            end += 1
        edges = lows[at:end].reshape(-1)
        frames.append(Frame(float(edges[0]), float(edges[-1]), np.diff(edges)))
        at = end
    return frames, strays


@dataclass
class Own:
    """The lengths of a frame: what its pairs are about, and how far off each is."""

    tari: float
    one: float
    rtcal: float
    trcal: float | None
    low: float
    pairs: np.ndarray
    wanted: np.ndarray


def own_lengths(frame: Frame) -> Own:
    """Gives the Tari, RTcal and TRcal of a frame: the means of the pairs that have them."""
    pairs = frame.measured[1::2] + frame.measured[2::2]
    lows = frame.measured[2::2]
    trcal = float(pairs[2]) if len(pairs) > 2 and pairs[2] > 0.85 * pairs[1] else None
    data = pairs[2 if trcal is None else 3 :]
    tari, one = float(pairs[0]), float(pairs[1] - pairs[0])
    total = float(data.sum())
    for _ in range(2):
        short = data[data < (tari + one) / 2]
        zeros = float(short.sum())
        tari = (zeros + float(pairs[0])) / (len(short) + 1)
        one = (total - zeros + float(pairs[1]) - tari) / (len(data) - len(short) + 1)
    rtcal = tari + one
    head = [tari, rtcal] + ([trcal] if trcal is not None else [])
    wanted = np.concatenate([head, np.where(data < (tari + one) / 2, tari, one)])
    return Own(tari, one, rtcal, trcal, float(np.mean(lows)), pairs, wanted)


def put_back(frames: list[Frame], grid: float) -> None:
    """Gives each frame its intervals for `decode`. `grid` is the time between two samples.

    How far lengths scatter is measured over all frames. A length that is no further off than that is put onto the frame's own, and a delimiter or
    an own length that is out of the standard's range by no more is put to its limit; any other stays as it was measured.
    """
    every = [own_lengths(frame) for frame in frames]
    off = [it.pairs / it.wanted - 1 for it in every]
    # (the TRcal of a frame is its own, so it is never off)
    scatter = np.concatenate([part[np.abs(part) > 0] for part in off]) if off else np.zeros(0)
    spread = max(1.4826 * float(np.median(np.abs(scatter))), float(np.std(scatter)) if len(scatter) < 20 else 0.0) if len(scatter) else 0.0
    for frame, own in zip(frames, every):
        put_back_one(frame, own, max(DEVIATIONS * spread, LEAST), grid)


def put_back_one(frame: Frame, own: Own, part: float, grid: float) -> None:
    def within(name: str, value: float, least: float, most: float, tolerance: float) -> float:
        """Gives a length inside of its range, where it is out of it by no more than the tolerance."""
        wanted = min(max(value, least), most)
        if wanted == value:
            return value
        if abs(wanted - value) > tolerance * value + grid:
            frame.remarks.append(f"{name} is {value / 1000:.3f} us, out of its range by more than lengths scatter")
            return value
        return wanted

    few = part / np.sqrt(max(1, len(own.pairs) / 2))
    tari = round(within("Tari", own.tari, 6250, 25_000, few))
    rtcal = round(within("RTcal", own.rtcal, int(np.ceil(2.5 * tari)), 3 * tari, part))
    one = rtcal - tari
    trcal = own.trcal and round(within("TRcal", own.trcal, int(np.ceil(1.1 * rtcal)), 3 * rtcal, part))
    low = round(own.low)
    delimiter = round(within("the delimiter", float(frame.measured[0]), 11_875, 13_125, part))
    lengths = np.where(own.wanted == own.tari, tari, one)
    head = [tari, rtcal] + ([trcal] if trcal else [])
    lengths[: len(head)] = head
    pairs = np.stack([lengths - low, np.full(len(lengths), low)], axis=1)
    is_own = np.abs(own.pairs - own.wanted) <= part * own.wanted + 2 * grid
    for at in np.flatnonzero(~is_own).tolist():
        frame.remarks.append(f"pair {at} behind the delimiter has {own.pairs[at] / 1000:.3f} us, which is none of the frame's own lengths")
    measured = np.rint(frame.measured[1:]).astype(int).reshape(-1, 2)
    frame.intervals = [delimiter, *np.where(is_own[:, None], pairs, measured).reshape(-1).tolist()]
    frame.moved = float(np.max(np.abs(np.array(frame.intervals) - frame.measured)))
