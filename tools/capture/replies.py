"""Listens for the replies behind frames: searches where each begins, follows those that begin, and says what came or why nothing did."""

from __future__ import annotations

from dataclasses import dataclass

import numpy as np

from . import codes
from .search import SILENT, Begin, begins
from .streams import DEVIATION, Follower, Samples, Stream
from .waves import Waves

# How much of the carrier behind a frame and before the next is left out, in nanoseconds.
GUARD_BEHIND, GUARD_BEFORE = 2_000, 1_000
# When a reply begins, as parts of T1, and how much more on both sides, in nanoseconds; a delayed one within 20 milliseconds.
T1_PARTS, T1_MORE = (0.7, 1.35), (-3_000, 5_000)
DELAYED, DELAYED_STEP = 21e6, 4096
# What a correlation has to be in units of the noise, so that it is no noise: where a reply is awaited, and at any later place.
HEARD, HEARD_LATE = 5.5, 6.5
# How much less likely than the best another begin may be, so that it is tried too, as twice the logarithm.
LIKELY = 80.0
# The same as a part of what it explains: a lead hardly differs from itself where it is moved by a level and inverted.
NEARLY = 0.94
# Where levels come out broken, the period is tried at these parts of what it seemed to be.
OTHER_CLOCKS = (0.96, 0.98, 1.02, 1.04)
# Noise is measured over so many samples.
NOISE_OVER = 1000
# A level has at least so many samples; where it has more than twice as many, they are averaged for the search.
FEWEST, ENOUGH = 2.0, 5.0
# So many streams are followed side by side at most.
TOGETHER = 64


@dataclass
class Link:
    """What the Query said: the backscatter link frequency in hertz, the code, and TRext."""

    blf: float
    code: str
    trext: str


@dataclass
class Heard:
    """A reply: the time at which it begins in nanoseconds, its BLF, and its levels."""

    begin: float
    blf: float
    stream: Stream


def bit_counts(expect: str) -> list[int]:
    """Gives how many bits a reply that is awaited may have, an error reply too."""
    kind, *rest = expect.split("-")
    if kind == "rn16":
        return [16]
    if kind in ("handle", "same"):
        return [32]
    if kind == "epc":
        return [32 + 16 * words for words in range(32)]
    if kind == "header":
        return [33, 41]
    if kind == "words":
        return sorted([41, 33 + 16 * int(rest[0])])
    return sorted([41, *(33 + 16 * words for words in range(1, 513))])


def noise_of(wave: np.ndarray) -> float:
    """Gives the standard deviation of the noise of a sample, from how far neighbours differ."""
    if len(wave) < 2:
        return 0.0
    few = wave[:NOISE_OVER]
    steps = np.abs(few[1:] - few[:-1])
    low, high = (len(steps) - 1) // 2, len(steps) // 2
    ordered = np.partition(steps, (low, high))
    return DEVIATION * float(ordered[low] + ordered[high]) / 2 / 2**0.5


def averaged(wave: np.ndarray, factor: int) -> np.ndarray:
    return wave[: len(wave) // factor * factor].reshape(-1, factor).mean(axis=1) if factor > 1 else wave


@dataclass
class Begun:
    """What begins behind a frame that ends at `end`: the places where it may, the likeliest first, in a wave whose first sample is at `first`.

    Times are in nanoseconds. `noise` is the standard deviation of a sample, and `lengths` are the bits that a reply may have.
    """

    end: float
    first: float
    rate: float
    wave: np.ndarray
    found: list[Begin]
    code: str
    trext: str
    noise: float
    lengths: list[int]


def listen(waves: Waves, link: Link, expect: str, trext: str, rtcal: float, end: float, until: float) -> Begun | str:
    """Gives what begins behind a frame that ends at `end`, before the next one or the end of the recording at `until`; or why nothing does."""
    nominal = waves.rate / (2 * link.blf)
    if nominal < FEWEST:
        return f"a level has {nominal:.1f} samples, too few to hear one"
    first, wave = waves.tag(end + GUARD_BEHIND, min(until - GUARD_BEFORE, end + DELAYED))
    lead = len(codes.lead(link.code, trext))
    if len(wave) < (SILENT + lead + codes.symbol_length(link.code)) * nominal:
        return f"nothing may come within {(until - end) / 1000:.0f} us, where the next frame begins or the recording ends"
    wave = wave.astype(float)
    noise = noise_of(wave)
    factor = max(1, int(0.8 * nominal / ENOUGH))
    few = averaged(wave, factor)
    sigma = max(noise_of(few) if factor > 1 else noise, noise / np.sqrt(factor), 1e-3 * float(np.ptp(few)))
    t1, scale = max(rtcal, 10e9 / link.blf), waves.rate / 1e9 / factor

    def best(earliest: float, latest: float, least: float) -> list[Begin]:
        """Gives the likeliest begins between two places of the wave, where they are no noise."""
        found = begins(few, link.code, trext, nominal / factor, earliest, latest)
        enough = min(found[0].score ** 2 - LIKELY * sigma**2, NEARLY * found[0].score ** 2)
        return [it for it in found if it.score > least * sigma and it.score**2 >= enough]

    earliest, at = ((end - first + part * t1 + more) * scale for part, more in zip(T1_PARTS, T1_MORE))
    found = best(earliest, at, HEARD)
    while not found and at < len(few) - (lead + SILENT) * nominal / factor:
        found = best(at, at + DELAYED_STEP, HEARD_LATE)
        at += DELAYED_STEP
    if not found:
        return "nothing came"
    # (a mean of some samples has less noise than each of them)
    found = [Begin(it.start * factor, it.period * factor, it.height, it.edge, it.score * factor**0.5) for it in found]
    return Begun(end, first, waves.rate, wave, found, link.code, trext, noise, bit_counts(expect))


def heard(begun: list[Begun]) -> list[Heard | str]:
    """Gives the reply of each that begins, or why it is none."""
    answers: list[Heard | str] = [""] * len(begun)
    for code, trext in sorted({(it.code, it.trext) for it in begun}):
        # Those of like lengths are followed side by side.
        group = [at for at, it in enumerate(begun) if (it.code, it.trext) == (code, trext)]
        group.sort(key=lambda at: begun[at].lengths[-1])
        for first in range(0, len(group), TOGETHER):
            part = group[first : first + TOGETHER]
            for at, stream in zip(part, followed([begun[it] for it in part])):
                answers[at] = answer_of(begun[at], stream)
    return answers


def answer_of(begun: Begun, stream: Stream | None) -> Heard | str:
    nanoseconds = 1e9 / begun.rate
    if stream is None:
        behind = (begun.first - begun.end + begun.found[0].start * nanoseconds) / 1000
        return f"something begins {behind:.0f} us behind the frame, and there is no room for a reply that is awaited"
    return Heard(begun.first + stream.clock.start * nanoseconds, begun.rate / (2 * stream.clock.period), stream)


def followed(begun: list[Begun]) -> list[Stream | None]:
    """Follows streams of one code, each from the begin that explains most of it. Where levels come out broken, other clocks are tried too."""
    code, trext = begun[0].code, begun[0].trext
    samples = Samples([it.wave for it in begun])
    lengths = [np.array(it.lengths) for it in begun]

    def follower_of(pairs: list[tuple[int, Begin]]) -> Follower:
        follower = Follower(samples, code, trext, [at for at, _ in pairs], [it for _, it in pairs], [begun[at].noise for at, _ in pairs])
        follower.begin()
        return follower

    pairs = [(at, it) for at, mine in enumerate(begun) for it in mine.found]
    follower = follower_of(pairs)
    kept = likeliest(follower, pairs, begun)
    streams = follower.take(np.array(kept)).follow(lengths)
    broken = [at for at, it in enumerate(streams) if it is not None and len(it.broken) >= 2]
    if not broken:
        return streams
    again = [(at, with_period(pairs[kept[at]][1], share, len(codes.lead(code, trext)))) for at in broken for share in OTHER_CLOCKS]
    for (at, _), stream in zip(again, follower_of(again).follow([lengths[at] for at, _ in again])):
        kept_stream = streams[at]
        if stream is not None and kept_stream is not None and stream.spread < kept_stream.spread:
            streams[at] = stream
    return streams


def likeliest(follower: Follower, pairs: list[tuple[int, Begin]], begun: list[Begun]) -> list[int]:
    """Gives of each that begins which of its places explains most of it, where it may begin at several."""
    several = [row for row, (at, _) in enumerate(pairs) if len(begun[at].found) > 1]
    if several:
        part = follower.take(np.array(several))
        most = np.array([begun[pairs[row][0]].lengths[-1] + 1 for row in several])
        part.advance(np.maximum(1, np.minimum(part.room(), most)), [np.zeros(0, dtype=np.intp)] * len(several))
        follower.put(np.array(several), part)
    rows: dict[int, list[int]] = {}
    for row, (at, _) in enumerate(pairs):
        rows.setdefault(at, []).append(row)
    return [max(rows[at], key=lambda row: pairs[row][1].score ** 2 + follower.gain[row]) for at in range(len(begun))]


def with_period(begin: Begin, share: float, lead: int) -> Begin:
    """Gives a begin with such a part of its period, of which the middle of the lead stays where it is."""
    return Begin(begin.start + begin.period * (1 - share) * lead / 2, begin.period * share, begin.height, begin.edge, begin.score)
