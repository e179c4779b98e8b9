"""The two waves of a recording: the reader's, as the edges of its lows, and the tag's, as samples."""

from __future__ import annotations

from typing import Callable, Protocol

import numpy as np

from .logic import Capture
from .reading import Source, Trouble

# So many samples are looked at at a time, and so many are kept of those behind the frame that was listened to last.
BLOCK, KEPT = 1 << 20, 1 << 16
# Over so many seconds the wave is smoothed where the depth of a low is sought, and where its edges are.
DEPTH_OVER, EDGE_OVER = 8e-6, 1e-6
# How far from an edge the wave is at its carrier or its low.
BESIDE = 1.5e-6
# A low begins where the wave is below the one and ends where it is above the other, as parts of the way from the carrier down.
BELOW, ABOVE = 0.65, 0.35
# Two logic lines that don't say their sample rate are taken at so many samples a second.
LOGIC_RATE = 25e6

Progress = Callable[[str, float], None]


class Waves(Protocol):
    """What a recording is to its readers: `end` is its length in nanoseconds, and `rate` the samples of the tag's wave in a second."""

    rate: float
    end: float
    notes: list[str]

    def lows(self, progress: Progress) -> np.ndarray:
        """Gives the lows of the reader: a row with the times of both edges for each, in nanoseconds."""

    def tag(self, first: float, last: float) -> tuple[float, np.ndarray]:
        """Gives the tag's wave between two times: the time of its first sample, and the samples."""


def smoothed(samples: np.ndarray, width: int, step: int = 1) -> np.ndarray:
    """Gives the mean of `width` samples from each `step`th one on, as far as there are so many."""
    if width <= 1:
        return samples[::step]
    total = np.zeros(len(samples) + 1, dtype=np.result_type(samples, np.float64))
    np.cumsum(samples, dtype=total.dtype, out=total[1:])
    return (total[width::step] - total[:-width:step]) / width


class Analogue:
    """A recording of one wave, real or complex, in which the reader's lows are the deepest dips of its carrier."""

    def __init__(self, source: Source) -> None:
        self.source, self.rate, self.end = source, source.rate, source.count * 1e9 / source.rate
        self.notes = list(source.notes)
        # The carrier, and the way from it to a low.
        self.carrier: complex = 0
        self.down: complex = 0
        # Samples that were read last, and where they begin.
        self.kept, self.kept_from = source.read(0, 0), 0

    def blocks(self, width: int) -> "list[tuple[int, int]]":
        """Gives the parts in which the samples are looked at: each begins so far before the end of the last that none is lost by smoothing."""
        return [(at, min(BLOCK + width - 1, self.source.count - at)) for at in range(0, max(1, self.source.count - width + 1), BLOCK)]

    def measure(self, progress: Progress) -> None:
        """Finds the carrier, where most samples are, and the low, which is furthest from it."""
        width = max(1, min(round(DEPTH_OVER * self.rate), self.source.count))
        middles, ends = [], []
        for first, size in self.blocks(width):
            part = self.source.read(first, size)
            few = part[:: max(1, len(part) // 4096)]
            middles.append(np.median(few.real) + 1j * np.median(few.imag) if self.source.is_complex else float(np.median(few)))
            smooth = smoothed(part, width, max(1, width // 8))
            away = np.abs(smooth - middles[-1])
            ends.append(smooth[int(np.argmax(away))])
            progress("looking for the carrier", (first + size) / self.source.count)
        self.carrier = complex(np.median(np.real(middles)), np.median(np.imag(middles)))
        self.down = complex(max(ends, key=lambda it: abs(it - self.carrier))) - self.carrier

    def reader(self, samples: np.ndarray) -> np.ndarray:
        """Gives the reader's wave: 0 at its carrier and -1 in a low."""
        unit = self.down / abs(self.down) ** 2
        if self.source.is_complex:
            return -((samples.real - self.carrier.real) * unit.real + (samples.imag - self.carrier.imag) * unit.imag)
        return (self.carrier.real - samples) * unit.real

    def lows(self, progress: Progress) -> np.ndarray:
        self.measure(progress)
        if not abs(self.down):
            self.notes.append("the wave doesn't move at all")
            return np.empty((0, 2))
        width = max(1, round(EDGE_OVER * self.rate))
        found: list[float] = []
        last: tuple[int, float, bool] | None = None
        for first, size in self.blocks(width):
            wave = self.reader(smoothed(self.source.read(first, size), width))
            progress("looking for frames", (first + size) / self.source.count)
            if last is not None and not last[2] and wave.min() > -ABOVE:
                last = first + len(wave) - 1, float(wave[-1]), False
                continue
            clear = np.flatnonzero((wave < -BELOW) | (wave > -ABOVE))
            if not len(clear):
                continue
            is_low = wave[clear] < -BELOW
            turns = np.flatnonzero(is_low[1:] != is_low[:-1])
            before, behind = clear[turns], clear[turns + 1]
            if last is not None and last[2] != is_low[0]:
                found.append(crossing(last[0], last[1], first + int(clear[0]), float(wave[clear[0]])))
            elif last is None and is_low[0]:
                # A low that the recording begins in has no begin: the place of its end alone is kept, and left out below.
                found.append(np.nan)
            found += list(first + middles(wave, before, behind, is_low[turns], max(2, round(BESIDE * self.rate))))
            last = first + int(clear[-1]), float(wave[clear[-1]]), bool(is_low[-1])
        places = np.array(found[: len(found) // 2 * 2]).reshape(-1, 2)
        places = places[~np.isnan(places[:, 0])]
        # The mean of some samples stands for the place in their middle.
        return (places + (width - 1) / 2) * 1e9 / self.rate

    def tag(self, first: float, last: float) -> tuple[float, np.ndarray]:
        begin, end = max(0, int(np.ceil(first * self.rate / 1e9))), min(self.source.count, int(last * self.rate / 1e9))
        if not self.kept_from <= begin <= end <= self.kept_from + len(self.kept):
            self.kept, self.kept_from = self.source.read(begin, max(0, min(max(end - begin, KEPT), self.source.count - begin))), begin
        part = self.kept[begin - self.kept_from : max(begin, end) - self.kept_from]
        return begin * 1e9 / self.rate, turned(part) if self.source.is_complex else part


def crossing(before: int, high: float, behind: int, low: float) -> float:
    """Gives the place where the line between two samples is in the middle of carrier and low."""
    return before + (high + 0.5) / (high - low) * (behind - before)


def middles(wave: np.ndarray, before: np.ndarray, behind: np.ndarray, from_low: np.ndarray, away: int) -> np.ndarray:
    """Gives the places where the wave is in the middle of what it was `away` samples before an edge and what it is behind it.

    So edges that take long are in the middle also where the carrier goes up and down.
    """

    def level(places: "tuple[np.ndarray, np.ndarray]", is_low: np.ndarray) -> np.ndarray:
        one, other = (wave[np.minimum(np.maximum(it, 0), len(wave) - 1)] for it in places)
        return np.where(is_low, np.minimum(one, other), np.maximum(one, other))

    half = away // 2
    middle = (level((before - half, before - away), from_low) + level((behind + half, behind + away), ~from_low)) / 2
    share = (wave[before] - middle) / (wave[before] - wave[behind])
    return before + np.minimum(np.maximum(share, 0), 1) * (behind - before)


def turned(samples: np.ndarray) -> np.ndarray:
    """Turns complex samples onto the axis on which they spread most, beside what moves slowly."""
    if len(samples) < 64:
        return samples.real
    wide = 32
    slow = np.convolve(samples, np.ones(wide) / wide, "same")
    quick = (samples - slow)[wide:-wide]
    angle = 0.5 * np.angle(np.mean(quick**2))
    return (samples * np.exp(-1j * angle)).real


class Logic:
    """A recording of two logic lines: the reader's is 1 where its carrier is on."""

    def __init__(self, capture: Capture) -> None:
        self.capture = capture
        self.rate = capture.rate or LOGIC_RATE
        self.end = capture.reader.end
        self.notes = [f"the reader's line is {capture.reader.name}, the tag's {capture.tag.name}", *capture.notes]
        line = capture.reader
        lengths = np.diff(np.concatenate([[0.0], line.changes, [line.end]]))
        # The carrier is on for most of the time.
        self.is_on = 1 if lengths[1 - line.first :: 2].sum() > lengths[line.first :: 2].sum() else 0
        if not self.is_on:
            self.notes.append("the reader's line is 0 for most of the time, so 0 is taken as its carrier")

    def lows(self, progress: Progress) -> np.ndarray:
        line = self.capture.reader
        changes = line.changes[0 if line.first == self.is_on else 1 :]
        return changes[: len(changes) // 2 * 2].reshape(-1, 2)

    def tag(self, first: float, last: float) -> tuple[float, np.ndarray]:
        begin = np.ceil(first * self.rate / 1e9)
        times = (begin + np.arange(max(0, int(last * self.rate / 1e9 - begin)))) * 1e9 / self.rate
        return begin * 1e9 / self.rate, self.capture.tag.at(times + 0.01).astype(np.float32)
