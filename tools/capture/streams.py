"""Follows the clocks through streams of tags, and decides their levels by the trellis of their code.

Streams of one code are followed side by side, so each step is an operation over arrays that have a row for each of them. A row is as long as the
longest needs; what stands in it behind the end of its own stream is left out of every sum.

A level is seen by its integral over the whole half period. What is expected of it is a sum over the level behind it, itself and the two before,
each with a weight: edges that take long reach into the levels beside them.
"""

from __future__ import annotations

import copy
import functools
import statistics
from dataclasses import dataclass

import numpy as np

from . import codes
from .search import SILENT, Begin

# A baseline is followed over so many levels to each side.
SMOOTH = 12
# Noise accounts for what goes beyond its limit in so many of all streams.
LOST = 0.003
# The same of so many levels beside each other, as the root of their mean square, in standard deviations.
TOGETHER, ACCOUNTED_TOGETHER = 6, 2.6
# How far levels are uneven beside noise, as a part of the amplitude, without and with long edges: what is further off is no stream of this code.
UNEVEN, UNEVEN_EDGES = 0.2, 0.05
# How many times as many levels as are decided are decided next at most.
FARTHER = 7
# What is uneven in any recording.
EVEN = 0.06
# How many steps to each side of a clock are tried at most.
MOST_STEPS = 6
# How far a stream is looked at behind the levels that are asked for.
BEHIND = 2 * SILENT
# A clock is moved by so many turns of the wave at least.
FEWEST_TURNS = 6
# What a median of deviations is multiplied with to be a standard deviation.
DEVIATION = 1.4826
# The states behind a 1: a stream ends in one of them.
ONES = [at for at, (_, bit) in enumerate(codes.STATES) if bit]


@dataclass
class Clock:
    """Where the first level begins, and how long a level is, in samples."""

    start: float
    period: float


@dataclass
class Stream:
    """Levels as they were decided, and what was seen of them.

    `levels` are those of the best stream that the code has, `printed` the same with each level inverted that was broken. `against` are the places
    that were decided against their integral, `broken` those of them for which noise doesn't account. `amplitude` is half of the way from low to
    high, and `sigma` the standard deviation of a level's integral about what is expected. `rest` is what isn't explained, as a sum of squares.
    """

    levels: np.ndarray
    clock: Clock
    against: np.ndarray
    broken: np.ndarray
    amplitude: float
    sigma: float
    rest: float

    @property
    def spread(self) -> float:
        """Gives the spread of a level, as a part of the way from low to high."""
        return 0.5 * self.sigma / self.amplitude

    @property
    def printed(self) -> np.ndarray:
        printed = self.levels.copy()
        printed[self.broken] *= -1
        return printed


class Samples:
    """The waves of tags behind several frames, one after the other: of each its samples and the sums of those before each sample."""

    def __init__(self, waves: list[np.ndarray]) -> None:
        self.sizes = np.array([len(it) for it in waves], dtype=np.intp)
        # Each has one place more, since there is a sum behind the last sample too.
        self.firsts = np.cumsum(self.sizes + 1) - (self.sizes + 1)
        self.samples = np.zeros(int(np.sum(self.sizes + 1)))
        self.total = np.zeros(len(self.samples))
        for first, wave in zip(self.firsts.tolist(), waves):
            self.samples[first : first + len(wave)] = wave
            np.cumsum(self.samples[first : first + len(wave)], out=self.total[first + 1 : first + 1 + len(wave)])

    def integral(self, wave: np.ndarray, places: np.ndarray) -> np.ndarray:
        """Gives the integral of waves up to places, a row for each. What is outside of a wave is as its end."""
        first, most = self.firsts[wave][:, None], self.sizes[wave][:, None]
        inside = np.minimum(np.maximum(places, 0), most - 1e-6)
        whole = inside.astype(np.intp)
        share = inside - whole
        whole += first
        value = self.total[whole] + share * self.samples[whole]
        if np.any(places[:, :1] < 0) or np.any(places[:, -1:] >= most):
            value += np.minimum(places, 0) * self.samples[first] + np.maximum(places - most, 0) * self.samples[first + most - 1]
        return value

    def means(self, wave: np.ndarray, first: np.ndarray, last: np.ndarray) -> np.ndarray:
        """Gives the means of waves from whole places to whole places, a row for each wave."""
        begin = self.firsts[wave][:, None]
        return (self.total[begin + last] - self.total[begin + first]) / (last - first)


KERNEL = np.convolve(np.ones(SMOOTH), np.ones(SMOOTH)) / SMOOTH**2


def convolved(rows: np.ndarray) -> np.ndarray:
    """Gives the sum about each place of each row, over a triangle."""
    apart = np.zeros((rows.shape[0], rows.shape[1] + len(KERNEL)))
    apart[:, : rows.shape[1]] = rows
    return np.convolve(apart.reshape(-1), KERNEL, "same").reshape(apart.shape)[:, : rows.shape[1]]


def smooth(rows: np.ndarray, inside: np.ndarray) -> np.ndarray:
    """Gives the mean about each place of each row, over a triangle, of what is inside of the row."""
    weights = convolved(inside)
    return convolved(np.where(inside, rows, 0.0)) / np.where(weights > 0, weights, 1.0)


def median(rows: np.ndarray, inside: np.ndarray) -> np.ndarray:
    """Gives the median of each row, of what is inside of the row."""
    ordered = np.sort(np.where(inside, rows, np.inf), axis=1)
    count, each = np.count_nonzero(inside, axis=1), np.arange(len(rows))
    return (ordered[each, (count - 1) // 2] + ordered[each, count // 2]) / 2


def expected_of(around: np.ndarray, taps: np.ndarray) -> np.ndarray:
    """Gives what is expected of each level of rows that have two levels more before them and one behind."""
    behind, own, before, further = (taps[:, it, None] for it in range(codes.TAPS))
    return behind * around[:, 3:] + own * around[:, 2:-1] + before * around[:, 1:-2] + further * around[:, :-3]


def widened(levels: np.ndarray, width: int) -> np.ndarray:
    """Gives levels with silence behind them, so that there are so many in a row."""
    return np.pad(levels, ((0, 0), (0, width - levels.shape[1])), constant_values=-1)


def first_taps(edge: np.ndarray) -> np.ndarray:
    """Gives the weights of the levels beside one, for an amplitude of 1 and straight edges of some length in levels."""
    share = np.minimum(edge, 2.0) / 8
    return np.stack([share, 1 - 2 * share, share, np.zeros(len(edge))], axis=1)


@functools.lru_cache(maxsize=None)
def accounted(count: int) -> float:
    """Gives how many standard deviations noise accounts for among so many levels: it goes beyond in LOST of all streams."""
    return statistics.NormalDist().inv_cdf(1 - LOST / count)


class Follower:
    """Follows streams of one code: their clocks, baselines and weights become better with each part of them that is decided.

    Each array has an entry, or a row, for each stream. `wave` is which of the samples' waves it is in, and `sign` is -1 where high is below low
    in that; `start` and `period` are its clock, `taps` its weights, and `prior` what its edges suggest of them; `sigma` is what noise alone makes
    of a level's integral, and `gain` how much of the wave it explains, as a sum over samples. Of `levels` so many as `known` are decided, and what
    stands behind them is silent.
    """

    ARRAYS = ("wave", "sign", "start", "period", "edge", "prior", "taps", "amplitude", "sigma", "gain", "known", "levels")

    def __init__(self, samples: Samples, code: str, trext: str, waves: list[int], begins: list[Begin], noise: list[float]) -> None:
        self.samples, self.code = samples, code
        self.lead, self.trellis = codes.lead(code, trext), codes.trellis(code)
        height = np.array([it.height for it in begins])
        self.wave = np.array(waves, dtype=np.intp)
        self.sign, self.amplitude = np.sign(height), np.abs(height)
        self.start, self.period = np.array([it.start for it in begins]), np.array([it.period for it in begins])
        self.edge = np.array([it.edge for it in begins])
        self.prior = first_taps(self.edge)
        self.taps = self.amplitude[:, None] * self.prior
        self.sigma = np.array(noise) / np.sqrt(self.period)
        self.gain = np.zeros(len(begins))
        self.known = np.full(len(begins), len(self.lead))
        self.levels = np.tile(self.lead, (len(begins), 1))

    def __len__(self) -> int:
        return len(self.wave)

    def take(self, which: np.ndarray) -> Follower:
        """Gives a follower of some of the streams."""
        taken = copy.copy(self)
        for name in self.ARRAYS:
            setattr(taken, name, getattr(self, name)[which])
        return taken

    def put(self, which: np.ndarray, other: Follower) -> None:
        """Sets some of the streams to those of another follower."""
        width = max(self.levels.shape[1], other.levels.shape[1])
        self.levels, levels = widened(self.levels, width), widened(other.levels, width)
        for name in self.ARRAYS:
            getattr(self, name)[which] = levels if name == "levels" else getattr(other, name)

    def around(self, width: int) -> np.ndarray:
        """Gives the levels of `width` places from SILENT before the first, with two more before and one behind; where none is known it is silent."""
        around = np.full((len(self), width + codes.TAPS - 1), -1.0)
        begin = SILENT + codes.REACH_BEFORE
        levels = self.levels[:, : width + codes.REACH_BEHIND - SILENT]
        around[:, begin : begin + levels.shape[1]] = levels
        return around

    def integrals(self, first: float, count: int) -> np.ndarray:
        """Gives the mean over each of `count` levels from level `first` on."""
        return self.integrals_of(np.arange(len(self)), self.start, self.period, first, count)

    def integrals_of(self, which: np.ndarray, start: np.ndarray, period: np.ndarray, first: float, count: int) -> np.ndarray:
        """Gives the same of some of the streams by other clocks."""
        bounds = start[:, None] + period[:, None] * (first + np.arange(count + 1))
        value = self.samples.integral(self.wave[which], bounds)
        return (value[:, 1:] - value[:, :-1]) * (self.sign[which] / period)[:, None]

    def baseline(self, rows: np.ndarray, counts: np.ndarray, ends: bool) -> np.ndarray:
        """Gives the baseline of integrals: what is slow in them beside the levels that are known; where `ends` is set, silence follows on these."""
        place = np.arange(rows.shape[1])
        expected = expected_of(self.around(rows.shape[1]), self.taps)
        if not ends:
            expected[place >= SILENT + self.known[:, None]] = 0
        return smooth(rows - expected, place < SILENT + counts[:, None] + BEHIND)

    def seen(self, counts: np.ndarray, ends: bool) -> np.ndarray:
        """Gives the integrals of the levels from SILENT before the first to some behind so many, without the baseline."""
        rows = self.integrals(-SILENT, SILENT + int(counts.max()) + BEHIND)
        return rows - self.baseline(rows, counts, ends)

    def decide(self, which: np.ndarray, rows: np.ndarray, symbols: int) -> tuple[np.ndarray, np.ndarray]:
        """Runs the trellis over so many symbols behind the lead, for rows of some of the streams: gives the gain of the best path into each state
        behind each symbol, and which branch it took. The gain is how much better it explains the integrals than silence does, as a sum of squares."""
        trellis = self.trellis
        length, first = trellis.length, SILENT + len(self.lead) - 1
        parts = rows[:, first : first + symbols * length].reshape(len(rows), symbols, length)
        expected = np.tensordot(self.taps, trellis.seen, axes=(1, 2))
        branch_gain = 2 * parts @ expected.transpose(0, 2, 1)[which] - np.sum(expected**2, axis=2)[which][:, None, :]
        into_gain = np.ascontiguousarray(branch_gain.transpose(1, 2, 0)[:, trellis.into.T])
        gains = np.empty((symbols, len(codes.STATES), len(rows)))
        taken = np.empty(gains.shape, dtype=bool)
        gain = np.full(gains.shape[1:], -np.inf)
        gain[codes.STATES.index((int(self.lead[-1]), 1))] = 0
        source = trellis.source.T
        for at in range(symbols):
            one, other = into_gain[at] + gain[source]
            np.greater(other, one, out=taken[at])
            gain = np.maximum(one, other, out=gains[at])
        return gains, taken

    def path(self, taken: np.ndarray, symbols: np.ndarray, states: np.ndarray) -> None:
        """Sets the levels to the path of each stream that ends in a state behind so many symbols."""
        into, each, most = self.trellis.into, np.arange(len(self)), int(symbols.max())
        branches = np.empty((most, len(self)), dtype=np.intp)
        for at in range(most - 1, -1, -1):
            branches[at] = into[states, taken[at, states, each].astype(np.intp)]
            states = np.where(at < symbols, branches[at] // 2, states)
        levels = self.trellis.symbols[branches].transpose(1, 0, 2).reshape(len(self), -1)
        self.levels = np.concatenate([np.tile(self.lead, (len(self), 1)), levels], axis=1)
        self.known = len(self.lead) + symbols * self.trellis.length
        self.levels[np.arange(self.levels.shape[1]) >= self.known[:, None]] = -1

    def adjust_taps(self, rows: np.ndarray, ends: bool) -> None:
        """Fits the weights to the levels that are decided; they stay near to what the edges suggest where few levels say otherwise."""
        width = min(rows.shape[1], SILENT + int(self.known.max()) + SILENT)
        inside = np.arange(width) < (SILENT + self.known + (SILENT if ends else -1))[:, None]
        around = self.around(width)
        seen = np.stack([around[:, 3 - it : 3 - it + width] for it in range(codes.TAPS)], axis=1) * inside[:, None, :]
        size = np.maximum(self.amplitude, 1e-9)
        noise = np.maximum(self.sigma, 0.02 * size)
        weight = (noise / size)[:, None] ** 2 / np.array([0.12, 1.0, 0.12, 0.08]) ** 2
        square = seen @ seen.transpose(0, 2, 1) + weight[:, :, None] * np.eye(codes.TAPS)
        wanted = (seen @ rows[:, :width, None])[:, :, 0] + weight * size[:, None] * self.prior
        self.taps = np.linalg.solve(square, wanted[:, :, None])[:, :, 0]
        self.amplitude = np.maximum(np.sum(self.taps, axis=1), 1e-9)

    def adjust_clock(self, ends: np.ndarray, believed: float = 0.05) -> None:
        """Moves the clocks to where the wave goes through its middle between levels that differ; the period is believed to such a part.

        Where `ends` is set, silence follows on the levels that are decided; elsewhere nothing is known of what follows.
        """
        width = SILENT + int(self.known.max()) + SILENT
        place, known, amplitude = np.arange(width) - SILENT, self.known[:, None], self.amplitude[:, None]
        around = self.around(width)
        around[(np.arange(around.shape[1]) - SILENT - codes.REACH_BEFORE >= known) & ~ends[:, None]] = 0
        # About the bound before each level: the two levels beside it, and the two beside these.
        before, behind = around[:, 1:-2], around[:, 2:-1]
        further = around[:, :-3] + around[:, 3:]
        halves = self.integrals(-SILENT - 0.5, width)
        clean = halves - smooth(halves - (before + behind) * amplitude / 2, place < known + SILENT)
        turns = (before == -behind) & (behind != 0) & (place <= known)
        # A turn that is off by near to half a level is none: a level there was broken, or isn't decided rightly.
        turns &= np.abs(clean) < 0.8 * amplitude
        middle = known / 2
        size = -2 * amplitude * behind / self.period[:, None]
        model = np.stack([size, size * (place - middle), further], axis=1) * turns[:, None, :]
        noise = self.sigma**2 + (0.1 * self.amplitude) ** 2
        square = model @ model.transpose(0, 2, 1)
        square[:, 1, 1] += noise / (believed * self.period) ** 2
        square[:, 2, 2] += noise / (0.3 * self.amplitude) ** 2
        square += 1e-9 * np.trace(square, axis1=1, axis2=2)[:, None, None] * np.eye(3)
        is_sure = np.count_nonzero(turns, axis=1) >= FEWEST_TURNS
        square[~is_sure] = np.eye(3)
        late, slower, _ = np.where(is_sure, np.linalg.solve(square, model @ clean[:, :, None])[:, :, 0].T, 0)
        most = 0.4 * self.period
        late = np.clip(late, -most, most)
        slower = np.clip(slower, -2 * most / self.known, 2 * most / self.known)
        self.start, self.period = self.start + late - slower * middle[:, 0], self.period + slower

    def unsure(self) -> np.ndarray:
        """Gives how far, as a part, each period may be off, which the levels that are known have made."""
        # How far off a turn of the wave is seen; two of three bounds are turns.
        turn = np.hypot(0.5 * self.sigma / self.amplitude, 0.25 / self.period) + 0.08 * self.edge
        return 2.5 * np.clip(turn / (np.sqrt(0.66 * self.known) * self.known / np.sqrt(12)), 0.0002, 0.02)

    def clocks_about(self, counts: np.ndarray) -> tuple[np.ndarray, np.ndarray, np.ndarray, np.ndarray]:
        """Gives the clocks that are tried for so many levels: which stream each is for, how many steps off, its start and its period. The middle of
        what is known stays where it is."""
        unsure = self.unsure()
        steps = np.minimum(MOST_STEPS, np.rint(unsure * (counts - self.known / 2) / 0.2)).astype(np.intp)
        which = np.repeat(np.arange(len(self)), 2 * steps + 1)
        away = np.concatenate([np.arange(-it, it + 1) for it in steps.tolist()])
        period = self.period[which] * (1 + (unsure / np.maximum(steps, 1))[which] * away)
        return which, away, self.start[which] + (self.period[which] - period) * self.known[which] / 2, period

    def begin(self) -> None:
        """Fits the clocks to the lead alone."""
        self.adjust_clock(np.zeros(len(self), dtype=bool), 0.01)

    def next_symbols(self, most: np.ndarray) -> np.ndarray:
        """Gives how many symbols are decided next: as far as the clock is sure enough, and at most so many."""
        length, lead = self.trellis.length, len(self.lead)
        reach = self.known / 2 + 1.2 / self.unsure()
        counts = np.minimum(np.maximum(reach, 1.6 * self.known), FARTHER * self.known)
        symbols = np.maximum((self.known - lead) // length + 6, ((counts - lead) / length).astype(np.intp))
        return np.where(most < 1.2 * symbols, most, symbols)

    def by_best_clock(self, symbols: np.ndarray) -> tuple[np.ndarray, np.ndarray, np.ndarray]:
        """Decides so many symbols of each stream by several clocks, and sets that which explains most. Gives the integrals by it, and what `decide` does."""
        counts = len(self.lead) + symbols * self.trellis.length
        which, away, start, period = self.clocks_about(counts)
        rows = self.integrals_of(which, start, period, -SILENT, SILENT + int(counts.max()) + BEHIND)
        # (a baseline is slow, so that of the clock in the middle serves all)
        rows -= self.baseline(rows[away == 0], counts, False)[which]
        gains, taken = self.decide(which, rows, int(symbols.max()))
        explained = np.full((len(self), 2 * MOST_STEPS + 1), -np.inf)
        explained[which, away + MOST_STEPS] = gains[symbols[which] - 1, :, np.arange(len(rows))].max(axis=1)
        row = np.flatnonzero(away == 0) + np.argmax(explained, axis=1) - MOST_STEPS
        self.start, self.period = start[row], period[row]
        return rows[row], gains[:, :, row], taken[:, :, row]

    def advance(self, most: np.ndarray, lengths: list[np.ndarray]) -> list[list[int]]:
        """Decides some more symbols of each stream, and at most so many in all. Gives where each may have ended, and nothing where it didn't."""
        symbols = self.next_symbols(most)
        rows, gains, taken = self.by_best_clock(symbols)
        ends = [self.ends_in(at, gains[:count, :, at], lengths[at]) for at, count in enumerate(symbols.tolist())]
        used = np.array([it[0] + 1 if it else count for it, count in zip(ends, symbols.tolist())])
        last = gains[used - 1, :, np.arange(len(self))]
        self.gain = last.max(axis=1) * self.period
        self.path(taken, used, np.argmax(last, axis=1))
        self.adjust_taps(rows, False)
        self.adjust_clock(np.array([bool(it) for it in ends]))
        return ends

    def room(self) -> np.ndarray:
        """Gives for how many symbols behind the lead each wave has room."""
        return ((self.samples.sizes[self.wave] - self.start) / self.period - len(self.lead)).astype(np.intp) // self.trellis.length

    def follow(self, lengths: list[np.ndarray]) -> list[Stream | None]:
        """Gives each stream, which has one of so many bits, or nothing where its wave has no room for the shortest of them."""
        lengths = [it[it + 1 <= room] for it, room in zip(lengths, self.room().tolist())]
        ends: list[list[int]] = [[]] * len(self)
        left = np.array([at for at, it in enumerate(lengths) if len(it)], dtype=np.intp)
        while len(left):
            part = self.take(left)
            mine = [lengths[it] for it in left.tolist()]
            for at, found in zip(left.tolist(), part.advance(np.array([int(it[-1]) + 1 for it in mine]), mine)):
                ends[at] = found
            self.put(left, part)
            left = np.array([it for it in left.tolist() if not ends[it]], dtype=np.intp)
        return self.best_of(ends)

    def best_of(self, ends: list[list[int]]) -> list[Stream | None]:
        """Gives each stream with that of its ends that leaves least unexplained, or nothing where it has none."""
        which = np.array([at for at, it in enumerate(ends) for _ in it], dtype=np.intp)
        best: list[Stream | None] = [None] * len(ends)
        if not len(which):
            return best
        bits, furthest = np.array([bits for it in ends for bits in it]), np.array([max(it) for it in ends for _ in it])
        for at, stream in zip(which.tolist(), self.take(which).settle(bits, furthest)):
            kept = best[at]
            if kept is None or stream.rest < kept.rest:
                best[at] = stream
        return best

    def ends_in(self, at: int, gains: np.ndarray, lengths: np.ndarray) -> list[int]:
        """Gives the numbers of bits at which a stream may have ended, the likeliest first, where the symbols that are decided show it."""
        here = lengths[lengths + 1 <= len(gains)]
        if not len(here):
            return []
        gain = gains[here][:, ONES].max(axis=1)
        # Behind its end a stream loses in each symbol what it gained before; with long edges it may lose little.
        size = self.trellis.length * float(np.sum(self.taps[at] ** 2))
        if here[-1] < lengths[-1] and gain.max() < gains[-1].max() + 3 * size:
            return []
        order = np.argsort(-gain)[:3]
        return here[order[gain[order] > gain.max() - 6 * size]].tolist()

    def settle(self, bits: np.ndarray, furthest: np.ndarray) -> list[Stream]:
        """Decides the levels of streams of so many bits again, with what all of them say of clock, baseline and weights.

        The residual is taken up to where a stream of `furthest` bits would end.
        """
        counts, horizons = (len(self.lead) + (it + 1) * self.trellis.length for it in (bits, furthest))
        self.known = np.minimum(self.known, counts)
        self.levels[np.arange(self.levels.shape[1]) >= self.known[:, None]] = -1
        rows = np.zeros((len(self), SILENT + int(horizons.max()) + BEHIND))
        left = np.arange(len(self))
        for is_last in (False, False, True):
            part = self.take(left)
            seen = part.seen(horizons[left], True)
            rows[left, : seen.shape[1]] = seen
            if not is_last:
                moved = np.flatnonzero(part.decide_again(seen, bits[left]))
                left, part, seen = left[moved], part.take(moved), seen[moved]
            if not len(left):
                break
            part.adjust_taps(seen, True)
            if not is_last:
                part.adjust_clock(np.ones(len(part), dtype=bool))
            self.put(left, part)
        return self.judge(rows, horizons)

    def decide_again(self, rows: np.ndarray, bits: np.ndarray) -> np.ndarray:
        """Decides the levels of streams of so many bits, on which silence follows. Tells which of the streams changed."""
        each, known, levels = np.arange(len(self)), self.known, self.levels
        gains, taken = self.decide(each, rows, int(bits.max()) + 1)
        # The last bit is the dummy 1.
        states = np.array(ONES)
        beside = np.array([[-1, codes.STATES[it][0], *reversed(codes.before(self.code, codes.STATES[it])[:2])] for it in ONES])
        expected = self.taps @ beside.T
        last = rows[each, SILENT + len(self.lead) + (bits + 1) * self.trellis.length - 1]
        total = gains[bits, :, each][:, states] + 2 * last[:, None] * expected - expected**2
        self.path(taken, bits + 1, states[np.argmax(total, axis=1)])
        width = max(levels.shape[1], self.levels.shape[1])
        return (known != self.known) | np.any(widened(levels, width) != widened(self.levels, width), axis=1)

    def judge(self, rows: np.ndarray, horizons: np.ndarray) -> list[Stream]:
        """Compares each level with its integral, and with what its edges let expect of the integrals beside it."""
        width, most = rows.shape[1], int(self.known.max())
        residual = rows - expected_of(self.around(width), self.taps)
        residual[np.arange(width) >= (SILENT + horizons + BEHIND)[:, None]] = 0
        rest = np.sum(residual**2, axis=1).tolist()
        inside = np.arange(most) < self.known[:, None]
        sigma = (DEVIATION * median(np.abs(residual[:, SILENT : SILENT + most]), inside)).tolist()
        against, broken = np.zeros(inside.shape, dtype=bool), np.zeros(inside.shape, dtype=bool)
        steep, long = np.flatnonzero(self.edge == 0), np.flatnonzero(self.edge)
        against[steep], broken[steep] = self.take(steep).compare(rows[steep], inside[steep])
        against[long], broken[long] = self.take(long).compare_edges(residual[long], inside[long])
        clocks = [Clock(*it) for it in zip(self.start.tolist(), self.period.tolist())]
        told = zip(self.known.tolist(), self.levels, clocks, against | broken, broken, self.amplitude.tolist(), sigma, rest)
        return [Stream(levels[:known], clock, np.flatnonzero(off), np.flatnonzero(bad), *more) for known, levels, clock, off, bad, *more in told]

    def compare(self, rows: np.ndarray, inside: np.ndarray) -> tuple[np.ndarray, np.ndarray]:
        """Tells which levels are against the samples that are whole inside of them, and which of these are broken.

        Samples that an edge may go through say nothing sure of a level.
        """
        levels = self.levels[:, : inside.shape[1]]
        value, weight = self.whole_samples(rows, inside.shape[1])
        amplitude = np.sum(value * levels * inside, axis=1) / self.known
        against = (value * levels < 0) & inside
        off = (value - amplitude[:, None] * levels) * np.sqrt(weight)
        size = np.sqrt(np.sum(weight * inside, axis=1) / self.known)
        return against, self.broken(off, inside, against, amplitude, self.sigma * np.sqrt(self.period), UNEVEN * size, size)

    def compare_edges(self, residual: np.ndarray, inside: np.ndarray) -> tuple[np.ndarray, np.ndarray]:
        """Tells which levels are against what their edges let expect, and which levels are broken."""
        width = inside.shape[1]
        # A level is in its own integral, in that of the level before, and in those of the two behind.
        all_of = sum(self.taps[:, it, None] * residual[:, SILENT - 1 + it : SILENT - 1 + it + width] for it in range(codes.TAPS))
        against = (-all_of * self.levels[:, :width] > np.sum(self.taps**2, axis=1)[:, None]) & inside
        one = np.ones(len(self))
        return against, self.broken(residual[:, SILENT : SILENT + width], inside, inside, np.sum(self.taps, axis=1), self.sigma, UNEVEN_EDGES * one, one)

    def broken(
        self, off: np.ndarray, inside: np.ndarray, suspect: np.ndarray, amplitude: np.ndarray, noise: np.ndarray, uneven: np.ndarray, size: np.ndarray
    ) -> np.ndarray:
        """Tells which levels are broken, where they are so far off what is expected of them.

        `suspect` are those that may be broken by themselves. `noise` is the standard deviation of `off`, `uneven` how far levels may be uneven
        beside it, as a part of the amplitude, and `size` what `off` is multiplied with.
        """
        seen = DEVIATION * median(np.abs(off), inside)
        most = np.minimum(seen, np.hypot(1.2 * noise, uneven * amplitude))
        sigma = np.maximum(np.maximum(most, 0.7 * noise), EVEN * amplitude * size)
        limit = sigma * np.array([accounted(it) for it in self.known.tolist()])
        broken = suspect & (-off * self.levels[:, : off.shape[1]] > limit[:, None])
        # Where long edges make levels alike, it shows in several of them together.
        places = off.shape[1] - TOGETHER + 1
        together = sum(off[:, it : it + places] ** 2 for it in range(TOGETHER)) / TOGETHER
        shows = (together > (ACCOUNTED_TOGETHER * sigma[:, None]) ** 2) & (np.arange(places) + TOGETHER <= self.known[:, None])
        for row, at in zip(*(it.tolist() for it in np.nonzero(shows))):
            if not broken[row, max(0, at - TOGETHER) : at + 2 * TOGETHER].any():
                broken[row, at + int(np.argmax(np.abs(off[row, at : at + TOGETHER])))] = True
        return broken

    def whole_samples(self, rows: np.ndarray, count: int) -> tuple[np.ndarray, np.ndarray]:
        """Gives the mean over the samples that are whole inside of each of so many levels, without the baseline, and how many there are."""
        bounds = self.start[:, None] + self.period[:, None] * np.arange(count + 1)
        first = np.maximum(np.ceil(bounds[:, :-1]), 0).astype(np.intp)
        last = np.minimum(np.maximum(np.floor(bounds[:, 1:]).astype(np.intp), first + 1), self.samples.sizes[self.wave][:, None])
        first = np.minimum(first, last - 1)
        mean = self.samples.means(self.wave, first, last) * self.sign[:, None]
        return mean - (self.integrals(0, count) - rows[:, SILENT : SILENT + count]), last - first
