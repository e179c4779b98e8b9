"""Finds where a stream begins, by correlation with its lead at many clocks, which is a product of spectra."""

from __future__ import annotations

import functools
from dataclasses import dataclass

import numpy as np

from . import codes

# How far a BLF may be from what the Query asks: the standard's most is 22 per cent, and a little more is looked at.
FURTHEST = 0.25
# Templates are made for levels whose length is a power of this one's exponential.
GRID = 0.02
# In how many levels a baseline may bend once more.
BEND = 24
# How many levels of silence belong to a template, before its lead.
SILENT = 8
# How long an edge may take, in levels: each length is tried.
EDGES = (0.0, 1.5)
# So many places are correlated with templates at a time.
AT_A_TIME = 1 << 18


@dataclass(frozen=True)
class Bank:
    """Templates of a lead: the one in column c has levels of `periods[c]` samples and edges of `edges[c]` levels, and begins `shifts[c]` behind row `before`."""

    matrix: np.ndarray
    before: int
    periods: np.ndarray
    edges: np.ndarray
    shifts: np.ndarray
    heights: np.ndarray


@dataclass(frozen=True)
class Begin:
    """A place where a stream may begin: its first level, the length of a level, and how the wave moves from low to high and with which edges.

    `score` is the correlation, in units of what noise of one unit a sample makes.
    """

    start: float
    period: float
    height: float
    edge: float
    score: float


def template(levels: np.ndarray, period: float, edge: float, before: float, length: int) -> np.ndarray:
    """Gives the samples of a lead behind SILENT levels of silence, where the lead begins at `before`; 0 where it says nothing."""
    known = np.concatenate([np.full(SILENT, -1), levels])
    bounds = before + period * np.arange(-SILENT, len(levels) + 1)
    area = np.concatenate([[0.0], np.cumsum(known)]) * period
    at = np.arange(length) + 0.5
    wide = max(edge * period, 1.0)

    def integral(places: np.ndarray) -> np.ndarray:
        """Gives the integral of the wave up to places; before the first it is silent, and behind the last it stays."""
        outside = np.minimum(places - bounds[0], 0) * known[0] + np.maximum(places - bounds[-1], 0) * known[-1]
        return np.interp(places, bounds, area) + outside

    wave = (integral(at + wide / 2) - integral(at - wide / 2)) / wide
    wave[(at < bounds[0]) | (at > bounds[-1])] = 0
    return wave


def grid_of(nominal: float) -> int:
    """Gives the power of the grid whose templates serve for levels of about `nominal` samples."""
    return round(float(np.log(nominal)) / GRID)


@functools.lru_cache(maxsize=8)
def bank_of(code: str, trext: str, step_of_nominal: int) -> Bank:
    nominal = float(np.exp(GRID * step_of_nominal))
    levels = codes.lead(code, trext)
    # (a long pilot needs no finer steps: its middle is right all the same)
    step = min(0.03, (0.4 if len(levels) <= 100 else 0.8) / len(levels))
    slowest, fastest = -np.log(1 - FURTHEST), -np.log(1 + FURTHEST)
    periods = nominal * np.exp(np.arange(np.floor(fastest / step), np.ceil(slowest / step) + 1) * step)
    before = int(np.ceil(SILENT * periods[-1]))
    length = before + int(np.ceil(len(levels) * periods[-1])) + 2
    # The subcarrier of Miller is hardly like itself where it is moved by a part of a level.
    shifts = (0.0,) if code == "fm0" else (0.0, 0.5)
    kinds = [(shift, edge, period) for shift in shifts for edge in EDGES for period in periods]
    columns, heights = [], []
    for shift, edge, period in kinds:
        wave = template(levels, period, edge, before + shift, length)
        # A baseline that drifts is no part of it.
        inside = np.flatnonzero(wave)
        inside = np.arange(inside[0], inside[-1] + 1)
        bends = np.polynomial.legendre.legvander(np.linspace(-1, 1, len(inside)), 2 + (SILENT + len(levels)) // BEND)
        part = wave[inside]
        part = part - bends @ np.linalg.lstsq(bends, part, rcond=None)[0]
        norm = np.sqrt(np.sum(part**2))
        column = np.zeros(length)
        column[inside] = part / norm
        columns.append(column)
        heights.append(1 / norm)
    every = np.array(kinds)
    return Bank(np.stack(columns, axis=1), before, every[:, 2], every[:, 1], every[:, 0], np.array(heights))


def transform_size(least: int) -> int:
    """Gives a number of samples, at least so many, whose transform is quick."""
    power = 1 << max(0, (least - 1).bit_length() - 3)
    return next(it * power for it in (5, 6, 8) if it * power >= least)


@functools.lru_cache(maxsize=8)
def spectra_of(code: str, trext: str, step_of_nominal: int, size: int) -> np.ndarray:
    """Gives the spectra of templates among so many samples, a row for each, so that a product with them is a correlation."""
    matrix = bank_of(code, trext, step_of_nominal).matrix
    return np.conj(np.fft.rfft(matrix.T, size, axis=1))


def correlations(wave: np.ndarray, spectra: np.ndarray, size: int, places: int) -> np.ndarray:
    """Gives for each place of a wave the greatest correlation with a template, without its sign."""
    spectrum, greatest = np.fft.rfft(wave, size), np.zeros(places)
    at_a_time = max(1, AT_A_TIME // size)
    for first in range(0, len(spectra), at_a_time):
        part = np.fft.irfft(spectra[first : first + at_a_time] * spectrum, size, axis=1)[:, :places]
        np.maximum(greatest, np.abs(part).max(axis=0), out=greatest)
    return greatest


def begins(wave: np.ndarray, code: str, trext: str, nominal: float, first: float, last: float, most: int = 4) -> list[Begin]:
    """Gives the places from `first` to `last` where a stream most likely begins in a wave, the likeliest first."""
    grid = grid_of(nominal)
    has = bank_of(code, trext, grid)
    length = len(has.matrix)
    skip = max(0, int(first) - has.before)
    wave = wave[skip : max(int(last), has.before + 1) + length - has.before]
    if len(wave) < length:
        wave = np.concatenate([wave, np.full(length - len(wave), wave[-1] if len(wave) else 0.0)])
    size = transform_size(len(wave))
    sizes = correlations(wave, spectra_of(code, trext, grid, size), size, len(wave) - length + 1)
    found: list[Begin] = []
    for _ in range(most):
        at = int(np.argmax(sizes))
        if found and not sizes[at]:
            break
        scores = wave[at : at + length] @ has.matrix
        column = int(np.argmax(np.abs(scores)))
        score, period = float(scores[column]), float(has.periods[column])
        start = float(skip + at + has.before) + float(has.shifts[column])
        found.append(Begin(start, period, score * float(has.heights[column]), float(has.edges[column]), abs(score)))
        near = int(np.ceil(0.7 * period))
        sizes[max(0, at - near) : at + near + 1] = 0
    return found
