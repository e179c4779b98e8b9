"""Reads two logic channels, a reader's line and a tag's, from CSV, a value change dump, or a sigrok session."""

from __future__ import annotations

import csv
import os
import re
import shutil
import subprocess
import tempfile
from dataclasses import dataclass

import numpy as np

from .reading import Trouble

UNITS = {"s": 1e9, "ms": 1e6, "us": 1e3, "ns": 1.0, "ps": 1e-3, "fs": 1e-6}
HERTZ = {"": 1.0, "k": 1e3, "m": 1e6, "g": 1e9}
ENDINGS = (".csv", ".vcd", ".sr")


@dataclass
class Line:
    """A logic line: its level at first, the times in nanoseconds at which it changes, and the time at which the capture ends."""

    name: str
    first: int
    changes: np.ndarray
    end: float

    def at(self, times: np.ndarray) -> np.ndarray:
        """Gives the level at each time."""
        return (self.first + np.searchsorted(self.changes, times, "right")) % 2


@dataclass
class Capture:
    """The two lines, and the sample rate where the file says it."""

    reader: Line
    tag: Line
    rate: float | None
    notes: list[str]


def line_of(name: str, times: np.ndarray, levels: np.ndarray, end: float) -> Line:
    """Gives the line that has each level from its time on."""
    turns = np.flatnonzero(np.diff(levels)) + 1
    return Line(name, int(levels[0]), times[turns].astype(float), end)


def chosen(names: list[str], reader: str | None, tag: str | None, path: str) -> tuple[int, int]:
    """Gives which channels are the reader's and the tag's: those that are named, or `reader` and `tag`, or the first two."""

    def place(asked: str | None, word: str, default: int) -> int:
        if asked is not None:
            if asked not in names:
                raise Trouble(f"{path} has no channel {asked!r}: it has {', '.join(names)}")
            return names.index(asked)
        return next((at for at, it in enumerate(names) if it.lower() == word), default)

    if len(names) < 2:
        raise Trouble(f"{path} has one channel: a reader's line and a tag's are needed")
    places = place(reader, "reader", 0), place(tag, "tag", 1)
    if places[0] == places[1]:
        raise Trouble(f"{path}: the reader's line and the tag's are one, {names[places[0]]}: --reader and --tag name two")
    return places


def from_csv(path: str, rate: float | None, reader: str | None, tag: str | None) -> Capture:
    """Reads rows of a time and levels, or of levels alone at a sample rate; lines that begin with ; or # are comments, and may name the rate."""
    names: list[str] | None = None
    rows = []
    with open(path, encoding="utf-8-sig", newline="") as file:
        for number, line in enumerate(file, 1):
            text = line.strip()
            if not text or text[0] in ";#":
                said = re.search(r"sample\s*rate:?\s*([\d.]+)\s*([kMG]?)Hz", text, re.I)
                rate = rate or (float(said[1]) * HERTZ[said[2].lower()] if said else None)
                continue
            row = next(csv.reader([text]))
            try:
                rows.append([float(it) for it in row])
            except ValueError:
                if rows or names is not None:
                    raise Trouble(f"{path}, line {number}: {text[:40]!r} is no row of numbers") from None
                names = [it.strip() for it in row]
    if not rows or any(len(it) != len(rows[0]) for it in rows):
        raise Trouble(f"{path} has no rows, or rows of several lengths")
    table = np.array(rows)
    names = names if names is not None and len(names) == table.shape[1] else [str(at) for at in range(table.shape[1])]
    # A first column is times where it is called so, or isn't a level.
    is_timed = names[0].lower().startswith("time") or not np.isin(table[:, 0], (0, 1)).all()
    if is_timed:
        unit = re.search(r"[\[(](s|ms|us|ns)[\])]", names[0])
        times = table[:, 0] * UNITS[unit[1] if unit else "s"]
        times, table, names = times - times[0], table[:, 1:], names[1:]
        if (np.diff(times) < 0).any():
            raise Trouble(f"{path}: its times go back")
    elif rate is None:
        raise Trouble(f"{path} has levels without times: --rate says how many there are in a second")
    else:
        times = np.arange(len(table)) * (1e9 / rate)
    places = chosen(names, reader, tag, path)
    levels = table[:, places]
    if not np.isin(levels, (0, 1)).all():
        raise Trouble(f"{path}: a level is neither 0 nor 1")
    end = float(times[-1])
    lines = [line_of(names[place], times, levels[:, at], end) for at, place in enumerate(places)]
    return Capture(lines[0], lines[1], rate, [])


def from_vcd(path: str, rate: float | None, reader: str | None, tag: str | None) -> Capture:
    """Reads a value change dump; a level that is no 0 or 1 is a 0."""
    with open(path, encoding="utf-8", errors="replace") as file:
        text = file.read()
    head, found, body = text.partition("$enddefinitions")
    scale = re.search(r"\$timescale\s+(\d+)\s*(\w+)", head)
    wires = re.findall(r"\$var\s+\w+\s+1\s+(\S+)\s+(\S+)", head)
    if not found or scale is None or scale[2] not in UNITS:
        raise Trouble(f"{path} isn't read as a value change dump")
    unit = int(scale[1]) * UNITS[scale[2]]
    said = re.search(r"([\d.]+)\s*([kMG]?)Hz", head)
    rate = rate or (float(said[1]) * HERTZ[said[2].lower()] if said else None)
    places = chosen([name for _, name in wires], reader, tag, path)
    marks = {wires[place][0]: at for at, place in enumerate(places)}
    seen: list[list[tuple[float, int]]] = [[], []]
    now = 0.0
    for word in body.replace("$end", " ").split():
        if word[0] == "#":
            now = int(word[1:]) * unit
        elif word[0] in "01xXzZ" and word[1:] in marks:
            seen[marks[word[1:]]].append((now, int(word[0] == "1")))
    if not all(seen):
        raise Trouble(f"{path}: a line has no level")
    begin = min(it[0][0] for it in seen)
    lines = []
    for at, place in enumerate(places):
        times, levels = map(np.array, zip(*seen[at]))
        lines.append(line_of(wires[place][1], times - begin, levels, now - begin))
    return Capture(lines[0], lines[1], rate, [])


def from_sigrok(path: str, rate: float | None, reader: str | None, tag: str | None) -> Capture:
    """Reads a sigrok session by way of sigrok-cli."""
    if shutil.which("sigrok-cli") is None:
        raise Trouble(f"{path} is a sigrok session, which sigrok-cli converts: it isn't installed")
    with tempfile.TemporaryDirectory(prefix="explain-capture-") as folder:
        ran = subprocess.run(["sigrok-cli", "-i", path, "-O", "vcd", "-o", f"{folder}/it.vcd"], stderr=subprocess.PIPE, encoding="utf-8")
        if ran.returncode or not os.path.exists(f"{folder}/it.vcd"):
            raise Trouble(f"{path} isn't read by sigrok-cli: {ran.stderr.strip()[:200]}")
        return from_vcd(f"{folder}/it.vcd", rate, reader, tag)


def capture_of(path: str, rate: float | None, reader: str | None, tag: str | None) -> Capture:
    """Gives the two lines of a file, by its ending."""
    reads = {".csv": from_csv, ".vcd": from_vcd, ".sr": from_sigrok}
    return reads[os.path.splitext(path)[1]](path, rate, reader, tag)
