"""Measures how many replies of made recordings are read, row by row: what checks/recordings prints and holds against what is asked."""

from __future__ import annotations

import re
import time
from dataclasses import dataclass, field
from typing import Any

import numpy as np

from awaited import awaited

from . import codes, explain, making, possible
from .logic import Capture, line_of
from .program import Program
from .reading import Source
from .waves import Analogue, Logic, Waves

FM0, MILLER = "door_access", "dock_read"


@dataclass(frozen=True)
class Row:
    """A row: what its recordings are made with, the run that is played, how many of 100 replies have to be read, and how many may be given wrongly."""

    name: str
    example: str
    least: float
    channel: "dict[str, Any]"
    logic: bool = False
    given_wrong: "float | None" = 0


ROWS = [
    Row("noise 6", FM0, 98, {"noise": 6.0}),
    Row("noise 6", MILLER, 99, {"noise": 6.0}),
    Row("noise 8", FM0, 95, {"noise": 8.0}, given_wrong=1),
    Row("noise 10", FM0, 90, {"noise": 10.0}, given_wrong=1),
    Row("noise 10", MILLER, 99, {"noise": 10.0}, given_wrong=1),
    Row("noise 14", MILLER, 97, {"noise": 14.0}, given_wrong=None),
    Row("noise 20", MILLER, 80, {"noise": 20.0}, given_wrong=None),
    Row("BLF 22 % too high", FM0, 95, {"offset": 0.22}),
    Row("BLF 22 % too high", MILLER, 98, {"offset": 0.22}),
    Row("BLF 22 % too low", FM0, 95, {"offset": -0.22}),
    Row("BLF 22 % too low", MILLER, 98, {"offset": -0.22}),
    Row("2.5 MS/s", FM0, 95, {"rate": 2.5e6}),
    Row("2.5 MS/s", MILLER, 98, {"rate": 2.5e6}),
    Row("2 MS/s", FM0, 95, {"rate": 2e6}),
    Row("2 MS/s", MILLER, 98, {"rate": 2e6}),
    Row("gain 20 % at 5 kHz", FM0, 98, {"gain": 0.2}),
    Row("gain 20 % at 5 kHz", MILLER, 98, {"gain": 0.2}),
    Row("edges of 2 us", FM0, 95, {"edges": 2e-6}),
    Row("edges of 2 us", MILLER, 95, {"edges": 2e-6}),
    Row("jitter 5 %", FM0, 98, {"jitter": 0.05}),
    Row("logic at 24 MHz", FM0, 100, {"rate": 24e6}, True),
    Row("logic at 24 MHz", MILLER, 100, {"rate": 24e6}, True),
    Row("logic at 4 MHz", FM0, 100, {"rate": 4e6}, True),
    Row("logic at 4 MHz", MILLER, 100, {"rate": 4e6}, True),
]


@dataclass
class Run:
    """A run as it was: the lines of its trace, its link, each command, and each reply as `decode` has it, `-` where nothing came."""

    trace: "list[str]"
    code: str
    half_period: float
    commands: "list[str]"
    replies: "list[str]"
    bits: "list[int]"


@dataclass
class Result:
    """What was read of a row's recordings: replies sent whole, those read right, those given wrongly, broken ones that were given as replies, and
    commands sent and read."""

    sent: int = 0
    right: int = 0
    wrong: int = 0
    broken: int = 0
    broken_given: int = 0
    commands: int = 0
    commands_right: int = 0
    possible: float = 0.0
    seconds: float = 0.0
    told: "list[str]" = field(default_factory=list)


def run_of(program: Program, scenario: str) -> Run:
    """Plays a scenario, and gives what was sent and heard in it."""
    trace = making.trace_of(program.path, scenario)
    code, trext = re.search(r"^link .* (\S+) (\S+)$", scenario, re.M).groups()
    frames = program.decode(["pie " + it.split(" ", 2)[2] for it in trace if it.startswith("tx ")])
    commands = program.decode([f"command {it.split(' ')[-1]}" for it in frames])
    kills, lines, counts = 0, [], []
    for command, line in zip(commands, (it for it in trace if it.startswith("rx "))):
        kills = 0 if command.startswith("ack ") else kills + command.startswith("kill ")
        expect, extended = awaited(command, trext, kills)
        levels = line.split(" ")[3]
        lines.append(f"heard {code} {extended} {expect} {levels}")
        counts.append((len(levels) - len(codes.lead(code, extended))) // codes.symbol_length(code) - 1)
    replies = [it if line[-1] != "-" else "-" for it, line in zip(program.decode(lines), lines)]
    numerator, denominator = map(int, trace[0].split(" ")[1].split("/"))
    return Run(trace, code, denominator / numerator / 2e9, commands, replies, counts)


def waves_of(run: Run, channel: making.Channel, logic: bool) -> Waves:
    """Gives a recording of a run: of 8 bits, or of two logic lines."""
    pieces = making.pieces_of(run.trace, channel)
    if logic:
        lines = making.logic_of(pieces, channel)
        times = np.arange(len(lines[0])) * (1e9 / channel.rate)
        reader, tag = (line_of(name, times, it, float(times[-1])) for name, it in zip(("reader", "tag"), lines))
        return Logic(Capture(reader, tag, channel.rate, []))
    samples = np.clip(np.round(making.samples_of(pieces, channel)), 0, 255).astype(np.uint8)
    return Analogue(Source("made", channel.rate, len(samples), False, lambda first, size: samples[first : first + size].astype(np.float32), []))


def measure(program: Program, row: Row, run: Run, replies: int, first_seed: int = 1) -> Result:
    """Measures a row over as many recordings as have so many replies, with the seeds 1, 2 and so on."""
    result = Result()
    seed = first_seed
    whole = [it for it, reply in enumerate(run.replies) if reply != "-" and not reply.startswith("refused")]
    while result.sent < replies:
        channel = making.Channel(seed=seed, **row.channel)
        waves = waves_of(run, channel, row.logic)
        begun = time.process_time()
        exchanges, _ = explain.explained(waves, program, None, explain.Terminal())
        result.seconds += time.process_time() - begun
        judge(result, run, exchanges, f"{row.name}, {row.example}, seed {seed}")
        seed += 1
    result.possible = 1.0
    if not row.logic:
        channel = making.Channel(**row.channel)
        half = run.half_period / (1 + channel.offset)
        amplitude, noise = channel.lift / 2 * (1 - channel.gain), np.hypot(channel.noise, 1 / np.sqrt(12))
        parts = [possible.read(run.code, run.bits[at], amplitude, noise, half * channel.rate, channel.edges / half) for at in whole]
        result.possible = float(np.mean(parts))
    return result


def judge(result: Result, run: Run, exchanges: "list[explain.Exchange]", where: str) -> None:
    """Adds what was read of a recording."""
    result.commands += len(run.commands)
    result.commands_right += sum(one.command == other for one, other in zip(exchanges, run.commands)) if len(exchanges) == len(run.commands) else 0
    for number, sent in enumerate(run.replies):
        read = exchanges[number].reply if number < len(exchanges) else ""
        is_given = bool(read) and not read.startswith("refused")
        if sent == "-" or sent.startswith("refused"):
            result.broken += sent != "-"
            result.broken_given += is_given
            if is_given:
                result.told.append(f"{where}, exchange {number + 1}: {read} is given, and what was sent is {sent}")
        else:
            result.sent += 1
            result.right += read == sent
            result.wrong += is_given and read != sent
            if read != sent:
                why = explain.line_of(exchanges[number]) if number < len(exchanges) else "no such frame"
                result.told.append(f"{where}, exchange {number + 1}: {sent} was sent: {why}")


HEAD = f"{'':20} {'code':4} {'of 100':>7} {'asked':>6} {'possible':>9} {'wrong':>6} {'replies':>8} {'commands':>9}"


def line_of_row(row: Row, run: Run, result: Result) -> str:
    of = 100 / result.sent
    return (
        f"{row.name:20} {run.code:4} {of * result.right:7.1f} {row.least:6g} {100 * result.possible:9.2f} {result.wrong + result.broken_given:6}"
        f" {result.sent:8} {result.commands_right}/{result.commands}"
    )
