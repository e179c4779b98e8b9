"""Makes recordings of runs, to try the helper for recordings. They are made up, and no radio.

The wave is what a receiver beside the reader would see of its carrier: the reader's lows are a deep dip, and a high level of a tag lifts it.
Frames and replies are those of `run trace`, with T1 and T2 between them as the standard has them.
"""

from __future__ import annotations

import json
import os
import subprocess
import sys
import zipfile
from dataclasses import dataclass, fields

import numpy as np

from .words import Channel, making

# What the carrier is, and a low of the reader.
CARRIER, DIP = 150.0, 20.0
# How long the carrier is on before the first frame and behind the last, in nanoseconds.
AROUND = 100_000.0


@dataclass
class Pieces:
    """What reader and tag do: `bounds` are times in nanoseconds, and between two of them the reader is on or off and the tag high or low."""

    bounds: np.ndarray
    reader: np.ndarray
    tag: np.ndarray


def trace_of(program: str, scenario: str) -> list[str]:
    """Gives the lines of `run trace` over the text of a scenario."""
    kept = {"stdout": subprocess.PIPE, "stderr": subprocess.DEVNULL, "universal_newlines": True, "check": True}
    ran = subprocess.run([program, "run", "trace"], input=scenario, **kept)
    return ran.stdout.splitlines()


def pieces_of(trace: list[str], channel: Channel) -> Pieces:
    """Gives what reader and tag do in a run, `repeat` times."""
    chance = np.random.default_rng([channel.seed, 1])
    numerator, denominator = map(int, trace[0].split(" ")[1].split("/"))
    period = denominator / numerator
    pieces = [(1, 0, AROUND)]
    exchange = 0
    for _ in range(channel.repeat):
        for line in trace:
            kind, *fields = line.split(" ")
            if kind == "tx":
                exchange += 1
                intervals = list(map(int, fields[1:]))
                moved = np.array(intervals, dtype=float)
                if channel.jitter:
                    moved *= 1 + channel.jitter * chance.standard_normal(len(intervals))
                pieces += [(at % 2, 0, float(length)) for at, length in enumerate(moved)]
                pieces.append((1, 0, max(intervals[3] + intervals[4], 10 * period)))
            elif kind == "rx":
                wrong = channel.wrong if exchange % 2 else -channel.wrong
                level = period / 2 * (1 + wrong) / (1 + channel.offset)
                pieces += [(1, int(it), level) for it in fields[2] if it != "-"]
                pieces.append((1, 0, 10 * period))
    pieces.append((1, 0, AROUND + 1e9 * channel.carrier_behind))
    reader, tag, lengths = zip(*pieces)
    return Pieces(np.concatenate([[0.0], np.cumsum(lengths)]), np.array(reader, dtype=float), np.array(tag, dtype=float))


def sampled(pieces: Pieces, values: np.ndarray, times: np.ndarray, edges: float) -> np.ndarray:
    """Gives the value at each time, where each change takes `edges` nanoseconds."""
    if not edges:
        return values[np.clip(np.searchsorted(pieces.bounds, times, "right") - 1, 0, len(values) - 1)]
    area = np.concatenate([[0.0], np.cumsum(values * np.diff(pieces.bounds))])

    def integral(places: np.ndarray) -> np.ndarray:
        outside = np.minimum(places, 0) * values[0] + np.maximum(places - pieces.bounds[-1], 0) * values[-1]
        return np.interp(places, pieces.bounds, area) + outside

    return (integral(times + edges / 2) - integral(times - edges / 2)) / edges


def samples_of(pieces: Pieces, channel: Channel, is_complex: bool = False) -> np.ndarray:
    """Gives the samples, of which 0 to 255 are what 8 bits have."""
    chance = np.random.default_rng([channel.seed, 2])
    count = int(np.ceil(pieces.bounds[-1] * channel.rate / 1e9))
    times = np.arange(count) * (1e9 / channel.rate)
    carrier = sampled(pieces, DIP + (CARRIER - DIP) * pieces.reader, times, 1e9 * channel.edges)
    lift = channel.lift * sampled(pieces, pieces.tag, times, 1e9 * channel.edges)
    drift = channel.drift * np.sin(2 * np.pi * times / 1.3e6)
    gain = 1 + channel.gain * np.sin(2 * np.pi * channel.gain_rate * times / 1e9)
    if not is_complex:
        return (carrier + lift) * gain + drift + channel.noise * chance.standard_normal(count)
    turned = np.exp(1j * np.deg2rad(channel.angle))
    noise = channel.noise * (chance.standard_normal(count) + 1j * chance.standard_normal(count))
    # (the carrier stands somewhere in the plane)
    return np.exp(0.7j) * ((carrier + lift * turned) * gain + drift) + noise


def logic_of(pieces: Pieces, channel: Channel) -> tuple[np.ndarray, np.ndarray]:
    """Gives the levels of two logic channels, reader and tag, on the grid of the sample rate."""
    count = int(np.ceil(pieces.bounds[-1] * channel.rate / 1e9))
    times = np.arange(count) * (1e9 / channel.rate)
    return sampled(pieces, pieces.reader, times, 0).astype(np.uint8), sampled(pieces, pieces.tag, times, 0).astype(np.uint8)


def write(path: str, form: str, pieces: Pieces, channel: Channel) -> None:
    """Writes a recording: of a WAV and raw samples the form says which, and of logic channels the ending of the path."""
    if form in ("csv", "vcd", "sr"):
        reader, tag = logic_of(pieces, channel)
        writes = {"csv": write_csv, "vcd": write_vcd, "sr": write_sigrok}
        writes[form](path, reader, tag, channel.rate)
        return
    samples = samples_of(pieces, channel, form.startswith(("c", "sigmf-c")) or form.endswith("-iq"))
    # What 8 bits have around 128 goes from -1 to 1.
    level = (samples - (0 if np.iscomplexobj(samples) else 128)) / (256 if np.iscomplexobj(samples) else 128)
    if form.startswith("wav"):
        write_wav(path, form, level, channel.rate)
    elif form.startswith("sigmf-"):
        kind = form[len("sigmf-") :]
        raw_of(kind, level).tofile(f"{path}.sigmf-data")
        names = {"u8": "ru8", "i16": "ri16_le", "f32": "rf32_le", "ci16": "ci16_le", "cf32": "cf32_le"}
        meta = {"global": {"core:datatype": names[kind], "core:sample_rate": channel.rate, "core:version": "1.0.0"}, "captures": [{"core:sample_start": 0}], "annotations": []}
        with open(f"{path}.sigmf-meta", "w", encoding="utf-8") as file:
            json.dump(meta, file)
    else:
        raw_of(form, level).tofile(path)


def raw_of(form: str, level: np.ndarray) -> np.ndarray:
    """Gives samples from -1 to 1 as raw numbers."""
    if form.startswith("c"):
        level = np.stack([level.real, level.imag], axis=1)
    if form == "u8":
        return np.clip(np.round(128 + 128 * level), 0, 255).astype("u1")
    if form.endswith("i16"):
        return np.clip(np.round(32767 * level), -32768, 32767).astype("<i2")
    return level.astype("<f4")


def write_wav(path: str, form: str, level: np.ndarray, rate: float) -> None:
    import soundfile

    if np.iscomplexobj(level):
        level = np.stack([level.real, level.imag], axis=1)
    kinds = {"wav8": "PCM_U8", "wav16": "PCM_16", "wav24": "PCM_24", "wav32": "PCM_32", "wavf": "FLOAT"}
    soundfile.write(path, np.clip(level, -1, 1 - 2**-24), int(rate), subtype=kinds[form.split("-")[0]], format="WAV")


def write_csv(path: str, reader: np.ndarray, tag: np.ndarray, rate: float) -> None:
    """Writes a row at each change, as Saleae Logic does."""
    turns = np.flatnonzero(np.diff(reader) | np.diff(tag)) + 1
    with open(path, "w", encoding="ascii") as file:
        file.write("Time [s],reader,tag\n")
        for at in [0, *turns.tolist(), len(reader) - 1]:
            file.write(f"{at / rate:.9f},{reader[at]},{tag[at]}\n")


def write_vcd(path: str, reader: np.ndarray, tag: np.ndarray, rate: float) -> None:
    with open(path, "w", encoding="ascii") as file:
        file.write(f"$comment acquisition with 2 channels at {rate / 1e6:g} MHz $end\n$timescale 1 ns $end\n$scope module made $end\n")
        file.write("$var wire 1 ! reader $end\n$var wire 1 % tag $end\n$upscope $end\n$enddefinitions $end\n")
        last = (2, 2)
        turns = np.flatnonzero(np.diff(reader) | np.diff(tag)) + 1
        for at in [0, *turns.tolist()]:
            now = int(reader[at]), int(tag[at])
            changes = [f"{new}{mark}" for new, old, mark in zip(now, last, "!%") if new != old]
            file.write(f"#{round(at * 1e9 / rate)} {' '.join(changes)}\n")
            last = now
        file.write(f"#{round(len(reader) * 1e9 / rate)}\n")


def write_sigrok(path: str, reader: np.ndarray, tag: np.ndarray, rate: float) -> None:
    """Writes a sigrok session, which is a zip with a text and the samples."""
    text = f"[global]\nsigrok version=0.5.2\n\n[device 1]\ncapturefile=logic-1\ntotal probes=2\nsamplerate={int(rate)} Hz\ntotal analog=0\nprobe1=reader\nprobe2=tag\nunitsize=1\n"
    with zipfile.ZipFile(path, "w", zipfile.ZIP_DEFLATED) as file:
        file.writestr("version", "2")
        file.writestr("metadata", text)
        file.writestr("logic-1-1", (reader + 2 * tag).astype("u1").tobytes())


def main() -> int:
    asked = vars(making().parse_args())
    channel = Channel(**{it.name: asked[it.name] for it in fields(Channel)})
    try:
        with open(asked["scenario"], encoding="ascii") as file:
            text = file.read()
        pieces = pieces_of(trace_of(os.path.realpath(asked["program"]), text), channel)
        write(asked["path"], asked["form"], pieces, channel)
    except (OSError, ValueError, subprocess.CalledProcessError) as error:
        print(f"make_recording: {error}", file=sys.stderr)
        return 1
    return 0
