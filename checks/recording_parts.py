"""Tries the parts of tools/capture one by one, for checks/recordings."""

from __future__ import annotations

import os
import struct
from typing import Any, Callable

import numpy as np

from capture import codes, frames, logic, making, reading, replies, search, streams, waves
from capture.program import Program
from counting import Count


def quiet(*_: float | str) -> None:
    """Says nothing about how far the work is."""


def refusal(call: Callable[..., Any], *given: float | str | None) -> str:
    """Gives what a call says is wrong, or nothing."""
    try:
        call(*given)
    except reading.Trouble as trouble:
        return str(trouble)
    return ""


def try_codes(count: Count, program: Program, folder: str) -> None:
    for code in codes.CODES:
        for trext in "01":
            for bits in ("-", "0", "10110", "0011010111000101"):
                levels = codes.text_of(codes.encode(code, trext, bits.replace("-", "")))
                count.same(f"{code} {trext}: the stream of {bits}", program.decode([f"{code} {trext} {levels}"]), [f"bits {bits}"])
        has = codes.trellis(code)
        levels, lead = codes.encode(code, "0", "0011010111000101"), codes.lead(code, "0")
        state, seen, wanted = (int(lead[-1]), 1), [], []
        for at, bit in enumerate(map(int, "00110101110001011")):
            first = len(lead) - 1 + at * has.length
            seen += [[levels[it + 1], levels[it], levels[it - 1], levels[it - 2]] for it in range(first, first + has.length)]
            wanted += has.seen[2 * codes.STATES.index(state) + bit].tolist()
            state = int(levels[first + has.length]), bit
        count.check(f"{code}: a branch has what is seen with each level", seen == wanted)


def try_reading(count: Count, program: Program, folder: str) -> None:
    # Steps of 2 to the -20th, which 16 bits don't have.
    ramp = 0.25 + np.arange(1000) / 2**20
    for form, off in (("wav8", 2**-7), ("wav16", 2**-15), ("wav24", 2**-22), ("wav32", 2**-23), ("wavf", 2**-23)):
        making.write_wav(f"{folder}/{form}.wav", form, ramp, 4e6)
        source = reading.samples_of(f"{folder}/{form}.wav", None, None)
        read = source.read(0, source.count)
        count.check(f"{form}: the samples are read", source.rate == 4e6 and len(read) == 1000 and float(np.max(np.abs(read - ramp))) <= off)
        count.check(f"{form}: a part is read", (source.read(300, 50) == read[300:350]).all())
    making.write_wav(f"{folder}/two.wav", "wav16-iq", ramp - 1j * ramp, 4e6)
    source = reading.samples_of(f"{folder}/two.wav", None, None)
    count.check("two channels are I and Q", source.is_complex and abs(source.read(0, 1)[0] - (0.25 - 0.25j)) < 1e-3 and len(source.notes) == 1)
    for form in ("u8", "i16", "f32", "ci16", "cf32"):
        sent = ramp - 1j * ramp if form[0] == "c" else ramp
        making.raw_of(form, sent).tofile(f"{folder}/{form}")
        source = reading.samples_of(f"{folder}/{form}", form, 2e6)
        read = source.read(0, source.count)
        size = float(read.real.max())
        scale = {"u8": 128, "i16": 32767}.get(form.replace("c", ""), 1)
        count.check(f"{form}: the samples are read", np.allclose(read, sent * scale, atol=0.01 * size) and source.is_complex == (form[0] == "c"))
    with open(f"{folder}/f32", "ab") as file:
        file.write(b"\0")
    count.check("a cut sample is told", "cut" in str(reading.samples_of(f"{folder}/f32", "f32", 1e6).notes))
    with open(f"{folder}/wav16.wav", "r+b") as file:
        file.truncate(1044)
    cut = reading.samples_of(f"{folder}/wav16.wav", None, None)
    count.check("a cut WAV is told, and its rest read", cut.count == 500 and "1000 samples, and 500" in str(cut.notes), cut.notes)
    for given, wanted in (
        ((f"{folder}/u8", "u9", 1e6), "there is no format 'u9'"),
        ((f"{folder}/u8", "", 1e6), "there is no format ''"),
        ((f"{folder}/u8", None, 1e6), "--format names one of"),
        ((f"{folder}/u8", "u8", None), "--rate does"),
    ):
        count.check(f"{given[1:]}: it is said what is wrong", wanted in refusal(reading.samples_of, *given), refusal(reading.samples_of, *given))
    open(f"{folder}/nothing", "w").close()
    count.check("an empty file is told", "is empty" in refusal(reading.samples_of, f"{folder}/nothing", None, None))
    with open(f"{folder}/three.wav", "wb") as file:
        file.write(b"RIFF" + struct.pack("<I", 36) + b"WAVEfmt " + struct.pack("<IHHIIHH", 16, 1, 3, 8000, 24000, 3, 8) + b"data" + struct.pack("<I", 3) + b"abc")
    count.check("three channels are told", "3 channels" in refusal(reading.samples_of, f"{folder}/three.wav", None, None))


def lows_of(intervals: np.ndarray | list[float], begin: float = 100_000.0) -> np.ndarray:
    """Gives the lows of a frame's intervals."""
    edges = begin + np.concatenate([[0], np.cumsum(intervals)])
    return edges.reshape(-1, 2)


def try_frames(count: Count, program: Program, folder: str) -> None:
    sent = "pie 12500 6250 6250 25000 6250 43750 6250 12500 6250 6250 6250 12500 6250"
    intervals = list(map(float, sent.split(" ")[1:]))
    query, sync = lows_of(intervals), lows_of(intervals[:5] + intervals[7:], 900_000.0)
    alone = np.array([[400_000.0, 406_000.0], [420_000.0, 426_000.0]])
    found, strays = frames.split(np.concatenate([query, alone, sync]))
    frames.put_back(found, 250.0)
    count.same("two frames are found, each with its intervals", [it.intervals for it in found], [intervals, intervals[:5] + intervals[7:]])
    count.same("nothing was moved", [it.moved for it in found], [0.0, 0.0])
    count.check("lows of no frame are told", len(strays) == 1 and strays[0].count == 2 and "6.000 us long" in strays[0].why, strays)
    moved = np.array(intervals) * (1 + 0.03 * np.cos(7.0 * np.arange(len(intervals))))
    found, _ = frames.split(lows_of(moved))
    frames.put_back(found, 250.0)
    answer = program.decode(["pie " + " ".join(map(str, found[0].intervals))])[0]
    count.check("lengths that are off by 3 per cent are put back", answer.endswith(" 101") and 0 < found[0].moved < 2000, answer)
    long = [12_500.0, 6250.0, 6250.0, 33_000.0, 6250.0, 6250.0, 6250.0]
    found, _ = frames.split(lows_of(long))
    frames.put_back(found, 10.0)
    answer = program.decode(["pie " + " ".join(map(str, found[0].intervals))])[0]
    count.check("an RTcal of more than 3 Tari stays refused", answer == "refused rtcal" and "RTcal" in found[0].remarks[0], (answer, found[0].remarks))
    grid = np.round(np.array(lows_of(intervals)) / 250) * 250
    found, _ = frames.split(grid)
    frames.put_back(found, 250.0)
    answer = program.decode(["pie " + " ".join(map(str, found[0].intervals))])[0]
    count.check("lengths on a grid of 250 ns are put back", answer.endswith(" 101") and found[0].moved <= 250, (answer, found[0].moved))


def try_waves(count: Count, program: Program, folder: str) -> None:
    intervals = [12_500.0, 6250.0, 6250.0, 25_000.0, 6250.0] + [6250.0, 6250.0, 12_500.0, 6250.0] * 30
    lows = lows_of(intervals)
    bounds = np.concatenate([[0.0], lows.reshape(-1), [1_500_000.0]])
    values = np.array([1.0 if at % 2 == 0 else 0.0 for at in range(len(bounds) - 1)])
    pieces = making.Pieces(bounds, values, np.zeros(len(values)))
    for name, channel, is_complex in (
        ("real", making.Channel(noise=2), False),
        ("with edges of 2 us", making.Channel(noise=2, edges=2e-6), False),
        ("upside down", making.Channel(noise=2), False),
        ("complex", making.Channel(noise=2), True),
    ):
        samples = making.samples_of(pieces, channel, is_complex) * (-1 if name == "upside down" else 1)
        samples = samples.astype(np.complex64 if is_complex else np.float32)
        source = reading.Source("made", 4e6, len(samples), is_complex, lambda first, size, samples=samples: samples[first : first + size], [])
        found = waves.Analogue(source).lows(quiet)
        off = np.abs(found - lows).max() if found.shape == lows.shape else None
        count.check(f"{name}: each edge is found to half a sample", off is not None and off < 200, off)
        block, waves.BLOCK = waves.BLOCK, 1000
        again = waves.Analogue(source).lows(quiet)
        waves.BLOCK = block
        same = again.shape == found.shape and np.abs(again - found).max() < 600
        count.check(f"{name}: in small blocks the same edges are found", same)
    turned = waves.turned(np.exp(1.1j) * (100 + 3j * np.sign(np.sin(np.arange(4000) * 0.7))))
    count.check("a tag in quadrature is heard", abs(float(np.ptp(turned)) - 6) < 0.1, np.ptp(turned))


def wave_of(levels: np.ndarray, period: float, start: float, noise: float, seed: int, height: float = 10.0) -> np.ndarray:
    """Gives the samples of levels behind silence, with noise and a baseline that drifts."""
    bounds = np.concatenate([[0.0], start + period * np.arange(len(levels) + 1), [start + period * (len(levels) + 40)]])
    values = np.concatenate([[-1.0], levels, [-1.0]])
    times = np.arange(int(bounds[-1])) + 0.5
    wave = height * making.sampled(making.Pieces(bounds, values, values), values, times, 0.2)
    return wave + 8 * np.sin(times / 700) + noise * np.random.default_rng(seed).standard_normal(len(times))


def begun(wave: np.ndarray, found: list[search.Begin], code: str, trext: str, noise: float, lengths: list[int]) -> replies.Begun:
    """Gives what begins in a wave of a sample a nanosecond, behind a frame that ends at 0."""
    return replies.Begun(0.0, 0.0, 1e9, wave, found, code, trext, noise, lengths)


def try_streams(count: Count, program: Program, folder: str) -> None:
    chance = np.random.default_rng(5)
    for code in codes.CODES:
        for trext in "01":
            bits = "".join(map(str, chance.integers(0, 2, 32)))
            levels = codes.encode(code, trext, bits)
            wave = wave_of(levels, 4.9, 130.3, 1.5, 3)
            found = search.begins(wave, code, trext, 4.7, 90, 170)[0]
            count.check(f"{code} {trext}: its begin is found", abs(found.start - 130.3) < 1.5 and abs(found.period - 4.9) < 0.1, found)
            stream = replies.followed([begun(wave, [found], code, trext, 1.5, [32])])[0]
            count.check(f"{code} {trext}: its levels are found", codes.text_of(stream.printed) == codes.text_of(levels))
            count.check(f"{code} {trext}: its clock is followed", abs(stream.clock.period - 4.9) < 0.01 and not len(stream.against), stream.clock)
            broken = levels.copy()
            place = len(codes.lead(code, trext)) + 9
            broken[place] *= -1
            wave = wave_of(broken, 4.9, 130.3, 1.5, 4)
            stream = replies.followed([begun(wave, search.begins(wave, code, trext, 4.7, 90, 170)[:1], code, trext, 1.5, [32])])[0]
            count.same(f"{code} {trext}: a broken level stays broken", codes.text_of(stream.printed), codes.text_of(broken))
            # (in FM0 another stream may be as near, of which the level behind is broken)
            told = stream.against.tolist(), stream.broken.tolist()
            count.check(f"{code} {trext}: it is told", told in (([place], [place]), ([place + 1], [place + 1])), told)
    for lengths, wanted in (([16, 32, 48], 32), ([33, 41], 33)):
        levels = codes.encode("fm0", "0", "10" * 24)
        levels = codes.encode("fm0", "0", ("10" * 24)[:wanted])
        wave = wave_of(levels, 4.69, 130.0, 1.0, 7)
        stream = replies.followed([begun(wave, search.begins(wave, "fm0", "0", 4.69, 90, 170)[:1], "fm0", "0", 1.0, lengths)])[0]
        count.same(f"of {lengths} bits the right ones are found", codes.text_of(stream.levels), codes.text_of(levels))


def try_side_by_side(count: Count, program: Program, folder: str) -> None:
    """Follows streams of many lengths together, some of which may begin at several places, and one by one."""
    chance = np.random.default_rng(9)
    every = []
    for size in (16, 128, 33, 32, 64, 16, 500):
        bits = "".join(map(str, chance.integers(0, 2, size)))
        wave = wave_of(codes.encode("m2", "0", bits), 4.9, 130.3, 2.5, size)
        every.append(begun(wave, search.begins(wave, "m2", "0", 4.7, 90, 170), "m2", "0", 2.5, sorted({size, 32, 41})))
    # In the last one there is no room for the reply that is awaited.
    every.append(begun(every[0].wave, every[0].found, "m2", "0", 2.5, [2000]))
    together, alone = replies.followed(every), [replies.followed([it])[0] for it in every]
    count.check("a stream for which there is no room is none", together[-1] is None and alone[-1] is None)
    for it, one, other in zip(every, together, alone):
        if one is None or other is None:
            continue
        count.same(f"of {it.lengths} bits: side by side the same levels are found as alone", codes.text_of(one.printed), codes.text_of(other.printed))
        count.check(f"of {it.lengths} bits: the same clock", abs(one.clock.period - other.clock.period) < 1e-9 and abs(one.spread - other.spread) < 1e-9)


def try_correlation(count: Count, program: Program, folder: str) -> None:
    wave = np.random.default_rng(2).standard_normal(700)
    bank = search.bank_of("fm0", "0", search.grid_of(4.7))
    length = len(bank.matrix)
    sums = np.array([wave[at : at + length] @ bank.matrix for at in range(len(wave) - length + 1)])
    size = search.transform_size(len(wave))
    spectra = search.spectra_of("fm0", "0", search.grid_of(4.7), size)
    for at_a_time in (1 << 12, search.AT_A_TIME):
        kept, search.AT_A_TIME = search.AT_A_TIME, at_a_time
        greatest = search.correlations(wave, spectra, size, len(sums))
        search.AT_A_TIME = kept
        count.check(f"{at_a_time} places at a time: the correlations", np.allclose(np.abs(sums).max(axis=1), greatest))
    sizes = [search.transform_size(it) for it in range(1, 2000)]
    count.check("a transform has room, and at most a third more", all(it <= size and 3 * size <= 4 * it + 12 for it, size in enumerate(sizes, 1)), sizes[:20])


def try_logic(count: Count, program: Program, folder: str) -> None:
    def written(name: str, text: str) -> str:
        with open(f"{folder}/{name}", "w", encoding="utf-8") as file:
            file.write(text)
        return f"{folder}/{name}"

    timed = written("timed.csv", "Time [s],a,tag,reader\n0.0,0,0,1\n0.000001,0,0,0\n0.000003,0,1,1\n0.000009,0,0,1\n")
    capture = logic.capture_of(timed, None, None, None)
    count.same("a CSV with times", (capture.reader.changes.round().tolist(), capture.tag.changes.round().tolist()), ([1000, 3000], [3000, 9000]))
    plain = written("plain.csv", "; Samplerate: 1 MHz\nreader,tag\n1,0\n0,0\n0,1\n1,1\n")
    capture = logic.capture_of(plain, None, None, None)
    count.same("a CSV with a sample rate", (capture.rate, capture.reader.changes.tolist(), capture.tag.changes.tolist()), (1e6, [1000, 3000], [2000]))
    dump = written("it.vcd", "$timescale 10 ns $end $var wire 1 ! CLK $end $var wire 1 % TX $end $enddefinitions $end #5 1! x% #10 0! #12 1% #20 1!\n")
    capture = logic.capture_of(dump, None, "CLK", "TX")
    count.same("a value change dump", (capture.reader.changes.tolist(), capture.tag.changes.tolist()), ([50, 150], [70]))
    lows = waves.Logic(logic.capture_of(timed, None, None, None)).lows(quiet)
    count.same("the lows of a line", lows.round().tolist(), [[1000, 3000]])
    plain = written("turned.csv", "; Samplerate: 1 MHz\nreader,tag\n" + "0,0\n" * 9 + "1,0\n1,0\n0,0\n")
    turned = waves.Logic(logic.capture_of(plain, None, None, None))
    count.check("a line that is 0 while the carrier is on is told", turned.lows(quiet).tolist() == [[9000, 11000]] and len(turned.notes) == 2, turned.notes)
    for path, given, wanted in (
        (timed, ("b", None), "no channel 'b'"),
        (timed, ("a", "a"), "are one"),
        (written("no.csv", "reader,tag\n1,0\n"), (None, None), "--rate says"),
        (written("bad.csv", "reader,tag\n1,0\nx,y\n"), (None, None), "line 3"),
        (written("bad.vcd", "nothing\n"), (None, None), "isn't read"),
        (written("bad.sr", "nothing\n"), (None, None), "sigrok"),
    ):
        said = refusal(logic.capture_of, path, None, *given)
        count.check(f"{os.path.basename(path)}: it is said what is wrong", wanted in said, said)


def try_parts(count: Count, program: Program, folder: str) -> None:
    """Tries each part."""
    for part in (try_codes, try_reading, try_frames, try_waves, try_correlation, try_streams, try_side_by_side, try_logic):
        part(count, program, folder)
