"""Reads recordings: WAV, raw samples, and SigMF. A part of a file is read at a time, so that a long one needs no memory of its length."""

from __future__ import annotations

import json
import os
import struct
from typing import Callable, NamedTuple

import numpy as np

from .words import RAW_FORMATS


class Trouble(Exception):
    """What is wrong with a file or an option, as one line."""


class Format(NamedTuple):
    """How a raw sample is written: its numbers, whether there are two, and what is 0 among them."""

    number: str
    is_complex: bool
    middle: float


FORMATS = dict(
    zip(
        RAW_FORMATS,
        [
            Format("u1", False, 128.0),
            Format("<i2", False, 0.0),
            Format("<f4", False, 0.0),
            Format("<i2", True, 0.0),
            Format("<f4", True, 0.0),
        ],
    )
)
# What SigMF calls a number, beside its order of bytes.
SIGMF_NUMBERS = {"u8": ("u1", 128.0), "i8": ("i1", 0.0), "u16": ("u2", 32768.0), "i16": ("i2", 0.0), "i32": ("i4", 0.0), "f32": ("f4", 0.0), "f64": ("f8", 0.0)}


class Source:
    """Samples of a file, real or complex: `read` gives `count` of them from sample `first` on. `notes` is what a reader of the result should know."""

    def __init__(self, name: str, rate: float, count: int, is_complex: bool, read: Callable[[int, int], np.ndarray], notes: list[str]) -> None:
        if not rate > 0:
            raise Trouble(f"{name} has a sample rate of {rate:g}")
        if not count:
            raise Trouble(f"{name} has no samples")
        self.name, self.rate, self.count, self.is_complex, self.read, self.notes = name, float(rate), count, is_complex, read, notes


def raw(path: str, form: Format, rate: float, skip: int = 0) -> Source:
    """Gives the samples of a file of raw numbers, behind `skip` bytes."""
    size = np.dtype(form.number).itemsize * (2 if form.is_complex else 1)
    count, rest = divmod(os.path.getsize(path) - skip, size)
    notes = [f"the file is cut: {rest} bytes at its end are no whole sample"] if rest else []
    if count <= 0:
        raise Trouble(f"{path} has no samples")
    numbers = np.memmap(path, form.number, "r", skip, (count * (2 if form.is_complex else 1),))

    def read(first: int, size: int) -> np.ndarray:
        if not form.is_complex:
            return numbers[first : first + size].astype(np.float32) - np.float32(form.middle)
        part = numbers[2 * first : 2 * (first + size)].astype(np.float32) - np.float32(form.middle)
        return part[0::2] + 1j * part[1::2]

    return Source(path, rate, count, form.is_complex, read, notes)


def header_of(path: str) -> tuple[int, int]:
    """Gives how many bytes of samples the header of a WAV announces, and how many there are."""
    size = os.path.getsize(path)
    with open(path, "rb") as file:
        kind = file.read(12)
        if kind[:4] not in (b"RIFF", b"RF64") or kind[8:] != b"WAVE":
            return 0, 0
        wide = None
        while True:
            head = file.read(8)
            if len(head) < 8:
                return 0, 0
            name, length = head[:4], struct.unpack("<I", head[4:])[0]
            if name == b"ds64":
                wide = struct.unpack("<Q", file.read(length)[8:16])[0]
                continue
            if name == b"data":
                return (wide if length == 0xFFFFFFFF and wide is not None else length), size - file.tell()
            file.seek(length + length % 2, os.SEEK_CUR)


def wav(path: str) -> Source:
    """Gives the samples of a WAV: one channel, or two as I and Q."""
    try:
        import soundfile
    except (ImportError, OSError):
        raise Trouble("to read WAV the library soundfile is needed, as in Debian's python3-soundfile") from None
    try:
        file = soundfile.SoundFile(path)
    except (RuntimeError, OSError) as error:
        raise Trouble(f"{path} isn't read as a WAV: {error}") from None
    if file.channels > 2:
        raise Trouble(f"{path} has {file.channels} channels: one is read, or two as I and Q")
    announced, there = header_of(path)
    notes = []
    if announced > there:
        size = announced // max(1, file.channels * {"PCM_U8": 1, "PCM_16": 2, "PCM_24": 3, "DOUBLE": 8}.get(file.subtype, 4))
        notes.append(f"the file is cut: its header announces {size} samples, and {file.frames} are there")
    if file.channels == 2:
        notes.append("the two channels are taken as I and Q")

    def read(first: int, size: int) -> np.ndarray:
        file.seek(first)
        part = file.read(size, dtype="float32", always_2d=True)
        return part[:, 0] + 1j * part[:, 1] if file.channels == 2 else part[:, 0]

    return Source(path, file.samplerate, file.frames, file.channels == 2, read, notes)


def sigmf(path: str) -> Source:
    """Gives the samples of a SigMF recording, of which either file may be named."""
    base = path[: path.rindex(".sigmf-")]
    try:
        with open(f"{base}.sigmf-meta", encoding="utf-8") as file:
            text = json.load(file)
        says = text["global"]
        kind, rate = says["core:datatype"], float(says["core:sample_rate"])
    except OSError as error:
        raise Trouble(f"{base}.sigmf-meta can't be read: {error.strerror}") from None
    except (ValueError, KeyError, TypeError) as error:
        raise Trouble(f"{base}.sigmf-meta isn't as SigMF has it: {error!r}") from None
    number, _, order = kind.partition("_")
    if number[:1] not in ("r", "c") or number[1:] not in SIGMF_NUMBERS or order not in ("", "le", "be") or says.get("core:num_channels", 1) != 1:
        raise Trouble(f"{base}.sigmf-meta: {kind!r} in {says.get('core:num_channels', 1)} channels isn't read")
    letters, middle = SIGMF_NUMBERS[number[1:]]
    captures = text.get("captures") or [{}]
    skip = int(captures[0].get("core:header_bytes", 0))
    return raw(f"{base}.sigmf-data", Format((">" if order == "be" else "<") + letters, number[0] == "c", middle), rate, skip)


def samples_of(path: str, form: str | None, rate: float | None) -> Source:
    """Gives the samples of a file, by its ending or by the format that is named for raw samples."""
    if form is not None and form not in FORMATS:
        raise Trouble(f"there is no format {form!r}: there are {', '.join(FORMATS)}")
    if form is None and path.endswith((".sigmf-meta", ".sigmf-data")):
        return sigmf(path)
    with open(path, "rb") as file:
        head = file.read(4)
    if not head:
        raise Trouble(f"{path} is empty")
    if form is None and head in (b"RIFF", b"RF64"):
        source = wav(path)
        source.rate = rate or source.rate
        return source
    if form is None:
        raise Trouble(f"{path} doesn't say what its samples are: --format names one of {', '.join(FORMATS)}, and --rate the samples a second")
    if rate is None:
        raise Trouble(f"raw samples don't say how many a second there are: --rate does")
    return raw(path, FORMATS[form], rate)
