"""Reads recordings, for the helpers of this folder. It is not proved."""

from __future__ import annotations

import sys
import wave


def recording(path: str) -> tuple[bytes, int | None]:
    """Gives the samples of a file as numbers from 0 to 255, and its sample rate or none."""
    try:
        with wave.open(path) as file:
            width, channels = file.getsampwidth(), file.getnchannels()
            frames, rate = file.readframes(file.getnframes()), file.getframerate()
    except (wave.Error, EOFError) as error:
        with open(path, "rb") as file:
            samples = file.read()
        if samples.startswith(b"RIFF"):
            sys.exit(f"this WAV isn't read: {error}")
        return samples, None
    if width not in (1, 2):
        sys.exit(f"samples of {8 * width} bits: only 8 and 16 are read")
    # Of a sample of 16 bits, which has a sign, the upper byte is taken; one of 8 bits has none.
    samples = frames[width - 1 :: width * channels]
    return (samples if width == 1 else bytes(it ^ 128 for it in samples)), rate
