"""What the helpers for recordings are asked: the words of explain_capture and of make_recording, and what they say under --help.

It needs no numpy, so that help is there before numpy is.
"""

from __future__ import annotations

import argparse
from dataclasses import dataclass
from typing import NoReturn

EXPLAINING = """Explains a recording of an inventory: a line for each frame, with its time, its command, and its reply or why there is none.

FILE is a WAV of 8 to 32 bits or floats, of one channel or of two as I and Q; a SigMF recording; raw samples, of which --format and --rate say what
they are; or two logic channels, a reader's line and a tag's, as .csv, .vcd or a sigrok session .sr. PROGRAM is ./gen2run, or the program itself: its
`decode` says what each frame and each reply is."""
A_LINE_SAYS = """A line says: when the frame begins; the command; behind -> the reply, as `decode` has it, or why there is none; and in brackets the BLF and how far
it is from what the Query asks, the spread of a level about what is expected of it, in percent of the way from low to high, how many levels were
decided against their integral, and by how much lengths of the frame were moved onto its own Tari, RTcal and TRcal. A level that was broken by more than
noise accounts for stands in the reply as it came, so that `decode` refuses it."""
MAKING = """Makes recordings of runs, to try the helper for recordings. They are made up, and no radio.

The wave is what a receiver beside the reader would see of its carrier: the reader's lows are a deep dip, and a high level of a tag lifts it.
Frames and replies are those of `run trace`, with T1 and T2 between them as the standard has them."""

# What raw samples may be; those with c are complex.
RAW_FORMATS = ("u8", "i16", "f32", "ci16", "cf32")
# What a recording may be made as.
FORMS = ["wav8", "wav16", "wav24", "wav32", "wavf", "wav16-iq", "wavf-iq", *RAW_FORMATS]
FORMS += [f"sigmf-{it}" for it in RAW_FORMATS] + ["csv", "vcd", "sr"]


@dataclass
class Channel:
    """What a recording is made with.

    `noise` is a standard deviation and `lift` what a tag adds at high, both in 1/256 of what 8 bits have; `drift` is how far the baseline goes up
    and down. The BLF is wrong by `wrong`, in one reply too fast and in the next too slow, and beside that by `offset`. The whole wave goes up and
    down by `gain`, `gain_rate` times a second. An edge takes `edges` seconds as a straight line, and each interval of the reader is wrong by
    `jitter`, a standard deviation. `angle` is that of the tag's wave to the carrier where the samples are complex, in degrees.
    """

    rate: float = 4e6
    seed: int = 1
    lift: float = 25.0
    noise: float = 2.0
    drift: float = 15.0
    wrong: float = 0.01
    offset: float = 0.0
    gain: float = 0.0
    gain_rate: float = 5000.0
    edges: float = 0.0
    jitter: float = 0.0
    angle: float = 0.0
    repeat: int = 1
    carrier_behind: float = 0.0


class Options(argparse.ArgumentParser):
    """Arguments of which an error is one line."""

    def error(self, message: str) -> NoReturn:
        self.exit(2, f"{self.prog}: {message}; {self.prog} --help says more\n")


def explaining() -> argparse.ArgumentParser:
    """Gives the words of explain_capture."""
    parser = Options(prog="explain_capture", description=EXPLAINING, epilog=A_LINE_SAYS, formatter_class=argparse.RawDescriptionHelpFormatter)
    parser.add_argument("program", metavar="PROGRAM")
    parser.add_argument("file", metavar="FILE")
    form = parser.add_mutually_exclusive_group()
    form.add_argument("--json", action="store_const", dest="form", const="json", default="text", help="an object for each line")
    form.add_argument("--lines", action="store_const", dest="form", const="lines", help="the lines pie and heard instead, which decode and draw read")
    parser.add_argument("--format", metavar="FORMAT", help=f"what raw samples are: {', '.join(RAW_FORMATS)}; those with c are complex")
    parser.add_argument("--rate", metavar="HZ", type=float, help="samples a second, where the file doesn't say it or says it wrongly")
    parser.add_argument("--link", nargs=3, metavar=("BLF", "CODE", "TREXT"), help="what the Query said, where it isn't in the recording: 426667 fm0 0")
    parser.add_argument("--reader", metavar="NAME", help="the channel of the reader's line; without it the one called reader, or the first")
    parser.add_argument("--tag", metavar="NAME", help="the channel of the tag's line; without it the one called tag, or the second")
    return parser


def making() -> argparse.ArgumentParser:
    """Gives the words of make_recording."""
    parser = Options(prog="make_recording", description=MAKING, formatter_class=argparse.RawDescriptionHelpFormatter)
    parser.add_argument("program", metavar="PROGRAM", help="./gen2run, or the program itself")
    parser.add_argument("scenario", metavar="SCENARIO", help="the file with the scenario that is played")
    parser.add_argument("path", metavar="FILE", help="the recording")
    parser.add_argument("--form", choices=FORMS, default="wav8", metavar="FORM", help=f"what FILE is: {', '.join(FORMS)}; without it wav8")
    told = {
        "rate": "samples a second", "seed": "the same seed makes the same recording", "lift": "what a tag at high adds to the carrier, of 256",
        "noise": "standard deviation of a sample, of 256", "drift": "how far the baseline goes up and down, of 256",
        "wrong": "by which part the BLF is too high and too low in turn", "offset": "by which part the BLF is too high beside that",
        "gain": "by which part the whole wave goes up and down", "gain_rate": "how often it does in a second", "edges": "seconds that an edge takes",
        "jitter": "standard deviation of each interval of the reader, as a part", "angle": "of the tag's wave to the carrier, in degrees, where samples are complex",
        "repeat": "how often the run is played", "carrier_behind": "seconds of carrier behind the last exchange",
    }  # fmt: skip
    default = Channel()
    for name, text in told.items():
        value = getattr(default, name)
        parser.add_argument("--" + name.replace("_", "-"), type=type(value), default=value, metavar="N", help=f"{text}; without it {value:g}")
    return parser
