"""Readers, tags and the air between them, of the EPC Gen2 air interface: the program gen2run as calls.

>>> import siulanke
>>> siulanke.decode("command 1000000000000000010000")
['query 0 fm0 0 00 0 a 0']

Each call takes a text, as str or bytes, and gives one; docs/FORMATS.md of the project has every line of both. A text without a line feed at its
end gets one. Where a text is faulty `Fault` says which line is, and why.

Calls may be made by any number of threads at a time. They share nothing, and the interpreter runs other threads meanwhile. A thread needs a stack
of 256 KiB.

The library that does the work is called by ctypes. It is proved, as `version()` says, and this module is not.
"""

import ctypes
import enum
import os
from typing import Iterable, List, NamedTuple, Optional, Tuple, Union

__all__ = [
    "Fault", "Status", "Text", "Verdict", "audit", "call", "decode", "encode", "gen", "judge", "names", "portals", "probe", "run", "upgrade", "version", "version_number",
]

Text = Union[str, bytes]

_NO_ROOM = 5
# What a call has room for at first, in bytes: most answers are shorter.
_FIRST_ROOM = 65_536


class Status(enum.IntEnum):
    """What came of a call: the exit status of the program. 1, 4 and 5 never come."""

    DONE = 0
    BAD_WORDS = 2
    BAD_INPUT = 3
    TOO_LONG = 6
    NO_MEMORY = 7
    UNREADABLE_WORDS = 8


class Fault(ValueError):
    """A text is faulty: the first line that is, counted from 1, and the first reason that applies to it."""

    def __init__(self, line: int, reason: str) -> None:
        super().__init__(f"line {line}: {reason}")
        self.line = line
        self.reason = reason


class Verdict(NamedTuple):
    """What `audit` and `judge` say: `yes`, or another word with the first line, counted from 1, up to which the text is none of its kind, and the
    reason; which is of `judge` what a tag answers there.
    """

    word: str
    line: Optional[int]
    reason: str

    def __bool__(self) -> bool:
        return self.word == "yes"


def _library() -> ctypes.CDLL:
    library = ctypes.CDLL(os.path.join(os.path.dirname(os.path.abspath(__file__)), "libgen2run.so"))
    size = ctypes.c_size_t
    library.gen2run_over_memory.argtypes = [ctypes.c_char_p, size, ctypes.c_char_p, size, ctypes.c_char_p, size, ctypes.POINTER(size)]
    library.gen2run_over_memory.restype = ctypes.c_uint32
    library.gen2run_version.argtypes = []
    library.gen2run_version.restype = ctypes.c_uint32
    return library


_gen2run = _library()


def _bytes(text: Text) -> bytes:
    return text.encode() if isinstance(text, str) else bytes(text)


def _whole(text: Text) -> bytes:
    """Gives a text that ends with a line feed, but nothing of nothing."""
    given = _bytes(text)
    return given if not given or given.endswith(b"\n") else given + b"\n"


def call(words: str, given: Text = b"") -> Tuple[Status, bytes]:
    """Does what the program does for these words, with one space between two of them, and this input: gives its status and its output."""
    asked, text, written = words.encode(), _bytes(given), ctypes.c_size_t()
    room = max(_FIRST_ROOM, 2 * len(text))
    while True:
        output = ctypes.create_string_buffer(room)
        status = _gen2run.gen2run_over_memory(asked, len(asked), text, len(text), output, room, ctypes.byref(written))
        if status != _NO_ROOM:
            return Status(status), ctypes.string_at(output, written.value)
        room *= 4


def _answer(words: str, given: Text = b"") -> str:
    """Gives the output of a call that is done, and raises what says why one isn't."""
    status, output = call(words, given)
    if status is Status.DONE:
        return output.decode(errors="surrogateescape")
    if status is Status.BAD_INPUT:
        _, line, reason = output.decode().split()
        raise Fault(int(line), reason)
    if status is Status.TOO_LONG:
        raise ValueError("the input has more than 16,777,216 bytes")
    if status is Status.NO_MEMORY:
        raise MemoryError("there is no memory for the answer")
    raise ValueError(f"there are no such words: {words}")


def _lines(words: str, lines: Union[Text, Iterable[str]]) -> List[str]:
    given = lines if isinstance(lines, (str, bytes)) else "".join(f"{it}\n" for it in lines)
    return _answer(words, _whole(given)).splitlines()


def _verdict(word: str, text: Text) -> Verdict:
    said, *more = _answer(word, _whole(text)).rstrip("\n").split(" ", 2)
    return Verdict(said, int(more[0]) if more else None, more[1] if more else "")


def run(scenario: Text, report: str = "") -> str:
    """Plays a scenario, and gives its report: plain, or as `report` says `trace`, `json`, `exchanges`, `exchanges json` or `vcd`."""
    return _answer(f"run {report}" if report else "run", _whole(scenario))


def decode(lines: Union[Text, Iterable[str]]) -> List[str]:
    """Says for each line of captures what it is: bits, levels, frames, commands, replies, samples, names."""
    return _lines("decode", lines)


def encode(lines: Union[Text, Iterable[str]]) -> List[str]:
    """Gives for each line of bits, commands or replies the line that `decode` reads, or its refusal."""
    return _lines("encode", lines)


def probe(text: Text) -> str:
    """Says what a tag answers to each command and event, and what it then is."""
    return _answer("probe", _whole(text))


def audit(text: Text) -> Verdict:
    """Says whether the trace behind a scenario is what tags and channel make of the commands in it."""
    return _verdict("audit", text)


def judge(log: Text) -> Verdict:
    """Says whether a log of one tag can be that of a tag that follows the standard's tables, whatever it drew."""
    return _verdict("judge", log)


def portals(scenario: Text) -> str:
    """Says what two readers in turn list, beside each other and alone."""
    return _answer("portals", _whole(scenario))


def upgrade(scenario: Text) -> str:
    """Gives a scenario in version 2."""
    return _answer("upgrade", _whole(scenario))


def names(lines: Text) -> str:
    """Gives lines, as a report, with the trade item number behind each that lists one."""
    return _answer("names", _whole(lines))


def gen(seed: int, tags: int) -> str:
    """Gives the summary of a run over so many generated tags."""
    return _answer(f"gen {seed} {tags}")


def version() -> str:
    """Says the version, the version of the texts, and what the library was proved with, or that it wasn't."""
    return _answer("--version")


def version_number() -> int:
    """Gives the version as one number: 1,000,000 for each major version, 1,000 for each minor one, and 1 for each patch."""
    return int(_gen2run.gen2run_version())
