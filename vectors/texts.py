"""Reads and compares vectors: the texts of this folder, and those that walks makes."""

import glob
import os
import re
from typing import Iterator, List, NamedTuple, Optional

HERE = os.path.dirname(os.path.abspath(__file__))


class Text(NamedTuple):
    """A vector: where it stands, its lines from `probe 1` to `end`, the number of the line that is tried, and the lines that come out."""

    file: str
    id: str
    title: str
    kind: str
    tried: int
    given: List[str]
    wanted: List[str]

    def answers(self) -> List[str]:
        return [it for it in self.wanted if it.startswith("answer ")]


def texts_in(text: str, file: str) -> Iterator[Text]:
    for part in text.split("\n\n"):
        lines = part.strip("\n").split("\n")
        if lines == [""]:
            continue
        about = re.fullmatch("# (.+), (must|profile), line ([0-9]+)", lines[1])
        assert lines[0].startswith("# ") and about, (file, lines[:2])
        end = lines.index("end")
        yield Text(file, about[1], lines[0][2:], about[2], int(about[3]), lines[2 : end + 1], lines[end + 1 :])


def vectors() -> List[Text]:
    found: List[Text] = []
    for path in sorted(glob.glob(f"{HERE}/*.txt")):
        with open(path, encoding="utf-8") as it:
            found += texts_in(it.read(), os.path.basename(path))
    return found


def first_other(wanted: List[str], came: List[str]) -> Optional[int]:
    """Gives the place of the first answer that is another one, or none."""
    for at in range(max(len(wanted), len(came))):
        if wanted[at : at + 1] != came[at : at + 1]:
            return at
    return None
