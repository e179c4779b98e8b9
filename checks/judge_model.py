#!/usr/bin/env python3
"""What is judged of a log of one tag whose draws nobody knows, found with an interval for its slot: judge_model.py reads texts from `judge 1`
to `end`, and writes for each what `judge` has to write. judge_model.py FILE.. reads rows, each a text and what is written for it, and ends with 1
where one differs. It shares nothing with the program but the rules: the tag is that of small_tag.py.
"""

from __future__ import annotations

import copy
import re
import sys
from typing import Iterator

from small_tag import SmallTag, command_of

OPTIONAL = ("access", "blockwrite", "blockerase")
SLOTS = ("query", "queryadjust")


class JudgedTag(SmallTag):
    """A tag that draws what it is given. Where `most` isn't None, its slot may be any from 1 to that."""

    def __init__(self, line: str) -> None:
        super().__init__(f"{line} 0000")
        self.given: list[int] = []
        self.entered = False
        self.most: int | None = None

    def draw(self) -> int:
        return self.given.pop(0)

    def enter(self, session: int, q: int) -> str | None:
        self.entered = True
        return super().enter(session, q)

    def answer(self, command: str | None, seen: str) -> tuple[str, str]:
        """Lets the tag hear a command, with draws that let it answer what was seen where any do. Gives its answer, and the answers that are meant."""
        name = command.split(" ")[0] if command else None
        number = int(seen.split(" ")[2], 16) if seen.startswith(("plain rn16", "plain handle")) else 0
        # A tag that answers drew slot 0. Of one that doesn't, slot 1 would have answered at a QueryRep of its session.
        self.given = ([1 if seen == "-" else 0] if name in SLOTS else []) + [number] * 2
        self.entered, before = False, self.most
        mine = name == "queryrep" and self.state == "arbitrate" and int(command.split(" ")[1]) == self.session
        if before is not None and mine and seen == "-" and before > 1:
            self.most -= 1
            return "-", "- or plain rn16 *"
        if before is not None and name in ("queryrep", *SLOTS):
            self.slot = 1
        answer = (command and self.hear(command)) or "-"
        if self.state != "arbitrate":
            self.most = None
        elif self.entered:
            self.most = 2**self.q - 1
        if self.entered:
            return answer, "plain rn16 *" if self.q == 0 else "- or plain rn16 *"
        if name == "queryrep" and answer != "-":
            return answer, "plain rn16 *" if before in (None, 1) else "- or plain rn16 *"
        return answer, "plain handle *" if name == "req_rn" and answer != "-" else answer


def crc5(bits: str) -> str:
    register = 0b01001
    for bit in bits:
        register = (register << 1 ^ (0b01001 if (register >> 4 & 1) != int(bit) else 0)) & 31
    return f"{register:05b}"


def command_in(bits: str) -> str | None:
    """Gives the command that bits spell, of those that small_tag.py knows, a Query (6.3.2.11.2.1) and a QueryAdjust. The others have a CRC-16:
    bits that could be one of these aren't judged."""
    if len(bits) == 9 and bits[:4] == "1001":
        updn = {"110": "up", "000": "same", "011": "down"}.get(bits[6:])
        return f"queryadjust {int(bits[4:6], 2)} {updn}" if updn else None
    if len(bits) >= 32 and (bits[:4] == "1010" or bits[:4] == "1100" and "0001" <= bits[4:8] <= "1000"):
        raise ValueError(f"the model reads no bits of such a command: {bits}")
    if len(bits) != 22 or bits[:4] != "1000" or crc5(bits[:17]) != bits[17:]:
        return command_of(bits)
    code = ("fm0", "m2", "m4", "m8")[int(bits[5:7], 2)]
    return f"query {bits[4]} {code} {bits[7]} {bits[8:10]} {int(bits[10:12], 2)} {'ab'[int(bits[12])]} {int(bits[13:17], 2)}"


def is_other_code(answer: str, seen: str) -> bool:
    return answer != seen and all(" error " in f" {it}" for it in (answer, seen)) and answer.split(" ")[0] == seen.split(" ")[0]


def judge(lines: list[str]) -> str:
    """Gives what is judged of the lines from `judge 1` to `end`."""
    tag, profile = JudgedTag(lines[1]), None
    # (turned round, so that each line is taken off the end)
    log = list(enumerate(lines[2:-1], 3))[::-1]
    while log:
        number, line = log.pop()
        name, _, rest = line.partition(" ")
        if name == "event":
            tag.befall(*rest.split(" "))
            if tag.state != "arbitrate":
                tag.most = None
            continue
        command = command_in(rest) if name == "bits" else line
        number, seen = log.pop()
        seen = seen[len("answer ") :]
        may_lack = seen == "-" and command and command.split(" ")[0] in OPTIONAL
        before = copy.deepcopy(tag) if may_lack else None
        answer, want = tag.answer(command, seen)
        if answer == seen:
            continue
        if may_lack:
            tag = before
        elif not is_other_code(answer, seen):
            return f"no {number} {want}"
        profile = profile or f"profile {number} {want}"
    return profile or "yes"


def written_out(text: str) -> list[str]:
    """Gives the lines that a row stands for (checks/rows has the form)."""
    text = re.sub(r"\{(\d+) of ([^}]*)\}", lambda it: it[2] * int(it[1]), text.strip())
    return text.split("\\n") if not text.endswith("\\c") else text[:-2].split("\\n")[:-1]


def rows_in(path: str) -> Iterator[tuple[int, list[str], str]]:
    """Gives of each row of a table its line, the lines of its log, and what is written for it."""
    around, at = [], 0
    with open(path, encoding="utf-8") as rows:
        for row, line in enumerate((it.rstrip("\n") for it in rows), 1):
            if line.startswith("scenario:"):
                around, at = [], 0
            elif line.startswith("line "):
                at = int(line[5:-1])
            elif line.startswith("    "):
                around += written_out(line)
            elif " | " in line and not line.startswith("#"):
                text, _, answer = line.rpartition(" | ")
                yield row, [*around[: at - 1], *written_out(text), *around[at:]] if at else written_out(text), answer


def read_rows(path: str) -> int:
    """Tells each row that this file judges otherwise, and gives their number."""
    wrong = 0
    for row, lines, answer in rows_in(path):
        if judge(lines) != answer:
            wrong += 1
            print(f"{path}, line {row}: {judge(lines)!r} and not {answer!r}")
    return wrong


if __name__ == "__main__":
    if len(sys.argv) > 1:
        sys.exit(1 if sum(map(read_rows, sys.argv[1:])) else 0)
    text = []
    for line in sys.stdin:
        text.append(line.rstrip("\n"))
        if text[-1] == "end":
            print(judge(text), flush=True)
            text = []
