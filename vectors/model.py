"""A tag, as docs/TAG.md has it: each row of its table of commands and states is read there, and each move that a cell names is a function here.

The program is not asked. A tag hears a command as `probe` spells it, and `hear` gives what it answers; `befall` takes an event.
"""

from __future__ import annotations

import functools
import os
import re
import sys

TOP = os.path.dirname(os.path.dirname(os.path.abspath(__file__)))
sys.path.append(f"{TOP}/examples")
from levels import crc16  # noqa: E402  (it stands in examples)

STATES = ("ready", "arbitrate", "reply", "acknowledged", "open", "secured", "killed", "off")
BANKS = ("res", "epc", "tid", "user")
FLAGS = ("s0", "s1", "s2", "s3", "sl")
ACCESS = ("read", "write", "kill", "lock", "access", "blockwrite", "blockerase")
# The field of TAG's pairs that guards a word of a bank, by its bank.
PAIRS = {"kill": 0, "access": 2, "epc": 4, "tid": 6, "user": 8}


def cells() -> dict[tuple[str, str], str]:
    """Gives the table 'Each command and event in each state' of docs/TAG.md: the text of a cell by command and state."""
    with open(f"{TOP}/docs/TAG.md", encoding="utf-8") as it:
        part = it.read().split("## Each command and event in each state")[1].split("\n## ")[0]
    rows = [[cell.strip() for cell in line.strip("|\n").split("|")] for line in part.split("\n") if line.startswith("|")]
    heads = [it.strip("`") for it in rows[0][1:]]
    assert tuple(heads) == STATES, heads
    return {(row[0].strip("`").lower(), state): cell for row in rows[2:] for state, cell in zip(heads, row[1:])}


CELLS = cells()


def words_of(field: str) -> list[int]:
    return [] if field == "-" else [int(field[at : at + 4], 16) for at in range(0, len(field), 4)]


def text_of(words: list[int]) -> str:
    return "".join(f"{word:04X}" for word in words) or "-"


def bits_of(words: list[int]) -> str:
    return "".join(f"{word:016b}" for word in words)


class Tag:
    def __init__(self, line: str) -> None:
        _, kill, access, locks, epc, tid, user, words = line.split(" ")
        self.banks = {"res": words_of(kill) + words_of(access), "epc": [0, *words_of(epc)], "tid": words_of(tid), "user": words_of(user)}
        self.locks, self.words, self.drawn = locks, words_of(words), 0
        # whether a choice that TAG calls profile was made since this was last set to False
        self.by_profile = False
        # the code and TRext of the last Query, in which its answers are sent
        self.link = ("fm0", "0")
        self.flags = {**dict.fromkeys(FLAGS[:4], "A"), "sl": 0}
        self.ready()
        self.store_crc()

    # What it holds.

    def copy(self) -> Tag:
        """Gives a tag that is the same, and goes on by itself."""
        it = object.__new__(Tag)
        it.__dict__.update(self.__dict__)
        it.banks, it.flags = dict(self.banks), dict(self.flags)
        return it

    def ready(self) -> None:
        self.state = "ready"
        self.session = self.q = self.slot = self.number = self.cover = self.half = None

    def epc_words(self) -> list[int]:
        return self.banks["epc"][2 : 2 + (self.banks["epc"][1] >> 11)]

    def store_crc(self) -> None:
        crc = crc16(bits_of([self.banks["epc"][1], *self.epc_words()]))
        self.banks["epc"] = [crc, *self.banks["epc"][1:]]

    def draw(self) -> int:
        self.drawn += 1
        return self.words[(self.drawn - 1) % len(self.words)]

    def password(self, kind: str) -> int:
        upper, lower = self.banks["res"][0:2] if kind == "kill" else self.banks["res"][2:4]
        return upper << 16 | lower

    # Its lines.

    def state_line(self) -> str:
        flags = "".join(self.flags[it] for it in FLAGS[:4]) + str(self.flags["sl"])
        numbers = {
            "arbitrate": lambda: [str(self.slot)],
            "reply": lambda: [f"{self.number:04X}"],
            "acknowledged": lambda: [f"{self.number:04X}"],
        }
        held = lambda: [f"{self.number:04X}", "-" if self.cover is None else f"{self.cover:04X}", f"{self.half[0]}-{self.half[1]:04X}" if self.half else "-"]
        if self.state in ("ready", "killed", "off"):
            return f"{self.state} {flags}"
        return " ".join([self.state, flags, str(self.session), str(self.q), *numbers.get(self.state, held)()])

    def tag_line(self) -> str:
        flags = self.state_line().split(" ")[1]
        return " ".join([self.state, flags, self.locks, *(text_of(self.banks[it]) for it in BANKS)])

    # The moves of TAG.

    def stay(self) -> None:
        return None

    def back(self) -> None:
        session, q = self.session, self.q
        self.ready()
        self.state, self.session, self.q, self.slot = "arbitrate", session, q, 0

    def close(self) -> None:
        name = f"s{self.session}"
        self.flags[name] = "B" if self.flags[name] == "A" else "A"
        self.ready()

    def enter(self, session: int, q: int) -> str | None:
        self.ready()
        self.session, self.q = session, q
        self.slot = self.draw() % 2**q
        return self.reply_now() if self.slot == 0 else self.wait()

    def reply_now(self) -> str:
        self.state, self.slot, self.number = "reply", None, self.draw()
        return f"plain rn16 {self.number:04X}"

    def wait(self) -> None:
        self.state = "arbitrate"

    def join(self, sel: str, session: int, target: str, q: int) -> str | None:
        allowed = {"00": True, "01": True, "10": self.flags["sl"] == 0, "11": self.flags["sl"] == 1}[sel]
        if allowed and self.flags[f"s{session}"] == target.upper():
            return self.enter(session, q)
        self.ready()
        return None

    def count(self) -> str | None:
        self.slot = self.slot - 1 if self.slot else 0x7FFF
        return self.reply_now() if self.slot == 0 else None

    def adjust(self, updn: str) -> str | None:
        q = {"up": min(self.q + 1, 15), "same": self.q, "down": max(self.q - 1, 0)}[updn]
        return self.enter(self.session, q)

    def select(self, target: str, action: int, bank: str, pointer: int, mask: str) -> None:
        bits, mask = bits_of(self.banks[bank]), "" if mask == "-" else mask
        self.by_profile |= not mask or pointer + len(mask) > len(bits)
        matches = pointer + len(mask) <= len(bits) and bits[pointer : pointer + len(mask)] == mask
        # 'a' asserts SL or makes A, 'd' deasserts or makes B, 'i' inverts
        done = [("a", "d"), ("a", ""), ("", "d"), ("i", ""), ("d", "a"), ("d", ""), ("", "a"), ("", "i")][action][0 if matches else 1]
        if target == "sl":
            self.flags["sl"] = {"a": 1, "d": 0, "i": 1 - self.flags["sl"], "": self.flags["sl"]}[done]
        else:
            old = self.flags[target]
            self.flags[target] = {"a": "A", "d": "B", "i": "AB"[old == "A"], "": old}[done]
        self.ready()

    def send(self) -> str:
        self.state = "acknowledged" if self.state == "reply" else self.state
        return f"plain epc {self.banks['epc'][1]:04X} {text_of(self.epc_words())}"

    def open(self) -> str:
        self.number = self.draw()
        self.state = "open" if self.password("access") else "secured"
        return f"plain handle {self.number:04X}"

    def new_cover(self) -> str:
        self.cover = self.draw()
        return f"plain handle {self.cover:04X}"

    # The rules of open and secured.

    def may(self, field: str, use: str) -> bool:
        pair = self.locks[PAIRS[field] : PAIRS[field] + 2]
        if use == "read" and field not in ("kill", "access"):
            return True
        return {"00": True, "01": True, "10": self.state == "secured", "11": False}[pair]

    def field_of(self, bank: str, place: int) -> str:
        return ("kill" if place < 2 else "access") if bank == "res" else bank

    def read(self, bank: str, pointer: int, count: int) -> str:
        words = self.banks[bank]
        if count == 0:
            length = 2 + (self.banks["epc"][1] >> 11)
            count = (length if bank == "epc" and pointer < length else len(words)) - pointer
        if count <= 0 or pointer + count > len(words):
            self.by_profile = True
            return "plain error 03"
        if not all(self.may(self.field_of(bank, it), "read") for it in range(pointer, pointer + count)):
            self.by_profile = True
            return "plain error 04"
        return f"plain words {text_of(words[pointer : pointer + count])}"

    def change(self, bank: str, pointer: int, words: list[int]) -> str:
        self.by_profile |= bank == "epc"
        old = self.banks[bank]
        new = old[:pointer] + words + old[pointer + len(words) :]
        if pointer + len(words) > len(old) or bank == "epc" and 2 + (new[1] >> 11) > len(old):
            self.by_profile = True
            return "extended error 03"
        places = range(pointer, pointer + len(words))
        if bank == "epc" and 0 in places or not all(self.may(self.field_of(bank, it), "write") for it in places):
            self.by_profile = True
            return "extended error 04"
        self.banks[bank] = new
        return "extended header"

    def lock(self, payload: int) -> str:
        bits = f"{payload:020b}"
        mask, action = bits[:10], bits[10:]
        self.by_profile |= any("1" in mask[at : at + 2] and self.locks[at + 1] == "1" for at in range(0, 10, 2))
        if not self.banks["user"] and "1" in mask[8:]:
            self.by_profile = True
            return "extended error 03"
        pairs = [(at, at + 1) for at in range(0, 10, 2)]
        if any(mask[perma] == "1" and action[perma] == "0" and self.locks[perma] == "1" for _, perma in pairs):
            return "extended error 04"
        old = self.locks
        new = [action[at] if mask[at] == "1" and old[at // 2 * 2 + 1] == "0" else old[at] for at in range(10)]
        self.locks = "".join(new)
        return "extended header"

    def half_of(self, kind: str, value: int) -> str | None:
        """Rules 6 to 8: a half of a password comes, without its cover."""
        if self.half is None:
            self.half = (kind, value)
            return f"plain handle {self.number:04X}"
        both = self.half[1] << 16 | value
        if kind == "kill" and self.password("kill") == 0:
            self.half = None
            self.by_profile = True
            return "extended error 00"
        if both != self.password(kind):
            self.by_profile = True
            return self.back()
        self.half = None
        if kind == "access":
            self.state = "secured"
            return f"plain handle {self.number:04X}"
        self.ready()
        self.state = "killed"
        return "extended header"

    def by_rules(self, name: str, given: list[int | str | list[int]], rules: list[str]) -> str | None:
        """The rules that the cell names, in order. The last field of a command is the tag's number."""
        if given[-1] != self.number:
            return None
        if self.half and name != self.half[0]:
            self.by_profile = True
            return self.back()
        if "3" in rules:
            if self.cover is None:
                self.by_profile = True
                return None
            cover, self.cover = self.cover, None
        if name == "read":
            return self.read(*given[:3])
        if name == "write":
            return self.change(given[0], given[1], [given[2] ^ cover])
        if name == "blockwrite":
            return self.change(given[0], given[1], given[2])
        if name == "blockerase":
            self.by_profile = True
            return self.change(given[0], given[1], [0] * given[2])
        if name == "lock":
            return None if self.state == "open" else self.lock(given[0])
        return self.half_of(name, given[0] ^ cover)

    # What it hears, and what befalls it.

    def hear(self, line: str) -> str | None:
        name, given = command_in(line)
        cell = CELLS[name, self.state]
        if name == "query" and self.state not in ("killed", "off"):
            self.link = given[1], str(given[2])
        if name in ("queryrep", "queryadjust") and self.session is not None and given[0] != self.session:
            return None
        if cell[0].isdigit():
            return self.by_rules(name, given, cell.split(", "))
        return self.move(self.case(cell, name, given), name, given)

    def case(self, cell: str, name: str, given: list[int | str | list[int]]) -> str:
        """Gives the moves of the first case of a cell that holds."""
        for case in cell.split("; "):
            when, _, moves = case.rpartition(": ")
            if self.holds(when, name, given):
                self.by_profile |= " (profile)" in moves
                moves = moves.replace(" (profile)", "")
                return re.sub("^else ", "", moves)
        raise AssertionError(cell)

    def holds(self, when: str, name: str, given: list[int | str | list[int]]) -> bool:
        if when == "half":
            return self.half is not None
        if when == "of its session":
            return name == "query" and given[4] == self.session
        assert when in ("", "its RN16", "its handle"), when
        return not when or given[-1:] == [self.number]

    def move(self, moves: str, name: str, given: list[int | str | list[int]]) -> str | None:
        answer = None
        for move in moves.split(", then "):
            answer = MOVES[move](self, given)
        return answer

    def count_past(self) -> None:
        self.back()
        self.slot = 0x7FFF

    def befall(self, kind: str, flag: str | None = None) -> None:
        cell = CELLS[kind, self.state]
        if kind == "expire":
            self.by_profile = True
            self.expire(cell, flag)
        else:
            {"STAY": self.stay, "BACK": self.back, "OFF": self.off, "ON": self.on}[cell]()

    def off(self) -> None:
        self.ready()
        self.state, self.flags["s0"] = "off", "A"

    def on(self) -> None:
        self.ready()
        self.store_crc()

    def expire(self, cell: str, flag: str) -> None:
        for case in cell.split("; "):
            named = re.fullmatch(r"(?:of )?([S0-9L, ]+)(?:: | is )(.*)", case)
            if named and flag.upper() in named[1].split(", "):
                self.flags[flag] = {"A": "A", "this flag is A": "A", "deasserted": 0, "STAY": self.flags[flag]}[named[2]]
                return
        assert cell == "STAY", cell


# What a move of TAG is here, of a tag that hears a command with these fields.
MOVES = {
    "STAY": lambda tag, given: tag.stay(),
    "BACK": lambda tag, given: tag.back(),
    "CLOSE": lambda tag, given: tag.close(),
    "JOIN": lambda tag, given: tag.join(given[3], given[4], given[5], given[6]),
    "COUNT": lambda tag, given: tag.count(),
    "arbitrate, slot counter 7FFFh": lambda tag, given: tag.count_past(),
    "ADJUST": lambda tag, given: tag.adjust(given[1]),
    "SELECT": lambda tag, given: tag.select(*given),
    "SEND": lambda tag, given: tag.send(),
    "OPEN": lambda tag, given: tag.open(),
    "COVER": lambda tag, given: tag.new_cover(),
}


@functools.lru_cache(maxsize=4096)
def command_in(line: str) -> tuple[str, list[int | str | list[int]]]:
    """Gives the name and the fields of a command."""
    name, *fields = line.split(" ")
    return name, parsed(name, fields)


def parsed(name: str, fields: list[str]) -> list[int | str | list[int]]:
    """Gives the fields of a command as numbers, words and names."""
    word, words, number, same = lambda it: int(it, 16), words_of, int, str
    kinds = {
        "queryrep": [number],
        "ack": [word],
        "query": [number, same, number, same, number, same, number],
        "queryadjust": [number, same],
        "select": [same, number, same, number, same],
        "nak": [],
        "req_rn": [word],
        "read": [same, number, number, word],
        "write": [same, number, word, word],
        "kill": [word, word],
        "lock": [word, word],
        "access": [word, word],
        "blockwrite": [same, number, words, word],
        "blockerase": [same, number, number, word],
    }[name]
    assert len(kinds) == len(fields), (name, fields)
    return [kind(field) for kind, field in zip(kinds, fields)]


def command_of(bits: str) -> str | None:
    """Gives the command that bits spell, of those that are tried here (6.3.2.11): a NAK, a QueryRep, or an ACK."""
    if bits == "11000000":
        return "nak"
    if re.fullmatch("00[01]{2}", bits):
        return f"queryrep {int(bits[2:], 2)}"
    if re.fullmatch("01[01]{16}", bits):
        return f"ack {int(bits[2:], 2):04X}"
    return None


def done(tag: Tag, line: str) -> list[str]:
    """Does to the tag what a line says, and gives the lines that tell of its answer."""
    name, _, rest = line.partition(" ")
    if name == "event":
        tag.befall(*rest.split(" "))
        return []
    command = command_of(rest) if name == "bits" else line
    return [command and tag.hear(command) or "-"]


def standing(tag_line: str, lines: list[str]) -> Tag:
    """Gives the tag behind these lines."""
    tag = Tag(tag_line)
    for line in lines:
        done(tag, line)
    return tag


def played(tag_line: str, lines: list[str]) -> list[str]:
    """Gives what `probe` has to write for a tag and what is done to it."""
    tag, written = Tag(tag_line), []
    for number, line in enumerate(lines, 3):
        written.extend(f"answer {number} {it}" for it in done(tag, line))
        written.append(f"state {number} {tag.state_line()}")
    return [*written, f"tag 0 {tag.tag_line()}", "done"]
