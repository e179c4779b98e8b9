#!/usr/bin/env python3
"""A small tag of the checks' own, into which bugs can be planted: small_tag.py [BUG] reads texts as `probe` does, and writes the answers to each.

It shows no state. Each bug of BUGS is one that a maker of tags could well make; the vectors and the walks of vectors/ have to find it by answers.
"""

from __future__ import annotations

import sys
from typing import Iterator

BUGS = """
select keeps the state | select inverts where it asserts | select forgets the first word | select compares one bit less | select takes a mask past the end
select 1 deasserts too | select 2 asserts too | select 6 makes B too | select 7 inverts where it matches | select of s3 changes s2 | select pointer of 7 bits
select never matches an empty mask | query ignores sel | query takes sel 10 for 11 | query ignores the target | query closes in reply
query doesn't close | query closes another session's round | query keeps q | query ignores s2 and s3 | slot of 14 bits | queryrep of any session
queryrep doesn't close | closing makes B | closing inverts s1 | queryrep in reply answers | slot 1 answers late | slot 0 answers again
queryadjust up passes 15 | queryadjust down goes below 0 | queryadjust ignores up | queryadjust of any session | queryadjust doesn't draw in reply
ack of any number | wrong ack keeps the state | ack in open ignores the handle | ack sends the whole bank | nak does nothing in open | nak from ready
req_rn keeps the old rn16 | req_rn from reply | access password's upper half alone | access password's lower half alone | any first half
halves of either password | a first half stays | kill without password | killed tags answer | cover stays | write without cover
write passes over locks | write of stored crc | blockwrite writes a part | pc may pass the bank | stored crc follows writes | stored crc never follows
read of 0 words is an error | read past the epc's end | read shows locked passwords | read pointer of 7 bits | pair 01 is closed | pair 10 is open
lock works in open | permalock comes off | write bit changes under a permalock | lock of no user bank | power keeps s0 | power takes s2
expire takes s2 with power | expire ignores s1 | expire leaves sl | timeout in open | timeout does nothing in acknowledged | read in reply answers
"""
BUGS = [it.strip() for it in BUGS.replace("\n", " | ").split("|") if it.strip()]
PAIRS = {"kill": 0, "access": 2, "epc": 4, "tid": 6, "user": 8}


def crc16(words: list[int]) -> int:
    register = 0xFFFF
    for word in words:
        register ^= word
        for _ in range(16):
            register = (register << 1 ^ (0x1021 if register & 0x8000 else 0)) & 0xFFFF
    return register ^ 0xFFFF


def words_of(text: str) -> list[int]:
    return [] if text == "-" else [int(text[at : at + 4], 16) for at in range(0, len(text), 4)]


def text_of(words: list[int]) -> str:
    return "".join(f"{it:04X}" for it in words) or "-"


class SmallTag:
    def __init__(self, line: str, bug: str | None = None) -> None:
        _, kill, access, self.locks, epc, tid, user, words = line.split(" ")
        self.bug = bug
        self.memory = {"res": words_of(kill + access), "epc": [0] + words_of(epc), "tid": words_of(tid), "user": words_of(user)}
        self.words, self.at = words_of(words), -1
        self.flag = {"s0": "a", "s1": "a", "s2": "a", "s3": "a", "sl": False}
        self.go("ready")
        self.power()

    def go(self, state: str, **numbers: int) -> None:
        self.state = state
        self.session, self.q, self.slot, self.number, self.cover, self.half = (numbers.get(it) for it in ("session", "q", "slot", "number", "cover", "half"))

    def power(self) -> None:
        bank = self.memory["epc"]
        bank[0] = crc16(bank[1 : 2 + (bank[1] >> 11)])

    def draw(self) -> int:
        self.at = (self.at + 1) % len(self.words)
        return self.words[self.at]

    def wait(self, slot: int = 0) -> None:
        self.go("arbitrate", session=self.session, q=self.q, slot=slot)

    def close(self) -> None:
        name = "s1" if self.bug == "closing inverts s1" else f"s{self.session}"
        self.flag[name] = "b" if self.flag[name] == "a" or self.bug == "closing makes B" else "a"
        self.go("ready")

    def enter(self, session: int, q: int) -> str:
        slot = self.draw() % 2 ** (min(q, 14) if self.bug == "slot of 14 bits" else q)
        if slot:
            return self.go("arbitrate", session=session, q=q, slot=slot)
        self.go("reply", session=session, q=q, number=self.draw())
        return f"plain rn16 {self.number:04X}"

    def hear(self, line: str) -> str | None:
        name, *given = line.split(" ")
        if self.state == "killed" and self.bug == "killed tags answer" and name == "query":
            self.go("ready")
        if self.state in ("killed", "off"):
            return None
        return getattr(self, name, self.access_command)(*given) if name not in ACCESS else self.access_command(name, *given)

    def select(self, target: str, action: str, bank: str, pointer: str, mask: str) -> None:
        if self.half and self.state in ("open", "secured"):
            return self.wait()
        pointer, action, mask = int(pointer), int(action), "" if mask == "-" else mask
        if self.bug == "select pointer of 7 bits":
            pointer &= 127
        words = self.memory[bank]
        bits = "".join(f"{it:016b}" for it in words)
        if self.bug == "select forgets the first word":
            bits = "0" * 16 + bits[16:]
        if self.bug == "select takes a mask past the end":
            bits += mask
        if self.bug == "select compares one bit less":
            mask = mask[:-1]
        fits = bits[pointer : pointer + len(mask)] == mask and pointer + len(mask) <= len(bits)
        if self.bug == "select never matches an empty mask" and not mask:
            fits = False
        if not fits and action == {"select 1 deasserts too": 1, "select 6 makes B too": None}.get(self.bug, -1):
            action = 0
        if fits and (self.bug, action) in (("select 2 asserts too", 2), ("select 6 makes B too", 6)):
            action = {2: 0, 6: 4}[action]
        if action == 7 and self.bug == "select 7 inverts where it matches":
            action = 3
        up = {0: fits, 1: fits or None, 2: None if fits else False, 4: not fits, 5: False if fits else None, 6: None if fits else True}
        turn = action == 3 and fits or action == 7 and not fits
        if self.bug == "select of s3 changes s2" and target == "s3":
            target = "s2"
        now = self.flag[target] is True or self.flag[target] == "a"
        to = not now if turn else now if action in (3, 7) else up[action]
        if self.bug == "select inverts where it asserts" and to is True:
            to = not now
        if to is not None:
            self.flag[target] = to if target == "sl" else "ba"[to]
        if self.bug != "select keeps the state":
            self.go("ready")
        return None

    def query(self, dr: str, code: str, trext: str, sel: str, session: str, target: str, q: str) -> str:
        session, q = int(session), int(q)
        in_round = self.state in ("acknowledged", "open", "secured") or self.state == "reply" and self.bug == "query closes in reply"
        if in_round and (session == self.session or self.bug == "query closes another session's round") and self.bug != "query doesn't close":
            self.close()
        if self.bug == "query takes sel 10 for 11":
            sel = {"10": "11", "11": "10"}.get(sel, sel)
        named = sel in ("00", "01") or self.flag["sl"] == (sel == "11") or self.bug == "query ignores sel"
        if self.flag[f"s{session}"] != target and self.bug != "query ignores the target" and not (self.bug == "query ignores s2 and s3" and session > 1):
            named = False
        if self.bug == "query keeps q" and self.q is not None:
            q = self.q
        if named:
            return self.enter(session, q)
        return self.go("ready")

    def queryrep(self, session: str) -> str | None:
        if int(session) != self.session and self.bug != "queryrep of any session" or self.session is None:
            return None
        if self.state == "arbitrate":
            slot = (self.slot - 1) % 32768
            if slot == 0 and self.bug != "slot 1 answers late" or self.bug == "slot 1 answers late" and self.slot == 0 or self.bug == "slot 0 answers again" and self.slot == 0:
                self.go("reply", session=self.session, q=self.q, number=self.draw())
                return f"plain rn16 {self.number:04X}"
            return self.wait(slot)
        if self.state == "reply":
            return f"plain rn16 {self.number:04X}" if self.bug == "queryrep in reply answers" else self.wait(0x7FFF)
        if self.half:
            return self.wait()
        return None if self.bug == "queryrep doesn't close" else self.close()

    def queryadjust(self, session: str, updn: str) -> str | None:
        if int(session) != self.session and self.bug != "queryadjust of any session" or self.session is None:
            return None
        if self.state in ("arbitrate", "reply"):
            if self.bug == "queryadjust doesn't draw in reply" and self.state == "reply":
                return self.wait(0x7FFF)
            q = self.q + {"up": 1, "same": 0, "down": -1}[updn]
            if self.bug == "queryadjust ignores up" and updn == "up":
                q = self.q
            q = q % 16 if self.bug == "queryadjust up passes 15" and q > 0 else 15 if self.bug == "queryadjust down goes below 0" and q < 0 else max(0, min(15, q))
            return self.enter(self.session, q)
        return self.wait() if self.half else self.close()

    def ack(self, number: str) -> str | None:
        if self.state in ("ready", "arbitrate"):
            return None
        right = int(number, 16) == self.number or self.bug == "ack of any number"
        if self.bug == "ack in open ignores the handle" and self.state in ("open", "secured"):
            right = True
        if self.half or not right:
            return None if self.bug == "wrong ack keeps the state" else self.wait()
        if self.state == "reply":
            self.state = "acknowledged"
        bank = self.memory["epc"]
        sent = bank[2:] if self.bug == "ack sends the whole bank" else bank[2 : 2 + (bank[1] >> 11)]
        return f"plain epc {bank[1]:04X} {text_of(sent)}"

    def nak(self) -> None:
        if self.state in ("ready", "arbitrate") or self.bug == "nak does nothing in open" and self.state == "open":
            return self.wait() if self.bug == "nak from ready" and self.state == "arbitrate" else None
        return self.wait()

    def req_rn(self, number: str) -> str | None:
        right = self.number == int(number, 16)
        if self.state == "reply" and not (self.bug == "req_rn from reply" and right):
            return self.wait()
        if self.state in ("ready", "arbitrate") or not right:
            return None
        if self.state in ("open", "secured"):
            self.cover = self.draw()
            return f"plain handle {self.cover:04X}"
        handle = self.number if self.bug == "req_rn keeps the old rn16" else self.draw()
        password = self.memory["res"][2:]
        if self.bug == "access password's upper half alone":
            password = password[:1]
        if self.bug == "access password's lower half alone":
            password = password[1:]
        self.go("open" if any(password) else "secured", session=self.session, q=self.q, number=handle)
        return f"plain handle {handle:04X}"

    def access_command(self, name: str, *given: str) -> str | None:
        right = self.number == int(given[-1], 16)
        if self.state in ("ready", "arbitrate"):
            return None
        if self.state == "reply" and self.bug == "read in reply answers" and name == "read":
            return self.do_read(*given[:3])
        if self.state not in ("open", "secured"):
            return self.wait()
        if not right:
            return None
        if self.half and self.half[0] != name and not (self.bug == "halves of either password" and name in ("kill", "access")):
            if self.bug != "a first half stays" or name in ("kill", "access"):
                return self.wait()
        value = None
        if name in ("write", "kill", "access"):
            if self.cover is None and not (self.bug == "write without cover" and name == "write"):
                return None
            value = int(given[-2], 16) ^ (self.cover or 0)
            if self.bug != "cover stays":
                self.cover = None
        if name == "read":
            return self.do_read(*given[:3])
        if name == "write":
            return self.change(given[0], int(given[1]), [value])
        if name == "blockwrite":
            return self.change(given[0], int(given[1]), words_of(given[2]))
        if name == "blockerase":
            return self.change(given[0], int(given[1]), [0] * int(given[2]))
        if name == "lock":
            return self.do_lock(f"{int(given[0], 16):020b}")
        return self.password(name, value)

    def password(self, name: str, value: int) -> str:
        if self.half is None:
            self.half = (name, value)
            return f"plain handle {self.number:04X}"
        kind, first = self.half
        wanted = self.memory["res"][:2] if name == "kill" else self.memory["res"][2:]
        if name == "kill" and wanted == [0, 0] and self.bug != "kill without password":
            self.half = None
            return "extended error 00"
        if value != wanted[1] or first != wanted[0] and self.bug != "any first half":
            return self.wait()
        if name == "kill":
            self.go("killed")
            return "extended header"
        self.state, self.half = "secured", None
        return f"plain handle {self.number:04X}"

    def allowed(self, bank: str, place: int) -> bool:
        field = ("kill" if place < 2 else "access") if bank == "res" else bank
        pair = self.locks[PAIRS[field] : PAIRS[field] + 2]
        if pair == "01" and self.bug == "pair 01 is closed" or pair == "10" and self.bug == "pair 10 is open":
            return pair == "10"
        return pair in ("00", "01") or pair == "10" and self.state == "secured"

    def do_read(self, bank: str, pointer: str, count: str) -> str:
        pointer, count, words = int(pointer), int(count), self.memory[bank]
        if self.bug == "read pointer of 7 bits":
            pointer &= 127
        if count == 0:
            if self.bug == "read of 0 words is an error":
                return "plain error 03"
            last = 2 + (words[1] >> 11) if bank == "epc" and self.bug != "read past the epc's end" else len(words)
            count = (last if pointer < last else len(words)) - pointer
        if count < 1 or pointer + count > len(words):
            return "plain error 03"
        if bank == "res" and self.bug != "read shows locked passwords" and not all(self.allowed(bank, it) for it in range(pointer, pointer + count)):
            return "plain error 04"
        return f"plain words {text_of(words[pointer : pointer + count])}"

    def change(self, bank: str, pointer: int, words: list[int]) -> str:
        old = self.memory[bank]
        end = pointer + len(words)
        new = old[:pointer] + words + old[end:]
        if self.bug == "blockwrite writes a part" and len(words) > 1 and pointer < len(old):
            self.memory[bank] = new[: len(old)]
        if end > len(old) or bank == "epc" and 2 + (new[1] >> 11) > len(old) and self.bug != "pc may pass the bank":
            return "extended error 03"
        if bank == "epc" and pointer == 0 and self.bug != "write of stored crc":
            return "extended error 04"
        if not all(self.allowed(bank, it) for it in range(pointer, end)) and self.bug != "write passes over locks":
            return "extended error 04"
        self.memory[bank] = new
        if bank == "epc" and self.bug == "stored crc follows writes":
            self.power()
        return "extended header"

    def do_lock(self, bits: str) -> str:
        mask, action = bits[:10], bits[10:]
        if self.state == "open" and self.bug != "lock works in open":
            return None
        if not self.memory["user"] and "1" in mask[8:] and self.bug != "lock of no user bank":
            return "extended error 03"
        new = list(self.locks)
        for at in range(0, 10, 2):
            closed = self.locks[at + 1] == "1"
            if closed and mask[at + 1] == "1" and action[at + 1] == "0" and self.bug != "permalock comes off":
                return "extended error 04"
            for bit in (at, at + 1):
                if mask[bit] == "1" and (not closed or self.bug == "permalock comes off" or self.bug == "write bit changes under a permalock" and bit == at):
                    new[bit] = action[bit]
        self.locks = "".join(new)
        return "extended header"

    def befall(self, kind: str, flag: str | None = None) -> None:
        if kind == "timeout":
            left = ["reply", "acknowledged", *(["open"] if self.bug == "timeout in open" else [])]
            if self.state in left and not (self.bug == "timeout does nothing in acknowledged" and self.state == "acknowledged"):
                self.wait()
        elif kind == "off" and self.state not in ("killed", "off"):
            self.go("off")
            if self.bug != "power keeps s0":
                self.flag["s0"] = "a"
            if self.bug == "power takes s2":
                self.flag["s2"] = "a"
        elif kind == "on" and self.state == "off":
            self.go("ready")
            if self.bug != "stored crc never follows":
                self.power()
        elif kind == "expire":
            if flag == "s1" and self.state in ("ready", "off") and self.bug != "expire ignores s1":
                self.flag["s1"] = "a"
            elif flag == "s2" and self.bug == "expire takes s2 with power":
                self.flag["s2"] = "a"
            elif self.state == "off" and flag != "s1":
                if flag != "sl":
                    self.flag[flag] = "a"
                elif self.bug != "expire leaves sl":
                    self.flag["sl"] = False


ACCESS = ("read", "write", "kill", "lock", "access", "blockwrite", "blockerase")


def command_of(bits: str) -> str | None:
    """Gives the command that bits spell, of those that the vectors and walks have."""
    if bits == "11000000":
        return "nak"
    if len(bits) == 4 and bits[:2] == "00":
        return f"queryrep {int(bits[2:], 2)}"
    return f"ack {int(bits[2:], 2):04X}" if len(bits) == 18 and bits[:2] == "01" else None


def answers(lines: list[str], bug: str | None = None) -> Iterator[str]:
    """Gives the answers to the lines from `probe 1` to `end`, one after another."""
    tag = SmallTag(lines[1], bug)
    for number, line in enumerate(lines[2:-1], 3):
        name, _, rest = line.partition(" ")
        if name == "event":
            tag.befall(*rest.split(" "))
            continue
        command = command_of(rest) if name == "bits" else line
        yield f"answer {number} {command and tag.hear(command) or '-'}"


if __name__ == "__main__":
    text = []
    for line in sys.stdin:
        text.append(line.rstrip("\n"))
        if text[-1] == "end":
            print("\n".join([*answers(text, sys.argv[1] if len(sys.argv) > 1 else None), "done"]), flush=True)
            text = []
