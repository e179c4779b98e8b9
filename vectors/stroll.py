"""Lines by chance that lead a tag through all its states, for walks and run. The numbers that a tag has at each line are taken from model.py."""

import random
from typing import Iterator, List, Tuple

import model

BANKS = ("res", "epc", "tid", "user")


def words(chance: random.Random, count: int) -> str:
    return "".join(f"{chance.getrandbits(16):04X}" for _ in range(count)) or "-"


def tag_line(chance: random.Random) -> str:
    """Makes a tag by chance. Small numbers, and equal ones, are likelier than by a fair chance: they are where bugs are."""
    password = lambda: chance.choice(["00000000", "00000001", "00010000", words(chance, 2), words(chance, 2)])
    locks = "".join(chance.choice(["00", "00", "01", "10", "10", "11"]) for _ in range(5))
    bank = chance.choice([1, 2, 6, 6, 12, 32])
    length = chance.choice([bank, bank, min(bank, 31), chance.randint(0, min(bank, 31))]) if bank < 32 else 31
    epc = f"{length << 11 | chance.getrandbits(11):04X}{words(chance, bank) if bank < 32 else words(chance, 31)}"
    user = words(chance, chance.choice([0, 0, 1, 2, 2, 4, 140]))
    draws = "".join(chance.choice(["0000", "0001", "4000", "8000", words(chance, 1), words(chance, 1), words(chance, 1)]) for _ in range(chance.randint(5, 40)))
    kill, access = password(), password()
    # (the same upper half, now and then, so that halves of two passwords may be taken for one)
    access = kill[:4] + access[4:] if chance.random() < 0.3 else access
    return f"tag {kill} {access} {locks} {epc} {words(chance, chance.choice([2, 2, 6]))} {user} {draws}"


def mask(chance: random.Random, tag: model.Tag) -> Tuple[str, int, str]:
    """Gives a part of a bank, most times as it is there, and now and then past its end."""
    bank = chance.choice(["epc", *BANKS[1:]])
    bits = model.bits_of(tag.banks[bank])
    pointer = chance.choice([0, 0, 16, 32, len(bits), chance.randint(0, len(bits)), max(0, len(bits) - 8)])
    length = chance.choice([0, 1, 4, 8, 16, 40])
    found = bits[pointer : pointer + length]
    if found and chance.random() < 0.3:
        at = chance.choice([len(found) - 1, chance.randrange(len(found))])
        found = found[:at] + "10"[int(found[at])] + found[at + 1 :]
    if chance.random() < 0.05:
        found += "0"
    return bank, pointer, found or "-"


def next_line(chance: random.Random, tag: model.Tag) -> str:
    """Gives a line that a tag hears next, or what befalls it."""
    session = chance.choice([tag.session] * 4 + [0, 1, 2, 3]) if tag.session is not None else chance.randrange(4)
    held = tag.number if tag.number is not None else chance.getrandbits(16)
    right = f"{held:04X}" if chance.random() < 0.93 else f"{held ^ 1 << chance.randrange(16):04X}"
    cover = tag.cover or 0
    bank = chance.choice(BANKS)
    size = len(tag.banks[bank])
    pointer = chance.choice([0, 1, 2, max(0, size - 1), size, chance.randint(0, size)])
    count = chance.choice([0, 1, 1, 2, max(0, size - pointer), 4])
    if tag.state == "off":
        return chance.choice(["event on"] * 3 + ["event timeout", f"event expire {chance.choice(['s1', 's2', 's3', 'sl'])}", "nak", f"query 1 fm0 0 00 {session} a 0"])
    inventory = [f"queryrep {session}", f"queryadjust {session} {chance.choice(['up', 'same', 'down'])}", "nak", f"ack {right}"]
    asked = tag.flags[f"s{session}"].lower() if chance.random() < 0.8 else chance.choice("ab")
    sel = chance.choice(["00", "00", "01", "11" if tag.flags["sl"] else "10", "10", "11"])
    code, trext = chance.choice(["fm0", "m2", "m4", "m8"]), chance.randrange(2)
    query = f"query {chance.randrange(2)} {code} {trext} {sel} {session} {asked} {chance.choice([0, 0, 0, 1, 2, 14, 15])}"
    part = mask(chance, tag)
    select = f"select {chance.choice(['s0', 's1', 's2', 's3', 'sl', 'sl'])} {chance.randrange(8)} {part[0]} {part[1]} {part[2]}"
    event = chance.choice(["event timeout", "event off", *(f"event expire {it}" for it in ("s1", "s2", "s3", "sl"))])
    by_state = {
        "ready": [query] * 5 + [select] * 2,
        "arbitrate": [query] * 2 + inventory[:2] * 3,
        "reply": [f"ack {held:04X}"] * 8,
        "acknowledged": [f"req_rn {held:04X}"] * 8 + inventory,
    }
    half = lambda kind: (tag.password(kind) >> (0 if tag.half else 16) & 0xFFFF) ^ cover
    spoiled = lambda it: it if chance.random() < 0.9 else it ^ 1
    payload = chance.getrandbits(20) & (chance.getrandbits(20) | 0x3FF if chance.random() < 0.7 else 0xFFFFF)
    access = [
        f"read {bank} {pointer} {count} {right}",
        f"req_rn {right}",
        f"read epc {chance.choice([0, 0, 1, 2])} {chance.choice([0, 1])} {right}",
        f"write epc 2 {chance.getrandbits(16):04X} {right}",
        f"write {bank} {pointer} {chance.getrandbits(16):04X} {right}",
        f"write epc 1 {cover ^ chance.choice([0x0800, 0x1000, 0x2800, 0x3000, 0xF800]):04X} {right}",
        f"blockwrite {bank} {pointer} {words(chance, max(1, count))} {right}",
        f"blockerase {bank} {pointer} {max(1, count)} {right}",
        f"lock {payload:05X} {right}",
        f"ack {right}",
    ]
    other = {"kill": "access", "access": "kill"}
    kind = tag.half[0] if tag.half else "kill" if tag.password("kill") == 0 else chance.choice(["access", "access", "access", "access", "kill"])
    give = f"{kind} {spoiled(half(kind)):04X} {right}"
    if tag.half and chance.random() < 0.1:
        give = f"{other[kind]} {half(other[kind]):04X} {right}"
    secret = [give] * 8 if tag.cover is not None else [f"req_rn {held:04X}"] * 6
    common = [query, select, event, event, *inventory, *access[:2], f"bits {chance.choice(['11000000', f'00{session:02b}', f'01{held:016b}', '1100000', '-'])}"]
    chosen = by_state.get(tag.state, [*access * 2, *secret])
    return chance.choice(chosen * 2 + (common if tag.state in by_state else common[:7]))


def walk(seed: int, at: int, lines: int) -> List[str]:
    """Gives the lines of a walk, from `probe 1` to `end`."""
    chance = random.Random(f"{seed} {at}")
    first = tag_line(chance)
    tag, given = model.Tag(first), []
    while len(given) < lines and tag.state != "killed":
        line = next_line(chance, tag)
        given.append(line)
        model.done(tag, line)
    if tag.state == "killed":
        for line in ("query 1 fm0 0 00 1 a 0", "event off", "event on", "query 1 fm0 0 00 0 a 0"):
            given.append(line)
    return ["probe 1", first, *given, "end"]


def walks(seed: int, count: int, lines: int = 120) -> Iterator[Tuple[str, List[str]]]:
    """Gives walks, each with its name."""
    for at in range(1, count + 1):
        yield f"walk-{seed}-{at}", walk(seed, at, lines)
