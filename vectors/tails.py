"""The lines behind a tried line, by which its answers alone tell what the tag became.

A device shows no state. So behind each tried line stand lines whose answers differ for every other tag that this could be now: in another state,
with another flag, with another number, with a change of its memory that wasn't to be, or without one that was. They are found by search: each time the
lines that tell the most of the other tags that are left apart, for their number; and then each line goes that isn't needed.
"""

from typing import Callable, Dict, List, Optional, Tuple

import model
from model import Tag

FLAGS = model.FLAGS


def others(tag: Tag, before: Tag, line: str) -> List[Tag]:
    """Gives the other tags that this could be, where `line` was done to the tag `before`."""
    found: List[Tag] = []

    def other(change: Callable[[Tag], None]) -> None:
        it = tag.copy()
        change(it)
        if shape(it) != shape(tag):
            found.append(it)

    # one that does nothing at this line
    it = before.copy()
    it.drawn = tag.drawn
    if shape(it) != shape(tag):
        found.append(it)
    # flags: one of them is another
    for flag in FLAGS[:4]:
        other(lambda it: it.flags.update({flag: "B" if it.flags[flag] == "A" else "A"}))
    other(lambda it: it.flags.update(sl=1 - it.flags["sl"]))
    other(lambda it: it.flags.update(before.flags))
    # states: each of them, with the numbers that the tag has or had
    session = next((it.session for it in (tag, before) if it.session is not None), 1)
    q = next((it.q for it in (tag, before) if it.q is not None), 0)
    drawn = tag.words[(tag.drawn - 1) % len(tag.words)]
    number = next((it.number for it in (tag, before) if it.number is not None), drawn)

    def become(state: str, **numbers: Optional[int]) -> Callable[[Tag], None]:
        def change(it: Tag) -> None:
            it.ready()
            it.state = state
            it.__dict__.update(numbers)

        return change

    for state in ("ready", "killed", "off"):
        other(become(state))
    for slot in {0, 1, tag.slot or 0, before.slot or 0, (tag.slot or 0) + 1}:
        other(become("arbitrate", session=session, q=q, slot=slot))
    for state in ("reply", "acknowledged"):
        other(become(state, session=session, q=q, number=number))
    for state in ("open", "secured"):
        for cover in {tag.cover, None, before.cover}:
            for half in {tag.half, None, before.half}:
                other(become(state, session=session, q=q, number=number, cover=cover, half=half))
    if tag.session is not None:
        # (of a tag in a round: its session and Q, and the number that it had)
        other(lambda it: it.__dict__.update(session=(tag.session + 1) % 4))
        other(lambda it: it.__dict__.update(session=before.session if before.session is not None else tag.session))
        for value in (tag.q + 1, tag.q - 1, before.q if before.q is not None else tag.q):
            if 0 <= value <= 15:
                other(lambda it: it.__dict__.update(q=value))
    if tag.number is not None:
        other(lambda it: it.__dict__.update(number=before.number if before.number is not None else tag.number))
    # memory: without the change, or with one that wasn't to be
    other(lambda it: it.__dict__.update(banks=dict(before.banks)))
    other(lambda it: it.__dict__.update(locks=before.locks))
    other(lambda it: it.__dict__.update(changed(before, line)))
    return found


def changed(before: Tag, line: str) -> Dict[str, object]:
    """Gives the memory of a tag that does what a line asks of it in every state and with every lock."""
    it = before.copy()
    name, *fields = line.split(" ")
    if name in ("write", "blockwrite", "blockerase", "lock"):
        given = model.parsed(name, fields)
        it.state, it.half, locks = "secured", None, it.locks
        it.locks = "0" * 10
        if name == "lock":
            payload = f"{given[0]:020b}"
            return {"locks": "".join(payload[10 + at] if payload[at] == "1" else locks[at] for at in range(10))}
        bank, pointer = given[0], given[1]
        words = [given[2] ^ (it.cover or 0)] if name == "write" else given[2] if name == "blockwrite" else [0] * given[2]
        old = it.banks[bank]
        words = words[: max(len(old) - pointer, 0)]
        it.banks[bank] = old[:pointer] + words + old[pointer + len(words) :]
    return {"banks": it.banks}


def singulated(tag: Tag) -> Tuple[List[str], Tag]:
    """Gives the lines that take a tag to open or secured, and the tag there. It may be there already."""
    lines: List[str] = []
    it = tag.copy()

    def do(line: str) -> None:
        lines.append(line)
        model.done(it, line)

    if it.state == "off":
        do("event on")
    if it.state == "killed":
        return lines, it
    if it.state == "acknowledged":
        do(f"req_rn {it.number:04X}")
    elif it.state not in ("open", "secured"):
        if it.state != "reply":
            do(f"query 1 fm0 0 00 {it.session or 0} {it.flags[f's{it.session or 0}'].lower()} 0")
        do(f"ack {it.number:04X}")
        do(f"req_rn {it.number:04X}")
    return lines, it


def candidates(tag: Tag) -> List[List[str]]:
    """Gives what may come next: lines, each with what it needs before it."""
    session = 1 if tag.session is None else tag.session
    number = f"{tag.words[(tag.drawn - 1) % len(tag.words)] if tag.number is None else tag.number:04X}"
    found = [["nak"], [f"ack {number}"], [f"req_rn {number}"], [f"read user 0 1 {number}"], [f"queryrep {session}"]]
    found += [[f"queryrep {(session + 1) % 4}"], *([f"queryadjust {session} {it}"] for it in ("same", "down", "up"))]
    if tag.state == "arbitrate" and 1 < tag.slot < 5:
        found.append([f"queryrep {session}"] * tag.slot)
    found += [["event on"]] if tag.state in ("off", "killed") else []
    for of in range(4):
        flag = tag.flags[f"s{of}"].lower()
        # (a Query of its session may invert its flag first)
        for target in (flag, "b" if flag == "a" else "a")[: 2 if of == session else 1]:
            found += [[f"query 1 fm0 0 {sel} {of} {target} 0"] for sel in ("11" if tag.flags["sl"] else "10", "00")]
    lines, there = singulated(tag)
    if there.number is None:
        return found
    handle = f"{there.number:04X}"
    for bank, pointer, count in (("user", 0, 0), ("epc", 0, 0), ("tid", 0, 0), ("res", 0, 2), ("res", 2, 2)):
        found.append([*lines, f"read {bank} {pointer} {count} {handle}"])
    for bank, pointer in (("user", 0), ("tid", 1), ("epc", 2), ("res", 0), ("res", 2)):
        found.append([*lines, f"blockwrite {bank} {pointer} {'5AA5' * (2 if bank == 'res' else 1)} {handle}"])
    found.append([*lines, f"lock 00000 {handle}"])
    covered = there.copy()
    model.done(covered, f"req_rn {handle}")
    for kind in ("kill", "access"):
        upper, lower = divmod(there.password(kind), 1 << 16)
        half = lower if there.half else upper
        found.append([*lines, f"req_rn {handle}", f"{kind} {half ^ (covered.cover or 0):04X} {handle}"])
        if there.cover is not None:
            found.append([*lines, f"{kind} {half ^ there.cover:04X} {handle}"])
    return found


def answers(tag: Tag, lines: List[str]) -> List[str]:
    return [it for line in lines for it in model.done(tag, line)]


def told_apart(tag: Tag, them: List[Tag], lines: List[str]) -> Tuple[int, ...]:
    """Gives which of the other tags answer these lines otherwise."""
    wanted = answers(tag.copy(), lines)
    return tuple(at for at, it in enumerate(them) if answers(it.copy(), lines) != wanted)


KNOWN: Dict[Tuple[object, ...], List[str]] = {}


def tail(tag: Tag, before: Tag, line: str) -> List[str]:
    """Gives the lines behind `line`, which was done to `before` and made `tag` of it."""
    every = others(tag, before, line)
    key = (shape(tag), frozenset(map(shape, every)))
    if key not in KNOWN:
        KNOWN[key] = found(tag, every)
    return KNOWN[key]


def shape(tag: Tag) -> Tuple[object, ...]:
    """Gives all that a tag's answers come of."""
    numbers = (tag.state, tag.session, tag.q, tag.slot, tag.number, tag.cover, tag.half, tag.locks, tag.drawn % len(tag.words), tuple(tag.words))
    return (*numbers, *tag.flags.values(), *map(tuple, tag.banks.values()))


def found(tag: Tag, every: List[Tag]) -> List[str]:
    lines: List[str] = []
    it, left = tag.copy(), [other.copy() for other in every]
    while left:
        # (least is what is lost for good: tags that become the same and were not told apart)
        best: Tuple[float, float, List[str], Tag, List[Tag]] = (len(left) + 1, 0, [], it, [])
        for more in candidates(it):
            end = it.copy()
            wanted, same, lost = answers(end, more), [], 0
            for other in left:
                then = other.copy()
                if answers(then, more) == wanted:
                    same.append(then)
            apart = (len(left) - len(same)) / len(more)
            if apart:
                lost = sum(shape(then) == shape(end) for then in same)
                if (lost, -apart) < best[:2]:
                    best = lost, -apart, more, end, same
        if not best[2]:
            break
        lines, it, left = lines + best[2], best[3], best[4]
    # a line goes where the others tell as many apart without it
    whole = told_apart(tag, every, lines)
    for at in reversed(range(len(lines))):
        fewer = lines[:at] + lines[at + 1 :]
        if told_apart(tag, every, fewer) == whole:
            lines = fewer
    return lines
