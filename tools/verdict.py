"""Explains a verdict: of audit what the tags and the channel of a scenario account for, beside what stands in the line of the trace; of judge what the
tag of a log has to answer, beside what stands there.

The tags of a scenario are asked one by one under `probe`, with the commands of the trace that they don't miss, and what the channel gives is reckoned by the air lines
(docs/FORMATS.md, 'Audited traces'). It is a helper and not proved: `audit` and `judge` alone decide.
"""

from __future__ import annotations

import subprocess
from typing import Dict, Iterator, List, NamedTuple, Optional, Tuple

# How many commands the tags are asked again at most, in all: some ten seconds.
MOST_ASKED = 2_000_000
TAG_FIELDS = ("tag", "the number", "the state", "the flags S0 to S3 and SL", "the locks", "Reserved", "the EPC bank", "the TID", "the User bank")


class Answer(NamedTuple):
    tag: int
    extended: bool
    reply: str
    handle: str


def run(program: str, word: str, lines: List[str]) -> List[str]:
    ran = subprocess.run([program, word], input="".join(f"{it}\n" for it in lines), stdout=subprocess.PIPE, encoding="utf-8")
    return ran.stdout.splitlines()


def raised(text: str, at: int, by: int) -> str:
    return text[: 4 * at] + f"{(int(text[4 * at : 4 * at + 4], 16) + by) % 65536:04X}" + text[4 * at + 4 :]


def tags_of(lines: List[str]) -> Iterator[str]:
    """Gives the tag line of each tag, those of a line `copies` too."""
    for line in lines:
        fields = line.split(" ")
        if fields[0] == "tag":
            yield line
        elif fields[0] == "copies":
            _, count, kill, access, locks, epc, tid, user, words = fields
            for by in range(int(count)):
                drawn = "".join(f"{(int(words[at : at + 4], 16) + by) % 65536:04X}" for at in range(0, len(words), 4))
                yield f"tag {kill} {access} {locks} {raised(epc, int(epc[:4], 16) >> 11, by)} {raised(tid, len(tid) // 4 - 1, by)} {user} {drawn}"


class World:
    """The tags and the channel of a scenario, and the exchanges of a trace."""

    def __init__(self, program: str, scenario: List[str], trace: List[str]) -> None:
        self.program, self.scenario = program, scenario
        link = next(it for it in scenario if it.startswith("link ")).split(" ")
        self.code, self.trext = link[6], link[7]
        self.air: Dict[int, List[List[str]]] = {}
        for fields in (it.split(" ") for it in scenario if it.startswith("air ")):
            self.air.setdefault(int(fields[1]), []).append(fields[2:])
        frames = [it.split(" ")[2:] for it in trace if it.startswith("tx ")]
        bits = [it.split(" ")[-1] for it in run(program, "decode", [f"pie {' '.join(it)}" for it in frames])]
        self.commands = run(program, "decode", [f"command {it}" for it in bits])
        self.answers: List[List[Answer]] = [[] for _ in frames]
        self.ends: List[str] = []
        for number, tag in enumerate(tags_of(scenario)):
            self.ask(number, tag)

    def ask(self, number: int, tag: str) -> None:
        """Lets a tag hear what it heard, and keeps what it answers and what it becomes."""
        lines, asked = ["probe 1", tag], {}
        for exchange, command in enumerate(self.commands, 1):
            air = self.air.get(exchange, [])
            lines += [f"event {' '.join(it[:-1])}" for it in air if it[0] in ("timeout", "off", "on", "expire") and it[-1] == str(number)]
            if ["miss", str(number)] not in air:
                lines.append(command)
                asked[len(lines)] = exchange
        handle = "0000"
        for line in run(self.program, "probe", [*lines, "end"]):
            fields = line.split(" ", 3)
            if fields[0] == "answer" and fields[2] != "-":
                form, reply = fields[2:]
                exchange = asked[int(fields[1])]
                handle = self.commands[exchange - 1].split(" ")[-1]
                self.answers[exchange - 1].append(Answer(number, form == "extended", reply, handle))
            elif fields[0] == "tag":
                self.ends.append(line.replace("tag 0 ", f"tag {number} ", 1))

    def levels(self, answer: Answer) -> str:
        """Gives the levels that an answer is sent in."""
        kind, _, rest = answer.reply.partition(" ")
        expect = {"words": f"words-{len(rest) // 4}-{answer.handle}", "header": f"header-{answer.handle}", "error": f"header-{answer.handle}"}.get(kind, kind)
        trext = "1" if answer.extended else self.trext
        return run(self.program, "encode", [f"heard {self.code} {trext} {expect} {answer.reply}"])[0].split(" ")[-1]

    def given(self, exchange: int) -> Tuple[str, Optional[Answer]]:
        """Gives the levels that come back in an exchange, and the answer that comes whole or none."""
        answers = self.answers[exchange - 1]
        choice = next((it for it in self.air.get(exchange, []) if it[0] in ("pick", "silent", "break", "raw")), None)
        if choice and choice[0] == "raw":
            return choice[1], None
        if not answers or choice and choice[0] == "silent":
            return "-", None
        if choice and choice[0] == "pick":
            at = int(choice[1])
            return (self.levels(answers[at]), answers[at]) if at < len(answers) else ("-", None)
        if choice is None and (len(answers) == 1 or "default capture" in self.scenario):
            return self.levels(answers[0]), answers[0]
        levels = self.levels(answers[0])
        place = int(choice[1]) % len(levels) if choice else 0
        return levels[:place] + "10"[int(levels[place])] + levels[place + 1 :], None


def replies(answers: List[Answer]) -> str:
    return ", ".join(f"tag {it.tag} {it.reply}" for it in answers) or "no tag"


def first_place(wanted: str, found: str) -> int:
    return next((at for at in range(min(len(wanted), len(found))) if wanted[at] != found[at]), min(len(wanted), len(found)))


def why_levels(world: World, exchange: int, found: str) -> str:
    wanted, whole = world.given(exchange)
    answers = world.answers[exchange - 1]
    said = f"to {world.commands[exchange - 1]} there answers: {replies(answers)}; "
    place = first_place(wanted, found)
    said += f"{len(wanted.strip('-'))} levels come back, here stand {len(found.strip('-'))}, and level {place} is the first that differs"
    answer = whole or (answers[0] if answers else None)
    if answer:
        kind, _, rest = answer.reply.partition(" ")
        expect = {"words": f"words-{len(rest) // 4}-{answer.handle}"}.get(kind, f"header-{answer.handle}" if kind in ("header", "error") else kind)
        trext = "1" if answer.extended else world.trext
        heard = run(world.program, "decode", [f"heard {world.code} {trext} {expect} {found}"])
        if heard and not heard[0].startswith("fault"):
            said += f"; wanted is {answer.reply if whole else 'a broken ' + answer.reply}, here stands {heard[0]}"
    return said


def why_frame(program: str, fields: List[str]) -> str:
    decoded = run(program, "decode", [f"pie {' '.join(fields)}"])[0]
    if decoded.split(" ")[0] not in ("preamble", "sync"):
        return f"decode says of these intervals: {decoded}"
    command = run(program, "decode", [f"command {decoded.split(' ')[-1]}"])[0]
    lead = "a preamble" if command.startswith("query ") else "a frame-sync"
    found = "a preamble" if decoded.startswith("preamble") else "a frame-sync"
    return f"its bits are {command}" + (f", which wants {lead}, and here stands {found}" if lead != found else "")


def why_tag(world: World, at: int, line: str) -> str:
    wanted = [*world.ends, "done"][at] if at <= len(world.ends) else "no more lines"
    fields, found = wanted.split(" "), line.split(" ")
    if len(fields) != len(found) or fields[:2] != found[:2]:
        return f"wanted is: {wanted}"
    differ = [f"{TAG_FIELDS[it]} {fields[it]}, here stands {found[it]}" for it in range(len(fields)) if fields[it] != found[it]]
    return f"tag {fields[1]}: wanted is {'; '.join(differ)}"


def why_list(world: World, commands: List[str], line: str) -> str:
    whole = world.given(len(commands))[1] if commands else None
    if not whole or not whole.reply.startswith("epc ") or not commands[-1].startswith("ack "):
        return "no EPC came whole in reply to an ACK right before, so that no list line may stand here"
    rounds = [at for at, it in enumerate(commands) if it.startswith("query ")]
    slots = sum(it.split(" ")[0] in ("query", "queryrep", "queryadjust") for it in commands[rounds[-1] if rounds else 0 :])
    return f"wanted is: list {len(rounds)} {slots} {whole.reply[4:]}"


def explained(program: str, text: str, number: int, reason: str) -> str:
    """Says what was wanted at a line of the trace behind a scenario."""
    lines = text.split("\n")
    end = lines.index("end") + 1
    scenario, trace = lines[:end], lines[end:]
    if number == 0:
        at = next(at for at, it in enumerate(scenario, 1) if it.startswith("event "))
        return f"line {at} of the file is an event between exchanges, which stands in no line of a trace: an air line says in which exchange it befalls a tag"
    line = trace[number - 1] if number <= len(trace) else ""
    where = f"line {number} of the trace, line {end + number} of the file"
    before = trace[: number - 1]
    fields = line.split(" ")
    exchanges = sum(it.startswith("tx ") for it in before)
    if reason == "end":
        return f"{where}: the trace ends here, without a line feed or before done"
    if reason == "extra":
        return f"{where}: nothing may stand behind done"
    if reason in ("word", "shape", "number"):
        wants = "an rx line" if before and before[-1].startswith("tx ") else "a tx, tag or done line"
        form = {"word": f"{wants} may stand here", "shape": "tx has a number and 1 to 20,000 intervals, rx a number, a count and levels", "number": "a field isn't of its form"}[reason]
        return f"{where}: {form}; here stands {line[:60]}"
    if reason == "exchange":
        return f"{where}: wanted is exchange {exchanges + (fields[0] == 'tx')}, here stands {fields[1]}"
    if reason == "frame":
        return f"{where}: {why_frame(program, fields[2:])}"
    tags = sum(int(it.split(" ")[1]) if it.startswith("copies ") else it.startswith("tag ") for it in scenario)
    if reason in ("count", "levels", "tag", "list") and tags * exchanges > MOST_ASKED:
        return f"{where}: {tags:,} tags and {exchanges:,} exchanges are too many to ask each tag again; here stands {line[:60]}"
    if reason == "blf":
        ran = subprocess.run([program, "run", "trace"], input="\n".join([*scenario, ""]), stdout=subprocess.PIPE, encoding="utf-8")
        return f"{where}: wanted is {ran.stdout.split(chr(10))[0]}, here stands {line[:60]}"
    world = World(program, scenario, before)
    if reason == "count":
        answers = world.answers[exchanges - 1]
        return f"{where}: to {world.commands[exchanges - 1]} there answers: {replies(answers)}; so the count is {len(answers)}, here stands {fields[2]}"
    if reason == "levels":
        return f"{where}: {why_levels(world, exchanges, fields[3])}"
    if reason == "tag":
        return f"{where}: {why_tag(world, sum(it.startswith('tag ') for it in before), line)}"
    if reason == "list":
        return f"{where}: {why_list(world, world.commands, line)}; here stands {line[:60]}"
    return where


def said_of_answer(answer: str) -> str:
    """Gives an answer of a log in words; a number that a tag draws is `*` in it."""
    if answer.startswith("- or "):
        return f"nothing, or {said_of_answer(answer[5:])}"
    return "nothing" if answer == "-" else answer.replace(" *", " with a number that it draws")


def explained_answer(log: List[str], kind: str, number: int, wanted: str) -> str:
    """Says what a tag has to answer at a line of a log, and which liberty another answer takes."""
    sent, seen = log[number - 2], log[number - 1].partition(" ")[2]
    said = f"line {number}: to {sent[:60]} (line {number - 1}) a tag answers {said_of_answer(wanted[:60])}; here stands {said_of_answer(seen[:60])}"
    if kind == "no":
        return said
    return f"{said}; {'it may lack this command' if seen == '-' else 'the code of an error is left to its maker'}"
