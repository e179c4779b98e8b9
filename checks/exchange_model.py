"""What `run exchanges` and `run vcd` have to write for a scenario, from its trace and from single tags at the bench.

Nothing here reads what these two words write. The commands and the replies are those that `decode` reads of the intervals and the levels of `run
trace`; what each tag answers is what it answers under `probe`, when it hears the commands that it didn't miss and the events that befell it;
what the channel gave is said by the scenario.
"""

from __future__ import annotations

import subprocess
from typing import Iterator

HEAD = """$comment intervals and levels as played; the gaps between them are drawn $end
$timescale 1 ns $end
$scope module gen2 $end
$var wire 1 r reader $end
$var wire 1 t tag $end
$var real 64 e exchange $end
$var real 64 n replies $end
$var string 1 c command $end
$var string 1 g reply $end
$upscope $end
$enddefinitions $end
#0
$dumpvars
1r
zt
r0 e
r0 n
s- c
s- g
$end
"""


def run(program: str, words: list[str], text: str) -> list[str]:
    """Gives the lines that the program writes."""
    ran = subprocess.run([program, *words], input=text.encode(), stdout=subprocess.PIPE, check=True)
    return ran.stdout.decode().splitlines()


def copies_of(fields: list[str]) -> Iterator[list[str]]:
    """Gives the tag lines of a line `copies`."""
    count, kill, access, locks, epc, tid, user, words = fields
    length = 1 + (int(epc[:4], 16) >> 11)

    def raised(text: str, at: int, by: int) -> str:
        return text[: 4 * at] + f"{(int(text[4 * at : 4 * at + 4], 16) + by) % 65536:04X}" + text[4 * at + 4 :]

    for by in range(int(count)):
        drawn = "".join(f"{(int(words[at : at + 4], 16) + by) % 65536:04X}" for at in range(0, len(words), 4))
        yield ["tag", kill, access, locks, raised(epc, length - 1, by), raised(tid, len(tid) // 4 - 1, by), user, drawn]


class Scenario:
    """What a scenario says, as far as it is wanted here."""

    def __init__(self, text: str) -> None:
        self.tags, self.missed, self.events, self.choices, self.steps, self.capture = [], {}, {}, {}, [], False
        for line in text.splitlines():
            fields = line.split(" ")
            if fields[0] == "link":
                self.rtcal, self.trcal, self.dr = int(fields[2]), int(fields[3]), fields[5] == "1"
            elif fields[0] == "default":
                self.capture = fields[1] == "capture"
            elif fields[0] == "tag":
                self.tags.append(fields)
            elif fields[0] == "copies":
                self.tags += copies_of(fields[1:])
            elif fields[0] == "air":
                exchange = int(fields[1])
                if fields[2] == "miss":
                    self.missed.setdefault(exchange, []).append(int(fields[3]))
                elif fields[2] in ("timeout", "off", "on", "expire"):
                    self.events.setdefault(exchange, []).append(fields[2:])
                else:
                    self.choices[exchange] = fields[2:]
            elif fields[0] in ("select", "nak", "round", "event"):
                self.steps.append(fields)

    def blf(self) -> tuple[int, int]:
        return (64, 3 * self.trcal) if self.dr else (8, self.trcal)


class Exchange:
    def __init__(self, number: int, intervals: list[str], count: int, levels: str) -> None:
        self.number, self.intervals, self.count, self.levels = number, intervals, count, levels
        self.command, self.answers, self.given, self.reply = "", [], "", "-"


def commands_of(program: str, exchanges: list[Exchange]) -> None:
    """Reads the command of each exchange in its intervals."""
    bits = [line.split(" ")[-1] for line in run(program, ["decode"], "".join(f"pie {' '.join(it.intervals)}\n" for it in exchanges))]
    lines = run(program, ["decode"], "".join(f"command {it}\n" for it in bits))
    assert len(lines) == len(exchanges)
    for exchange, line in zip(exchanges, lines):
        exchange.command = line


def happenings(scenario: Scenario, trace: list[str]) -> tuple[list[Exchange], list[tuple[int, list[str]]], list[tuple[int, str]]]:
    """Gives the exchanges, what befell tags between them, as pairs of the number of exchanges before and the event, and the other lines with
    their places."""
    exchanges, between, others, steps = [], [], [], iter(scenario.steps)
    step = next(steps, None)

    def passed() -> None:
        nonlocal step
        while step and step[0] == "event":
            between.append((len(exchanges), step[1:]))
            step = next(steps, None)

    passed()
    for line in trace:
        fields = line.split(" ")
        if fields[0] == "tx":
            intervals = fields[2:]
        elif fields[0] == "rx":
            exchanges.append(Exchange(len(exchanges) + 1, intervals, int(fields[2]), fields[3]))
            if step and step[0] in ("select", "nak"):
                step = next(steps, None)
                passed()
        elif fields[0] != "blf":
            others.append((len(exchanges), line))
            if fields[0] == "round":
                step = next(steps, None)
                passed()
    return exchanges, between, others


def answer(program: str, scenario: Scenario, exchanges: list[Exchange], between: list[tuple[int, list[str]]]) -> None:
    """Lets each tag hear at the bench what it heard in the run."""
    for number, tag in enumerate(scenario.tags):
        lines, asked = ["probe 1", " ".join(tag)], {}
        for exchange in exchanges:
            for count, event in between:
                if count == exchange.number - 1 and event_is_of(event, number):
                    lines.append(event_line(event))
            for event in scenario.events.get(exchange.number, []):
                if event_is_of(event, number):
                    lines.append(event_line(event))
            if number not in scenario.missed.get(exchange.number, []):
                lines.append(exchange.command)
                asked[len(lines)] = exchange
        for line in run(program, ["probe"], "\n".join([*lines, "end"]) + "\n"):
            fields = line.split(" ")
            if fields[0] == "answer" and fields[2] != "-":
                asked[int(fields[1])].answers.append((number, " ".join(fields[2:])))


def event_is_of(event: list[str], number: int) -> bool:
    return int(event[-1]) == number


def event_line(event: list[str]) -> str:
    return " ".join(["event", *event[:-1]])


def give(scenario: Scenario, exchange: Exchange) -> None:
    """Says what the channel gave."""
    choice, answers = scenario.choices.get(exchange.number), exchange.answers
    first = answers[0] if answers else None
    whole, place = None, None
    if choice is None:
        if len(answers) == 1 or answers and scenario.capture:
            whole = first
        elif answers:
            place = 0
    elif choice[0] == "pick":
        whole = answers[int(choice[1])] if int(choice[1]) < len(answers) else None
    elif choice[0] == "break":
        place = int(choice[1]) % len(exchange.levels) if first else None
    if choice and choice[0] == "raw":
        exchange.given, exchange.reply = "raw", "raw"
    elif whole:
        exchange.given, exchange.reply = f"whole {whole[0]}", whole[1].split(" ", 1)[1]
    elif place is not None:
        exchange.given, exchange.reply = f"broken {first[0]} {place}", "broken"
    else:
        exchange.given = "silence"


def played(program: str, text: str) -> tuple[Scenario, list[Exchange], list[tuple[int, str]]]:
    """Gives the scenario of this text, its exchanges, and the other lines of its report."""
    scenario = Scenario(text)
    exchanges, between, others = happenings(scenario, run(program, ["run", "trace"], text))
    commands_of(program, exchanges)
    answer(program, scenario, exchanges, between)
    for exchange in exchanges:
        give(scenario, exchange)
    return scenario, exchanges, others


def said(program: str, text: str) -> str:
    """Gives what `run exchanges` has to write."""
    scenario, exchanges, others = played(program, text)
    lines = []
    for number in range(len(exchanges) + 1):
        if number:
            exchange = exchanges[number - 1]
            lines.append(f"exchange {number} {exchange.command}")
            lines += [f"missed {number} {tag}" for tag in scenario.missed.get(number, [])]
            lines += [f"answer {number} {tag} {reply}" for tag, reply in exchange.answers]
            lines.append(f"given {number} {exchange.given}")
        lines += [line for before, line in others if before == number]
    return "".join(f"{line}\n" for line in lines)


def gaps(scenario: Scenario) -> tuple[int, int, int, int]:
    """Gives T1 to T4 in nanoseconds."""
    numerator, denominator = scenario.blf()
    t2 = 10 * denominator // numerator
    return max(scenario.rtcal, t2), t2, 3 * denominator // numerator, 2 * scenario.rtcal


def times(scenario: Scenario, exchanges: list[Exchange]) -> Iterator[tuple[int, int, int, int]]:
    """Gives for each exchange when its frame begins and ends, when its answer begins and ends, and last when a further frame would begin."""
    numerator, denominator = scenario.blf()
    t1, t2, t3, t4 = gaps(scenario)
    begin = t4
    for exchange in exchanges:
        end = begin + sum(map(int, exchange.intervals))
        heard = end + t1
        if exchange.levels != "-":
            over = heard + len(exchange.levels) * denominator // (2 * numerator)
            after = over + t2
        elif exchange.command.split(" ")[0] in ("select", "nak"):
            over = after = end + t4
        else:
            over = after = max(heard + t3, end + t4)
        yield begin, end, heard, over
        begin = after
    yield begin, begin, begin, begin


def waves(program: str, text: str) -> Iterator[str]:
    """Gives what `run vcd` has to write, piece by piece."""
    yield HEAD
    scenario, exchanges, _ = played(program, text)
    numerator, denominator = scenario.blf()
    now, values = {"r": "1r", "t": "zt", "e": "r0 e", "n": "r0 n", "c": "s- c", "g": "s- g"}, {}

    def put(time: int, signal: str, value: str) -> None:
        values.setdefault(time, {})[signal] = value

    def lines_before(end: int, last: int | None = None) -> Iterator[str]:
        """Takes the values at times before the end, and gives the lines of those that change."""
        for time in sorted(it for it in values if it < end):
            new = values.pop(time)
            changed = [new[signal] for signal in "rtencg" if new.get(signal, now[signal]) != now[signal]]
            now.update(new)
            if changed or time == last:
                yield from (f"{it}\n" for it in (f"#{time}", *changed))

    *at, (last, *_) = times(scenario, exchanges)
    for exchange, (begin, end, heard, over) in zip(exchanges, at):
        yield "".join(lines_before(begin))
        put(begin, "e", f"r{exchange.number} e")
        put(begin, "c", f"s{exchange.command.replace(' ', '_')} c")
        time = begin
        for place, interval in enumerate(exchange.intervals):
            put(time, "r", f"{place % 2}r")
            time += int(interval)
        put(end, "r", "1r")
        put(heard, "n", f"r{exchange.count} n")
        put(over, "n", "r0 n")
        if exchange.levels != "-":
            for place, level in enumerate(exchange.levels):
                put(heard + place * denominator // (2 * numerator), "t", f"{level}t")
            put(over, "t", "zt")
            put(heard, "g", f"s{exchange.reply.replace(' ', '_')} g")
            put(over, "g", "s- g")
    values.setdefault(last, {})
    yield "".join(lines_before(last + 1, last))


def drawn(program: str, text: str) -> str:
    """Gives what `run vcd` has to write."""
    return "".join(waves(program, text))
