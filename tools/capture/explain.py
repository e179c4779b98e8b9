"""Explains a recording: finds frames and replies, asks `decode` what they are, and prints a line for each frame."""

from __future__ import annotations

import argparse
import json
import os
import sys
from dataclasses import dataclass, field

from awaited import awaited

from . import codes, frames, logic, reading, replies
from .program import Program
from .reading import Trouble
from .waves import Analogue, Logic, Waves
from .words import explaining

# Replies of so many samples are followed side by side.
AT_A_TIME = 1 << 20


@dataclass
class Exchange:
    """A frame and what came back."""

    frame: frames.Frame
    pie: str
    lead: str = ""
    lengths: list[int] = field(default_factory=list)
    bits: str = ""
    command: str = ""
    expect: str = ""
    trext: str = ""
    asked: replies.Link | None = None
    heard: replies.Heard | None = None
    line: str = ""
    reply: str = ""
    why: str = ""
    echoed: bool | None = None


class Terminal:
    """Says on a terminal how far the work is."""

    def __init__(self) -> None:
        self.is_terminal, self.shown = sys.stderr.isatty(), ""

    def __call__(self, what: str, part: float) -> None:
        text = f"{what}: {100 * part:3.0f} %"
        if self.is_terminal and text != self.shown:
            self.shown = text
            print(f"\r\033[K{text}", end="", file=sys.stderr, flush=True)

    def clear(self) -> None:
        if self.is_terminal and self.shown:
            print("\r\033[K", end="", file=sys.stderr, flush=True)


def explained(waves: Waves, program: Program, link: replies.Link | None, progress: Terminal) -> tuple[list[Exchange], list[frames.Stray]]:
    """Gives the exchanges of a recording, and the lows that belong to no frame."""
    found, strays = frames.split(waves.lows(progress))
    frames.put_back(found, 1e9 / waves.rate)
    exchanges = [Exchange(it, "pie " + " ".join(map(str, it.intervals))) for it in found]
    read_frames(exchanges, program)
    await_replies(exchanges, link)
    listen(exchanges, waves, progress)
    heard = [it for it in exchanges if it.heard]
    for exchange, reply in zip(heard, program.decode([it.line for it in heard])):
        exchange.reply = reply
    look_for_echoes(exchanges)
    return exchanges, strays


def await_replies(exchanges: list[Exchange], link: replies.Link | None) -> None:
    """Gives each exchange what is awaited behind it, or why nothing is. `link` is what a Query before the first one said, where that is known."""
    kills = 0
    for exchange in exchanges:
        words = exchange.command.split(" ")
        if words[0] == "query" and exchange.lead == "preamble":
            divide = 64 / 3 if words[1] == "1" else 8
            link = replies.Link(divide * 1e9 / exchange.lengths[2], words[2], words[3])
        exchange.asked = link
        kills = 0 if words[0] == "ack" else kills + (words[0] == "kill")
        exchange.why = why_no_answer(exchange)
        if not exchange.why:
            exchange.expect, exchange.trext = awaited(exchange.command, link.trext, kills)


def listen(exchanges: list[Exchange], waves: Waves, progress: Terminal) -> None:
    """Gives each exchange behind which a reply is awaited what came back, or why nothing did."""
    begun: list[tuple[Exchange, replies.Begun]] = []
    samples = 0
    for number, exchange in enumerate(exchanges):
        progress("listening for replies", number / len(exchanges))
        if exchange.why:
            continue
        until = exchanges[number + 1].frame.begin if number + 1 < len(exchanges) else waves.end
        answer = replies.listen(waves, exchange.asked, exchange.expect, exchange.trext, exchange.lengths[1], exchange.frame.end, until)
        if isinstance(answer, str):
            exchange.why = answer
            continue
        begun.append((exchange, answer))
        samples += len(answer.wave)
        if samples > AT_A_TIME:
            hear(begun)
            begun, samples = [], 0
    hear(begun)


def hear(begun: list[tuple[Exchange, replies.Begun]]) -> None:
    """Gives exchanges what came back in them."""
    for (exchange, it), answer in zip(begun, replies.heard([it for _, it in begun])):
        if isinstance(answer, str):
            exchange.why = answer
        else:
            exchange.heard = answer
            exchange.line = f"heard {it.code} {it.trext} {exchange.expect} {codes.text_of(answer.stream.printed)}"


def read_frames(exchanges: list[Exchange], program: Program) -> None:
    """Gives each exchange its command."""
    for exchange, answer in zip(exchanges, program.decode([it.pie for it in exchanges])):
        kind, *fields = answer.split(" ")
        if kind in ("sync", "preamble"):
            exchange.lead, exchange.lengths, exchange.bits = kind, list(map(int, fields[:-1])), fields[-1]
        else:
            exchange.command = f"frame {answer}"
    read = [it for it in exchanges if it.lead]
    for exchange, command in zip(read, program.decode([f"command {it.bits}" for it in read])):
        exchange.command = command


def why_no_answer(exchange: Exchange) -> str:
    """Says why no answer is awaited, or nothing where one is."""
    kind = exchange.command.split(" ")[0]
    if not exchange.lead:
        return "no frame, so no answer is awaited"
    if kind in ("refused", "short"):
        return "no command, so no answer is awaited"
    if kind in ("select", "nak"):
        return "no answer is awaited"
    if kind == "query" and exchange.lead == "sync":
        return "a Query behind a frame-sync, so no answer is awaited"
    if exchange.asked is None:
        return "no Query stands before it, so the BLF isn't known: --link says it"
    return ""


def look_for_echoes(exchanges: list[Exchange]) -> None:
    """Looks for each RN16, which has no check number, whether the next frame is an ACK that echoes it."""
    for number, exchange in enumerate(exchanges):
        if exchange.reply.startswith("rn16 "):
            behind = exchanges[number + 1].command if number + 1 < len(exchanges) else ""
            exchange.echoed = behind == f"ack {exchange.reply.split(' ')[1]}"


def reply_text(exchange: Exchange) -> str:
    """Gives the reply, or why there is none."""
    if not exchange.heard:
        return exchange.why
    if exchange.echoed is False:
        return f"{exchange.reply}, which no ACK behind it echoes, and it has no check number"
    broken = exchange.heard.stream.broken
    if exchange.reply.startswith("refused") and len(broken):
        return f"{exchange.reply}: {len(broken)} broken, at {', '.join(map(str, broken[:5]))}{', ..' if len(broken) > 5 else ''}"
    return exchange.reply


def details(exchange: Exchange) -> list[str]:
    """Gives what else a line says."""
    parts = []
    if exchange.heard:
        stream, asked = exchange.heard.stream, exchange.asked
        parts.append(f"BLF {exchange.heard.blf / 1000:.1f} kHz {100 * (exchange.heard.blf / asked.blf - 1):+.1f} %")
        parts.append(f"spread {100 * stream.spread:.0f} %")
        parts.append(f"{len(stream.against)} of {len(stream.levels)} levels against their integral")
    parts.append(f"moved {exchange.frame.moved / 1000:.3f} us")
    return parts + exchange.frame.remarks


def line_of(exchange: Exchange) -> str:
    return f"{exchange.frame.begin / 1e6:.3f} ms {exchange.command} -> {reply_text(exchange)} ({', '.join(details(exchange))})"


def object_of(exchange: Exchange) -> dict:
    """Gives what is known of an exchange, for --json. Times are in nanoseconds, the BLF in hertz; the spread is a part of the way from low to high."""
    heard = exchange.heard
    told = {
        "begin": round(exchange.frame.begin),
        "bits": exchange.bits or None,
        "command": exchange.command,
        "lead": exchange.lead or None,
        "lengths": exchange.lengths,
        "moved": round(exchange.frame.moved),
        "pie": exchange.pie,
        "remarks": exchange.frame.remarks,
        "reply": exchange.reply or None,
        "why": exchange.why or None,
    }
    if heard:
        told["heard"] = {
            "against": heard.stream.against.tolist(),
            "awaited": exchange.expect,
            "begin": round(heard.begin),
            "blf": round(heard.blf),
            "broken": heard.stream.broken.tolist(),
            "echoed": exchange.echoed,
            "line": exchange.line,
            "spread": round(heard.stream.spread, 4),
        }
    return told


def stray_line(stray: frames.Stray) -> str:
    return f"{stray.begin / 1e6:.3f} ms {stray.count} {'low begins' if stray.count == 1 else 'lows begin'} no frame: {stray.why}"


def printed(exchanges: list[Exchange], strays: list[frames.Stray], form: str) -> list[str]:
    """Gives the lines in the order of their times."""
    lines: list[tuple[float, str]] = []
    for it in exchanges:
        if form == "lines":
            lines.append((it.frame.begin, "\n".join([it.pie] + ([it.line] if it.line else []))))
        else:
            lines.append((it.frame.begin, json.dumps(object_of(it), sort_keys=True) if form == "json" else line_of(it)))
    for stray in strays:
        if form == "json":
            lines.append((stray.begin, json.dumps({"begin": round(stray.begin), "lows": stray.count, "why": stray.why}, sort_keys=True)))
        elif form == "text":
            lines.append((stray.begin, stray_line(stray)))
    return [text for _, text in sorted(lines, key=lambda it: it[0])]


def link_of(asked: list[str] | None) -> replies.Link | None:
    if asked is None:
        return None
    try:
        blf = float(asked[0])
    except ValueError:
        blf = 0.0
    if not blf > 0 or asked[1] not in codes.CODES or asked[2] not in ("0", "1"):
        raise Trouble(f"--link {' '.join(asked)}: it has a frequency in hertz, one of {', '.join(codes.CODES)}, and 0 or 1")
    return replies.Link(blf, asked[1], asked[2])


def waves_of(asked: argparse.Namespace) -> Waves:
    if asked.rate is not None and not asked.rate > 0:
        raise Trouble(f"--rate {asked.rate:g}: there are more than 0 samples a second")
    if asked.format is None and asked.file.endswith(logic.ENDINGS):
        return Logic(logic.capture_of(asked.file, asked.rate, asked.reader, asked.tag))
    return Analogue(reading.samples_of(asked.file, asked.format, asked.rate))


def main() -> int:
    asked = explaining().parse_args()
    progress = Terminal()
    try:
        waves = waves_of(asked)
        exchanges, strays = explained(waves, Program(os.path.realpath(asked.program)), link_of(asked.link), progress)
    except Trouble as trouble:
        progress.clear()
        print(f"explain_capture: {trouble}", file=sys.stderr)
        return 1
    except OSError as error:
        progress.clear()
        print(f"explain_capture: {error.filename or asked.file} can't be read: {error.strerror}", file=sys.stderr)
        return 1
    progress.clear()
    for note in waves.notes:
        print(f"explain_capture: {note}", file=sys.stderr)
    try:
        for line in printed(exchanges, strays, asked.form):
            print(line)
        sys.stdout.flush()
    except BrokenPipeError:
        os.dup2(os.open(os.devnull, os.O_WRONLY), sys.stdout.fileno())
        return 0
    replied = sum(1 for it in exchanges if it.heard and not it.reply.startswith("refused"))
    refused = sum(1 for it in exchanges if it.heard) - replied
    print(f"explain_capture: {len(exchanges)} frames, {replied} replies, {refused} refused, in {waves.end / 1e6:.3f} ms at {waves.rate:g} samples a second", file=sys.stderr)
    return 0
