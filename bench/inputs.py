#!/usr/bin/env python3
"""Writes an input of one kind: inputs.py KIND SIZE > FILE. It has at most SIZE bytes; of the kinds `run`, `slots`, `few`, `empty` and `full`, SIZE rounds;
of the kinds `operations` and `banks`, SIZE operations; of `many`, `floating` and `portals`, SIZE rounds of the most tags that version 2 has.

Of decode lines each line is as long as a line may be (or a whole reply), and each stream, reply and sample group is a
good one, so that the decoder goes over all of it. `scenario` is a scenario without steps, with as many tags of full banks as
fit, and `long` one whose first tag line is as long as fits, so that its last field is refused. `run` is a scenario that is
played: 256 tags, and rounds in each of which every tag is listed; `slots` rounds with Q 15 that come to
their limit of 70,000 slots, `few` such rounds of two tags that collide in the first slot of each frame, and `empty` rounds of 32,768 slots in which
nobody answers; `full` rounds of 256 tags of full banks. `operations` is one round of `run`, with operations on each tag, and `banks` a round of 16 tags
with operations that read a User bank of 512 words and write it, in Miller 8. `raw` is a
scenario of raw streams, each of the longest reply, a Read's of 512 words in Miller 8 with a pilot; it is played, and each comes in place
of a tag's reply. `names` is list lines, each of an SGTIN-96. `encode-KIND` is lines
of that kind for `encode`, as long as they may be, whose output has at most SIZE bytes. `probe` is SIZE lines for one tag: rounds of commands
that it answers.
"""

from __future__ import annotations

import os
import random
import sys

sys.path.append(f"{os.path.dirname(os.path.dirname(os.path.abspath(__file__)))}/examples")
from levels import crc16, fm0_lead, levels_of  # noqa: E402  (it stands in examples)


def reply(words: list[int], handle: int) -> str:
    """The bits of the reply to a Read."""
    bits = "0" + "".join(f"{word:016b}" for word in [*words, handle])
    return f"{bits}{crc16(bits):016b}"


def line(kind: str, rng: random.Random) -> str:
    def some_bits(count: int) -> str:
        return "".join(str(rng.randrange(2)) for _ in range(count))

    if kind == "fm0":
        return "fm0 0 " + levels_of("fm0", "0", some_bits(65_900))
    if kind in ("m2", "m4", "m8"):
        return f"{kind} 0 " + levels_of(kind, "0", some_bits(132_000 // (2 * int(kind[1])) - 20))
    if kind == "samples":
        groups = ["FFFFFFFF" if bit == "1" else "00000000" for bit in some_bits(33_000)]
        return "samples 128 4 " + "".join(groups)
    if kind == "reply":
        return "reply any-A1B2 " + reply([rng.randrange(65_536) for _ in range(512)], 0xA1B2)
    if kind == "heard":
        return "heard m4 0 any-A1B2 " + levels_of("m4", "0", reply([rng.randrange(65_536) for _ in range(512)], 0xA1B2))
    if kind == "pie":
        return "pie 12500 6250 6250 25000 6250" + "".join(
            " 12500 6250" if bit == "1" else " 6250 6250" for bit in some_bits(9_990)
        )
    if kind == "command":
        bits = f"{0b11000001:08b}{0xA1B2:016b}"
        return f"command {bits}{crc16(bits):016b}"
    if kind == "sgtin":
        return f"sgtin {sgtin(rng):024X}"
    if kind == "uri":
        filter_value, company = rng.randrange(8), rng.randrange(10**7)
        return f"uri urn:epc:tag:sgtin-96:{filter_value}.{company:07}.{rng.randrange(10**6):06}.{rng.randrange(1 << 38)}"
    sys.exit(f"no such kind of line: {kind}")


def encode_line(kind: str, rng: random.Random) -> tuple[str, int]:
    """Gives a line for `encode`, and how many bytes its output has."""
    bits = "".join(str(rng.randrange(2)) for _ in range(8_240))
    if kind in ("fm0", "m2", "m4", "m8"):
        bits = bits[:8_225]
        levels = len(fm0_lead(0)) + 2 * 8_226 if kind == "fm0" else (20 + 2 * 8_226) * int(kind[1])
        return f"{kind} 0 {bits}", len(f"{kind} 0 ") + levels
    if kind == "pie":
        return f"pie 12500 31250 50000 6250 sync {bits}", len("pie 12500 6250 6250 25000 6250") + 10 * 8_240 + bits.count("1")
    if kind == "command":
        return f"command blockwrite user 0 {words(255, rng)} A1B2", len("command ") + 8 + 2 + 8 + 8 + 16 * 256 + 16
    if kind == "reply":
        return f"reply any-A1B2 words {words(512, rng)}", len("reply any-A1B2 ") + 8_225
    if kind == "heard":
        return f"heard m4 0 any-A1B2 words {words(512, rng)}", len("heard m4 0 any-A1B2 ") + (20 + 2 * 8_226) * 4
    sys.exit(f"no such kind of line: {kind}")


def probe(count: int, rng: random.Random) -> str:
    """Lines for one tag, in rounds. It has four draw words: in each round a slot, an RN16, the handle and a cover."""
    text = ["probe 1\n", f"tag 00000000 00000000 0000000000 08001234 E2000001 {words(8, rng)} 0000A1B2C3D41111\n"]
    for number in range(count):
        turn, place = divmod(number, 10)
        text.append(
            [
                f"query 1 m4 0 00 0 {'ab'[turn % 2]} 0\n",
                "ack A1B2\n",
                "req_rn A1B2\n",
                "read user 0 8 C3D4\n",
                "req_rn C3D4\n",
                f"write user 3 {words(1, rng)} C3D4\n",
                f"blockwrite user 0 {words(8, rng)} C3D4\n",
                "event timeout\n",
                "bits 11000000\n" if turn % 100 == 99 else "bits 1100\n",
                "queryrep 0\n",
            ][place]
        )
    return "".join(text) + END


HEAD = "gen2 1\nlink 12500 31250 50000 6250 1 m4 0\n"
END = "end\n"


def words(count: int, rng: random.Random) -> str:
    return "".join(f"{rng.randrange(65_536):04X}" for _ in range(count))


def tag(rng: random.Random) -> str:
    epc = "F800" + words(31, rng)
    return f"tag 00000000 {words(2, rng)} 0000000000 {epc} {words(16, rng)} {words(512, rng)} {words(256, rng)}\n"


def scenario(size: int, rng: random.Random) -> str:
    text = [HEAD]
    left = size - len(HEAD) - len(END)
    for _ in range(256):
        line = tag(rng)
        if len(line) > left:
            break
        text.append(line)
        left -= len(line)
    return "".join(text) + END


def long(size: int, rng: random.Random) -> str:
    front = "tag 00000000 00000000 0000000000 08001234 E2000001 - "
    digits = (size - len(HEAD) - len(front) - len(END) - 1) // 4 * 4
    return HEAD + front + words(1024, rng) * (digits // 4096) + "\n" + END


def population(rng: random.Random) -> str:
    """256 tags with one User word and 64 draw words each."""
    lines = []
    for number in range(256):
        epc = f"30003074257BF7194E400000{number:04X}"
        lines.append(f"tag 00000000 00000000 0000000000 {epc} E200{number:04X} {words(1, rng)} {words(64, rng)}\n")
    return "".join(lines)


def run(rounds: int, rng: random.Random) -> str:
    """Rounds with Q 8 that ask for A and B in turn, so that each tag takes part in each."""
    text = [f"round all 0 {'ab'[number % 2]} 8 300 1024\n" for number in range(rounds)]
    return HEAD + population(rng) + "".join(text) + END


HEAD_2 = HEAD.replace("gen2 1", "gen2 2") + "default break\n"
MOST_TAGS = 4_096


def many(rounds: int, rng: random.Random) -> str:
    """As many tags as version 2 has, by one line, each in a slot of its own; rounds that ask for A and B in turn."""
    text = [f"round all 0 {'ab'[number % 2]} 12 fixed 10000\n" for number in range(rounds)]
    return HEAD_2 + f"copies {MOST_TAGS} 00000000 00000000 0000000000 30003074257BF7194E4000000000 E2000000 - 0000\n" + "".join(text) + END


def floating(rounds: int, rng: random.Random) -> str:
    """As many tags, with words by chance, in rounds with the rule of annex D that come to 70,000 slots: each QueryAdjust is heard by all that wait."""
    tags = "".join(f"tag 00000000 00000000 0000000000 30003074257BF7194E400000{number:04X} E200{number:04X} - {words(4, rng)}\n" for number in range(MOST_TAGS))
    return HEAD_2 + tags + "round all 0 a 12 float-500 70000\n" * rounds + END


def portals(rounds: int, rng: random.Random) -> str:
    """As many tags, and rounds of the sessions 2 and 3 in turn, in each of which every tag is listed."""
    text = [f"round all {2 + number % 2} {'ab'[number // 2 % 2]} 12 fixed 10000\n" for number in range(rounds)]
    return many(0, rng)[: -len(END)] + "".join(text) + END


def slots(rounds: int, rng: random.Random) -> str:
    """Rounds that begin with Q 15 and go on to their limit. Each tag has one draw word, so that it draws the same slot each time: of half
    the tags two and two draw one of the first slots, and collide there, which keeps Q between 14 and 15; the others wait far behind these."""
    lines = []
    for number in range(256):
        epc = f"30003074257BF7194E400000{number:04X}"
        draw = number // 2 if number < 128 else 10_000 + number
        lines.append(f"tag 00000000 00000000 0000000000 {epc} E200{number:04X} {words(1, rng)} {draw:04X}\n")
    text = [f"round all 0 {'ab'[number % 2]} 15 100 70000\n" for number in range(rounds)]
    return HEAD + "".join(lines) + "".join(text) + END


def few(rounds: int, rng: random.Random) -> str:
    """Such rounds of two tags, each of which draws the first slot of each frame, and collides there."""
    tags = "".join(f"tag 00000000 00000000 0000000000 0800{number:04X} E200{number:04X} - 0000\n" for number in range(2))
    return HEAD + tags + "round all 0 a 15 100 70000\n" * rounds + END


def empty(rounds: int, rng: random.Random) -> str:
    """Rounds of one frame of 32,768 slots, for tags with flag B, of which there is none."""
    return HEAD_2 + "tag 00000000 00000000 0000000000 08000000 E2000000 - 0000\n" + "round all 0 b 15 fixed 70000\n" * rounds + END


def full(rounds: int, rng: random.Random) -> str:
    """Rounds of 256 tags of full banks, which ask for A and B in turn."""
    text = [f"round all 0 {'ab'[number % 2]} 8 300 1024\n" for number in range(rounds)]
    return HEAD + "".join(tag(rng) for _ in range(256)) + "".join(text) + END


def banks(count: int, rng: random.Random) -> str:
    """One round of 16 tags of full banks in Miller 8, and on each tag operations that read the whole User bank and write as many words of it as
    one command can, in turn."""
    between = ["read user 0 0", f"blockwrite user 0 {words(255, rng)}", "read user 0 0", f"blockwrite user 257 {words(255, rng)}"]
    text = [f"op {between[place % len(between)]}\n" for place in range(count)]
    return HEAD.replace("m4", "m8") + "".join(tag(rng) for _ in range(16)) + "round all 0 a 4 300 1024\n" + "".join(text) + END


# How many bits and digits the company of an SGTIN-96 has, by the partition.
PARTITIONS = [(40, 12), (37, 11), (34, 10), (30, 9), (27, 8), (24, 7), (20, 6)]


def sgtin(rng: random.Random) -> int:
    """The 96 bits of an SGTIN."""
    partition = rng.randrange(7)
    company_bits, company_digits = PARTITIONS[partition]
    item_bits = 44 - company_bits
    epc = 0x30 << 6 | rng.randrange(8) << 3 | partition
    epc = epc << company_bits | rng.randrange(10**company_digits)
    epc = epc << item_bits | rng.randrange(10 ** (13 - company_digits))
    return epc << 38 | rng.randrange(1 << 38)


def names(size: int, rng: random.Random) -> str:
    lines, left = [], size
    while True:
        line = f"list {rng.randrange(1, 100)} {rng.randrange(1, 1000)} 3000 {sgtin(rng):024X}\n"
        if len(line) > left:
            return "".join(lines)
        lines.append(line)
        left -= len(line)


ACCESS = "5EC0DE42"
KILL = "C0FFEE01"


def operations(count: int, rng: random.Random) -> str:
    """One round, and on each tag Access, then reads, writes and locks in turn, and Kill in the end."""
    text = [HEAD]
    for number in range(256):
        epc = f"30003074257BF7194E400000{number:04X}"
        text.append(f"tag {KILL} {ACCESS} 0010000010 {epc} E200{number:04X} {words(8, rng)} {words(64, rng)}\n")
    text.append("round all 0 a 8 300 1024\n")
    between = [
        "read user 0 0",
        f"write user 3 {words(1, rng)}",
        "read epc 1 0",
        f"blockwrite user 0 {words(8, rng)}",
        "read user 0 8",
        "lock 00802",
        "blockerase user 4 4",
        "read tid 0 0",
        "read res 0 4",
        f"write epc 7 {words(1, rng)}",
    ]
    chosen = [f"access {ACCESS}"] + [between[place % len(between)] for place in range(count - 2)] + [f"kill {KILL}"]
    text += [f"op {operation}\n" for operation in chosen]
    return "".join(text) + END


READS = 32


def raw(size: int, rng: random.Random) -> str:
    """Rounds in each of which one tag is listed and asked for all words of its User bank, which is short, 32 times; and for each of these reads
    a raw stream of 512 words. The tag has three draw words: in each round a slot, an RN16 and the handle."""
    tag = "tag 00000000 00000000 0000000000 08001234 E2000001 0007 0000A1B2C3D4\n"
    rounds = "".join(f"round all 0 {'ab'[number % 2]} 0 300 1\n" + "op read user 0 0\n" * READS for number in range(4))
    head, streams, left = HEAD.replace("m4 0", "m8 1") + tag, [], size - len(HEAD + tag + rounds + END)
    for number in range(4 * READS):
        # Before the reads of a round come its Query, ACK and Req_RN.
        exchange = number // READS * (READS + 3) + number % READS + 4
        levels = levels_of("m8", "1", reply([rng.randrange(65_536) for _ in range(512)], 0xC3D4))
        line = f"air {exchange} raw {levels}\n"
        if len(line) > left:
            break
        streams.append(line)
        left -= len(line)
    return head + "".join(streams) + rounds + END


def main() -> None:
    kind, size = sys.argv[1], int(sys.argv[2])
    rng = random.Random(7)
    whole = {"scenario": scenario, "long": long, "run": run, "slots": slots, "few": few, "empty": empty, "full": full, "banks": banks, "many": many, "floating": floating, "portals": portals, "operations": operations, "raw": raw, "names": names, "probe": probe}
    if kind in whole:
        sys.stdout.write(whole[kind](size, rng))
        return
    of_encode, kind = kind.startswith("encode-"), kind.replace("encode-", "")
    made = [encode_line(kind, rng) if of_encode else (line(kind, rng), 0) for _ in range(4)]
    written = 0
    while True:
        for text, output in made:
            length = (output or len(text)) + 1
            if written + length > size:
                return
            sys.stdout.write(f"{text}\n")
            written += length


main()
