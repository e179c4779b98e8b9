#!/usr/bin/env python3
"""Says in one line what the program didn't take, and what was wanted: fault.py FILE WORD SAID [PROGRAM].

FILE is the input, WORD the first word of the program, and SAID what it said: `fault LINE REASON`, or a verdict of audit or judge that isn't `yes`. Of a
fault it tells the line, its form, and what the reason means there; of `number` the first field that isn't of its form. A field is named only where it
surely is the faulty one: the program alone decides, and names the line. Of a verdict it tells what is wanted beside what stands there (verdict.py), for which it
asks PROGRAM where it is one of audit. The forms are those of docs/FORMATS.md; checks/rows holds them against each row of the tables that has a fault, and each that has none.
"""

from __future__ import annotations

import re
import sys
NUMBER = "0|[1-9][0-9]*"
WORD = "[0-9A-F]{4}"


class Field:
    """What a field has to be: what is said of it, its pattern, how long it is at most, and the least and the most that its number is."""

    def __init__(self, said: str, pattern: str, longest: int | None = None, least: int | None = None, most: int | None = None) -> None:
        self.said, self.pattern, self.longest, self.least, self.most = said, pattern, longest, least, most

    def holds(self, text: str) -> bool:
        is_short = self.longest is None or len(text) <= self.longest
        return is_short and bool(re.fullmatch(self.pattern, text)) and (self.most is None or self.least <= int(text) <= self.most)


def number(least: int, most: int) -> Field:
    return Field(f"a number from {least:,} to {most:,}, without leading zeros", NUMBER, 19, least, most)


def one_of(*names: str) -> Field:
    return Field(" or ".join([", ".join(names[:-1]), names[-1]] if len(names) > 1 else names), "|".join(names))


def digits(kind: str, least: int, most: int) -> Field:
    empty = ", or - for an empty list" if least == 0 else ""
    front = f"{least} to {most:,}" if least else f"at most {most:,}"
    said = f"{most if least == most else front} digits 0 and 1{empty}"
    return Field(said, f"[01]{{{most}}}" if least == most else f"{'' if least else '-|'}[01]+", most)


def words(least: int, most: int) -> Field:
    empty = ", or - for an empty list" if least == 0 else ""
    said = f"{least} words" if least == most else f"{max(least, 1)} to {most} words"
    said = "one word" if least == most == 1 else said
    return Field(f"{said} of four upper-case hexadecimal digits{empty}", f"{'' if least else '-|'}(?:{WORD}){{{max(least, 1)},{most}}}")


def matching(said: str, pattern: str) -> Field:
    return Field(said, pattern)


ANY = matching("any text", "[^\\n]*")
FLAG = one_of("s1", "s2", "s3", "sl")
LENGTH = number(0, 999_999)
# What a field is, by its name; behind a form where it is another thing there.
FIELDS = {
    "TREXT": one_of("0", "1"),
    "LEVELS": digits("levels", 0, 132_000),
    "BITS": digits("bits", 0, 8_240),
    "EXPECT": matching(
        "rn16, epc, handle, same-HHHH, words-N-HHHH with N from 1 to 255, any-HHHH or header-HHHH",
        f"rn16|epc|handle|(?:same|any|header)-{WORD}|words-(?:[1-9][0-9]?|1[0-9][0-9]|2[0-4][0-9]|25[0-5])-{WORD}",
    ),
    "CODE": one_of("fm0", "m2", "m4", "m8"),
    "THRESHOLD": number(0, 255),
    "PER": number(1, 64),
    "HEX": Field("1 to 132,000 bytes of two hexadecimal digits", "(?:[0-9A-Fa-f]{2})+", 264_000),
    "INTERVALS": LENGTH,
    "TEXT": ANY,
    "TARI": LENGTH,
    "RTCAL": LENGTH,
    "TRCAL": LENGTH,
    "PW": LENGTH,
    "DR": one_of("0", "1"),
    "KILL": words(2, 2),
    "ACCESS": words(2, 2),
    "LOCKS": digits("locks", 10, 10),
    "EPC": words(1, 32),
    "TID": words(2, 16),
    "USER": words(0, 512),
    "WORDS": words(1, 255),
    "E": number(1, 1_000_000),
    "TAG": number(0, 4_095),
    "FLAG": FLAG,
    "K": number(0, 4_095),
    "P": LENGTH,
    "TARGET": one_of("a", "b"),
    "ACTION": number(0, 7),
    "BANK": one_of("res", "epc", "tid", "user"),
    "POINTER": number(0, 268_435_455),
    "MASK": digits("mask", 0, 255),
    "SEL": one_of("all", "nsl", "sl"),
    "SESSION": number(0, 3),
    "Q": number(0, 15),
    "C": number(100, 500),
    "RULE": matching("fixed, frame, or float- and a number from 100 to 500, without leading zeros", "fixed|frame|float-(?:[1-4][0-9][0-9]|500)"),
    "N": number(2, 4_096),
    "SEVERAL": one_of("break", "capture"),
    "LIMIT": number(1, 70_000),
    "PTR": number(0, 268_435_455),
    "COUNT": number(0, 255),
    "WORD": words(1, 1),
    "S": number(0, 3),
    "RN": words(1, 1),
    "COVERED": words(1, 1),
    "HHHH": words(1, 1),
    "PC": words(1, 1),
    "UPDN": one_of("up", "same", "down"),
    "LEAD": one_of("sync", "preamble"),
    "CC": matching("two upper-case hexadecimal digits", "[0-9A-F]{2}"),
    "PAYLOAD": matching("five upper-case hexadecimal digits", "[0-9A-F]{5}"),
    "PASSWORD": words(2, 2),
    "only EPC": words(0, 31),
    "raw LEVELS": digits("levels", 1, 131_968),
    "sgtin WORDS": words(1, 31),
    "tag WORDS": words(1, 256),
    "select TARGET": one_of("s0", "s1", "s2", "s3", "sl"),
    "select BANK": one_of("epc", "tid", "user"),
    "blockerase COUNT": number(1, 255),
    "query SEL": digits("SEL", 2, 2),
    "epc EPC": words(0, 31),
    "words WORDS": words(1, 512),
    **{f"{code} BITS": digits("bits", 0, 8_225) for code in ("fm0", "m2", "m4", "m8")},
}
COMMANDS = (
    "queryrep S",
    "ack RN",
    "query DR CODE TREXT SEL S TARGET Q",
    "queryadjust S UPDN",
    "select TARGET ACTION BANK POINTER MASK",
    "nak",
    "req_rn RN",
    "read BANK PTR COUNT RN",
    "write BANK PTR COVERED RN",
    "kill COVERED RN",
    "lock PAYLOAD RN",
    "access COVERED RN",
    "blockwrite BANK PTR WORDS RN",
    "blockerase BANK PTR COUNT RN",
)
REPLIES = ("rn16 HHHH", "epc PC EPC", "handle HHHH", "words WORDS", "header", "error CC")
ANSWERS = ("answer -", *(f"answer {preamble} {reply}" for preamble in ("plain", "extended") for reply in REPLIES))
LOGGED_TAG = "tag KILL ACCESS LOCKS EPC TID USER"
TAG = f"{LOGGED_TAG} WORDS"
EVENTS = ("timeout TAG", "off TAG", "on TAG", "expire FLAG TAG")
LINK = "link TARI RTCAL TRCAL PW DR CODE TREXT"
OWN_EVENTS = ("event timeout", "event off", "event on", "event expire FLAG")
STEPS = (
    *(f"air E {event}" for event in EVENTS),
    "air E miss TAG",
    "air E pick K",
    "air E silent",
    "air E break P",
    "air E raw LEVELS",
    "select TARGET ACTION BANK POINTER MASK",
    "nak",
    *(f"event {event}" for event in EVENTS),
)
OPERATIONS = (
    "only EPC",
    "op read BANK PTR COUNT",
    "op write BANK PTR WORD",
    "op blockwrite BANK PTR WORDS",
    "op blockerase BANK PTR COUNT",
    "op lock PAYLOAD",
    "op access PASSWORD",
    "op kill PASSWORD",
)
FORMS = {
    "decode": [
        *(f"{code} TREXT LEVELS" for code in ("fm0", "m2", "m4", "m8")),
        "pie INTERVALS",
        "command BITS",
        "reply EXPECT BITS",
        "heard CODE TREXT EXPECT LEVELS",
        "samples THRESHOLD PER HEX",
        "sgtin WORDS",
        "uri TEXT",
    ],
    "encode": [
        *(f"{code} TREXT BITS" for code in ("fm0", "m2", "m4", "m8")),
        "pie TARI RTCAL TRCAL PW LEAD BITS",
        *(f"command {command}" for command in COMMANDS),
        *(f"reply EXPECT {reply}" for reply in REPLIES),
        *(f"heard CODE TREXT EXPECT {reply}" for reply in REPLIES),
    ],
    "probe": ["probe 1", TAG, *COMMANDS, "bits BITS", *OWN_EVENTS, "end"],
    "judge": ["judge 1", LOGGED_TAG, *COMMANDS, "bits BITS", *ANSWERS, *OWN_EVENTS, "end"],
    "run": ["gen2 1", LINK, TAG, *STEPS, "round SEL SESSION TARGET Q C LIMIT", *OPERATIONS, "end"],
    # (a scenario of version 2)
    "run 2": ["gen2 2", LINK, "default SEVERAL", TAG, f"copies N {TAG[len('tag '):]}", *STEPS, "round SEL SESSION TARGET Q RULE LIMIT", *OPERATIONS, "end"],
}
# The second line of a text that is about one tag.
SECOND_LINES = {"probe": TAG, "judge": LOGGED_TAG}
# What a reason means; behind a word where it is another thing there.
REASONS = {
    "limit": "it is one tag, air line, step, operation or line of a probe or a log too many",
    "tag": "there is no tag of this number",
    "order": "its exchange has a lower number than the one before, or what is said of one exchange stands in the wrong order: events, misses, a choice",
    "judge order": "right behind each command, and behind bits, stands one answer line, and nowhere else",
    "twice": "its exchange has a choice already",
    "pc": "the length in PC, the first five bits of the EPC bank, passes the bank's end",
    "copies": "the length in PC is 0, so that no word of the EPC is raised from copy to copy; or there are more than 4,096 tags with these",
    "tari": "TARI is 6,250 to 25,000",
    "rtcal": "RTCAL is 2.5 to 3 TARI",
    "trcal": "TRCAL is 1.1 to 3 RTCAL",
    "pw": "PW is at least 2,000, and 0.265 to 0.525 TARI",
    "extra": "nothing may stand behind the end line",
    "portal": "two portals have rounds alone, in sessions 2 and 3 in turn: no other step, no air line, no operation, and no capture",
}


def is_name(part: str) -> bool:
    return part.isupper()


def forms_of(line: str, word: str) -> list[str]:
    """Gives the forms that the line may be meant for, by its first field, and by its kind where it has one."""
    fields = line.split(" ")
    found = [it.split(" ") for it in FORMS.get(word, []) if it.split(" ")[0] == fields[0]]
    for at in range(1, len(fields)):
        kinds = [it for it in found if at < len(it) and not is_name(it[at])]
        if kinds:
            found = [it for it in found if at < len(it) and it[at] == fields[at]] or found
    return [" ".join(it) for it in found]


def faulty_field(line: str, form: str) -> tuple[str, str, str] | None:
    """Gives the name of the first field that isn't of its form, with the field and what it has to be, or None."""
    parts, fields = form.split(" "), line.split(" ")
    begin = " ".join(it for it in parts if not is_name(it))
    for at, field in enumerate(fields[1:], 1):
        name = parts[min(at, len(parts) - 1)]
        if is_name(name):
            kind = begin.split(" ")[-1]
            wanted = FIELDS.get(f"{begin} {name}") or FIELDS.get(f"{kind} {name}") or FIELDS.get(f"{parts[0]} {name}") or FIELDS[name]
            if not wanted.holds(field):
                return name, field, wanted.said
    return None


def shown(text: str, most: int = 160) -> str:
    """Gives a text as a terminal may show it, and the front of a long one."""
    front = "".join(it if it.isprintable() else repr(it)[1:-1] for it in text[:most])
    return front if len(text) <= most else f"{front}.. ({len(text):,} characters)"


def counted(fields: int) -> str:
    return "1 field" if fields == 1 else f"{fields} fields"


def spelled(form: str) -> str:
    return form + " .." if form == "pie INTERVALS" else form


def forms_for(text: str, word: str) -> str:
    """Gives what the forms of a text are kept by: scenarios have two versions."""
    if word not in ("run", "upgrade", "audit", "portals"):
        return word
    return "run 2" if text.startswith("gen2 2\n") else "run"


def explanation(text: str, word: str, fault: str) -> list[str]:
    """Gives the lines that tell of a fault in a text, or none where the fault is not one."""
    word = forms_for(text, word)
    found = re.fullmatch(r"fault (\d+) (\w+)", fault.strip())
    if not found:
        return []
    number_of_line, reason = int(found[1]), found[2]
    lines = text.split("\n")
    if number_of_line == len(lines) and not lines[-1] or number_of_line > len(lines):
        return [f"line {number_of_line}: a line is needed here, and the input ends before it"]
    line = lines[number_of_line - 1]
    said = [f"line {number_of_line}: {shown(line)}" if line else f"line {number_of_line} is empty"]
    forms = forms_of(line, word)
    if reason in ("shape", "number", "tari", "rtcal", "trcal", "pw", "pc", "copies") and len(forms) == 1:
        said.append(f"its form: {spelled(forms[0])}")
    if reason == "number" and len(forms) == 1:
        faulty = faulty_field(line, forms[0])
        if faulty:
            said.append(f"{faulty[0]} is {shown(faulty[1], 80)}, and has to be {faulty[2]}")
            if faulty[1].endswith("\r"):
                said.append("it ends with a carriage return, as lines of a Windows editor do: tr -d '\\r' takes them out")
    elif reason == "shape":
        fields = line.split(" ")
        if "" in fields:
            said.append("a field is empty: one space stands between two fields, and none before or behind the line")
        elif len(forms) == 1:
            said.append(f"it has {counted(len(fields))}, and its form has {len(forms[0].split(' '))}")
        elif forms:
            said.append("its forms: " + "; ".join(forms))
    elif reason == "word":
        first = line.split(" ")[0]
        begins = list(dict.fromkeys(it.split(" ")[0] for it in FORMS.get(word, [])))
        if word in SECOND_LINES and number_of_line == 2:
            said.append(f"the second line is: {SECOND_LINES[word]}")
        elif first in begins and len(forms) > 1:
            said.append("its forms: " + "; ".join(forms))
        elif first in begins:
            said.append(f"a line that begins with {first} may not stand here")
        elif word == "encode" and any(it.split(" ")[0] == first for it in COMMANDS):
            said.append(f"a command stands behind the word command: command {first} ..")
        elif word in SECOND_LINES and first == "command":
            said.append("a command stands here without the word command, as in: ack A1B2")
        else:
            # (the version and the tag stand in the first two lines alone)
            said.append(f"a line begins with one of: {' '.join(begins[2:] if word in SECOND_LINES else begins)}")
    elif reason == "version":
        said.append("the first line is: " + ("gen2 1, or gen2 2" if word.startswith("run") else FORMS[word][0]))
    elif reason == "end":
        said.append("it has no line feed at its end")
    elif reason in REASONS:
        said.append(REASONS.get(f"{word} {reason}", REASONS[reason]))
    return said


def bytes_told(data: bytes) -> str | None:
    """Gives what the bytes of a text are, where they are none of the program's: a byte order mark, another encoding, lines of Windows, a cut end."""
    if data.startswith(b"\xef\xbb\xbf"):
        return "the file begins with a byte order mark: sed -i '1s/^\\xef\\xbb\\xbf//' takes it out"
    if data.startswith((b"\xff\xfe", b"\xfe\xff")):
        return "the file is UTF-16: iconv -f UTF-16 -t UTF-8 makes UTF-8 of it"
    if b"\r\n" in data:
        return "lines end with CR LF, as a Windows editor writes them: tr -d '\\r' takes the CR out"
    if data and not data.endswith(b"\n"):
        return "the last line is cut: it has no line feed at its end"
    return None


def said_of(data: bytes, word: str, said: str, program: str) -> list[str]:
    """Gives the parts of the line that tells of a fault, or of a verdict that isn't `yes`."""
    text = data.decode("utf-8", errors="replace")
    denied = re.fullmatch(r"(no|profile) (\d+) (.+)", said.strip())
    if denied:
        import verdict

        kind, number_of_line, why = denied[1], int(denied[2]), denied[3]
        if word == "judge":
            return [verdict.explained_answer(text.split("\n"), kind, number_of_line, why)]
        return [verdict.explained(program, text, number_of_line, why)] if program else []
    parts = explanation(text, word, said)
    marks = bytes_told(data)
    # (the last line is cut where the fault is there; else it is another one that is to be told)
    at_end = int(said.split(" ")[1]) >= len(text.split("\n")) if parts else False
    if marks and parts and (at_end or "cut" not in marks):
        parts = [it for it in parts if "carriage return" not in it and "no line feed" not in it] + [marks]
    return parts


def main() -> None:
    if sys.argv[1:] == ["--help"]:
        print(__doc__.strip())
        return
    if len(sys.argv) not in (4, 5):
        sys.exit("fault.py: it wants FILE, WORD and what the program said; fault.py --help says more")
    path, word, said = sys.argv[1:4]
    with open(path, "rb") as it:
        parts = said_of(it.read(), word, said, sys.argv[4] if len(sys.argv) > 4 else None)
    if parts:
        sys.stdout.reconfigure(encoding="utf-8", errors="backslashreplace")
        print("gen2run: " + "; ".join(parts))


if __name__ == "__main__":
    main()
