"""Asks the program's own `decode`, which knows what frames, commands and replies are."""

from __future__ import annotations

import subprocess

from .reading import Trouble

# What one input of the program may have.
MOST_BYTES = 16_000_000


class Program:
    """The program that answers lines of captures: ./gen2run, or the program itself."""

    def __init__(self, path: str) -> None:
        self.path = path

    def decode(self, lines: list[str]) -> list[str]:
        """Gives the answer to each line."""
        answers: list[str] = []
        part: list[str] = []
        size = 0
        for line in lines + [""]:
            if part and (not line or size + len(line) + 1 > MOST_BYTES):
                answers += self.ask(part)
                part, size = [], 0
            if line:
                part.append(line)
                size += len(line) + 1
        return answers

    def ask(self, lines: list[str]) -> list[str]:
        given = "".join(f"{it}\n" for it in lines)
        try:
            ran = subprocess.run([self.path, "decode"], input=given, stdout=subprocess.PIPE, stderr=subprocess.PIPE, encoding="utf-8")
        except OSError as error:
            raise Trouble(f"{self.path} can't be run: {error.strerror}") from None
        answers = ran.stdout.splitlines()
        if ran.returncode or len(answers) != len(lines):
            raise Trouble(f"{self.path} decode ended with {ran.returncode}: {(ran.stdout or ran.stderr).strip()[:200]}")
        return answers
