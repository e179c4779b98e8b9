"""Runs the program for the checks of this folder: the file that is named, or the module of a page, a file that ends with .html, by one process of node."""

from __future__ import annotations

import base64
import json
import os
import re
import subprocess
from typing import Any

TOP = os.path.dirname(os.path.dirname(os.path.abspath(__file__)))


class OfFile:
    """A program is started for each call."""

    def __init__(self, path: str) -> None:
        self.path = path

    def run(self, words: list[str], given: bytes) -> tuple[int, bytes]:
        """Gives the status and the bytes that were written."""
        ran = subprocess.run([self.path, *words], input=given, stdout=subprocess.PIPE)
        return ran.returncode, ran.stdout

    def explanation(self, text: str, word: str, fault: str) -> list[str] | None:
        """Gives what is said of a fault, where that is another thing than tools/fault.py says."""
        return None

    def is_there(self) -> bool:
        return os.access(self.path, os.X_OK)


# How node 20 is told to run modules with 64-bit memory; later ones do so by themselves.
WITH_64_BITS = "--experimental-wasm-memory64"


def options_for(bits: str) -> list[str]:
    """Gives the options of node for a module with so many bits of memory."""
    is_asked = bits == "64" and subprocess.run(["node", WITH_64_BITS, "-e", "0"], stderr=subprocess.DEVNULL).returncode == 0
    return [WITH_64_BITS] if is_asked else []


class OfPage:
    """The module of a page, which answers all calls in one process. `bits` says which, by its memory."""

    def __init__(self, path: str, bits: str) -> None:
        self.path = path
        command = ["node", *options_for(bits), f"{TOP}/page/answer.mjs", path, bits]
        self.node = subprocess.Popen(command, stdin=subprocess.PIPE, stdout=subprocess.PIPE) if self.is_there() else None

    def ask(self, **what: object) -> dict[str, Any]:
        self.node.stdin.write(json.dumps(what).encode() + b"\n")
        self.node.stdin.flush()
        return json.loads(self.node.stdout.readline())

    def run(self, words: list[str], given: bytes) -> tuple[int, bytes]:
        answer = self.ask(words=" ".join(words), input=base64.b64encode(given).decode())
        return answer["status"], base64.b64decode(answer["output"])

    def explanation(self, text: str, word: str, fault: str) -> list[str]:
        return self.ask(text=text, word=word, fault=fault).get("said", [])

    def is_there(self) -> bool:
        return os.path.exists(self.path)


def modules_of(path: str) -> list[str]:
    """Gives the bits of memory of each module in a page."""
    with open(path, encoding="utf-8") as it:
        data = re.search(r'<script type="application/json" id="data">(.*?)</script>', it.read(), re.S)
    return list(json.loads(data[1])["modules"])


def program_at(path: str) -> OfFile | OfPage:
    """Gives the program of a path; of a page its last module, which the most browsers run."""
    if not path.endswith(".html"):
        return OfFile(path)
    return OfPage(path, modules_of(path)[-1] if os.path.exists(path) else "")
