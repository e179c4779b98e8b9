"""Counts what holds, for the checks of this folder: each failure is a line on standard error, and the last line is the count."""

from __future__ import annotations

import sys


class Count:
    def __init__(self, name: str) -> None:
        self.name, self.passed, self.failed = name, 0, 0

    def check(self, what: str, holds: object, seen: object = "") -> None:
        """Counts one thing that has to hold; `seen` is what was there in its place."""
        if holds:
            self.passed += 1
        else:
            self.failed += 1
            print(f"{self.name}: {what}" + (f": {seen}" if seen else ""), file=sys.stderr)

    def same(self, what: str, found: object, wanted: object) -> None:
        self.check(what, found == wanted, f"there is {found!r}, wanted is {wanted!r}")

    def end(self) -> int:
        """Prints the count as the last line, and gives the status: 0 where all holds."""
        print(f"{self.name}: {self.passed} passed, {self.failed} failed")
        return 1 if self.failed else 0
