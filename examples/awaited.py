"""What a reply to a command is, for the helpers of this folder. It is not proved."""

from __future__ import annotations


def awaited(command: str, trext: str, kills: int) -> tuple[str, str]:
    """Gives EXPECT of a command, as `heard` lines have it, and TRext of its reply; `kills` is which Kill it is since the last ACK."""
    kind, *fields = command.split(" ")
    if kind == "ack":
        return "epc", trext
    if kind == "req_rn":
        return "handle", trext
    if kind == "read":
        return ("any-" if fields[2] == "0" else f"words-{fields[2]}-") + fields[-1], trext
    if kind == "access" or kind == "kill" and kills % 2:
        return f"same-{fields[-1]}", trext
    if kind in ("kill", "write", "lock", "blockwrite", "blockerase"):
        return f"header-{fields[-1]}", "1"
    return "rn16", trext
