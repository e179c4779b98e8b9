"""Levels of replies and check numbers, for the helpers of this folder, for vectors/ and for bench/. It is not proved."""

from __future__ import annotations


def check_number(bits: str, width: int, polynomial: int, preset: int) -> int:
    """Gives the check number of bits (Annex F), before it is complemented."""
    register = preset
    for bit in bits:
        top = register >> (width - 1) & 1
        register = register << 1 & (1 << width) - 1
        if top != int(bit):
            register ^= polynomial
    return register


def crc5(bits: str) -> int:
    return check_number(bits, 5, 0b01001, 0b01001)


def crc16(bits: str) -> int:
    """Annex F: preset FFFFh, the polynomial 1021h, complemented."""
    return check_number(bits, 16, 0x1021, 0xFFFF) ^ 0xFFFF


def fm0_lead(trext: int) -> str:
    """Gives the pilot, where there is one, and the preamble of FM0."""
    return "10" * 12 * trext + "110100100011"


def fm0_levels(trext: int, bits: str) -> str:
    levels = fm0_lead(trext)
    for bit in bits + "1":
        first = "10"[int(levels[-1])]
        levels += first + (first if bit == "1" else "10"[int(first)])
    return levels


def miller_levels(cycles: int, trext: int, bits: str) -> str:
    levels, phase, before = "", 0, "0"

    def half() -> str:
        return ("01" if phase else "10") * (cycles // 2)

    # The pilot, and the first zero behind it, go on in one phase.
    levels += half() * 2 * ((16 if trext else 4) + 1)
    for bit in "10111" + bits + "1":
        if bit == "0" and before == "0":
            phase = 1 - phase
        levels += half()
        if bit == "1":
            phase = 1 - phase
        levels += half()
        before = bit
    return levels


def levels_of(code: str, trext: str, bits: str) -> str:
    """Gives the levels of a reply with these bits, with its preamble and the dummy (6.3.1.3)."""
    if trext not in ("0", "1"):
        raise ValueError(f"TRext is 0 or 1, and not {trext!r}")
    if code == "fm0":
        return fm0_levels(int(trext), bits)
    if code in ("m2", "m4", "m8"):
        return miller_levels(int(code[1]), int(trext), bits)
    raise ValueError(f"{code!r} is no line code")
