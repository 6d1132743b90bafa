"""A key for paper: four lines of sixteen digits, each with its number and a check, so that a slip of the pen is found and where it stands."""

from __future__ import annotations

import hashlib
import re

_PLAIN = re.compile(rb"[0-9a-fA-F]{64}\r?\n?")
_LINE = re.compile(r"([1-4])((?:\s*[0-9a-f]{4}){4})\s+([0-9a-f]{4})")


class NoKey(Exception):
    """What was given is no key, and why."""


def _check(number: int, digits: str) -> str:
    """The check of a line."""
    return hashlib.sha256(f"{number} {digits}".encode()).hexdigest()[:4]


def lines_of(key: bytes) -> str:
    """The lines of a key: NUMBER, four groups of four digits, CHECK."""
    lines = []
    for number, begin in enumerate(range(0, 64, 16), 1):
        digits = key.hex()[begin : begin + 16]
        groups = " ".join(digits[at : at + 4] for at in range(0, 16, 4))
        lines.append(f"{number}  {groups}  {_check(number, digits)}\n")
    return "".join(lines)


def read_key(text: bytes) -> bytes:
    """The key that a text is: 64 hexadecimal digits, or the lines for paper, beside which others may stand. Raises NoKey."""
    if _PLAIN.fullmatch(text):
        return bytes.fromhex(text[:64].decode())
    found = [_LINE.fullmatch(line.strip()) for line in text.decode("ascii", "replace").lower().splitlines()]
    lines = {int(line[1]): ("".join(line[2].split()), line[3]) for line in found if line}
    if not lines:
        raise NoKey("the key is 64 hexadecimal digits, or four lines for paper")
    for number in range(1, 5):
        if number not in lines:
            raise NoKey(f"line {number} of the key is missing, or lacks digits")
        if _check(number, lines[number][0]) != lines[number][1]:
            raise NoKey(f"line {number} of the key is not what its check says")
    return bytes.fromhex("".join(lines[number][0] for number in range(1, 5)))
