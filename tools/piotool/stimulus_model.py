"""The first fault of a stimulus, from the written rules (docs/SPECIFICATION.md)."""

import re
from typing import Optional

NUMBER = re.compile(rb"[0-9]+|0x[0-9a-fA-F]+")
LAST_CLOCK, LONGEST_PERIOD, MOST_LINES = 10**12, 10**6, 10**6
# How many numbers come after each word; a feed has three or more.
NUMBERS = {b"pin": 2, b"tx": 2, b"rx": 1, b"feed": 3, b"drain": 2, b"enable": 1, b"disable": 1, b"restart": 1}
OF_VERSION_2 = (b"enable", b"disable", b"restart")


def number_of(field: bytes) -> Optional[int]:
    """The number of a field, or none."""
    if not NUMBER.fullmatch(field):
        return None
    return int(field, 16) if field.startswith(b"0x") else int(field)


def fields_of(line: bytes) -> list[bytes]:
    """The fields of a line."""
    return [field for field in re.split(rb"[ \t\r]+", line.split(b"#")[0]) if field]


def is_in_range(clock: int, word: bytes, numbers: list[int], last_machine: int) -> bool:
    """Whether the numbers of a line are in their ranges."""
    first, *rest = numbers
    if clock > LAST_CLOCK or first > (31 if word == b"pin" else last_machine):
        return False
    if word == b"pin":
        return rest[0] <= 1
    if word == b"tx":
        return rest[0] < 2**32
    if word in (b"feed", b"drain"):
        return 1 <= rest[0] <= LONGEST_PERIOD and all(number < 2**32 for number in rest[1:])
    return True


class Reader:
    """Reads the lines of a stimulus. Of `pair` the last machine is 7."""

    def __init__(self, last_machine: int = 3) -> None:
        self.version: Optional[int] = 1
        self.is_first, self.clock, self.last_machine = True, 0, last_machine
        self.known: set[tuple[bytes, int, Optional[int]]] = set()

    def read(self, fields: list[bytes]) -> Optional[str]:
        """The code of a line's fault, or none."""
        was_first, self.is_first = self.is_first, False
        if fields[0] == b"version":
            return self.read_version(fields, was_first)
        clock, word = number_of(fields[0]), fields[1] if len(fields) > 1 else b""
        numbers = [number_of(field) for field in fields[2:]]
        has_form = len(numbers) == NUMBERS.get(word) or word == b"feed" and len(numbers) > 3
        if clock is None or None in numbers or not has_form or word in OF_VERSION_2 and self.version == 1:
            return "T1"
        if not is_in_range(clock, word, numbers, self.last_machine):
            return "T2"
        if clock < self.clock:
            return "T3"
        self.clock = clock
        kind = b"switch" if word in (b"enable", b"disable") else word
        access = (kind, numbers[0], None if word in (b"feed", b"drain") else clock)
        if word != b"pin" and access in self.known:
            return "T4"
        self.known.add(access)
        return None

    def read_version(self, fields: list[bytes], was_first: bool) -> Optional[str]:
        """The code of a version line's fault, or none."""
        if len(fields) != 2 or number_of(fields[1]) is None or not was_first:
            return "T1"
        self.version = number_of(fields[1])
        return None if self.version in (1, 2) else "T2"


def fault_of(text: bytes) -> Optional[str]:
    """The first fault with its line, or none."""
    reader = Reader()
    for number, line in enumerate(text.split(b"\n"), 1):
        fields = fields_of(line)
        if fields and (code := reader.read(fields)):
            return f"line {number}: {code}"
    return None
