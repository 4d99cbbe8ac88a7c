"""Reads value-change dumps of any tool (IEEE 1364-2005, section 18): each has its own timescale, scopes and spelling."""

import re
from fractions import Fraction
from typing import Iterator, Optional

from piotool.calls import Fault
from piotool.captures import Capture
from piotool.traces import Bit

PART = re.compile(r"\$(\w+)\s(.*?)\$end\b", re.S)
SCALE = re.compile(r"(1|10|100)\s*(fs|ps|ns|us|ms|s)")
VAR = re.compile(r"\w+\s+(\d+)\s+(\S+)\s+(\S+)(?:\s*(\[[^\]]*\]))?\s*")
UNITS = {unit: Fraction(10**3) ** place / 10**6 for place, unit in enumerate(("fs", "ps", "ns", "us", "ms", "s"))}
END = "$enddefinitions"
MOST_DIGITS = 40  # of a time


class Head:
    """What the head of a dump says."""

    def __init__(self, path: str, text: str) -> None:
        self.path, self.unit = path, Fraction(0)
        self.bits: dict[str, Bit] = {}
        self.by_id: dict[str, Bit] = {}
        self.wide: set[str] = set()
        self.scopes: list[str] = []
        self.is_trace = False
        at = 0
        for part in PART.finditer(text):
            self.line = text.count("\n", 0, part.start()) + 1
            self.take(part[1], part[2].strip())
            at = part.end()
        if not self.unit:
            raise Fault(f"{path}: line 1: no $timescale")
        if not self.bits:
            raise Fault(f"{path}: line {text.count(chr(10), 0, at) + 1}: no signal of one bit")

    def take(self, word: str, rest: str) -> None:
        """Takes a part of the head."""
        if word == "timescale":
            scale = SCALE.fullmatch(rest)
            if not scale:
                raise Fault(f"{self.path}: line {self.line}: {rest!r} is no timescale")
            self.unit = int(scale[1]) * UNITS[scale[2]]
        elif word == "scope":
            self.scopes.append(rest.split()[-1] if rest else "")
        elif word == "upscope" and self.scopes:
            self.scopes.pop()
        elif word == "var":
            self.take_var(rest)

    def take_var(self, rest: str) -> None:
        """Takes a signal."""
        var = VAR.fullmatch(rest)
        if not var:
            raise Fault(f"{self.path}: line {self.line}: {rest!r} is no signal")
        if var[1] != "1":
            self.wide.add(var[2])
            # Only a trace of piotool has this one.
            self.is_trace = self.is_trace or (var[1], var[3], self.scopes[:1]) in (("32", "w0", ["pio"]), ("32", "w0", ["pio0"]))
            return
        name = var[3] + (var[4] or "")
        name = name if name not in self.bits else ".".join([*self.scopes, name])
        self.bits[name] = self.by_id.setdefault(var[2], Bit())


def read_dump(path: str, text: str) -> Capture:
    """The capture of a dump's text."""
    front, end, body = text.partition(END)
    if not end:
        raise Fault(f"{path}: line {text.count(chr(10)) + 1}: the head has no {END}")
    head = Head(path, front)
    return Body(head, body.replace("$end", "", 1)).capture(front.count("\n") + 1)


class Body:
    """The changes of a dump, token by token. What one token does to its signal is looked up, since there may be millions."""

    def __init__(self, head: Head, text: str) -> None:
        self.head, self.text, self.unknown = head, text, 0
        self.moves = {f"{value}{name}": (bit, value) for name, bit in head.by_id.items() for value in (0, 1)}

    def capture(self, line: int) -> Capture:
        """The capture; the body begins in this line of the file."""
        appends = {token: (bit.clocks.append, bit.values.append, value) for token, (bit, value) in self.moves.items()}
        times: list[int] = []
        now = 0
        tokens = iter(self.text.split())
        for token in tokens:
            if token in appends:
                tell_clock, tell_value, value = appends[token]
                tell_clock(now)
                tell_value(value)
            elif token[0] == "#" and token[1:].isdecimal() and len(token) <= MOST_DIGITS:
                before, now = now, int(token[1:])
                if now < before:
                    raise self.fault(line, tokens, f"time {now} comes after {before}")
                if not times:
                    times.append(now)
            elif what := self.take(token, tokens, now):
                raise self.fault(line, tokens, what)
        if not times:
            raise Fault(f"{self.head.path}: line {line + self.text.count(chr(10))}: no time, so nothing was recorded")
        unit = None if self.head.is_trace else self.head.unit
        return Capture(self.head.path, unit, self.head.bits, times[0], now, self.unknown)

    def take(self, token: str, tokens: Iterator[str], now: int) -> Optional[str]:
        """Takes a token that is rarer; what is wrong with it, or nothing."""
        kind = token[0]
        if kind in "xXzZ" and token[1:] in self.head.by_id:
            self.unknown += 1
        elif kind in "bBrRsS" and (name := next(tokens, "")):
            move = self.moves.get(token[-1] + name)
            if move:
                move[0].clocks.append(now)
                move[0].values.append(move[1])
            elif name not in self.head.wide and (name not in self.head.by_id or token[-1] not in "xXzZ"):
                return f"'{token} {name}' is no change of a signal"
            self.unknown += not move and name in self.head.by_id
        elif token == "$comment":
            while next(tokens, "$end") != "$end":
                pass
        elif not (kind == "$" or kind in "01xXzZ" and token[1:] in self.head.wide):
            return f"{token!r} is {'no time' if kind == '#' else 'no change of a signal'}"
        return None

    def fault(self, line: int, tokens: Iterator[str], what: str) -> Fault:
        """The fault of the last token that was taken, with its line."""
        place = len(self.text.split()) - sum(1 for _ in tokens)
        for number, text in enumerate(self.text.split("\n"), line):
            place -= len(text.split())
            if place <= 0:
                break
        return Fault(f"{self.head.path}: line {number}: {what}")
