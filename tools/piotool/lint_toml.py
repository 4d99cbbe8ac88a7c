"""Where the keys of a TOML text stand: a scanner for places. Python's own reader has the values.

A place is a line and a column. Paths are as piotool's lines have them, `machine[0].divider`; an element of an array has its number,
as `pins.high[2]`. A table has the place of its header, and a table of dotted keys the place of the first of them.
"""

import json
import re
import tomllib
from typing import Any, Optional

BARE = re.compile(r"[A-Za-z0-9_-]+")
BASIC = re.compile(r'"(?:[^"\\\n]|\\.)*"')
LITERAL = re.compile(r"'[^'\n]*'")
LONG = re.compile(r'"""(?:[^\\]|\\.)*?"{3,5}|' + r"'''.*?'{3,5}", re.S)
OTHER = re.compile(r"[^,\]}#\n]+")
AT = re.compile(r"\(at line (\d+), column (\d+)\)")
GREAT = re.compile(r"(?<![\w.])[+-]?\d{16,}(?![\w.])|(?<![\w.])[+-]?\d[\d_]*(?:\.\d+)?[eE][+-]?\d{3,}")
COMMENT = re.compile(r"#[^\n]*")
MOST_DEEP = 80
Point = tuple[int, int]


class Lost(Exception):
    """The text isn't as the scanner knows it."""


class Places:
    """The places of a text: `keys` of keys and headers, `values` of values; `comments` by line."""

    def __init__(self, text: str) -> None:
        self.text, self.at = text, 1 if text.startswith("\ufeff") else 0
        self.keys: dict[str, Point] = {}
        self.values: dict[str, Point] = {}
        self.comments: dict[int, str] = {}
        self.counts: dict[str, int] = {}
        try:
            self.scan()
        except (Lost, RecursionError):
            pass

    def point(self, at: int) -> Point:
        """The line and the column of a place in the text."""
        begin = self.text.rfind("\n", 0, at) + 1
        shift = 1 if begin == 0 and self.text.startswith("\ufeff") else 0
        return self.text.count("\n", 0, at) + 1, at - begin + 1 - shift

    def key(self, path: str) -> Optional[Point]:
        """Where a key stands, or a header."""
        return self.keys.get(path)

    def of(self, path: str) -> Point:
        """Where what a path names stands: its value, its header, or the header of the table that it is missing from."""
        while path:
            if path in self.values or path in self.keys:
                return self.values.get(path) or self.keys[path]
            path = path[: path.rindex("[")] if path.endswith("]") else path.rpartition(".")[0]
        return 1, 1

    # The scanner.

    def skip(self, newlines: bool) -> None:
        """Goes over blanks and comments, and newlines where they may come."""
        while self.at < len(self.text):
            sign = self.text[self.at]
            if sign == "#":
                end = self.text.find("\n", self.at)
                end = len(self.text) if end < 0 else end
                self.comments[self.point(self.at)[0]] = self.text[self.at + 1 : end].strip()
                self.at = end
            elif sign in " \t\r" or newlines and sign == "\n":
                self.at += 1
            else:
                return

    def take(self, form: re.Pattern[str]) -> Optional[str]:
        """The text of this form that begins here."""
        it = form.match(self.text, self.at)
        if it is None:
            return None
        self.at = it.end()
        return it[0]

    def is_at(self, sign: str) -> bool:
        """Takes a sign, where it is next."""
        found = self.text.startswith(sign, self.at)
        self.at += len(sign) * found
        return found

    def path(self) -> list[str]:
        """A key, of one part or more."""
        parts = []
        while True:
            self.skip(False)
            if it := self.take(BASIC):
                parts.append(unquoted(it))
            elif it := self.take(LITERAL):
                parts.append(it[1:-1])
            elif it := self.take(BARE):
                parts.append(it)
            else:
                raise Lost
            self.skip(False)
            if not self.is_at("."):
                return parts

    def scan(self) -> None:
        """The whole text."""
        table = ""
        self.skip(True)
        while self.at < len(self.text):
            begin = self.at
            if self.is_at("[["):
                name = self.within(self.path())
                if not self.is_at("]]"):
                    raise Lost
                number = self.counts[name] = self.counts.get(name, -1) + 1
                table = f"{name}[{number}]"
                self.keys[table] = self.point(begin)
                self.keys.setdefault(name, self.point(begin))
            elif self.is_at("["):
                table = self.within(self.path())
                if not self.is_at("]"):
                    raise Lost
                self.keys.setdefault(table, self.point(begin))
            else:
                self.assignment(table)
            self.skip(True)

    def within(self, parts: list[str]) -> str:
        """The path of the table that a header names: one in an array of tables is in the last of these."""
        *above, name = parts
        path = ""
        for part in above:
            path += part
            path += f"[{self.counts[path]}]." if path in self.counts else "."
        return path + name

    def assignment(self, table: str) -> None:
        """A key and its value, in a table."""
        begin, parts = self.at, self.path()
        path = table
        for part in parts:
            path = f"{path}.{part}" if path else part
            self.keys.setdefault(path, self.point(begin))
        if not self.is_at("="):
            raise Lost
        self.skip(False)
        self.value(path)

    def value(self, path: str) -> None:
        """A value, with all that is in it."""
        self.values[path] = self.point(self.at)
        if self.is_at("["):
            self.elements(path, "]", lambda number: self.value(f"{path}[{number}]"))
        elif self.is_at("{"):
            self.elements(path, "}", lambda number: self.assignment(path))
        elif not (self.take(LONG) or self.take(BASIC) or self.take(LITERAL) or self.take(OTHER)):
            raise Lost

    def elements(self, path: str, end: str, read: Any) -> None:
        """What stands between brackets."""
        number = 0
        self.skip(True)
        while not self.is_at(end):
            read(number)
            number += 1
            self.skip(True)
            if not self.is_at(",") and not self.text.startswith(end, self.at):
                raise Lost
            self.skip(True)


def unquoted(text: str) -> str:
    """The text of a basic string."""
    try:
        return str(json.loads(text))
    except ValueError:
        return text[1:-1]


def deepest(text: str) -> Optional[int]:
    """Where the 81st bracket opens inside others, or nothing."""
    depth, at = 0, 0
    while at < len(text):
        if it := LONG.match(text, at) or BASIC.match(text, at) or LITERAL.match(text, at) or COMMENT.match(text, at):
            at = it.end()
            continue
        depth += (text[at] in "[{") - (text[at] in "]}")
        if depth > MOST_DEEP:
            return at
        at += 1
    return None


def fault_of(data: bytes) -> tuple[Point, str]:
    """Where a text isn't TOML in UTF-8, and what Python's reader says of it; the beginning where that reader takes it."""
    try:
        text = data.decode("utf-8")
    except UnicodeDecodeError as fault:
        before = data[: fault.start]
        begin = before.rfind(b"\n") + 1
        return (before.count(b"\n") + 1, len(before[begin:].decode("utf-8")) + 1), ": a byte that UTF-8 doesn't have here"
    places = Places(text)
    try:
        tomllib.loads(text.removeprefix("\ufeff"))
    except tomllib.TOMLDecodeError as fault:
        told = str(fault)
        what = ": " + told.partition(" (at ")[0].lower()
        if it := AT.search(told):
            return (int(it[1]), int(it[2])), what
        return places.point(len(text.rstrip())), what
    except RecursionError:
        return (1, 1), ": too many brackets inside each other"
    if (at := deepest(text)) is not None:
        return places.point(at), ": more than 80 brackets inside each other"
    if it := GREAT.search(text):
        return places.point(it.start()), ": a number past 64 bits"
    return (1, 1), ""
