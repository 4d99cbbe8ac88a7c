"""Reads configurations: the spans that they declare, and the periods of their machines."""

import json
import tomllib
from dataclasses import dataclass
from math import inf
from pathlib import Path
from typing import Any, Iterable, Optional

from piotool.calls import Fault, read_text
from piotool.set_up import LABELS, Tables

MOST = 2**24 - 1  # the greatest bound
LONG = 10**18  # more clocks than any trace has
NUMBERS = {"machine": 3, "from_pin": 31, "to_pin": 31, "min": MOST, "max": MOST}
EDGES = ("rise", "fall", "out", "in")
WORDS = {"from_edge": EDGES, "to_edge": EDGES, "unit": ("ticks", "clocks")}
# What the key of an end in the program stands in the place of.
IN_PLACE = {f"{end}_{key}": f"{end}_done" for end in ("from", "to") for key in ("pin", "edge")}


@dataclass(frozen=True)
class Span:
    """A span as a configuration declares it. An end that is an event in the program has no pin and no edge."""

    name: str
    machine: int
    from_pin: Optional[int]
    from_edge: Optional[str]
    to_pin: Optional[int]
    to_edge: Optional[str]
    unit: str
    min: int
    max: float  # a number, or inf
    stalls: tuple[str, ...]
    prompt: bool = False
    without: tuple[str, ...] = ()
    from_at: tuple[str, ...] = ()
    to_at: tuple[str, ...] = ()
    from_done: tuple[str, ...] = ()
    to_done: tuple[str, ...] = ()
    assume: tuple[Tables, ...] = ()

    def bounds(self) -> str:
        """The declared bounds as a text, as `2..7 ticks`."""
        if self.max == inf:
            return f"at least {self.min} {self.unit}"
        return f"{self.min} {self.unit}" if self.min == self.max else f"{self.min}..{self.max} {self.unit}"

    def event(self, end: str) -> str:
        """The event at an end as a text: `p0 rise`, `p0 rise at "a", "b"`, or `"a" done`."""
        table = self.table
        if done := table[f"{end}_done"]:
            return f"{quoted(done)} done"
        at = table[f"{end}_at"]
        return f"p{table[f'{end}_pin']} {table[f'{end}_edge']}" + (f" at {quoted(at)}" if at else "")

    @property
    def is_of_pins(self) -> bool:
        """Whether its ends are edges of pins, which a trace and a capture show."""
        return not self.from_done and not self.to_done

    @property
    def speaks_of_all(self) -> bool:
        """Whether it speaks of each pair of its edges."""
        return not (self.prompt or self.without or self.from_at or self.to_at or self.assume)

    @property
    def table(self) -> Tables:
        """Its table in a configuration."""
        return vars(self)


def quoted(labels: Iterable[str]) -> str:
    """Labels as a text."""
    return ", ".join(f'"{it}"' for it in labels)


def tables_of(path: str | Path, text: str) -> Tables:
    """The tables of a configuration's text, as Python's own reader of TOML gives them. A byte order mark is no part of it."""
    try:
        return {"load": [], "machine": [], "span": [], "pins": {}} | tomllib.loads(text.removeprefix("\ufeff"))
    except ValueError as fault:
        raise Fault(f"{path}: {fault}") from None
    except RecursionError:
        raise Fault(f"{path}: too many brackets inside each other") from None


def read_tables(path: str | Path) -> Tables:
    """The tables of a configuration, each of the right type."""
    tables = tables_of(path, read_text(path))
    for key in ("load", "machine", "span"):
        if not isinstance(tables[key], list) or not all(isinstance(table, dict) for table in tables[key]):
            raise Fault(f"{path}: {key} is no array of tables")
    if not isinstance(tables["pins"], dict) or not all(isinstance(tables["pins"].get(key, []), list) for key in ("level", "out")):
        raise Fault(f"{path}: pins is no table, or its level or out no array")
    return tables


def spans_of(path: str | Path, tables: Tables) -> list[Span]:
    """The spans of a configuration, in order."""
    return [span_of(path, f"span[{place}]", table) for place, table in enumerate(tables["span"])]


def span_of(path: str | Path, at: str, table: Tables) -> Span:
    """The span that a table declares."""
    table = {"unit": "ticks", "prompt": False} | dict.fromkeys(LABELS, []) | table
    missing = [key for key, done in IN_PLACE.items() if key not in table and table[done]]
    for key, most in NUMBERS.items():
        if key in missing:
            continue
        if type(table.get(key)) is not int and not (key == "max" and table.get(key) == inf) or not 0 <= table[key] <= most and table[key] != inf:
            raise Fault(f"{path}: {at}.{key} is no number from 0 to {most}{', nor inf' if key == 'max' else ''}")
    for key, words in WORDS.items():
        if key not in missing and not isinstance(table.get(key), str) or table.get(key, words[0]) not in words:
            raise Fault(f"{path}: {at}.{key} is none of {', '.join(words)}")
    for key in LABELS:
        if not isinstance(table[key], list) or not all(isinstance(it, str) for it in table[key]):
            raise Fault(f"{path}: {at}.{key} has no names")
    if not isinstance(table.get("assume", []), list) or not all(isinstance(it, dict) for it in table.get("assume", [])):
        raise Fault(f"{path}: {at}.assume is no array of tables")
    if not isinstance(table.get("name"), str) or not isinstance(table["prompt"], bool):
        raise Fault(f"{path}: {at} has no name, or a prompt that is neither true nor false")
    keys = ("name", *NUMBERS, *WORDS, "prompt")
    lists = {key: tuple(table[key]) for key in LABELS} | {"assume": tuple(table.get("assume", []))}
    return Span(**{key: table.get(key) for key in keys}, **lists)


def span_named(path: str | Path, spans: list[Span], name: str) -> Span:
    """The first span of this name."""
    for span in spans:
        if span.name == name:
            return span
    raise Fault(f"{path}: no span is called {name!r}")


def period_of(path: str | Path, tables: Tables, machine: int) -> int:
    """The period of a machine's ticks, in 256ths of a clock."""
    for table in tables["machine"]:
        if table.get("id") == machine:
            whole, fraction = table.get("divider", 1), table.get("fraction", 0)
            if type(whole) is not int or type(fraction) is not int:
                raise Fault(f"{path}: the divider of machine {machine} is no number")
            return 256 * (whole or 65536) + fraction
    raise Fault(f"{path}: machine {machine} isn't configured")


def clocks_allowed(path: str | Path, tables: Tables, span: Span) -> Optional[tuple[int, int]]:
    """The clocks that a span allows: ticks count as clocks of the machine's divider.

    None where it names stalls, whose waits aren't known, or speaks of some edges alone.
    """
    period = period_of(path, tables, span.machine) if span.unit == "ticks" else 256
    if span.stalls or not span.speaks_of_all:
        return None
    return span.min * period // 256, LONG if span.max == inf else int(-(-span.max * period // 256))


def toml_of(tables: Tables) -> str:
    """Tables as the text of a configuration."""
    lines = ["[pins]", *assignments(tables["pins"])]
    for key in ("load", "machine", "span"):
        for table in tables[key]:
            lines += [f"[[{key}]]", *assignments(table)]
    return "\n".join(lines) + "\n"


def assignments(table: Tables) -> list[str]:
    """The lines of a table: its values are numbers, texts, truths, tables, and lists of these."""
    return [f"{key} = {written(value)}" for key, value in table.items()]


def written(value: Any) -> str:
    """A value as TOML writes it."""
    if isinstance(value, dict):
        return "{" + ", ".join(assignments(value)) + "}"
    if isinstance(value, list):
        return "[" + ", ".join(map(written, value)) + "]"
    return "inf" if value == inf else json.dumps(value)
