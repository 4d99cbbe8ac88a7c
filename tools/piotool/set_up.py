"""What programs and the tables of a configuration set up: one block, from the written rules (docs/SPECIFICATION.md, "The setup").

The tables have no fault. Where programs come from is asked elsewhere: programs.py has them of `piotool asm`, and crosscheck/ of a
model of the source.
"""

from dataclasses import dataclass, field
from typing import Any, Optional

from piotool.machine_model import Setup

Tables = dict[str, Any]
# The keys of a machine, with what each is where it is absent.
MACHINE = {
    "divider": 1, "fraction": 0, "in_base": 0, "out_base": 0, "set_base": 0, "side_base": 0, "jmp_pin": 0, "out_count": 0,
    "set_count": 5, "in_right": True, "out_right": True, "autopush": False, "autopull": False, "join_tx": False, "join_rx": False,
    "status_rx": False, "push_threshold": 32, "pull_threshold": 32, "status_n": 0, "x": 0, "y": 0, "isr": 0, "osr": 0, "isr_count": 0,
    "osr_count": 32, "pending": None,
}  # fmt: skip
PINS = ("high", "level", "out", "bypass")
LABELS = ("stalls", "without", "from_at", "to_at", "from_done", "to_done")  # the keys of a span that are labels


@dataclass
class Program:
    """A program as it can be loaded: its words, the place of its origin, its side-set rule, its wrap, and its labels."""

    name: str
    origin: Optional[int]
    rule: dict[str, Any]
    wrap: tuple[int, int]
    words: list[int] = field(default_factory=list)
    labels: dict[str, int] = field(default_factory=dict)
    lines: list[str] = field(default_factory=list)  # of the listing, where they are known


class SetUp:
    """A block as it is set up: memory, the machines' setups by number, pins as words; labels, lines and spans for who reads them.

    A span has the keys of its table, with addresses in the place of labels.
    """

    def __init__(self, programs: dict[str, Program], tables: Tables) -> None:
        self.tables, self.programs = tables, programs
        self.memory = [0] * 32
        self.lines: dict[int, str] = {}
        self.places: dict[str, int] = {}
        for table in tables["load"]:
            self.load(programs[table["program"]], table)
        self.setups: dict[int, Setup] = {table["id"]: self.setup_of(table) for table in tables["machine"]}
        self.program_of: dict[int, Program] = {table["id"]: programs[table["program"]] for table in tables["machine"]}
        self.pins = {key: sum(1 << pin for pin in set(tables["pins"].get(key, []))) for key in PINS}

    def load(self, program: Program, table: Tables) -> None:
        """Loads a program: its jumps are moved."""
        self.places[program.name] = at = table.get("at", program.origin or 0)
        for place, word in enumerate(program.words):
            self.memory[at + place] = word if word >> 13 else word + at
            if program.lines:
                self.lines[at + place] = program.lines[place]

    def setup_of(self, table: Tables) -> Setup:
        """A machine's setup: the keys of its table, and the places of its program."""
        program = self.programs[table["program"]]
        at, (bottom, top) = self.places[program.name], program.wrap
        start = program.labels[table["start"]] if "start" in table else 0
        keys = {key: table.get(key, default) for key, default in MACHINE.items()}
        return keys | program.rule | {"start": at + start, "wrap_bottom": at + bottom, "wrap_top": at + top}

    def addresses(self, machine: int) -> dict[str, int]:
        """The address of each label of a machine's program."""
        program = self.program_of[machine]
        return {name: self.places[program.name] + place for name, place in program.labels.items()}

    def label_at(self, machine: int, address: int) -> Optional[str]:
        """A label of a machine's program at an address."""
        return next((name for name, place in self.addresses(machine).items() if place == address), None)

    def label_before(self, machine: int, address: int) -> Optional[str]:
        """An address of a machine's program by the last label before it: loop, or loop+1."""
        program = self.program_of[machine]
        own = range(self.places[program.name], self.places[program.name] + len(program.words))
        at, name = max(((at, name) for name, at in self.addresses(machine).items() if at <= address), default=(0, None))
        if name is None or address not in own:
            return None
        return name + (f"+{address - at}" if address > at else "")

    def span(self, table: Tables) -> Tables:
        """A span as the models take it, of its table."""
        addresses = self.addresses(table["machine"])
        named = {key: [addresses[name] for name in table.get(key, [])] for key in LABELS}
        assume = [one | {"after": addresses[one["after"]]} for one in table.get("assume", [])]
        return {"unit": "ticks", "prompt": False} | table | named | ({"assume": assume} if assume else {})

    @property
    def spans(self) -> list[Tables]:
        """All spans."""
        return [self.span(table) for table in self.tables["span"]]
