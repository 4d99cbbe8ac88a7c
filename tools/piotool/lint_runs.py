"""Warnings of a run: spans that it never sees, machines that stand still, and lines of its stimulus.

`piotool measure` says what is seen of spans, and `piotool inspect` where a machine stands at the end.
"""

import re
from typing import Any, Iterator, Optional

from piotool.block_model import Line
from piotool.calls import Fault, piotool
from piotool.lint_block import IN, IRQ, OUT, WAIT, BlockLint, Op, fields_of_line, number
from piotool.lint_files import Files
from piotool.lint_said import Place, Said
from piotool.machine_model import period_of
from piotool.run_ends import ends_of

SEEN = re.compile(r"span (\S+) seen (\d+)(?: least (\d+) most (\d+))?(?: assumed up to (\d+))?")
FLAG, GPIO, PIN = 2, 0, 1  # what a WAIT waits for


def lines_of(files: Files) -> tuple[list[Line], list[int]]:
    """The lines of a stimulus that has no fault, and the line of the file that each stands on."""
    lines, places = [], []
    for place, line in enumerate(files.stimulus_bytes.split(b"\n")):
        fields = fields_of_line(line)
        if fields and fields[0] != "version":
            lines.append((number(fields[0]), fields[1], [number(it) for it in fields[2:]]))
            places.append(place + 1)
    return lines, places


class RunLint:
    """The warnings of a run; without a number of clocks only the ones of the stimulus."""

    def __init__(self, files: Files, lint: BlockLint, clocks: Optional[int]) -> None:
        self.files, self.lint, self.clocks = files, lint, clocks
        self.lines, self.places = lines_of(files)

    def of_stimulus(self) -> Iterator[Said]:
        """Lines for machines that aren't there, and feeds whose EVERY looks like a word."""
        told: set[int] = set()
        for (_, word, numbers), place in zip(self.lines, self.places):
            if word == "pin":
                continue
            fields = self.files.stimulus_fields(place)
            if numbers[0] not in self.lint.machines and numbers[0] not in told:
                told.add(numbers[0])
                text = f"machine {numbers[0]} isn't configured: this line does nothing"
                yield Said(Place(self.files.stimulus or "", place, fields[2][1]), "warning", text, "no-machine")
            if word == "feed" and fields[3][0].startswith("0x"):
                text = f"EVERY is {fields[3][0]}, which looks like the first word: a feed is CLOCK feed M EVERY WORD .."
                yield Said(Place(self.files.stimulus or "", place, fields[3][1]), "warning", text, "every-word")

    def words(self) -> list[Any]:
        """The words of a call that runs the block."""
        words: list[Any] = ["--source", self.files.whole, *(["--config", self.files.own_config] if self.files.own_config else [])]
        words += ["--stimulus", self.files.own_stimulus] if self.files.own_stimulus else []
        return [*words, "--clocks", self.clocks]

    def measured(self) -> list[tuple[int, int, int, Optional[int]]]:
        """How often each span is seen, its fewest and most clocks, and the clock up to which what it assumes is so, if not to the end."""
        status, text, told = piotool("measure", *self.words())
        if status != 0:
            raise Fault(told.removeprefix("piotool: "))
        found = [SEEN.fullmatch(line) for line in text.splitlines()]
        return [(int(it[2]), int(it[3] or 0), int(it[4] or 0), int(it[5]) if it[5] else None) for it in found if it]

    def of_spans(self, tight: list[Optional[tuple[int, int]]]) -> Iterator[Said]:
        """Spans that the run never sees, or at neither tight bound (in ticks) and in less than half of what lies between."""
        if not self.clocks or not self.lint.block.tables["span"]:
            return
        disturbed = {numbers[0] for _, word, numbers in self.lines if word in ("disable", "restart")}
        for place, (table, (seen, least, most, missed)) in enumerate(zip(self.lint.block.tables["span"], self.measured())):
            at, name = self.files.key_place(f"span[{place}]"), table["name"]
            if missed is not None:
                text = f"span {name}: this run breaks what it assumes; from clock {missed} on nothing is said of it"
                yield Said(self.files.key_place(f"span[{place}].assume"), "warning", text, "assume-missed")
            if not seen:
                text = f"span {name}: this run of {self.clocks} clocks never sees it"
                yield Said(at, "warning", text, "span-not-seen")
            elif tight[place] and table["machine"] not in disturbed and not table.get("stalls"):
                period = period_of(self.lint.block.setups[table["machine"]])
                low, high = -(-tight[place][0] * period // 256), tight[place][1] * period // 256
                if least > low and most < high and 2 * (most - least) < high - low:
                    text = f"span {name}: this run sees {least} to {most} clocks, and the program may make {low} to {high}"
                    yield Said(at, "warning", text, "bounds-not-seen")

    def stood(self) -> Iterator[Said]:
        """Machines that stand still at the end of the run, and for good."""
        if not self.clocks:
            return
        ends = ends_of(*self.words())
        if ends is None:
            return
        now = {name: value for name, (_, value) in ends.items()}
        waiting = [it for it in self.lint.machines if now[f"sm{it}.waits"] and now[f"sm{it}.enabled"]]
        ops = {it: Op(now[f"sm{it}.pc"], now[f"sm{it}.instruction"]) for it in waiting}
        flags = sum(now[f"f{flag}"] << flag for flag in range(8))
        goes_on = set(self.lint.machines) - {it for it, op in ops.items() if not self.is_there(it, op, flags)}
        while more := {it for it, op in ops.items() if it not in goes_on and self.may_go_on(it, op, goes_on)}:
            goes_on |= more
        for machine, op in ops.items():
            if machine not in goes_on:
                clock, _ = ends[f"sm{machine}.waits"]
                where = f"machine {machine} stands still at address {op.address}{self.called(machine, op)}"
                text = f"{where} from clock {clock} on: {self.why(machine, op, flags)}"
                yield Said(self.lint.place_of(machine, op.address), "warning", text, "stands-still")

    def called(self, machine: int, op: Op) -> str:
        """What is said beside an address: the last label before it, or the word that isn't in memory there."""
        if op.word != self.lint.block.memory[op.address]:
            return f" in the pending word 0x{op.word:04x}"
        label = self.lint.block.label_before(machine, op.address)
        return f" ({label})" if label else ""

    def flag_of(self, machine: int, op: Op) -> Optional[int]:
        """The flag that a machine waits for, or none."""
        is_flag = op.kind == IRQ or op.kind == WAIT and op.high & 3 == FLAG
        return self.lint.machines[machine].touched.flag(op.low) if is_flag else None

    def still_pin_of(self, machine: int, op: Op) -> Optional[int]:
        """The pin that a machine waits for where it never changes, or none."""
        source = op.high & 3
        if op.kind != WAIT or source not in (GPIO, PIN):
            return None
        pin = (self.lint.machines[machine].setup["in_base"] * (source == PIN) + op.low) % 32
        return pin if self.lint.is_still(pin) and self.lint.level(pin) != op.high >> 2 else None

    def is_there(self, machine: int, op: Op, flags: int) -> bool:
        """Whether the flag that a machine waits for is there, so that it goes on at its next tick."""
        flag = self.flag_of(machine, op)
        wanted = op.word >> 7 & 1 if op.kind == WAIT else 0
        return flag is not None and flags >> flag & 1 == wanted

    def changing(self, machine: int, flag: int) -> list[int]:
        """The other machines that may change a flag."""
        return [it for it, other in self.lint.machines.items() if it != machine and flag in other.touched.changes]

    def may_go_on(self, machine: int, op: Op, goes_on: set[int]) -> bool:
        """Whether what a machine waits for may come: the system serves its FIFO, a pin moves, or a machine that goes on changes its flag."""
        own = {word for _, word, numbers in self.lines if word != "pin" and numbers[0] == machine}
        if op.is_pull() or op.kind == OUT:
            return bool(own & {"tx", "feed"})
        if op.is_push() or op.kind == IN:
            return bool(own & {"rx", "drain"})
        if self.still_pin_of(machine, op) is not None:
            return False
        flag = self.flag_of(machine, op)
        return flag is None or any(it in goes_on for it in self.changing(machine, flag))

    def why(self, machine: int, op: Op, flags: int) -> str:
        """What a machine waits for that never comes."""
        flag = self.flag_of(machine, op)
        if flag is not None:
            who = "no machine that goes on" if self.changing(machine, flag) else "no other machine"
            return f"{who} {'lowers' if flags >> flag & 1 else 'raises'} flag {flag}"
        if (pin := self.still_pin_of(machine, op)) is not None:
            return f"no machine and no line drives pin {pin}, which is {self.lint.level(pin)}"
        if op.is_push() or op.kind == IN:
            return "RX is full, and no line of the stimulus reads it"
        return "TX is empty, and no line of the stimulus writes to it"
