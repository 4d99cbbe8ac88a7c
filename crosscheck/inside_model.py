"""What `piotool inspect` writes, from the written rules (docs/SPECIFICATION.md, "What is inside").

After each clock the 88 values of a sample; what stood at each pad in the clock; and of each configured machine where it is, its
registers, whether it waits, and whether it is enabled.
"""

from typing import Iterator

from piotool.block_model import Block, Line, System
from piotool.machine_model import Machine, Setup
from piotool.trace_text import NAMES, WIDTHS

# A variable: its identifier, its name, its width.
Variable = tuple[str, str, int]

# The values of a machine in order: name, width, and how a machine shows it. The word needs the memory.
VALUES = [("pc", 5), ("instruction", 16), ("x", 32), ("y", 32), ("isr", 32), ("osr", 32), ("isr_count", 6), ("osr_count", 6), ("waits", 1), ("enabled", 1)]


def machine_values(machine: Machine, memory: list[int]) -> list[int]:
    """The ten values of a machine."""
    word = memory[machine.pc] if machine.pending is None else machine.pending
    registers = [machine.pc, word, machine.x, machine.y, machine.isr, machine.osr, machine.in_count, machine.out_count]
    return [*registers, int(machine.begun), int(machine.enabled)]


def insides(memory: list[int], setups: dict[int, Setup], pins: dict[str, int], lines: list[Line], clocks: int) -> Iterator[list[int]]:
    """All values after each clock, in the order of `scopes`."""
    block = Block(memory, setups, pins, System(lines))

    def pads() -> int:
        return block.levels & block.directions | block.outside & ~block.directions

    history = {-2: pads(), -1: pads()}
    for clock in range(clocks):
        block.begin(clock)
        before, history[clock] = history.pop(clock - 2), pads()
        values = block.step(clock, before, history[clock])
        values = values + [history[clock] >> pin & 1 for pin in range(32)]
        yield values + [value for machine in block.machines.values() for value in machine_values(machine, memory)]


def scopes(numbers: list[int]) -> list[tuple[str, list[Variable]]]:
    """The scopes of the text with their variables, where these machines are configured. A machine's identifiers are its own."""
    first = [(chr(33 + place), name, WIDTHS[place]) for place, name in enumerate(NAMES)]
    pads = [("~" + chr(33 + pin), f"i{pin}", 1) for pin in range(32)]
    found = [("pio", first), ("pads", pads)]
    for number in numbers:
        begin = 33 + 32 + len(VALUES) * number
        found.append((f"sm{number}", [("~" + chr(begin + place), name, width) for place, (name, width) in enumerate(VALUES)]))
    return found


def text(memory: list[int], setups: dict[int, Setup], pins: dict[str, int], lines: list[Line], clocks: int) -> str:
    """The whole text."""
    parts = scopes(sorted(setups))
    out = ["$timescale 1 ns $end"]
    for scope, variables in parts:
        out += [f"$scope module {scope} $end", *(f"$var wire {width} {it} {name} $end" for it, name, width in variables), "$upscope $end"]
    out += ["$enddefinitions $end", "#0"]
    known = [variable for _, variables in parts for variable in variables]
    before: list[int] = []
    for clock, now in enumerate(insides(memory, setups, pins, lines, clocks)):
        changed = [
            f"{value}{it}" if width == 1 else f"b{value:b} {it}"
            for place, ((it, _, width), value) in enumerate(zip(known, now, strict=True))
            if not before or value != before[place]
        ]
        if clock == 0:
            out += ["$dumpvars", *changed, "$end"]
        elif changed:
            out += [f"#{clock}", *changed]
        before = now
    return "\n".join(out + ([f"#{clocks}"] if clocks else [])) + "\n"


def without_inside(traced: str) -> str:
    """The text without all but the scope `pio`, and without the clocks that then have no change: it should be that of `run`."""
    lines: list[str] = []
    is_left_out = False
    for line in traced.splitlines():
        if line.startswith("$scope"):
            is_left_out = line != "$scope module pio $end"
        if is_left_out:
            is_left_out = line != "$upscope $end"
            continue
        is_inside = line[:1] in ("0", "1") and line[1:2] == "~" and len(line) == 3 or line[:1] == "b" and line[-2:-1] == "~"
        if is_inside:
            continue
        if line[:1] == "#" and lines and lines[-1][:1] == "#":
            lines.pop()
        lines.append(line)
    return "\n".join(lines) + "\n"
