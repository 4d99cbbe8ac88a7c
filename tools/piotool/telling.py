"""What is told of a span that was searched: its line, and the calls that show its run."""

import os
from math import inf
from pathlib import Path
from typing import Any, Optional

from piotool.breaking import Answer, Shown
from piotool.set_up import SetUp
from piotool.setups import quoted
from piotool.span_model import TO_X, TO_Y, Context, Machine, meet_of, wire_of

ROOM = 30  # clocks that a picture shows before the from-edge and after the end
# How each edge is written: it does so, it has done so, it may do so.
EDGES = {
    "rise": ("rises", "risen", "rise"),
    "fall": ("falls", "fallen", "fall"),
    "out": ("becomes an output", "become an output", "become an output"),
    "in": ("becomes an input", "become an input", "become an input"),
}
DONE = ("finishes", "finished", "finish")


def bounds_of(span: dict[str, Any]) -> str:
    """The declared bounds, as `2..7`, or `at least 2`."""
    return f"at least {span['min']}" if span["max"] == inf else f"{span['min']}..{span['max']}"


def event_of(block: SetUp, span: dict[str, Any], end: str) -> tuple[str, tuple[str, ...]]:
    """Whose the event at an end of a span is, a pin or an instruction, and how it is written: it does so, has done so, may do so."""
    if done := span.get(f"{end}_done"):
        return labels_of(block, span, done), DONE
    at = span.get(f"{end}_at")
    by = f" by {labels_of(block, span, at)}" if at else ""
    return f"p{span[f'{end}_pin']}", tuple(it + by for it in EDGES[span[f"{end}_edge"]])


def labels_of(block: SetUp, span: dict[str, Any], addresses: list[int]) -> str:
    """The labels of these addresses as a text."""
    return quoted(place_of(block, span["machine"], (it,)).strip('"') for it in addresses)


def line_of(block: SetUp, span: dict[str, Any], answer: Answer, seconds: float, stem: Optional[str] = None) -> str:
    """The line that is told of a span."""
    name = span["name"]
    if answer.shown:
        how = f"by {stem or name}.stim" if answer.shown.lines else "with no stimulus at all"
        return f"span {name} broken {how}: {broken_text(block, span, answer.shown)}"
    if answer.unmoved is not None:
        return f"span {name}: no run breaks it: {answer.unmoved}; not a proof"
    within = " within what it assumes" if span.get("assume") else ""
    if answer.is_done:
        visited = f"({answer.states} state{'s' * (answer.states != 1)}, all visited)"
        return f"span {name}: no run breaks it{within} beside a stimulus without enable, disable and restart {visited}; not a proof"
    return f"span {name}: no run found{within} ({seconds:g} s, {answer.states} states, up to clock {answer.last})"


def broken_text(block: SetUp, span: dict[str, Any], shown: Shown) -> str:
    """How a run breaks a span."""
    broken = shown.broken
    (first, (does, *_)), (second, (ends, ended, _)) = (event_of(block, span, end) for end in ("from", "to"))
    begins = f"{first} {does} at clock {broken.begin}"
    if shown.loop:
        same = f" and never {ends}" if first == second else f", and {second} never {ends}"
        return f"{begins}{same}: it goes round {place_of(block, span['machine'], shown.loop)} from then on"
    if broken.wait:
        clock, address = broken.wait
        where = place_of(block, span["machine"], (address,))
        return f"{begins}, and machine {span['machine']} waits at clock {clock} at {where}, which the span doesn't name"
    count = f"{broken.count} {span['unit'] if broken.count != 1 else span['unit'][:-1]} of {bounds_of(span)}"
    if broken.end is not None:
        return f"{begins}, {second} {ends} at clock {broken.end}: {count}"
    same = f" and hasn't {ended}" if first == second else f", and {second} hasn't {ended}"
    return f"{begins}{same} at clock {broken.last}: {count}"


def asked_text(machine: Machine, address: int) -> str:
    """What a span assumes after the instruction at an address, as `x in 0..255`; nothing where it assumes nothing there."""
    return " and ".join(in_range(name, meet) for name in ("x", "y") if (meet := meet_of(machine.assume, address, name)))


def in_range(name: str, meet: tuple[int, int]) -> str:
    """A register with the range in which it is assumed to be."""
    least, most = meet
    return f"{name} in {least}..{most}" if least < most else f"{name} = {least}" if least == most else f"{name} in ranges without a number in common"


def unmet_text(machine: Machine, context: Context) -> str:
    """Why what is assumed after the instruction at a context can't hold there."""
    word, address = machine.memory[context.address], context.address
    for name, which in (("x", TO_X), ("y", TO_Y)):
        meet, known = meet_of(machine.assume, address, name), machine.register_after(word, which, context)
        if meet is None:
            continue
        if meet[0] > meet[1]:
            return f"the ranges of {name} have no number in common"
        if known is not None and not meet[0] <= known <= meet[1]:
            return f"{name} is {known} after it, and assumed is {in_range(name, meet)}"
    return ""


def place_of(block: SetUp, machine: int, addresses: tuple[int, ...]) -> str:
    """The label of the first of these addresses that has one, or the first address."""
    labels = (block.label_at(machine, address) for address in addresses)
    label = next((it for it in labels if it), None)
    return f'"{label}"' if label else f"address {addresses[0]}"


def calls_of(
    source: str, config: str, span: dict[str, Any], stem: str, folder: Path, shown: Shown
) -> list[tuple[list[str], str]]:
    """The calls that write the trace and the picture of a run, each with the file that its output is.

    Of an end that is no edge a trace shows nothing: without an edge there is no picture, and with one that of its pin.
    """
    files = {ending: os.path.normpath(folder / f"{stem}.{ending}") for ending in ("bare.toml", "stim", "vcd", "svg")}
    files = {ending: f"./{path}" if path.startswith("-") else path for ending, path in files.items()}
    run = ["piotool", "run", "--source", source, "--config", files["bare.toml"]]
    run += ["--stimulus", files["stim"]] if shown.lines else []
    first, last = max(0, shown.broken.begin - ROOM), min(shown.clocks, shown.broken.last + 1 + ROOM)
    part = [] if first == 0 else ["--from", str(first)]
    traced = [*run, "--clocks", str(shown.clocks)], files["vcd"]
    wires = [wire for end in ("from", "to") if (wire := wire_of(span, end))]
    if not wires:
        return [traced]
    drawn = ["--span", f"{config}:{span['name']}"] if len(wires) == 2 else ["--pins", *wires]
    return [traced, (["piotool-draw", files["vcd"], *part, "--to", str(last), *drawn], files["svg"])]
