"""The value-change text of samples, from the written rules (docs/SPECIFICATION.md, "Samples and the trace")."""

from typing import Iterable

NAMES = [f"{letter}{n}" for letter, count in (("p", 32), ("d", 32), ("f", 8)) for n in range(count)]
NAMES += [f"{letter}{n}" for letter in "trws" for n in range(4)]
WIDTHS = [1] * 72 + [4] * 8 + [32] * 4 + [4] * 4


def trace(all_samples: Iterable[list[int]], clocks: int) -> str:
    """The value-change text of samples."""
    return text_of(enumerate([now] for now in all_samples), clocks, [("pio", "")])


def sparse_trace(samples: Iterable[tuple[int, list[int]]], clocks: int) -> str:
    """The same of the samples of some clocks; in the others nothing changes."""
    return text_of(((clock, [now]) for clock, now in samples), clocks, [("pio", "")])


def pair_trace(all_samples: Iterable[list[list[int]]], clocks: int) -> str:
    """The value-change text of the samples of two blocks."""
    return text_of(enumerate(all_samples), clocks, [("pio0", ""), ("pio1", "~")])


def text_of(samples: Iterable[tuple[int, list[list[int]]]], clocks: int, scopes: list[tuple[str, str]]) -> str:
    """The text of samples of one block or two, each with the name of its scope and what is before its identifiers."""

    def line(front: str, place: int, value: int) -> str:
        identifier = front + chr(33 + place)
        return f"{value}{identifier}" if WIDTHS[place] == 1 else f"b{value:b} {identifier}"

    text = ["$timescale 1 ns $end"]
    for scope, front in scopes:
        text.append(f"$scope module {scope} $end")
        text += [f"$var wire {WIDTHS[i]} {front}{chr(33 + i)} {name} $end" for i, name in enumerate(NAMES)]
        text.append("$upscope $end")
    text += ["$enddefinitions $end", "#0"]
    before = None
    for clock, now in samples:
        changed = [
            line(front, place, value)
            for block, (_, front) in enumerate(scopes)
            for place, value in enumerate(now[block])
            if before is None or value != before[block][place]
        ]
        if clock == 0:
            text += ["$dumpvars"] + changed + ["$end"]
        elif changed:
            text += [f"#{clock}"] + changed
        before = now
    return "\n".join(text + ([f"#{clocks}"] if clocks else [])) + "\n"


def without(text: str, names: set[str]) -> str:
    """The text of one block's samples without the values of these names, and without the clocks that then have no change."""
    dropped = {chr(33 + place) for place, name in enumerate(NAMES) if name in names}
    lines: list[str] = []
    for line in text.splitlines():
        if line[:1] in ("0", "1") and line[1:] in dropped or line[:1] == "b" and line[-1:] in dropped:
            continue
        if line[:1] == "#" and lines and lines[-1][:1] == "#":
            lines.pop()
        lines.append(line)
    return "\n".join(lines) + "\n"
