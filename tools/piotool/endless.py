"""Whether a machine goes round a loop without end: its block comes to one state twice, after the last line of its stimulus."""

from typing import Optional

from piotool.block_model import Line
from piotool.set_up import SetUp
from piotool.span_runs import run_of


def addresses_round(
    block: SetUp, lines: list[Line], number: int, first: int, second: int, most_steps: float, until: float
) -> Optional[tuple[int, ...]]:
    """The addresses that a machine comes through from one clock to another, where the block is then as it was."""
    if any(clock >= first or word in ("feed", "drain") for clock, word, _ in lines):
        return None
    run = run_of(block, lines, second + 1, most_steps, until, (first, second))
    if not run.is_whole or run.marks[0].state != run.marks[1].state:
        return None
    return tuple(dict.fromkeys(places[number] for clock, places in run.places if first <= clock < second))
