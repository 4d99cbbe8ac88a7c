"""From what a search finds to a run that is shown: its stimulus, made small, and confirmed by piotool's own trace."""

import tempfile
import time
from dataclasses import dataclass
from math import inf
from pathlib import Path
from typing import Any, Optional

from piotool.asked import Asked
from piotool.block_model import Line
from piotool.calls import piotool
from piotool.endless import addresses_round
from piotool.search import Found, Search, replayed
from piotool.set_up import SetUp
from piotool.setups import toml_of
from piotool.span_runs import Broken, Run, broken_at, open_at, run_of
from piotool.stimulus_lines import lines_of, text_of
from piotool.trace_text import without

MOST_STEPS = 150_000  # clocks that a run of the model works out singly
MOST_LOOPED = 20_000  # stretches of a loop that are gone round
SMALLER_STEPS = 400_000  # of all runs that are tried to make one small
# What the last run that was found may take beyond the time, and piotool for it, which leaps over no turn of a loop that counts.
MORE_SECONDS = 3.0
LAST_CLOCK = 10**12
LONG = 200_000  # clocks of a run in which machines that don't matter may write too much
HELD = 16  # clocks until machines are enabled that begin late


@dataclass
class Shown:
    """A run that breaks a span: its lines, its number of clocks, and how; without end where the count is never ended."""

    lines: list[Line]
    clocks: int
    broken: Broken
    loop: Optional[tuple[int, ...]] = None  # the addresses of a loop without end
    turn: int = 0  # the clock from which the loop is gone round once more


@dataclass
class Answer:
    """What is told of a span: a run that breaks it, or how far the search came."""

    shown: Optional[Shown]
    states: int
    last: int
    is_done: bool
    unmoved: Optional[str]  # why no from-event comes in any run


class Runs:
    """The runs of one span's set-up: by the model, of the machines that matter to it, and by piotool, of all."""

    def __init__(self, source: str | Path, asked: Asked, until: float = inf) -> None:
        self.source, self.block, self.span, self.until = source, asked.alone(), asked.span, until
        tables = asked.block.tables | {"span": []}
        self.bare = toml_of(tables)
        self.few = toml_of(tables | {"machine": [it for it in tables["machine"] if it["id"] in asked.numbers]})
        self.of_others = asked.of_others()
        self.steps = 0  # the clocks that were worked out singly

    def run_of(self, lines: list[Line], clocks: int, most_steps: int) -> Run:
        """A run by the model beside these lines."""
        return run_of(self.block, lines, clocks, most_steps, self.until, spans=[self.span])

    def broken(self, lines: list[Line], clocks: int) -> Optional[Shown]:
        """Whether the span is broken beside these lines, in as few clocks as show it."""
        run = self.run_of(lines, clocks, MOST_STEPS)
        self.steps += len(run.samples)
        if not run.is_whole or (broken := broken_at(self.block, self.span, run, lines)) is None:
            return None
        if broken.end is not None or broken.wait:
            clocks = broken.last + 1
            if broken.wait:
                clocks = broken.wait[0] + 1
                broken = broken_at(self.block, self.span, cut(run, clocks), lines) or broken
            return Shown(lines, clocks, broken)
        low, high = broken.begin + 1, clocks
        while low < high:
            middle = (low + high) // 2
            if broken_at(self.block, self.span, cut(run, middle), lines):
                high = middle
            else:
                low = middle + 1
        return Shown(lines, high, broken_at(self.block, self.span, cut(run, high), lines) or broken)

    def endless(self, lines: list[Line], first: int, second: int) -> Optional[Shown]:
        """The run where the span stays open for ever beside these lines, since the second clock is as the first one was."""
        addresses = addresses_round(self.block, lines, self.span["machine"], first, second, MOST_STEPS, self.until)
        if addresses is None:
            return None
        run = self.run_of(lines, second, MOST_STEPS)
        one, other = (open_at(self.block, self.span, cut(run, clocks)) for clocks in (first, second))
        if one is None or other is None or one.begin != other.begin or one.count >= other.count:
            return None
        return Shown(lines, second, other, addresses, first)

    def is_confirmed(self, shown: Shown) -> bool:
        """Whether piotool's own trace of the run is the model's, and the span is broken in it, or would be in the end.

        What is written by machines that don't matter isn't compared, and in long runs these are left out.
        """
        run = self.run_of(shown.lines, shown.clocks, 2 * MOST_STEPS)
        if not run.is_whole or not shown.loop and broken_at(self.block, self.span, run, shown.lines) is None:
            return False
        with tempfile.TemporaryDirectory() as folder:
            config, stimulus = Path(folder) / "bare.toml", Path(folder) / "shown.stim"
            config.write_text(self.bare if shown.clocks <= LONG else self.few)
            stimulus.write_text(text_of(shown.lines))
            words = ["--source", self.source, "--config", config, "--stimulus", stimulus, "--clocks", shown.clocks]
            status, text, _ = piotool("run", *words, within=MORE_SECONDS)
        wanted = run.trace()
        return status == 0 and (text == wanted or without(text, self.of_others) == without(wanted, self.of_others))


def cut(run: Run, clocks: int) -> Run:
    """The first clocks of a run."""
    return Run(clocks, [it for it in run.samples if it[0] < clocks], run.ticks, run.stands, acts=run.acts, watched=run.watched)


def answer_of(source: str | Path, block: SetUp, span: dict[str, Any], seconds: float, is_guided: bool = True) -> Answer:
    """What is told of a span, after so many seconds at most.

    Where every state was visited, runs are searched in which the machines are enabled late.
    """
    asked, end = Asked(block, span), time.process_time() + seconds
    if unmoved := asked.unmoved_from():
        return Answer(None, 0, 0, True, unmoved)
    answer = searched(source, asked, end, is_guided)
    if answer.is_done and time.process_time() < end:
        late = searched(source, Asked(block, span, HELD), end, is_guided)
        answer = late if late.shown else answer
    return answer


def searched(source: str | Path, asked: Asked, end: float, is_guided: bool) -> Answer:
    """What one search comes to, up to a time."""
    search, runs = Search(asked, is_guided), Runs(source, asked, end + MORE_SECONDS)
    for found in search.found(end - time.process_time()):
        shown = shown_by(search, runs, found)
        if shown and runs.is_confirmed(shown):
            small = smaller(runs, shown)
            if small is not shown and runs.is_confirmed(small):
                shown = small
            return Answer(shown, search.states, search.last, False, None)
    return Answer(None, search.states, search.last, search.is_done, None)


def shown_by(search: Search, runs: Runs, found: Found) -> Optional[Shown]:
    """The run that was found, where the model breaks the span in it."""
    asked, log = search.asked, []
    if found.loop and (shown := endless(search, runs, found)):
        return shown
    loop = found.loop or []
    if found.turns * len(loop) > MOST_LOOPED:
        return None
    stretch = replayed(asked, search.guide, found.tapes + loop * found.turns, log, runs.until)
    if stretch is None or stretch.found is None or stretch.found > LAST_CLOCK:
        return None
    lines = lines_of(log, asked.pins["high"], asked.held, asked.numbers)
    return None if lines is None else runs.broken(lines, stretch.found + asked.held)


def endless(search: Search, runs: Runs, found: Found) -> Optional[Shown]:
    """The run of a loop that is never left, in which the count grows and the to-edge never comes."""
    asked, log, clocks = search.asked, [], []
    stretch = None
    for turns in (1, 2, 3):
        log = []
        stretch = replayed(asked, search.guide, found.tapes + (found.loop or []) * turns, log)
        if stretch is None or stretch.found is not None:
            return None
        clocks.append(stretch.state.clock)
    lines = lines_of(log, asked.pins["high"], asked.held, asked.numbers)
    if lines is None or stretch is None:
        return None
    return runs.endless(lines, clocks[1] + asked.held, clocks[2] + asked.held)


def smaller(runs: Runs, shown: Shown) -> Shown:
    """A run with fewer lines and smaller words that breaks the span too."""
    most = runs.steps + SMALLER_STEPS

    def tried(lines: list[Line]) -> bool:
        nonlocal shown
        if runs.steps > most or lines == shown.lines:
            return False
        found = still(runs, shown, lines)
        if found is not None:
            shown = found
        return found is not None

    if not shown.lines or tried([]):
        return shown
    for number in range(4):
        for kind in ("tx", "rx"):
            tried(joined(shown.lines, kind, number))
    part = len(shown.lines)
    while part:
        place = len(shown.lines)
        while place > 0:
            place = min(place, len(shown.lines)) - part
            tried(shown.lines[: max(place, 0)] + shown.lines[max(place, 0) + part :])
        part //= 2
    for place in range(len(shown.lines)):
        for lines in with_smaller_words(shown.lines, place):
            tried(lines)
    place = len(shown.lines) - 1
    while place >= 0:
        tried(shown.lines[:place] + shown.lines[place + 1 :])
        place = min(place, len(shown.lines)) - 1
    return shown


def still(runs: Runs, shown: Shown, lines: list[Line]) -> Optional[Shown]:
    """The run beside other lines, where it breaks the span too; of an endless loop in the same clocks."""
    if shown.loop:
        return runs.endless(lines, shown.turn, shown.clocks)
    return runs.broken(lines, shown.clocks)


def joined(lines: list[Line], kind: str, number: int) -> list[Line]:
    """The lines with one transfer in the place of a machine's single words."""
    own = [it for it in lines if it[1] == kind and it[2][0] == number]
    if len(own) < 2:
        return lines
    rest = [it for it in lines if not (it[1] == kind and it[2][0] == number)]
    words = [it[2][1] for it in own] if kind == "tx" else []
    return [(0, "feed" if kind == "tx" else "drain", [number, 1, *words]), *rest]


def with_smaller_words(lines: list[Line], place: int) -> list[list[Line]]:
    """The lines with smaller words in one of them."""
    clock, word, numbers = lines[place]
    first = {"tx": 1, "feed": 2}.get(word)
    if first is None:
        return []
    found = []
    if word == "feed":
        counts = first + 1, first + 2, (first + len(numbers) + 1) // 2, len(numbers) - 1
        found += [numbers[:count] for count in counts if count > first]
    for at in range(first, min(len(numbers), first + 8)):
        found += [[*numbers[:at], smaller, *numbers[at + 1 :]] for smaller in (0, 1, numbers[at] & 0xFF) if smaller < numbers[at]]
    return [[*lines[:place], (clock, word, it), *lines[place + 1 :]] for it in found]
