"""Leaps of a run over the turns of a counted loop of several instructions.

Where a block is in a state that it was in before, but that a counter is lower by 1, it goes round so again as long as the counter isn't
0: if no line of the stimulus came, nothing that a sample has changed, and the counter was looked at by its own JMP alone.
"""

from bisect import bisect_left
from dataclasses import dataclass
from typing import Any, Optional

from piotool.block_model import Block
from piotool.machine_model import period_of

WAIT, JMP, MOV, IRQ, SET = 1, 0, 5, 6, 7
NOP = 0xA042
X, Y = 1, 2  # as MOV and SET name them
EXEC, PC = 4, 5


@dataclass
class Mark:
    """Where a machine went back in its program: the clock after it, the counter, all else that counts, and how many words it had begun."""

    clock: int
    counter: int
    state: tuple[Any, ...]
    words: int


class Turns:
    """The turns of a run's loops, so far. `lines` are the clocks of the stimulus, in order."""

    def __init__(self, block: Block, lines: list[int]) -> None:
        self.block, self.lines = block, lines
        self.before: dict[int, tuple[int, int, int]] = {}
        self.words: dict[int, list[int]] = {number: [] for number in block.machines}
        self.shown: Optional[list[int]] = None
        self.marks: dict[tuple[int, int], Mark] = {}

    def note(self, clock: int) -> None:
        """Notes where the machines are before a clock."""
        place = bisect_left(self.lines, clock)
        if place < len(self.lines) and self.lines[place] == clock:
            self.marks.clear()
        for number, it in self.block.machines.items():
            self.before[number] = it.pc, it.x, it.y
            if not it.delay:
                is_plain = it.pending is None and it.pc not in it.watched
                self.words[number].append(self.block.memory[it.pc] if is_plain else -1)

    def leap(self, clock: int, pads: tuple[int, int], values: list[int], clocks: int) -> int:
        """The clock after the turns that go on from the start of this one as the last one did; before it the values were these."""
        if values != self.shown:
            self.shown = values
            self.marks.clear()
        for number, machine in self.block.machines.items():
            pc, x, y = self.before[number]
            if machine.pc <= pc and (machine.x, machine.y) in ((x - 1, y), (x, y - 1)):
                is_x = machine.y == y
                counter = machine.x if is_x else machine.y
                mark = self.marks.get((number, pc))
                now = Mark(clock, counter, self.state(clock, number, is_x, pads), len(self.words[number]))
                self.marks[number, pc] = now
                if mark and mark.state == now.state and mark.counter == counter + 1 and self.is_plain(number, mark, is_x):
                    length = clock - mark.clock
                    return self.leapt(number, is_x, min(counter - 1, (self.limit(clock, clocks) - clock) // length), length, clock)
        return clock

    def state(self, clock: int, number: int, is_x: bool, pads: tuple[int, int]) -> tuple[Any, ...]:
        """All that the clocks from one on hang on, but for a counter, lines and transfers."""
        machines = []
        for own, it in self.block.machines.items():
            counters = (it.y if is_x else it.x,) if own == number else (it.x, it.y)
            fifos, counts = (tuple(it.tx), tuple(it.rx)), (it.in_count, it.out_count, it.delay)
            phase = (clock - it.restarted) * 256 % period_of(it.setup)
            machines.append((it.pc, counters, it.isr, it.osr, counts, it.pending, it.begun, it.enabled, fifos, phase))
        block = self.block
        return machines, block.levels, block.directions, block.outside, block.flags, pads

    def is_plain(self, number: int, mark: Mark, is_x: bool) -> bool:
        """Whether in the turn since a mark no tick was late, no other machine had one, and each word leaves the counter but by its JMP."""
        for other, log in self.block.ticks.items():
            for row in reversed(log.rows):
                if row.last < mark.clock:
                    break
                if other != number or row.address is not None:
                    return False
        return all(leaves(word, is_x) for word in self.words[number][mark.words :])

    def limit(self, clock: int, clocks: int) -> int:
        """The first clock at which something may come from the system, or the end of the run."""
        place, found = bisect_left(self.lines, clock), clocks
        found = min(found, self.lines[place]) if place < len(self.lines) else found
        for number, machine in self.block.machines.items():
            feed, drain = self.block.system.feeds.get(number), self.block.system.drains.get(number)
            if feed and feed["words"] and len(machine.tx) < machine.tx_room:
                found = min(found, max(feed["due"], clock))
            if drain and machine.rx:
                found = min(found, max(drain["due"], clock))
        return found

    def leapt(self, number: int, is_x: bool, turns: int, length: int, clock: int) -> int:
        """Goes round so many turns of a machine; the clock after them."""
        if turns <= 0:
            return clock
        machine, log, after = self.block.machines[number], self.block.ticks[number], clock + turns * length
        ticks = log.ticks_before(after, machine.restarted) - log.ticks_before(clock, machine.restarted)
        log.add(clock, after - 1, ticks, None, machine.restarted)
        if is_x:
            machine.x -= turns
        else:
            machine.y -= turns
        self.block.moved += turns * length
        del self.marks[number, self.before[number][0]]  # a mark of a loop around this one stays
        return after


def leaves(word: int, is_x: bool) -> bool:
    """Whether a word looks at X by `jmp x--` alone and doesn't write it else (or Y, by `jmp y--`). A word of data is -1, as is one that is watched."""
    kind, high, low, counter = word >> 13, word >> 5 & 7, word & 31, X if is_x else Y
    if kind == JMP:
        return high not in ((1, 5) if is_x else (3, 5))
    if kind == MOV:
        return word & 0xE0FF == NOP or high not in (counter, EXEC, PC) and low & 7 != counter
    return kind in (WAIT, IRQ) or kind == SET and high != counter
