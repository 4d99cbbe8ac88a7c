"""Runs of a block, also long ones, and whether a span holds in them, from the written rules (docs/SPECIFICATION.md).

A run is the samples of clocks in which something may have changed. Clocks in which only delays, waits and turns of counted loops go
on are leapt over.
"""

from bisect import bisect_left, bisect_right
from dataclasses import dataclass, field
from math import inf
from time import process_time
from typing import Any, Iterator, Optional, Sequence

from piotool import trace_text
from piotool.block_model import Block, Line, System, TickLog
from piotool.machine_model import Machine, period_of
from piotool.set_up import SetUp
from piotool.span_model import bit_of, end_of
from piotool.turns import Turns


@dataclass
class Stand:
    """Clocks at whose start a machine has begun the instruction at an address, or stands before it; and which of the two."""

    first: int
    last: int
    address: int
    has_begun: bool

    def excuses(self, span: dict[str, Any]) -> bool:
        """Whether nothing is said of a span that is open then."""
        if self.has_begun:
            return bool(span.get("prompt")) and self.address not in span["stalls"]
        return self.address in span.get("without", [])


@dataclass(frozen=True)
class Act:
    """A tick of an instruction in memory, its first one or a late one: its address, whether it finishes, and X and Y after it."""

    address: int
    finishes: bool
    x: int = 0
    y: int = 0
    is_rested: bool = True  # no delay is left after it


@dataclass(frozen=True)
class Mark:
    """All that the clocks from one on hang on, beside lines and transfers."""

    clock: int
    state: tuple[Any, ...]


@dataclass
class Run:
    """A run: its number of clocks, the samples of clocks in which something may have changed, and the ticks of its machines."""

    clocks: int
    samples: list[tuple[int, list[int]]]
    ticks: dict[int, TickLog]
    stands: dict[int, list[Stand]] = field(default_factory=dict)  # of each machine, in order
    is_whole: bool = True
    marks: list["Mark"] = field(default_factory=list)
    places: list[tuple[int, dict[int, int]]] = field(default_factory=list)  # the address of each machine, where marks are asked
    acts: dict[int, dict[int, "Act"]] = field(default_factory=dict)  # what each machine did, by clock
    watched: dict[int, set[int]] = field(default_factory=dict)  # the addresses of each machine whose ends no leap went over

    def trace(self) -> str:
        """The value-change text."""
        return trace_text.sparse_trace(self.samples, self.clocks)

    def events(self, pins: dict[str, int], span: dict[str, Any], end: str) -> list[int]:
        """The clocks of a span's from-events, or of its to-events."""
        event, acts = end_of(span, end), self.acts.get(span["machine"], {})
        if event.wire is None:
            named = event.addresses or frozenset()
            if not named <= self.watched.get(span["machine"], set()):
                raise ValueError("a run that wasn't asked for this span")
            return [clock for clock, act in acts.items() if act.finishes and act.address in named and clock < self.clocks]
        found = self.edges(event.wire, bit_of(pins, event.wire), event.bit)
        if event.addresses is None:
            return found
        return [clock for clock in found if clock in acts and acts[clock].address in event.addresses]

    def edges(self, wire: str, before: int, wanted: int) -> list[int]:
        """The clocks in which a wire comes to have a bit; before clock 0 it has the one of the setup."""
        found, place = [], int(wire[1:]) + 32 * (wire[0] == "d")
        for clock, values in self.samples:
            if values[place] != before:
                before = values[place]
                found += [clock] if before == wanted else []
        return found

    def spoken(self, span: dict[str, Any]) -> int:
        """Up to which clock a span speaks of the run: the first one in which its assumptions don't hold, or the run's end.

        After an instruction that leaves a register outside its range that is the last tick of its delay.
        """
        acts, assumed = self.acts.get(span["machine"], {}), span.get("assume", [])
        if {it["after"] for it in assumed} - self.watched.get(span["machine"], set()):
            raise ValueError("a run that wasn't asked for this span")
        misses = [clock for clock, act in sorted(acts.items()) if act.finishes and not all(is_met(it, act) for it in assumed)]
        return min([self.clocks, *(clock if acts[clock].is_rested else self.rested(span["machine"], clock) for clock in misses)])

    def rested(self, machine: int, clock: int) -> int:
        """The clock in which the delay of an instruction is over that finished in this one, or the run's end."""
        stands = self.stands.get(machine, [])
        place = bisect_left([it.last for it in stands], clock + 1)
        return max(stands[place].first, clock + 1) - 1 if place < len(stands) else self.clocks

    def excused(self, span: dict[str, Any]) -> "Excused":
        """The clocks in which a span is excused."""
        rows = self.stands.get(span["machine"], []) if span.get("prompt") or span.get("without") else []
        return Excused([it for it in rows if it.excuses(span)])


def is_met(one: dict[str, Any], act: Act) -> bool:
    """Whether an instruction that finished left X and Y as an assumption has them."""
    return one["after"] != act.address or all(least <= value <= most for value, (least, most) in asked_of(one, act))


def asked_of(one: dict[str, Any], act: Act) -> list[tuple[int, tuple[int, int]]]:
    """The registers that an assumption has a range for, each with it."""
    return [(value, (one[name][0], one[name][1])) for name, value in (("x", act.x), ("y", act.y)) if name in one]


class Excused:
    """The clocks in which a span is excused, by the state of its machine at their start."""

    def __init__(self, rows: list[Stand]) -> None:
        self.rows, self.lasts = rows, [it.last for it in rows]

    def within(self, begin: int, last: int) -> bool:
        """Whether one of them comes after a clock and up to another one."""
        place = bisect_right(self.lasts, begin)
        return begin < last and place < len(self.rows) and self.rows[place].first <= last


@dataclass(frozen=True)
class Broken:
    """How a run breaks a span: the clocks of the from-event and of the to-event or none, the last clock that counts, the count, and the bad wait."""

    begin: int
    end: Optional[int]
    last: int
    count: int
    wait: Optional[tuple[int, int]] = None  # the clock of a late tick, and its address

    def __str__(self) -> str:
        what = "a wait that isn't named" if self.wait else f"a count of {self.count}"
        return f"{what} from clock {self.begin} to {self.last}"


def run_of(
    block: SetUp,
    lines: list[Line],
    clocks: int,
    most_steps: float = inf,
    until: float = inf,
    marks: tuple[int, ...] = (),
    spans: Sequence[dict[str, Any]] = (),
) -> Run:
    """A run in which the events of these spans can be looked for, with the states at the start of the clocks that are marked.

    Where more clocks than the most have to be worked out singly, or a time is over, it isn't whole.
    """
    stepped = Block(block.memory, block.setups, block.pins, System(lines))
    own = sorted({line[0] for line in lines} | set(marks))
    samples: list[tuple[int, list[int]]] = []
    found = Run(clocks, samples, stepped.ticks, {number: [] for number in stepped.machines})
    for number, machine in stepped.machines.items():
        found.acts[number], found.watched[number] = {}, ended_in(spans, number)
        machine.watched = frozenset(found.watched[number])
    before = last = pads_of(stepped)  # the pads of two clocks ago, and of the one before
    turns = Turns(stepped, own)
    clock = steps = 0
    while clock < clocks:
        if steps >= most_steps or steps % 256 == 0 and process_time() > until:
            found.is_whole = False
            break
        steps += 1
        if clock in marks:
            found.marks.append(Mark(clock, (state_of(stepped, clock), before, last)))
        if marks:
            found.places.append((clock, {number: machine.pc for number, machine in stepped.machines.items()}))
        turns.note(clock)
        for number, machine in stepped.machines.items():
            note_stand(found.stands[number], machine, stepped.ticks[number], clock, clock)
        stepped.begin(clock)
        now = pads_of(stepped)
        stood = [(number, it.pc) for number, it in stepped.machines.items() if it.pending is None and not it.delay]
        samples.append((clock, stepped.step(clock, before, now)))
        for number, address in stood:
            if (log := stepped.ticks[number]).lasts and log.lasts[-1] == clock:
                machine = stepped.machines[number]
                found.acts[number][clock] = Act(address, not machine.begun, machine.x, machine.y, not machine.delay)
        after = int(min(clocks, next_clock(stepped, own, clock)))
        for number, machine in stepped.machines.items() if after > clock + 1 else ():
            note_stand(found.stands[number], machine, stepped.ticks[number], clock + 1, after - 1)
            rest(stepped, machine, stepped.ticks[number], clock + 1, after)
        settled = pads_of(stepped)
        before = last if after == clock + 1 else now if after == clock + 2 else settled
        last = now if after == clock + 1 else settled
        clock = after if marks else turns.leap(after, (before, last), samples[-1][1], clocks)
    for number, machine in stepped.machines.items() if found.is_whole else ():
        note_stand(found.stands[number], machine, stepped.ticks[number], clocks, clocks)
    return found


def ended_in(spans: Sequence[dict[str, Any]], number: int) -> set[int]:
    """The addresses of a machine whose instructions' ends are events of spans, or after which they assume something."""
    own = [it for it in spans if it["machine"] == number]
    ends = {at for it in own for key in ("from_done", "to_done") for at in it.get(key, [])}
    return ends | {one["after"] for it in own for one in it.get("assume", [])}


def note_stand(stands: list[Stand], machine: Machine, log: TickLog, first: int, last: int) -> None:
    """Notes where a machine is at the start of these clocks, in which at most one instruction begins, or one that only counts goes on."""
    if machine.delay and not machine.enabled or machine.pending is not None and not machine.begun:
        return
    if machine.delay:
        # It stands before the next instruction from the clock after the last tick of its delay on.
        tick = log.ticks_before(first, machine.restarted) + machine.delay - 1
        first = max(first, machine.restarted + (tick * log.period >> 8) + 1)
    if first > last:
        return
    before = stands[-1] if stands else None
    if before and (before.last, before.address, before.has_begun) == (first - 1, machine.pc, machine.begun):
        before.last = last
    else:
        stands.append(Stand(first, last, machine.pc, machine.begun))


def state_of(block: Block, clock: int) -> tuple[Any, ...]:
    """The state of a block at the start of a clock, before its lines act."""
    machines = tuple(
        (
            it.pc, it.x, it.y, it.isr, it.osr, it.in_count, it.out_count, it.delay, it.pending, it.begun, it.enabled,
            tuple(it.tx), tuple(it.rx), (clock - it.restarted) * 256 % period_of(it.setup),
        )
        for it in block.machines.values()
    )  # fmt: skip
    return machines, block.levels, block.directions, block.outside, block.flags


def pads_of(block: Block) -> int:
    """The pads of a block."""
    return block.levels & block.directions | block.outside & ~block.directions


def next_clock(block: Block, lines: list[int], clock: int) -> float:
    """The next clock in which more may happen than delays, waits that go on, and turns of a counted loop."""
    place = bisect_right(lines, clock)
    found = lines[place] if place < len(lines) else inf
    for number, machine in block.machines.items():
        feed, drain = block.system.feeds.get(number), block.system.drains.get(number)
        if feed and feed["words"] and len(machine.tx) < machine.tx_room:
            found = min(found, max(feed["due"], clock + 1))
        if drain and machine.rx:
            found = min(found, max(drain["due"], clock + 1))
        if machine.enabled:
            found = min(found, next_move(block, machine, block.ticks[number], clock))
    return found


def next_move(block: Block, machine: Machine, log: TickLog, clock: int) -> float:
    """The clock of a machine's next tick that is neither delay, nor a wait that goes on, nor a turn of a counted loop.

    A wait goes on where a tick was late since something moved, and what moved was seen.
    """
    if machine.begun and log.rows[-1].address is not None and log.lasts[-1] > block.moved + 2:
        return inf
    tick = log.ticks_before(clock + 1, machine.restarted)
    refills = machine.setup["autopull"] and machine.out_count >= machine.setup["pull_threshold"] and machine.tx
    if not refills:
        turns, length = turns_of(block, machine)
        tick += machine.delay + turns * length
    return machine.restarted + (tick * log.period >> 8)


def turns_of(block: Block, machine: Machine) -> tuple[int, int]:
    """How many turns of a counted loop of one instruction a machine has before it, where it is in one, and the ticks of each."""
    if not machine.has_turned or machine.begun or machine.pc in machine.watched:
        return 0, 1
    word = block.memory[machine.pc]
    if word >> 13 or word >> 5 & 7 not in (2, 4) or word & 31 != machine.pc:
        return 0, 1
    bits, has_enable = machine.setup["side_bits"], int(machine.setup["side_opt"])
    return machine.x if word >> 5 & 7 == 2 else machine.y, 1 + (word >> 8 & (1 << 5 - bits - has_enable) - 1)


def rest(block: Block, machine: Machine, log: TickLog, first: int, after: int) -> None:
    """The ticks of a machine in clocks that are leapt over."""
    if not machine.enabled:
        return
    count = log.ticks_before(after, machine.restarted) - log.ticks_before(first, machine.restarted)
    waits = machine.begun and not machine.delay
    log.add(first, after - 1, count, machine.pc if waits else None, machine.restarted)
    turns, length = turns_of(block, machine)
    count, machine.delay = max(0, count - machine.delay), max(0, machine.delay - count)
    if count and turns and not waits:
        done, left = divmod(count, length)
        name = "x" if block.memory[machine.pc] >> 5 & 7 == 2 else "y"
        setattr(machine, name, turns - done - (left > 0))
        machine.delay = length - left if left else 0


def broken_at(block: SetUp, span: dict[str, Any], run: Run, lines: list[Line]) -> Optional[Broken]:
    """How a run breaks a span first, or none. Lines that disable or restart the machine excuse a span in clocks.

    Of a from-edge after which the span is excused, nothing is said (`prompt`, `without`), nor of anything once its assumptions don't
    hold.
    """
    clocks = run.spoken(span)
    begins, ends = ([clock for clock in run.events(block.pins, span, it) if clock < clocks] for it in ("from", "to"))
    excused = run.excused(span)
    disturbed = [clock for clock, word, numbers in lines if word in ("disable", "restart") and numbers[0] == span["machine"]]
    for begin in begins:
        place = bisect_right(ends, begin)
        end = ends[place] if place < len(ends) else None
        last = clocks - 1 if end is None else end
        if span["unit"] == "clocks" and any(begin < clock <= last for clock in disturbed) or excused.within(begin, last):
            continue
        count, wait = counted(span, run.ticks[span["machine"]].within(begin, last))
        count = last - begin if span["unit"] == "clocks" else count
        if wait and span["max"] != inf or count > span["max"] or end is not None and count < span["min"]:
            return Broken(begin, end, last, count, wait)
    return None


def open_at(block: SetUp, span: dict[str, Any], run: Run) -> Optional[Broken]:
    """The oldest from-edge that no to-edge has ended at the end of a run, and of which something is said; with its count, or none."""
    last = run.spoken(span) - 1
    begins, ends = ([clock for clock in run.events(block.pins, span, it) if clock <= last] for it in ("from", "to"))
    open_ones, excused = (it for it in begins if not ends or it >= ends[-1]), run.excused(span)
    begin = next((it for it in open_ones if not excused.within(it, last)), None)
    if begin is None:
        return None
    count, wait = counted(span, run.ticks[span["machine"]].within(begin, last))
    return Broken(begin, None, last, last - begin if span["unit"] == "clocks" else count, wait)


def counted(span: dict[str, Any], rows: Iterator[Any]) -> tuple[int, Optional[tuple[int, int]]]:
    """How many of these ticks count, and the first late one at an address that isn't named."""
    count, wait = 0, None
    for row in rows:
        if row.address is None or row.address not in span["stalls"]:
            count += row.count
            wait = wait or (row.address is not None and (row.first, row.address)) or None
    return count, wait
