"""How far a state is from a run that breaks the span, at least as the graph of the checker's contexts says it.

The graph has more ways than runs have, so where it has no way to a violation, no run has one. It is sharper than the checker's
where that is cheap: the zeros above the bits of an OUT, MOV PINS of NULL, and the addresses after OUT PC and MOV PC.
"""

import heapq
from collections import deque
from math import inf
from typing import Any, Callable, Optional

from piotool import span_model
from piotool.asked import MOV, OUT, PINDIRS, PINS, Asked
from piotool.lazy_state import MachineState, State
from piotool.lazy_values import Value
from piotool.span_model import Bounds, Context, Course, Wires, bounds_of, mapping, wires

TICK = 0.6  # what a tick weighs that is still to be passed
MOST_CONTEXTS = 20_000


class Sharper(span_model.Machine):
    """The machine of the checker's contexts, with fewer ways."""

    def writes(self, word: int) -> list[Wires]:
        """What the instruction itself may write."""
        kind, high, setup = word >> 13, word >> 5 & 7, self.setup
        mapped = wires("d" if high == PINDIRS else "p", mapping(setup["out_base"], setup["out_count"]))
        if kind == MOV and high == PINS and word & 7 == 3 and word >> 3 & 3 != 3:
            return [dict.fromkeys(mapped, int(word >> 3 & 3 == 1))]
        found = super().writes(word)
        if kind == OUT and high in (PINS, PINDIRS):
            zeros = dict.fromkeys(mapped[word & 31 or 32 :], 0)
            found = [{wire: level for wire, level in write.items() if wire not in zeros} | zeros for write in found]
            found = [dict(it) for it in dict.fromkeys(tuple(sorted(write.items())) for write in found)]
        return found

    def addresses_after(self, word: int, context: Context) -> list[Any]:
        """The addresses that may come next."""
        found = super().addresses_after(word, context)
        return list(range(32)) if found == [None] and word >> 5 & 7 == 5 else found


class Unguided:
    """No guide: each state is as near as any."""

    def start(self) -> None:
        """No context."""

    def after(self, context: None, address: int, machine: MachineState, from_level: int, to_level: int) -> None:
        """No context."""

    def distance(self, state: State) -> float:
        """No distance: open spans first, and old ones."""
        ages = state.ages()
        return 8 if ages is None else 4


class Guide:
    """The distances of the contexts of a span's machine."""

    def __init__(self, asked: Asked) -> None:
        span, block = asked.span, asked.block
        self.asked, self.own = asked, asked.machines[asked.own]
        self.model = Sharper(block.memory, self.own.setup, span)
        self.bounds, self.stalls = bounds_of(span, self.own.setup), asked.stalls
        if asked.is_prompt or not self.bounds.is_bounded:
            self.stalls = frozenset(range(32))  # no wait is one too many
        if not self.bounds.is_bounded:
            self.bounds = Bounds(self.bounds.least, inf, False)  # no count is too great
        self.first = self.model.start(block.pins)
        self.rows: dict[Context, list[Course]] = {}
        ahead = [self.first]
        while ahead and len(self.rows) < MOST_CONTEXTS:
            context = ahead.pop()
            if context not in self.rows:
                self.rows[context] = self.model.courses(context)
                ahead += [course.after for course in self.rows[context] if course.after is not None]
        self.is_whole = not ahead
        self.before: dict[Context, list[Course]] = {}
        for course in self.all_courses():
            self.before.setdefault(course.after, []).append(course)
        self.shortest = self.least_ticks()
        self.longest = self.most_ticks()
        self.to_stall = self.steps_to(self.stalls_in, lambda course: course.is_carrying())
        self.to_opening = self.steps_to(self.opens_well, lambda course: True)

    def all_courses(self) -> list[Course]:
        """Every course after which an address is known."""
        return [course for courses in self.rows.values() for course in courses if course.after in self.rows]

    def least_ticks(self) -> dict[Context, float]:
        """The least ticks from each context to a to-edge."""
        ahead = []
        for context, courses in self.rows.items():
            ahead += [(ticks, context.order(), context) for course in courses if (ticks := course.ended()) is not None]
        heapq.heapify(ahead)
        found: dict[Context, float] = {}
        while ahead:
            ticks, _, context = heapq.heappop(ahead)
            if context not in found:
                found[context] = ticks
                for course in self.before.get(context, ()):
                    if course.is_carrying():
                        heapq.heappush(ahead, (ticks + course.counted(), course.before.order(), course.before))
        return found

    def most_ticks(self) -> dict[Context, float]:
        """The most ticks from each context while a span stays open; infinite on and before a loop, and where data is run."""
        missing = {context: 0 for context in self.rows}
        most = dict.fromkeys(self.rows, 0.0)
        for context, courses in self.rows.items():
            for course in courses:
                if course.carried() is None or course.is_unmet:
                    most[context] = max(most[context], lasted(course))
                else:
                    missing[context] += 1
        ready = [context for context, number in missing.items() if not number]
        done = set()
        while ready:
            context = ready.pop()
            done.add(context)
            for course in self.before.get(context, ()):
                if course.is_carrying():
                    most[course.before] = max(most[course.before], course.counted() + most[context])
                    missing[course.before] -= 1
                    if not missing[course.before]:
                        ready.append(course.before)
        return {context: ticks if context in done else inf for context, ticks in most.items()}

    def steps_to(self, is_goal: Callable[[Course], bool], is_kept: Callable[[Course], bool]) -> dict[Context, float]:
        """The fewest instructions from each context to one with such a course."""
        found: dict[Context, float] = {}
        ahead = deque((context, 1) for context, courses in self.rows.items() if any(map(is_goal, courses)))
        while ahead:
            context, steps = ahead.popleft()
            if context not in found:
                found[context] = steps
                ahead += [(course.before, steps + 1) for course in self.before.get(context, ()) if is_kept(course)]
        return found

    def stalls_in(self, course: Course) -> bool:
        """Whether the course waits where the span doesn't name it, or goes where nothing is known."""
        return course.after is None and not course.is_unmet or course.waits and course.before.address not in self.stalls

    def opens_well(self, course: Course) -> bool:
        """Whether a from-edge of the course may lead to a violation."""
        if course.after is None and not course.is_unmet:
            return True
        for place, tick in enumerate(course.ticks):
            if tick.begins and self.goes_wrong(course, place):
                return True
        return False

    def goes_wrong(self, course: Course, place: int) -> bool:
        """Whether a from-edge in a tick of the course may lead to a violation."""
        count = 0
        for tick in course.ticks[place + 1 :]:
            if tick.excuses:
                return False
            count += not tick.is_late
            if tick.is_late and course.before.address not in self.stalls or count > self.bounds.most:
                return True
            if tick.ends:
                return count < self.bounds.least
        return not course.is_unmet and self.can_break(course.after, count, count)

    def can_break(self, context: Context, low: float, high: float) -> bool:
        """Whether open spans of these ages may come to a violation."""
        return (
            high + self.longest.get(context, inf) > self.bounds.most
            or low + self.shortest.get(context, inf) < self.bounds.least
            or context in self.to_stall
        )

    def start(self) -> Optional[Context]:
        """The first context."""
        return self.first

    def after(
        self, context: Optional[Context], address: int, machine: MachineState, from_level: int, to_level: int
    ) -> Optional[Context]:
        """The context after an instruction; none where it isn't known."""
        if machine.pending is not None:
            return None
        x = y = None
        if context is not None:
            word = self.asked.block.memory[context.address]
            x, y = (self.model.register_after(word, which, context) for which in (span_model.TO_X, span_model.TO_Y))
            x, y = (self.narrowed(context.address, *it) for it in (("x", x, machine.x), ("y", y, machine.y)))
        found = Context(machine.pc, x, y, from_level, to_level)
        return found if found in self.rows else None

    def narrowed(self, address: int, name: str, known: Optional[int], value: Value) -> Optional[int]:
        """What is known of a register, which is this, after the instruction at an address."""
        if (address, name) in self.asked.meets:
            return value if isinstance(value, int) else known
        return known if known is not None and known <= self.model.limits[name == "y"] else None

    def distance(self, state: State) -> float:
        """At least how far a state is from a violation; infinite where it comes to none."""
        context, ages = state.context, state.ages()
        if context is None:
            return 4 if ages else 8
        machine = state.machines[self.asked.own]
        delay = machine.delay
        nearest = self.to_opening.get(context, inf)
        if ages is None:
            return nearest
        low, high = ages[0] + delay, ages[1] + delay
        if high + self.longest.get(context, inf) > self.bounds.most:
            nearest = min(nearest, TICK * max(0, self.bounds.cap - high))
        shortest = self.shortest.get(context, inf)
        if low + shortest - machine.begun < self.bounds.least:
            nearest = min(nearest, TICK * shortest)
        return min(nearest, self.to_stall.get(context, inf))


def lasted(course: Course) -> int:
    """The ticks of a course up to the to-edge that ends a span, or before the tick that excuses it."""
    ended = course.ended()
    return course.counted(0, course.stop()) if ended is None else ended


def guide_of(asked: Asked, is_guided: bool = True) -> Any:
    """The guide of a span; none where other machines write its pins, or its machine runs data."""
    others = [it for it in asked.machines if it is not asked.machines[asked.own]]
    are_shared = any(asked.writes_ends(it) for it in others)
    if not is_guided or are_shared or asked.machines[asked.own].runs_data:
        return Unguided()
    guide = Guide(asked)
    return guide if guide.is_whole or not asked.meets else Unguided()
