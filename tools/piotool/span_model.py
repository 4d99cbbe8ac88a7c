"""A model of the timing checker, from its written rules (docs/SPECIFICATION.md): which verdict a span gets, and on which way.

It shares no code and no form with the program. The contexts that a machine may come to are the nodes of a graph, and each
course of an instruction is an edge that says how many ticks it adds to the age of an open span, whether it ends it, and
whether it opens one. The least age at a node is then the length of a shortest way, found by Dijkstra's algorithm. The
greatest is that of a longest one: without bound at and after a loop on which a span stays open, since each instruction takes
a tick, and else found in the order of the nodes. It proves nothing.

What a span assumes narrows the edges: after the instruction of an assumption there is an edge for each number that a register may
have there. A register that has none, since it is known to be outside, has no edge (U6).

A setup has the keys of a configuration and the places of its program: start, wrap_bottom, wrap_top, side_bits, side_opt,
side_pindirs. A span has the keys of a configuration; its labels are addresses. The pins of a block are words: level and out.

A pin has two *wires*, as a trace names them: `p5` is the level that pin 5 is driven to, and `d5` its direction.
"""

import heapq
from collections import Counter
from dataclasses import dataclass, field, replace
from math import inf
from typing import Any, Iterator, Optional

from piotool.machine_model import Setup, period_of

Span = dict[str, Any]
Range = dict[str, Any]  # an assumption: after which address, and the ranges of x, y or both
Pins = dict[str, int]

MOST_PAIRS = 2**17  # of what may be known of X and of Y, each a number or any
USUAL = 31  # how far a register is followed without more
ANY = 2**32  # after every number, in the order of contexts

JMP, WAIT, IN, OUT, PUSH_PULL, MOV, IRQ, SET = range(8)
TO_PINS, TO_X, TO_Y, TO_PINDIRS, TO_PC = 0, 1, 2, 4, 5
OUT_EXEC, MOV_EXEC = 7, 4
# Each edge with the letter of its wire and the bit after it.
EDGES = {"rise": ("p", 1), "fall": ("p", 0), "out": ("d", 1), "in": ("d", 0)}
Wires = dict[str, int]  # a bit by wire
EVENTS = ("from_at", "to_at", "from_done", "to_done")  # the keys of a span that name instructions of its events


@dataclass(frozen=True)
class Context:
    """A place with what is known there: registers that aren't known are None. A level is that of the wire: 1 is high, or out."""

    address: int
    x: Optional[int]
    y: Optional[int]
    from_level: int
    to_level: int

    def order(self) -> tuple[int, int, int, int, int]:
        """The place in the order of contexts; a register that isn't known comes after those that are."""
        x, y = (ANY if value is None else value for value in (self.x, self.y))
        return self.address, x, y, self.from_level, self.to_level

    def __str__(self) -> str:
        x, y = ("any" if value is None else value for value in (self.x, self.y))
        return f"{self.address} x {x} y {y} from {self.from_level} to {self.to_level}"


@dataclass(frozen=True)
class Tick:
    """A tick of a course: the levels after it, its edges, and whether it is late.

    Where it excuses, nothing is said any more of a span that was open before it.
    """

    levels: tuple[int, ...]
    begins: bool
    ends: bool
    is_late: bool = False
    excuses: bool = False


@dataclass(frozen=True)
class Course:
    """A way through one instruction. Without a context after it no address is known, or a register is where it can't be assumed."""

    before: Context
    ticks: tuple[Tick, ...]
    after: Optional[Context]
    is_unmet: bool = False

    @property
    def waits(self) -> bool:
        """Whether the instruction waits on this way."""
        return any(tick.is_late for tick in self.ticks)

    def counted(self, first: int = 0, end: Optional[int] = None) -> int:
        """How many ticks count, from the place first on and before the place end."""
        return sum(not tick.is_late for tick in self.ticks[first:end])

    def stop(self) -> Optional[int]:
        """The place of the first tick that ends an open span or excuses it, or None."""
        return next((place for place, tick in enumerate(self.ticks) if tick.ends or tick.excuses), None)

    def ended(self) -> Optional[int]:
        """The ticks that an open age gains up to the to-edge that ends it, or None where none does."""
        stop = self.stop()
        return None if stop is None or self.ticks[stop].excuses else self.counted(0, stop + 1)

    def carried(self) -> Optional[int]:
        """The ticks that an open age gains by the whole course, or None where the span doesn't stay open over it."""
        return self.counted() if self.stop() is None else None

    def is_carrying(self) -> bool:
        """Whether a span stays open over the course, and an address is known after it."""
        return self.after is not None and self.carried() is not None

    def opened(self) -> Optional[int]:
        """The age at the end of a span that the course opens and doesn't end, or None."""
        for place in reversed(range(len(self.ticks))):
            if self.ticks[place].begins:
                return self.counted(place + 1)
            if self.ticks[place].ends or self.ticks[place].excuses:
                return None
        return None


@dataclass(frozen=True)
class Bounds:
    """The least and the greatest number of ticks; more than one above the greatest isn't told apart.

    Of a span without a greatest bound `most` is one below the least, so that counting ends there.
    """

    least: int
    most: int
    is_bounded: bool = True

    @property
    def cap(self) -> int:
        """The age at which counting ends."""
        return self.most + 1


def bounds_of(span: Span, setup: Setup) -> Bounds:
    """The bounds of a span in ticks."""
    period = 256 if span["unit"] == "ticks" else period_of(setup)
    least = -(-256 * span["min"] // period)
    if span["max"] == inf:
        return Bounds(least, max(0, least - 1), False)
    return Bounds(least, 256 * span["max"] // period)


def range_of(one: Range, register: str) -> Optional[tuple[int, int]]:
    """The range of a register in an assumption, or None."""
    return tuple(one[register]) if register in one else None


def meet_of(assume: list[Range], address: int, register: str) -> Optional[tuple[int, int]]:
    """The least and the greatest number that all ranges of a register after an address have, or None where there is no range."""
    ranges = [it for one in assume if one["after"] == address and (it := range_of(one, register))]
    return (max(it[0] for it in ranges), min(it[1] for it in ranges)) if ranges else None


def limits_of(span: Span) -> tuple[int, int]:
    """How far X and Y are followed: up to the greatest number of their ranges, and a register with less up to 31, or as far as fits."""
    x, y = (max((one[register][1] for one in span.get("assume", []) if register in one), default=0) for register in ("x", "y"))
    return max(x, usual(y)), max(y, usual(x))


def usual(other: int) -> int:
    """How far a register is followed that needs less, where the other one is followed so far."""
    return min(USUAL, MOST_PAIRS // (other + 2) - 2)


def mapping(base: int, count: int) -> list[int]:
    """The pins of a mapping, in order."""
    return [(base + place) % 32 for place in range(count)]


def held(setup: Setup) -> set[str]:
    """The wires that a machine's mappings hold: those of OUT and SET both of each pin, that of side-set one."""
    pins = mapping(setup["out_base"], setup["out_count"]) + mapping(setup["set_base"], setup["set_count"])
    side = wires(side_letter(setup), mapping(setup["side_base"], setup["side_bits"]))
    return {*wires("p", pins), *wires("d", pins), *side}


def side_letter(setup: Setup) -> str:
    """The letter of the wires that side-set writes."""
    return "d" if setup["side_pindirs"] else "p"


def wires(letter: str, pins: list[int]) -> list[str]:
    """The wires of these pins, of one kind."""
    return [f"{letter}{pin}" for pin in pins]


@dataclass(frozen=True)
class End:
    """The event at an end of a span: an edge of a wire, the bit after which it has; or, without a wire, the end of an instruction.

    Where addresses are given, only the instructions there make it.
    """

    wire: Optional[str]
    bit: int = 0
    addresses: Optional[frozenset[int]] = None

    def is_made_at(self, address: Optional[int]) -> bool:
        """Whether the instruction at an address may make it."""
        return self.addresses is None or address in self.addresses


def end_of(span: Span, end: str) -> End:
    """The from-event of a span, or its to-event."""
    if done := span.get(f"{end}_done"):
        return End(None, addresses=frozenset(done))
    letter, bit = EDGES[span[f"{end}_edge"]]
    at = span.get(f"{end}_at")
    return End(f"{letter}{span[f'{end}_pin']}", bit, frozenset(at) if at else None)


def wire_of(span: Span, end: str) -> Optional[str]:
    """The wire of a span's from-edge, or of its to-edge; none where the event is the end of an instruction."""
    return end_of(span, end).wire


def wires_of(span: Span) -> list[str]:
    """The wires of a span's edges, each once."""
    return [wire for wire in dict.fromkeys((wire_of(span, "from"), wire_of(span, "to"))) if wire]


def bit_of(pins: Pins, wire: Optional[str]) -> int:
    """The bit of a wire at the start; 0 where there is no wire."""
    return pins["level" if wire[0] == "p" else "out"] >> int(wire[1:]) & 1 if wire else 0


class Machine:
    """One machine beside one span's pins: the courses of each context."""

    def __init__(self, memory: list[int], setup: Setup, span: Span) -> None:
        self.memory, self.setup = memory, setup
        self.ends = end_of(span, "from"), end_of(span, "to")
        self.wires = tuple(it.wire for it in self.ends)
        self.stalls, self.without = set(span["stalls"]), set(span.get("without", []))
        self.is_prompt = span.get("prompt", False)
        self.limits, self.assume = limits_of(span), span.get("assume", [])
        self.meets = {(one["after"], it): meet_of(self.assume, one["after"], it) for one in self.assume for it in ("x", "y")}
        self.told: dict[Any, tuple[tuple[Tick, ...], tuple[int, int]]] = {}  # the ticks of courses, and the levels after them
        self.paths: dict[int, tuple[list[list[Wires]], int]] = {}

    def start(self, pins: Pins) -> Context:
        """The first context, from the pins at the start."""
        known = [self.setup[name] if self.setup[name] <= limit else None for name, limit in zip(("x", "y"), self.limits)]
        return Context(self.setup["start"], *known, *(bit_of(pins, wire) for wire in self.wires))

    def excuses(self, address: int, place: int, is_late: bool) -> bool:
        """Whether a tick of the instruction at an address, the first of a course or a later one, excuses the spans that are open."""
        waits = self.is_prompt and is_late and address not in self.stalls
        return waits or place == 0 and address in self.without

    def courses(self, context: Context) -> list[Course]:
        """The courses of the instruction at a context."""
        word = self.memory[context.address]
        paths, delay = self.paths_of(word)
        ways_on = self.after(word, context)
        courses = [self.course(context, path, delay, *way_on) for path in paths for way_on in ways_on]
        found = [narrow for course in courses for narrow in self.narrowed(course)]
        return found if len(courses) == 1 else list(dict.fromkeys(found))

    def narrowed(self, course: Course) -> list[Course]:
        """A course for each thing that may be known of X and Y after it, by what is assumed there; or one that can't end."""
        after = course.after
        if after is None:
            return [course]
        x, y = (self.known_after(course.before.address, *it) for it in zip(("x", "y"), (after.x, after.y), self.limits))
        if (x, y) == ([after.x], [after.y]):
            return [course]
        afters = [Context(after.address, one, other, after.from_level, after.to_level) for one in x for other in y]
        return [Course(course.before, course.ticks, it) for it in afters] or [replace(course, after=None, is_unmet=True)]

    def known_after(self, address: int, register: str, known: Optional[int], limit: int) -> list[Optional[int]]:
        """All that may be known of a register after the instruction at an address, which leaves this."""
        meet = self.meets.get((address, register))
        if meet is None:
            return [known if known is not None and known <= limit else None]
        least, most = meet
        return [one for one in ([known] if known is not None else range(least, most + 1)) if least <= one <= most]

    def paths_of(self, word: int) -> tuple[list[list[Wires]], int]:
        """What a word may write in its first tick and, where it may wait, in a late one; and the ticks of its delay."""
        if word not in self.paths:
            side, delay = self.side_and_delay(word)
            paths = [path for write in self.writes(word) for path in ([{**write, **side}], [side, write])[: 1 + self.may_wait(word)]]
            self.paths[word] = paths, delay
        return self.paths[word]

    def course(
        self, context: Context, writes: list[Wires], delay: int, x: Optional[int], y: Optional[int], address: Optional[int]
    ) -> Course:
        """The course of these writes, tick by tick, of which all but the first are late; the ticks of a delay write nothing.

        The instruction finishes in the last tick that isn't one of the delay.
        """
        key = context.address, context.from_level, context.to_level, id(writes)
        if key not in self.told:
            self.told[key] = self.ticks_of(context, writes, delay)
        ticks, levels = self.told[key]
        return Course(context, ticks, None if address is None else Context(address, x, y, *levels))

    def ticks_of(self, context: Context, writes: list[Wires], delay: int) -> tuple[tuple[Tick, ...], tuple[int, int]]:
        """The ticks of a course, and the levels after it, which don't depend on X and Y."""
        at, levels, ticks = context.address, (context.from_level, context.to_level), []
        for place, write in enumerate(writes):
            after = tuple(level if wire is None else write.get(wire, level) for wire, level in zip(self.wires, levels))
            is_last, is_late = place == len(writes) - 1, place > 0
            begins, ends = (self.has(end, at, is_last, *bits) for end, bits in zip(self.ends, zip(levels, after)))
            ticks.append(Tick(after, begins, ends, is_late, self.excuses(at, place, is_late)))
            levels = after
        ticks += [Tick(levels, False, False)] * delay
        return tuple(ticks), levels

    def has(self, end: End, address: int, finishes: bool, old: int, new: int) -> bool:
        """Whether a tick of the instruction at an address, which may finish it, has an event: its wire has these bits around it."""
        happens = finishes if end.wire is None else old != new == end.bit
        return happens and end.is_made_at(address)

    def side_and_delay(self, word: int) -> tuple[Wires, int]:
        """What side-set writes, by wire, and the ticks of the delay."""
        bits, has_enable = self.setup["side_bits"], int(self.setup["side_opt"])
        shared, delay_bits = word >> 8 & 31, 5 - bits - has_enable
        value, delay = shared >> delay_bits & (1 << bits) - 1, shared & (1 << delay_bits) - 1
        if has_enable and not shared & 16:
            return {}, delay
        side = wires(side_letter(self.setup), mapping(self.setup["side_base"], bits))
        return {wire: value >> place & 1 for place, wire in enumerate(side)}, delay

    def bits_of(self, word: int, wire: str) -> set[int]:
        """The bits that an instruction may write to a wire in its first tick or in a late one."""
        return {write[wire] for path in self.paths_of(word)[0] for write in path if wire in write}

    def writes(self, word: int) -> list[Wires]:
        """What the instruction itself may write, by wire: one or more possibilities."""
        kind, high = word >> 13, word >> 5 & 7
        letter = {TO_PINS: "p", TO_PINDIRS: "d"}.get(high)
        if letter and kind == SET:
            pins = mapping(self.setup["set_base"], self.setup["set_count"])
            return [{wire: word >> place & 1 for place, wire in enumerate(wires(letter, pins))}]
        if not letter or not (kind == OUT or kind == MOV and high == TO_PINS and is_move(word)):
            return [{}]
        free = sorted({wire for wire in self.wires if wire} & set(wires(letter, mapping(self.setup["out_base"], self.setup["out_count"]))))
        return [{wire: number >> place & 1 for place, wire in enumerate(free)} for number in range(1 << len(free))]

    def may_wait(self, word: int) -> bool:
        """Whether the instruction may stall."""
        high, low = word >> 5 & 7, word & 31
        waits = {
            WAIT: high & 3 != 3,
            IN: self.setup["autopush"] and high not in (4, 5),
            OUT: self.setup["autopull"],
            PUSH_PULL: low == 0 and high & 1 == 1,
            IRQ: high == 1,
        }
        return waits.get(word >> 13, False)

    def after(self, word: int, context: Context) -> list[tuple[Optional[int], Optional[int], Optional[int]]]:
        """What is known after the instruction: X, Y and the address, of each way on."""
        x, y = self.register_after(word, TO_X, context), self.register_after(word, TO_Y, context)
        return [(x, y, address) for address in self.addresses_after(word, context)]

    def register_after(self, word: int, which: int, context: Context) -> Optional[int]:
        """What is known of X or Y after the instruction."""
        kind, high = word >> 13, word >> 5 & 7
        old = context.x if which == TO_X else context.y
        if kind == JMP and high == (2 if which == TO_X else 4):
            return old - 1 if old else None
        if high != which or kind not in (OUT, MOV, SET) or kind == MOV and not is_move(word):
            return old
        if kind == SET:
            return word & 31
        if kind == MOV and word >> 3 & 3 == 0:
            return {1: context.x, 2: context.y, 3: 0}.get(word & 7)
        return None

    def addresses_after(self, word: int, context: Context) -> list[Optional[int]]:
        """The addresses that may come next; None where none is known, as of a machine that begins with a pending word."""
        kind, high = word >> 13, word >> 5 & 7
        if self.setup["pending"] is not None:
            return [None]
        if kind == OUT and high in (TO_PC, OUT_EXEC) or kind == MOV and high in (TO_PC, MOV_EXEC) and is_move(word):
            return [None]
        bottom, top = self.setup["wrap_bottom"], self.setup["wrap_top"]
        after = bottom if context.address == top else (context.address + 1) % 32
        if kind != JMP:
            return [after]
        taken = is_taken(high, context.x, context.y)
        return [address for address, may in ((word & 31, taken is not False), (after, taken is not True)) if may]


def is_move(word: int) -> bool:
    """Whether a word of MOV's kind has no reserved field."""
    return word >> 5 & 7 != 3 and word >> 3 & 3 != 3 and word & 7 != 4


def is_taken(condition: int, x: Optional[int], y: Optional[int]) -> Optional[bool]:
    """Whether a JMP is taken, or None where it may go both ways."""
    if condition == 0:
        return True
    if condition in (1, 2, 3, 4):
        register = x if condition in (1, 2) else y
        return None if register is None else (register == 0) == (condition in (1, 3))
    return x != y if condition == 5 and None not in (x, y) else None


@dataclass
class Ages:
    """The least and the greatest age of the open spans at each context that has some; in and after a loop on which a span stays
    open there is no greatest.
    """

    least: dict[Context, int] = field(default_factory=dict)
    most: dict[Context, int] = field(default_factory=dict)
    looping: set[Context] = field(default_factory=set)

    def at(self, context: Context, cap: int) -> Optional[tuple[int, int]]:
        """The ages at a context, up to a cap, or None."""
        if context not in self.least:
            return None
        return min(self.least[context], cap), cap if context in self.looping else min(self.most[context], cap)


class Graph:
    """The contexts that a machine may come to, with their courses and ages."""

    def __init__(self, machine: Machine, pins: Pins, bounds: Bounds) -> None:
        self.machine, self.bounds, self.stalls = machine, bounds, machine.stalls
        self.start, self.rows = machine.start(pins), {}
        ahead = [self.start]
        while ahead:
            context = ahead.pop()
            if context not in self.rows:
                self.rows[context] = machine.courses(context)
                ahead += [course.after for course in self.rows[context] if course.after is not None]
        self.ages = Ages()
        self.find_least()
        self.find_most()

    def all_courses(self) -> Iterator[Course]:
        """Every course after which an address is known."""
        return (course for courses in self.rows.values() for course in courses if course.after is not None)

    def find_least(self) -> None:
        """Dijkstra's algorithm from all the courses that open a span."""
        ahead = [(it.opened(), it.after.order(), it.after) for it in self.all_courses() if it.opened() is not None]
        heapq.heapify(ahead)
        least = self.ages.least
        while ahead:
            age, _, context = heapq.heappop(ahead)
            if context in least:
                continue
            least[context] = age
            for course in self.rows[context]:
                if course.is_carrying():
                    heapq.heappush(ahead, (age + course.carried(), course.after.order(), course.after))

    def find_most(self) -> None:
        """The longest ways: a context is ready when all that lead to it are done, so those in and after a loop never are."""
        most = self.ages.most
        carrying = {context: [it for it in self.rows[context] if it.is_carrying()] for context in self.ages.least}
        missing = Counter(course.after for courses in carrying.values() for course in courses)
        for course in self.all_courses():
            if course.opened() is not None:
                most[course.after] = max(most.get(course.after, 0), course.opened())
        ready = [context for context in carrying if not missing[context]]
        while ready:
            context = ready.pop()
            for course in carrying[context]:
                most[course.after] = max(most.get(course.after, 0), most[context] + course.carried())
                missing[course.after] -= 1
                if not missing[course.after]:
                    ready.append(course.after)
        self.ages.looping = {context for context in carrying if missing[context]}

    def causes(self, course: Course) -> list[tuple[str, int]]:
        """The causes that a course has from the ages at its context, each with the place of its tick."""
        if course.after is None and not course.is_unmet:
            return [("U4", 0)]
        found = [("U6", len(course.ticks) - 1)] if course.is_unmet else []
        for place, (tick, ages) in enumerate(zip(course.ticks, self.ages_within(course))):
            if ages and ages[1] > self.bounds.most and self.bounds.is_bounded:
                found.append(("U1", place))
            if ages and tick.ends and ages[0] < self.bounds.least:
                found.append(("U2", place))
            if ages and tick.is_late and course.before.address not in self.stalls and self.bounds.is_bounded:
                found.append(("U3", place))
        return found

    def cause(self, context: Context) -> Optional[str]:
        """The first cause of a context, or None."""
        found = {cause for course in self.rows[context] for cause, _ in self.causes(course)}
        return "U4" if "U4" in found else min(found, default=None)

    def first_bad(self) -> Optional[tuple[Context, str]]:
        """The first bad context with its cause, or None."""
        for context in sorted(self.rows, key=Context.order):
            if cause := self.cause(context):
                return context, cause
        return None

    def tight_ages(self) -> Optional[tuple[int, int]]:
        """The least age at a to-edge and the greatest in any tick, or None where no open span comes to a to-edge.

        A span that is left out later may be older than any that comes to its to-edge.
        """
        pairs = [pair for course in self.all_courses() for pair in zip(course.ticks, self.ages_within(course)) if pair[1]]
        ends = [ages[0] for tick, ages in pairs if tick.ends]
        return (min(ends), max(most for _, (_, most) in pairs)) if ends else None

    def ages_within(self, course: Course) -> list[Optional[tuple[int, ...]]]:
        """The ages in each tick of a course, grown, before its edges."""
        cap, found = self.bounds.cap, []
        ages = self.ages.at(course.before, cap)
        for tick in course.ticks:
            if tick.excuses:
                ages = None
            if ages and not tick.is_late:
                ages = tuple(min(age + 1, cap) for age in ages)
            found.append(ages)
            if tick.ends:
                ages = None
            if tick.begins:
                ages = (0, ages[1] if ages else 0)
        return found

    def opens(self) -> bool:
        """Whether some course has a from-edge."""
        return any(tick.begins for courses in self.rows.values() for course in courses for tick in course.ticks)

    def closes(self) -> bool:
        """Whether an open span may come to a to-edge."""
        return self.tight_ages() is not None


def all_sharing(setups: dict[int, Setup], span: Span) -> list[int]:
    """The other machines whose mappings hold a wire of the span, in order."""
    own = set(wires_of(span))
    return [number for number in sorted(setups) if number != span["machine"] and held(setups[number]) & own]


def sharing(setups: dict[int, Setup], span: Span) -> Optional[int]:
    """The least other machine whose mappings hold a wire of the span, or None."""
    return next(iter(all_sharing(setups, span)), None)


def graph_of(memory: list[int], setups: dict[int, Setup], pins: Pins, span: Span) -> Graph:
    """The graph of a span's machine."""
    setup = setups[span["machine"]]
    return Graph(Machine(memory, setup, span), pins, bounds_of(span, setup))


def says_closes(span: Span) -> bool:
    """Whether the line of a proved span says whether it closes, by what the span's keys say."""
    has_direction = any(wire[0] == "d" for wire in wires_of(span))
    says_labels = any(span.get(key) for key in ("without", *EVENTS))
    return bool(span["max"] == inf or has_direction or span.get("prompt") or says_labels or span.get("assume"))


def verdict(memory: list[int], setups: dict[int, Setup], pins: Pins, span: Span) -> str:
    """The verdict on a span, as `check` writes it after the span's name."""
    other = sharing(setups, span)
    if other is not None:
        return f"unproved by machine {other}: U5"
    graph = graph_of(memory, setups, pins, span)
    if bad := graph.first_bad():
        return f"unproved at {bad[0]}: {bad[1]}"
    closes = f" closes {'yes' if graph.closes() else 'no'}" if says_closes(span) else ""
    premises = ", ".join(name for name in ("prompt", "assume") if span.get(name))
    return f"proved opens {'yes' if graph.opens() else 'no'}{closes}{f' under {premises}' if premises else ''}"


def table(memory: list[int], setups: dict[int, Setup], pins: Pins, span: Span) -> str:
    """The table of a span that is proved, as `table` writes it."""
    graph = graph_of(memory, setups, pins, span)
    lines = []
    for context in sorted(graph.rows, key=Context.order):
        registers = ("any" if value is None else value for value in (context.x, context.y))
        levels, ages = (context.from_level, context.to_level), graph.ages.at(context, graph.bounds.cap)
        fields = [context.address, *registers, *levels, *(ages or "-")]
        lines.append(" ".join(map(str, fields)))
    return "\n".join(["pio table 1", *lines, "end"]) + "\n"
