"""The shortest ways to a refusal, in the graph of a span's contexts (`span_model.py`)."""

from collections import deque
from dataclasses import dataclass, field
from typing import Callable, Iterator, Optional

from piotool.span_model import Context, Course, Graph

# So many ages are looked at for the shortest way on which a count passes `max`.
MOST_STATES = 100_000


@dataclass
class Way:
    """A way to a bad tick: the courses to a loop, those of the loop once, and those after it; without a loop all are in `last`.

    `opens` is the place of the tick with the from-edge in the first course, or None where the count doesn't matter; `tick` is
    that of the bad tick in the last course. `greatest` is the greatest count there, where that was looked for.
    """

    cause: str
    last: list[Course]
    tick: int
    opens: Optional[int] = None
    first: list[Course] = field(default_factory=list)
    loop: list[Course] = field(default_factory=list)
    greatest: Optional[int] = None

    def length(self) -> int:
        """The number of courses."""
        return len(self.first) + len(self.loop) + len(self.last)


def way_to(graph: Graph, context: Context, cause: str) -> Way:
    """The shortest way to a bad context, which has this cause."""
    if cause in ("U4", "U6"):
        last = next(course for course in graph.rows[context] if course.after is None)
        return Way(cause, [*path_from(graph, graph.start, context, lambda course: True), last], len(last.ticks) - 1)
    return min(ways_to(graph, context, cause), key=Way.length)


def ways_to(graph: Graph, context: Context, cause: str) -> Iterator[Way]:
    """A way to the first tick of each course at which the cause comes."""
    for course in graph.rows[context]:
        tick = next((tick for found, tick in graph.causes(course) if found == cause), None)
        if tick is None:
            continue
        inside = opened_within(course, tick)
        if inside is not None and is_bad(graph, course, cause, tick, inside):
            yield Way(cause, [course], tick, opens=inside)
        else:
            yield way_from_outside(graph, course, cause, tick)


def opened_within(course: Course, tick: int) -> Optional[int]:
    """The place of the tick before this one at which the course opens a span that is still open, or None."""
    for place in reversed(range(tick)):
        if course.ticks[place].begins:
            return place
        if course.ticks[place].ends or course.ticks[place].excuses:
            return None
    return None


def is_bad(graph: Graph, course: Course, cause: str, tick: int, opens: int) -> bool:
    """Whether a span that is opened at a tick of the course has the cause at a later one."""
    count = course.counted(opens + 1, tick + 1)
    return cause == "U3" or (count > graph.bounds.most if cause == "U1" else count < graph.bounds.least)


def way_from_outside(graph: Graph, course: Course, cause: str, tick: int) -> Way:
    """A way to a bad tick from a from-edge in an earlier course."""
    context, rest = course.before, course.counted(0, tick + 1)
    shortest = way_of_ages(graph, context, graph.ages.least)
    if cause != "U1" or graph.ages.least[context] + rest > graph.bounds.most:
        return Way(cause, [*shortest, course], tick, opens=opening_tick(shortest[0]))
    if context in graph.ages.looping:
        return looping_way(graph, course, tick)
    way = long_way(graph, context, graph.bounds.most + 1 - rest)
    return Way(cause, [*way, course], tick, opens=opening_tick(way[0]), greatest=graph.ages.most[context] + rest)


def opening_tick(course: Course) -> int:
    """The place of the last tick of a course with a from-edge."""
    return max(place for place, tick in enumerate(course.ticks) if tick.begins)


def way_of_ages(graph: Graph, context: Context, ages: dict[Context, int]) -> list[Course]:
    """The courses from a from-edge to a context that give its age in these, the least ages or the greatest ones."""
    before = {}
    for course in graph.all_courses():
        before.setdefault(course.after, []).append(course)
    way = []
    while True:
        age = ages[context]
        course = next(
            it
            for it in before[context]
            if it.opened() == age or it.is_carrying() and it.before in ages and ages[it.before] + it.carried() == age
        )
        way.insert(0, course)
        if course.opened() == age:
            return way
        context = course.before


def long_way(graph: Graph, context: Context, wanted: int) -> list[Course]:
    """The courses from a from-edge to a context that isn't after a loop, with the least age that is as much as wanted.

    Where there are too many ages on the ways to it, those that give the greatest age.
    """
    before, ahead = {}, [(course, course.opened(), None) for course in graph.all_courses() if course.opened() is not None]
    while ahead and len(before) < MOST_STATES:
        course, age, origin = ahead.pop()
        state = course.after, age
        if state not in before and course.after not in graph.ages.looping:
            before[state] = course, origin
            ahead += [(it, age + it.carried(), state) for it in graph.rows[course.after] if it.is_carrying()]
    if ahead:
        return way_of_ages(graph, context, graph.ages.most)
    state, way = min((state for state in before if state[0] == context and state[1] >= wanted), key=lambda state: state[1]), []
    while state:
        course, state = before[state]
        way.insert(0, course)
    return way


def path_from(graph: Graph, start: Context, goal: Context, is_kept: Callable[[Course], bool]) -> Optional[list[Course]]:
    """The fewest courses from one context to another, of those that are kept; or None."""
    before, ahead = {start: None}, deque([start])
    while ahead and goal not in before:
        for course in graph.rows[ahead.popleft()]:
            if course.after is not None and course.after not in before and is_kept(course):
                before[course.after] = course
                ahead.append(course.after)
    if goal not in before:
        return None
    path = []
    while before[goal]:
        path.insert(0, before[goal])
        goal = before[goal].before
    return path


def is_carrying(course: Course) -> bool:
    """Whether a span stays open over the course."""
    return course.is_carrying()


def loop_through(graph: Graph, context: Context) -> Optional[list[Course]]:
    """The fewest courses from a context to itself on which a span stays open, or None."""
    loops = []
    for course in filter(is_carrying, graph.rows[context]):
        path = path_from(graph, course.after, context, is_carrying)
        if path is not None:
            loops.append([course, *path])
    return min(loops, key=len, default=None)


def nearest_before(graph: Graph, context: Context) -> list[Context]:
    """The contexts in and after loops from which an open span may come to a context, the nearest first."""
    before = {}
    for course in filter(is_carrying, graph.all_courses()):
        before.setdefault(course.after, []).append(course.before)
    found, ahead = {context: None}, deque([context])
    while ahead:
        for earlier in before.get(ahead.popleft(), []):
            if earlier not in found and earlier in graph.ages.looping:
                found[earlier] = None
                ahead.append(earlier)
    return list(found)


def looping_way(graph: Graph, course: Course, tick: int) -> Way:
    """A way to a bad tick with the loop that is nearest to it; the course is in or after a loop."""
    context, loop = next((it, loop) for it in nearest_before(graph, course.before) if (loop := loop_through(graph, it)))
    first = way_of_ages(graph, context, graph.ages.least)
    last = [*path_from(graph, context, course.before, is_carrying), course]
    return Way("U1", last, tick, opening_tick(first[0]), first, loop)
