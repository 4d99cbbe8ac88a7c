"""Searches for a run that breaks a span: best first, by the guide's distance and the number of steps."""

import heapq
import time
from dataclasses import dataclass
from math import inf
from typing import Any, Iterator, Optional

from piotool.asked import Asked
from piotool.guide import guide_of
from piotool.lazy_block import Stretch
from piotool.lazy_choices import Dead
from piotool.lazy_state import Keys, State

# The weights of a step, each with its part of the time.
WEIGHTS = ((0.2, 0.15), (0.02, 0.25), (1.0, 0.5), (0.1, 1.0))
MOST_WAYS_ON = 96
MOST_STATES = 150_000


@dataclass
class Node:
    """A state of the search, with the tape that led to it, and a state before it with which it is compared for a loop."""

    state: State
    before: Optional["Node"]
    tape: list[int]
    steps: int
    mark: Optional["Node"] = None
    mark_key: Any = None
    until: int = 0

    def tapes(self, since: Optional["Node"] = None) -> list[list[int]]:
        """The tapes from a node, or from the start, to this one."""
        found: list[list[int]] = []
        node: Optional[Node] = self
        while node is not None and node is not since and node.before is not None:
            found.append(node.tape)
            node = node.before
        return found[::-1]


@dataclass
class Found:
    """What may break the span: the tapes of a run, and those of a loop that follows them, with the turns after which `max` is passed."""

    tapes: list[list[int]]
    loop: Optional[list[list[int]]] = None
    turns: int = 0


class Search:
    """A search for one span. `is_done` says that every state was visited, `has_more` that another weight may find more."""

    def __init__(self, asked: Asked, is_guided: bool = True) -> None:
        self.asked, self.guide, self.keys = asked, guide_of(asked, is_guided), Keys(asked)
        self.states = self.last = 0
        self.is_done, self.has_more = False, True

    def found(self, seconds: float) -> Iterator[Found]:
        """What may break the span, for so many seconds of a processor."""
        first, begin = State(self.asked, self.guide.start()), time.process_time()
        for weight, part in WEIGHTS:
            yield from self.found_by(Node(first, None, [], 0), weight, begin + seconds * part)
            if not self.has_more or time.process_time() > begin + seconds:
                break

    def found_by(self, first: Node, weight: float, end: float) -> Iterator[Found]:
        """The same with one weight of a step, up to a time."""
        ahead: list[tuple[float, int, Node]] = [(0.0, 0, first)]
        seen, number, is_complete = {self.keys.of(first.state)}, 0, True
        while ahead:
            self.states = max(self.states, len(seen))
            if time.process_time() > end or len(seen) > MOST_STATES:
                return
            node = heapq.heappop(ahead)[2]
            for stretch in self.ways_on(node):
                is_complete = is_complete and stretch is not None and stretch.is_complete
                if stretch is None:
                    continue
                if stretch.found is not None:
                    yield Found([*node.tapes(), [it for it, _ in stretch.used]])
                    is_complete = False
                    continue
                state = stretch.state
                self.last = max(self.last, state.clock)
                distance, key = self.guide.distance(state), self.keys.of(state)
                if distance == inf or key in seen:
                    continue
                seen.add(key)
                child = Node(state, node, [it for it, _ in stretch.used], node.steps + 1)
                if loop := self.endless(node, child):
                    yield loop
                    is_complete = False
                    continue
                number += 1
                heapq.heappush(ahead, (distance + weight * child.steps, number, child))
        self.has_more, self.is_done = False, is_complete

    def ways_on(self, node: Node) -> Iterator[Optional[Stretch]]:
        """The stretches from a state, one for each tape; none where there are too many."""
        tape: Optional[list[int]] = []
        for _ in range(MOST_WAYS_ON):
            stretch = Stretch(self.asked, self.guide, node.state, tape or [])
            try:
                yield stretch.run()
            except Dead:
                pass
            tape = stretch.next_tape()
            if tape is None:
                return
        yield None

    def endless(self, node: Node, child: Node) -> Optional[Found]:
        """The loop that a state ends on which the span stays open, where its count grows in it; by Brent's way of marking."""
        oldest = child.state.oldest
        if self.asked.span["max"] == inf or oldest is None or child.state.ages()[1] * 2 > self.asked.span["max"] and not self.asked.in_clocks:
            return None
        if node.mark is None or node.mark.state.oldest != oldest or child.steps >= node.until:
            child.mark, child.mark_key = child, self.keys.of(child.state, False)
            child.until = child.steps + max(4, 2 * (child.steps - (node.mark.steps if node.mark else child.steps)))
            return None
        child.mark, child.mark_key, child.until = node.mark, node.mark_key, node.until
        if child.mark_key != self.keys.of(child.state, False):
            return None
        now, mark, most = child.state, child.mark.state, self.asked.span["max"]
        if self.asked.in_clocks:
            growth, missing = now.clock - mark.clock, most + 1 - (now.clock - oldest[0])
        else:
            growth, missing = now.counted - mark.counted, most + 1 - (now.counted - oldest[1])
        return Found(child.tapes(), child.tapes(child.mark), max(0, -(-missing // growth)) + 1) if growth > 0 else None


def replayed(
    asked: Asked, guide: Any, tapes: list[list[int]], log: Optional[list[tuple]] = None, until: float = inf
) -> Optional[Stretch]:
    """The last stretch of these tapes, up to a time."""
    state, stretch = State(asked, guide.start()), None
    for tape in tapes:
        stretch = Stretch(asked, guide, state, tape, log).run()
        state = stretch.state
        if stretch.found is not None or time.process_time() > until:
            break
    return stretch
