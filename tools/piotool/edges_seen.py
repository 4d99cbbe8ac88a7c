"""The edges of a pin, and the pairs of edges that a span measures."""

from bisect import bisect_right

from piotool.span_model import EDGES
from piotool.traces import Bit


def edges_of(bit: Bit, level: int, edge: str) -> list[int]:
    """The clocks of a pin's edges, of its level or of its direction, which it has before clock 0."""
    return [when for when, value in bit.edges(level) if value == EDGES[edge][1]]


def pairs_of(starts: list[int], ends: list[int]) -> list[tuple[int, int]]:
    """Each from-edge with the first to-edge in a later clock."""
    places = ((start, bisect_right(ends, start)) for start in starts)
    return [(start, ends[place]) for start, place in places if place < len(ends)]
