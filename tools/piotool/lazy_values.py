"""Words whose bits aren't all chosen yet.

A word is a number, or 32 references, the lowest bit's first. A reference is 0, 1, or twice the number of a bit that is free, plus 1
where it is negated. A clause is a set of references that aren't all 1: what is known of free bits that a choice left out.
"""

from functools import lru_cache
from typing import Optional

from piotool.machine_model import ALL_ONES, reversed_bits

Bits = tuple[int, ...]
Value = int | Bits
Clause = frozenset[int]
ZEROS: Bits = (0,) * 32


@lru_cache(4096)
def bits_of_number(number: int) -> Bits:
    """The references of a number."""
    return tuple(number >> place & 1 for place in range(32))


def bits_of(value: Value) -> Bits:
    """The references of a word."""
    return bits_of_number(value) if isinstance(value, int) else value


def value_of(bits: Bits) -> Value:
    """The word of these references: a number where none is free."""
    if max(bits) > 1:
        return bits
    return sum(bit << place for place, bit in enumerate(bits))


def new_bits(first: int) -> Bits:
    """A word of 32 free bits, from this number on."""
    return tuple(range(2 * first, 2 * first + 64, 2))


def inverted(value: Value) -> Value:
    """Each bit the other way round."""
    return value ^ ALL_ONES if isinstance(value, int) else tuple(it ^ 1 for it in value)


def turned_round(value: Value) -> Value:
    """The bits from the last to the first."""
    return reversed_bits(value) if isinstance(value, int) else value[::-1]


def low_bits(value: Value, count: int) -> Value:
    """The low bits of a word, with zeros above them."""
    if isinstance(value, int):
        return value & (1 << count) - 1
    return value_of(value[:count] + ZEROS[count:])


def moved_down(value: Value, count: int) -> Value:
    """The word moved right, with zeros at the top."""
    if isinstance(value, int):
        return value >> count
    return value_of(value[count:] + ZEROS[:count])


def moved_up(value: Value, count: int) -> Value:
    """The word moved left, with zeros at the bottom."""
    if isinstance(value, int):
        return value << count & ALL_ONES
    return value_of(ZEROS[:count] + value[: 32 - count])


def either(one: Value, other: Value) -> Value:
    """The word with the bits of both, of which one is 0 at each place."""
    if isinstance(one, int) and isinstance(other, int):
        return one | other
    return value_of(tuple(a or b for a, b in zip(bits_of(one), bits_of(other))))


def with_bit(value: Value, bit: int, reference: int) -> Value:
    """The word with a reference in the place of a free bit."""
    if isinstance(value, int) or 2 * bit not in value and 2 * bit + 1 not in value:
        return value
    return value_of(tuple(reference ^ (it & 1) if it >> 1 == bit else it for it in value))


def differing(value: Bits, number: int) -> Optional[Clause]:
    """The clause that the word isn't this number; none where it can't be the number."""
    literals = set()
    for reference, wanted in zip(value, bits_of_number(number)):
        if reference < 2:
            if reference != wanted:
                return None
        else:
            literals.add(reference ^ 1 ^ wanted)
    return None if any(it ^ 1 in literals for it in literals) else frozenset(literals)


def clause_with(clause: Clause, bit: int, reference: int) -> Optional[Clause]:
    """The clause with a reference in the place of a free bit; none where it holds."""
    found = set()
    for it in clause:
        it = reference ^ (it & 1) if it >> 1 == bit else it
        if it == 0:
            return None
        if it > 1:
            found.add(it)
    return None if any(it ^ 1 in found for it in found) else frozenset(found)
