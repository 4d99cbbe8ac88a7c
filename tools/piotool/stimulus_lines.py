"""The lines of a stimulus that a search asks for, by its log; and the text of lines.

A word is written as late as it can be: in the clock before the one that wants it, or earlier where that clock has another one. Words
are read as late as they can be, too. So a bound from above, as an empty TX, is kept wherever it can be.
"""

from random import Random
from typing import Any, Optional, Sequence

from piotool.block_model import Line
from piotool.lazy_values import Clause

Log = list[tuple[Any, ...]]
MOST_TURNS = 1000  # of free bits, to keep what a choice left out


class Bits:
    """The bits of a log: those that were chosen, and 0 for the others, but where a clause or the pin before says another thing."""

    def __init__(self, log: Log) -> None:
        self.fixed: dict[int, int] = {it[1]: it[2] for it in log if it[0] == "bit"}
        self.free: dict[int, int] = {}
        self.clauses: list[Clause] = [it[1] for it in log if it[0] == "not"]

    def root(self, reference: int) -> int:
        """What a reference comes to: 0, 1, or that of a free bit."""
        while reference > 1 and reference >> 1 in self.fixed:
            reference = self.fixed[reference >> 1] ^ (reference & 1)
        return reference

    def value(self, reference: int) -> int:
        """The bit of a reference."""
        reference = self.root(reference)
        return reference if reference < 2 else self.free.get(reference >> 1, 0) ^ (reference & 1)

    def prefer(self, bit: int, value: int) -> int:
        """The bit, which is this one where it is free."""
        reference = self.root(2 * bit)
        if reference > 1:
            self.free.setdefault(reference >> 1, value ^ (reference & 1))
        return self.value(reference)

    def keep_clauses(self) -> None:
        """Turns free bits round, any of a clause that isn't kept, until no clause has 1 everywhere."""
        chance = Random(0)
        for _ in range(MOST_TURNS):
            wrong = next((it for it in self.clauses if all(self.value(bit) for bit in it)), None)
            roots = [root for it in sorted(wrong or ()) if (root := self.root(it)) > 1]
            if not roots:
                return
            bit = chance.choice(roots) >> 1
            self.free[bit] = self.free.get(bit, 0) ^ 1


def times_of(wants: list[tuple[int, int]]) -> Optional[list[int]]:
    """The clocks of words, by what is wanted: before this clock so many. None where there are too few clocks."""
    number = max((count for _, count in wants), default=0)
    latest = latest_of(wants, number)
    for place in reversed(range(number - 1)):
        latest[place] = min(latest[place], latest[place + 1] - 1)
    return None if number and latest[0] < 0 else latest


def latest_of(wants: list[tuple[int, int]], number: int) -> list[int]:
    """The last clock in which each word can come."""
    latest = [0] * number
    least = None
    by_count: dict[int, int] = {}
    for clock, count in wants:
        by_count[count] = min(clock, by_count.get(count, clock))
    for place in reversed(range(number)):
        if place + 1 in by_count:
            least = by_count[place + 1] if least is None else min(least, by_count[place + 1])
        latest[place] = (least or 0) - 1
    return latest


def lines_of(log: Log, high: int, held: int = 0, numbers: Sequence[int] = ()) -> Optional[list[Line]]:
    """The lines that a log asks for, or none where they can't all be in time. Machines that are held begin after so many clocks."""
    bits, lines = Bits(log), []
    outside = {pin: high >> pin & 1 for pin in range(32)}
    pins = sorted({(clock, pin, bit) for kind, pin, clock, bit in (it for it in log if it[0] == "pin")})
    for _, pin, bit in pins:
        outside[pin] = bits.prefer(bit, outside[pin])
    bits.keep_clauses()
    outside = {pin: high >> pin & 1 for pin in range(32)}
    for clock, pin, bit in pins:
        if bits.value(2 * bit) != outside[pin]:
            outside[pin] ^= 1
            lines.append((clock + held, "pin", [pin, outside[pin]]))
    words = {(number, place): first for _, number, place, first in (it for it in log if it[0] == "word")}
    for number in range(4):
        for kind in ("tx", "rx"):
            times = times_of([(it[2] + held, it[3]) for it in log if it[0] == f"{kind} least" and it[1] == number])
            if times is None:
                return None
            for place, clock in enumerate(times):
                first = words.get((number, place))
                word = 0 if first is None else sum(bits.value(2 * (first + bit)) << bit for bit in range(32))
                lines.append((clock, kind, [number, word] if kind == "tx" else [number]))
    for number in numbers if held else ():
        lines += [(0, "disable", [number]), (held, "enable", [number]), (held, "restart", [number])]
    return sorted(lines, key=lambda line: line[0])


def text_of(lines: list[Line]) -> str:
    """The text of lines; words are hexadecimal."""
    is_second = any(word in ("enable", "disable", "restart") for _, word, _ in lines)
    text = ["version 2"] if is_second else []
    for clock, word, numbers in lines:
        shown = [*map(str, numbers)]
        places = {"tx": 1, "feed": 2}
        if word in places:
            shown[places[word] :] = [f"0x{number:08x}" for number in numbers[places[word] :]]
        text.append(f"{clock} {word} {' '.join(shown)}")
    return "".join(line + "\n" for line in text)
