"""What a machine can come to in its memory, by the rules of docs/SPECIFICATION.md: addresses, wraps, and what reads ISR and OSR."""

from dataclasses import dataclass

from piotool.firmware_programs import MEMORY, Memory

JMP, IN, OUT, PUSH_PULL, MOV = 0, 2, 3, 4, 5
TO_PC, OUT_EXEC, MOV_EXEC = 5, 7, 4


@dataclass
class Reach:
    """The addresses that a machine can come to, those after which the next one comes, and whether data says where it goes."""

    addresses: set[int]
    falls: set[int]
    is_wild: bool

    def same_wrap(self, one: tuple[int, int], other: tuple[int, int]) -> bool:
        """Whether two wraps lead each of these addresses to the same next one."""
        return one == other or not self.is_wild and all(after(it, one) == after(it, other) for it in self.falls)


def after(address: int, wrap: tuple[int, int]) -> int:
    """The next address."""
    return wrap[0] if address == wrap[1] else (address + 1) % MEMORY


def goes_by_data(word: int) -> bool:
    """Whether a word sends the machine where data says."""
    kind, high = word >> 13, word >> 5 & 7
    return kind == OUT and high in (TO_PC, OUT_EXEC) or kind == MOV and high in (TO_PC, MOV_EXEC)


def reach_of(memory: Memory, start: int, wrap: tuple[int, int], pending: int | None = None) -> Reach:
    """What a machine can come to from its start. A word that isn't loaded leads nowhere; a pending one that waits doesn't jump."""
    found, falls, ahead, wild = {start}, set(), [start], pending is not None and goes_by_data(pending)
    while ahead:
        address = ahead.pop()
        word = memory[address]
        if word is None:
            continue
        wild = wild or goes_by_data(word)
        nexts = [word & 31] if word >> 13 == JMP else []
        if word >> 13 != JMP or word >> 5 & 7:
            falls.add(address)
            nexts.append(after(address, wrap))
        ahead += [it for it in nexts if it not in found]
        found.update(nexts)
    return Reach(found, falls, wild)


def uses_of(word: int, register: str) -> tuple[bool, bool]:
    """Whether a word reads ISR or OSR, or its count, and whether it replaces both. The machine has no autopull."""
    kind, high = word >> 13, word >> 5 & 7
    number = {"isr": 6, "osr": 7}[register]
    moves_it, takes_it = kind == MOV and word & 7 == number, kind == IN and high == number
    is_push_or_pull = kind == PUSH_PULL and not word & 31
    if register == "isr":
        is_push = is_push_or_pull and not word >> 7 & 1
        return kind == IN or is_push or moves_it, kind in (MOV, OUT) and high == number
    is_pull = is_push_or_pull and bool(word >> 7 & 1)
    reads = kind == OUT or kind == JMP and high == 7 or is_pull and bool(word >> 6 & 1)
    return reads or moves_it or takes_it, is_pull or kind == MOV and high == number


def is_read(memory: Memory, start: int, wrap: tuple[int, int], register: str) -> bool:
    """Whether a machine without autopull may read a register before it replaces it. A word that does both reads it."""
    found, ahead = {start}, [start]
    if reach_of(memory, start, wrap).is_wild:
        return True
    while ahead:
        address = ahead.pop()
        word = memory[address]
        if word is None:
            continue
        reads, replaces = uses_of(word, register)
        if reads:
            return True
        if replaces:
            continue
        nexts = [word & 31] if word >> 13 == JMP else []
        nexts += [after(address, wrap)] if word >> 13 != JMP or word >> 5 & 7 else []
        ahead += [it for it in nexts if it not in found]
        found.update(nexts)
    return False
