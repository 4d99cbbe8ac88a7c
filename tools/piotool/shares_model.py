"""What machines share, from the written rules (docs/SPECIFICATION.md, "What machines share").

Sets of addresses, pins and flags are sets of numbers here, and a machine's reach is looked for by a search.
"""

from piotool.machine_model import Setup


def pins_from(base: int, count: int) -> set[int]:
    """The pins of a mapping."""
    return {(base + place) % 32 for place in range(count)}


class Touched:
    """What a machine reaches, reads, writes, sees and changes."""

    def __init__(self, number: int, setup: Setup, memory: list[int]) -> None:
        self.number, self.setup = number, setup
        self.reads: set[int] = set()
        self.sees: set[int] = set()
        self.changes: set[int] = set()
        self.writes = pins_from(setup["side_base"], setup["side_bits"])
        self.writes |= pins_from(setup["out_base"], setup["out_count"])
        self.writes |= pins_from(setup["set_base"], setup["set_count"])
        self.is_wild = False
        reach: set[int] = set()
        word = setup["pending"]
        ahead = [setup["start"]] if word is None else self.feel(word, setup["start"])
        while ahead:
            address = ahead.pop()
            if address not in reach:
                reach.add(address)
                ahead += self.feel(memory[address], self.after(address))
        self.reach = set(range(32)) if self.is_wild else reach
        if self.is_wild:
            self.reads, self.sees, self.changes = set(range(32)), set(range(8)), set(range(8))

    def flag(self, low: int) -> int:
        """The number of the flag that an index means."""
        return low & 4 | (low + self.number) & 3 if low & 16 else low & 7

    def after(self, address: int) -> int:
        """The address that follows one."""
        return int(self.setup["wrap_bottom"]) if address == self.setup["wrap_top"] else (address + 1) % 32

    def feel(self, word: int, after: int) -> list[int]:
        """Takes what a word touches that this address follows on, and gives the addresses after it."""
        kind, high, low = word >> 13, word >> 5 & 7, word & 31
        setup = self.setup
        if kind == 0:
            if high == 6:
                self.reads.add(setup["jmp_pin"])
            return [low] if high == 0 else [low, after]
        if kind == 1:
            source, polarity = word >> 5 & 3, word >> 7 & 1
            if source == 0:
                self.reads.add(low)
            elif source == 1:
                self.reads.add((setup["in_base"] + low) % 32)
            elif source == 2:
                self.sees.add(self.flag(low))
                if polarity:
                    self.changes.add(self.flag(low))
        if kind == 2 and high == 0:
            self.reads |= pins_from(setup["in_base"], low or 32)
        if kind == 3 and high in (5, 7):
            self.is_wild = True
        if kind == 5 and word >> 3 & 3 != 3 and high != 3 and word & 7 != 4:
            if high in (4, 5):
                self.is_wild = True
            if word & 7 == 0:
                self.reads = set(range(32))
        if kind == 6 and not word >> 7 & 1:
            self.changes.add(self.flag(low))
            if word >> 5 & 1 and not word >> 6 & 1:
                self.sees.add(self.flag(low))
        return [after]


def report(memory: list[int], setups: dict[int, Setup]) -> str:
    """The lines of `shares`."""
    touched = {number: Touched(number, setup, memory) for number, setup in sorted(setups.items())}
    lines: list[str] = []
    for number, one in touched.items():
        told: list[str] = []
        for other_number, other in touched.items():
            pins = other.writes & (one.reads | one.writes)
            flags = other.changes & (one.sees | one.changes)
            if other is not one and (pins or flags):
                bits = sum(1 << pin for pin in pins), sum(1 << flag for flag in flags)
                told.append(f"machine {number} from {other_number} pins 0x{bits[0]:08x} flags 0x{bits[1]:02x}\n")
        lines += told or [f"machine {number} alone\n"]
    return "".join(lines)
