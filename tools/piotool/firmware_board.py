"""What MicroPython's classes of an RP2040 do to the registers: programs, machines, pins. `firmware_micropython` gives them to a file."""

from dataclasses import dataclass
from typing import Any, ClassVar

from piotool import firmware_map as at
from piotool.firmware_programs import relocated
from piotool.firmware_recording import Recording

USUAL = {"wrap_top": 31, "in_right": 1, "out_right": 1, "divider": 1, "push_threshold": 32, "pull_threshold": 32}
DATA, EXECCTRL, SHIFTCTRL, OUT_PINS, SET_PINS, SIDE_PINS = 0, 3, 4, 5, 6, 7
SET_LEVELS, SET_DIRECTIONS = 0xE000, 0xE080
MOST_WORDS = 256


class Ended(BaseException):
    """The recording ends; no `except Exception` of the file takes it. What a bare `except` takes comes again at the next line."""

    why: ClassVar[list[str]] = []

    def __init__(self, why: str) -> None:
        super().__init__(why)
        Ended.why.append(why)


@dataclass
class Group:
    """Pins of OUT, SET or side-set: the first, their number, their levels and directions at the start."""

    base: int | None
    count: int = 0
    levels: int = 0
    directions: int = 0


def group_of(said: Any, base: int | None) -> Group:
    """A group, by what the program says of its pins (0 to 3 each: bit 0 the level, bit 1 whether it is an output)."""
    each = [] if said is None else [said] if isinstance(said, int) else list(said)
    levels = sum((value & 1) << place for place, value in enumerate(each))
    return Group(base, len(each), levels, sum((value >> 1) << place for place, value in enumerate(each)))


class Board:
    """The board: the recording, and what the classes remember of it."""

    def __init__(self, recording: Recording, hertz: int) -> None:
        self.recording, self.hertz = recording, hertz
        self.used, self.firsts = [0, 0], {}  # type: list[int], dict[int, int]
        self.names: dict[int, str] = {}

    def started(self) -> bool:
        """Whether a machine has been enabled."""
        return any(any(block.starts.values()) for block in self.recording.chip.blocks)

    def machine_address(self, number: int, register: str) -> int:
        """The address of a machine's register, by its number from 0 to 7."""
        return at.PIO[number // 4] + at.machine_offset(number % 4, register)

    def load(self, block: int, program: list[Any]) -> int:
        """Loads a program as high as it fits; its address."""
        words = list(program[DATA])
        for place in range(32 - len(words), -1, -1):
            mask = (1 << len(words)) - 1 << place
            if words and not self.used[block] & mask:
                self.used[block] |= mask
                self.recording.program(self.names.get(id(program)))
                for offset, word in enumerate(words):
                    self.recording.write(at.PIO[block] + at.MEMORY + 4 * (place + offset), relocated(word, place))
                program[1 + block] = place
                return place
        raise OSError(12, "no room for the program" if words else "the program is empty")

    def unload(self, block: int, program: list[Any] | None) -> None:
        """Gives a program's room back, or that of all."""
        if program is None:
            self.used[block] = 0
        elif program[1 + block] >= 0:
            self.used[block] &= ~((1 << len(program[DATA])) - 1 << program[1 + block])
            program[1 + block] = -1

    def enable(self, number: int, runs: bool) -> None:
        """Starts or stops a machine."""
        block = self.recording.chip.blocks[number // 4]
        value = block.enabled & ~(1 << number % 4) | runs << number % 4
        self.recording.write(at.PIO[number // 4] + at.CTRL, value)

    def is_enabled(self, number: int) -> bool:
        """Whether a machine runs."""
        return self.recording.chip.blocks[number // 4].is_enabled(number % 4)

    def restart(self, number: int, start: int) -> None:
        """Clears a machine, and forces a jump to its first word."""
        block, bit = self.recording.chip.blocks[number // 4], number % 4
        self.recording.write(at.PIO[number // 4] + at.CTRL, block.enabled | 0x110 << bit)
        self.force(number, start)

    def force(self, number: int, word: int) -> None:
        """Has a machine execute a word."""
        self.recording.write(self.machine_address(number, "INSTR"), word)

    def write_setup(self, number: int, registers: dict[str, int]) -> None:
        """The four registers of a machine."""
        for register in at.SETUP_REGISTERS:
            self.recording.write(self.machine_address(number, register), registers[register])

    def init(self, number: int, program: list[Any], freq: int, bases: dict[str, int | None], shifts: dict[str, int | None]) -> None:
        """Sets a machine up: stopped, cleared, at the program's first word; then its registers; then its pins."""
        block = number // 4
        start = program[1 + block] if program[1 + block] >= 0 else self.load(block, program)
        self.firsts[number] = start
        self.enable(number, False)
        self.write_setup(number, at.registers_of(USUAL))
        flip = self.machine_address(number, "SHIFTCTRL") + 0x1000
        for _ in range(2):
            self.recording.write(flip, 1 << 31)
        self.restart(number, start)
        groups = {
            "out": group_of(program[OUT_PINS], bases["out_base"]),
            "set": group_of(program[SET_PINS], bases["set_base"]),
            "side": group_of(program[SIDE_PINS], bases["sideset_base"]),
        }
        self.write_setup(number, self.registers(program, start, self.divider(freq), groups, bases, shifts))
        for group in groups.values():
            self.place(number, group)

    def divider(self, freq: int) -> int:
        """The period in 256ths of a clock, cut off; the clock's own where no rate is given."""
        if freq < 0:
            return 256
        period = self.hertz * 256 // freq if freq else 0
        if freq and not 256 <= period <= 65536 * 256:
            raise ValueError("freq out of range")
        return period

    def registers(
        self,
        program: list[Any],
        start: int,
        period: int,
        groups: dict[str, Group],
        bases: dict[str, int | None],
        shifts: dict[str, int | None],
    ) -> dict[str, int]:
        """The four registers: the program's, with the places and what the call overrides."""
        exec_control, shift_control = program[EXECCTRL] & 0xFFFFFFFF, program[SHIFTCTRL] & 0xFFFFFFFF
        exec_control = exec_control + (start << 12) + (start << 7) & 0xFFFFFFFF
        if bases["jmp_pin"] is not None:
            exec_control = exec_control & ~(31 << 24) | bases["jmp_pin"] << 24
        for name, (low, bits) in {"in_shiftdir": (18, 1), "out_shiftdir": (19, 1), "push_thresh": (20, 5), "pull_thresh": (25, 5)}.items():
            value = shifts[name]
            if value is not None:
                shift_control = shift_control & ~((1 << bits) - 1 << low) | value << low & 0xFFFFFFFF
        fields: dict[str, int | bool] = {"in_base": bases["in_base"] or 0}
        for name, group in groups.items():
            if group.base is not None:
                fields |= {f"{name}_base": group.base, f"{name}_count": group.count}
        if groups["side"].base is not None:
            fields["side_count"] = groups["side"].count + (exec_control >> 30 & 1)
        found = at.registers_of(fields)
        return found | {"CLKDIV": period << 8 & 0xFFFFFFFF, "EXECCTRL": exec_control, "SHIFTCTRL": shift_control}

    def place(self, number: int, group: Group) -> None:
        """Writes the pins of a group by forced words, a pin each, and gives them to the block."""
        if group.base is None:
            return
        kept = dict(self.recording.chip.blocks[number // 4].machines[number % 4].registers)
        for kind, values in ((SET_LEVELS, group.levels), (SET_DIRECTIONS, group.directions)):
            for place in range(group.count):
                self.recording.write(self.machine_address(number, "PINCTRL"), 1 << 26 | (group.base + place) % 32 << 5)
                self.force(number, kind | values >> place & 1)
        self.recording.write(self.machine_address(number, "PINCTRL"), kept["PINCTRL"])
        for place in range(group.count):
            self.function(group.base + place, at.FUNCTION_OF_BLOCK[number // 4])

    def function(self, pin: int, function: int) -> None:
        """What a pin is used for."""
        self.recording.write(at.IO_BANK + 8 * pin + 4, function)

    def pull(self, pin: int, up: bool, down: bool) -> None:
        """A pin's pulls."""
        pads = self.recording.chip.pads.pads[pin]
        self.recording.write(at.PADS_BANK + 4 + 4 * pin, pads & ~0xC | up << 3 | down << 2)

    def put(self, number: int, words: list[int]) -> None:
        """Words for TX, each where it has room."""
        block = self.recording.chip.blocks[number // 4]
        for word in words:
            machine = block.machines[number % 4]
            if not block.is_enabled(number % 4) and len(machine.tx) >= machine.tx_room:
                raise Ended(f"put waits for room in TX of machine {number}, which isn't active")
            self.recording.write(at.PIO[number // 4] + at.TXF + 4 * (number % 4), word & 0xFFFFFFFF)
            start = block.start_of(number % 4)
            if start and len(start.later) >= MOST_WORDS:
                raise Ended(f"machine {number} has got {MOST_WORDS} words")

    def get(self, number: int) -> int:
        """A word of RX."""
        block = self.recording.chip.blocks[number // 4]
        if block.is_enabled(number % 4) or not block.machines[number % 4].rx:
            raise Ended(f"get waits for a word in RX of machine {number}")
        return block.read(at.RXF + 4 * (number % 4))
