"""Runs a firmware from its first function on an emulated ARMv6-M (by python3-unicorn), and records what it sets up.

It ends where the code comes round, sleeps again, stops, or has done its number of instructions.
"""

import zlib
from typing import Any, Callable

from piotool.calls import Fault
from piotool.firmware_bus import Bus
from piotool.firmware_elf import Firmware
from piotool.firmware_functions import functions
from piotool.firmware_map import name_of
from piotool.firmware_recording import Recording

ROM, FLASH, RAM = (0x00000000, 0x4000), (0x10000000, 0x1000000), (0x20000000, 0x42000)
DEVICES = ((0x40000000, 0x80000), (0x50000000, 0x500000), (0xD0000000, 0x1000), (0xE0000000, 0x10000))
RETURN, NULL_FUNCTION, RETURN_CODE = 0x100, 0x110, b"\x70\x47"
LOOK_EVERY = 4096  # blocks of code between two looks whether the code comes round
MOST_VISITS = 64  # of the same block after a look, at which registers are compared
MOST_WORDS = 256  # words that the processor sends to one machine that runs
WAIT_FOR_INTERRUPT, WAIT_FOR_EVENT = b"\x30\xbf", b"\x20\xbf"


class Run:
    """One run of a firmware. It is a `Call` for the functions that are replaced."""

    def __init__(self, firmware: Firmware, recording: Recording, hertz: int, most: int) -> None:
        try:
            import unicorn
            from unicorn import arm_const
        except ImportError:
            raise Fault("the way elf needs python3-unicorn: apt-get install python3-unicorn") from None
        self.unicorn, self.arm, self.firmware, self.recording = unicorn, arm_const, firmware, recording
        self.uc: Any = unicorn.Uc(unicorn.UC_ARCH_ARM, unicorn.UC_MODE_THUMB | unicorn.UC_MODE_MCLASS)
        self.bus = Bus(recording, self.memory, self.fill)
        self.hertz, self.most, self.done, self.blocks = hertz, most, 0, 0
        self.why, self.fault, self.sleeps = "", None, set()  # type: str, BaseException | None, set[int]
        self.look_at, self.visits, self.state = 0, 0, None  # type: int, int, tuple[Any, ...] | None
        self.registers = [getattr(arm_const, f"UC_ARM_REG_{name}") for name in [*(f"R{it}" for it in range(13)), "SP", "LR"]]
        self.load()

    def load(self) -> None:
        """Memory, devices, functions, and looks."""
        for start, size in (ROM, FLASH, RAM):
            self.uc.mem_map(start, size)
        self.uc.mem_write(0, RETURN_CODE * (ROM[1] // 2))
        # The ROM's table of functions and the function that looks one up: it finds one that does nothing.
        self.uc.mem_write(0x14, (0x0200).to_bytes(2, "little") * 2 + (NULL_FUNCTION + 0x11).to_bytes(2, "little"))
        self.uc.mem_write(NULL_FUNCTION + 0x10, b"\x00\x48\x70\x47" + (NULL_FUNCTION | 1).to_bytes(4, "little"))
        for address, data in self.firmware.segments:
            if not any(start <= address and address + len(data) <= start + size for start, size in (FLASH, RAM)):
                raise Fault(f"{self.firmware.path}: it loads to {address:#010x}, where an RP2040 has no flash or memory")
            self.uc.mem_write(address, data)
        for start, size in DEVICES:
            self.uc.mmio_map(start, size, self.reader(start), None, self.writer(start), None)
        for name, stand in functions().items():
            if name in self.firmware.symbols:
                self.replace(self.firmware.symbols[name] & ~1, stand)
        for name in ("pio_add_program", "pio_add_program_at_offset"):
            if name in self.firmware.symbols:
                self.hook(self.firmware.symbols[name] & ~1, self.name_program)
        if "configured_freq" in self.firmware.symbols:
            self.fill(self.firmware.symbols["configured_freq"] + 4 * 5, self.hertz.to_bytes(4, "little"))
        self.hook(RETURN, lambda: self.stop("main returns"))
        self.uc.hook_add(self.unicorn.UC_HOOK_BLOCK, self.guarded(self.block))

    def guarded(self, work: Callable[..., Any]) -> Callable[..., Any]:
        """A function that the engine calls: what it raises ends the run."""

        def guarded(*words: Any) -> Any:
            try:
                return work(*words)
            except BaseException as fault:
                self.fault = self.fault or fault
                self.uc.emu_stop()
                return 0

        return guarded

    def reader(self, start: int) -> Callable[..., int]:
        """Reads of devices."""
        return self.guarded(lambda uc, offset, size, data: self.bus.read(start + offset, size))

    def writer(self, start: int) -> Callable[..., None]:
        """Writes of devices."""

        def write(uc: Any, offset: int, size: int, value: int, data: Any) -> None:
            self.bus.write(start + offset, size, value)
            self.look_at_words()

        return self.guarded(write)

    def look_at_words(self) -> None:
        """Ends the run where the processor sends words to a machine without end."""
        for block in self.recording.chip.blocks:
            for number in range(4):
                start = block.start_of(number)
                if start and not start.is_fed and len(start.later) >= MOST_WORDS:
                    self.stop(f"machine {number} has got {MOST_WORDS} words, in {self.here()}")

    def hook(self, address: int, work: Callable[[], None]) -> None:
        """Calls a function before the instruction at an address."""
        self.uc.hook_add(self.unicorn.UC_HOOK_CODE, self.guarded(lambda *words: work()), None, address, address)

    def replace(self, address: int, stand: Callable[[Any], None]) -> None:
        """Has a stand-in do a function's work."""
        self.uc.mem_write(address, RETURN_CODE)
        self.hook(address, lambda: stand(self))

    def name_program(self) -> None:
        """Notes the name of the program that is loaded next, by the symbol of its description or its words."""
        described = self.argument(1)
        words = int.from_bytes(self.memory(described, 4), "little") if described < 0x40000000 else 0
        self.recording.program(self.firmware.program_at(described) or self.firmware.program_at(words))

    # What a stand-in asks.

    def register(self, place: int) -> int:
        """A register by its place in the list."""
        return int(self.uc.reg_read(self.registers[place]))

    def argument(self, place: int) -> int:
        """An argument of the function that was called: four in registers, more on the stack."""
        if place < 4:
            return self.register(place)
        return int.from_bytes(self.memory(self.register(13) + 4 * (place - 4), 4), "little")

    def give(self, value: int, high: int | None = None) -> None:
        """The function's result."""
        self.uc.reg_write(self.registers[0], value & 0xFFFFFFFF)
        if high is not None:
            self.uc.reg_write(self.registers[1], high)

    def memory(self, address: int, size: int) -> bytes:
        """Bytes of memory."""
        try:
            return bytes(self.uc.mem_read(address, size))
        except self.unicorn.UcError:
            raise Fault(f"{self.here()} reads {size} bytes at {address:#010x}, where there is no memory") from None

    def fill(self, address: int, data: bytes) -> None:
        """Writes bytes to memory."""
        try:
            self.uc.mem_write(address, data)
        except self.unicorn.UcError:
            raise Fault(f"{self.here()} writes {len(data)} bytes at {address:#010x}, where there is no memory") from None

    def sleep(self, name: str) -> None:
        """Time passes; the second time at one place the run has come round."""
        place = self.register(14)
        self.give(0)
        if not any(any(block.starts.values()) for block in self.recording.chip.blocks):
            return
        if place in self.sleeps:
            self.stop(f"the code comes round to {name} in {self.firmware.function_at(place & ~1)}")
        elif name != "tight_loop_contents":
            self.recording.sleep()
        self.sleeps.add(place)

    def stop(self, why: str) -> None:
        """Ends the run."""
        self.why = self.why or why
        self.uc.emu_stop()

    def note(self, text: str) -> None:
        """A note for the reader of the set-up."""
        self.recording.note(text)

    def set_clock(self, hertz: int) -> None:
        """The firmware sets its system clock."""
        self.hertz = hertz
        self.recording.clock(hertz)
        if "configured_freq" in self.firmware.symbols:
            self.fill(self.firmware.symbols["configured_freq"] + 4 * 5, hertz.to_bytes(4, "little"))

    # The run.

    def here(self) -> str:
        """The function that runs."""
        return self.firmware.function_at(int(self.uc.reg_read(self.arm.UC_ARM_REG_PC)))

    def block(self, uc: Any, address: int, size: int, data: Any) -> None:
        """Looks at each block of code: the number of instructions, and whether the code comes round."""
        self.blocks += 1
        self.done += size // 2
        if self.done > self.most:
            self.stop(f"{self.most} instructions were run, the last in {self.firmware.function_at(address)}")
        elif self.blocks % LOOK_EVERY == 0:
            self.look_at, self.state, self.visits = address, self.whole_state(), 0
        elif address == self.look_at and self.visits < MOST_VISITS and self.state is not None and self.is_as_before(self.state):
            self.stop(f"the code comes round in {self.waiting_at(address)}")

    def is_as_before(self, state: tuple[Any, ...]) -> bool:
        """Whether registers and memory are those of a state; the registers first, since they mostly tell."""
        self.visits += 1
        for place in range(len(self.registers)):
            if self.register(place) != state[place]:
                return False
        return state == self.whole_state()

    def whole_state(self) -> tuple[Any, ...]:
        """Registers and memory, to tell whether they come again."""
        values = tuple(self.register(place) for place in range(len(self.registers)))
        return (*values, zlib.crc32(self.memory(*RAM)), len(self.recording.lines), self.bus.time)

    def waiting_at(self, address: int) -> str:
        """Where the code comes round, with the register of a block that it looks at."""
        found = self.recording.chip.block_at(self.bus.last_read)
        what = f", which waits for PIO{found[0].index}'s {name_of(found[1]) if found[1] != 4 else 'FSTAT'}" if found else ""
        return self.firmware.function_at(address) + what

    def call(self, address: int) -> None:
        """Runs a function until it returns or something ends the run."""
        stack = self.firmware.symbols.get("__StackTop", RAM[0] + RAM[1]) & ~7
        self.uc.reg_write(self.arm.UC_ARM_REG_SP, stack)
        self.uc.reg_write(self.arm.UC_ARM_REG_LR, RETURN | 1)
        next_one = address
        while not self.why:
            try:
                self.uc.emu_start(next_one | 1, 0xFFFFFFFE)
            except self.unicorn.UcError as fault:
                self.why = self.why or f"the processor faults in {self.here()} ({fault})"
            if self.fault:
                raise self.fault
            next_one = int(self.uc.reg_read(self.arm.UC_ARM_REG_PC)) & ~1
            if not self.why:
                next_one = self.after_wait(next_one)

    def after_wait(self, address: int) -> int:
        """The address after an instruction that waits for an interrupt; the second time it ends the run."""
        here, before = self.memory(address, 2), self.memory(address - 2, 2)
        if here not in (WAIT_FOR_INTERRUPT, WAIT_FOR_EVENT) and before not in (WAIT_FOR_INTERRUPT, WAIT_FOR_EVENT):
            self.why = f"the processor stops in {self.firmware.function_at(address)}"
        elif address in self.sleeps:
            self.why = f"the firmware sleeps in {self.firmware.function_at(address)}"
        self.sleeps.add(address)
        if any(any(block.starts.values()) for block in self.recording.chip.blocks):
            self.recording.sleep()
        return address + 2 if here in (WAIT_FOR_INTERRUPT, WAIT_FOR_EVENT) else address


def recorded(firmware: Firmware, entry: str, hertz: int, most: int) -> Recording:
    """The recording of a firmware's run, its constructors before its first function."""
    recording = Recording()
    recording.clock(hertz)
    run = Run(firmware, recording, hertz, most)
    first = firmware.address_of(entry)
    bounds = [firmware.symbols.get(name) for name in ("__init_array_start", "__init_array_end")]
    if entry == "main" and None not in bounds:
        for place in range(bounds[0] or 0, bounds[1] or 0, 4):
            run.call(int.from_bytes(run.memory(place, 4), "little") & ~1)
            if run.why != "main returns":
                break
            run.why = ""
    if not run.why:
        run.call(first)
    recording.ended(run.why)
    recording.advice = ": give more by --instructions" if run.done > most else ": name the function that enables one by --entry"
    return recording
