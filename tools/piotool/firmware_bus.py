"""The peripherals that a firmware meets while its set-up is recorded: they remember, and what would be waited for is ready.

What is of the PIO blocks, the pads and the processor's pins goes to the recording. A DMA channel moves all its words at once.
"""

from dataclasses import dataclass
from typing import Callable

from piotool import firmware_map as at
from piotool.firmware_chip import plain
from piotool.firmware_recording import Recording

CLOCKS, XOSC, PLLS, TIMER, UARTS, SPIS, ADC = 0x40008000, 0x40024000, (0x40028000, 0x4002C000), 0x40054000, 0x40034000, 0x4003C000, 0x4004C000
READ, WRITE, COUNT, CONTROL = range(4)
# What the sixteen registers of a channel are: the last one of each four starts it.
VIEWS = (READ, WRITE, COUNT, CONTROL, CONTROL, READ, WRITE, COUNT, CONTROL, COUNT, READ, WRITE, CONTROL, WRITE, COUNT, READ)
CHANNELS, TRIGGER = 12, 0x430
MOST_WORDS, MOST_TRANSFERS = 65536, 256
Memory = Callable[[int, int], bytes]


@dataclass
class Control:
    """The fields of a channel's control register."""

    word: int

    @property
    def size(self) -> int:
        """The bytes of an element."""
        return 1 << (self.word >> 2 & 3)

    @property
    def chain(self) -> int:
        """The channel that is started after it; itself means none."""
        return self.word >> 11 & 15

    def is_set(self, bit: int) -> bool:
        """Whether a bit is set: 0 enable, 4 the address that is read rises, 5 the one that is written, 22 bytes are swapped."""
        return bool(self.word >> bit & 1)

    def stepped(self, address: int, rises: int, is_write: bool) -> int:
        """The address after an element, within its ring."""
        if not self.is_set(rises):
            return address
        ring = self.word >> 6 & 15
        stepped = address + self.size
        if ring and self.is_set(10) == is_write:
            return address & -(1 << ring) | stepped & (1 << ring) - 1
        return stepped


class Bus:
    """Reads and writes of peripherals by the processor and by DMA."""

    def __init__(self, recording: Recording, read_memory: Memory, write_memory: Callable[[int, bytes], None]) -> None:
        self.recording, self.read_memory, self.write_memory = recording, read_memory, write_memory
        self.plain: dict[int, int] = {}
        self.channels = [[0, 0, 0, 0] for _ in range(CHANNELS)]
        self.time, self.last_read = 0, 0

    def read(self, address: int, size: int) -> int:
        """A read of one, two or four bytes."""
        base = plain(address) & ~3
        self.last_read = base
        return self.read_word(base) >> 8 * (address & 3) & (1 << 8 * size) - 1

    def write(self, address: int, size: int, value: int) -> None:
        """A write: the bus repeats a byte or a half-word in its word."""
        value &= (1 << 8 * size) - 1
        word = value * {1: 0x01010101, 2: 0x00010001}.get(size, 1)
        self.write_word(address & ~3, word)

    def is_recorded(self, base: int) -> bool:
        """Whether a register is one that the recording holds."""
        blocks = any(it <= base < it + at.BLOCK_SIZE for it in (*at.PIO, at.IO_BANK, at.PADS_BANK))
        return blocks or base == at.RESETS or at.SIO + 0x10 <= base < at.SIO + 0x30

    def write_word(self, address: int, word: int) -> None:
        """A write of 32 bits."""
        base = plain(address)
        if self.is_recorded(base):
            self.recording.write(address, word)
            return
        if base & ~0x3FFF == at.DMA:
            self.write_dma(base - at.DMA, self.aliased(address, base, word))
        elif at.SIO + 0x60 <= base < at.SIO + 0x70:
            self.divide(base - at.SIO, word)
        else:
            self.plain[base] = self.aliased(address, base, word)

    def aliased(self, address: int, base: int, word: int) -> int:
        """What a register has after a write to one of its aliases."""
        before = self.read_word(base) if address != base else 0
        return (word, before ^ word, before | word, before & ~word)[address >> 12 & 3 if address != base else 0]

    def read_word(self, base: int) -> int:
        """A read of 32 bits."""
        if self.is_recorded(base) or base == at.SIO + 4:
            return self.pins() if base == at.SIO + 4 else self.recording.chip.read(base)
        if base & ~0x3FFF == at.DMA:
            offset = base - at.DMA
            return self.channels[offset >> 6][VIEWS[offset >> 2 & 15]] if offset < 64 * CHANNELS else 0
        if base & ~0x3FFF == TIMER & ~0x3FFF:
            self.time += 1000
            return self.time & 0xFFFFFFFF if base - TIMER in (0x0C, 0x28) else 0
        return self.ready(base)

    def ready(self, base: int) -> int:
        """A register that says that something is ready, or what was written."""
        block, offset = base & ~0x3FFF, base & 0xFFF
        if base == at.RESETS + 8:
            return ~self.recording.chip.read(at.RESETS) & 0x01FFFFFF
        if block == CLOCKS and offset % 12 == 8:
            return 1 << (self.plain.get(base - 8, 0) & 3)
        if block == XOSC or block in PLLS and offset == 0:
            return self.plain.get(base, 0) | 1 << 31
        if block & ~0x4000 == UARTS & ~0x4000 and offset == 0x18:
            return 0x90
        if block in (SPIS, SPIS + 0x4000) and offset == 0x0C:
            return 3
        if block == ADC and offset == 0:
            return self.plain.get(base, 0) | 0x100
        if at.SIO + 0x100 <= base < at.SIO + 0x180:
            return 1
        return {at.SIO + 0x50: 2, at.SIO + 0x78: 3}.get(base, self.plain.get(base, 0))

    def pins(self) -> int:
        """What the processor reads at the pins."""
        pads = self.recording.chip.pads
        return sum(pads.outside(pin) << pin for pin in range(at.PINS))

    def divide(self, offset: int, word: int) -> None:
        """The processor's divider: two operands without and with sign, quotient and remainder."""
        self.plain[at.SIO + offset] = word
        is_signed = offset >= 0x68
        by, to = (self.plain.get(at.SIO + offset // 8 * 8 + place, 0) for place in (0, 4))
        if is_signed:
            by, to = (it - (1 << 32) if it >> 31 else it for it in (by, to))
        if to == 0:
            quotient, remainder = (1 if is_signed and by < 0 else -1), by
        else:
            quotient = abs(by) // abs(to) * (1 if (by < 0) == (to < 0) else -1)
            remainder = by - quotient * to
        self.plain[at.SIO + 0x70], self.plain[at.SIO + 0x74] = quotient & 0xFFFFFFFF, remainder & 0xFFFFFFFF

    def write_dma(self, offset: int, word: int) -> None:
        """A write of a register of DMA."""
        if offset < 64 * CHANNELS:
            channel, place = offset >> 6, offset >> 2 & 15
            self.channels[channel][VIEWS[place]] = word
            # A write of 0 to the address or the count of a starting register starts nothing.
            if place & 3 == 3 and (word or VIEWS[place] == CONTROL):
                self.start([channel])
        elif offset == TRIGGER:
            self.start([channel for channel in range(CHANNELS) if word >> channel & 1])

    def start(self, channels: list[int]) -> None:
        """Starts channels, and those that they chain to."""
        ahead, seen, started = list(channels), set(), 0
        while ahead:
            channel = ahead.pop(0)
            read, write, count, word = self.channels[channel]
            control, state = Control(word), (channel, read, count)
            if not control.is_set(0) or count == 0:
                continue
            started += 1
            if state in seen or started > MOST_TRANSFERS:
                self.recording.note(f"DMA channel {channel} goes on without end: the stimulus has its words once.")
                return
            seen.add(state)
            self.move(channel, control)
            if control.chain != channel and control.chain < CHANNELS:
                ahead.append(control.chain)

    def move(self, channel: int, control: Control) -> None:
        """All words of a channel."""
        read, write, count, _ = self.channels[channel]
        chip = self.recording.chip
        source, target = (chip.block_at(plain(it) & ~3) for it in (read, write))
        if source and at.RXF <= source[1] < at.IRQ:
            self.recording.drain(source[0].index, (source[1] - at.RXF) // 4)
        to_tx = target is not None and at.TXF <= target[1] < at.RXF
        if read >= 0x40000000:
            if to_tx:
                self.recording.note(f"DMA channel {channel} sends what a peripheral gives: these words aren't in the stimulus.")
            return
        if count > MOST_WORDS:
            self.recording.note(f"DMA channel {channel} has {count} words: the stimulus has the first {MOST_WORDS}.")
        words = []
        for _ in range(min(count, MOST_WORDS)):
            element = self.read_memory(read, control.size)
            element = element[::-1] if control.is_set(22) else element
            words.append(int.from_bytes(element * (4 // control.size), "little"))
            read = control.stepped(read, 4, False)
            if not to_tx:
                self.place(write, element)
                write = control.stepped(write, 5, True)
        self.channels[channel][READ], self.channels[channel][WRITE] = read, write
        if to_tx and target:
            self.recording.dma(target[0].index, (target[1] - at.TXF) // 4, words)

    def place(self, address: int, element: bytes) -> None:
        """An element that DMA writes somewhere else than to TX."""
        if address >= 0x40000000:
            self.write(address, len(element), int.from_bytes(element, "little"))
        else:
            self.write_memory(address, element)
