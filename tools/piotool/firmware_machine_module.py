"""Stand-ins for `machine` of MicroPython: pins, the clock, registers, and what is there and does nothing; and for `_thread`."""

import types
from typing import Any

from piotool import firmware_map as at
from piotool.firmware_board import Board, Ended

LED = 25


def machine_module(board: Board) -> types.ModuleType:
    """The module."""
    module = types.ModuleType("machine")

    class Pin:
        IN, OUT, OPEN_DRAIN, ALT = 0, 1, 2, 3
        PULL_UP, PULL_DOWN = 1, 2
        IRQ_RISING, IRQ_FALLING = 8, 4

        def __init__(self, pin: Any, mode: int = -1, pull: Any = -1, *, value: Any = None, alt: int = 0, **others: Any) -> None:
            text = str(getattr(pin, "number", pin)).upper().removeprefix("GP")
            self.number = LED if text == "LED" else int(text)
            if not 0 <= self.number < at.PINS:
                raise ValueError("invalid pin")
            self.init(mode, pull, value=value)

        def init(self, mode: int = -1, pull: Any = -1, *, value: Any = None, **others: Any) -> None:
            bit = 1 << self.number
            if value is not None:
                self.value(value)
            if mode in (Pin.IN, Pin.OUT, Pin.OPEN_DRAIN):
                board.recording.write(at.SIO + (0x24 if mode == Pin.OUT else 0x28), bit)
                board.function(self.number, at.FUNCTION_OF_SIO)
            if pull is None or pull in (0, 1, 2, 3):
                board.pull(self.number, bool((pull or 0) & Pin.PULL_UP), bool((pull or 0) & Pin.PULL_DOWN))

        def value(self, value: Any = None) -> int:
            if value is None:
                return board.recording.chip.pads.outside(self.number)
            board.recording.write(at.SIO + (0x14 if value else 0x18), 1 << self.number)
            return 0

        def __call__(self, value: Any = None) -> int:
            return self.value(value)

        def on(self) -> None:
            self.value(1)

        def off(self) -> None:
            self.value(0)

        high, low = on, off

        def toggle(self) -> None:
            board.recording.write(at.SIO + 0x1C, 1 << self.number)

        def irq(self, *words: Any, **named: Any) -> Any:
            return self

    class Memory:
        def __init__(self, size: int) -> None:
            self.size = size

        def __getitem__(self, address: int) -> int:
            word = board.recording.chip.read(address & ~3)
            return word >> 8 * (address & 3) & (1 << 8 * self.size) - 1

        def __setitem__(self, address: int, value: int) -> None:
            value &= (1 << 8 * self.size) - 1
            board.recording.write(address & ~3, value * {1: 0x01010101, 2: 0x00010001}.get(self.size, 1))

    def freq(hertz: int | None = None, *others: int) -> int:
        if hertz is not None:
            board.hertz = int(hertz)
            board.recording.clock(board.hertz)
        return board.hertz

    def idle(*words: Any) -> None:
        if board.started():
            raise Ended("the program sleeps")

    class Nothing:
        """A peripheral that does nothing."""

        PERIODIC, ONE_SHOT = 1, 0

        def __init__(self, *words: Any, **named: Any) -> None:
            pass

        def __getattr__(self, name: str) -> Any:
            return lambda *words, **named: 0

    module.__dict__.update({"Pin": Pin, "freq": freq, "idle": idle, "lightsleep": idle, "deepsleep": idle, "reset": idle})
    module.__dict__.update({f"mem{8 * size}": Memory(size) for size in (1, 2, 4)})
    module.__dict__.update({name: Nothing for name in ("Timer", "PWM", "ADC", "I2C", "SoftI2C", "SPI", "SoftSPI", "UART", "RTC", "WDT", "Signal")})
    module.__dict__.update({"unique_id": lambda: bytes(8), "disable_irq": lambda: 0, "enable_irq": lambda state=0: None})
    return module

class Lock:
    """A lock that nobody else holds."""

    def acquire(self, *words: Any) -> bool:
        return True

    def release(self) -> None:
        pass

    def locked(self) -> bool:
        return False

    def __enter__(self) -> "Lock":
        return self

    def __exit__(self, *words: Any) -> None:
        pass


def thread_module(board: Board) -> types.ModuleType:
    """A `_thread` whose second processor doesn't run."""
    module = types.ModuleType("_thread")

    def start(*words: Any) -> int:
        board.recording.note("The second processor isn't run: what it sets up isn't here.")
        return 1

    module.__dict__.update({"start_new_thread": start, "allocate_lock": Lock, "get_ident": lambda: 0, "exit": lambda: None})
    return module
