"""Functions that are replaced while a firmware's set-up is recorded: they wait for hardware, cost time, or call the chip's ROM.

A replaced function returns at once. `Call` is how its stand-in sees the processor.
"""

import math
import struct
from typing import Callable, Protocol

SYSTEM_CLOCK = 5
OTHER_CLOCKS = {4: 12_000_000, 6: 125_000_000, 7: 48_000_000, 8: 48_000_000, 9: 46_875}


class Call(Protocol):
    """A call of a function: its arguments, its result, and what it may do."""

    hertz: int

    def argument(self, place: int) -> int: ...
    def give(self, value: int, high: int | None = None) -> None: ...
    def memory(self, address: int, size: int) -> bytes: ...
    def fill(self, address: int, data: bytes) -> None: ...
    def sleep(self, name: str) -> None: ...
    def stop(self, why: str) -> None: ...
    def note(self, text: str) -> None: ...
    def set_clock(self, hertz: int) -> None: ...


Stand = Callable[[Call], None]
WAITS = """sleep_ms sleep_us sleep_until busy_wait_us busy_wait_us_32 busy_wait_ms busy_wait_until busy_wait_at_least_cycles
best_effort_wfe_or_timeout tight_loop_contents sem_acquire_blocking queue_remove_blocking multicore_fifo_pop_blocking""".split()
NOTHING = """stdio_init_all stdio_uart_init stdio_usb_init stdio_uart_init_full stdio_flush stdio_set_driver_enabled printf __wrap_printf
vprintf __wrap_vprintf puts __wrap_puts putchar __wrap_putchar puts_raw putchar_raw stdio_puts_raw stdio_printf stdio_putchar
irq_set_exclusive_handler irq_add_shared_handler irq_set_enabled irq_set_priority irq_set_mask_enabled irq_clear
user_irq_claim clocks_init clock_configure_undivided runtime_init tusb_init tud_task multicore_fifo_push_blocking
multicore_reset_core1 add_alarm_in_us add_alarm_in_ms add_alarm_at alarm_pool_add_alarm_at alarm_pool_add_repeating_timer_us
add_repeating_timer_us add_repeating_timer_ms flash_range_erase flash_range_program vreg_set_voltage adc_init rtc_init
__retarget_lock_acquire_recursive __retarget_lock_release_recursive""".split()
ENDS = """panic panic_unsupported hard_assertion_failure __assert_func exit _exit abort __wrap_exit reset_usb_boot rom_reset_usb_boot
watchdog_reboot""".split()


def floating(word: int) -> float:
    """The number of 32 bits."""
    return float(struct.unpack("<f", struct.pack("<I", word & 0xFFFFFFFF))[0])


def doubled(low: int, high: int) -> float:
    """The number of 64 bits."""
    return float(struct.unpack("<d", struct.pack("<II", low, high))[0])


def give_float(call: Call, value: float) -> None:
    """Returns a number of 32 bits."""
    try:
        data = struct.pack("<f", value)
    except OverflowError:
        data = struct.pack("<f", math.copysign(math.inf, value))
    call.give(struct.unpack("<I", data)[0])


def give_double(call: Call, value: float) -> None:
    """Returns a number of 64 bits."""
    call.give(*struct.unpack("<II", struct.pack("<d", value)))


def divided(one: float, other: float) -> float:
    """A quotient as the processor has it."""
    if other:
        return one / other
    return math.nan if one == 0 or math.isnan(one) else math.copysign(math.inf, one) * math.copysign(1, other)


SUMS: dict[str, Callable[[float, float], float]] = {
    "add": lambda a, b: a + b,
    "sub": lambda a, b: a - b,
    "rsub": lambda a, b: b - a,
    "mul": lambda a, b: a * b,
    "div": divided,
}
ORDERS: dict[str, Callable[[float, float], bool]] = {
    "cmpeq": lambda a, b: a == b,
    "cmplt": lambda a, b: a < b,
    "cmple": lambda a, b: a <= b,
    "cmpge": lambda a, b: a >= b,
    "cmpgt": lambda a, b: a > b,
    "cmpun": lambda a, b: math.isnan(a) or math.isnan(b),
}


def whole(value: float, bits: int, is_signed: bool) -> int:
    """A number cut off toward zero, and held within the range of its type."""
    if math.isnan(value):
        return 0
    low, high = (-(1 << bits - 1), (1 << bits - 1) - 1) if is_signed else (0, (1 << bits) - 1)
    return max(low, min(high, int(value) if math.isfinite(value) else (low if value < 0 else high))) & (1 << bits) - 1


def signed(word: int, bits: int) -> int:
    """A number with its sign."""
    return word - (1 << bits) if word >> bits - 1 else word


def two_floats(call: Call) -> tuple[float, float]:
    """The arguments of a function of two numbers of 32 bits."""
    return floating(call.argument(0)), floating(call.argument(1))


def two_doubles(call: Call) -> tuple[float, float]:
    """The arguments of a function of two numbers of 64 bits."""
    return doubled(call.argument(0), call.argument(1)), doubled(call.argument(2), call.argument(3))


def number(call: Call, bits: int, is_signed: bool) -> int:
    """The argument of a function of one whole number."""
    word = call.argument(0) | (call.argument(1) << 32 if bits == 64 else 0)
    return signed(word, bits) if is_signed else word


def give_whole(call: Call, value: int, bits: int) -> None:
    """Returns a whole number of 32 or 64 bits."""
    call.give(value & 0xFFFFFFFF, value >> 32 if bits == 64 else None)


def float_functions() -> dict[str, Stand]:
    """The helpers of numbers with a point."""
    found: dict[str, Stand] = {}
    for name, work in SUMS.items():
        found["f" + name] = lambda call, work=work: give_float(call, work(*two_floats(call)))
        found["d" + name] = lambda call, work=work: give_double(call, work(*two_doubles(call)))
    for name, order in ORDERS.items():
        found["f" + name] = lambda call, order=order: call.give(int(order(*two_floats(call))))
        found["d" + name] = lambda call, order=order: call.give(int(order(*two_doubles(call))))
    for letter, bits, is_signed in (("i", 32, True), ("ui", 32, False), ("l", 64, True), ("ul", 64, False)):
        found[letter + "2f"] = lambda call, b=bits, s=is_signed: give_float(call, float(number(call, b, s)))
        found[letter + "2d"] = lambda call, b=bits, s=is_signed: give_double(call, float(number(call, b, s)))
        found[f"f2{letter}z"] = lambda call, b=bits, s=is_signed: give_whole(call, whole(two_floats(call)[0], b, s), b)
        found[f"d2{letter}z"] = lambda call, b=bits, s=is_signed: give_whole(call, whole(two_doubles(call)[0], b, s), b)
    found["f2d"] = lambda call: give_double(call, two_floats(call)[0])
    found["d2f"] = lambda call: give_float(call, two_doubles(call)[0])
    return {f"__wrap___aeabi_{name}": stand for name, stand in found.items()}


def copy(call: Call) -> None:
    """memcpy."""
    to, size = call.argument(0), call.argument(2)
    call.fill(to, call.memory(call.argument(1), size))
    call.give(to)


def fill(call: Call, value: int, size: int) -> None:
    """memset."""
    to = call.argument(0)
    call.fill(to, bytes([call.argument(value) & 255]) * call.argument(size))
    call.give(to)


def memory_functions() -> dict[str, Stand]:
    """Those that copy, fill and count by the ROM."""
    found: dict[str, Stand] = {"__wrap_memcpy": copy, "__wrap_memset": lambda call: fill(call, 1, 2)}
    for size in ("", "4", "8"):
        found[f"__wrap___aeabi_memcpy{size}"] = copy
        found[f"__wrap___aeabi_memset{size}"] = lambda call: fill(call, 2, 1)
    found["__wrap___popcountsi2"] = lambda call: call.give(call.argument(0).bit_count())
    found["__wrap___clzsi2"] = lambda call: call.give(32 - call.argument(0).bit_length())
    found["__wrap___ctzsi2"] = lambda call: call.give(((call.argument(0) & -call.argument(0)).bit_length() - 1) % 33)
    return found


def rate(call: Call) -> None:
    """clock_get_hz."""
    call.give(call.hertz if call.argument(0) == SYSTEM_CLOCK else OTHER_CLOCKS.get(call.argument(0), 0))


def set_rate(call: Call) -> None:
    """set_sys_clock_pll: the oscillator's rate and two divisors."""
    call.set_clock(call.argument(0) // max(1, call.argument(1) * call.argument(2)))


def configure(call: Call) -> None:
    """clock_configure: the fifth argument is the rate."""
    if call.argument(0) == SYSTEM_CLOCK:
        call.set_clock(call.argument(4))
    call.give(1)


def set_48(call: Call) -> None:
    """set_sys_clock_48mhz."""
    call.set_clock(48_000_000)


def other_core(call: Call) -> None:
    """multicore_launch_core1."""
    call.note("The second processor isn't run: what it sets up isn't here.")
    call.give(0)


def wireless(call: Call) -> None:
    """cyw43_arch_init."""
    call.note("The wireless chip isn't set up: the machine that its driver would use isn't here.")
    call.give(0)


def functions() -> dict[str, Stand]:
    """All stand-ins by name."""
    found: dict[str, Stand] = {name: lambda call, name=name: call.sleep(name) for name in WAITS}
    found |= {name: lambda call: call.give(0) for name in NOTHING}
    found |= {name: lambda call, name=name: call.stop(f"the firmware calls {name}") for name in ENDS}
    found |= {"clock_get_hz": rate, "set_sys_clock_pll": set_rate, "set_sys_clock_48mhz": set_48, "clock_configure": configure}
    found |= {"multicore_launch_core1": other_core, "multicore_launch_core1_with_stack": other_core, "cyw43_arch_init": wireless}
    return found | float_functions() | memory_functions()
