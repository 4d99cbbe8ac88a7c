"""Runs a program for MicroPython under CPython, over MicroPython's own `rp2.py`, with stand-ins for the modules of the board.

It ends where the program ends, sleeps again at one place, waits for a word, or has done its number of steps.
"""

import keyword
import sys
import types
import warnings
from glob import glob
from pathlib import Path
from typing import Any, Callable

from piotool.calls import Fault, read_text
from piotool.firmware_board import DATA, EXECCTRL, Board, Ended
from piotool.firmware_machine_module import machine_module, thread_module
from piotool.firmware_programs import Sources
from piotool.firmware_recording import Recording
from piotool.programs import Program

PLACES = ("micropython-*/ports/rp2/modules/rp2.py", "/usr/src/micropython*/ports/rp2/modules/rp2.py")
MOST_STEPS = 1_000_000
WORDS_OF_PIOASM = set(
    "nop jmp wait in out push pull mov irq set iffull ifempty block noblock pins pindirs pin gpio x y null isr osr osre exec pc status rel "
    "clear nowait side opt public sideset side_set optional if_full if_empty next prev one zero".split()
)


def recorded(path: str, rp2: str | None, hertz: int) -> tuple[Recording, Sources]:
    """The recording of a program, and the programs that it made."""
    recording = Recording()
    recording.clock(hertz)
    host = Host(path, Board(recording, hertz))
    text, module = read_text(path), rp2_path(rp2)
    before = dict(sys.modules)
    try:
        host.install(module, read_text(module))
        recording.ended(host.run(text))
        recording.advice = ": a program starts one by active(1)"
    finally:
        sys.settrace(None)
        sys.modules.clear()
        sys.modules.update(before)
    return recording, host.sources()


def rp2_path(given: str | None) -> str:
    """Where MicroPython's own rp2.py is."""
    if given:
        return given
    found = [path for place in PLACES for path in sorted(glob(place))]
    if not found:
        raise Fault("give MicroPython's own rp2.py by --rp2: ports/rp2/modules/rp2.py of its source (apt-get source micropython)")
    return found[-1]


def symbol(name: object, taken: set[str], front: str) -> str:
    """A name as pioasm takes it."""
    text = str(name)
    if not (text.isascii() and text.isidentifier()) or keyword.iskeyword(text):
        text = front + "".join(it if it.isascii() and it.isalnum() else "_" for it in text)
    while text.lower() in WORDS_OF_PIOASM or text in taken:
        text += "_"
    taken.add(text)
    return text


class Host:
    """The modules that a program finds, and what it made of programs."""

    def __init__(self, path: str, board: Board) -> None:
        self.path, self.board, self.steps = path, board, 0
        self.made: list[tuple[str, Any, list[Any]]] = []
        self.taken: set[str] = set()
        self.sleeps: set[int] = set()

    def install(self, rp2: str, text: str) -> None:
        """Puts the modules where `import` finds them."""
        plain = types.ModuleType("micropython")
        plain.const = lambda value: value  # type: ignore[attr-defined]
        for name in ("native", "viper"):
            setattr(plain, name, lambda function: function)
        for name in ("alloc_emergency_exception_buf", "opt_level", "mem_info", "kbd_intr"):
            setattr(plain, name, lambda *words: 0)
        clock = self.time_module()
        sys.modules |= {"micropython": plain, "time": clock, "utime": clock, "_thread": thread_module(self.board)}
        # CPython's own would wait in real time. None makes an import of it a fault of the file.
        sys.modules |= {name: None for name in ("asyncio", "threading", "socket", "select")}  # type: ignore[dict-item]
        sys.modules |= {"machine": machine_module(self.board), "_rp2": rp2_module(self.board)}
        for name in ("array", "struct", "json", "os", "random", "collections", "binascii", "io", "math", "gc"):
            sys.modules["u" + name] = __import__(name)
        module = types.ModuleType("rp2")
        module.__file__ = rp2
        sys.modules["rp2"] = module
        try:
            with warnings.catch_warnings():
                warnings.simplefilter("ignore")
                exec(compile(text, rp2, "exec"), module.__dict__)
        except Exception as fault:
            raise Fault(f"{rp2}: {type(fault).__name__}: {fault}; is it MicroPython's rp2.py?") from None
        if not hasattr(module, "asm_pio") or not hasattr(module, "PIOASMEmit"):
            raise Fault(f"{rp2}: it has no asm_pio: give MicroPython's rp2.py")
        self.name_programs(module)

    def name_programs(self, module: Any) -> None:
        """Has each program that is made remembered with its name and its labels."""
        plain, host, last = module.asm_pio, self, []  # type: Any, Host, list[Any]

        class Emit(module.PIOASMEmit):  # type: ignore[misc, name-defined]
            def __init__(self, **words: Any) -> None:
                super().__init__(**words)
                last[:] = [self]

        def asm_pio(**words: Any) -> Callable[[Any], list[Any]]:
            work = plain(**words)
            emit = last[0]

            def named(function: Any) -> list[Any]:
                program: list[Any] = work(function)
                name = symbol(getattr(function, "__name__", "program"), host.taken, "program_")
                host.made.append((name, emit, program))
                host.board.names[id(program)] = name
                return program

            return named

        module.PIOASMEmit, module.asm_pio = Emit, asm_pio

    def sources(self) -> Sources:
        """The programs that were made and have words."""
        sources = Sources()
        for name, emit, program in self.made:
            if len(program[DATA]):
                sources.add(program_of(name, emit, program), self.path)
        return sources

    def time_module(self) -> types.ModuleType:
        """A `time` in which sleeping takes no time."""
        clock = types.ModuleType("time")
        passed = [0]

        def sleep(*words: Any) -> None:
            self.slept()

        def now(*words: Any) -> int:
            passed[0] += 1000
            return passed[0]

        for name in ("sleep", "sleep_ms", "sleep_us"):
            setattr(clock, name, sleep)
        for name in ("ticks_ms", "ticks_us", "ticks_cpu", "time", "time_ns"):
            setattr(clock, name, now)
        clock.ticks_diff = lambda one, other: one - other  # type: ignore[attr-defined]
        clock.ticks_add = lambda one, other: one + other  # type: ignore[attr-defined]
        clock.localtime = clock.gmtime = lambda *words: (2020, 1, 1, 0, 0, 0, 2, 1)  # type: ignore[attr-defined]
        return clock

    def slept(self) -> None:
        """Time passes; the second time at one line the program has come round."""
        if not self.board.started():
            return
        frame: Any = sys._getframe(2)
        if frame.f_lineno in self.sleeps:
            raise Ended(f"the program comes round to sleep in line {frame.f_lineno}")
        self.sleeps.add(frame.f_lineno)
        self.board.recording.sleep()

    def trace(self, frame: Any, event: str, extra: Any) -> Any:
        """Counts lines, and in the file all steps, since a loop that is one line has no other event."""
        frame.f_trace_opcodes = frame.f_code.co_filename == self.path
        self.steps += event in ("line", "opcode")
        if Ended.why and event == "line" and frame.f_code.co_filename == self.path:
            raise Ended(Ended.why[0])
        if self.steps > MOST_STEPS:
            raise Ended(f"{MOST_STEPS} steps were run, the last in line {frame.f_lineno}")
        return self.trace

    def run(self, text: str) -> str:
        """Runs the program; why it ended."""
        # The board's own first file runs in the same names, and imports these.
        space = {"__name__": "__main__", "__file__": self.path, "machine": sys.modules["machine"], "rp2": sys.modules["rp2"]}
        space["input"] = no_line
        said, sys.stdout = sys.stdout, Silent()
        try:
            with warnings.catch_warnings():
                # What Python thinks of the file's text is no line of ours.
                warnings.simplefilter("ignore")
                code = compile(text, self.path, "exec")
                sys.path.insert(0, str(Path(self.path).resolve().parent))
                sys.settrace(self.trace)
                try:
                    exec(code, space)
                finally:
                    sys.settrace(None)
        except Ended as end:
            return str(end)
        except SystemExit:
            return "the program exits"
        except Exception as fault:
            sys.settrace(None)
            raise Fault(f"{self.path}: line {line_of(fault, self.path)}: {told_of(fault)}") from None
        finally:
            sys.settrace(None)
            sys.stdout = said
        return "the program ends"


def no_line(*words: Any) -> str:
    """`input`."""
    raise Ended("input waits for a line")


class Silent:
    """Where what the program prints goes."""

    def write(self, text: str) -> int:
        """Nothing is written."""
        return len(text)

    def flush(self) -> None:
        """Nothing waits."""


def told_of(fault: Exception) -> str:
    """What a fault of the file is."""
    if isinstance(fault, ModuleNotFoundError):
        return f"ModuleNotFoundError: {fault.name} isn't here: give a copy that sets its machines up without it"
    return f"{type(fault).__name__}: {fault}"


def line_of(fault: Exception, path: str) -> int:
    """The last line of the file that a fault comes from."""
    if isinstance(fault, SyntaxError):
        return fault.lineno or 0
    line, trace = 0, fault.__traceback__
    while trace:
        if trace.tb_frame.f_code.co_filename == path:
            line = trace.tb_lineno
        trace = trace.tb_next
    return line


def program_of(name: str, emit: Any, program: list[Any]) -> Program:
    """A program as a source has it."""
    control, words = program[EXECCTRL], list(program[DATA])
    opt = control >> 30 & 1
    rule = {"side_bits": emit.sideset_count - opt, "side_opt": bool(opt), "side_pindirs": bool(control >> 29 & 1)}
    taken: set[str] = {name}
    labels = {symbol(label, taken, "label_"): place for label, place in emit.labels.items() if place < len(words)}
    return Program(name, None, rule, (control >> 7 & 31, control >> 12 & 31), words, labels)


def number_of(pin: Any) -> int | None:
    """A pin's number: a Pin, a number, or none."""
    return None if pin is None else int(getattr(pin, "number", pin))


def words_in(value: Any, shift: int) -> list[int]:
    """What `put` sends: a number, or the elements of a buffer."""
    if isinstance(value, int):
        return [value << shift]
    return [int(word) << shift for word in (memoryview(value) if not isinstance(value, (list, tuple)) else value)]


def rp2_module(board: Board) -> types.ModuleType:
    """The stand-in for `_rp2`."""
    module = types.ModuleType("_rp2")

    class PIO:
        IN_LOW, IN_HIGH, OUT_LOW, OUT_HIGH, SHIFT_LEFT, SHIFT_RIGHT = 0, 1, 2, 3, 0, 1
        JOIN_NONE, JOIN_TX, JOIN_RX = 0, 1, 2
        IRQ_SM0, IRQ_SM1, IRQ_SM2, IRQ_SM3 = 0x100, 0x200, 0x400, 0x800

        def __init__(self, number: int) -> None:
            if number not in (0, 1):
                raise ValueError("invalid PIO")
            self.number = number

        def add_program(self, program: list[Any]) -> None:
            board.load(self.number, program)

        def remove_program(self, program: list[Any] | None = None) -> None:
            board.unload(self.number, program)

        def state_machine(self, number: int, *words: Any, **named: Any) -> Any:
            return StateMachine(4 * self.number + number, *words, **named)

        def irq(self, *words: Any, **named: Any) -> Any:
            return self

        def flags(self) -> int:
            return 0

    class StateMachine:
        def __init__(self, number: int, *words: Any, **named: Any) -> None:
            if number not in range(8):
                raise ValueError("invalid StateMachine")
            self.number = number
            if words or named:
                self.init(*words, **named)

        def init(self, program: list[Any], freq: int = -1, **named: Any) -> None:
            bases = {key: number_of(named.pop(key, None)) for key in ("in_base", "out_base", "set_base", "jmp_pin", "sideset_base")}
            shifts = {key: named.pop(key, None) for key in ("in_shiftdir", "out_shiftdir", "push_thresh", "pull_thresh")}
            if named:
                raise TypeError(f"unexpected {', '.join(named)}")
            board.init(self.number, program, freq, bases, shifts)

        def active(self, value: Any = None) -> bool:
            if value is not None:
                board.enable(self.number, bool(value))
            return board.is_enabled(self.number)

        def restart(self) -> None:
            board.restart(self.number, board.firsts.get(self.number, 0))

        def exec(self, word: Any) -> None:
            if isinstance(word, str):
                machine = board.recording.chip.blocks[self.number // 4].machines[self.number % 4].fields
                opt = bool(machine["side_opt"])
                word = sys.modules["rp2"].asm_pio_encode(word, int(machine["side_count"]) - opt, opt)
            board.force(self.number, word)

        def put(self, value: Any, shift: int = 0) -> None:
            board.put(self.number, words_in(value, shift))

        def get(self, buffer: Any = None, shift: int = 0) -> int:
            return board.get(self.number) >> shift

        def rx_fifo(self) -> int:
            return 0 if board.is_enabled(self.number) else len(board.recording.chip.blocks[self.number // 4].machines[self.number % 4].rx)

        def tx_fifo(self) -> int:
            return 0 if board.is_enabled(self.number) else len(board.recording.chip.blocks[self.number // 4].machines[self.number % 4].tx)

        def irq(self, *words: Any, **named: Any) -> Any:
            return self

        def flags(self) -> int:
            return 0

    module.__dict__.update({"PIO": PIO, "StateMachine": StateMachine, "bootsel_button": lambda: 0, "Flash": object, "DMA": dma_class(board)})
    return module


def dma_class(board: Board) -> type:
    """The stand-in for `rp2.DMA`: what is sent to a machine becomes paced words."""

    class DMA:
        def __init__(self) -> None:
            self.said: dict[str, Any] = {}

        def pack_ctrl(self, **fields: Any) -> dict[str, Any]:
            return {"size": 2, "bswap": False, "inc_read": True} | fields

        def config(self, **said: Any) -> None:
            trigger = said.pop("trigger", False)
            self.said |= said
            if trigger:
                self.active(1)

        def active(self, value: Any = None) -> bool:
            if value:
                self.move()
            return False

        def move(self) -> None:
            control, to, of = self.said.get("ctrl"), self.said.get("write"), self.said.get("read")
            to, of = getattr(to, "number", None), of if not hasattr(of, "number") else None
            if not isinstance(control, dict) or to is None or of is None or isinstance(of, int):
                board.recording.note("A DMA channel isn't from a buffer to a machine: what it does isn't in the stimulus.")
                return
            data, size = bytes(of), 1 << control["size"]
            elements = [data[place : place + size] for place in range(0, len(data), size)][: int(self.said.get("count", 1 << 16))]
            elements = [it[::-1] if control["bswap"] else it for it in elements if len(it) == size]
            words = [int.from_bytes(it * (4 // size), "little") for it in elements]
            board.recording.dma(to // 4, to % 4, words)

        def close(self) -> None:
            pass

    return DMA
