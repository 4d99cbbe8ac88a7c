"""What a firmware does to the PIO blocks, as lines: each way of `piotool-setup` writes them, and one importer reads them.

`w ADDRESS VALUE` is a write of 32 bits, as the bus has it. What registers can't say has lines of its own: `clock HZ`, `program
NAME` before the words of a program are written, `dma BLOCK MACHINE WORD ..` for paced words into TX, `drain BLOCK MACHINE`, `sleep`
where time passes, `note TEXT`, and `end TEXT` with the reason why it ends there.
"""

from dataclasses import dataclass, field

from piotool.calls import Fault
from piotool.firmware_chip import Chip


@dataclass
class Recording:
    """The lines so far, and the chip that they leave."""

    lines: list[str] = field(default_factory=list)
    chip: Chip = field(default_factory=Chip)
    notes: list[str] = field(default_factory=list)
    end: str = ""
    advice: str = ""  # what to do where no machine is enabled

    def write(self, address: int, value: int) -> None:
        """A write of 32 bits."""
        self.lines.append(f"w {address:#010x} {value:#010x}")
        self.chip.write(address, value)

    def clock(self, hertz: int) -> None:
        """The system clock."""
        self.lines.append(f"clock {hertz}")
        self.chip.clock = hertz

    def program(self, name: str | None) -> None:
        """The name of the program whose words are written next."""
        self.lines.append(f"program {name or '-'}")
        self.chip.program = name

    def dma(self, block: int, machine: int, words: list[int]) -> None:
        """Paced words into TX."""
        self.lines.append(" ".join([f"dma {block} {machine}", *(f"{word:#010x}" for word in words)]))
        self.chip.blocks[block].send(machine, words, is_paced=True)

    def drain(self, block: int, machine: int) -> None:
        """A paced transfer that empties RX."""
        self.lines.append(f"drain {block} {machine}")
        self.chip.blocks[block].drain(machine)

    def sleep(self) -> None:
        """Time passes."""
        self.lines.append("sleep")
        self.chip.sleep()

    def note(self, text: str) -> None:
        """What the reader of the set-up should know; once."""
        if text not in self.notes:
            self.lines.append(f"note {text}")
            self.notes.append(text)

    def ended(self, text: str) -> None:
        """Why the recording ends."""
        self.lines.append(f"end {text}")
        self.end = text

    def text(self) -> str:
        """The lines as a file."""
        return "\n".join(self.lines) + "\n"


def replayed(text: str, name: str) -> Recording:
    """The recording that a file of lines has."""
    recording = Recording()
    for number, line in enumerate(text.splitlines(), 1):
        word, _, rest = line.partition(" ")
        try:
            replay(recording, word, rest)
        except (ValueError, IndexError):
            raise Fault(f"{name}: line {number} is none of a recording") from None
    return recording


def replay(recording: Recording, word: str, rest: str) -> None:
    """One line of a recording."""
    if word == "w":
        address, value = (int(it, 16) for it in rest.split())
        recording.write(address, value)
    elif word == "clock":
        recording.clock(int(rest))
    elif word == "program":
        recording.program(None if rest == "-" else rest)
    elif word == "dma":
        block, machine, *words = rest.split()
        recording.dma(int(block), int(machine), [int(it, 16) for it in words])
    elif word == "drain":
        block, machine = rest.split()
        recording.drain(int(block), int(machine))
    elif word == "sleep":
        recording.sleep()
    elif word == "note":
        recording.note(rest)
    elif word == "end":
        recording.ended(rest)
    else:
        raise ValueError(word)
