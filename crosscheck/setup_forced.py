"""Random sequences of forced instructions: what the importer of piotool-setup makes of them, beside piotool running the same words.

A sequence's words are a program, after which words of its own show ISR, OSR, X, Y and whether the counts have reached their
thresholds, by pushes that the system reads, each word for itself since a tick has four clocks. Words that would stall, jump elsewhere or read pins aren't drawn: the importer refuses
what they need.
"""

import random
import subprocess
from dataclasses import dataclass
from pathlib import Path

from piotool import firmware_forced
from piotool.firmware_forced import Machine, Pins, Tick
from piotool.firmware_map import registers_of

PUSH_IFFULL, PUSH, MOV_ISR = 0x8040, 0x8000, 0xA0C0
X, Y, NULL, ISR, OSR = 1, 2, 3, 6, 7
WAIT_FOR_31, JMP_NOT_OSRE, INVERTED = 0x209F | 0x80, 0x00E0, 8
BEFORE, AFTER, CLOCKS = 1500, 1600, 4000


class Told(Tick):
    """A tick after which the pins are kept."""

    def run(self) -> None:
        """The tick."""
        super().run()
        history.append((self.pins.levels, self.pins.directions))


firmware_forced.Tick = Told  # type: ignore[misc]
history: list[tuple[int, int]] = []


@dataclass
class Sequence:
    """A machine, the words that are forced on it, the words in TX before, and the pins after each tick."""

    number: int
    states: list[tuple[int, int]]
    keys: dict[str, int]
    rule: tuple[int, int, int]
    words: list[int]
    sent: list[int]
    levels: int
    directions: int


def drawn(seed: int) -> tuple[Sequence, Machine, Pins]:
    """A sequence, with the machine and the pins that the importer has after it."""
    draw = random.Random(seed)
    bits = draw.choice([0, 0, 1, 2, 3])
    opt, pindirs = int(bits > 0 and draw.random() < 0.4), int(bits > 0 and draw.random() < 0.3)
    keys = {key: draw.randrange(32) for key in ("in_base", "out_base", "set_base", "side_base")}
    keys |= {"out_count": draw.choice([0, 1, 5, 32, draw.randrange(33)]), "set_count": draw.randrange(6)}
    keys |= {key: draw.randrange(2) for key in ("in_right", "out_right", "autopush", "autopull", "status_rx")}
    keys |= {key: draw.choice([32, 8, draw.randint(1, 32)]) for key in ("push_threshold", "pull_threshold")}
    keys |= {"status_n": draw.randrange(6), "join_tx": 0, "join_rx": 0, "divider": 4}
    fields = keys | {"side_opt": opt, "side_pindirs": pindirs, "side_count": bits + opt, "wrap_bottom": 0, "wrap_top": 31}
    machine, pins = Machine(draw.randrange(4), registers_of(fields)), Pins(draw.getrandbits(31), draw.getrandbits(31))
    sent, states = [draw.getrandbits(32) for _ in range(draw.randrange(5))], [(pins.levels, pins.directions)]
    sequence = Sequence(machine.number, states, keys, (bits, opt, pindirs), [], sent, pins.levels, pins.directions)
    machine.tx = list(sequence.sent)
    for _ in range(draw.randrange(1, 17)):
        for _ in range(50):
            word = word_at(draw, len(sequence.words) + 1, bits + opt)
            trial, trial_pins = machine.copy(), Pins(pins.levels, pins.directions, pins.flags)
            trial.pc = len(sequence.words) + 1
            history.clear()
            trial.force(word, trial_pins)
            # Pin 31 says when the last words come, so it has to stay the outside's.
            is_free = not trial_pins.directions >> 31
            if trial.pending is None and not trial.unsaid and is_free and trial.pc == len(sequence.words) + 1:
                machine, pins = trial, trial_pins
                sequence.words.append(word)
                sequence.states += history
                break
    return sequence, machine, pins


def word_at(draw: random.Random, after: int, shared: int) -> int:
    """A word; a JMP leads to the next one. The bits of a delay are low ones."""
    kind, operands = draw.randrange(8), draw.randrange(256)
    if kind == 0:
        operands = operands & 0xE0 | after
    if kind == 4 and draw.random() < 0.9:
        operands &= 0xE0
    upper = draw.randrange(1 << shared) << 5 - shared | draw.randrange(1 << min(2, 5 - shared))
    return kind << 13 | upper << 8 | operands


def last_words(sequence: Sequence, pins: Pins) -> list[int]:
    """The words after the sequence: their side-set leaves the pins as they are."""
    bits, opt, pindirs = sequence.rule
    driven = pins.directions if pindirs else pins.levels
    side = sum((driven >> (sequence.keys["side_base"] + place) % 32 & 1) << place for place in range(bits))
    shared = (side | opt << bits) << 13 - bits - opt
    first = len(sequence.words)
    words = [WAIT_FOR_31, PUSH_IFFULL, PUSH]
    for register in (OSR, X, Y):
        words += [MOV_ISR | register, PUSH]
    words += [MOV_ISR | NULL, JMP_NOT_OSRE | first + 12, MOV_ISR | INVERTED | NULL, PUSH, first + 13]
    return [word | shared for word in words]


def shown_by(machine: Machine) -> list[int]:
    """The words that the system should read in the end: what was in RX, and what the last words push."""
    isr_is_full = machine.isr_count >= int(machine.fields["push_threshold"])
    isr = [machine.isr, 0] if isr_is_full else [machine.isr]
    osr_is_empty = machine.osr_count >= int(machine.fields["pull_threshold"])
    return [*machine.rx, *isr, machine.osr, machine.x, machine.y, 0xFFFFFFFF if osr_is_empty else 0]


def files_of(sequence: Sequence, pins: Pins) -> tuple[str, str, str]:
    """The source, the configuration and the stimulus of the run."""
    bits, opt, pindirs = sequence.rule
    rule = f".side_set {bits}{' opt' * opt}{' pindirs' * pindirs}\n" if bits else ""
    source = ".program forced\n" + rule + "".join(f".word {word}\n" for word in sequence.words + last_words(sequence, pins))
    truths = ("in_right", "out_right", "autopush", "autopull", "status_rx", "join_tx", "join_rx")
    keys = [f"{key} = {str(bool(value)).lower() if key in truths else value}" for key, value in sequence.keys.items()]
    lists = [f"{name} = {[pin for pin in range(32) if word >> pin & 1]}" for name, word in (("level", sequence.levels), ("out", sequence.directions))]
    config = "\n".join(['[[load]]\nprogram = "forced"', f'[[machine]]\nid = {sequence.number}\nprogram = "forced"', *keys, "[pins]", "bypass = [31]", *lists])
    number = sequence.number
    sent = [f"{clock} tx {number} {word}" for clock, word in enumerate(sequence.sent)]
    lines = ["version 2", f"0 disable {number}", *sent, f"20 enable {number}", f"20 restart {number}"]
    lines += [f"{BEFORE} drain {number} 1", f"{AFTER} pin 31 1"]
    return source, config + "\n", "\n".join(lines) + "\n"


@dataclass
class Seen:
    """What a trace has: the values just before the drain, the words that are read from then on, and the pins clock by clock."""

    before: dict[str, int]
    read: list[int]
    states: list[tuple[int, int]]


def run_of(program: Path, sequence: Sequence, pins: Pins, folder: Path) -> Seen:
    """What piotool's trace has."""
    paths = [folder / name for name in ("forced.pio", "forced.toml", "forced.stim")]
    for path, text in zip(paths, files_of(sequence, pins)):
        path.write_text(text)
    words = [program, "run", "--source", paths[0], "--config", paths[1], "--stimulus", paths[2], "--clocks", str(CLOCKS)]
    text = subprocess.run([str(word) for word in words], capture_output=True, text=True, check=True).stdout
    return seen_in(text, sequence.number)


def seen_in(text: str, number: int) -> Seen:
    """What a trace has of a machine."""
    names, now, seen, clock, level = {}, {}, Seen({}, [], []), 0, 0  # type: dict[str, str], dict[str, int], Seen, int, int

    def settle() -> None:
        nonlocal level
        filled = now[f"r{number}"]
        if clock < BEFORE:
            seen.before.update(now)
            seen.states.append((word_of(now, "p"), word_of(now, "d")))
        elif filled < level:
            seen.read.append(now[f"w{number}"])
        level = filled

    for line in text.splitlines():
        if line.startswith("$var"):
            _, _, _, identifier, name, _ = line.split()
            names[identifier] = name
        elif line.startswith("#"):
            settle() if now else None
            clock = int(line[1:])
        elif line[:1] in ("0", "1"):
            now[names[line[1:]]] = int(line[0])
        elif line.startswith("b"):
            value, identifier = line[1:].split()
            now[names[identifier]] = int(value, 2)
    return seen


def word_of(now: dict[str, int], front: str) -> int:
    """The word of 32 values of one bit."""
    return sum(now[f"{front}{pin}"] << pin for pin in range(32))


def changes(states: list[tuple[int, int]]) -> list[tuple[int, int]]:
    """The states without those that are as the one before."""
    return [state for place, state in enumerate(states) if place == 0 or state != states[place - 1]]


def differs(program: Path, seed: int, folder: Path) -> str | None:
    """What differs between the importer and piotool for the sequence of a seed, or none."""
    sequence, machine, pins = drawn(seed)
    seen, number = run_of(program, sequence, pins, folder), sequence.number
    told = " ".join(f"{word:04x}" for word in sequence.words)
    if changes(sequence.states) != changes(seen.states):
        return f"seed {seed} ({told}): levels and directions {changes(sequence.states)}, piotool {changes(seen.states)}"
    flags = sum(seen.before[f"f{flag}"] << flag for flag in range(8))
    levels, run = (len(machine.tx), len(machine.rx), pins.flags), (seen.before[f"t{number}"], seen.before[f"r{number}"], flags)
    if levels != run:
        return f"seed {seed} ({told}): TX, RX, flags {levels}, piotool {run}"
    if seen.read != shown_by(machine):
        return f"seed {seed} ({told}): {shown_by(machine)}, piotool {seen.read}"
    return None
