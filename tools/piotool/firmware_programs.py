"""The programs of the sources beside the words of a chip's memory: where each is, which one a machine runs, and a source of them."""

import re
import tempfile
from dataclasses import dataclass, field, replace
from pathlib import Path

from piotool.calls import Fault, piotool
from piotool.programs import Program, programs_of

MEMORY = 32
TARGET = re.compile(r"(jmp (?:\S+, )?)(\d+)")
Memory = list[int | None]


@dataclass
class Rule:
    """How a machine reads side-set in its words."""

    bits: int
    opt: bool
    pindirs: bool

    def fits(self, program: Program) -> bool:
        """Whether a program has this rule. Where nothing is side-set, where to doesn't count."""
        rule = program.rule
        same = (self.bits, self.opt) == (rule["side_bits"], rule["side_opt"])
        return same and (self.bits == 0 or self.pindirs == rule["side_pindirs"])

    def keys(self) -> dict[str, int | bool]:
        """The rule as a program has it."""
        return {"side_bits": self.bits, "side_opt": self.opt, "side_pindirs": self.pindirs}

    def __str__(self) -> str:
        return f"{self.bits}{' opt' * self.opt}{' pindirs' * self.pindirs}"


@dataclass
class Placed:
    """A program at an address."""

    program: Program
    at: int

    def covers(self, address: int) -> bool:
        """Whether the address is one of the program's."""
        return self.at <= address < self.at + len(self.program.words)

    def wrap(self) -> tuple[int, int]:
        """The addresses of its wrap, from bottom to top."""
        bottom, top = self.program.wrap
        return self.at + bottom, self.at + top


@dataclass
class Sources:
    """The programs that were given, by name, and the file of each."""

    programs: dict[str, Program] = field(default_factory=dict)
    files: dict[str, str] = field(default_factory=dict)

    def add(self, program: Program, file: str) -> None:
        """One more program."""
        if program.name in self.programs:
            raise Fault(f"{file}: a program {program.name} is in {self.files[program.name]} too")
        self.programs[program.name], self.files[program.name] = program, file


def read_sources(paths: list[str]) -> Sources:
    """The programs of these files."""
    sources = Sources()
    for path in paths:
        try:
            for program in programs_of(path).values():
                sources.add(program, path)
        except Fault as fault:
            raise Fault(str(fault) if str(fault).startswith(path) else f"{path}: {fault}") from None
    return sources


def relocated(word: int, at: int) -> int:
    """A word of a program as it lies in memory."""
    return word if word >> 13 else word + at


def is_at(program: Program, at: int, memory: Memory) -> bool:
    """Whether a program's words are at an address."""
    if at + len(program.words) > MEMORY:
        return False
    return all(memory[at + place] == relocated(word, at) for place, word in enumerate(program.words))


def placements(sources: Sources, memory: Memory) -> list[Placed]:
    """All places at which a program's words are."""
    return [Placed(program, at) for program in sources.programs.values() for at in range(MEMORY) if is_at(program, at, memory)]


def placed_for(number: int, pc: int, wrap: tuple[int, int], rule: Rule, found: list[Placed], names: list[str | None]) -> Placed:
    """The program that a machine runs: of those at its PC the one whose wrap, side-set and name fit best."""

    def fitness(placed: Placed) -> tuple[bool, bool, bool, int]:
        named = names[placed.at] == placed.program.name
        return placed.wrap() == wrap, rule.fits(placed.program), named, len(placed.program.words)

    near = [it for it in found if it.covers(pc)] or [it for it in found if it.wrap() == wrap]
    if not near:
        raise Fault(f"machine {number} starts at address {pc}, where no program of the sources is: give its source with --source")
    best = max(near, key=fitness)
    if not best.covers(pc):
        raise Fault(f"machine {number} starts at address {pc}, outside the program {best.program.name} that it wraps in")
    return best


def memory_of(placed: list[Placed]) -> Memory:
    """The memory with these programs alone."""
    memory: Memory = [None] * MEMORY
    for it in placed:
        for place, word in enumerate(it.program.words):
            memory[it.at + place] = relocated(word, it.at)
    return memory


def texts_of(words: list[int], rule: dict[str, int | bool]) -> list[str]:
    """The texts of words under a side-set rule, by `piotool dis`."""
    with tempfile.TemporaryDirectory() as folder:
        file = Path(folder) / "words.hex"
        file.write_text("".join(f"{word:04x}\n" for word in words))
        status, text, told = piotool("dis", file, "--side", rule["side_bits"], *["--opt"] * bool(rule["side_opt"]))
    if status:
        raise Fault(told)
    return [line[8:] for line in text.splitlines()]


def source_of(programs: list[Program], head: str) -> str:
    """A source of these programs, with their labels."""
    return "\n".join([f"; {line}".rstrip() for line in head.splitlines()] + [text_of(it) for it in programs])


def text_of(program: Program) -> str:
    """The text of one program."""
    rule, labels = program.rule, {place: name for name, place in program.labels.items()}
    for word in program.words:
        if word >> 13 == 0 and word & 31 < len(program.words):
            labels.setdefault(word & 31, free_label(program, word & 31))
    lines = [f".program {program.name}"]
    if program.origin is not None:
        lines.append(f".origin {program.origin}")
    if rule["side_bits"] or rule["side_opt"]:
        lines.append(f".side_set {rule['side_bits']}{' opt' * bool(rule['side_opt'])}{' pindirs' * bool(rule['side_pindirs'])}")
    bottom, top = program.wrap
    for place, text in enumerate(texts_of(program.words, rule)):
        lines += [".wrap_target"] * (place == bottom)
        lines += [f"{labels.get(place)}:"] * (place in labels)
        text = TARGET.sub(lambda it: it[1] + labels.get(int(it[2]), it[2]), text) if text.startswith("jmp") else text
        lines += ["    " + text] + [".wrap"] * (place == top)
    return "\n".join(lines) + "\n"


def free_label(program: Program, place: int) -> str:
    """A name for the label of a word that has none."""
    name = f"at_{place}"
    while name in program.labels:
        name += "_"
    return name


def with_label(program: Program, place: int) -> tuple[Program, str]:
    """The program with a label before a word, and its name; as it is where the word has one."""
    for name, at in program.labels.items():
        if at == place:
            return program, name
    name = free_label(program, place)
    return replace(program, labels=program.labels | {name: place}), name
