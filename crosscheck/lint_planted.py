"""Mistakes that are planted into random set-ups: each has to be found, with its name, its file and its line."""

import random
import re
from argparse import Namespace
from pathlib import Path

import cases
from piotool.lint_all import findings
from piotool.lint_files import Files

NEVER_WAIT = (0, 5, 7)  # JMP, MOV, SET
SPAN = """[[span]]
name = "planted"
machine = {machine}
from_pin = 0
from_edge = "rise"
to_pin = 0
to_edge = "fall"
min = 1
max = 9
"""


# A program of its own: X is never small after its first instruction, and it never comes to its last one.
PROGRAM = """.program planted
again:
    mov x, !null
    jmp again
never:
    nop
"""
ROOM, LENGTH = 29, 8  # where it is loaded, and the most words of another


class Planted:
    """A random set-up without spans, and the mistakes that it can have: its texts, and what has to be said."""

    def __init__(self, seed):
        self.case = cases.Run(random.Random(seed))
        self.source = self.case.source + PROGRAM
        self.machine = min(self.case.setups)
        self.last = max([line[0] for line in self.case.lines], default=0)

    def mistakes(self):
        """Each mistake: the texts of the configuration and the stimulus, and the name, the file and the line of the warning."""
        case, config, stimulus = self.case, self.case.config, self.case.stimulus
        span = SPAN.format(machine=self.machine)
        yield config + span + span, stimulus, ("same-name", "toml", line_after(config + span, 2))
        first = case.memory[case.setups[self.machine]["start"]]
        if first >> 13 in NEVER_WAIT:
            yield config + span + 'stalls = [\n  "go",\n]\n', stimulus, ("stall-never", "toml", line_after(config + span, 2))
        free = next((it for it in range(4) if it not in case.setups), None)
        if free is not None and not any(it[1] != "pin" and it[2][0] == free for it in case.lines):
            yield config, stimulus + f"{self.last + 1} rx {free}\n", ("no-machine", "stim", line_after(stimulus, 1))
        if not any(it[1:] == ("feed", it[2]) and it[2][0] == self.machine for it in case.lines):
            feed = f"{self.last + 1} feed {self.machine} 0x7 0x8\n"
            yield config, stimulus + "\n# sent\n" + feed, ("every-word", "stim", line_after(stimulus, 3))
        yield from self.of_counts(config, stimulus)
        if free is not None and not any(it[1] != "pin" and it[2][0] == free for it in case.lines):
            yield from self.of_assumptions(config, stimulus, free)

    def of_assumptions(self, config, stimulus, free):
        """A label that its machine never comes to, and a range that the run breaks in its first clock."""
        if any(int(at) + LENGTH > ROOM for at in re.findall(r"^at = (\d+)$", config, re.M)):
            return
        config = config.replace("[pins]", f'[[load]]\nprogram = "planted"\nat = {ROOM}\n[[machine]]\nid = {free}\nprogram = "planted"\n[pins]', 1)
        config += SPAN.format(machine=free)
        for label, name, more in (("never", "assume-never", 2), ("again", "assume-missed", 1)):
            yield config + f'[[span.assume]]\nafter = "{label}"\nx = [0, 9]\n', stimulus, (name, "toml", line_after(config, more))

    def of_counts(self, config, stimulus):
        """Two machines without `set_count`, whose pins meet."""
        numbers = list(self.case.setups)[:2]
        if len(numbers) < 2:
            return
        tables = config.split("[[machine]]\n")
        for place in (1, 2):
            lines = [it for it in tables[place].split("\n") if not it.startswith(("set_count", "set_base"))]
            tables[place] = "\n".join(lines).replace("program =", "set_base = 30\nprogram =", 1)
        line = line_after("[[machine]]\n".join(tables[:2]), 1)
        yield "[[machine]]\n".join(tables), stimulus, ("set-count", "toml", line)


def line_after(text, more):
    """The line that stands this number of lines after a text."""
    return text.count("\n") + more


def look(seed, folder):
    """How many mistakes were planted, and those that weren't found."""
    planted, missed = Planted(seed), []
    paths = [Path(folder) / f"planted.{ending}" for ending in ("pio", "toml", "stim")]
    number = 0
    for config, stimulus, (name, ending, line) in planted.mistakes():
        for path, text in zip(paths, (planted.source, config, stimulus)):
            path.write_text(text)
        files = Files([str(paths[0])], str(paths[1]), str(paths[2]), Path(folder))
        found, _ = findings(files, Namespace(clocks=40 if name == "assume-missed" else None, mhz=None, seconds=0.02, table=[], words=None))
        number += 1
        if not any(it.code == name and it.place.file.endswith(ending) and it.place.line == line for it in found):
            missed.append(f"seed {seed}: no {name} at line {line} of the {ending}; {''.join(it.lines() for it in found)}")
    return number, missed
