"""The files of a call of the linter: sources that are put together for the program, a configuration, a stimulus.

Lines of the whole source are mapped back to the files. What isn't UTF-8 is kept byte by byte, each byte as a character of its own.
"""

import re
from dataclasses import dataclass, field
from pathlib import Path
from typing import Optional

from piotool.calls import Fault
from piotool.lint_said import Place
from piotool.lint_statements import Source
from piotool.lint_toml import Places

FIELD = re.compile(r"[^ \t\r\n#]+")


def bytes_of(path: str) -> bytes:
    """The bytes of a file."""
    try:
        return Path(path).read_bytes()
    except OSError as fault:
        raise Fault(f"{path}: {fault.strerror}") from None


def text_of(data: bytes) -> str:
    """The text of bytes; those that aren't UTF-8 are characters of their own."""
    return data.decode("utf-8", "surrogateescape")


@dataclass
class Files:
    """The files, and the copies that the program reads."""

    sources: list[str]
    config: Optional[str]
    stimulus: Optional[str]
    folder: Path
    firsts: list[int] = field(default_factory=list)  # the line of the whole at which each source begins

    def __post_init__(self) -> None:
        whole, line = b"", 1
        for path in self.sources:
            self.firsts.append(line)
            data = bytes_of(path)
            data += b"" if data.endswith(b"\n") or path == self.sources[-1] else b"\n"
            line += data.count(b"\n")
            whole += data
        self.config_bytes = bytes_of(self.config) if self.config else b""
        self.stimulus_bytes = bytes_of(self.stimulus) if self.stimulus else b""
        self.whole = self.kept("source.pio", whole)
        self.source = Source(text_of(whole))
        self.toml = Places(text_of(self.config_bytes))
        self.own_config = self.kept("config.toml", self.config_bytes) if self.config else None
        self.own_stimulus = self.kept("stimulus.stim", self.stimulus_bytes) if self.stimulus else None

    def kept(self, name: str, data: bytes) -> Path:
        """A copy of bytes for the program."""
        path = self.folder / name
        path.write_bytes(data)
        return path

    def source_place(self, line: int, column: int = 1) -> Place:
        """The place of a line of the whole source."""
        number = max(place for place, first in enumerate(self.firsts) if place == 0 or first <= line)
        return Place(self.sources[number], line - self.firsts[number] + 1, column)

    def config_place(self, path: str) -> Place:
        """The place of what a path of the configuration names."""
        if self.config is None:
            return self.source_place(1)
        return Place(self.config, *self.toml.of(path))

    def key_place(self, path: str) -> Place:
        """The place of a key itself, or of a header."""
        found = self.toml.key(path)
        return Place(self.config or "", *found) if found else self.config_place(path)

    def word_place(self, program: str, number: int) -> Optional[Place]:
        """The place of the instruction that makes a word of a program."""
        words = self.source.words.get(program, [])
        if number >= len(words) or (code := words[number].code) is None:
            return None
        return self.source_place(code.line, code.column)

    def stimulus_fields(self, line: int) -> list[tuple[str, int]]:
        """The fields of a line of the stimulus, each with its column."""
        return fields_of(self.stimulus_bytes, line)


def fields_of(data: bytes, line: int) -> list[tuple[str, int]]:
    """The fields of a line, each with its column; a comment has none."""
    lines = data.split(b"\n")
    text = text_of(lines[line - 1]) if line <= len(lines) else ""
    return [(it[0], it.start() + 1) for it in FIELD.finditer(text.partition("#")[0])]
