"""What a call of `piotool-setup` does with a set-up: writes its files, keeps spans, or compares. All is made before a file is written."""

import tempfile
from dataclasses import dataclass, field
from pathlib import Path

from piotool.calls import Fault, piotool, read_text, write_text
from piotool.firmware_files import config_text, own_source, stimulus_of
from piotool.firmware_keep import differences, kept_text
from piotool.firmware_programs import Sources
from piotool.firmware_setup import BlockSetup, Setup
from piotool.setups import read_tables, tables_of

MADE = "ritten by piotool-setup"  # on the first line of each file that is made


@dataclass
class Wanted:
    """What the call wants: the names of the files, what is kept or compared, and the machines that aren't the firmware's."""

    origin: str
    out: str
    keep: str | None = None
    compare: str | None = None
    added: set[int] = field(default_factory=set)
    sources: list[str] = field(default_factory=list)


@dataclass
class Texts:
    """The files of a set-up."""

    configs: list[tuple[Path, str]]
    stimulus: str | None
    source: str | None


def second_of(path: Path) -> Path:
    """The name of a second block's configuration."""
    return path.with_name(path.name.removesuffix(".toml") + ".second.toml")


def paths_of(setup: Setup, first: Path) -> list[Path]:
    """The configuration of each block."""
    return [first, second_of(first)][: len(setup.blocks)]


def compared(setup: Setup, sources: Sources, wanted: Wanted) -> list[str]:
    """What differs from the kept configurations."""
    first, lines = Path(wanted.compare or ""), []
    for path, block in zip(paths_of(setup, first), setup.blocks):
        front = "second " if path != first else ""
        lines += [front + line for line in differences(block, read_tables(path), sources, wanted.added)]
    source = own_source(setup)
    if source is not None:
        beside = Path(f"{wanted.out}.pio")
        if not beside.is_file() or without_comments(read_text(beside)) != without_comments(source):
            lines += [f"source: {why}" for why in setup.wants_source]
    return lines


def without_comments(text: str) -> list[str]:
    """The lines of a source that was made, without its comments."""
    return [line.partition(";")[0].strip() for line in text.splitlines() if line.partition(";")[0].strip()]


def texts_of(setup: Setup, wanted: Wanted) -> Texts:
    """The texts of all files."""
    first = Path(wanted.keep or f"{wanted.out}.toml")
    configs = []
    for path, block in zip(paths_of(setup, first), setup.blocks):
        configs.append((path, config_for(path, setup, block, wanted)))
    return Texts(configs, stimulus_of(setup), own_source(setup))


def config_for(path: Path, setup: Setup, block: BlockSetup, wanted: Wanted) -> str:
    """The text of one configuration: the kept one with the set-up written anew, or a new one."""
    if wanted.keep and path.is_file():
        if not any(read_tables(path)[key] for key in ("load", "machine", "pins")):
            return config_text(setup, block, wanted.origin) + "\n" + read_text(path)
        return kept_text(str(path), read_text(path), block, wanted.added)
    if path.is_file() and (is_foreign(path) or tables_of(path, read_text(path))["span"]):
        raise Fault(f"{path} is there, and has more than a set-up: give --keep {path}, which leaves it, or another name by --out")
    return config_text(setup, block, wanted.origin)


def checked(texts: Texts, sources: list[str]) -> None:
    """Asks piotool whether what is to be written has a fault."""
    with tempfile.TemporaryDirectory() as folder:
        source: str | Path = sources[0] if sources else ""
        if texts.source is not None:
            source = Path(folder) / "own.pio"
            source.write_text(texts.source)
        for path, text in texts.configs:
            copy = Path(folder) / "own.toml"
            copy.write_text("".join(line for line in text.splitlines(keepends=True) if not line.startswith("own =")))
            status, _, told = piotool("shares", "--source", source, "--config", copy)
            if status:
                raise Fault(f"{path}: not written, since it would have a fault: {told.removeprefix('piotool: ')}")
        if texts.stimulus is not None:
            look_at_stimulus(texts.stimulus, source, texts.configs[0][1], len(texts.configs) > 1, Path(folder))


def look_at_stimulus(text: str, source: str | Path, config: str, is_pair: bool, folder: Path) -> None:
    """Asks piotool whether a stimulus has a fault; that of two blocks names machines up to 7, and is taken as it is."""
    if is_pair:
        return
    stimulus, copy = folder / "own.stim", folder / "own.toml"
    stimulus.write_text(text)
    copy.write_text(config)
    status, _, told = piotool("measure", "--source", source, "--config", copy, "--stimulus", stimulus, "--clocks", "0")
    if status:
        raise Fault(f"the stimulus would have a fault: {told.removeprefix('piotool: ')}")


def is_foreign(path: Path) -> bool:
    """Whether a file is there that this script hasn't written."""
    return path.is_file() and MADE not in read_text(path).partition("\n")[0]


def written(texts: Texts, wanted: Wanted) -> list[str]:
    """Writes the files; their names. A stimulus beside a kept configuration is left where somebody else wrote it."""
    base = Path(wanted.out)
    files = list(texts.configs)
    stimulus = base.with_name(base.name + ".stim")
    if texts.stimulus is not None and is_foreign(stimulus) and not wanted.keep:
        raise Fault(f"{stimulus} is there, and somebody else wrote it: give another name by --out")
    if texts.stimulus is not None and not is_foreign(stimulus):
        files.append((stimulus, texts.stimulus))
    if texts.source is not None:
        path = base.with_name(base.name + ".pio")
        is_given = any(Path(it).resolve() == path.resolve() for it in wanted.sources)
        if is_given or is_foreign(path):
            raise Fault(f"{path} would be written anew, and is a source of yours: give another name by --out")
        files.append((path, texts.source))
    for path, text in files:
        write_text(path, text)
    return [str(path) for path, _ in files]
