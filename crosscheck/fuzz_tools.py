"""Calls of all scripts `tools/piotool-*` with words in and out of range and with spoiled files: `crosscheck/fuzz --tools`.

A script runs in the worker's own process, since Python takes a hundred times as long to start as most calls take. Its parser says which
words it has, so a new script is called too. Of each call it is looked at:

- The status is 0 to 3, and nothing else leaves the script than its end: never a traceback.
- With 2 the usage is on standard error, and the last line says what is wrong. With 1 there is one line, or none where the script has said
  its own on standard output. No line speaks of a defect.
- After a call that fails the folder has the files that it had, with the bytes that they had.
- A call takes a bounded time of a processor, and bounded memory.
"""

import argparse
import gc
import io
import os
import resource
import shlex
import signal
import sys
import tempfile
import time
import traceback
from collections import Counter, deque
from concurrent.futures import Future, ProcessPoolExecutor
from dataclasses import dataclass
from multiprocessing import get_context
from pathlib import Path
from random import Random
from types import CodeType
from typing import Any, Optional

import cases
import fuzz_files
from piotool.breaking import answer_of as searched

TOOLS = Path(__file__).resolve().parent.parent / "tools"
SECONDS, GIGABYTES, ROUND = 60, 2, 50  # of a call; of a worker; calls that a worker makes at a time
LEAVES_1 = {"piotool-break", "piotool-compare", "piotool-explain", "piotool-lint", "piotool-measure", "piotool-setup", "piotool-tight"}
TRACE, CAPTURE, DUMP, PYTHON, ELF = "run.vcd", "board.vcd", "chip.dump", "board.py", "firmware.elf"
# The file that a word of a call names, by how the usage writes it.
FILES = {
    "SOURCE": fuzz_files.SOURCE, "CONFIG": fuzz_files.CONFIG, "C": fuzz_files.CONFIG, "X.toml": fuzz_files.CONFIG,
    "S.pio": fuzz_files.SOURCE,
    "STIMULUS": fuzz_files.STIMULUS, "TRACE": TRACE, "CAPTURE": CAPTURE, "DUMP": DUMP, "FILE.py": PYTHON, "FIRMWARE.elf": ELF,
    "FILE": CAPTURE, "F": fuzz_files.SENT, "rp2.py": PYTHON,
}  # fmt: skip
NUMBERS = ["0", "1", "2", "7", "8", "31", "32", "100", "1000", "65535", "500000", "1000001", "4294967295", "4294967296"]
NUMBERS += ["-1", "1.5", "1e3", "1e999999999", "-1e999999999", "1/3", "1/0", "nan", "inf", "0x10", "9" * 30, "9" * 5000]
NUMBERS += ["²", "1_0", " 1", ""]
TIMES = ["0", "1", "16", "100", "12ns", "1.5us", "3ms", "2s", "100000000s", "0ns", "1clock", "16clocks", "0.0000001ns", "9" * 30 + "s"]
NAMES = ["high", "low", "period", "p0", "p0,p1", "p0,p0", "d0", "q0", "f0,f7", "p32", "w0", "p0:rise", "p0:fall:2", "p1:rise:0"]
NAMES += ["0", "0=p0", "0=D0", "1=D1", "4=x", "32=D0", "0..100", "10us..20us", "2us..1us", "config.toml:high", ":"]
NAMES += ["a@3", "squarewave@4", "1:16", "0@10:2"]
NAMES += ["55 c3", "a0", "5", "zz", "none", "even", "é", "\udcff", "a\nb", "-", "--", "out", "new/out", "absent.file", ".", "/dev/null/x"]
# Values that are right, by how the usage writes them.
SMALL = [*map(str, range(9)), *"111222333"]
RIGHT = {
    "T": TIMES[:8], "B": ["55 c3", "a0", "100", "400"], "M": SMALL[:4], "W": ["0x55", "7"],
    "EDGE": ["p0:rise", "p0:fall:1"], "CONFIG:NAME": ["config.toml:high", "config.toml:low", "config.toml:period"],
    "SPAN": ["high", "low", "period"], "NAME": ["high", "low", "main"],
    "P,..": ["p0", "p0,p1", "d0,f0"], "P=NAME": ["0", "0=p0", "0=D0", "1=D1"],
    "A..B": ["0..100", "10us..20us"], "NAME@AT": ["squarewave@4", "a@3"],
    "[PIN@]T[:W]": ["100", "0@10:2", "1us:5ns"], "N:T": ["0:16", "1:2us"], "X": ["out", "made"], "DIR": ["out", "."], "NS": ["8", "7.5"],
}  # fmt: skip
OF_DEST = {"mhz": ["125", "133", "1.5"], "bytes": ["55 c3", "a0", "00ff1234"], "count": ["1", "3", "40"]}
OF_DEST |= {"size": ["1", "2"], "machine": ["0", "3"]}
SAID_DEFECT = "a defect of this script"


# A call that isn't right: what is wrong, its words, its files, and the script.
Found = tuple[str, list[str], dict[str, bytes], str]


class TooLong(BaseException):
    """A call took too much of a processor."""


class Asked(BaseException):
    """The parser of a script, which its call was about to use."""

    def __init__(self, parser: argparse.ArgumentParser) -> None:
        super().__init__()
        self.parser = parser


@dataclass
class Script:
    """A script: its name, its code, and its parser."""

    name: str
    code: CodeType
    parser: argparse.ArgumentParser


@dataclass
class Ended:
    """How a call ended. Without a status something else left the script."""

    status: Optional[int]
    out: str
    err: str


def run(name: str, code: CodeType, words: list[str]) -> Ended:
    """A call in this process."""
    kept = sys.argv, sys.stdout, sys.stderr, sys.stdin
    out, err = io.TextIOWrapper(io.BytesIO(), "utf-8"), io.TextIOWrapper(io.BytesIO(), "utf-8", errors="backslashreplace")
    sys.argv, sys.stdout, sys.stderr = [str(TOOLS / name), *words], out, err
    status: Optional[int] = None
    try:
        signal.setitimer(signal.ITIMER_VIRTUAL, SECONDS)
        exec(code, {"__name__": "__main__", "__file__": str(TOOLS / name), "__doc__": None})
        status = 0
    except SystemExit as end:
        status = end.code if isinstance(end.code, int) else 0 if end.code is None else 1
    except Asked:
        raise
    except BaseException:
        traceback.print_exc()
    finally:
        signal.setitimer(signal.ITIMER_VIRTUAL, 0)
        sys.argv, sys.stdout, sys.stderr, sys.stdin = kept
        gc.enable()
    for it in (out, err):
        if not it.closed:
            it.flush()
    return Ended(status, *("" if it.closed else it.buffer.getvalue().decode("utf-8", "replace") for it in (out, err)))


def read_scripts() -> list[Script]:
    """The scripts, each with the parser that it makes."""
    found, parse = [], argparse.ArgumentParser.parse_args

    def asked(parser: argparse.ArgumentParser, *_: Any) -> None:
        raise Asked(parser)

    argparse.ArgumentParser.parse_args = asked
    try:
        for path in sorted(TOOLS.glob("piotool-*")):
            code = compile(path.read_text(), str(path), "exec")
            try:
                run(path.name, code, [])
            except Asked as it:
                found.append(Script(path.name, code, it.parser))
    finally:
        argparse.ArgumentParser.parse_args = parse
    return found


class Maker:
    """Makes calls: words and files."""

    def __init__(self, repository: fuzz_files.Repository) -> None:
        self.repository = repository
        top = fuzz_files.TOP
        self.traces = [it.read_bytes()[:30_000] for it in sorted(top.glob("examples/*/*.vcd"))]
        self.captures = self.traces + [it.read_bytes()[:30_000] for it in sorted(top.glob("docs/bench/*.vcd"))]
        self.captures += [table(size, kind) for size in (3, 60) for kind in ("rows", "times", "changes")]
        dump = ["0x50200000 0x00000001", "0x50200030: 0x0 0x0 0x0 0x0 0x10000"]
        dump.append("0x502000c8: 0x00028000 0x00007200 0x000c0000 0x00000005 0x0000e101 0x04000200")
        self.dumps = ["\n".join(dump).encode() + b"\n"]
        program = b"import rp2\n@rp2.asm_pio(set_init=rp2.PIO.OUT_LOW)\ndef f():\n    set(pins, 1)\n"
        self.pythons = [program + b"sm = rp2.StateMachine(0, f, set_base=1)\n"]
        self.elfs = [Path("/bin/true").read_bytes()[:4000], b"\x7fELF" + bytes(60), b""]

    def files(self, random: Random) -> dict[str, bytes]:
        """The files of a call, as they are or spoiled."""
        made = dict(random.choice(self.repository.sets)) if random.random() < 0.6 else fuzz_files.drawn(random, self.repository)
        made.setdefault(fuzz_files.SOURCE, cases.CONFIG_SOURCE.encode())
        made.setdefault(fuzz_files.CONFIG, b"")
        made |= {TRACE: random.choice(self.traces), CAPTURE: random.choice(self.captures), DUMP: random.choice(self.dumps)}
        made |= {PYTHON: random.choice(self.pythons), ELF: random.choice(self.elfs)}
        for name in [*made]:
            if random.random() < 0.35:
                other = self.repository.like(random, name) if random.random() < 0.5 else random.choice(self.captures)
                made[name] = random.choice(fuzz_files.WAYS)(random, made[name], other)
        return made

    def words(self, random: Random, script: Script) -> list[str]:
        """The words of a call: mostly those that the script asks for."""
        words = self.words_of(random, script.parser)
        for _ in range(random.choice([0] * 9 + [1, 2])):
            place = random.randrange(len(words) + 1)
            words[place : place + random.randrange(2)] = [random.choice(NUMBERS + TIMES + NAMES + ["--nothing", "--help"])]
        if script.name in ("piotool-break", "piotool-explain"):
            words += ["--seconds", random.choice(["0.01", "0.02"])] if random.random() < 0.98 else []
        return [word.replace("\0", "") for word in words]

    def words_of(self, random: Random, parser: argparse.ArgumentParser) -> list[str]:
        """The words that a parser asks for, and some that may be left out."""
        options: list[list[str]] = []
        places: list[str] = []
        groups = [group._group_actions for group in parser._mutually_exclusive_groups if group.required]
        wanted = [random.choice(group) for group in groups]
        for action in parser._actions:
            if isinstance(action, argparse._SubParsersAction):
                if random.random() < 0.97:
                    name = random.choice([*action.choices])
                    places += [name, *self.words_of(random, action.choices[name])]
            elif not action.option_strings:
                places += self.values(random, action) if action.nargs != "?" or random.random() < 0.4 else []
            elif action in wanted or random.random() < chance_of(action, groups):
                options.append([random.choice(action.option_strings), *self.values(random, action)])
        random.shuffle(options)
        flat = [word for option in options for word in option]
        return flat + places if options and len(options[-1]) < 3 and places and random.random() < 0.3 else places + flat

    def values(self, random: Random, action: argparse.Action) -> list[str]:
        """The values of a word."""
        if action.nargs == 0:
            return []
        count = random.choice([1, 1, 2, 3]) if action.nargs in ("+", "*") else 1
        return [self.value(random, action) for _ in range(count)]

    def value(self, random: Random, action: argparse.Action) -> str:
        """One value: of its kind, or any."""
        kind = str(action.metavar)
        if action.choices and random.random() < 0.9:
            return str(random.choice([*action.choices]))
        if action.dest in OF_DEST and random.random() < 0.9:
            return random.choice(OF_DEST[action.dest])
        if kind in FILES and random.random() < 0.95:
            return FILES[kind]
        if kind == "T" and action.dest == "stimulus":
            return fuzz_files.STIMULUS
        if random.random() < 0.9:
            return random.choice(RIGHT.get(kind, SMALL))
        return random.choice(NUMBERS + TIMES + NAMES)


def chance_of(action: argparse.Action, groups: list[list[argparse.Action]]) -> float:
    """How often a word is chosen that needn't be there; of words of which one has to be, another one seldom."""
    if action.dest in ("help", "join", "keep", "compare", "pair") or any(action in group for group in groups):
        return 0.03
    return 0.97 if action.required else 0.2


def table(size: int, kind: str) -> bytes:
    """A capture as a table of sigrok's or Saleae's."""
    if kind == "changes":
        return ("Time [s],Channel 0,Channel 1\n" + "".join(f"{it / 10**6:.9f},{it & 1},{it >> 1 & 1}\n" for it in range(size))).encode()
    head = "; Channels (2/8): D0, D1\n; Samplerate: 24 MHz\n" + "Time,D0,D1\n" * (kind == "times")
    return (head + "".join(f"{41 * it}," * (kind == "times") + f"{it & 1},{it >> 1 & 1}\n" for it in range(1, size))).encode()


def what_is_wrong(script: Script, ended: Ended, before: dict[str, bytes]) -> Optional[str]:
    """What isn't so of a call, or nothing."""
    lines = ended.err.splitlines()
    if ended.status is None or "Traceback" in ended.err:
        return "an exception leaves the script"
    if not 0 <= ended.status <= 3:
        return f"the status is {ended.status}"
    if SAID_DEFECT in ended.err:
        return "the script speaks of a defect"
    own = [it for it in lines if it.startswith(f"{script.name}: ")]
    has_usage = ended.err.startswith(f"usage: {script.name}") and f"\n{script.name}" in ended.err and ": error: " in ended.err
    if ended.status == 2 and not has_usage:
        return "a wrong call has no usage, or no line that says what is wrong"
    if ended.status == 1 and not (len(lines) == 1 and own or not lines and ended.out and script.name in LEAVES_1):
        return "a bad input hasn't one line on standard error"
    if (ended.status == 2 or ended.status == 1 and lines) and files_now() != before:
        return "a call that fails leaves other files"
    return None


def files_now() -> dict[str, bytes]:
    """The files of the folder."""
    return {str(it): it.read_bytes() for it in Path(".").rglob("*") if it.is_file()}


class Caller:
    """A worker: the scripts over a folder of its own."""

    own: Optional["Caller"] = None

    def __init__(self, program: Path, seed: int, folder: str) -> None:
        self.seed, self.place = seed, Path(tempfile.mkdtemp(dir=folder))
        (self.place / "bin").mkdir()
        (self.place / "bin" / "piotool").symlink_to(program)
        os.environ["PATH"] = f"{self.place / 'bin'}:{TOOLS}:{os.environ['PATH']}"
        os.environ["COLUMNS"] = "1000"
        os.chdir(self.place)
        resource.setrlimit(resource.RLIMIT_AS, (GIGABYTES << 30, GIGABYTES << 30))
        signal.signal(signal.SIGVTALRM, self.too_long)
        assert callable(searched)  # what a search needs is read before the first call
        self.scripts, self.maker = read_scripts(), Maker(fuzz_files.Repository())

    @staticmethod
    def too_long(*_: Any) -> None:
        """Ends a call that takes too much of a processor."""
        raise TooLong

    def do(self, first: int, count: int) -> tuple[Counter[tuple[str, Optional[int]]], Optional[Found]]:
        """Some calls: how they ended, and the first that isn't right, with its files."""
        counts: Counter[tuple[str, Optional[int]]] = Counter()
        for number in range(first, first + count):
            random = Random(f"tools {self.seed} {number}")
            script = random.choice(self.scripts)
            with tempfile.TemporaryDirectory(dir=self.place) as folder:
                os.chdir(folder)
                files = self.maker.files(random)
                for name, data in files.items():
                    Path(name).write_bytes(data)
                words = self.maker.words(random, script)
                ended = run(script.name, script.code, words)
                counts[script.name, ended.status] += 1
                told = what_is_wrong(script, ended, files)
                os.chdir(self.place)
            if told:
                return counts, (f"call {number}: {told}\n{ended.err[-3000:]}", [script.name, *words], files, script.name)
        return counts, None


def begin(*parts: Any) -> None:
    """Makes the worker of a process."""
    Caller.own = Caller(*parts)


def do(first: int, count: int) -> Any:
    """Some calls of this process."""
    assert Caller.own
    return Caller.own.do(first, count)


def keep(folder: Optional[Path], seed: int, found: Found) -> None:
    """Writes the files of a call that isn't right into a folder, and says what it was."""
    told, words, files, name = found
    place = Path(tempfile.mkdtemp(prefix=f"{name}-", dir=folder))
    for it, data in files.items():
        (place / it).write_bytes(data)
    said = f"seed {seed}, {told}\n$ {shlex.join(words)}\n"
    (place / "told").write_text(said, errors="backslashreplace")
    print(f"{said.encode('utf-8', 'backslashreplace').decode()}the files are in {place}")


def looked_for(asked: argparse.Namespace, folder: str) -> bool:
    """Whether all calls are right; else the first that isn't is told."""
    counts: Counter[tuple[str, Optional[int]]] = Counter()
    begun, found, first = time.monotonic(), None, 0
    size = max(1, min(ROUND, asked.calls // asked.jobs))
    with ProcessPoolExecutor(asked.jobs, get_context("fork"), begin, (asked.program, asked.seed, folder)) as pool:
        waiting: deque[Future[Any]] = deque()
        while not found and sum(counts.values()) < asked.calls and time.monotonic() - begun < 60 * asked.minutes:
            while len(waiting) < 2 * asked.jobs and first < asked.calls:
                waiting.append(pool.submit(do, first, min(size, asked.calls - first)))
                first += size
            ended, found = waiting.popleft().result()
            counts += ended
        pool.shutdown(cancel_futures=True)
    statuses = sorted({status for _, status in counts}, key=str)
    print(f"{'calls':16}" + "".join(f"{str(status):>10}" for status in statuses))
    for name in sorted({name for name, _ in counts}):
        print(f"{name:16}" + "".join(f"{counts[name, status]:>10}" for status in statuses))
    seconds = time.monotonic() - begun
    print(f"{sum(counts.values())} calls of scripts in {seconds:.0f} s, {sum(counts.values()) / seconds:.0f} a second", flush=True)
    if found:
        keep(asked.keep, asked.seed, found)
    return not found
