"""What the scripts share: one-line faults, files that are read, and calls of piotool."""

import argparse
import subprocess
import sys
from pathlib import Path
from typing import Any, Callable, NoReturn, Optional


class Fault(Exception):
    """A mistake in a file or a call, as its one line tells it."""


def read_text(path: str | Path) -> str:
    """The text of a file."""
    try:
        return Path(path).read_bytes().decode("utf-8")
    except OSError as fault:
        raise Fault(f"{path}: {fault.strerror}") from None
    except UnicodeDecodeError:
        raise Fault(f"{path}: not UTF-8") from None


def write_text(path: str | Path, text: str) -> None:
    """Writes a file."""
    try:
        Path(path).write_bytes(text.encode("utf-8", "surrogateescape"))
    except OSError as fault:
        raise Fault(f"{path}: {fault.strerror}") from None


def piotool(*words: Any, name: str = "piotool", within: Optional[float] = None) -> tuple[int, str, str]:
    """A call of the piotool on the path, or of a script beside it: its status, its output, and its line on standard error.

    A call that takes longer than so many seconds is ended, and has the status -1.
    """
    try:
        ended = subprocess.run([name, *map(str, words)], stdin=subprocess.DEVNULL, capture_output=True, timeout=within)
    except subprocess.TimeoutExpired:
        return -1, "", ""
    except OSError as fault:
        raise Fault(f"{name}: {fault.strerror}; it has to be on the path") from None
    told = ended.stderr.decode("utf-8", "replace").partition("\n")[0]
    return ended.returncode, ended.stdout.decode("utf-8", "replace"), told


def told_verdicts(source: str, config: str) -> list[str]:
    """The lines of `piotool check`."""
    status, text, told = piotool("check", "--source", source, "--config", config)
    if status not in (0, 3):
        raise Fault(told)
    return text.splitlines()


def seconds(text: str) -> float:
    """A time above 0."""
    try:
        number = float(text)
    except ValueError:
        number = 0.0
    if not 0 < number <= 86_400:
        raise argparse.ArgumentTypeError("a time is a number of seconds above 0, up to 86400")
    return number


def run_script(name: str, work: Callable[[], int]) -> NoReturn:
    """Ends the script with the status that its work gives; a fault is one line and status 1."""
    sys.stdout.reconfigure(errors="backslashreplace")
    try:
        status = work()
        sys.stdout.flush()
    except Fault as fault:
        # A name of a file may have any byte.
        told = str(fault).encode("utf-8", "surrogateescape").decode("utf-8", "backslashreplace").replace("\n", "\\n").replace("\r", "\\r")
        print(f"{name}: {told}", file=sys.stderr)
        status = 1
    except KeyboardInterrupt:
        status = 1
    except BrokenPipeError:
        sys.stderr.close()
        status = 1
    sys.exit(status)
