"""What is inside a block at the end of a run: the last values that `piotool inspect` writes."""

import re
import subprocess
from threading import Timer
from typing import Any, Iterable, Optional

from piotool.calls import Fault
from piotool.traces import SCOPE, name_in

VARIABLE = re.compile(r"\$var wire \d+ (\S+) (\S+) \$end")
MOST_SECONDS = 10.0

# A value by its name, as f0 and sm0.pc: the clock from which on it is the same, and what it is.
Ends = dict[str, tuple[int, int]]


def ends_of(*words: Any) -> Optional[Ends]:
    """The values after the last clock of a run, or none where it takes too long."""
    call = ["piotool", "inspect", *map(str, words)]
    try:
        process = subprocess.Popen(call, stdin=subprocess.DEVNULL, stdout=subprocess.PIPE, stderr=subprocess.DEVNULL, text=True)
    except OSError as fault:
        raise Fault(f"piotool: {fault.strerror}; it has to be on the path") from None
    with process:
        timer = Timer(MOST_SECONDS, process.kill)
        timer.start()
        try:
            ends = last_values(process.stdout or ())
        finally:
            timer.cancel()
    return None if process.returncode else ends


def last_values(lines: Iterable[str]) -> Ends:
    """The last value of each variable of a trace; what comes after a line that is cut short isn't read."""
    names: dict[str, str] = {}
    ends: Ends = {}
    scope, clock = "", 0
    for line in lines:
        if not line.endswith("\n"):
            break
        if line[0] == "#":
            clock = int(line[1:])
        elif line[0] == "b":
            digits, _, name = line[1:-1].partition(" ")
            ends[names[name]] = clock, int(digits, 2)
        elif line[0] in "01":
            ends[names[line[1:-1]]] = clock, int(line[0])
        elif opened := SCOPE.match(line):
            scope = opened[1]
        elif variable := VARIABLE.match(line):
            names[variable[1]] = name_in(scope, variable[2])
    return ends
