"""Python reads this file where `bench/gate_cost` names its folder, before the script that it is to run: each process that the script has
started, and waits for, is noted at its end with its words and the processor seconds that the kernel counted for it and for all below it.
"""

import atexit
import json
import os
import resource

NOTES = os.open(os.environ["GATE_COST_NOTES"], os.O_WRONLY | os.O_APPEND)
STARTED = {}


def note(pid, used, **more):
    """Adds a line, in one write, since others write too."""
    above = os.getppid() if pid == os.getpid() else os.getpid()
    line = json.dumps({"pid": pid, "above": above, "used": used.ru_utime + used.ru_stime} | more)
    os.write(NOTES, line.encode() + b"\n")


def waitpid(pid, options):
    """As os.waitpid, by the call that also gives what a process used."""
    pid, state, used = os.wait4(pid, options)
    if pid:
        note(pid, used, **STARTED.pop(pid, {}))
    return pid, state


# Before subprocess is there, which keeps the function that it finds.
os.waitpid = waitpid

import subprocess  # noqa: E402


class Noted(subprocess.Popen):
    """A process whose words and folder are known when it ends."""

    def __init__(self, args, *others, cwd=None, **named):
        super().__init__(args, *others, cwd=cwd, **named)
        words = [args] if isinstance(args, (str, bytes)) else args
        STARTED[self.pid] = {"words": [os.fsdecode(it) for it in words], "folder": os.path.abspath(os.fsdecode(cwd or "."))}


subprocess.Popen = Noted
atexit.register(lambda: note(os.getpid(), resource.getrusage(resource.RUSAGE_SELF), own=True))
