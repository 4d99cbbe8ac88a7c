"""Calls of the built program by the hundred thousand, and what has to be so of each one, whatever its words and files are.

The program starts by `posix_spawn`, its files are in a folder in memory where there is one, and its outputs go to files in memory.
"""

import os
import re
import resource
import signal
from collections import Counter
from pathlib import Path
from typing import NamedTuple

SECONDS, KILOBYTES = 2, 300_000
LONGEST_WAIT = 20  # seconds by the clock on the wall, where a call uses no processor
ABSENT = {"", "..", "absent.file"}  # names that are no file's
KEY = rb"(?:load|machine|span)\[\d+\](?:\.assume\[\d+\])?(?:\.\w+)?|pins(?:\.\w+)?|\w+"
NAMED = rb"(?:S5|V1|V2) \w+|S7 \w+ -?\d+|S(?:[1-46-9]|1[0-3])|L[1-4]|V[3-6]"
PLACE = rb"\d+ x (?:\d+|any) y (?:\d+|any) from [01] to [01]"
# What standard error has, by the status. The codes are those of docs/SPECIFICATION.md, "Ends".
LINES = {
    0: rb"",
    1: rb"piotool: (?:long \w+|source line \d+: (?:%s)|(?:config|second) (?:%s): C(?:\d+|7 \d+)|stimulus line \d+: T[1-5]"
    rb"|words line \d+: H[12]|nospan|table line \d+: B[1-4])\n" % (NAMED, KEY),
    2: rb"piotool: usage\n[\s\S]*",
    3: rb"piotool: (?:second )?span [\w-]{1,32} (?:unproved at %s: U[1-46]|unproved by machine [0-3]: U5|table: start"
    rb"|table: open at %s|table: bad at %s: U[1-46])\n" % (PLACE, PLACE, PLACE),
    4: rb"piotool: shelf (?:source|config|second|stimulus|words|table|send)\n",
}
LINES = {status: re.compile(line) for status, line in LINES.items()}


class Violation(Exception):
    """What isn't so, with the words of the calls that show it."""

    def __init__(self, told, *calls):
        super().__init__(told)
        self.told, self.calls = told, calls


class Ended(NamedTuple):
    """How a call ended."""

    status: int
    out: bytes
    err: bytes
    words: tuple

    def is_like(self, other):
        """Whether status and outputs are the same."""
        return self[:3] == other[:3]

    def differs(self, other):
        """Where it differs first from another end."""
        if (self.status, self.err) != (other.status, other.err):
            return f"{self.status} {self.err[:200]!r} and {other.status} {other.err[:200]!r}"
        place = len(os.path.commonprefix([self.out, other.out]))
        both = (out[max(0, place - 20) : place + 40] for out in (self.out, other.out))
        return f"at byte {place} the outputs have " + " and ".join(map(repr, both))


def too_long(number, frame):
    raise TimeoutError


class Program:
    """The program over one folder, which becomes the current one, so that names of files are short."""

    def __init__(self, path, folder):
        self.path, self.counts, self.contents, self.last = str(path), Counter(), {}, ()
        os.chdir(folder)
        self.out, self.err = (os.memfd_create(name) for name in ("out", "err"))
        self.actions = [(os.POSIX_SPAWN_DUP2, self.out, 1), (os.POSIX_SPAWN_DUP2, self.err, 2)]
        self.actions.insert(0, (os.POSIX_SPAWN_OPEN, 0, "/dev/null", os.O_RDONLY, 0))
        self.environment = dict(os.environb)
        signal.signal(signal.SIGALRM, too_long)

    def take(self, files):
        """Writes these files, where they aren't there yet."""
        for name, content in files.items():
            if self.contents.get(name) != content:
                Path(name).write_bytes(content)
                self.contents[name] = content

    def call(self, *words):
        """How a call ends, which is made twice and counted once. Each of the two is looked at by itself, and they end alike."""
        (ended, used), (again, used_again) = (self.spawn([self.path, *words]) for _ in range(2))
        self.counts[words[0] if words else "", ended.status] += 1
        self.look(ended, used)
        self.look(again, used_again)
        if not ended.is_like(again):
            raise Violation(f"two calls alike end in two ways: {ended.differs(again)}", words)
        return ended

    def within(self, kilobytes, *words):
        """The status of a call that has so much address space, and whose output nobody reads."""
        shell = ["/bin/sh", "-c", 'ulimit -v "$0"; exec "$@" >/dev/null', str(kilobytes), self.path, *words]
        ended, _ = self.spawn(shell)
        self.counts[words[0], ended.status] += 1
        return ended.status

    def spawn(self, words):
        for file in (self.out, self.err):
            os.lseek(file, 0, os.SEEK_SET)
            os.ftruncate(file, 0)
        self.last = told = tuple(words[1:])
        pid = os.posix_spawn(words[0], words, self.environment, file_actions=self.actions)
        signal.setitimer(signal.ITIMER_REAL, LONGEST_WAIT)
        try:
            _, state, used = os.wait4(pid, 0)
        except TimeoutError:
            os.kill(pid, signal.SIGKILL)
            os.wait4(pid, 0)
            raise Violation(f"no end in {LONGEST_WAIT} seconds", told) from None
        finally:
            signal.setitimer(signal.ITIMER_REAL, 0)
        out, err = (os.pread(file, os.fstat(file).st_size, 0) for file in (self.out, self.err))
        return Ended(os.waitstatus_to_exitcode(state), out, err, told), used

    def look(self, ended, used):
        """What holds of each call (docs/SPECIFICATION.md, "Ends"). Memory is ample and outputs take all, so that none ends with 5 or 6."""
        status, out, err, words = ended
        if status not in LINES:
            raise Violation(f"status {status}" + (f", by signal {-status}" if status < 0 else ""), words)
        if not LINES[status].fullmatch(err):
            raise Violation(f"status {status} with {err[:300]!r} on standard error", words)
        if out and status != 0 and (status, *words[:1]) != (3, "check"):
            raise Violation(f"status {status} with {out[:80]!r} on the output", words)
        if status == 4 and not {word.partition("=")[2] if word.startswith("--") else word for word in words} & ABSENT:
            raise Violation(f"status 4, but the files are there: {err!r}", words)
        if used.ru_utime + used.ru_stime > SECONDS:
            raise Violation(f"{used.ru_utime + used.ru_stime:.1f} seconds of a processor", words)
        if used.ru_maxrss > KILOBYTES:
            raise Violation(f"{used.ru_maxrss} kB of memory", words)


def limit_children():
    """Takes care that a call that asks for memory without end doesn't get all of the machine's."""
    most = 4 * 2**30
    _, hard = resource.getrlimit(resource.RLIMIT_AS)
    resource.setrlimit(resource.RLIMIT_AS, (most if hard == resource.RLIM_INFINITY else min(most, hard), hard))
