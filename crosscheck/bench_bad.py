"""Bad captures, stimuli and words for the scripts of a bench: each call with its one line, which has the place."""

import subprocess
import sys
from argparse import Namespace
from fractions import Fraction
from pathlib import Path
from random import Random

from piotool.calls import Fault
from piotool.stimulus_calls import of_capture

HEAD = "$timescale 1 ns $end\n$var wire 1 ! D0 $end\n$enddefinitions $end\n"
ROWS = "; Channels (2/8): D0, D1\n; Samplerate: 24 MHz\n"
# Captures, each with what its line says after the file.
CAPTURES = [
    ("", "line 1: neither a value-change dump nor a table of sigrok or Saleae"),
    ("x\n", "line 1: neither a value-change dump nor a table of sigrok or Saleae"),
    ("$timescale 1 ns $end\n$scope module a $end\n", "line 3: the head has no $enddefinitions"),
    (HEAD.replace("1 ns", "3 ns") + "#0 0!\n", "line 1: '3 ns' is no timescale"),
    ("$var wire 1 ! D0 $end\n$enddefinitions $end\n#0 0!\n", "line 1: no $timescale"),
    ("$timescale 1 ns $end\n$var wire one $end\n$enddefinitions $end\n", "line 2: 'wire one' is no signal"),
    ("$timescale 1 ns $end\n$var wire 8 ! D $end\n$enddefinitions $end\n#0 b0 !\n", "line 2: no signal of one bit"),
    (HEAD, "line 4: no time, so nothing was recorded"),
    (HEAD + "#5 0!\n#4 1!\n", "line 5: time 4 comes after 5"),
    (HEAD + "#5 0!\n#six 1!\n", "line 5: '#six' is no time"),
    (HEAD + "#5 0!\n1?\n", "line 5: '1?' is no change of a signal"),
    (HEAD + "#5 0!\n\n\nnoise\n", "line 7: 'noise' is no change of a signal"),
    (HEAD + "#5 b01 ?\n", "line 4: 'b01 ?' is no change of a signal"),
    (HEAD.replace("D0", "clk") + "#0 0!\n", "the signals' names don't say their pins (clk); --pin 4=clk does"),
    (ROWS, "line 2: no sample"),
    ("; Samplerate: 24 MHz\n0,1\n", "line 2: no line before it says the channels"),
    ("; Channels (1/8): D0\n0\n", "line 2: no line before it says the samplerate"),
    (ROWS + "0,1\n0\n", "line 4: 1 values, and 2 signals"),
    (ROWS + "0,1\n0,1.5\n", "line 4: '1.5' is neither 0 nor 1"),
    (ROWS + "Time,D0,D1\n41,0,1\nx,0,1\n", "line 5: 'x' is no time"),
    (ROWS + "Time,D0,D1\n82,0,1\n41,0,1\n", "line 5: time 41 comes after a later one"),
    ("Time,Channel 0\n0,1\n", "line 1: no heading of Saleae's changes, as Time [s],Channel 0"),
    ("Time [s],A0,A0\n0,1,1\n", "line 1: two channels have one name"),
    ("Time [s],Channel 0\n", "line 1: no change"),
    ("Time [s],Channel 0\n0.0,0\n0.1\n", "line 3: '' is neither 0 nor 1"),
    ("Time [s],Channel 0\n0.0,0\nsoon,1\n", "line 3: 'soon' is no time in seconds"),
    ("Time [s],Channel 0\n0.2,0\n0.1,1\n", "line 3: time 0.1 comes after a later one"),
    ("Time [s],Channel 0\n0.0,0\n20000,1\n", "clocks 2500000000000 to 2500000000000: a clock of a stimulus is 0 to 1000000000000"),
]
NOISE = (b"", b"$", b"#", b"-1", b"9e9", b",", b"\n", b"x", b"\xff", b"\xc2\xb2", b"1000000000000000", b"$end", b"$comment ", b"b1 ")
# Second stimuli of a join, each with what its line says.
STIMULI = [
    ("0 pin 0 1\n5 tx 0 2\n", "line 2: T4, beside {folder}/good.stim line 2"),
    ("3 rx 0\n2 rx 0\n", "line 2: T3"),
    ("0 feed 1 1 2\n", "line 1: T4, beside {folder}/good.stim line 1"),
    ("0 pin 0\n", "line 1: T1"),
    ("0 pin 32 1\n", "line 1: T2"),
]


def one_line(script: Path, words: list[object], status: int, wanted: str) -> None:
    """The call ends so, with this line last and no output."""
    ended = subprocess.run([script, *map(str, words)], capture_output=True, text=True)
    lines = ended.stderr.splitlines()
    is_so = ended.returncode == status and not ended.stdout and lines and lines[-1] == f"{script.name}: {wanted}"
    if not is_so or status == 1 and len(lines) != 1:
        print(f"{script.name} {' '.join(map(str, words))}\nends with {ended.returncode}: {ended.stderr}wanted: {wanted}")
        sys.exit(1)


def fault_of(path: Path) -> str | None:
    """The fault of a capture that is taken as a stimulus, or none."""
    try:
        of_capture(Namespace(file=str(path), mhz=Fraction(125), at=None, pin=[]))
    except Fault as fault:
        return str(fault)
    return None


def look_at_mutated(folder: Path, kept: Path, count: int, seed: int) -> None:
    """Captures with some bytes changed are taken, or have a fault of one line that names the file."""
    random, path = Random(seed), folder / "mutated.cap"
    rows = "; Channels (2/8): D0, D1\n; Samplerate: 24 MHz\nTime,D0,D1\n" + "".join(f"{41 * it},{it & 1},{it >> 1 & 1}\n" for it in range(1, 60))
    changes = "Time [s],Channel 0,Channel 1\n" + "".join(f"{it / 10**6:.9f},{it & 1},{it >> 1 & 1}\n" for it in range(60))
    texts = [(kept / "board.vcd").read_bytes()[:1500], rows.encode(), changes.encode()]
    for _ in range(count):
        text = bytearray(random.choice(texts))
        for _ in range(random.randint(1, 4)):
            at = random.randrange(len(text))
            text[at : at + random.randint(0, 3)] = random.choice(NOISE)
        path.write_bytes(text)
        told = fault_of(path)
        if told is not None and ("\n" in told or not told.startswith((f"{path}: ", "clocks "))):
            print(f"{bytes(text)!r}: {told!r}")
            sys.exit(1)


def look_at_bad(folder: Path, tools: Path, kept: Path) -> int:
    """Looks at all of them; how many there are."""
    stimulus, compare, measure = (tools / f"piotool-{it}" for it in ("stimulus", "compare", "measure"))
    bad, good, other = folder / "bad.cap", folder / "good.stim", folder / "other.stim"
    calls: list[tuple[Path, list[object], str]] = []
    for text, wanted in CAPTURES:
        bad.write_text(text)
        told, wanted = fault_of(bad), ("" if wanted.startswith("clocks ") else f"{bad}: ") + wanted
        if told != wanted:
            print(f"{text!r}: {told}\nwanted: {wanted}")
            sys.exit(1)
    one_line(stimulus, ["capture", bad], 1, wanted)
    good.write_text("0 feed 1 1 7\n5 tx 0 1\n")
    for text, wanted in STIMULI:
        other.write_text(text)
        one_line(stimulus, ["--join", good, other], 1, f"{other}: {wanted.format(folder=folder)}")
    bad.write_bytes(b"\xff\xfe")
    board, trace, config = kept / "board.vcd", kept / "bench.vcd", kept / "bench.toml"
    gone = folder / "gone"
    calls += [(stimulus, ["capture", it], wanted) for it, wanted in ((bad, f"{bad}: not UTF-8"), (gone, f"{gone}: No such file or directory"))]
    calls += [
        (stimulus, ["capture", board, "--pin", "1=D7"], f"{board}: no signal is called 'D7'; it has CH0, CH1"),
        (stimulus, ["capture", board, "--at", "1s..2s"], f"{board}: no such part: it goes from 0us to 800.0417us"),
        (stimulus, ["uart", "--file", gone, "--pin", "1", "--bit", "9"], f"{gone}: No such file or directory"),
        (stimulus, ["uart", "--bytes", "55", "--pin", "1", "--bit", "9", "--wrong-stop", "1"], "--wrong-stop: no byte 1: there are 1, from 0 on"),
        (stimulus, ["frames", "--bytes", "5566", "--size", "3"], "2 bytes are no whole words of 3"),
        (compare, [board, board], f"{board}: no trace that piotool writes"),
        (compare, [trace, gone], f"{gone}: No such file or directory"),
        (compare, [trace, board, "--align", "p9:rise"], "--align: 'p9:rise' is no edge of a pin that is compared, as p0:rise:0"),
        (compare, [trace, board, "--align", "p0:rise:9999"], f"{trace}: pin 0 has no such edge to align at: p0:rise:9999"),
        (measure, [board, "--config", gone], f"{gone}: No such file or directory"),
        (measure, [board, "--config", config, "--span", "none"], f"{config}: no span is called 'none'"),
        (measure, [board, "--config", config, "--pin", "1=CH1"], f"{board}: no signal for pin 0 of span low; --pin says which"),
    ]
    for script, words, wanted in calls:
        one_line(script, words, 1, wanted)
    return len(CAPTURES) + len(STIMULI) + len(calls)
