"""Bad inputs of `piotool-setup`: each gets one line that says what to do, with status 1, and no file is written."""

import os
import shutil
import subprocess
from dataclasses import dataclass
from glob import glob
from pathlib import Path
from typing import Any, Callable

from firmware_builds import COMPILER, FIRMWARE, SHIM, TOP, built

SQUARE = TOP / "examples" / "square_wave" / "square_wave.pio"
DUMP = """0x50200000 0x00000001
0x50200030: 0x0 0x0 0x0 0x0 0x10000
0x502000c8: 0x00028000 0x00007200 0x000c0000 0x00000005 0x0000e101 0x04000200
"""
SET_UP = "0x00028000 0x00007200 0x000c0000 0x00000005 0x0000e101 0x04000200"
RESET = "0x00010000 0x0001f000 0x000c0000 0x00000000 0x00000000 0x14000000"
RP2 = ("/usr/src/micropython*/ports/rp2/modules/rp2.py",)
STATEMENTS = "import rp2\n@rp2.asm_pio(set_init=rp2.PIO.OUT_LOW)\ndef f():\n    set(pins, 1)\nsm = rp2.StateMachine(0, f, set_base=1)\n"


def rp2_found() -> Path | None:
    """MicroPython's own rp2.py, where its source is found."""
    named = os.environ.get("MICROPYTHON")
    places = [f"{named}/ports/rp2/modules/rp2.py"] if named else RP2
    found = [path for place in places for path in sorted(glob(place))]
    return Path(found[-1]) if found else None


@dataclass
class Bad:
    """A call, and what its line has."""

    words: list[object]
    told: str


def texts(folder: Path) -> dict[str, Path]:
    """Files of text that are bad in some way."""
    made = {
        "words.elf": "no ELF",
        "holes.dump": DUMP.replace("0x502000c8", "0x502000cc"),
        "none.dump": "nothing\n",
        "pads.dump": "0x4001c004 0x56\n",
        "other.dump": DUMP.replace("0x0000e101", "0x0000e100"),
        "wrap.dump": DUMP.replace("0x00007200", "0x00006200"),
        "syntax.py": "def (:\n",
        "raises.py": "import rp2\nx = 1 / 0\n",
        "module.py": "import neopixel_of_mine\n",
        "never.py": STATEMENTS,
        "warned.py": STATEMENTS.replace("rp2.StateMachine(", "0("),
        "waits.py": "import asyncio\n",
        "idle.dump": DUMP.replace("0x50200000 0x00000001", "0x50200000 0x0").replace(SET_UP, RESET),
        "bad.pio": ".program a\n  jmp nowhere\n",
        "kept.toml": "[[machine]\n",
    }
    found = {}
    for name, text in made.items():
        found[name] = folder / name
        found[name].write_text(text)
    return found


def text_rows(file: dict[str, Path], folder: Path) -> list[Bad]:
    """Calls that need no package."""
    source, out = ["--source", SQUARE], ["--out", folder / "out" / "x"]
    dump = [("registers", "holes.dump", "0x502000c8 (SM0_CLKDIV) isn't in it: in gdb, `x/wx 0x50200000`")]
    dump += [("registers", "none.dump", "no line has an address and a value")]
    dump += [("registers", "pads.dump", "no address is a PIO block's")]
    dump += [("registers", "idle.dump", "no machine is enabled or set up in it: halt the chip after the firmware has done that")]
    dump += [("registers", "other.dump", "machine 0 has the word 0xe100 at address 5, and squarewave has 0xe101 there")]
    dump += [("registers", "wrap.dump", "say which is where by --load NAME@AT")]
    rows = [Bad([way, file[name], *source, *out], told) for way, name, told in dump]
    rows += [Bad(["registers", file["holes.dump"], *source, "--load", "squarewave", *out], "it is a program's name, @, and an address")]
    rows += [Bad(["registers", file["holes.dump"], *source, "--load", "no@3", *out], "no source has a program no")]
    rows += [Bad(["registers", file["holes.dump"], "--source", file["bad.pio"], *out], "source line 2: V1 nowhere")]
    rows += [Bad(["registers", folder / "missing", *source, *out], "No such file or directory")]
    rows += [Bad(["print", file["kept.toml"], *source], "kept.toml")]
    python = [("syntax.py", "line 1: SyntaxError"), ("raises.py", "line 2: ZeroDivisionError")]
    python += [("module.py", "line 1: ModuleNotFoundError: neopixel_of_mine isn't here: give a copy that sets its machines up without it")]
    python += [("waits.py", "line 1: ModuleNotFoundError: asyncio isn't here: give a copy that sets its machines up without it")]
    python += [("never.py", "no machine is enabled: the program ends: a program starts one by active(1)")]
    python += [("warned.py", "line 5: TypeError: 'int' object is not callable")]
    rows += [Bad(["micropython", file[name], "--rp2", SHIM / "rp2.py", *out], told) for name, told in python]
    rows += [Bad(["micropython", file["never.py"], "--rp2", file[name], *out], "is it MicroPython's rp2.py?") for name in ("words.elf", "warned.py")]
    return rows


def firmware_rows(file: dict[str, Path], folder: Path) -> list[Bad]:
    """Calls with firmwares."""
    source, out = ["--source", SQUARE], ["--out", folder / "out" / "x"]
    elf = built(FIRMWARE / "square_wave.c", [SQUARE], folder / "bad")
    stripped, cut, empty = (folder / "bad" / f"{name}.elf" for name in ("stripped", "cut", "empty"))
    subprocess.run(["arm-none-eabi-strip", "-o", stripped, elf], check=True)
    cut.write_bytes(elf.read_bytes()[:300])
    other = folder / "bad" / "other.c"
    other.write_text('#include "pico/stdlib.h"\nint main(void) { return 0; }\n')
    nothing = built(other, [], folder / "bad")
    later = folder / "bad" / "later.elf"
    flags = ["-mcpu=cortex-m33", "-mthumb", "-nostartfiles", "-I", SHIM, "-T", SHIM / "link.ld"]
    subprocess.run([COMPILER, *flags, other, "-o", later], check=True)
    big = folder / "bad" / "big.elf"
    subprocess.run([COMPILER, "-mbig-endian", "-mcpu=cortex-m0plus", *flags[1:], other, "-o", big], check=True)
    empty.write_bytes(b"")
    other_source = TOP / "examples" / "spi" / "spi.pio"
    rows = [
        (stripped, [], "it has no symbols: give the .elf as the linker wrote it, not stripped"),
        (cut, [], "no whole ELF file"),
        (empty, [], "no whole ELF file"),
        (file["words.elf"], [], "no whole ELF file"),
        (later, [], "for another processor: the RP2040's is an ARMv6-M"),
        (Path(shutil.which("true") or "/bin/true"), [], "for another processor: the RP2040's is an ARMv6-M"),
        (big, [], "for another processor: the RP2040's is an ARMv6-M"),
        (nothing, [], "no machine is enabled: main returns: name the function that enables one by --entry"),
        (elf, ["--entry", "start"], "no function is called start: name the one to begin with by --entry"),
        (elf, ["--instructions", "9"], ": give more by --instructions"),
        (elf, ["--keep", file["kept.toml"]], "kept.toml"),
        (elf, ["--compare", folder / "missing.toml"], "No such file or directory"),
    ]
    made = [Bad(["elf", path, *source, *out, *words], told) for path, words, told in rows]
    return made + [Bad(["elf", elf, "--source", other_source, *out], "where no program of the sources is: give its source with --source")]


def look(called: Callable[..., tuple[int, str, str]], need: Callable[[bool, str], None], folder: Path, has_firmwares: bool) -> int:
    """Makes all calls; how many."""
    (folder / "out").mkdir()
    file = texts(folder)
    rows = text_rows(file, folder) + (firmware_rows(file, folder) if has_firmwares else [])
    for row in rows:
        status, text, told = called(*row.words)
        where = " ".join(map(str, row.words))
        is_right = status == 1 and text == "" and told.startswith("piotool-setup: ") and told.count("\n") == 1 and row.told in told
        need(is_right, f"{where}: status {status}\n{text}{told}wanted {row.told}")
        need(not list((folder / "out").iterdir()), f"{where}: a file is written")
    return len(rows)
