"""The man pages of the scripts of tools/, of what their `--help` says, and that of their commands."""

import os
import re
import subprocess
from functools import cache
from pathlib import Path

TOP = Path(__file__).resolve().parent.parent
ITEM = re.compile(r" {2,4}(\S.*?)(?: {2,}(\S.*))?")
# By tools/README.md.
STATUSES = [
    ("0", "All is well."),
    ("1", "A file or a name is wrong, which is one line on standard error; or the script found what its description says."),
    ("2", "The words of the call are wrong: the usage comes on standard error."),
    ("3", "A span is refused or broken, where the script looks for one."),
]


def roff(text: str) -> str:
    """A text that roff takes as it stands."""
    text = text.replace("\\", "\\e").replace("-", "\\-").replace("'", "\\(aq").replace("^", "\\(ha").replace("~", "\\(ti")
    return f"\\&{text}" if text.startswith(".") else text


def help_of(script: Path, *command: str) -> tuple[str, list[str], dict[str, list[tuple[str, str]]]]:
    """The usage of a script, or of a command of it; the paragraphs of its description; the items of each further part."""
    env = os.environ | {"COLUMNS": "1000", "LC_ALL": "C.UTF-8"}
    ran = subprocess.run([script, *command, "--help"], env=env, stdin=subprocess.DEVNULL, capture_output=True, text=True)
    if ran.returncode or ran.stderr:
        raise SystemExit(f"release: {script.name} --help ends with {ran.returncode}: {ran.stderr.strip()}")
    usage, *parts = ran.stdout.rstrip("\n").split("\n\n")
    about: list[str] = []
    items: dict[str, list[tuple[str, str]]] = {}
    for part in parts:
        heading, _, lines = part.partition("\n")
        if re.fullmatch(r"[a-z ]+:", heading) and lines.startswith("  "):
            items[heading[:-1]] = items_of(lines)
        else:
            about.append(part)
    return " ".join(usage.removeprefix("usage: ").split()), about, items


def items_of(lines: str) -> list[tuple[str, str]]:
    """What is written and what is said of it, of each item; longer names have the line below for what is said."""
    found: list[tuple[str, str]] = []
    for line in lines.splitlines():
        if item := ITEM.fullmatch(line):
            found.append((item[1], item[2] or ""))
        else:
            name, text = found[-1]
            found[-1] = name, f"{text} {line.strip()}".strip()
    return found


def paragraphs(about: list[str]) -> list[str]:
    """The lines of a description: what is indented or a list is kept as it stands."""
    lines: list[str] = []
    for part in about:
        as_is = any(line.startswith((" ", "- ")) for line in part.splitlines())
        kept = [roff(line) for line in part.splitlines()]
        lines += [".PP", ".nf", *kept, ".fi"] if as_is else [".PP", *kept]
    return lines[1:] if lines else lines


def tagged(items: list[tuple[str, str]]) -> list[str]:
    """Options and arguments."""
    lines: list[str] = []
    for name, text in items:
        if not name.startswith("-h,"):
            lines += [".TP", f"\\fB{roff(name)}\\fR", roff(text) or "\\&"]
    return lines


def man_page(script: Path, version: str) -> str:
    """The man page of a script."""
    usage, about, items = help_of(script)
    summary = re.split(r"[.:](?:\s|$)", " ".join(about[0].split()))[0]
    name, form = roff(script.name), roff(usage.partition(" ")[2])
    lines = [
        '.\\" Made by packaging/release of what the script says.',
        f'.TH {script.name.upper()} 1 "" "piotool {version}" "User Commands"',
        *(".SH NAME", f"{name} \\- {roff(summary[0].lower() + summary[1:])}"),
        *(".SH SYNOPSIS", f"\\fB{name}\\fR {form}"),
        *(".SH DESCRIPTION", *paragraphs(about)),
    ]
    commands = commands_of(usage, items.get("positional arguments", []))
    # The word for a command says nothing of its own.
    shown = {heading: [it for it in rows if it[0] not in commands and (it[1] or not commands)] for heading, rows in items.items()}
    if rows := [line for it in shown.values() for line in tagged(it)]:
        lines += [".SH OPTIONS", *rows]
    if commands:
        lines.append(".SH COMMANDS")
    for command, text in commands.items():
        own_usage, own_about, own_items = help_of(script, command)
        own_form = roff(own_usage.partition(f" {command} ")[2])
        lines += [f".SS {roff(command)}", roff(text), ".PP", f"\\fB{name} {roff(command)}\\fR {own_form}"]
        lines += [".PP", *paragraphs(own_about)] if own_about and own_about != [text] else []
        lines += [line for it in own_items.values() for line in tagged(it)]
    lines.append(".SH EXIT STATUS")
    for status, text in STATUSES:
        lines += [".TP", f"\\fB{status}\\fR", roff(text)]
    lines += [".SH SEE ALSO", "\\fBpiotool\\fR(1); \\fI/usr/share/doc/piotool/tools/README.md\\fR shows each script at work."]
    return "\n".join([*lines, ".SH COPYRIGHT", "The piotool authors; BSD 3\\-Clause License."]) + "\n"


def commands_of(usage: str, items: list[tuple[str, str]]) -> dict[str, str]:
    """The commands of a script, each with what it does; none where it has no commands."""
    if not usage.endswith(" ..."):
        return {}
    return {name: text for name, text in items if re.fullmatch(r"[a-z0-9]+", name)}


@cache
def man_pages(version: str) -> dict[str, str]:
    """The man page of each script of tools/, by its name."""
    return {it.name: man_page(it, version) for it in sorted((TOP / "tools").glob("piotool-*"))}
