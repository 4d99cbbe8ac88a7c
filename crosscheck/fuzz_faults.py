"""Between calls: the first fault of files, by all commands and by the models; and blanks that change nothing."""

import random

import fuzz_models as models
import source_model
from fuzz_checks import block_words, check, look_at_fault, need, need_alike, pair_words, same
from fuzz_files import CONFIG, SECOND, SOURCE, STIMULUS, TABLE
from piotool import shares_model


@check(SOURCE)
def first_fault(program, files, asked):
    """Every command over the same files tells the same first fault, and it is that of the models. So a TOML document is taken where
    Python's reader takes it, but for what docs/DECISIONS.md names ("What is TOML?").

    Why: a call ends with 1 exactly where a file has its first fault, and all read source, configuration, stimulus in this order ("Ends").
    """
    name, fault, ended = name_asked(files, asked), None, {}
    for file, stage in stages(files, asked, name).items():
        told = [program.call(*words) for words in stage]
        ended |= {it.words[0]: it for it in told}
        if fault is None and (file in files):
            look_at_fault(told[0], by_model(file, files), file == CONFIG and models.OTHERWISE.search(files[CONFIG]))
        fault = fault or (told[0] if told[0].status == 1 else None)
        for other in told:
            look_at_first(other, fault)
    if fault is None:
        need_alike(ended["run"], ended["check"])
        listed = by_model(SOURCE, files, source_listing)
        need(listed in (models.Unknown, ended["asm"].out), "the listing isn't the model's", ended["asm"])
        report = by_model(CONFIG, files, shares_report)
        need(report in (models.Unknown, ended["shares"].out), "shares isn't the model's", ended["shares"])
    later = [pair_words(files, asked["clocks"])] if SECOND in files and CONFIG in files else []
    later += [["recheck", *block_words(files, TABLE), "--span", name]] if TABLE in files else []
    for words in later:
        other = program.call(*words)
        if fault and b" stimulus " not in fault.err:
            look_at_first(other, fault)
        elif words[0] == "pair" and not other.err.startswith(b"piotool: stimulus "):
            look_at_fault(other, by_model(SECOND, files), models.OTHERWISE.search(files[SECOND]))
    return True


def stages(files, asked, name):
    """The commands that read nothing after this file."""
    ask, line = block_words(files), ["--pin", str(asked["pin"]), "--bit", str(asked["bit"])]
    observe = [*block_words(files, STIMULUS), "--clocks", str(asked["clocks"])]
    return {
        SOURCE: [["asm", SOURCE]],
        CONFIG: [["shares", *ask], ["check", *ask], ["table", *ask, "--span", name]],
        STIMULUS: [["measure", *observe], ["receive", *observe, *line], ["inspect", *observe], ["run", *observe]],
    }


def source_listing(files):
    programs, _ = models.programs_of(files[SOURCE])
    return source_model.listing([it.listed for it in programs.values()]).encode()


def shares_report(files):
    block = models.Block(files[SOURCE], files.get(CONFIG))
    return shares_model.report(block.memory, block.setups).encode()


def by_model(file, files, ask=None):
    """The first fault of a file by the models, or what else is asked of them, or Unknown."""
    asks = {
        SOURCE: lambda files: models.programs_of(files[SOURCE])[1],
        CONFIG: lambda files: models.config_fault(files[SOURCE], files[CONFIG]),
        SECOND: lambda files: models.second_fault(files[SOURCE], files[SECOND]),
        STIMULUS: lambda files: models.stimulus_fault(files[STIMULUS]),
    }
    try:
        return (ask or asks[file])(files)
    except models.Unknown:
        return models.Unknown


def name_asked(files, asked):
    """The name of a span of the configuration, or another one."""
    names = [it["name"] for it in spans_said(files)]
    return names[asked["place"] % len(names)] if names else "none"


def spans_said(files):
    """The tables of spans that can be read in the configuration, right or not, which have a name for a word of a call."""
    try:
        spans = models.tables_of(files.get(CONFIG, b""))["span"]
        return [it for it in spans if isinstance(it["name"], str) and it["name"].isprintable() and it["name"][:1] not in "-"]
    except (models.Unknown, KeyError, TypeError):
        return []


def look_at_first(ended, fault):
    if fault:
        same(ended, fault, "two commands tell two first faults")
    else:
        need(ended.status != 1 or ended.err == b"piotool: nospan\n", "a fault that no command before told", ended)


@check(SOURCE)
def blanks(program, files, asked):
    """Blanks, comments and line ends changed change nothing.

    Why: they are gaps of a source, parts of no field of a stimulus, and of no value of a TOML document ("Tokens", "The stimulus").
    """
    chance = random.Random(asked["chance"])
    others = {name: with_blanks(chance, name, content) for name, content in files.items() if name in (SOURCE, CONFIG, STIMULUS)}
    ran = ["run", *block_words(files, STIMULUS), "--clocks", str(asked["fewer"])]
    for words in (["asm", SOURCE], ["check", *block_words(files)], ran):
        program.take(files)
        before = program.call(*words)
        program.take({f"blank.{name}": content for name, content in others.items()})
        after = program.call(*(f"blank.{word}" if word in others else word for word in words))
        same(before, after, "blanks and comments change something")
    return True


def with_blanks(chance, name, content):
    """A file with more blanks and comments, and other line ends."""
    if len(content) > 20_000 or name == CONFIG and (b'"""' in content or b"'''" in content):
        return content
    lines, ends = content.split(b"\n"), [b"", b"", b" ", b"\t", b"\r"]
    comments = [b"", b" # a\t'", b"#"]
    if name == SOURCE:
        # (A comment of the last kind would end one that is open.)
        comments = [b"", b" ; a ]", b" // %"] + [b"  /* a */"] * (b"/*" not in content)
    for place, line in enumerate(lines):
        if name == CONFIG:
            is_last = place == len(lines) - 1
            line = line[:-1] if line.endswith(b"\r") and not is_last else line
            before = chance.choice([b"", b" ", b"\t"]) if not line.startswith(b"\xef\xbb\xbf") else b""
            after = chance.choice([b"", b" "]) + chance.choice(comments) + (b"" if is_last else chance.choice([b"", b"\r"]))
        else:
            before = chance.choice([b"", b" ", b"\t \r"])
            after = chance.choice(ends) + chance.choice(comments) + chance.choice(ends)
        lines[place] = before + line + after
    return b"\n".join(lines)
