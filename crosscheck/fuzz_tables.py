"""Between calls: verdicts and tables, and words that are read and made again."""

import random

import fuzz_models as models
import source_model
import table_model
from fuzz_checks import block_words, check, look_at_fault, need, need_alike, run_words
from fuzz_files import CONFIG, SOURCE, TABLE, WORDS
from piotool.span_model import limits_of


@check(SOURCE, CONFIG)
def verdicts(program, files, asked):
    """run ends with 3 exactly where check does; table ends with 0 exactly where its span is proved; recheck takes its table.

    Why: each asks whether a span is provable, and what table writes is a file that proves its span ("Ends", "A table as a file").
    """
    told = program.call("check", *block_words(files))
    if told.status not in (0, 3):
        return False
    lines = told.out.decode().splitlines()
    names, refused = [line.split()[1] for line in lines], [line for line in lines if " unproved " in line]
    wanted = (3, f"piotool: {refused[0]}\n") if refused else (0, "")
    need((told.status, told.err.decode()) == wanted, "the end of check isn't that of its lines", told)
    ran = program.call(*run_words(files, asked["fewer"]))
    if ran.status != 1:
        need_alike(ran, told)
    for place in sorted({names.index(name) for name in names})[: 1 + asked["place"] % 3]:
        line = lines[place]
        ended = program.call("table", *block_words(files), "--span", names[place])
        is_proved = " proved " in line
        if is_proved and ended.err == b"piotool: long table\n":
            continue
        need((ended.status == 0) == is_proved, f"check says {line!r}, and table ends with {ended.status}", ended, told)
        if is_proved:
            program.take({"written.table": ended.out})
            taken = program.call("recheck", *block_words(files), "--span", names[place], "--table", "written.table")
            wanted = f"span {names[place]} rechecked\n".encode()
            need((taken.status, taken.out) == (0, wanted), f"recheck ends with {taken.status} {taken.err!r}", ended, taken)
        else:
            need(ended.err.decode() == f"piotool: {line}\n", f"table tells {ended.err!r}, check {line!r}", ended, told)
    missing = program.call("table", *block_words(files), "--span", "no such")
    need(missing.err == b"piotool: nospan\n", "a table of a span that isn't there", missing)
    return len(lines) > 0


@check(SOURCE, CONFIG)
def changed_table(program, files, asked):
    """A table with a number or two changed is taken only where it is still closed and good by the model, else refused with its flaw.

    Why: recheck ends with 0 exactly where the table is closed and good, and tells its first flaw else ("A table as a file").
    """
    block, chance = models.Block(files[SOURCE], files[CONFIG]), random.Random(asked["chance"])
    verdicts = program.call("check", *block_words(files)).out.decode().splitlines()
    names = [line.split()[1] for line in verdicts if " proved " in line]
    if not names:
        return False
    span = block.span_named(names[asked["place"] % len(names)])
    made = program.call("table", *block_words(files), "--span", span["name"])
    tables = [changed(chance, made.out) for _ in range(6)] if made.status == 0 else []
    for table in tables + ([files[TABLE]] if TABLE in files else []):
        rows, wanted = table_model.rows_of(table, limits_of(span))
        if not wanted:
            wanted = table_model.rechecked(block, span, rows) if len(rows) < 3000 else None
        program.take({"changed.table": table})
        taken = program.call("recheck", *block_words(files), "--span", span["name"], "--table", "changed.table")
        told = (taken.out or taken.err.removeprefix(b"piotool: ")).decode().removeprefix(f"span {span['name']} ").rstrip("\n")
        need(wanted in (None, told), f"the model says {wanted!r} of this table, recheck {told!r}", taken)
    return len(tables) > 0


def changed(chance, table):
    """A table with a number or two changed, often the greatest age of the last row, on which no other row may depend."""
    lines = table.decode().split("\n")
    for _ in range(chance.choice([1, 1, 2])):
        last = len(lines) - 3  # "end" and an empty one come after it
        place = last if chance.random() < 0.5 else chance.randrange(1, max(2, last + 1))
        fields = lines[place].split(" ")
        if chance.random() < 0.5:
            fields[5:] = [fields[5], str(int(fields[6]) + 1)] if fields[6:7] and fields[6].isdigit() else ["0", "0"]
        else:
            field = chance.randrange(len(fields))
            near = int(fields[field]) if fields[field].isdigit() else chance.choice([0, 1])
            fields[field] = str(chance.choice([near + 1, max(near - 1, 0), 0, 1, 31, "any", "-", chance.randrange(40)]))
        lines[place] = " ".join(fields)
    if chance.random() < 0.1:
        lines.pop(chance.randrange(len(lines)))
    return "\n".join(lines).encode()


@check(SOURCE)
def assembled_again(program, files, asked):
    """dis writes for the words of a listing the lines that the listing has, and asm makes the same words of these texts.

    Why: a word's text means exactly this word under the program's side-set rule ("Texts of words", "Commands").
    """
    listed = program.call("asm", SOURCE)
    if listed.status != 0:
        return False
    parts = listed.out.decode().split("program ")[1:]
    for part in [parts[asked["place"] % len(parts)]] if parts else []:
        head, *lines = part.splitlines()
        fields = head.split(" ")
        lines = [line for line in lines if not line.startswith("public ")]
        look_at_texts(program, lines, int(fields[4]), "opt" in fields[5:])
    return len(parts) > 0


def look_at_texts(program, lines, bits, opt):
    program.take({"again.hex": "".join(f"{line[3:7]}\n" for line in lines).encode()})
    read = program.call("dis", "again.hex", "--side", str(bits), *(["--opt"] if opt else []))
    need(read.out.decode().splitlines() == lines, f"dis writes other lines than {lines}", read)
    rule = f".side_set {bits}{' opt' * opt}\n" if bits or opt else ""
    program.take({"again.pio": f".program again\n{rule}{''.join(line[8:] + chr(10) for line in lines)}".encode()})
    again = program.call("asm", "again.pio")
    need(again.out.decode().splitlines()[1:] == lines or not lines, f"asm makes other words of {lines}", read, again)


@check(WORDS)
def words(program, files, asked):
    """dis writes the lines of the model, or its first fault, and asm makes the same words of the texts.

    Why: a file of words has one reading, and a text means exactly its word ("Commands", "Texts of words").
    """
    bits, opt = asked["side"], asked["opt"] and asked["side"] < 5
    read = program.call("dis", WORDS, "--side", str(bits), *(["--opt"] if opt else []))
    numbers, fault = models.words_of(files[WORDS])
    look_at_fault(read, fault)
    wanted = "" if fault else source_model.words_listed(numbers, bits, opt)
    need(read.out.decode() == wanted, f"dis writes other lines than the model, {wanted!r}", read)
    if wanted:
        look_at_texts(program, wanted.splitlines(), bits, opt)
    return True
