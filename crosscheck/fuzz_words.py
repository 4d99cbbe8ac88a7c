"""Between calls: the words of a call, right and wrong, in any order and in both spellings."""

import random

from fuzz_calls import ABSENT
from fuzz_checks import check, need, same
from fuzz_files import CONFIG, SECOND, SENT, SOURCE, STIMULUS, TABLE, WORDS

FORMS = {
    "asm": [],
    "dis": ["--side", "--opt"],
    "run": ["--source", "--config", "--stimulus", "--clocks"],
    "inspect": ["--source", "--config", "--stimulus", "--clocks"],
    "check": ["--source", "--config"],
    "measure": ["--source", "--config", "--stimulus", "--clocks"],
    "receive": ["--source", "--config", "--stimulus", "--clocks", "--pin", "--bit"],
    "pair": ["--source", "--config", "--second", "--stimulus", "--clocks"],
    "uart": ["--send", "--divider", "--clocks"],
    "table": ["--source", "--config", "--span"],
    "recheck": ["--source", "--config", "--span", "--table"],
    "gen": ["--seed", "--clocks"],
    "shares": ["--source", "--config"],
}
MAY_MISS = {"--config", "--stimulus", "--side", "--opt"}  # but the configuration of pair
NUMBERS = {"--clocks": (0, 10**12), "--seed": (0, 2**64 - 1), "--side": (0, 5)}
NUMBERS |= {"--pin": (0, 31), "--bit": (2, 65535), "--divider": (1, 8191)}
NAMES = {"--source": SOURCE, "--config": CONFIG, "--second": SECOND, "--stimulus": STIMULUS, "--table": TABLE, "--send": SENT}
NO_NUMBERS = ["", "x", "0x1", "1.0", "1e3", " 1", "1 ", "-1", "1_0", "²", "++1", "9" * 40]


@check()
def calls(program, files, asked):
    """Options in any order and spelling end alike; 2 comes exactly where one is missing, twice, unknown, or no number in its range.

    Why: options come in any order, also as --name=X, each at most once, numbers have their ranges, and 2 has no other cause ("Commands",
    "Ends").
    """
    chance = random.Random(asked["chance"])
    program.take({name: b"" for name in NAMES.values()} | {WORDS: b""} | files)
    command = chance.choice(list(FORMS))
    options, place = right_words(chance, command, asked)
    how = chance.randrange(16)
    if how == 0:
        return call_without_file(program, chance, command, options, place)
    if how == 1:
        ended = program.call(*chance.choice(ODD_CALLS))
        need(ended.status == 2, "words that ask for nothing are taken", ended)
        return True
    is_wrong = False
    if how < 9:
        options, place, is_wrong = made_wrong(chance, how, command, options, place)
    plain = [command, *place, *(word for it in options for word in spelled(*it, False))]
    first = program.call(*plain)
    need((first.status == 2) == is_wrong, f"words that are {'wrong are taken' if is_wrong else 'right are refused'}", first)
    chance.shuffle(options)
    again = program.call(command, *(word for it in options for word in spelled(*it, chance.random() < 0.5)), *place)
    if is_wrong:
        need(again.status == 2, "words that are wrong are taken in another order", again)
    else:
        same(first, again, "options in another order or spelling end in another way")
    return True


ODD_CALLS = [[], [""], ["--help"], ["-h"], ["help"], ["run", "--help"], ["--", "asm"], ["check", "--source"]]
ODD_CALLS += [["ASM", SOURCE], ["asm", "\udcff"], ["asm", SOURCE, SOURCE], ["asm", f"--source={SOURCE}"]]
ODD_CALLS += [["check", f"--source={SOURCE}", "--clocks", "1"], ["run", SOURCE, "--clocks", "1"]]


def right_words(chance, command, asked):
    """Options of a command with their values, and its file where that has no option."""
    options = []
    for name in FORMS[command]:
        if name == "--opt":
            options += [(name, None)] * chance.choice([0, 1])
        elif not may_miss(command, name) or chance.random() < 0.7:
            options.append((name, value_of(chance, name, asked)))
    if ("--opt", None) in options:
        options = [(name, "4" if name == "--side" else value) for name, value in options]
    return options, {"asm": [SOURCE], "dis": [WORDS]}.get(command, [])


def call_without_file(program, chance, command, options, place):
    """One of the files isn't there, or is a folder: the call ends with 4, or with the fault of a file before it."""
    absent, named = chance.choice(sorted(ABSENT)), [it for it in options if it[0] in NAMES]
    if not named and not place:
        return False
    name = chance.choice(named)[0] if named else {"asm": "--source", "dis": "--words"}[command]
    options = [(it, absent if it == name else value) for it, value in options]
    words = [command, *([absent] if place else []), *(word for it in options for word in spelled(*it, True))]
    ended = program.call(*words)
    role = name.removeprefix("--").encode()
    need(ended.status == 1 or ended.err == b"piotool: shelf %s\n" % role, f"{role.decode()} isn't there", ended)
    return True


def may_miss(command, name):
    return name in MAY_MISS and (command, name) != ("pair", "--config")


def value_of(chance, name, asked):
    if name in NUMBERS:
        least, most = NUMBERS[name]
        number = asked["fewer"] if name == "--clocks" else chance.choice([least, most, chance.randint(least, most)])
        return chance.choice(["", "", "+", "0", "000", "+0"]) + str(number)
    return NAMES.get(name, "high")


def spelled(name, value, is_joined):
    if value is None:
        return [name]
    return [f"{name}={value}"] if is_joined or value.startswith("-") else [name, value]


def made_wrong(chance, how, command, options, place):
    """The words with a mistake, where one of this kind can be made; and whether there is one."""
    if how in (2, 3):
        required = [it for it in options if not may_miss(command, it[0])]
        if required:
            dropped = chance.choice(required)
            return [it for it in options if it != dropped], place, True
        return options, [], bool(place)
    if how == 4 and options:
        return options + [chance.choice(options)], place, True
    if how in (5, 6):
        numbers = [it for it in options if it[0] in NUMBERS]
        if numbers:
            name = chance.choice(numbers)[0]
            past = [str(NUMBERS[name][1] + 1), str(NUMBERS[name][0] - 1)]
            wrong = chance.choice(past + [chance.choice(NO_NUMBERS)])
            return [(it, wrong if it == name else value) for it, value in options], place, True
    if how == 7:
        return options + [(chance.choice(["--nothing", "--cloks", "--s", "--sourc", "-c"]), "1")], place, True
    if how == 8:
        return options, place + [SOURCE], True
    return options, place, False
