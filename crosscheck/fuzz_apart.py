"""Between calls: machines that share nothing, and blocks that see nothing of each other."""

import fuzz_models as models
from fuzz_checks import block_words, changes, check, need, pair_words
from fuzz_files import CONFIG, SECOND, SOURCE, STIMULUS, tables_as_toml
from piotool import shares_model


def stimulus_of(lines):
    return ("version 2\n" + "".join(f"{clock} {word} {' '.join(map(str, numbers))}\n" for clock, word, numbers in lines)).encode()


@check(SOURCE, CONFIG)
def shared(program, files, asked):
    """shares says what the model says.

    Why: the report has exactly the pins and flags through which machines can feel each other ("What machines share").
    """
    block = models.Block(files[SOURCE], files[CONFIG])
    look_at_report(program, files, block)
    return len(block.setups) > 1


def look_at_report(program, files, block):
    report = program.call("shares", *block_words(files))
    wanted = shares_model.report(block.memory, block.setups)
    need(report.out.decode() == wanted, f"shares isn't the model's, {wanted!r}", report)
    return report


@check(SOURCE, CONFIG)
def alone(program, files, asked):
    """A machine that shares calls alone shows the same with the others and their lines taken away.

    Why: a machine that is alone goes its own way, beside lines that agree on it and on the pins that it reads ("The promises").
    """
    block = models.Block(files[SOURCE], files[CONFIG])
    report = look_at_report(program, files, block)
    numbers = [int(line.split()[1]) for line in report.out.splitlines() if line.endswith(b" alone")]
    if len(block.setups) == 1 or not numbers:
        return False
    lines, clocks = models.lines_of(files.get(STIMULUS, b"")), asked["clocks"]
    both = run_beside(program, block.tables | {"span": []}, lines, clocks)
    for number, touched in block.touched().items():
        if number in numbers:
            kept = [it for it in lines if (it[2][0] in touched.reads if it[1] == "pin" else it[2][0] == number)]
            alone = [it for it in block.tables["machine"] if it["id"] == number]
            one = run_beside(program, block.tables | {"span": [], "machine": alone}, kept, clocks)
            need(both.status == one.status == 0, "a block without spans has a fault", both, one)
            own = {place + pin for pin in touched.writes for place in (0, 32)} | {64 + flag for flag in touched.changes}
            own |= {place + number for place in (72, 76, 80, 84)}
            found = [[it for it in changes(ended.out) if it[1] in own] for ended in (both, one)]
            need(found[0] == found[1], f"machine {number} is called alone, but shows another thing alone", report, both, one)
    return True


def run_beside(program, tables, lines, clocks):
    """A run of a configuration with these tables, beside these lines; each has files of its own, so that all can be kept."""
    name = f"{len(tables['machine'])}of{len(lines)}"
    program.take({f"{name}.toml": tables_as_toml(tables).encode(), f"{name}.stim": stimulus_of(lines)})
    return program.call("run", "--source", SOURCE, "--config", f"{name}.toml", "--stimulus", f"{name}.stim", "--clocks", str(clocks))


@check(SOURCE, CONFIG, SECOND)
def apart(program, files, asked):
    """Two blocks that own what they drive, and read nothing that the other one drives, show together what each shows alone.

    Why: a pad is its owner's, and else what the outside drives; all else of a block is its own ("Two blocks").
    """
    if program.call(*pair_words(files, 0)).status not in (0, 3):
        return False
    tables, second = (models.tables_of(files[name]) | {"span": []} for name in (CONFIG, SECOND))
    own = set(second["pins"].get("own", []))
    outside = {"high": tables["pins"]["high"]} if "high" in tables["pins"] else {}
    pins = {key: pins for key, pins in second["pins"].items() if key != "own"} | outside
    configs = [tables_as_toml(it).encode() for it in (tables, second | {"pins": pins})]
    blocks = [models.Block(files[SOURCE], config) for config in configs]
    drives, reads = [], []
    for block in blocks:
        touched = block.touched().values()
        drives.append({pin for pin in range(32) if block.pins["out"] >> pin & 1}.union(*(it.writes for it in touched)))
        reads.append(set().union(*(it.reads for it in touched)))
    if drives[0] & own or drives[1] - own or reads[0] & drives[1] or reads[1] & drives[0]:
        return False
    program.take(files | {CONFIG: configs[0], SECOND: tables_as_toml(second).encode()})
    both = program.call(*pair_words(files, asked["clocks"]))
    if both.status != 0:
        return False
    lines = models.lines_of(files.get(STIMULUS, b""), is_of_pair=True)
    for place, config in enumerate(configs):
        kept = [it for it in lines if it[1] == "pin" or it[2][0] // 4 == place]
        kept = [(clock, word, [numbers[0] % 4 if word != "pin" else numbers[0], *numbers[1:]]) for clock, word, numbers in kept]
        names = f"block{place}.toml", f"block{place}.stim"
        program.take(dict(zip(names, (config, stimulus_of(kept)))))
        options = ["--config", names[0], "--stimulus", names[1], "--clocks", str(asked["clocks"])]
        one = program.call("run", "--source", SOURCE, *options)
        need(one.status == 0, "a block that runs beside another one has a fault alone", one, both)
        need(changes(one.out) == changes(both.out, place == 1), f"block {place} shows another thing alone", one, both)
    return True
