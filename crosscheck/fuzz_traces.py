"""Between calls: traces, what is seen in them, what a long run takes."""

import random
import re

import fuzz_models as models
import inside_model
import observers_model
from fuzz_calls import Violation
from fuzz_checks import block_words, changes, check, need, pair_words, run_words, same, without_spans
from fuzz_files import CONFIG, SECOND, SENT, SOURCE, STIMULUS
from piotool.span_runs import broken_at, run_of


@check(SOURCE)
def shorter(program, files, asked):
    """A shorter trace is a first part of the longer one, less its last line; so are frames. Each trace ends with its last clock.

    Why: a run of N clocks has the first N samples of a longer one, and its text ends with #N ("Samples and the trace").
    """
    files = without_spans(files)
    program.take(files)
    for words in (run_words, pair_words) if SECOND in files and CONFIG in files else (run_words,):
        long = program.call(*words(files, asked["clocks"]))
        if long.status == 0:
            for fewer in (asked["fewer"], within_changes(asked, long.out)):
                look_at_prefix(long, program.call(*words(files, fewer)), asked["clocks"], fewer)
    options = ["--pin", str(asked["pin"]), "--bit", str(asked["bit"])]
    heard = [
        program.call("receive", *block_words(files, STIMULUS), "--clocks", str(clocks), *options)
        for clocks in (asked["clocks"], asked["fewer"])
    ]
    need(heard[0].out.startswith(heard[1].out), "frames of a shorter run that a longer one hasn't", *heard)
    return long.status == 0


def within_changes(asked, trace):
    """A number of clocks, up to that of a trace, whose last clock is mostly one with a change."""
    clocks = [int(line[1:]) for line in trace.split(b"\n") if line[:1] == b"#"]
    return min(asked["clocks"], random.Random(asked["chance"]).choice(clocks) + 1)


def look_at_prefix(long, short, clocks, fewer):
    for ended, number in ((long, clocks), (short, fewer)):
        need(ended.out.endswith(b"\n#%d\n" % number), f"a trace of {number} clocks ends with {ended.out[-30:]!r}", ended)
    first = long.out[: len(short.out) - len(b"#%d\n" % fewer)]
    need(short.out.startswith(first), "a shorter trace is no first part of the longer one", short, long)
    rest = long.out[len(first) :].partition(b"\n")[0]
    need(rest.startswith(b"#") and int(rest[1:]) >= fewer or fewer == 0, f"the longer trace goes on with {rest!r}", short, long)


@check(SOURCE)
def observed(program, files, asked):
    """What spans measure that speak of all pairs, and the frames of a pin, are those of the trace; proved spans in clocks measure within
    their bounds.

    Why: both are told of the samples that the trace shows; a provable span in clocks is seen within its bounds where no line disables
    or restarts its machine, or it speaks of some pairs alone ("What spans measure", "What a serial line carries", "The promises").
    """
    block, bare = models.Block(files[SOURCE], files.get(CONFIG)), without_spans(files)
    clocks, pin = min(asked["clocks"], 1000), asked["pin"]
    program.take(bare)
    ran = program.call(*run_words(bare, clocks))
    program.take(files)
    if ran.status != 0:
        return False
    pins = {pin} | {span[key] for span in block.spans for key in ("from_pin", "to_pin") if key in span}
    places = sorted(pins | {32 + it for it in pins})  # of levels and of directions
    found, shown, now, place = changes(ran.out), [], {}, 0
    for clock in range(clocks):
        while place < len(found) and found[place][0] == clock:
            now[found[place][1]] = int(found[place][2] == b"1")
            place += 1
        shown.append({it: now[it] for it in places})
    asks = block_words(files, STIMULUS) + ["--clocks", str(clocks)]
    measured = program.call("measure", *asks)
    plain = [place for place, it in enumerate(block.spans) if observers_model.speaks_of_all(it)]
    told = measured.out.decode().splitlines(keepends=True)
    wanted = observers_model.seen([block.spans[it] for it in plain], observers_model.Shown(shown, block.pins))
    need(len(told) == len(block.spans), "measure hasn't a line for each span", measured)
    need("".join(told[it] for it in plain) == wanted, f"measure isn't what the trace shows, {wanted!r}", measured, ran)
    heard = program.call("receive", *asks, "--pin", str(pin), "--bit", str(asked["bit"]))
    wanted = observers_model.received(shown, block.pins["level"], pin, asked["bit"])
    need(heard.out.decode() == wanted, f"the frames aren't those of the trace, {wanted!r}", heard, ran)
    told = program.call("check", *block_words(files))
    lines = models.lines_of(files.get(STIMULUS, b""))
    disturbed = {numbers[0] for _, word, numbers in lines if word in ("disable", "restart")}
    for span, verdict, seen in zip(block.spans, told.out.splitlines(), measured.out.split(b"\n")):
        is_asked = span["unit"] == "clocks" and (span["machine"] not in disturbed or not observers_model.speaks_of_all(span))
        if b" proved " in verdict and is_asked and b" least " in seen:
            least, most = map(int, re.search(rb" least (\d+) most (\d+)", seen).groups())
            need(span["min"] <= least and most <= span["max"], f"{verdict!r}, but {seen!r}", told, measured)
    return True


@check(SOURCE)
def stepped(program, files, asked):
    """The trace is that of the model, and in it proved spans hold, in clocks and in ticks by a count of the model.

    Why: the trace is the samples that stepping the block by the rules gives; a provable span holds in every run ("The promises").
    """
    block, bare = models.Block(files[SOURCE], files.get(CONFIG)), without_spans(files)
    clocks, lines = min(asked["clocks"], 200), models.lines_of(files.get(STIMULUS, b""))
    program.take(bare)
    ran = program.call(*run_words(bare, clocks))
    program.take(files)
    if ran.status != 0:
        return False
    stepped = run_of(block, lines, clocks, spans=block.spans)
    wanted = stepped.trace().encode()
    same(ran, ran._replace(out=wanted), "the trace isn't the model's")
    measured = program.call("measure", *block_words(files, STIMULUS), "--clocks", str(clocks))
    wanted = observers_model.seen(block.spans, observers_model.Run(block.memory, block.setups, block.pins, lines, clocks))
    same(measured, measured._replace(status=0, out=wanted.encode(), err=b""), "what spans measure isn't the model's")
    told = program.call("check", *block_words(files))
    for span, verdict in zip(block.spans, told.out.split(b"\n")):
        if b" proved " in verdict and (how := broken_at(block, span, stepped, lines)):
            raise Violation(f"{verdict.decode()}, but the run has {how}", told.words, ran.words)
    return True


@check(SOURCE)
def inside(program, files, asked):
    """What `inspect` writes is the model's text, and without what is inside it is the trace.

    Why: both are told of the same clocks; the values inside are those of the state that stepping the block by the rules gives ("What is
    inside", "The promises").
    """
    block, bare = models.Block(files[SOURCE], files.get(CONFIG)), without_spans(files)
    clocks, lines = min(asked["clocks"], 200), models.lines_of(files.get(STIMULUS, b""))
    program.take(bare)
    ran = program.call(*run_words(bare, clocks))
    program.take(files)
    if ran.status != 0:
        return False
    told = program.call("inspect", *block_words(files, STIMULUS), "--clocks", str(clocks))
    wanted = inside_model.text(block.memory, block.setups, block.pins, lines, clocks).encode()
    same(told, told._replace(status=0, out=wanted, err=b""), "what is inside isn't the model's")
    need(inside_model.without_inside(told.out.decode()).encode() == ran.out, "what inspect traces isn't what run does", told, ran)
    return True


@check(SOURCE)
def memory(program, files, asked):
    """A long run takes no more memory than a short one, but for a little.

    Why: what is told of a clock is the text that the output takes; nothing of it has to be kept. That is measured, and no rule says it.
    """
    files = without_spans(files)
    program.take(files)
    observe = block_words(files, STIMULUS)
    others = [["measure", *observe], ["inspect", *observe], ["receive", *observe, "--pin", str(asked["pin"]), "--bit", "2"]]
    others += [["gen", "--seed", str(asked["seed"])]]
    for words in (["run", *observe], others[asked["place"] % len(others)]):
        enough = next((room for room in ROOMS if program.within(room, *words, "--clocks", "100") == 0), None)
        if enough is not None:
            long = [*words, "--clocks", str(LONG)]
            if status := program.within(enough + MORE, *long):
                raise Violation(f"status {status} within {enough + MORE} kB, though 100 clocks take {enough} at most", long)
    return True


# Address space in kB: what short runs are tried in, and how much more a long one may take.
ROOMS, MORE, LONG = range(4000, 20_000, 500), 1000, 400_000


@check(SENT)
def sent(program, files, asked):
    """uart writes each byte that is sent by then, in its clock.

    Why: byte j comes at I * (9 + 80 * j) where I * (85 + 80 * j) is below N ("What the transmitter sends").
    """
    divider, clocks = asked["divider"], asked["many"]
    heard = program.call("uart", "--send", SENT, "--divider", str(divider), "--clocks", str(clocks))
    if len(files[SENT]) <= 65_536:
        told = [(place, byte) for place, byte in enumerate(files[SENT]) if divider * (85 + 80 * place) < clocks]
        wanted = "".join(f"byte 0x{byte:02x} at {divider * (9 + 80 * place)}\n" for place, byte in told)
        need(heard.out.decode() == wanted, f"the bytes aren't {wanted!r}", heard)
    return True


@check()
def drawn_load(program, files, asked):
    """A load from a seed ends alike twice, and its counts never fall with more clocks.

    Why: the summary counts what was done in the first N clocks ("A load from a seed").
    """
    seed = str(asked["seed"])
    counts = []
    for clocks in (asked["fewer"], asked["clocks"]):
        ended = program.call("gen", "--seed", seed, "--clocks", str(clocks))
        counts.append([int(line.split()[-1]) for line in ended.out.splitlines()])
    need(len(counts[0]) == 6 and all(few <= many for few, many in zip(*counts)), f"the counts are {counts}", ended)
    return True
