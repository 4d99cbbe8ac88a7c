"""What the pages say of the repository itself: its crates and their storeys, names, paths, links, counts, what a change costs.

`crosscheck/pages` asks `findings`; with `--costs` it prints the rows of `costs`, and with `--words` those of `lengths`.
"""

import re
from pathlib import Path

TOP = Path(__file__).resolve().parent.parent
CODE = re.compile(r"^```.*?^```$", re.M | re.S)
SPAN = re.compile(r"`([^`\n]+)`")
LINK = re.compile(r"(?<!!)\[[^]\n]*\]\(([^)\s]+)\)")
NAME = re.compile(r"(?<![\w-])[a-z][a-z0-9]*(?:_[a-z0-9]+)+\b(?!\.\d)")
# Names that are no name of this repository: directives of a later pioasm, which FAULTS and SPECIFICATION refuse.
FOREIGN = {"clock_div", "mov_status"}
NUMBERS = "zero one two three four five six seven eight nine ten eleven twelve thirteen fourteen fifteen sixteen seventeen eighteen nineteen twenty".split()


def text_of(name):
    return (TOP / name).read_text()


def line_of(text, at):
    return text.count("\n", 0, at) + 1


def pages_of():
    """All pages of README.md, docs/, the crates, the examples, and the folders of scripts."""
    return [TOP / "README.md", *TOP.glob("docs/*.md"), *TOP.glob("crates/*/README.md"), *TOP.glob("*/README.md"), *TOP.glob("examples/*/*.md")]


def without_code(text):
    """A page without its blocks of code, line by line as it was."""
    return CODE.sub(lambda it: "\n" * it[0].count("\n"), text)


def words_of(text):
    """How many words a text has: what blanks part, and what has a letter or a digit."""
    return sum(any(letter.isalnum() for letter in word) for word in text.split())


def lengths():
    """The words of each page, those of them that aren't in blocks of code, and the sums."""
    groups = {
        "README and docs": [TOP / "README.md", *TOP.glob("docs/*.md")],
        "examples, tools, crosscheck, bench": [it for name in ("examples", "tools", "crosscheck", "bench") for it in TOP.glob(f"{name}/**/*.md")],
        "crates": [*TOP.glob("crates/README.md"), *TOP.glob("crates/*/README.md")],
    }
    for name, pages in groups.items():
        counts = [(words_of(text), words_of(without_code(text)), page) for page in sorted(pages) for text in [page.read_text()]]
        yield from (f"{count:7}{prose:7}  {page.relative_to(TOP)}" for count, prose, page in counts)
        yield f"{sum(it[0] for it in counts):7}{sum(it[1] for it in counts):7}  {name}"


class Crates:
    """What crates.txt says: the storeys in order, each with its crates, and what each crate uses of the repository."""

    def __init__(self):
        self.storeys, self.uses, self.storey_of = {}, {}, {}
        for line in text_of("crates.txt").splitlines():
            heading = re.match(r"# (\w[\w ]*): ", line)
            if heading and heading[1] != "NAME":
                self.storeys[heading[1]] = []
            elif re.match(r"\w+:", line):
                name, _, uses = line.partition(":")
                self.uses[name] = uses.split()
                self.storey_of[name] = list(self.storeys)[-1]
                self.storeys[self.storey_of[name]].append(name)
        self.order = list(self.uses)
        for name, uses in self.uses.items():
            self.uses[name] = [it for it in uses if it in self.uses]

    def above(self, name):
        """This crate and every crate that uses it, or one that does."""
        found = {name}
        for it in self.order:
            if found & set(self.uses[it]):
                found.add(it)
        return found


def paid():
    """The CPU seconds of each crate for proof, tests and edits, by bench/costs.txt, which is of an earlier commit."""
    rows = re.findall(r"^\| `(\w+)` \| (\d+) \| (\d+) \| (\d+) \|$", text_of("bench/costs.txt"), re.M)
    return {name: tuple(map(int, seconds)) for name, *seconds in rows}


def proved_again(crates):
    """What a change of each crate proves again: its CPU minutes and its crates."""
    seconds = paid()
    found = {}
    for name in crates.order:
        again = crates.above(name)
        found[name] = round(sum(sum(seconds.get(it, (0,))) for it in again) / 60), len(again)
    return found


def costs():
    """The same in a row for each storey, the dearest first."""
    crates = Crates()
    found = proved_again(crates)
    for storey, names in crates.storeys.items():
        dearest = sorted(names, key=lambda name: (-found[name][0], name))
        yield f"| {storey} | " + ", ".join(f"`{name}` {found[name][0]} ({found[name][1]})" for name in dearest) + " |"


def of_crates(crates):
    folders = {it.parent.name for it in TOP.glob("crates/*/src")}
    for name in sorted(folders ^ set(crates.order)):
        yield "crates.txt", 1, f"{name} is in only one of crates.txt and crates/"
    for number, name in enumerate(crates.order):
        for it in crates.uses[name]:
            if crates.order.index(it) > number:
                yield "crates.txt", 1, f"{name} uses {it}, which comes after it"
            if crates.storey_of[it] == "Language" and crates.storey_of[name] not in ("Language", "Commands", "Tests"):
                yield "crates.txt", 1, f"{name} uses {it}, which is of the language"
    page = text_of("docs/ARCHITECTURE.md")
    parts = re.split(r"^### ", page, flags=re.M)[1:]
    told = {part.partition("\n")[0]: re.findall(r"^\| `(\w+)` \|", part.partition("\n## ")[0], re.M) for part in parts}
    if list(told) != list(crates.storeys):
        yield "docs/ARCHITECTURE.md", 1, f"its storeys are {', '.join(told)}, and those of crates.txt {', '.join(crates.storeys)}"
    for storey, names in crates.storeys.items():
        if storey in told and told[storey] != names:
            yield "docs/ARCHITECTURE.md", 1, f"its crates of {storey} aren't those of crates.txt, in their order: {' '.join(names)}"
    list_of = re.findall(r"^\| (\w[\w ]*) \| .* \| (\[`.*) \|$", text_of("crates/README.md"), re.M)
    if [(storey, re.findall(r"`(\w+)`", names)) for storey, names in list_of] != list(crates.storeys.items()):
        yield "crates/README.md", 1, "its storeys and crates aren't those of crates.txt, in their order"
    for name in crates.order:
        own = TOP / "crates" / name / "README.md"
        if not own.is_file() or not re.match(rf"# `?{name}`?\n", own.read_text()):
            yield f"crates/{name}/README.md", 1, "isn't there, or isn't headed by the crate's name"


def of_names(crates):
    """Names in code marks that are nowhere in the repository; folders of crates that aren't there."""
    known = set(FOREIGN)
    for path in TOP.rglob("*"):
        inside = path.relative_to(TOP).parts
        if path.is_file() and path.suffix != ".md" and not {".git", "out", "dist", "docs", "__pycache__"} & set(inside):
            known.add(path.stem)
            known.update(re.findall(r"[A-Za-z_]\w*", path.read_text(errors="replace")))
    for path in pages_of():
        page, prose = str(path.relative_to(TOP)), without_code(path.read_text())
        for it in re.finditer(r"\bcrates/(\w+)", prose):
            if it[1] not in ("NAME", "README") and it[1] not in crates.uses:
                yield page, line_of(prose, it.start()), f"no crate has the name {it[1]}"
        # (that page names what the SDK has)
        for it in SPAN.finditer(prose) if page not in ("docs/FROM_THE_SDK.md", "docs/SETUP_BY_HAND.md") else ():
            for name in NAME.findall(it[1]):
                if name not in known:
                    yield page, line_of(prose, it.start()), f"{name} is nowhere in the repository"


def places_of(text):
    """The places of a page that a link can name: its headings, in the form that viewers of Markdown give them."""
    found = {}
    for heading in re.findall(r"^#+ (.*)$", without_code(text), re.M):
        place = re.sub(r"[^\w\s-]", "", heading.strip().lower()).replace(" ", "-")
        found[place] = found.get(place, -1) + 1
    return {f"{place}-{number}" if number else place for place, most in found.items() for number in range(most + 1)}


def of_links(crates):
    """Links to a file, or to a place in a page, that isn't there."""
    for path in dict.fromkeys(pages_of()):
        prose = without_code(path.read_text())
        for it in LINK.finditer(prose):
            name, _, place = it[1].partition("#")
            to = (path.parent / name).resolve() if name else path
            if "://" not in it[1] and (not to.exists() or place and place not in places_of(to.read_text())):
                yield str(path.relative_to(TOP)), line_of(prose, it.start()), f"no {it[1]}"


def of_paths(crates):
    """Files that docs/ARCHITECTURE.md and docs/PROVING_A_PROGRAM.md send a reader to."""
    for page in ("docs/ARCHITECTURE.md", "docs/PROVING_A_PROGRAM.md"):
        text, folder = text_of(page), None
        for it in SPAN.finditer(text):
            path = it[1].removeprefix("crates/")
            crate, slash, rest = path.partition("/")
            at = line_of(text, it.start())
            if slash and crate in crates.uses:
                found = TOP / "crates" / path.rstrip("/")
                folder = found if path.endswith("/") else found.parent
                if not found.exists():
                    yield page, at, f"{path} isn't there"
            elif re.fullmatch(r"\w+\.(antt|rt)", path) and page == "docs/ARCHITECTURE.md" and folder:
                if not (folder / path).is_file() and not list(TOP.glob(f"crates/*/*/{path}")):
                    yield page, at, f"{path} isn't there"


def of_borders(crates):
    """The lemmas that proofs cite across a border, by the table of docs/ARCHITECTURE.md."""
    cited = {}
    for path in TOP.glob("crates/*/*/**/*"):
        if path.suffix in (".antt", ".rt") and "out" not in path.parts:
            own = path.relative_to(TOP).parts[1]
            for of, lemmas in re.findall(r"\bRattle\.(\w+)\.proofs\.(\w+)", path.read_text()):
                if of != own and of in crates.uses:
                    cited.setdefault((of, lemmas), set()).add(own)
    page, told = "docs/ARCHITECTURE.md", {}
    for names, of, users in re.findall(r"^\| ((?:`[A-Z]\w+`(?:, | and )?)+) of `(\w+)`.*\| (.*) \|$", text_of(page), re.M):
        for name in re.findall(r"\w+", names.replace(" and ", " ")):
            told[of, name] = set(re.findall(r"\w+", users))
    for of, names in sorted({(of, frozenset(name for it, name in told if it == of)) for of, _ in told}):
        found = set().union(*(cited.get((of, name), set()) for name in names))
        wanted = set().union(*(told[of, name] for name in names))
        if found != wanted:
            yield page, 1, f"the lemmas {', '.join(sorted(names))} of {of} are cited by {', '.join(sorted(found))}"
    for of, name in sorted(set(cited) - set(told)):
        yield page, 1, f"the lemmas {name} of {of}, which {', '.join(sorted(cited[of, name]))} cite, have no row"


def of_counts(crates):
    page, text = "bench/GATE.md", text_of("bench/GATE.md")
    seconds = paid()
    sums = [sum(it[kind] for it in seconds.values()) for kind in range(3)]
    told = re.search(r"^\| all \| (\d+) \| (\d+) \| (\d+) \|$", text_of("bench/costs.txt"), re.M)
    if not told or sums != [int(it) for it in told.groups()]:
        yield "bench/costs.txt", 1, f"its columns sum to {sums}"
    minutes = [round(sum(sums) / 60), *(round(it / 60) for it in sums)]
    said = re.search(r"sums to (\d+) CPU minutes: (\d+) for proofs, (\d+) for tests and (\d+) for edits", text)
    if not said or minutes != [int(it) for it in said.groups()]:
        yield page, 1, f"the table sums to {minutes[0]} CPU minutes: {minutes[1]}, {minutes[2]} and {minutes[3]}"
    edits = {it.stem for it in TOP.glob("crates/*/must-fail/*.edit")}
    count = len(list(TOP.glob("crates/*/must-fail/*.edit")))
    kept = re.search(r"^\| edits \| (\d+) in (\d+) crates", text, re.M)
    if not kept or [int(it) for it in kept.groups()] != [count, len({it.parent for it in TOP.glob('crates/*/must-fail/*.edit')})]:
        yield page, 1, f"there are {count} edits, in {len({it.parent for it in TOP.glob('crates/*/must-fail/*.edit')})} crates"
    bugs = len(list(TOP.glob("crosscheck/own_bugs/*/*.edit")))
    if f"| {bugs} bugs in `crosscheck/own_bugs`" not in text:
        yield page, 1, f"there are {bugs} bugs in crosscheck/own_bugs"
    page, text = "docs/CONTRIBUTING.md", text_of("docs/CONTRIBUTING.md")
    part = re.search(r"^## (\w+) wrong programs\n(.*?)^## ", text, re.M | re.S)
    rows = [it for it in part[2].splitlines() if it.startswith("| ") and not it.startswith(("| A program", "| |"))] if part else []
    if not part or len(rows) >= len(NUMBERS) or part[1].lower() != NUMBERS[len(rows)]:
        yield page, 1, f"the wrong programs are {len(rows)}"
    for row in part[2].splitlines() if part else ():
        names = row.rpartition(" | ")[2]
        for name in re.findall(r"`(\w+)`", names) if "the run" not in names else ():
            if name not in edits:
                yield page, 1, f"no edit has the name {name}"
    page, text = "docs/ARCHITECTURE.md", text_of("docs/ARCHITECTURE.md")
    if f"a house of {NUMBERS[len(crates.storeys)]} storeys" not in text:
        yield page, 1, f"the storeys are {len(crates.storeys)}"
    for data in sorted(TOP.glob("crates/*_rows/data")):
        args = str(data.relative_to(TOP).parent / "args")
        listed = text_of(args).split()
        found = sorted(str(it.relative_to(data)) for it in data.glob("**/*.rows"))
        if sorted(listed) != found:
            yield args, 1, f"the tables are {' '.join(sorted(set(listed) ^ set(found)))}"
    for name in crates.order:
        if any("#[test]" in path.read_text() for path in TOP.glob(f"crates/{name}/src/**/*.rt")):
            yield page, 1, f"{name} has tests: what they ask are rows of a program of rows"
    part = text.partition("## What a change proves again")[2]
    again = proved_again(crates)
    for name, minutes, count in re.findall(r"`(\w+)` (\d+)(?: minutes)? \((\d+)(?: crates)?\)", part):
        if (int(minutes), int(count)) != again.get(name):
            yield page, line_of(text, len(text) - len(part)), f"a change of {name} proves again {again.get(name)}"


def of_version(crates):
    version = text_of("VERSION").strip()
    for path in [TOP / "README.md", *TOP.glob("docs/*.md"), *TOP.glob("packaging/*.md")]:
        text = path.read_text()
        for it in re.finditer(r"piotool[-_](\d+\.\d+\.\d+)", text):
            if it[1] != version:
                yield str(path.relative_to(TOP)), line_of(text, it.start()), f"the version is {version}"
    if not re.search(rf"^## {re.escape(version)}$", text_of("CHANGELOG.md"), re.M):
        yield "CHANGELOG.md", 1, f"has no part {version}"


def findings():
    """What is wrong: the page, its line, and what it is."""
    crates = Crates()
    for ask in (of_crates, of_names, of_links, of_paths, of_borders, of_counts, of_version):
        yield from ask(crates)
