"""The language of the sources, from its written rules (docs/SPECIFICATION.md): tokens, statements, values, words, texts.

It shares no code and no form with the crates: one recursive descent over a line, and values by recursion with the names that
are under way.
"""

import re

KEYWORDS = set(
    """nop jmp wait in out push pull mov irq set iffull if_full ifempty if_empty block noblock pins pindirs pin gpio x y null
    isr osr osre exec pc status rel clear nowait side sideset side_set opt optional public""".split()
)
SPELLINGS = {
    "if_full": "iffull",
    "if_empty": "ifempty",
    "sideset": "side",
    "side_set": "side",
    "optional": "opt",
}
DIRECTIVES = {
    ".program",
    ".define",
    ".origin",
    ".side_set",
    ".wrap_target",
    ".wrap",
    ".word",
    ".lang_opt",
    ".pio_version",
}
SIGNS = [b"::", b"--", b"!=", *(bytes([sign]) for sign in b",:[]()+-*/!~")]
NAME = re.compile(rb"[A-Za-z_][A-Za-z0-9_]*")
NUMBER = re.compile(rb"[0-9][A-Za-z0-9_]*")
BLOCK_OPENS = re.compile(rb"%[ \t\r]*[A-Za-z0-9_-]+[ \t\r]*\{")
BLOCK_CLOSES = re.compile(rb"[ \t\r]*%\}")
MOST_OPEN = 64
LIMIT = 2**31

CONDITIONS = ["", "!x", "x--", "!y", "y--", "x!=y", "pin", "!osre"]
WAIT_SOURCES = ["gpio", "pin", "irq"]
IN_SOURCES = {"pins": 0, "x": 1, "y": 2, "null": 3, "isr": 6, "osr": 7}
OUT_DESTINATIONS = {"pins": 0, "x": 1, "y": 2, "null": 3, "pindirs": 4, "pc": 5, "isr": 6, "exec": 7}
MOV_DESTINATIONS = {"pins": 0, "x": 1, "y": 2, "exec": 4, "pc": 5, "isr": 6, "osr": 7}
MOV_SOURCES = {"pins": 0, "x": 1, "y": 2, "null": 3, "status": 5, "isr": 6, "osr": 7}
SET_DESTINATIONS = {"pins": 0, "x": 1, "y": 2, "pindirs": 4}


class Fault(Exception):
    """The first fault of a source: its line, its code, and what is told after it."""

    def __init__(self, line, code, detail=""):
        super().__init__(f"line {line}: {code}" + (f" {detail}" if detail != "" else ""))


class Refused(Exception):
    """A line that is no statement, by the code of its fault."""


class NoValue(Exception):
    """An expression without a value: the code, and a name where it tells one."""


# Tokens: a kind, a text or a value, and a line.


def tokens_of(source):
    place, line, tokens, is_fresh = 0, 1, [], True
    while place < len(source):
        byte = source[place : place + 1]
        if byte in b" \t\r":
            place += 1
        elif byte == b"\n":
            tokens.append(("newline", "", line))
            place, line, is_fresh = place + 1, line + 1, True
        elif byte == b";" or source.startswith(b"//", place):
            place = end_of_line(source, place)
        elif source.startswith(b"/*", place):
            end = source.find(b"*/", place + 2)
            if end < 0:
                raise Fault(line, "L3")
            line += source.count(b"\n", place, end)
            place = end + 2
        elif byte == b"%" and is_fresh:
            place, line = after_block(source, place, line)
        else:
            token, place = token_at(source, place, line)
            tokens.append(token)
            is_fresh = False
            if token[1] == ".lang_opt":
                place = end_of_line(source, place)
    return tokens


def end_of_line(source, place):
    end = source.find(b"\n", place)
    return len(source) if end < 0 else end


def after_block(source, place, line):
    opens = BLOCK_OPENS.match(source, place, end_of_line(source, place))
    if not opens:
        raise Fault(line, "L1")
    first, place = line, end_of_line(source, place)
    while place < len(source):
        line, begin = line + 1, place + 1
        place = end_of_line(source, begin)
        if BLOCK_CLOSES.match(source, begin, place):
            return place, line
    raise Fault(first, "L4")


def token_at(source, place, line):
    if source[place : place + 1] == b".":
        name = NAME.match(source, place + 1)
        if not name:
            raise Fault(line, "L1")
        return ("directive", "." + name.group().decode().lower(), line), name.end()
    if name := NAME.match(source, place):
        text = name.group().decode()
        keyword = text.lower()
        is_keyword = keyword in KEYWORDS
        token = ("keyword", SPELLINGS.get(keyword, keyword), line) if is_keyword else ("name", text, line)
        return token, name.end()
    if number := NUMBER.match(source, place):
        return ("number", value_of_number(number.group().decode(), line), line), number.end()
    for sign in SIGNS:
        if source.startswith(sign, place):
            return ("sign", sign.decode(), line), place + len(sign)
    raise Fault(line, "L1")


def value_of_number(text, line):
    for form, base, skipped in ((r"[0-9]+", 10, 0), (r"0[xX][0-9a-fA-F]+", 16, 2), (r"0[bB][01]+", 2, 2)):
        if re.fullmatch(form, text) and int(text[skipped:], base) < LIMIT:
            return int(text[skipped:], base)
    raise Fault(line, "L2")


# Statements: one line's tokens, read with one token of look-ahead.


class Level:
    """A level of parentheses: whether it holds a sign or an operation, and whether it holds `::`."""

    def __init__(self):
        self.operates = self.reverses = False

    def operate(self):
        self.operates = True
        self.check()

    def reverse(self):
        self.reverses = True
        self.check()

    def check(self):
        if self.operates and self.reverses:
            raise Refused("V6")


class Line:
    def __init__(self, tokens):
        self.tokens, self.place, self.open = tokens, 0, 0

    def peek(self):
        return self.tokens[self.place][:2] if self.place < len(self.tokens) else ("end", "")

    def take(self):
        self.place += 1
        return self.tokens[self.place - 1][1]

    def takes(self, kind, *texts):
        """The next token, where it is one of these."""
        if self.peek()[0] == kind and self.peek()[1] in texts:
            return self.take()
        return None

    def keyword(self, *texts):
        return self.takes("keyword", *texts)

    def sign(self, *texts):
        return self.takes("sign", *texts)

    @staticmethod
    def needed(found):
        if found is None:
            raise Refused("S1")
        return found

    def name(self):
        return self.needed(self.take() if self.peek()[0] == "name" else None)

    # Expressions.

    def expression(self):
        self.open = 0
        return self.sum(Level())

    def sum(self, level):
        left = self.product(level)
        while operation := self.sign("+", "-"):
            level.operate()
            left = (operation, left, self.product(level))
        return left

    def product(self, level):
        left = self.unary(level)
        while operation := self.sign("*", "/"):
            level.operate()
            left = (operation, left, self.unary(level))
        return left

    def opens(self):
        self.open += 1
        if self.open > MOST_OPEN:
            raise Refused("V5")

    def unary(self, level):
        if self.sign("-"):
            self.opens()
            level.operate()
            value = ("negated", self.unary(level))
        elif self.sign("::"):
            self.opens()
            level.reverse()
            value = ("reversed", self.value())
        else:
            return self.value()
        self.open -= 1
        return value

    def value(self):
        kind, text = self.peek()
        if kind in ("number", "name"):
            self.take()
            return (kind, text)
        self.needed(self.sign("("))
        self.opens()
        value = self.sum(Level())
        self.needed(self.sign(")"))
        self.open -= 1
        return value

    # Instructions: a kind, its words, and its operands in order, each with what it is and its range.

    def instruction(self):
        kind = self.needed(
            self.keyword("nop", "jmp", "wait", "in", "out", "push", "pull", "mov", "irq", "set")
        )
        code = {"kind": kind, "operands": [], "rel": False}
        getattr(self, "form_" + kind)(code)
        while True:
            told = [what for what, *_ in code["operands"]]
            if "side" not in told and self.keyword("side"):
                code["operands"].append(("side", self.expression(), None))
            elif "delay" not in told and self.sign("["):
                code["operands"].append(("delay", self.expression(), None))
                self.needed(self.sign("]"))
            else:
                return code

    def operand(self, code, what, least, most):
        code["operands"].append((what, self.expression(), (least, most)))

    def form_nop(self, code):
        pass

    def form_jmp(self, code):
        code["condition"] = self.condition()
        if code["condition"]:
            self.sign(",")
        self.operand(code, "jmp", 0, 31)

    def condition(self):
        if self.sign("!", "~"):
            return "!" + self.needed(self.keyword("x", "y", "osre"))
        if self.keyword("pin"):
            return "pin"
        if self.keyword("y"):
            return "y" + self.needed(self.sign("--"))
        if self.keyword("x"):
            if self.sign("--"):
                return "x--"
            return "x" + self.needed(self.sign("!=")) + self.needed(self.keyword("y"))
        return ""

    def form_wait(self, code):
        self.operand(code, "polarity", 0, 1)
        code["source"] = self.needed(self.keyword(*WAIT_SOURCES))
        self.sign(",")
        self.operand(code, "index", 0, 7 if code["source"] == "irq" else 31)
        code["rel"] = code["source"] == "irq" and self.keyword("rel") is not None

    def form_in(self, code):
        code["place"] = self.needed(self.keyword(*IN_SOURCES))
        self.sign(",")
        self.operand(code, "count", 1, 32)

    def form_out(self, code):
        code["place"] = self.needed(self.keyword(*OUT_DESTINATIONS))
        self.sign(",")
        self.operand(code, "count", 1, 32)

    def form_push(self, code):
        code["conditional"] = self.keyword("iffull" if code["kind"] == "push" else "ifempty") is not None
        code["blocks"] = self.keyword("block", "noblock") != "noblock"

    form_pull = form_push

    def form_mov(self, code):
        code["destination"] = self.needed(self.keyword(*MOV_DESTINATIONS))
        self.sign(",")
        code["operation"] = {None: 0, "!": 1, "~": 1, "::": 2}[self.sign("!", "~", "::")]
        code["source"] = self.needed(self.keyword(*MOV_SOURCES))

    def form_irq(self, code):
        mode = self.keyword("set", "nowait", "wait", "clear")
        code["mode"] = {"wait": 32, "clear": 64}.get(mode, 0)
        self.operand(code, "index", 0, 7)
        code["rel"] = self.keyword("rel") is not None

    def form_set(self, code):
        code["destination"] = self.needed(self.keyword(*SET_DESTINATIONS))
        self.sign(",")
        self.operand(code, "data", 0, 31)

    def code(self):
        if self.takes("directive", ".word"):
            return {"kind": ".word", "operands": [("word", self.expression(), (0, 65535))]}
        return self.instruction()

    def statement(self):
        kind, text = self.peek()
        if kind == "directive" and text != ".word":
            said = self.directive(self.take())
        elif kind == "name" or text == "public":
            said = {"kind": "label", "public": self.keyword("public") is not None, "name": self.name()}
            self.needed(self.sign(":"))
            said["code"] = None if self.peek()[0] == "end" else self.code()
        else:
            said = {"kind": "code", "code": self.code()}
        if self.peek()[0] != "end":
            raise Refused("S1")
        return said

    def directive(self, kind):
        said = {"kind": kind}
        if kind == ".program":
            said["name"] = self.name()
        elif kind == ".define":
            said["public"] = self.keyword("public") is not None
            said["name"], said["expression"] = self.name(), self.expression()
        elif kind in (".origin", ".pio_version", ".side_set"):
            said["expression"] = self.expression()
            if kind == ".side_set":
                said["opt"] = self.keyword("opt") is not None
                said["pindirs"] = self.keyword("pindirs") is not None
        return said


def statements_of(source):
    """Each line that isn't empty, with its statement or the code of its fault."""
    lines, tokens = [], []
    for token in tokens_of(source) + [("newline", "", 0)]:
        if token[0] != "newline":
            tokens.append(token)
        elif tokens:
            lines.append((tokens[0][2], statement_of(tokens)))
            tokens = []
    return lines


def statement_of(tokens):
    if any(kind == "directive" and text not in DIRECTIVES for kind, text, _ in tokens):
        return "S11"
    try:
        return Line(tokens).statement()
    except Refused as refused:
        return str(refused)


# Programs.


class Program:
    def __init__(self, name):
        self.name, self.symbols, self.words, self.lines = name, {}, [], []
        self.origin = self.first = self.last = None
        self.bits, self.opt, self.pindirs = 0, False, False
        # What is known of it while its statements are looked at.
        self.seen, self.said, self.side_asked, self.count = set(), set(), None, 0


def is_word(statement):
    return isinstance(statement, str) or statement.get("code") is not None


def programs_of(source):
    """The programs of a source, or its first fault."""
    lines = statements_of(source)
    homes, home = [], None
    for line, statement in lines:
        if isinstance(statement, dict) and statement["kind"] == ".program":
            home = Program(statement["name"])
        if home:
            home.lines.append((line, is_word(statement)))
        homes.append(home)
    check_statements(lines, homes)
    return Meaning(lines, homes).programs


def check_statements(lines, homes):
    names, global_names, count, programs = set(), set(), 0, 0
    for (line, statement), home in zip(lines, homes):
        if isinstance(statement, str):
            raise Fault(line, statement)
        kind, faults = statement["kind"], {}
        if home is None and kind not in (".define", ".lang_opt", ".pio_version"):
            faults["S2"] = ""
        if kind == ".program":
            programs += 1
            if statement["name"] in names:
                faults["S5"] = statement["name"]
            if programs > 64:
                faults["S12"] = ""
            if not any(counts for _, counts in home.lines):
                faults["S10"] = ""
            names.add(statement["name"])
        if home and kind in (".origin", ".side_set", ".wrap_target", ".wrap"):
            if kind in home.seen:
                faults["S3"] = ""
            home.seen.add(kind)
        if home and kind == ".side_set":
            if home.count > 0:
                faults["S4"] = ""
            home.side_asked = not statement["opt"]
        if home and kind == ".wrap" and not any(counts for at, counts in home.lines if at < line):
            faults["S13"] = ""
        if home and kind == ".wrap_target" and not any(counts for at, counts in home.lines if at > line):
            faults["S13"] = ""
        if kind in (".define", "label"):
            known = home.said if home else global_names
            if statement["name"] in known:
                faults["S5"] = statement["name"]
            else:
                known.add(statement["name"])
                count += 1
                if count > 1024:
                    faults["S12"] = ""
        if home and statement.get("code"):
            faults.update(faults_of_code(statement["code"], home))
        for code in ("S2", "S3", "S4", "S5", "S13", "S12", "S6", "S8", "S9", "S10"):
            if code in faults:
                raise Fault(line, code, faults[code])


def faults_of_code(code, home):
    faults = {}
    home.count += 1
    if home.count > 32:
        faults["S6"] = ""
    says_side = any(what == "side" for what, *_ in code["operands"])
    if code["kind"] != ".word" and home.side_asked is True and not says_side:
        faults["S8"] = ""
    if home.side_asked is None and says_side:
        faults["S9"] = ""
    return faults


class Meaning:
    """The words and symbols of statements without a fault, or the first fault of a value."""

    def __init__(self, lines, homes):
        self.programs, self.global_symbols = [], {}
        self.gather(lines, homes)
        for (line, statement), home in zip(lines, homes):
            self.work_out(line, statement, home)
        for program in self.programs:
            program.publics = [
                (name, self.value(("name", name), program, ()))
                for name, symbol in program.symbols.items()
                if symbol["public"]
            ]

    def gather(self, lines, homes):
        counts = {}
        for (_, statement), home in zip(lines, homes):
            if statement["kind"] == ".program":
                self.programs.append(home)
            if statement["kind"] in (".define", "label"):
                symbols = home.symbols if home else self.global_symbols
                symbols[statement["name"]] = {
                    "expression": statement.get("expression", ("number", counts.get(home, 0))),
                    "public": statement["public"],
                }
            if statement.get("code"):
                counts[home] = counts.get(home, 0) + 1

    def value(self, expression, program, under_way):
        kind, *parts = expression
        if kind == "number":
            return parts[0]
        if kind == "name":
            return self.value_of_name(parts[0], program, under_way)
        values = [self.value(part, program, under_way) for part in parts]
        if kind == "reversed":
            value = int(f"{values[0] % 2**32:032b}"[::-1], 2)
            return value - 2**32 if value >= LIMIT else value
        if kind == "/":
            if values[1] == 0:
                raise NoValue("V3", "")
            quotient = abs(values[0]) // abs(values[1])
            value = quotient if (values[0] < 0) == (values[1] < 0) else -quotient
        else:
            value = {
                "negated": lambda a: -a,
                "+": lambda a, b: a + b,
                "-": lambda a, b: a - b,
                "*": lambda a, b: a * b,
            }[kind](*values)
        if not -LIMIT <= value < LIMIT:
            raise NoValue("V4", "")
        return value

    def value_of_name(self, name, program, under_way):
        home = program if program and name in program.symbols else None
        symbols = home.symbols if home else self.global_symbols
        if name not in symbols:
            raise NoValue("V1", name)
        if (home, name) in under_way:
            raise NoValue("V2", name)
        return self.value(symbols[name]["expression"], home, (*under_way, (home, name)))

    def checked(self, line, what, expression, limits, program, under_way=()):
        try:
            value = self.value(expression, program, under_way)
        except NoValue as fault:
            raise Fault(line, *fault.args) from None
        if limits and not limits[0] <= value <= limits[1]:
            raise Fault(line, "S7", f"{what} {value}")
        return value

    def work_out(self, line, statement, program):
        kind, expression = statement["kind"], statement.get("expression")
        if kind == ".define":
            self.checked(line, None, expression, None, program, ((program, statement["name"]),))
        elif kind == ".origin":
            program.origin = self.checked(line, "origin", expression, (0, 31), program)
        elif kind == ".pio_version":
            self.checked(line, "pio_version", expression, (0, 0), program)
        elif kind == ".side_set":
            limits = (0, 4 if statement["opt"] else 5)
            program.bits = self.checked(line, "side_set", expression, limits, program)
            program.opt, program.pindirs = statement["opt"], statement["pindirs"]
        elif kind == ".wrap_target":
            program.first = len(program.words)
        elif kind == ".wrap":
            program.last = len(program.words) - 1
        if code := statement.get("code"):
            own_limits = {
                "side": (0, 2**program.bits - 1),
                "delay": (0, 2 ** (5 - program.bits - program.opt) - 1),
            }
            values = {
                what: self.checked(line, what, operand, limits or own_limits[what], program)
                for what, operand, limits in code["operands"]
            }
            program.words.append(word_of(code, values, program))


def word_of(code, values, program):
    kind = code["kind"]
    if kind == ".word":
        return values["word"]
    rel = 16 if code["rel"] else 0
    number, operands = {
        "nop": lambda: (5, 2 << 5 | 2),
        "jmp": lambda: (0, CONDITIONS.index(code["condition"]) << 5 | values["jmp"]),
        "wait": lambda: (
            1,
            values["polarity"] << 7 | WAIT_SOURCES.index(code["source"]) << 5 | values["index"] | rel,
        ),
        "in": lambda: (2, IN_SOURCES[code["place"]] << 5 | values["count"] % 32),
        "out": lambda: (3, OUT_DESTINATIONS[code["place"]] << 5 | values["count"] % 32),
        "push": lambda: (4, code["conditional"] << 6 | code["blocks"] << 5),
        "pull": lambda: (4, 1 << 7 | code["conditional"] << 6 | code["blocks"] << 5),
        "mov": lambda: (
            5,
            MOV_DESTINATIONS[code["destination"]] << 5 | code["operation"] << 3 | MOV_SOURCES[code["source"]],
        ),
        "irq": lambda: (6, code["mode"] | values["index"] | rel),
        "set": lambda: (7, SET_DESTINATIONS[code["destination"]] << 5 | values["data"]),
    }[kind]()
    shared = values.get("delay", 0)
    if "side" in values:
        shared |= values["side"] << (5 - program.bits - program.opt) | (16 if program.opt else 0)
    return number << 13 | shared << 8 | operands


# Texts.


def text_of(word, bits, opt):
    """The text of a word under a side-set rule."""
    delay_bits = 5 - bits - opt
    shared = word >> 8 & 31
    value, delay = shared >> delay_bits & 2**bits - 1, shared & 2**delay_bits - 1
    is_there = shared >> 4 == 1 if opt else bits > 0
    text = text_of_operands(word)
    if text is None or value and not is_there:
        return f".word 0x{word:04x}"
    return text + (f" side {value}" if is_there else "") + (f" [{delay}]" if delay else "")


def text_of_operands(word):
    """The text of an instruction, or none where no text means it."""
    high, low, top = word >> 5 & 7, word & 31, word >> 7 & 1

    def named(table, number):
        return next((name for name, code in table.items() if code == number), None)

    def jmp():
        return f"jmp {CONDITIONS[high]}{', ' if high else ''}{low}"

    def wait():
        source = high & 3
        if source == 3 or source == 2 and low & 8:
            return None
        rel = " rel" if source == 2 and low & 16 else ""
        return f"wait {top} {WAIT_SOURCES[source]} {low & 7 if source == 2 else low}{rel}"

    def shift(kind, table):
        place = named(table, high)
        return place and f"{kind} {place}, {low or 32}"

    def push_or_pull():
        if low:
            return None
        kind, condition = ("pull", " ifempty") if top else ("push", " iffull")
        return kind + (condition if word & 64 else "") + (" block" if word & 32 else " noblock")

    def mov():
        destination, operation, source = (
            named(MOV_DESTINATIONS, high),
            word >> 3 & 3,
            named(MOV_SOURCES, word & 7),
        )
        if destination is None or operation == 3 or source is None:
            return None
        if (destination, operation, source) == ("y", 0, "y"):
            return "nop"
        return f"mov {destination}, {['', '!', '::'][operation]}{source}"

    def irq():
        if top or low & 8 or word & 96 == 96:
            return None
        mode = "clear" if word & 64 else "wait" if word & 32 else "nowait"
        return f"irq {mode} {low & 7}{' rel' if low & 16 else ''}"

    def set_pins():
        destination = named(SET_DESTINATIONS, high)
        return destination and f"set {destination}, {low}"

    forms = [
        jmp,
        wait,
        lambda: shift("in", IN_SOURCES),
        lambda: shift("out", OUT_DESTINATIONS),
        push_or_pull,
        mov,
        irq,
        set_pins,
    ]
    return forms[word >> 13]()


def words_listed(words, bits, opt):
    return "".join(f"{place:02d} {word:04x} {text_of(word, bits, opt)}\n" for place, word in enumerate(words))


def listing(programs):
    text = ""
    for program in programs:
        origin = "none" if program.origin is None else program.origin
        rule = f"{program.bits}" + (" opt" if program.opt else "") + (" pindirs" if program.pindirs else "")
        first = program.first or 0
        last = len(program.words) - 1 if program.last is None else program.last
        text += f"program {program.name} origin {origin} side {rule} wrap {first} {last}\n"
        text += "".join(f"public {name} {value}\n" for name, value in program.publics)
        text += words_listed(program.words, program.bits, program.opt)
    return text
