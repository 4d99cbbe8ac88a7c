"""The statements of a source with the places of their parts, from the written rules (docs/SPECIFICATION.md, "Statements").

A statement that is none has the token with which no statement goes on. No value is worked out: the program does that.
"""

from dataclasses import dataclass, field
from typing import Optional

from piotool.lint_tokens import Bad, Token, Tokens

DIRECTIVES = frozenset(".program .define .origin .side_set .wrap_target .wrap .word .lang_opt .pio_version".split())
KINDS = ("nop", "jmp", "wait", "in", "out", "push", "pull", "mov", "irq", "set")
IN_SOURCES = ("pins", "x", "y", "null", "isr", "osr")
OUT_PLACES = ("pins", "x", "y", "null", "pindirs", "pc", "isr", "exec")
MOV_PLACES = ("pins", "x", "y", "exec", "pc", "isr", "osr")
MOV_SOURCES = ("pins", "x", "y", "null", "status", "isr", "osr")
SET_PLACES = ("pins", "x", "y", "pindirs")
MOST_OPEN = 64


class Stop(Exception):
    """A line is no statement: its code, and the place."""

    def __init__(self, code: str, column: int) -> None:
        super().__init__(code)
        self.code, self.column = code, column


@dataclass
class Statement:
    """A line's statement: its first token, the name that it makes, its expressions by what they are, and its instruction."""

    first: Token
    bad: Optional[Bad] = None
    directive: Optional[Token] = None
    name: Optional[Token] = None
    code: Optional[Token] = None  # the first token of an instruction, or `.word`
    side: Optional[Token] = None
    opt: bool = False
    parts: dict[str, list[Token]] = field(default_factory=dict)  # the tokens of each expression

    @property
    def is_word(self) -> bool:
        """Whether it makes a word of its program."""
        return self.code is not None


class Reader:
    """Reads the statement of one line."""

    def __init__(self, tokens: list[Token], end: int) -> None:
        self.tokens, self.place, self.end, self.open = tokens, 0, end, 0
        self.is_reversed = False  # whether `::` is the token before
        self.said = Statement(tokens[0])
        try:
            self.statement()
        except Stop as stop:
            self.said.bad = Bad(stop.code, tokens[0].line, stop.column)

    # Tokens.

    def column(self) -> int:
        """The column of the next token, or of the end."""
        return self.tokens[self.place].column if self.place < len(self.tokens) else self.end

    def peek(self, kind: str, *texts: str) -> Optional[Token]:
        """The next token, where it is of this kind, and one of these."""
        it = self.tokens[self.place] if self.place < len(self.tokens) else None
        return it if it and it.kind == kind and (not texts or it.text in texts) else None

    def take(self, kind: str, *texts: str) -> Optional[Token]:
        """The same, which is taken."""
        it = self.peek(kind, *texts)
        self.place += it is not None
        return it

    def need(self, kind: str, *texts: str) -> Token:
        """The same, without which no statement goes on."""
        it = self.take(kind, *texts)
        if it is None:
            raise Stop("S1", self.column())
        return it

    # Expressions.

    def expression(self, what: str) -> None:
        """An expression, which is kept by what it is."""
        first, self.open = self.place, 0
        self.level()
        self.said.parts[what] = self.tokens[first : self.place]

    def opened(self, column: int) -> None:
        """A sign or a parenthesis is open now."""
        self.open += 1
        if self.open > MOST_OPEN:
            raise Stop("V5", column)

    def level(self) -> None:
        """What stands in a parenthesis, or in the whole."""
        reverse: Optional[Token] = None
        operates, is_value_next = False, True
        signs = 0
        while True:
            column = self.column()
            if is_value_next and self.peek("sign", "-", "::") is not None:
                is_reverse = self.peek("sign", "::")
                if reverse is not None and self.is_reversed:
                    raise Stop("S1", column)
                self.place += 1
                self.opened(column)
                signs += 1
                reverse, operates = is_reverse or reverse, operates or is_reverse is None
                self.is_reversed = is_reverse is not None
            elif is_value_next:
                self.value(column)
                self.is_reversed, is_value_next, self.open, signs = False, False, self.open - signs, 0
            elif self.take("sign", "+", "-", "*", "/"):
                operates, is_value_next = True, True
            else:
                return
            if reverse is not None and operates:
                raise Stop("V6", reverse.column)

    def value(self, column: int) -> None:
        """A number, a name, or a parenthesis."""
        if self.take("number") or self.take("name"):
            return
        self.need("sign", "(")
        self.opened(column)
        kept, self.is_reversed = self.is_reversed, False
        self.level()
        self.is_reversed = kept
        self.need("sign", ")")
        self.open -= 1

    # Statements.

    def statement(self) -> None:
        """The whole line."""
        said = self.said
        foreign = next((it for it in self.tokens if it.kind == "directive" and it.text not in DIRECTIVES), None)
        if foreign:
            raise Stop("S11", foreign.column)
        if (it := self.peek("directive")) and it.text != ".word":
            self.place += 1
            said.directive = it
            self.after_directive(it.text)
        else:
            if self.peek("name") or self.peek("keyword", "public"):
                self.take("keyword", "public")
                said.name = self.need("name")
                self.need("sign", ":")
            if said.name is None or self.place < len(self.tokens):
                self.instruction()
        if self.place < len(self.tokens):
            raise Stop("S1", self.column())

    def after_directive(self, text: str) -> None:
        """What follows a directive."""
        if text in (".program", ".define"):
            self.take("keyword", "public") if text == ".define" else None
            self.said.name = self.need("name")
        if text in (".define", ".origin", ".pio_version", ".side_set"):
            self.expression(text[1:])
        if text == ".side_set":
            self.said.opt = self.take("keyword", "opt") is not None
            self.take("keyword", "pindirs")

    def instruction(self) -> None:
        """An instruction with its side-set and its delay, or a `.word`."""
        said = self.said
        said.code = self.take("directive", ".word")
        if said.code:
            return self.expression("word")
        said.code = self.need("keyword", *KINDS)
        getattr(self, f"form_{said.code.text}")()
        while True:
            if "side" not in said.parts and (it := self.take("keyword", "side")):
                said.side = it
                self.expression("side")
            elif "delay" not in said.parts and self.take("sign", "["):
                self.expression("delay")
                self.need("sign", "]")
            else:
                return None

    def form_nop(self) -> None:
        """NOP has no operands."""

    def form_jmp(self) -> None:
        """JMP."""
        first = self.place
        if self.take("sign", "!", "~"):
            self.need("keyword", "x", "y", "osre")
        elif it := self.take("keyword", "x", "y"):
            if it.text == "y" or not self.take("sign", "!="):
                self.need("sign", "--")
            else:
                self.need("keyword", "y")
        else:
            self.take("keyword", "pin")
        if self.place > first:
            self.take("sign", ",")
        self.expression("jmp")

    def form_wait(self) -> None:
        """WAIT."""
        self.expression("polarity")
        source = self.need("keyword", "gpio", "pin", "irq")
        self.take("sign", ",")
        self.expression("index")
        if source.text == "irq":
            self.take("keyword", "rel")

    def moved(self, places: tuple[str, ...], what: str) -> None:
        """A place and a number."""
        self.need("keyword", *places)
        self.take("sign", ",")
        self.expression(what)

    def form_in(self) -> None:
        """IN."""
        self.moved(IN_SOURCES, "count")

    def form_out(self) -> None:
        """OUT."""
        self.moved(OUT_PLACES, "count")

    def form_set(self) -> None:
        """SET."""
        self.moved(SET_PLACES, "data")

    def form_push(self) -> None:
        """PUSH."""
        self.take("keyword", "iffull")
        self.take("keyword", "block", "noblock")

    def form_pull(self) -> None:
        """PULL."""
        self.take("keyword", "ifempty")
        self.take("keyword", "block", "noblock")

    def form_mov(self) -> None:
        """MOV."""
        self.need("keyword", *MOV_PLACES)
        self.take("sign", ",")
        self.take("sign", "!", "~", "::")
        self.need("keyword", *MOV_SOURCES)

    def form_irq(self) -> None:
        """IRQ."""
        self.take("keyword", "set", "nowait", "wait", "clear")
        self.expression("index")
        self.take("keyword", "rel")


class Source:
    """A source's statements by line, and the statements that make the words of each program."""

    def __init__(self, text: str) -> None:
        self.text, tokens = text, Tokens(text)
        self.bad, self.tokens = tokens.bad, tokens.lines
        ends = [len(line) for line in text.split("\n")]
        self.statements = [Reader(it, self.end_of(it, ends)).said for it in tokens.lines if it]
        self.at = {it.first.line: it for it in self.statements}
        self.words: dict[str, list[Statement]] = {}
        self.heads: dict[str, Statement] = {}
        name = None
        for it in self.statements:
            if it.directive and it.directive.text == ".program" and it.name:
                name = it.name.text
                self.heads.setdefault(name, it)
                self.words.setdefault(name, [])
            elif it.is_word and name is not None:
                self.words[name].append(it)

    @staticmethod
    def end_of(tokens: list[Token], ends: list[int]) -> int:
        """The column after the last token, within its line."""
        last = tokens[-1]
        return min(last.column + len(last.text), ends[last.line - 1] + 1)

    def rule_at(self, line: int) -> Optional[Statement]:
        """The `.side_set` under which a line stands, or none."""
        rule = None
        for it in self.statements:
            if it.first.line > line:
                break
            if it.directive and it.directive.text == ".program":
                rule = None
            elif it.directive and it.directive.text == ".side_set":
                rule = it
        return rule
