"""The tokens of a source with their places, from the written rules (docs/SPECIFICATION.md, "Tokens").

The program finds a fault and its line; this finds its column. So a source may be anything, and what begins no token ends the row.
"""

import re
from dataclasses import dataclass
from typing import Optional

KEYWORDS = frozenset(
    """nop jmp wait in out push pull mov irq set iffull if_full ifempty if_empty block noblock pins pindirs pin gpio x y null
    isr osr osre exec pc status rel clear nowait side sideset side_set opt optional public""".split()
)
SPELLINGS = {"if_full": "iffull", "if_empty": "ifempty", "sideset": "side", "side_set": "side", "optional": "opt"}
NAME = re.compile(r"[A-Za-z_][A-Za-z0-9_]*")
NUMBER = re.compile(r"[0-9][A-Za-z0-9_]*")
FORMS = (re.compile(r"0*([0-9]+)"), re.compile(r"0[xX]([0-9a-fA-F]+)"), re.compile(r"0[bB]([01]+)"))
DIRECTIVE = re.compile(r"\.[A-Za-z_][A-Za-z0-9_]*")
SIGN = re.compile(r"::|--|!=|[,:\[\]()+\-*/!~]")
OPENS = re.compile(r"%[ \t\r]*[A-Za-z0-9_-]+[ \t\r]*\{[^\n]*")
CLOSES = re.compile(r"\n[ \t\r]*%\}[^\n]*")
GREATEST = 2**31 - 1


@dataclass(frozen=True)
class Token:
    """A token: `name`, `keyword`, `directive`, `number` or `sign`, its text as it is compared, and where it stands."""

    kind: str
    text: str
    line: int
    column: int


@dataclass(frozen=True)
class Bad:
    """The first fault of the tokens, with its place."""

    code: str
    line: int
    column: int


def number_of(text: str) -> Optional[int]:
    """The value of a number, or none where it has no form or is too large."""
    for form, base in zip(FORMS, (10, 16, 2)):
        if it := form.fullmatch(text):
            digits = it[1].lstrip("0")
            value = int(digits or "0", base) if len(digits) <= 32 else GREATEST + 1
            return value if value <= GREATEST else None
    return None


class Tokens:
    """The lines of tokens of a source, up to the first fault of a token."""

    def __init__(self, text: str) -> None:
        self.text, self.at, self.line, self.begin = text, 0, 1, 0
        self.lines: list[list[Token]] = [[]]
        self.bad: Optional[Bad] = None
        while self.at < len(text) and self.bad is None:
            self.piece()

    def fault(self, code: str) -> None:
        """Ends the row with a fault here."""
        self.bad = Bad(code, self.line, self.at - self.begin + 1)

    def over(self, end: int) -> None:
        """Goes over text, in which lines may end."""
        newlines = self.text.count("\n", self.at, end)
        if newlines:
            self.line, self.begin = self.line + newlines, self.text.rindex("\n", self.at, end) + 1
        self.at = end

    def rest_of_line(self) -> int:
        """Where this line ends."""
        end = self.text.find("\n", self.at)
        return len(self.text) if end < 0 else end

    def piece(self) -> None:
        """Takes the next piece."""
        text, at = self.text, self.at
        if text[at] in " \t\r":
            self.at += 1
        elif text[at] == "\n":
            self.over(at + 1)
            self.lines.append([])
        elif text[at] == ";" or text.startswith("//", at):
            self.at = self.rest_of_line()
        elif text.startswith("/*", at):
            end = text.find("*/", at + 2)
            self.fault("L3") if end < 0 else self.over(end + 2)
        elif text[at] == "%" and not self.lines[-1] and (opens := OPENS.match(text, at)):
            closes = CLOSES.search(text, opens.end())
            self.fault("L4") if closes is None else self.over(closes.end())
        else:
            self.token()

    def token(self) -> None:
        """Takes the token that begins here."""
        for kind, form in (("directive", DIRECTIVE), ("name", NAME), ("number", NUMBER), ("sign", SIGN)):
            if it := form.match(self.text, self.at):
                break
        else:
            return self.fault("L1")
        text = it[0].lower() if kind == "directive" else it[0]
        if kind == "number" and number_of(text) is None:
            return self.fault("L2")
        if kind == "name" and text.lower() in KEYWORDS:
            kind, text = "keyword", SPELLINGS.get(text.lower(), text.lower())
        self.lines[-1].append(Token(kind, text, self.line, self.at - self.begin + 1))
        self.at = it.end()
        if text == ".lang_opt":
            self.at = self.rest_of_line()
        return None
