"""What the linter says: each line in the form that compilers use, and the same as SARIF 2.1.0.

A place is a file, a line and a column, each counted from 1. A column counts characters, and a tab is one.
"""

import json
from dataclasses import dataclass, field
from pathlib import Path
from typing import Any
from urllib.parse import quote

SCHEMA = "https://json.schemastore.org/sarif-2.1.0.json"


@dataclass(frozen=True, order=True)
class Place:
    """Where something stands."""

    file: str
    line: int = 1
    column: int = 1

    def __str__(self) -> str:
        return f"{self.file}:{self.line}:{self.column}"


@dataclass
class Said:
    """A finding: its place, `error` or `warning`, its sentence, its code or name, and what is added to it."""

    place: Place
    level: str
    text: str
    code: str
    notes: list[str] = field(default_factory=list)

    def lines(self) -> str:
        """Its lines."""
        notes = "".join(f"{self.place}: note: {note}\n" for note in self.notes)
        return f"{self.place}: {self.level}: {self.text} [{self.code}]\n{notes}"

    def result(self) -> dict[str, Any]:
        """It as a result of SARIF."""
        location = location_of(self.place)
        result = {"ruleId": self.code, "level": self.level, "message": {"text": self.text}, "locations": [location]}
        if self.notes:
            result["relatedLocations"] = [location | {"message": {"text": note}} for note in self.notes]
        return result


def location_of(place: Place) -> dict[str, Any]:
    """A place as a location of SARIF."""
    uri = Path(place.file).as_uri() if Path(place.file).is_absolute() else quote(place.file)
    region = {"startLine": place.line, "startColumn": place.column}
    return {"physicalLocation": {"artifactLocation": {"uri": uri}, "region": region}}


def sarif_of(found: list[Said], about: dict[str, str]) -> str:
    """Findings as SARIF 2.1.0; `about` has a sentence for each code."""
    codes = sorted({it.code for it in found})
    rules = [{"id": code, "shortDescription": {"text": about[code]}} for code in codes]
    driver = {"name": "piotool-lint", "rules": rules}
    run = {"tool": {"driver": driver}, "columnKind": "unicodeCodePoints", "results": [it.result() for it in found]}
    return json.dumps({"$schema": SCHEMA, "version": "2.1.0", "runs": [run]}, indent=2) + "\n"
