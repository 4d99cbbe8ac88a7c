"""Tests the serial line, sender and receiver; docs/PYTHON.md shows how it is run."""

from pathlib import Path

import piotool

HERE = Path(__file__).parent
SOURCE, CONFIG = HERE / "uart.pio", HERE / "uart.toml"


def test_spans_are_proved() -> None:
    verdicts = piotool.check(SOURCE, CONFIG)
    assert verdicts and all(verdicts)


def test_bytes_come_back() -> None:
    trace = piotool.run(SOURCE, CONFIG, HERE / "uart.stim", clocks=420)
    assert [word >> 24 for word in trace.words(1)] == [0x55, 0xC3]
    assert trace.pin(0).falls[0] == 18
