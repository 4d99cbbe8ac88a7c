"""Tests the WS2812 transmitter as firmware uses it; docs/PYTHON.md shows how it is run."""

from pathlib import Path

import piotool

HERE = Path(__file__).parent
SOURCE, CONFIG = HERE / "ws2812.pio", HERE / "ws2812.toml"


def test_spans_are_proved() -> None:
    verdicts = piotool.check(SOURCE, CONFIG)
    assert verdicts and all(verdicts)


def test_a_colour_goes_out_the_upper_bit_first() -> None:
    trace = piotool.run(SOURCE, CONFIG, ["0 tx 0 0xa0000000"], clocks=280)
    assert trace.pin(0).highs == [7, 2, 7] + [2] * 21
    assert trace.tx_level(0).last == 0
