# The set-up of examples/i2s for MicroPython: 48 kHz, 128 ticks a sample.
import rp2
from machine import Pin
from rp2 import PIO


@rp2.asm_pio(sideset_init=(PIO.OUT_LOW,) * 2, out_init=PIO.OUT_LOW, in_shiftdir=PIO.SHIFT_RIGHT)
def i2s():
    wrap_target()
    label("left_side")
    out(pins, 1).side(0b00)[1]
    jmp(y_dec, "left_side").side(0b01)[1]
    out(pins, 1).side(0b10)[1]
    set(y, 14).side(0b11)[1]
    label("right_side")
    out(pins, 1).side(0b10)[1]
    jmp(y_dec, "right_side").side(0b11)[1]
    out(pins, 1).side(0b00)
    label("fetch")
    pull(noblock).side(0b00)
    mov(x, osr).side(0b01)
    set(y, 14).side(0b01)
    wrap()


sm = rp2.StateMachine(0, i2s, freq=48_000 * 128, sideset_base=Pin(0), out_base=Pin(2))
sm.exec(22 + 7)  # its place, and its label fetch
sm.active(1)
sm.put(0x8001C35A)
sm.put(0x12347FFF)
