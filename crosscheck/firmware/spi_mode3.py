# The set-up of examples/spi_mode3 for MicroPython. Its pins are set after its forced JMP, so clock and chip select are high.
import rp2
from machine import Pin
from rp2 import PIO

CLOCK, DATA_OUT, DATA_IN = Pin(2), Pin(4), Pin(5)


@rp2.asm_pio(sideset_init=(PIO.OUT_HIGH,) * 2, out_init=PIO.OUT_LOW)
def spi_mode3():
    wrap_target()
    label("idle")
    pull().side(0b11)[3]
    set(x, 7).side(0b01)[1]
    label("bit")
    out(pins, 1).side(0b00)[1]
    in_(pins, 1).side(0b01)
    jmp(x_dec, "bit").side(0b01)
    label("deliver")
    push().side(0b01)
    wrap()


sm = rp2.StateMachine(0, spi_mode3, freq=31_250_000, sideset_base=CLOCK, out_base=DATA_OUT, in_base=DATA_IN)
sm.active(1)
for byte in (0xA5, 0x5A):
    sm.put(byte, 24)
print(sm.get(), sm.get())
