# The set-up of examples/bus8080 for MicroPython. A machine's pins are set after its forced JMP, by the words of *_init.
import rp2
from machine import Pin
from rp2 import PIO

RIGHT = PIO.SHIFT_RIGHT


@rp2.asm_pio(sideset_init=(PIO.OUT_HIGH,) * 2, out_init=(PIO.OUT_LOW,) * 8, in_shiftdir=RIGHT, out_shiftdir=RIGHT)
def bus_write():
    label("entry")
    pull(ifempty).side(0b11)
    out(pins, 8).side(0b10)
    nop().side(0b00)[1]
    nop().side(0b10)[1]
    jmp(not_osre, "entry")


sm = rp2.StateMachine(0, bus_write, out_base=Pin(0), sideset_base=Pin(8))
sm.active(1)
sm.put(0x44332211)
