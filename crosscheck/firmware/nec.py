# The set-up of examples/nec for MicroPython, on a system clock of 12 MHz.
import machine
import rp2
from machine import Pin
from rp2 import PIO

RIGHT = PIO.SHIFT_RIGHT


@rp2.asm_pio(sideset_init=PIO.OUT_LOW, in_shiftdir=RIGHT, out_shiftdir=RIGHT)
def frame():
    wrap_target()
    label("word")
    pull().side(0)[15]
    set(x, 15).side(0)[15]
    label("lead")
    jmp(x_dec, "lead").side(1)[15]
    set(x, 6).side(0)[14]
    label("rest")
    jmp(x_dec, "rest").side(0)[15]
    set(x, 31).side(0)
    label("bit")
    out(y, 1).side(1)[15]
    jmp(not_y, "short").side(0)[14]
    nop().side(0)[15]
    nop().side(0)[15]
    label("short")
    jmp(x_dec, "bit").side(0)
    nop().side(1)[15]
    wrap()


@rp2.asm_pio(sideset_init=PIO.OUT_LOW, in_shiftdir=RIGHT, out_shiftdir=RIGHT)
def carrier():
    wrap_target()
    label("gate")
    wait(1, pin, 0).side(0)
    nop().side(1)[7]
    nop().side(0)[14]
    wrap()


machine.freq(12_000_000)
envelope = rp2.StateMachine(1, frame, freq=28_444, sideset_base=Pin(1))  # 16 ticks are 562.5 us
light = rp2.StateMachine(0, carrier, freq=24 * 38_000, sideset_base=Pin(0), in_base=Pin(1))
light.active(1)
envelope.active(1)
envelope.put(0xF708FB04)
