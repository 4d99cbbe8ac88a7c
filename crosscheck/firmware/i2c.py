# The set-up of examples/i2c for MicroPython: the bytes alone, for two lines with a driver outside.
import rp2
from machine import Pin
from rp2 import PIO


@rp2.asm_pio(sideset_init=PIO.OUT_LOW, out_init=PIO.OUT_HIGH)
def i2c_bytes():
    label("byte")
    pull().side(0)
    set(x, 8)
    label("bits")
    out(pins, 1)[7]
    nop().side(1)[2]
    label("stretched")
    wait(1, pin, 1)[4]
    in_(pins, 1)[7]
    jmp(x_dec, "bits").side(0)[7]
    label("deliver")
    push()


data = Pin(2, Pin.IN, Pin.PULL_UP)
clock = Pin(3, Pin.IN, Pin.PULL_UP)
sm = rp2.StateMachine(0, i2c_bytes, out_base=Pin(0), sideset_base=Pin(1), in_base=data)
sm.active(1)
sm.put(0xA580_0000)
print(sm.get())
