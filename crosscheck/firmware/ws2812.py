# The set-up of examples/ws2812 for MicroPython.
import time

import rp2


@rp2.asm_pio(sideset_init=rp2.PIO.OUT_LOW, in_shiftdir=rp2.PIO.SHIFT_RIGHT, autopull=True, pull_thresh=24)
def ws2812():
    T1, T2, T3 = 2, 5, 3
    wrap_target()
    label("bitloop")
    out(x, 1).side(0)[T3 - 1]
    jmp(not_x, "do_zero").side(1)[T1 - 1]
    jmp("bitloop").side(1)[T2 - 1]
    label("do_zero")
    nop().side(0)[T2 - 1]
    wrap()


sm = rp2.StateMachine(0, ws2812, sideset_base=0)
sm.active(1)
while True:
    sm.put(0xA0, 24)
    time.sleep_ms(10)
