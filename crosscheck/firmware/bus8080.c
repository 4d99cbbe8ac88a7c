// The set-up of examples/bus8080. The forced JMP of pio_sm_init has no side-set under `opt`, so the pins may be set before it.
#include "hardware/pio.h"
#include "pico/stdlib.h"
#include "bus8080.pio.h"

int main(void) {
    uint at = pio_add_program_at_offset(pio0, &bus_write_program, 0);
    pio_sm_config c = bus_write_program_get_default_config(at);
    sm_config_set_out_pins(&c, 0, 8);
    sm_config_set_sideset_pins(&c, 8);
    pio_sm_set_pins_with_mask(pio0, 0, 0x300, 0x3ff);
    pio_sm_set_consecutive_pindirs(pio0, 0, 0, 10, true);
    for (uint pin = 0; pin < 10; pin++)
        pio_gpio_init(pio0, pin);
    pio_sm_init(pio0, 0, at, &c);
    pio_sm_set_enabled(pio0, 0, true);
    pio_sm_put_blocking(pio0, 0, 0x44332211);
}
