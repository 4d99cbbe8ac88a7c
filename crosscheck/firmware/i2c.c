// The set-up of examples/i2c: the bytes alone, for two lines with a driver outside.
#include "hardware/pio.h"
#include "pico/stdlib.h"
#include "hardware/gpio.h"
#include "i2c.pio.h"

int main(void) {
    uint at = pio_add_program_at_offset(pio0, &i2c_bytes_program, 0);
    pio_sm_config c = i2c_bytes_program_get_default_config(at);
    sm_config_set_out_pins(&c, 0, 1);
    sm_config_set_sideset_pins(&c, 1);
    sm_config_set_in_pins(&c, 2);
    sm_config_set_out_shift(&c, false, false, 32);
    sm_config_set_in_shift(&c, false, false, 32);
    gpio_pull_up(2);
    gpio_pull_up(3);
    for (uint pin = 0; pin < 4; pin++)
        pio_gpio_init(pio0, pin);
    pio_sm_init(pio0, 0, at, &c);
    pio_sm_set_pins_with_mask(pio0, 0, 1, 3);
    pio_sm_set_pindirs_with_mask(pio0, 0, 3, 15);
    pio_sm_set_enabled(pio0, 0, true);
    pio_sm_put_blocking(pio0, 0, 0xa5800000);
}
