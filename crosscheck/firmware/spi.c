// The set-up of examples/spi: mode 0 with both data lines on one pin.
#include "hardware/pio.h"
#include "pico/stdlib.h"
#include "spi.pio.h"

int main(void) {
    uint at = pio_add_program_at_offset(pio0, &spi_mode0_program, 0);
    pio_sm_config c = spi_mode0_program_get_default_config(at);
    sm_config_set_out_pins(&c, 1, 1);
    sm_config_set_in_pins(&c, 1);
    sm_config_set_sideset_pins(&c, 0);
    sm_config_set_out_shift(&c, false, true, 8);
    sm_config_set_in_shift(&c, false, true, 8);
    pio_sm_set_pins_with_mask(pio0, 0, 0, 3);
    pio_sm_set_pindirs_with_mask(pio0, 0, 3, 3);
    pio_gpio_init(pio0, 0);
    pio_gpio_init(pio0, 1);
    pio_sm_init(pio0, 0, at, &c);
    pio_sm_set_enabled(pio0, 0, true);
    pio_sm_put_blocking(pio0, 0, 0xa5000000);
    pio_sm_get_blocking(pio0, 0);
}
