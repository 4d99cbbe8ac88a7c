// The set-up of examples/nec, on a system clock of 12 MHz.
#include "hardware/pio.h"
#include "pico/stdlib.h"
#include "nec.pio.h"

int main(void) {
    uint at = pio_add_program_at_offset(pio0, &frame_program, 0);
    uint light_at = pio_add_program_at_offset(pio0, &carrier_program, 12);
    pio_sm_config c = carrier_program_get_default_config(light_at);
    sm_config_set_sideset_pins(&c, 0);
    sm_config_set_in_pins(&c, 1);
    sm_config_set_clkdiv(&c, 12000000.0f / (24 * 38000));
    pio_sm_config f = frame_program_get_default_config(at);
    sm_config_set_sideset_pins(&f, 1);
    // 562.5 us are 16 ticks.
    sm_config_set_clkdiv(&f, 421.875f);
    pio_sm_set_consecutive_pindirs(pio0, 0, 0, 2, true);
    pio_gpio_init(pio0, 0);
    pio_gpio_init(pio0, 1);
    pio_sm_init(pio0, 0, light_at, &c);
    pio_sm_init(pio0, 1, at, &f);
    pio_enable_sm_mask_in_sync(pio0, 3);
    pio_sm_put_blocking(pio0, 1, 0xf708fb04);
}
