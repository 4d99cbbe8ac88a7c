// The set-up of examples/dshot600.
#include "hardware/pio.h"
#include "pico/stdlib.h"
#include "hardware/clocks.h"
#include "dshot600.pio.h"

int main(void) {
    uint at = pio_add_program_at_offset(pio0, &dshot600_program, 0);
    pio_sm_config c = dshot600_program_get_default_config(at);
    sm_config_set_out_pins(&c, 0, 1);
    sm_config_set_set_pins(&c, 0, 1);
    sm_config_set_out_shift(&c, false, false, 32);
    // 40 ticks a bit, 600,000 bits a second.
    sm_config_set_clkdiv(&c, (float)clock_get_hz(clk_sys) / (40 * 600000));
    pio_gpio_init(pio0, 0);
    pio_sm_set_consecutive_pindirs(pio0, 0, 0, 1, true);
    pio_sm_init(pio0, 0, at, &c);
    pio_sm_set_enabled(pio0, 0, true);
    pio_sm_put_blocking(pio0, 0, 0x82c60000);
    pio_sm_put_blocking(pio0, 0, 0x06060000);
    sleep_ms(1);
}
