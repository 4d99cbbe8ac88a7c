// The set-up of examples/pwm: the program that says its period itself.
#include "hardware/pio.h"
#include "pico/stdlib.h"
#include "pwm.pio.h"

int main(void) {
    uint at = pio_add_program_at_offset(pio0, &pwm_100_program, 0);
    pio_sm_config c = pwm_100_program_get_default_config(at);
    sm_config_set_sideset_pins(&c, 0);
    sm_config_set_clkdiv_int_frac(&c, 2, 0);
    pio_gpio_init(pio0, 0);
    pio_sm_set_consecutive_pindirs(pio0, 0, 0, 1, true);
    pio_sm_init(pio0, 0, at, &c);
    pio_sm_set_enabled(pio0, 0, true);
    pio_sm_put_blocking(pio0, 0, 24);
    pio_sm_put_blocking(pio0, 0, 0);
}
