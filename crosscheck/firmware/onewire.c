// The set-up of examples/onewire: the slots, a tick a microsecond.
#include "hardware/pio.h"
#include "pico/stdlib.h"
#include "hardware/clocks.h"
#include "hardware/gpio.h"
#include "onewire.pio.h"

int main(void) {
    uint at = pio_add_program_at_offset(pio0, &onewire_slots_program, 0);
    pio_sm_config c = onewire_slots_program_get_default_config(at);
    sm_config_set_sideset_pins(&c, 0);
    sm_config_set_in_pins(&c, 1);
    sm_config_set_out_shift(&c, true, false, 8);
    sm_config_set_in_shift(&c, true, false, 8);
    sm_config_set_clkdiv(&c, (float)clock_get_hz(clk_sys) / 1000000);
    gpio_pull_up(1);
    pio_gpio_init(pio0, 0);
    pio_gpio_init(pio0, 1);
    pio_sm_set_consecutive_pindirs(pio0, 0, 0, 1, true);
    pio_sm_init(pio0, 0, at, &c);
    pio_sm_set_enabled(pio0, 0, true);
    sleep_ms(1);
    pio_sm_put(pio0, 0, 2);
}
