// The set-up of examples/ws2812.
#include "hardware/pio.h"
#include "pico/stdlib.h"
#include "ws2812.pio.h"

int main(void) {
    uint at = pio_add_program_at_offset(pio0, &ws2812_program, 0);
    pio_gpio_init(pio0, 0);
    pio_sm_set_consecutive_pindirs(pio0, 0, 0, 1, true);
    pio_sm_config c = ws2812_program_get_default_config(at);
    sm_config_set_sideset_pins(&c, 0);
    sm_config_set_out_shift(&c, false, true, 24);
    pio_sm_init(pio0, 0, at, &c);
    pio_sm_set_enabled(pio0, 0, true);
    for (;;) {
        pio_sm_put_blocking(pio0, 0, 0xa0000000);
        sleep_ms(10);
    }
}
