// The set-up of examples/servo; a pulse every 20 ms.
#include "hardware/pio.h"
#include "pico/stdlib.h"
#include "hardware/clocks.h"
#include "servo.pio.h"

int main(void) {
    uint at = pio_add_program_at_offset(pio0, &servo_program, 0);
    pio_sm_config c = servo_program_get_default_config(at);
    sm_config_set_sideset_pins(&c, 0);
    sm_config_set_clkdiv(&c, (float)clock_get_hz(clk_sys) / 1000000);
    pio_gpio_init(pio0, 0);
    pio_sm_set_consecutive_pindirs(pio0, 0, 0, 1, true);
    pio_sm_init(pio0, 0, at, &c);
    pio_sm_set_enabled(pio0, 0, true);
    pio_sm_put_blocking(pio0, 0, 999);
    sleep_ms(20);
    pio_sm_put_blocking(pio0, 0, 1499);
    sleep_ms(20);
    pio_sm_put_blocking(pio0, 0, 1999);
}
