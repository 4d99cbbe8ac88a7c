// The set-up of examples/square_wave by an object whose constructor runs before main.
#include "hardware/pio.h"
#include "pico/stdlib.h"
#include "square_wave.pio.h"

namespace {
class Wave {
  public:
    Wave(PIO block, uint machine, uint pin) {
        uint at = pio_add_program_at_offset(block, &squarewave_program, 4);
        pio_sm_config c = squarewave_program_get_default_config(at);
        sm_config_set_set_pins(&c, pin, 1);
        sm_config_set_clkdiv_int_frac(&c, 2, 128);
        pio_gpio_init(block, pin);
        pio_sm_init(block, machine, at, &c);
        pio_sm_set_enabled(block, machine, true);
    }
};
Wave wave(pio0, 0, 16);
} // namespace

int main() {
    for (;;) {
    }
}
