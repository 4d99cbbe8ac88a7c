// The firmware whose set-up from_the_sdk.toml is: a beat on pin 16, and two pulled-up lines on pins 4 and 5.
#include "hardware/dma.h"
#include "hardware/gpio.h"
#include "hardware/pio.h"
#include "pico/stdlib.h"
#include "from_the_sdk.pio.h"

enum { BEAT = 16, DATA = 4, CLOCK = 5 };

static const uint8_t bytes[] = {0x69, 0xf0};

static void init_beat(PIO pio, uint sm) {
    uint at = pio_add_program_at_offset(pio, &beat_program, 28);
    pio_gpio_init(pio, BEAT);
    pio_sm_set_consecutive_pindirs(pio, sm, BEAT, 1, true);
    pio_sm_config c = beat_program_get_default_config(at);
    sm_config_set_sideset_pins(&c, BEAT);
    sm_config_set_clkdiv(&c, 12.5f);
    pio_sm_init(pio, sm, at + beat_offset_period, &c);
    pio_sm_put(pio, sm, 5); // the period
}

static void init_lines(PIO pio, uint sm) {
    uint at = pio_add_program_at_offset(pio, &lines_program, 17);
    pio_sm_config c = lines_program_get_default_config(at);
    sm_config_set_in_pins(&c, DATA);
    sm_config_set_out_pins(&c, DATA, 1);
    sm_config_set_set_pins(&c, DATA, 1);
    sm_config_set_sideset_pins(&c, CLOCK);
    sm_config_set_in_shift(&c, false, true, 9);
    sm_config_set_out_shift(&c, false, true, 8);
    sm_config_set_clkdiv(&c, 4);
    pio_sm_set_pins_with_mask(pio, sm, 0, 1u << DATA | 1u << CLOCK);
    pio_sm_set_pindirs_with_mask(pio, sm, 1u << CLOCK, 1u << DATA | 1u << CLOCK);
    for (uint pin = DATA; pin <= CLOCK; pin++) {
        gpio_pull_up(pin);
        pio_gpio_init(pio, pin);
    }
    pio_sm_init(pio, sm, at, &c);
}

int main(void) {
    init_beat(pio0, 0);
    init_lines(pio0, 1);
    pio_enable_sm_mask_in_sync(pio0, 3);
    uint channel = dma_claim_unused_channel(true);
    dma_channel_config d = dma_channel_get_default_config(channel);
    channel_config_set_transfer_data_size(&d, DMA_SIZE_8);
    channel_config_set_dreq(&d, pio_get_dreq(pio0, 1, true));
    dma_channel_configure(channel, &d, &pio0->txf[1], bytes, 2, true);
    for (;;) {
        while (!(pio0->irq & 2u)) {
        }
        (void)pio_sm_get_blocking(pio0, 1);
        pio0->irq = 2u;
    }
}
