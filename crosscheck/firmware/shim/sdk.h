// The calls of the Pico C SDK that the firmwares of this folder make, at the registers, in our own words: for machines without
// the SDK. Names and meanings are those of its manual. It is only for the tests here, and takes no care of cores or claims.
#ifndef SHIM_SDK_H
#define SHIM_SDK_H
#include <stdbool.h>
#include <stddef.h>
#include <stdint.h>

#ifdef __cplusplus
extern "C" {
#endif
typedef unsigned int uint;
typedef volatile uint32_t reg;
#define REGISTER(address) (*(reg *)(uintptr_t)(address))
#define SET_BITS(address, bits) (REGISTER((address) + 0x2000u) = (bits))
#define CLEAR_BITS(address, bits) (REGISTER((address) + 0x3000u) = (bits))
#define FLIP_BITS(address, bits) (REGISTER((address) + 0x1000u) = (bits))

// Pins of the processor, and pads.
enum { GPIO_FUNC_SIO = 5, GPIO_FUNC_PIO0 = 6, GPIO_FUNC_PIO1 = 7, GPIO_OUT = 1, GPIO_IN = 0 };
enum { GPIO_OVERRIDE_NORMAL = 0, GPIO_OVERRIDE_INVERT = 1 };
#define CONTROL(pin) (0x40014004u + 8u * (pin))
#define PAD(pin) (0x4001c004u + 4u * (pin))
#define SIO(offset) (0xd0000000u + (offset))

static inline void field(uint32_t address, uint low, uint32_t mask, uint32_t value) {
    REGISTER(address) = (REGISTER(address) & ~(mask << low)) | value << low;
}
static inline void gpio_set_function(uint pin, uint function) {
    FLIP_BITS(PAD(pin), (REGISTER(PAD(pin)) ^ 0x40u) & 0xc0u);
    REGISTER(CONTROL(pin)) = function;
}
static inline void gpio_set_outover(uint pin, uint how) { field(CONTROL(pin), 8, 3, how); }
static inline void gpio_set_oeover(uint pin, uint how) { field(CONTROL(pin), 12, 3, how); }
static inline void gpio_set_inover(uint pin, uint how) { field(CONTROL(pin), 16, 3, how); }
static inline void gpio_pull_up(uint pin) { field(PAD(pin), 2, 3, 2); }
static inline void gpio_pull_down(uint pin) { field(PAD(pin), 2, 3, 1); }
static inline void gpio_put(uint pin, bool high) { REGISTER(SIO(high ? 0x14u : 0x18u)) = 1u << pin; }
static inline void gpio_set_dir(uint pin, bool out) { REGISTER(SIO(out ? 0x24u : 0x28u)) = 1u << pin; }
static inline void gpio_init(uint pin) {
    gpio_set_dir(pin, false);
    gpio_put(pin, false);
    gpio_set_function(pin, GPIO_FUNC_SIO);
}

// A PIO block and its machines.
typedef struct pio_registers {
    reg ctrl, fstat, fdebug, flevel, txf[4], rxf[4], irq, irq_force, input_sync_bypass, dbg_padout, dbg_padoe, dbg_cfginfo;
    reg instr_mem[32];
    struct machine_registers {
        reg clkdiv, execctrl, shiftctrl, addr, instr, pinctrl;
    } sm[4];
} *PIO;
#define pio0 ((PIO)0x50200000u)
#define pio1 ((PIO)0x50300000u)
#define PLACE(it) ((uint32_t)(uintptr_t)(it))

struct pio_program {
    const uint16_t *instructions;
    uint8_t length;
    int8_t origin;
};
typedef struct pio_program pio_program_t;
typedef struct {
    uint32_t clkdiv, execctrl, shiftctrl, pinctrl;
} pio_sm_config;
enum pio_fifo_join { PIO_FIFO_JOIN_NONE, PIO_FIFO_JOIN_TX, PIO_FIFO_JOIN_RX };
enum pio_mov_status_type { STATUS_TX_LESSTHAN, STATUS_RX_LESSTHAN };
enum pio_src_dest { pio_pins, pio_x, pio_y, pio_null, pio_pindirs, pio_pc, pio_isr, pio_osr };

static inline void put_field(uint32_t *word, uint low, uint bits, uint32_t value) {
    uint32_t mask = ((1u << bits) - 1u) << low;
    *word = (*word & ~mask) | (value << low & mask);
}
static inline void sm_config_set_out_pins(pio_sm_config *c, uint base, uint count) {
    put_field(&c->pinctrl, 0, 5, base);
    put_field(&c->pinctrl, 20, 6, count);
}
static inline void sm_config_set_set_pins(pio_sm_config *c, uint base, uint count) {
    put_field(&c->pinctrl, 5, 5, base);
    put_field(&c->pinctrl, 26, 3, count);
}
static inline void sm_config_set_in_pins(pio_sm_config *c, uint base) { put_field(&c->pinctrl, 15, 5, base); }
static inline void sm_config_set_sideset_pins(pio_sm_config *c, uint base) { put_field(&c->pinctrl, 10, 5, base); }
static inline void sm_config_set_sideset(pio_sm_config *c, uint bits, bool opt, bool pindirs) {
    put_field(&c->pinctrl, 29, 3, bits);
    put_field(&c->execctrl, 30, 1, opt);
    put_field(&c->execctrl, 29, 1, pindirs);
}
static inline void sm_config_set_clkdiv_int_frac(pio_sm_config *c, uint16_t whole, uint8_t fraction) {
    c->clkdiv = (uint32_t)whole << 16 | (uint32_t)fraction << 8;
}
static inline void sm_config_set_clkdiv(pio_sm_config *c, float divider) {
    uint16_t whole = (uint16_t)divider;
    sm_config_set_clkdiv_int_frac(c, whole, (uint8_t)((divider - (float)whole) * 256.0f));
}
static inline void sm_config_set_wrap(pio_sm_config *c, uint target, uint wrap) {
    put_field(&c->execctrl, 7, 5, target);
    put_field(&c->execctrl, 12, 5, wrap);
}
static inline void sm_config_set_jmp_pin(pio_sm_config *c, uint pin) { put_field(&c->execctrl, 24, 5, pin); }
static inline void sm_config_set_out_special(pio_sm_config *c, bool sticky, bool enables, uint bit) {
    put_field(&c->execctrl, 17, 1, sticky);
    put_field(&c->execctrl, 18, 1, enables);
    put_field(&c->execctrl, 19, 5, bit);
}
static inline void sm_config_set_mov_status(pio_sm_config *c, enum pio_mov_status_type of, uint below) {
    put_field(&c->execctrl, 4, 1, of);
    put_field(&c->execctrl, 0, 4, below);
}
static inline void sm_config_set_in_shift(pio_sm_config *c, bool right, bool push, uint threshold) {
    put_field(&c->shiftctrl, 18, 1, right);
    put_field(&c->shiftctrl, 16, 1, push);
    put_field(&c->shiftctrl, 20, 5, threshold);
}
static inline void sm_config_set_out_shift(pio_sm_config *c, bool right, bool pull, uint threshold) {
    put_field(&c->shiftctrl, 19, 1, right);
    put_field(&c->shiftctrl, 17, 1, pull);
    put_field(&c->shiftctrl, 25, 5, threshold);
}
static inline void sm_config_set_fifo_join(pio_sm_config *c, enum pio_fifo_join join) { put_field(&c->shiftctrl, 30, 2, join); }
static inline pio_sm_config pio_get_default_sm_config(void) {
    pio_sm_config c = {0, 0, 0, 0};
    sm_config_set_clkdiv_int_frac(&c, 1, 0);
    sm_config_set_wrap(&c, 0, 31);
    sm_config_set_in_shift(&c, true, false, 32);
    sm_config_set_out_shift(&c, true, false, 32);
    return c;
}

static inline uint pio_encode_jmp(uint at) { return at; }
static inline uint pio_encode_set(enum pio_src_dest to, uint value) { return 0xe000u | (uint)to << 5 | value; }
static inline uint pio_encode_pull(bool if_empty, bool block) { return 0x8080u | (uint)if_empty << 6 | (uint)block << 5; }
static inline uint pio_encode_mov(enum pio_src_dest to, enum pio_src_dest from) { return 0xa000u | (uint)to << 5 | (uint)from; }
static inline uint pio_encode_out(enum pio_src_dest to, uint count) { return 0x6000u | (uint)to << 5 | (count & 31u); }
static inline uint pio_encode_in(enum pio_src_dest from, uint count) { return 0x4000u | (uint)from << 5 | (count & 31u); }
static inline uint pio_encode_irq_set(bool relative, uint flag) { return 0xc000u | (uint)relative << 4 | flag; }

void pio_gpio_init(PIO pio, uint pin);
uint pio_add_program(PIO pio, const pio_program_t *program);
uint pio_add_program_at_offset(PIO pio, const pio_program_t *program, uint offset);
void pio_sm_init(PIO pio, uint sm, uint start, const pio_sm_config *c);
void pio_sm_set_pins_with_mask(PIO pio, uint sm, uint32_t values, uint32_t mask);
void pio_sm_set_pindirs_with_mask(PIO pio, uint sm, uint32_t values, uint32_t mask);
void pio_sm_set_consecutive_pindirs(PIO pio, uint sm, uint first, uint count, bool out);
uint clock_get_hz(uint clock);
void sleep_ms(uint32_t ms);
void stdio_init_all(void);
enum { clk_sys = 5 };

static inline void pio_sm_exec(PIO pio, uint sm, uint word) { pio->sm[sm].instr = word; }
static inline void pio_sm_set_enabled(PIO pio, uint sm, bool runs) {
    pio->ctrl = (pio->ctrl & 15u & ~(1u << sm)) | (uint32_t)runs << sm;
}
static inline void pio_enable_sm_mask_in_sync(PIO pio, uint32_t mask) { SET_BITS(PLACE(&pio->ctrl), mask << 8 | mask); }
static inline void pio_sm_restart(PIO pio, uint sm) { SET_BITS(PLACE(&pio->ctrl), 16u << sm); }
static inline void pio_sm_clkdiv_restart(PIO pio, uint sm) { SET_BITS(PLACE(&pio->ctrl), 256u << sm); }
static inline void pio_sm_put(PIO pio, uint sm, uint32_t word) { pio->txf[sm] = word; }
static inline bool pio_sm_is_tx_fifo_full(PIO pio, uint sm) { return pio->fstat >> (16 + sm) & 1u; }
static inline bool pio_sm_is_rx_fifo_empty(PIO pio, uint sm) { return pio->fstat >> (8 + sm) & 1u; }
static inline void pio_sm_put_blocking(PIO pio, uint sm, uint32_t word) {
    while (pio_sm_is_tx_fifo_full(pio, sm)) {
    }
    pio_sm_put(pio, sm, word);
}
static inline uint32_t pio_sm_get_blocking(PIO pio, uint sm) {
    while (pio_sm_is_rx_fifo_empty(pio, sm)) {
    }
    return pio->rxf[sm];
}
static inline uint pio_claim_unused_sm(PIO pio, bool required) {
    static uint next[2];
    (void)required;
    return next[pio == pio1]++;
}
static inline uint pio_get_index(PIO pio) { return pio == pio1; }
static inline uint pio_get_dreq(PIO pio, uint sm, bool is_tx) { return pio_get_index(pio) * 8u + (is_tx ? 0u : 4u) + sm; }

// DMA.
typedef struct {
    uint32_t ctrl;
} dma_channel_config;
enum dma_channel_transfer_size { DMA_SIZE_8, DMA_SIZE_16, DMA_SIZE_32 };
#define CHANNEL(channel, offset) REGISTER(0x50000000u + 0x40u * (channel) + (offset))

static inline uint dma_claim_unused_channel(bool required) {
    static uint next;
    (void)required;
    return next++;
}
static inline dma_channel_config dma_channel_get_default_config(uint channel) {
    dma_channel_config c = {1u | 2u << 2 | 1u << 4 | channel << 11 | 63u << 15};
    return c;
}
static inline void channel_config_set_transfer_data_size(dma_channel_config *c, enum dma_channel_transfer_size size) {
    put_field(&c->ctrl, 2, 2, size);
}
static inline void channel_config_set_read_increment(dma_channel_config *c, bool rises) { put_field(&c->ctrl, 4, 1, rises); }
static inline void channel_config_set_write_increment(dma_channel_config *c, bool rises) { put_field(&c->ctrl, 5, 1, rises); }
static inline void channel_config_set_dreq(dma_channel_config *c, uint dreq) { put_field(&c->ctrl, 15, 6, dreq); }
static inline void channel_config_set_bswap(dma_channel_config *c, bool swapped) { put_field(&c->ctrl, 22, 1, swapped); }
static inline void channel_config_set_chain_to(dma_channel_config *c, uint channel) { put_field(&c->ctrl, 11, 4, channel); }
static inline void dma_channel_configure(
    uint channel, const dma_channel_config *c, volatile void *to, const volatile void *from, uint count, bool now) {
    CHANNEL(channel, 0x00) = PLACE(from);
    CHANNEL(channel, 0x04) = PLACE(to);
    CHANNEL(channel, 0x08) = count;
    CHANNEL(channel, now ? 0x0c : 0x10) = c->ctrl;
}
#ifdef __cplusplus
}
#endif
#endif
