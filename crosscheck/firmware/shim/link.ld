/* Flash and memory of an RP2040. */
MEMORY { FLASH (rx) : ORIGIN = 0x10000000, LENGTH = 2M  RAM (rwx) : ORIGIN = 0x20000000, LENGTH = 264K }
ENTRY(main)
SECTIONS {
    .text : { KEEP(*(.vectors)) *(.text*) *(.rodata*) } > FLASH
    .init_array : { __init_array_start = .; KEEP(*(.init_array*)) __init_array_end = .; } > FLASH
    .data : { *(.data*) } > RAM AT > FLASH
    .bss : { *(.bss*) *(COMMON) } > RAM
    __StackTop = 0x20042000;
    /DISCARD/ : { *(.ARM.exidx*) *(.comment) *(.note*) }
}
