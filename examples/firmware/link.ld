MEMORY
{
    FLASH (rx) : ORIGIN = 0x00000000, LENGTH = 1M
    SRAM (rw) : ORIGIN = 0x20000000, LENGTH = 256K
}

SECTIONS
{
    .text : { KEEP(*(.vectors)) *(.text*) *(.rodata*) } > FLASH =0x00bf00bf
    .data : { data_start = .; *(.data*) . = ALIGN(4); data_end = .; } > SRAM AT > FLASH
    data_source = LOADADDR(.data);
    .bss (NOLOAD) : { bss_start = .; *(.bss* COMMON) . = ALIGN(4); bss_end = .; } > SRAM
    stack_top = ORIGIN(SRAM) + LENGTH(SRAM);
    /DISCARD/ : { *(.ARM.exidx*) *(.ARM.attributes) *(.comment) }
}
