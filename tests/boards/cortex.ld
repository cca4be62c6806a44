/* Where code and memory stand on both Cortex-M boards. */
MEMORY {
    flash (rx) : ORIGIN = 0x00000000, LENGTH = 256K
    ram (rwx) : ORIGIN = 0x20000000, LENGTH = 64K
}
SECTIONS {
    .text : { KEEP(*(.vectors)) *(.text*) *(.rodata*) . = ALIGN(4); } >flash
    .ARM.exidx : { *(.ARM.exidx*) } >flash
    .data : { data_start = .; *(.data*) . = ALIGN(4); data_end = .; } >ram AT >flash
    data_loaded = LOADADDR(.data);
    .bss (NOLOAD) : { bss_start = .; *(.bss*) *(COMMON) . = ALIGN(8); bss_end = .; } >ram
    stack_top = ORIGIN(ram) + LENGTH(ram);
    ASSERT(stack_top - bss_end >= 10K, "too little is left for the stack")
}
