/* Where code and memory stand on the RISC-V board. */
ENTRY(reset)
MEMORY {
    ram (rwx) : ORIGIN = 0x80000000, LENGTH = 256K
}
SECTIONS {
    .text : { KEEP(*(.reset)) *(.text*) *(.rodata*) *(.srodata*) } >ram
    .data : { *(.data*) *(.sdata*) . = ALIGN(4); } >ram
    .bss (NOLOAD) : { . = ALIGN(4); bss_start = .; *(.sbss*) *(.bss*) *(COMMON) . = ALIGN(16); bss_end = .; } >ram
    stack_top = ORIGIN(ram) + LENGTH(ram);
}
