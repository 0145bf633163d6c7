/* A Cortex-M program: code from 0 on, RAM of RAM_SIZE bytes (--defsym), the stack from its top down. Every variable is at a multiple of 8. */
ENTRY(begin)
SECTIONS
{
    . = 0;
    .vectors : { KEEP(*(.vectors)) }
    .text : { *(.text*) *(.rodata*) . = ALIGN(8); }
    .ARM.exidx : { *(.ARM.exidx*) }
    . = ALIGN(8);
    data_from = .;
    .data 0x20000000 : AT(data_from) SUBALIGN(8) { data_begin = .; *(.data*) . = ALIGN(8); data_end = .; }
    .bss (NOLOAD) : SUBALIGN(8) { bss_begin = .; *(.bss*) *(COMMON) . = ALIGN(8); bss_end = .; }
    stack_top = 0x20000000 + RAM_SIZE;
    /DISCARD/ : { *(.ARM.attributes*) *(.comment) *(.note*) }
}
