/* A Cortex-M4 with 4 MB of program memory at 0 and 4 MB of working memory: the board mps2-an386, as qemu has it. */
ENTRY(reset)
MEMORY {
    flash (rx) : ORIGIN = 0x00000000, LENGTH = 4M
    ram (rwx) : ORIGIN = 0x20000000, LENGTH = 4M
}
SECTIONS {
    .text : { KEEP(*(.vectors)) *(.text*) *(.rodata*) } > flash
    .ARM.exidx : { *(.ARM.exidx*) } > flash
    .data : ALIGN(8) { data_begin = .; *(.data*) . = ALIGN(8); data_end = .; } > ram AT > flash
    data_kept = LOADADDR(.data);
    .bss (NOLOAD) : ALIGN(8) { bss_begin = .; *(.bss*) *(COMMON) . = ALIGN(8); bss_end = .; } > ram
    /* the stack is what is left, from the end down; a program that leaves less than this does not link */
    stack_top = ORIGIN(ram) + LENGTH(ram);
    ASSERT(stack_top - bss_end >= 64K, "no room for the stack")
    /DISCARD/ : { *(.comment) *(.note*) }
}
