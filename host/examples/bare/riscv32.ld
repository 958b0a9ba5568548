/* A RISC-V of 32 bits with 8 MB of memory at 0x80000000: the board virt, as qemu has it. */
ENTRY(first)
MEMORY {
    flash (rx) : ORIGIN = 0x80000000, LENGTH = 4M
    ram (rwx) : ORIGIN = 0x80400000, LENGTH = 4M
}
SECTIONS {
    .text : { KEEP(*(.vectors)) *(.text*) *(.rodata*) *(.srodata*) } > flash
    .data : ALIGN(8) { data_begin = .; *(.data*) *(.sdata*) . = ALIGN(8); data_end = .; } > ram AT > flash
    data_kept = LOADADDR(.data);
    .bss (NOLOAD) : ALIGN(8) { bss_begin = .; *(.bss*) *(.sbss*) *(COMMON) . = ALIGN(8); bss_end = .; } > ram
    /* the stack is what is left, from the end down; a program that leaves less than this does not link */
    stack_top = ORIGIN(ram) + LENGTH(ram);
    ASSERT(stack_top - bss_end >= 64K, "no room for the stack")
    /DISCARD/ : { *(.comment) *(.note*) }
}
