/* As much of the MPS2's two memories as a small controller has: 64 KB of code, 16 KB of RAM. Another image sets other sizes
 * on the linker's command line, with --defsym, and the bytes kept for the stack as well. */
CODE_SIZE = DEFINED(CODE_SIZE) ? CODE_SIZE : 64K;
RAM_SIZE = DEFINED(RAM_SIZE) ? RAM_SIZE : 16K;
STACK_SIZE = DEFINED(STACK_SIZE) ? STACK_SIZE : 1K;

MEMORY
{
    CODE (rx) : ORIGIN = 0x00000000, LENGTH = CODE_SIZE
    RAM (rwx) : ORIGIN = 0x20000000, LENGTH = RAM_SIZE
}

ENTRY(reset)

SECTIONS
{
    .text : { KEEP(*(.vectors)) *(.text .text.*) *(.rodata .rodata.*) . = ALIGN(4); } > CODE
    .ARM.exidx : { *(.ARM.exidx .ARM.exidx.*) } > CODE
    data_load = LOADADDR(.data);
    .data : { data_start = .; *(.data .data.*) . = ALIGN(4); data_end = .; } > RAM AT > CODE
    .bss (NOLOAD) : { bss_start = .; *(.bss .bss.* COMMON) . = ALIGN(4); bss_end = .; } > RAM
    .stack (NOLOAD) : { . = ALIGN(8); stack_end = .; . += STACK_SIZE; stack_top = .; } > RAM
}
