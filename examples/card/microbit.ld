/* The micro:bit, a board with a Cortex-M0 (nRF51822): 256 kB of flash, 16 kB of memory. Another board has other numbers in the first lines. */
MEMORY
{
    flash : ORIGIN = 0, LENGTH = 256K
    ram : ORIGIN = 0x20000000, LENGTH = 16K
}
ENTRY(start)
SECTIONS
{
    .text : { KEEP(*(.vectors)) *(.text .text.*) *(.rodata .rodata.*) . = ALIGN(4); } > flash
    .ARM.exidx : { *(.ARM.exidx .ARM.exidx.*) . = ALIGN(4); } > flash
    .data : { data_begins = .; *(.data .data.*) . = ALIGN(4); data_ends = .; } > ram AT > flash
    data_kept = LOADADDR(.data);
    .bss (NOLOAD) : { zero_begins = .; *(.bss .bss.*) *(COMMON) . = ALIGN(4); zero_ends = .; } > ram
    . = ALIGN(8);
    end = .; /* what the C library takes for itself begins here, the stack comes down to it from the top */
    stack_top = ORIGIN(ram) + LENGTH(ram);
}
