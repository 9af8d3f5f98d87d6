/* The board micro:bit: 256 KB of flash, 16 KB of RAM. The input starts at 80 KB. */
ENTRY(reset)
SECTIONS {
    .text 0 : { KEEP(*(.vectors)) *(.text .text.* .rodata .rodata.*) }
    .ARM.exidx : { *(.ARM.exidx*) }
    .data 0x20000000 : { *(.data .data.*) }
    .bss 0x20000000 (NOLOAD) : { bss_start = .; *(.bss .bss.* COMMON) . = ALIGN(8); bss_end = .; }
    stack_top = 0x20004000;
    input = 0x14000;
    ASSERT(SIZEOF(.text) + SIZEOF(.ARM.exidx) <= input, "the code reaches into the input")
    ASSERT(SIZEOF(.data) == 0, "nothing copies initial values to RAM")
}
