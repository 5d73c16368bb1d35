/* One section of functions, which begin at cache lines, so that a short loop is as fast wherever a program links it. */
SECTIONS
{
    .text : SUBALIGN(64) { *(.text .text.*) }
    .rodata : { *(.rodata .rodata.*) }
    .data.rel.ro : { *(.data.rel.ro .data.rel.ro.*) }
    .data : { *(.data .data.*) }
    .bss : { *(.bss .bss.*) }
}
