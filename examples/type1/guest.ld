ENTRY(start)
SECTIONS {
    . = 0;
    .text : { *(.text.start) *(.text*) }
    .rodata : { *(.rodata*) }
    .data : { *(.data*) }
    .rela.dyn : { *(.rela*) }
    . = ALIGN(4096);
    image_end = .;
    .bss : { *(.bss*) *(COMMON) . = ALIGN(4096); }
    /DISCARD/ : { *(.note*) *(.eh_frame*) *(.comment) *(.dyn*) *(.gnu*) *(.hash) *(.interp) }
    ASSERT(SIZEOF(.rela.dyn) == 0, "the image runs wherever it is put: it has no addresses")
    ASSERT(. <= 40 * 4096, "the image is too large")
}
