ENTRY(start32)
PHDRS { all PT_LOAD FLAGS(7); note PT_NOTE; }
SECTIONS {
    . = 0x100000;
    .note : { *(.note.pvh) } :all :note
    .text : { *(.text.start) *(.text*) } :all
    .rodata : { *(.rodata*) }
    .data : { *(.data*) *(.got*) }
    .bss : { *(.bss*) *(COMMON) }
    /DISCARD/ : { *(.note.gnu*) *(.eh_frame*) *(.comment) }
}
