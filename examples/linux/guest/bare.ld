ENTRY(start)
PHDRS { all PT_LOAD FLAGS(7); note PT_NOTE; }
SECTIONS {
    . = 0x1300200;
    .note : { *(.note.pvh) } :all :note
    .text : { *(.start) *(.text*) } :all
    .rodata : { *(.rodata*) }
    .data : { *(.data*) }
    .bss : { *(.bss*) *(COMMON) }
    /DISCARD/ : { *(.comment) *(.note*) *(.eh_frame) }
}
