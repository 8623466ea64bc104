/* One program at 1 MB, with the note that the loader looks for. */
ENTRY(start)
PHDRS
{
    code PT_LOAD FLAGS(7);
    note PT_NOTE FLAGS(4);
}
SECTIONS
{
    . = 0x100000;
    .note : { *(.note.Xen) } :code :note
    .text : { *(.text .text.*) } :code
    .rodata : { *(.rodata .rodata.*) } :code
    .data : { *(.data .data.*) } :code
    .bss : { *(.bss .bss.* COMMON) } :code
    /DISCARD/ : { *(.comment) *(.eh_frame) *(.note.GNU-stack) *(.note.gnu.property) }
}
