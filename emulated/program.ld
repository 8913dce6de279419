/* Where the program is in memory: from 1 MiB on, as it is loaded. */
ENTRY(start)
PHDRS
{
    code PT_LOAD FLAGS(5);
    data PT_LOAD FLAGS(6);
    note PT_NOTE FLAGS(4);
}
SECTIONS
{
    . = 0x100000;
    .note : { KEEP(*(.note.pvh)) } :code :note
    .text : { *(.text .text.*) } :code
    .rodata : { *(.rodata .rodata.*) } :code
    .data : ALIGN(4096) { *(.data .data.*) } :data
    .bss : { bss_start = .; *(.bss .bss.* COMMON) bss_end = .; } :data
    /DISCARD/ : { *(.comment .eh_frame .note.gnu.* .note.GNU-stack) }
}
