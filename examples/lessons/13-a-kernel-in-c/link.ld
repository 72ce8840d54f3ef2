ENTRY(start)
SECTIONS
{
    . = 0x1000;
    .text : { *(.text) }
    .rodata : { *(.rodata*) }
    .data : { *(.data) }
    .tasks 0x2000 : { *(.tasks) }
    .bss : { *(.bss) }
    /DISCARD/ : { *(.comment) *(.note*) *(.eh_frame) }
}
