/*
 * Sections of a program on a Cortex-M. A board's script names its FLASH and RAM and then includes this one; see qemu/microbit.ld.
 * The stack takes what the data leaves of the RAM. hosts/mcu/build compares that with the deepest stack of the program.
 */
ENTRY(reset)

SECTIONS
{
    .text : { KEEP(*(.vectors)) *(.text .text.*) } >FLASH =0x00BF00BF /* nop between functions, which stack.awk can read */
    .rodata : ALIGN(4) { *(.rodata .rodata.*) } >FLASH
    .data : ALIGN(8) { data_start = .; *(.data .data.*) . = ALIGN(4); data_end = .; } >RAM AT>FLASH
    data_image = LOADADDR(.data);
    .bss (NOLOAD) : ALIGN(8) { bss_start = .; *(.bss .bss.* COMMON) . = ALIGN(8); bss_end = .; } >RAM
    stack_top = ORIGIN(RAM) + LENGTH(RAM);
    stack_room = stack_top - bss_end;

    /* Nothing here unwinds a stack. */
    /DISCARD/ : { *(.ARM.exidx .ARM.exidx.*) }
}
