/* Program in FLASH, numbers in RAM, the stack from the end of RAM down. FLASH and RAM are said before this file. */
ENTRY(reset)
SECTIONS
{
    .text ORIGIN(FLASH) :
    {
        KEEP(*(.vectors))
        *(.text*)
        *(.rodata*)
        *(.ARM.ex*)
        . = ALIGN(8);
    } >FLASH
    data_stored = LOADADDR(.data);
    .data :
    {
        data_begin = .;
        *(.data*)
        . = ALIGN(4);
        data_end = .;
    } >RAM AT>FLASH
    .bss (NOLOAD) :
    {
        . = ALIGN(4);
        bss_begin = .;
        *(.bss*)
        *(COMMON)
        . = ALIGN(4);
        bss_end = .;
    } >RAM
    stack_top = ORIGIN(RAM) + LENGTH(RAM);
    /DISCARD/ :
    {
        *(.eh_frame*)
        *(.comment*)
    }
}
