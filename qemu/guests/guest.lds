/* Where a guest lies in RAM: from the symbol start on, with 64 KiB of stack. */
ENTRY(_start)
SECTIONS {
    . = start;
    .text : { *(.text.start) *(.text*) }
    .data : { *(.rodata*) *(.data*) }
    .bss : { *(.bss*) *(COMMON) }
    . = ALIGN(8);
    . = . + 0x10000;
    stack_top = .;
}
