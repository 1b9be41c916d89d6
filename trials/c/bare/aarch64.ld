ENTRY(reset)
SECTIONS {
    . = 0x40080000;
    .text : { KEEP(*(.start)) *(.text*) *(.rodata*) }
    . = ALIGN(4096); /* the emulator is slow where code and what is written share a page */
    .data : { *(.data*) }
    .bss (NOLOAD) : { bss_start = .; *(.bss*) *(COMMON) . = ALIGN(16); bss_end = .; }
    . = . + 0x4000;
    stack_top = .;
}
