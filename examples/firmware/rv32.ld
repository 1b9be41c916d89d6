/* The emulated board's memory, of which 256 KB are used; the emulator loads all of it. A board's own numbers stand here. */
MEMORY {
    ram (rwx) : ORIGIN = 0x80000000, LENGTH = 256K
}
ENTRY(reset)
SECTIONS {
    .text : { KEEP(*(.start)) *(.text*) *(.rodata*) *(.srodata*) } > ram
    /* The emulator is slow where code and what is written share a page of 4096 bytes. */
    .data : ALIGN(4096) { *(.data*) __global_pointer$ = . + 0x800; *(.sdata*) } > ram
    .bss (NOLOAD) : ALIGN(4096) { bss_start = .; *(.sbss*) *(.bss*) *(COMMON) . = ALIGN(16); bss_end = .; } > ram
    stack_top = ORIGIN(ram) + LENGTH(ram);
    ASSERT(stack_top - bss_end >= 8192, "no room for the stack")
}
