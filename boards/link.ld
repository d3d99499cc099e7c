/* Where the parts of a firmware are: its board.mk has the addresses and sizes. The linker refuses what does not fit. The stack is lowest, at the
   start of the memory, so that a stack that grows too far leaves the memory and faults. The start code clears .bss and copies .data, and the heap
   needs neither. */
MEMORY {
    FLASH (rx) : ORIGIN = flash_at, LENGTH = flash_len
    RAM (rw)   : ORIGIN = ram_at, LENGTH = ram_len
}
ENTRY(_start)
SECTIONS {
    .text : { __flash_start = .; KEEP(*(.boot)) KEEP(*(.start)) *(.text .text.*) } > FLASH
    .rodata : { *(.rodata .rodata.* .srodata .srodata.* .data.rel.ro .data.rel.ro.*)
              . = ALIGN(4); __init_array_start = .; KEEP(*(.init_array .init_array.*)) __init_array_end = .; . = ALIGN(8); __data_from = .; } > FLASH
    .stack (NOLOAD) : { __stack_low = .; . += stack_len; __stack_top = .; } > RAM
    .data : AT(__data_from) { . = ALIGN(8); __data_start = .; *(.data .data.* .sdata .sdata.* .got .got.*) . = ALIGN(8); __data_end = .; } > RAM
    __flash_end = __data_from + (__data_end - __data_start);
    .heap (NOLOAD) : { *(.bss.heap_area) } > RAM
    .bss (NOLOAD) : { . = ALIGN(16); __bss_start = .; *(.bss .bss.* .sbss .sbss.* COMMON) . = ALIGN(16); __bss_end = .; } > RAM
    ASSERT(__flash_end <= flash_at + flash_len, "the firmware does not fit into the flash")
    /DISCARD/ : { *(.comment) *(.note*) *(.eh_frame*) *(.ARM.ex*) *(.llvm_addrsig) }
}
