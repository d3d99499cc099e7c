// Reset: at 0 in flash, in EL1, with nothing set up. Turns on the SIMD registers, maps flash and memory as ordinary and the devices as
// devices (compiled code makes unaligned accesses, which device memory refuses), and calls begin of board.c. A fault stops behind the reset code, where the table of vectors has its entries, with its cause in
// x0 to x2; where main ends, the board stops with its answer in x0.
    .section .start, "ax"
    .balign 2048
    .global _start
_start:
    mrs     x0, mpidr_el1               // the first processor alone goes on
    and     x0, x0, #0xff
    cbnz    x0, halt
    mov     x0, #(3 << 20)              // CPACR_EL1.FPEN: SIMD instructions do not trap
    msr     cpacr_el1, x0
    adr     x0, _start
    msr     vbar_el1, x0

    adr     x0, map
    msr     ttbr0_el1, x0
    mov     x0, #0x00ff                 // attribute 0: write-back; attribute 1: device nGnRnE
    msr     mair_el1, x0
    ldr     x0, =0x803527               // 32 MB of addresses, 4 KB granule: the walk begins at level 2; none by the other table
    msr     tcr_el1, x0
    tlbi    vmalle1
    ic      iallu
    dsb     nsh
    isb
    mrs     x0, sctlr_el1
    mov     x1, #0x1005                 // M, C and I: the map and both caches
    orr     x0, x0, x1
    msr     sctlr_el1, x0
    isb

    ldr     x2, =__stack_top
    mov     sp, x2
    bl      begin
halt:
    msr     daifset, #2                 // no interrupt goes on behind the end
5:  wfi
    b       5b
    .ltorg

    // Sixteen blocks of 2 MB, from address 0 on. What is not named here is not mapped, so an access to it faults. Of each entry: where
    // it leads; 0x401, a block that is accessed; 0x300, shared; 0x80, not written; 4, attribute 1; bits 53 and 54, not executed.
    .balign 128
    .global map
map:
    .quad   0x0000000000000781          // 0x000000: flash
    .quad   0x0060000008000405          // 0x200000: the interrupt controller
    .quad   0x0060000009000405          // 0x400000: the serial port
    .quad   0
    .quad   0x0060000040000701          // 0x800000: memory
    .fill   11, 8, 0

    .org    0x200                       // a fault
    mrs     x0, esr_el1
    mrs     x1, elr_el1
    mrs     x2, far_el1
    b       .

    .org    0x280                       // an interrupt: what the called function may change is kept, and no SIMD register is
    .global vector_interrupt
vector_interrupt:
    stp     x0, x1, [sp, #-160]!
    stp     x2, x3, [sp, #16]
    stp     x4, x5, [sp, #32]
    stp     x6, x7, [sp, #48]
    stp     x8, x9, [sp, #64]
    stp     x10, x11, [sp, #80]
    stp     x12, x13, [sp, #96]
    stp     x14, x15, [sp, #112]
    stp     x16, x17, [sp, #128]
    stp     x18, x30, [sp, #144]
    bl      board_interrupt
    ldp     x2, x3, [sp, #16]
    ldp     x4, x5, [sp, #32]
    ldp     x6, x7, [sp, #48]
    ldp     x8, x9, [sp, #64]
    ldp     x10, x11, [sp, #80]
    ldp     x12, x13, [sp, #96]
    ldp     x14, x15, [sp, #112]
    ldp     x16, x17, [sp, #128]
    ldp     x18, x30, [sp, #144]
    ldp     x0, x1, [sp], #160
    eret
