// The second boot stage of an RP2040 (datasheet, section 2.8.1.3.1): its ROM copies these 256 bytes from the flash to its memory, checks their
// checksum, which uf2.py adds, and runs them. They let the flash be read as memory, by the plain read command 03h that each flash has, at a sixth
// of the clock, and jump to the vectors behind them. The registers are those of the SSI (section 4.10.13).
    .syntax unified
    .cpu cortex-m0plus
    .thumb
    .section .boot, "ax"
    ldr     r3, ssi
    movs    r0, #0
    str     r0, [r3, #0x08]             // SSIENR: off
    movs    r0, #6
    str     r0, [r3, #0x14]             // BAUDR: the clock by 6
    ldr     r0, form
    str     r0, [r3, #0x00]             // CTRLR0
    movs    r0, #0
    str     r0, [r3, #0x04]             // CTRLR1: one word a read
    ldr     r1, command
    ldr     r2, spi_form
    str     r1, [r2]                    // SPI_CTRLR0
    movs    r0, #1
    str     r0, [r3, #0x08]             // SSIENR: on
    ldr     r0, vectors
    ldr     r1, vector_table
    str     r0, [r1]                    // VTOR
    ldmia   r0, {r0, r1}
    msr     msp, r0
    bx      r1
    .balign 4
ssi:            .word 0x18000000
spi_form:       .word 0x180000f4
form:           .word 0x001f0300        // frames of 32 bits, standard SPI, EEPROM read
command:        .word 0x03000218        // 03h; an instruction of 8 bits, an address of 24
vectors:        .word 0x10000100
vector_table:   .word 0xe000ed08
    .org    256                         // as long as its ROM reads
