# shellcheck shell=sh disable=SC2034,SC2154
# The list of targets. `choose_target NAME` sets, for one of them:
#
#     triple, words     the words for clang
#     c_words           further words for C alone
#     board             the folder of its board in ../boards; none for aarch64-small and wasm
#     flash, ram        the addresses of flash and memory on that board
#     machine           the words that start qemu; {} is replaced by the firmware
#     memory_at         the address of the memory as qemu's monitor sees it
#     user              what runs a program that is made for it, and the package that has it
TARGETS="m0 m3 m4 m7 m33 rv32 rv64 aarch64-small wasm"

choose_cortex_m() {
    triple=$1; words="-mcpu=$2 ${FLOAT:--mfloat-abi=soft}"; c_words="-fshort-enums${FLOAT:+ -DUIP_HARD_FLOAT}"
    board=mps2-an386; flash=0x00000000 ram=0x20000000; machine="qemu-system-arm -M $3 -kernel {}"
    user=qemu-arm package=qemu-user
}

choose_riscv() {
    triple=riscv$1-unknown-elf; words=$2
    board=virt-rv32; flash=0x20000000 ram=0x80000000
    machine="qemu-system-riscv$1 -M virt -bios none -drive if=pflash,unit=0,format=raw,readonly=on,file={}"
    user=qemu-riscv$1 package=qemu-user
}

choose_target() {
    c_words='' memory_at=''
    case "$1" in
    m0) choose_cortex_m thumbv6m-none-eabi cortex-m0plus mps2-an386;;    # a Cortex-M4, which runs the code of an M0+
    m3) choose_cortex_m thumbv7m-none-eabi cortex-m3 mps2-an385;;
    m4) choose_cortex_m thumbv7em-none-eabi cortex-m4 mps2-an386;;
    m7) choose_cortex_m thumbv7em-none-eabi cortex-m7 mps2-an500;;
    m33) choose_cortex_m thumbv8m.main-none-eabi cortex-m33+nodsp mps2-an505
        flash=0x10000000 ram=0x38000000 memory_at=0x28000000 user="qemu-arm -cpu max"
        c_words="$c_words -DUART=0x50200000 -DLINE=32 -DCLOCK=20000000";;
    rv32) choose_riscv 32 "-march=rv32imac -mabi=ilp32";;
    rv64) choose_riscv 64 "-march=rv64imac -mabi=lp64 -mcmodel=medany";;
    aarch64-small) triple=aarch64-none-elf words='' board='' machine='' user=qemu-aarch64 package=qemu-user;;    # examples/board runs it
    wasm) triple=wasm32-unknown-unknown words='-mbulk-memory -fvisibility=hidden' board='' machine='' user="node $ports/same/replay.mjs" package=nodejs;;
    *) fail "no target $1; the targets are: $TARGETS";;
    esac
    words="--target=$triple $words"
    memory_at=${memory_at:-$ram}
}
