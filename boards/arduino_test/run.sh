#!/bin/sh
# Makes the Arduino library (packaging/arduino.sh), compiles its sketch as a core does (g++ without exceptions), and runs it on qemu's micro:bit:
# Linux's TCP fetches every file of its site.
#
#     sh boards/arduino_test/run.sh
#
# Needs arm-none-eabi-g++ (libstdc++-arm-none-eabi-newlib), qemu-system-arm, `ip` and /dev/net/tun.
case "$1" in -h|--help) sed -n '2,7s/^# \{0,1\}//p' "$0"; exit 0;; esac
here=$(cd "$(dirname "$0")" && pwd)
boards=$here/.. top=$here/../.. out=$here/out
example=$top/examples/board
fail() { echo "arduino_test: $1" >&2; exit 1; }
mkdir -p "$out" && rm -f "$out"/*.o || exit 1
sh "$top/packaging/arduino.sh" "$out" >/dev/null || fail "there is no library"
library=$out/arduino/Lowunbisa
words="-mcpu=cortex-m0 -mthumb -Os -ffunction-sections -fdata-sections -Wall -Wextra -I$here -I$library/src -I$example -I$top/examples"
plus="-std=gnu++14 -fno-exceptions -fno-rtti -fno-threadsafe-statics"
# object NAME COMMAND ..
# shellcheck disable=SC2086
object() { name=$1; shift; "$@" $words -c -o "$out/$name.o" || fail "$name was not compiled"; }
# shellcheck disable=SC2086
{
object sketch arm-none-eabi-g++ $plus -x c++ -include Arduino.h "$library/examples/Site/Site.ino"
object wrapper arm-none-eabi-g++ $plus "$library/src/Lowunbisa.cpp"
object core arm-none-eabi-g++ $plus -ffreestanding -fno-builtin "$here/core.cpp"
object uip arm-none-eabi-gcc "$library/src/uip.c"
object board arm-none-eabi-gcc -ffreestanding -DLOOP_WAITS -DRING=512 "$boards/microbit/board.c"
object ring arm-none-eabi-gcc -ffreestanding -DRING=512 "$example/ring.c"
object runtime arm-none-eabi-gcc -ffreestanding -fno-builtin "$example/runtime.c"
}
sizes="flash_at=0 flash_len=256K ram_at=0x20000000 ram_len=16K stack_len=8192"
# shellcheck disable=SC2046
arm-none-eabi-gcc -mcpu=cortex-m0 -mthumb -nostdlib -T "$boards/link.ld" -Wl,--gc-sections $(printf -- '-Wl,--defsym=%s ' $sizes) "$out"/*.o -lgcc \
    -o "$out/firmware.elf" || fail "the sketch was not linked"
arm-none-eabi-objcopy -O ihex "$out/firmware.elf" "$out/firmware.hex" || exit 1
arm-none-eabi-size "$out/firmware.elf"
python3 "$top/examples/browse.py" --board "$out/firmware.hex" --machine "qemu-system-arm -M microbit -device loader,file={}" -- \
    python3 "$top/examples/fetch.py" "$top/packaging/arduino/site" && echo "passed: the sketch on the micro:bit of qemu"
