#!/bin/sh
# Tries Linux's own SLIP (slip.ko, slattach) against the firmware of a board: Debian's kernel and the board, each under qemu, joined by a serial
# line. Linux pings the board, and fetches every file of the site, with an MTU of 1006 and of 296.
#
#     sh boards/slip.sh [BOARD]         BOARD is lm3s6965evb if none is given
#
# Needs qemu-system-x86_64, the qemu of the board, slattach (net-tools) and what the Makefile needs. It downloads the packages of the kernel and of
# busybox by `apt-get download` into boards/out/slip, and installs none. X86 names another qemu-system-x86_64, and LIMIT the seconds for
# each boot (300).
case "$1" in -h|--help) sed -n '2,10s/^# \{0,1\}//p' "$0"; exit 0;; esac
here=$(cd "$(dirname "$0")" && pwd)
board=${1:-lm3s6965evb}
out=$here/out/slip
site=$here/../examples/site
x86=${X86:-qemu-system-x86_64}
fail() { echo "slip.sh: $1" >&2; exit 1; }
for tool in "${x86%% *}" slattach apt-get dpkg-deb; do command -v "$tool" >/dev/null || fail "no command $tool here"; done
mkdir -p "$out"

packages() {
    cd "$out" || exit 1
    image=$(apt-cache depends linux-image-amd64 | sed -n 's/.*Depends: \(linux-image-[0-9].*\)/\1/p' | head -1)
    [ -f kernel/done ] && return
    apt-get download -q "$image" busybox-static >/dev/null 2>&1 || fail "apt-get download $image busybox-static failed"
    for package in linux-image*.deb busybox*.deb; do dpkg-deb -x "$package" kernel || fail "$package was not unpacked"; done
    touch kernel/done
}

# A folder with what the kernel runs: init, busybox, slattach with its libraries, the modules and the site.
initramfs() {
    root=$out/root
    rm -rf "$root"
    mkdir -p "$root/bin" "$root/dev" "$root/proc" "$root/sys" "$root/tmp" "$root/run/lock" "$root/var/lock"
    cp "$out/kernel/bin/busybox" "$root/bin/busybox"
    cp "$(command -v slattach)" "$root/bin/slattach"
    ldd "$root/bin/slattach" | grep -o '/[^ ]*' | while read -r library; do
        mkdir -p "$root$(dirname "$library")" && cp -L "$library" "$root$library"
    done
    find "$out/kernel/lib/modules" -name slip.ko -o -name slhc.ko | xargs -I{} cp {} "$root"
    cp -r "$site" "$root/site"
    cat >"$root/init" <<'END'
#!/bin/busybox sh
/bin/busybox --install -s /bin
export PATH=/bin
mount -t devtmpfs none /dev
mount -t proc none /proc
mount -t sysfs none /sys
insmod /slhc.ko && insmod /slip.ko || echo "no module"
mtu=$(sed 's/.*mtu=\([0-9]*\).*/\1/' /proc/cmdline)
# the lines of boards/README.md
slattach -L -p slip -s 115200 /dev/ttyS1 &
until ip link show sl0 >/dev/null 2>&1; do sleep 0.1; done
ip addr add 10.0.0.2 peer 10.0.0.1 dev sl0; ip link set sl0 mtu $mtu up

bad=0
ping -c 5 -W 20 10.0.0.1 | grep 'packet loss'
ping -c 2 -W 20 -s $((mtu - 28)) 10.0.0.1 | grep 'packet loss'
for name in /site/*; do
    file=${name#/site}
    printf 'GET %s HTTP/1.0\r\n\r\n' "$file" | nc -w 20 10.0.0.1 80 >/tmp/reply
    case "$name" in
    *.shtml) grep -q '</html>' /tmp/reply || { echo "not whole: $file"; bad=1; };;
    *) tail -c "$(wc -c <"$name")" /tmp/reply | cmp - "$name" && grep -q '200 OK' /tmp/reply || { echo "not fetched: $file"; bad=1; };;
    esac
done
echo "files: $(ls /site | wc -l), errors of the interface: $(cat /sys/class/net/sl0/statistics/rx_errors)"
[ $bad = 0 ] && echo "all is well at MTU $mtu"
poweroff -f
END
    chmod +x "$root/init"
    (cd "$root" && find . | "$out/kernel/bin/busybox" cpio -o -H newc 2>/dev/null | gzip -1 >"$out/initrd.gz")
}

# boot MTU. The line is a connection of TCP: a UNIX socket has room for some 280 writes of one byte, and the ports of two boards do not get over a
# socket that takes no more. qemu's nRF51 then sets SENT without its interrupt, and its FE310 drops the byte.
boot() {
    port=$(python3 -c 'import socket; it = socket.create_server(("127.0.0.1", 0)); print(it.getsockname()[1])')
    timeout "${LIMIT:-300}" $x86 -accel tcg -m 256 -display none -no-reboot -nic none -kernel "$(ls "$out"/kernel/boot/vmlinuz-*)" -initrd "$out/initrd.gz" \
        -append "console=ttyS0 panic=-1 quiet mtu=$1" -serial "file:$out/told.$1" \
        -chardev "socket,id=line,host=127.0.0.1,port=$port,server=on,wait=off,nodelay=on" -serial chardev:line -monitor none &
    pc=$!
    # shellcheck disable=SC2086
    $(make -s -C "$here" BOARD="$board" SITE="$site" machine | tail -1) -nic none -display none -monitor none \
        -chardev "socket,id=line,host=127.0.0.1,port=$port,nodelay=on,reconnect=1" -serial chardev:line &
    firmware=$!
    wait $pc
    kill $firmware 2>/dev/null
    wait $firmware 2>/dev/null
    tr -d '\r' <"$out/told.$1" | grep -v '^\[' | tail -6
    grep -q "all is well at MTU $1" "$out/told.$1"
}

(packages) || exit 1
initramfs
boot 1006 && boot 296 && echo "passed: Linux's own SLIP and $board"
