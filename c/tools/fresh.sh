#!/bin/bash
# fresh.sh OUT ROOT: tries what c/release.sh made in OUT in a fresh Debian 12, as a person gets it: packages, and the tar.gz for any prefix.
# ROOT is the folder of that Debian; where it isn't there, debootstrap makes it, which wants root, a network, and 500 MB. What is run there
# has a network of its own, so that no port is taken. Without debootstrap, or without root, it is left out. MIRROR is Debian's.
set -uo pipefail
here=$(cd "$(dirname "$0")" && pwd)
usage="usage: fresh.sh OUT ROOT"
if [ "${1-}" != --within ]; then
    out=$(cd "${1:?$usage}" && pwd) || exit 1
    root=${2:?$usage}
    left=
    for tool in debootstrap unshare ip chroot python3; do command -v $tool >/dev/null || left="no $tool"; done
    [ "$(id -u)" = 0 ] || left="not root"
    [ -z "$left" ] || { echo "fresh.sh: left out, $left" && exit 0; }
    if [ ! -d "$root/usr" ]; then
        debootstrap --variant=minbase --include=gcc,libc6-dev,pkg-config bookworm "$root" "${MIRROR:-http://deb.debian.org/debian}" >/dev/null || exit 1
    fi
    rm -rf "$root/fresh" && mkdir "$root/fresh" && cp "$out"/*.deb "$out"/*.tar.gz "$root/fresh/" || exit 1
    exec unshare --net "$0" --within "$(cd "$root" && pwd)"
fi

root=$2
ip link set lo up
failed=0
# try NAME COMMAND..: says whether it ends with status 0
try() {
    local name=$1
    shift
    if "$@" >"$root/fresh/log" 2>&1; then
        echo "ok      $name"
    else
        failed=1
        echo "FAILED  $name"
        sed 's/^/        /' "$root/fresh/log" | tail -n 20
    fi
}
enter=(env -i PATH=/usr/sbin:/usr/bin:/sbin:/bin LC_ALL=C HOME=/root chroot "$root" sh -c)
within() { "${enter[@]}" "cd /fresh && $*"; }
# serves WANTED COMMAND..: there is a server on port 5900, and a viewer sees this
serves() {
    local wanted=$1 pid status=1
    shift
    "${enter[@]}" "cd /fresh && exec $*" &
    pid=$!
    for _ in $(seq 100); do
        grep -q ':170C 00000000:0000 0A' /proc/net/tcp && break
        sleep 0.05
    done
    python3 "$here/look.py" 5900 >"$root/fresh/seen" && grep -qE "$wanted" "$root/fresh/seen" && status=0
    cat "$root/fresh/seen"
    kill "$pid"
    wait "$pid" 2>/dev/null
    return $status
}

sed -n '/^```c$/,/^```$/p' "$here/../../README.md" | grep -v '^```' >"$root/fresh/dots.c"
cat >"$root/fresh/grey.c" <<'C'
#include "rfb_compat.h"

int main(int argc, char **argv)
{
    rfbScreenInfoPtr screen = rfbGetScreen(&argc, argv, 64, 48, 8, 3, 4);
    screen->frameBuffer = malloc(64 * 48 * 4);
    memset(screen->frameBuffer, 0x80, 64 * 48 * 4);
    screen->desktopName = "grey";
    screen->port = 5900;
    rfbInitServer(screen);
    rfbRunEventLoop(screen, -1, FALSE);
}
C
of_dots="640 by 480, 1 colours, dots"
of_clock="172 by 44, 3 colours, clock"
of_grey="64 by 48, 1 colours, grey"

# ---- the packages
try "packages are installed" within 'dpkg -i *.deb'
try "the README's program compiles" within 'cc dots.c $(pkg-config --cflags --libs vnc_server) -o dots'
try "it runs" serves "$of_dots" ./dots
try "an example is linked with the archive" within 'cc /usr/share/doc/libvnc-server-dev/examples/clock.c -o clock $(pkg-config --variable=libdir vnc_server)/libvnc_server.a'
try "it runs" serves "$of_clock" ./clock 5900 60
try "a program with LibVNCServer's names compiles" within 'cc grey.c $(pkg-config --variable=sources rfb_compat) $(pkg-config --cflags --libs rfb_compat) -o grey'
try "it runs" serves "$of_grey" ./grey
try "each call has a page" within 'for it in vnc_server_listen vnc_screen_cut vnc_update_output vnc_waker_wake; do zcat /usr/share/man/man3/$it.3.gz | grep -q "$it" || exit 1; done'
if [ -x "$root/usr/bin/vncdemo" ]; then try "vncdemo self" within 'vncdemo self | grep -qx "finish ok"'; else echo "left out: vncdemo, which isn't among the packages"; fi
try "packages are purged" within 'dpkg -P vncdemo libvnc-server-dev $(dpkg-query -f "\${Package}\n" -W "libvnc-s*[0-9]")'
try "nothing of them is left" within '[ -z "$(find /usr /etc /var -name "*vnc[-_]s*" -o -name "*vncdemo*" -o -name "rfb_compat*")" ]'

# ---- the tar.gz, here and there
for prefix in /opt/vnc "/root/own"; do
    try "$prefix: it is unpacked" within "mkdir -p $prefix && tar xzf libvnc-server-*.tar.gz --strip-components=1 -C $prefix"
    try "$prefix: the README's program compiles" within "cc dots.c \$(PKG_CONFIG_PATH=$prefix/lib/pkgconfig pkg-config --cflags --libs vnc_server) -o dots"
    try "$prefix: it runs" serves "$of_dots" ./dots
    within "rm -r $prefix"
done
[ "$failed" = 0 ]
