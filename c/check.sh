#!/bin/bash
# check.sh: compiles the C examples against vnc_screen and vnc_server, and LibVNCServer's names (rfb_compat) with programs that use them,
# and runs them, plain, under valgrind, with the sanitizers for the C that is ours, and with each allocation refused, where these are
# installed. Programs of others run over LibVNCServer's names where a folder of their source is named: LIBVNCSERVER_SOURCE (its examples),
# LIBNSFB_SOURCE (its surface for VNC), LCD4LINUX_SOURCE (its driver) and KRFB_SOURCE (what of it speaks to viewers). The archives that c/archives.sh makes are wanted, or with UNPROVED
# a folder in which c/unproved.sh left some that nobody proved. It prints a line for each thing that it tried or left out, and why; the
# status is 0 where nothing failed.
set -u
here=$(cd "$(dirname "$0")" && pwd)
room=$(mktemp -d)
servers=()
cleanup() { for pid in "${servers[@]}"; do kill "$pid" 2>/dev/null; done; rm -rf "$room"; }
trap cleanup EXIT
CC=${CC:-cc}
strict="-Wall -Wextra -pedantic -Werror"
failed=0
passed=0
left=()
have() { command -v "$1" >/dev/null 2>&1; }
# try NAME COMMAND..: says whether it ends with status 0
try() {
    local name=$1
    shift
    if "$@" >"$room/log" 2>&1; then
        passed=$((passed + 1))
        echo "ok      $name"
    else
        failed=$((failed + 1))
        echo "FAILED  $name"
        sed 's/^/        /' "$room/log" | head -20
        return 1
    fi
}

from=()
if [ -n "${UNPROVED:-}" ]; then
    UNPROVED=$(cd "$UNPROVED" && pwd) || exit 1
    from=(--unproved "$UNPROVED")
fi
try "install.sh" "$here/install.sh" "${from[@]}" "$room/prefix"
[ -f "$room/prefix/lib/libvnc_server.a" ] || exit 1
export PKG_CONFIG_PATH=$room/prefix/lib/pkgconfig LD_LIBRARY_PATH=$room/prefix/lib
flags="-I$room/prefix/include"

# ---- the headers
cat >"$room/both.c" <<END
#include "vnc_screen.h"
#include "vnc_server.h"
static const int version[3] = {VNC_VERSION_MAJOR, VNC_VERSION_MINOR, VNC_VERSION_PATCH}, wanted[3] = {$(tr . , <"$here/VERSION")};
int main(void)
{
    return vnc_screen_abi() != VNC_SCREEN_ABI || vnc_server_abi() != VNC_SERVER_ABI || memcmp(version, wanted, sizeof wanted) ||
           strcmp(VNC_VERSION, "$(cat "$here/VERSION")");
}
END
for standard in c99 c11; do
    # shellcheck disable=SC2086
    try "both headers as $standard" $CC -std=$standard $strict $flags -c -o "$room/both.o" "$room/both.c"
done
if have "${CXX:-c++}"; then
    # shellcheck disable=SC2086
    try "both headers as C++17" "${CXX:-c++}" -std=c++17 $strict $flags -x c++ -c -o "$room/both.o" "$room/both.c"
else
    left+=("C++: no compiler")
fi
numbers() {
    # shellcheck disable=SC2046
    $CC -o "$room/both" "$room/both.c" $(pkg-config --cflags --libs vnc_screen vnc_server) && "$room/both"
}
try "both headers have the numbers of the libraries, and the version" numbers
# A program that was compiled for another interface is refused, and nothing is made for it.
mkdir "$room/other"
cp "$here/vnc_types.h" "$room/other/"
for name in vnc_screen vnc_server; do sed -E 's/^(#define VNC_S[A-Z]*_ABI) .*/\1 99/' "$here/$name.h" >"$room/other/$name.h"; done
cat >"$room/other/other.c" <<END
#include "vnc_screen.h"
#include "vnc_server.h"
int main(void)
{
    int here;
    vnc_screen *screen = (vnc_screen *)&here;
    vnc_server *server = (vnc_server *)&here;
    return vnc_screen_new(2, 1, "x", 1, &screen) != VNC_ERROR_VERSION || vnc_server_new("127.0.0.1", 0, 2, 1, "x", 1, &server) != VNC_ERROR_VERSION ||
           screen || server || vnc_screen_open(0, 2, 1, "x", 1) != VNC_ERROR_VERSION || vnc_server_listen(0, "127.0.0.1", 0, 2, 1, "x", 1) != VNC_ERROR_VERSION ||
           vnc_server_new_unbound(2, 1, "x", 1, &server) != VNC_ERROR_VERSION || vnc_server_serve(0, 2, 1, "x", 1) != VNC_ERROR_VERSION;
}
END
other_number() {
    # shellcheck disable=SC2046
    $CC -I"$room/other" -o "$room/other/other" "$room/other/other.c" $(pkg-config --libs vnc_screen vnc_server) && "$room/other/other"
}
try "a header of another interface is refused" other_number
# What a shared object exports is what its header declares, but for what the header has itself, each in the interface's version.
same_names() {
    local name=$1
    sed -nE 's/^(u?int(32|64)_t|void|size_t) (vnc_[a-z_]+)\(.*/\3/p' "$here/$name.h" | sort -u >"$room/declared"
    nm -D --defined-only "$room/prefix/lib/lib$name.so" | sed -n "s/.* T \(.*\)@@$(tr a-z A-Z <<<"$name")_[0-9]*\$/\1/p" | sort >"$room/exported"
    nm -D --defined-only "$room/prefix/lib/lib$name.so" | grep -vE ' T .*@@| A VNC_' >>"$room/exported"
    diff "$room/declared" "$room/exported"
}
for name in vnc_screen vnc_server; do try "$name.h declares what the library exports" same_names $name; done

# ---- the examples in C, and the programs that use LibVNCServer's names
library_of() { grep -qE 'vnc_server.h|rfb_compat.h' "$1" && echo vnc_server || echo vnc_screen; }
sources_of() { # SOURCE: with what is compiled with it
    echo "$1"
    if grep -q rfb_compat.h "$1"; then echo "-I$here" "$here"/rfb_compat*.c; fi
}
compile() { # SOURCE OUT FLAGS..
    local source=$1 out=$2
    shift 2
    # shellcheck disable=SC2046,SC2086
    $CC -std=c99 $strict -g "$@" $(pkg-config --cflags "$(library_of "$source")") -o "$out" $(sources_of "$source") \
        "$room/prefix/lib/lib$(library_of "$source").a" -lpthread
}
compile_as() { # STANDARD SOURCE: no more than that
    local compiler=$CC language=c
    case $1 in c++*) compiler=${CXX:-c++} language=c++ ;; esac
    # shellcheck disable=SC2046,SC2086
    $compiler -std=$1 $strict $flags -fsyntax-only -x $language $(sources_of "$2")
}
free_port() { python3 -c 'import socket; s = socket.socket(); s.bind(("127.0.0.1", 0)); print(s.getsockname()[1])'; }
# A server runs as the command says, on a port that is free, and is looked at by several viewers until it ends by itself.
looked_at() { # WANTED COMMAND..
    local wanted=$1 port
    shift
    port=$(free_port)
    "${@//PORT/$port}" &
    local server=$!
    servers+=("$server")
    for _ in $(seq 1200); do
        grep -q "$(printf ':%04X 00000000:0000 0A' "$port")" /proc/net/tcp && break
        sleep 0.05
    done
    for _ in 1 2 3; do
        python3 "$here/tools/look.py" "$port" >"$room/seen" || return 1
        grep -qE "$wanted" "$room/seen" || { cat "$room/seen"; return 1; }
    done
    local status=0
    wait "$server" || status=$?
    unset 'servers[-1]' # its number may be another's now
    return "$status"
}
# A program says that everything is as it stands there, and no more than that, and ends well.
says_ok() { # NAME COMMAND..
    local name=$1 said
    shift
    if said=$("$@" 2>"$room/errors") && [ "$said" = "$name ok" ]; then return 0; fi
    echo "$said"
    cat "$room/errors"
    return 1
}
# A command whose input is two colours, and ends after some seconds.
with_input() { (echo 204060; echo ff8000; sleep "$1"; echo 102030) | "${@:2}"; }
run() { # NAME PROGRAM HOW..: each example, as it is to be run
    local name=$1 program=$2 long=5
    shift 2
    case $* in *valgrind*) long=20 ;; esac # which is slow
    case $name in
    play) "$@" "$program" >"$room/played" && cmp "$room/played" "$here/../crates/vncdemo/stdout" ;;
    edges | server_edges | rfb_edges | rfb_drive | screen_calls | screen_drawing | server_calls | server_adopt | server_viewers | server_events | server_limits | server_record | server_web) says_ok "$name" "$@" "$program" ;;
    serve) looked_at "640 by 480, . colours, demo" "$@" "$program" PORT 3 ;;
    threads) looked_at "640 by 480, [23] colours, threads" "$@" "$program" PORT 3 ;;
    clock) looked_at "172 by 44, 3 colours, clock" "$@" "$program" PORT 10 ;;
    sketch) looked_at "640 by 480, [1-4] colours, sketch" "$@" "$program" PORT "$long" ;;
    own_pixels) looked_at "320 by 200, 20[0-9][0-9] colours, own pixels" "$@" "$program" PORT "$long" ;;
    inetd) looked_at "320 by 200, [12] colours, inetd" python3 "$here/tools/inetd.py" PORT 3 "$@" "$program" ;;
    admit) says_ok admit python3 "$here/tools/admit.py" "$@" "$program" ;;
    own_loop) looked_at "320 by 200, 1 colours, own loop" with_input "$long" "$@" "$program" PORT ;;
    *) "$@" "$program" ;;
    esac
}
have python3 || { echo "check.sh: python3 is wanted" >&2; exit 1; }
valgrind="valgrind -q --error-exitcode=9 --leak-check=full --show-leak-kinds=all --errors-for-leak-kinds=all"
printf 'int main(void) { return 0; }\n' >"$room/none.c"
# shellcheck disable=SC2086
if ! { $CC -o "$room/none" "$room/none.c" && $valgrind "$room/none"; } >/dev/null 2>&1; then
    valgrind=
    left+=("valgrind: not installed, or it runs nothing here")
fi
sanitize="-fsanitize=address,undefined -fno-sanitize-recover=all"
# shellcheck disable=SC2086
if ! { $CC $sanitize -o "$room/none" "$room/none.c" && "$room/none"; } 2>/dev/null; then
    sanitize=
    left+=("sanitizers: not installed")
fi
for source in "$here"/examples/*.c "$here"/tools/{rfb_edges,rfb_drive,screen_calls,screen_drawing,server_calls,server_adopt,server_viewers,server_events,server_limits,server_record,server_web}.c; do
    name=$(basename "$source" .c)
    for standard in c99 c11 c++17; do
        case $standard in c++*) have "${CXX:-c++}" || continue ;; esac
        try "$name: compiles without a warning as $standard" compile_as $standard "$source"
    done
    try "$name: links" compile "$source" "$room/$name"
    [ -x "$room/$name" ] || continue
    try "$name: runs" run "$name" "$room/$name"
    # shellcheck disable=SC2086
    [ -n "$valgrind" ] && try "$name: under valgrind" run "$name" "$room/$name" $valgrind
    if [ -n "$sanitize" ]; then
        # shellcheck disable=SC2086
        try "$name: compiles with sanitizers" compile "$source" "$room/$name-san" $sanitize
        try "$name: runs with sanitizers" run "$name" "$room/$name-san"
    fi
    # shellcheck disable=SC2046,SC2086
    try "$name: links with the shared object" $CC -std=c99 $(pkg-config --cflags "$(library_of "$source")") -o "$room/$name-so" $(sources_of "$source") $(pkg-config --libs "$(library_of "$source")") -lpthread
    try "$name: runs with the shared object" run "$name" "$room/$name-so"
done

# ---- the program in the README, by what pkg-config says alone; it never ends by itself
sed -n '/^```c$/,/^```$/p' "$here/../README.md" | grep -v '^```' >"$room/readme.c"
readme() { # PORT
    sed "s/5900/$1/" "$room/readme.c" >"$room/dots.c"
    # shellcheck disable=SC2046,SC2086
    $CC -std=c99 $strict -o "$room/dots" "$room/dots.c" $(pkg-config --cflags --libs vnc_server) || return 1
    env -u LD_LIBRARY_PATH timeout 5 "$room/dots"
    [ $? = 124 ]
}
try "the README's program compiles as its command line says, and runs" looked_at "640 by 480, [12] colours, dots" readme PORT

printf '#include <rfb_compat.h>\nint main(void) { rfbScreenCleanup(rfbGetScreen(0, 0, 8, 8, 8, 3, 4)); return 0; }\n' >"$room/names.c"
names() {
    # shellcheck disable=SC2046
    $CC -std=c99 -o "$room/names" "$room/names.c" $(pkg-config --variable=sources rfb_compat) $(pkg-config --cflags --libs rfb_compat) &&
        env -u LD_LIBRARY_PATH "$room/names"
}
try "LibVNCServer's names compile as rfb_compat.pc says, and run" names

# ---- install.sh: for a package, and below a relative prefix
staged() {
    DESTDIR=$room/stage "$here/install.sh" "${from[@]}" /opt/vnc || return 1
    diff <(cd "$room/stage/opt/vnc" && find . | sort) <(cd "$room/prefix" && find . | sort) && ! grep -rl "$room/stage" "$room/stage"
}
try "install.sh: below DESTDIR are the same files, which don't name it" staged
relative() {
    (cd "$room" && "$here/install.sh" "${from[@]}" relative/ vnc_screen) || return 1
    [ "$(PKG_CONFIG_PATH=$room/relative/lib/pkgconfig pkg-config --variable=prefix vnc_screen)" = "$room/relative" ]
}
try "install.sh: a relative prefix is made absolute" relative
# What it refuses, in a copy of this repository where an archive may be a wrong one: nothing is installed, and it says why.
copy=$room/copy
made=$copy/crates/vnc_screen/out
mkdir -p "$made"
cp -R "$here" "$copy/c"
cp "$here/../crates.txt" "$copy/"
for it in "$here"/../crates/*/; do
    [ "$(basename "$it")" = vnc_screen ] || ln -s "$(cd "$it" && pwd)" "$copy/crates/"
done
cp -R "$here"/../crates/vnc_screen/{src,specs,proofs} "$copy/crates/vnc_screen/"
refused_as() { # WORDS CHANGE ARGUMENT..
    local words=$1 change=$2 status=1
    shift 2
    cp "${UNPROVED:-$here/../crates/vnc_screen/out}"/libvnc_screen.{a,stamp} "$made/" || return 1
    (cd "$copy/crates/vnc_screen" && eval "$change")
    "$copy/c/install.sh" "$@" "$room/refused" vnc_screen >"$room/errors" 2>&1 || status=0
    cat "$room/errors"
    [ "$status" = 0 ] && grep -q "$words" "$room/errors" && [ ! -e "$room/refused" ]
}
try "install.sh: no archive" refused_as "is not there" "rm out/*.a"
try "install.sh: no stamp" refused_as "has no stamp" "rm out/*.stamp"
try "install.sh: another archive" refused_as "is not the file that its stamp speaks of" "echo >>out/libvnc_screen.a"
try "install.sh: another toolchain" refused_as "goes with another" "sed -i 's/^with: ./with: x/' out/libvnc_screen.stamp"
try "install.sh: an archive that nobody proved" refused_as "is not proved" "sed -i 's/^verdict: .*/verdict: none: not proved/' out/libvnc_screen.stamp"
try "install.sh: unproved.sh's, but of another" refused_as "has no file UNPROVED" true --unproved "$made"
try "install.sh: another source" refused_as "is not made of this source" "echo >>src/lib.rt"

# ---- packages to try, which release.sh makes twice and compares; a release wants a gate's log
if git -C "$here" rev-parse HEAD >/dev/null 2>&1 && have dpkg-gensymbols; then
    try "release.sh: packages to try" "$here/release.sh" --trial --no-licence "${from[@]}" "$(cat "$here/VERSION")" "$room/packages"
    no_release() { ! "$here/release.sh" --no-licence "$(cat "$here/VERSION")" "$room/no_packages" && [ ! -e "$room/no_packages" ]; }
    try "release.sh: no release without a gate's log" no_release
else
    left+=("packages: no git checkout, or no dpkg-dev")
fi

# ---- callers in other languages
try "sketch.py: runs" looked_at "640 by 480, [1-4] colours, sketch" python3 "$here/examples/sketch.py" PORT 5
printf 'unsafe extern "C" {}\n\nfn main() {}\n' >"$room/none.rs"
if (cd "$room" && rustc --edition 2021 none.rs) >/dev/null 2>&1; then
    try "clock.rs: compiles without a warning" rustc --edition 2021 -D warnings -L "$room/prefix/lib" -l static=vnc_server -o "$room/clock-rs" "$here/examples/clock.rs"
    try "clock.rs: runs" looked_at "172 by 44, 3 colours, clock" "$room/clock-rs" PORT 5
else
    left+=("clock.rs: no rustc, or one before 1.82")
fi

# ---- the names of keys: X11's numbers, and all of LibVNCServer's names
numbers_of() { $CC -dM -E -x c "$@" | grep -E '^#define XK_[A-Za-z0-9_]+ 0x' | while read -r _ name number; do echo "$name $((number))"; done | LC_ALL=C sort; }
lacks_none() { # OURS THEIRS: each line of theirs is a line of ours
    [ -s "$2" ] && [ -z "$(LC_ALL=C comm -13 "$1" "$2")" ]
}
numbers_of "$here/rfb/keysym.h" >"$room/keysyms"
printf '#define XK_MISCELLANY\n#define XK_XKB_KEYS\n#define XK_LATIN1\n#define XK_LATIN2\n#define XK_LATIN3\n#define XK_LATIN4\n#define XK_GREEK\n#define XK_CURRENCY\n#include <X11/keysymdef.h>\n' >"$room/x11.c"
if $CC -E "$room/x11.c" >/dev/null 2>&1; then
    numbers_of "$room/x11.c" >"$room/of_x11"
    try "rfb/keysym.h has X11's numbers" lacks_none "$room/of_x11" "$room/keysyms"
else
    left+=("X11's numbers of keys: no X11/keysymdef.h")
fi

# ---- programs of others over LibVNCServer's names, where a folder of their source is named: LIBVNCSERVER_SOURCE, its examples;
# LIBNSFB_SOURCE, its surface for VNC; LCD4LINUX_SOURCE, its driver for VNC; KRFB_SOURCE, what of it speaks to viewers
pkg-config --exists libvncserver || left+=("programs of others beside LibVNCServer: it is not installed")
rfb_examples() { python3 "$here/tools/rfb_examples.py" "$LIBVNCSERVER_SOURCE" "$room/prefix" "$room/rfb_examples" "$@"; }
if [ -n "${LIBVNCSERVER_SOURCE:-}" ]; then
    mkdir "$room/rfb_examples"
    numbers_of "$LIBVNCSERVER_SOURCE/rfb/keysym.h" >"$room/of_libvncserver"
    try "rfb/keysym.h has LibVNCServer's names" lacks_none "$room/keysyms" "$room/of_libvncserver"
    try "LibVNCServer's examples" rfb_examples && sed 's/^/        /' "$room/log"
    [ -n "$valgrind" ] && try "LibVNCServer's examples under valgrind" rfb_examples valgrind -q --leak-check=full && sed 's/^/        /' "$room/log"
else
    left+=("LibVNCServer's examples: LIBVNCSERVER_SOURCE names no folder of its source")
fi
rfb_program() { # NAME VARIABLE
    if [ -n "${!2:-}" ]; then
        mkdir "$room/rfb_$1"
        try "$1 over LibVNCServer's names" python3 "$here/tools/rfb_programs.py" "$1" "${!2}" "$room/prefix" "$room/rfb_$1" && sed 's/^/        /' "$room/log"
    else
        left+=("$1: $2 names no folder of its source")
    fi
}
rfb_program nsfb LIBNSFB_SOURCE
rfb_program lcd4linux LCD4LINUX_SOURCE
if [ -n "${KRFB_SOURCE:-}" ]; then
    mkdir "$room/rfb_krfb"
    rfb_krfb() { python3 "$here/tools/rfb_krfb.py" "$KRFB_SOURCE" "$room/prefix" "$room/rfb_krfb"; }
    krfb_or_no_qt() { rfb_krfb || [ $? = 77 ]; }
    try "krfb over LibVNCServer's names, where Qt is" krfb_or_no_qt && sed 's/^/        /' "$room/log"
else
    left+=("krfb: KRFB_SOURCE names no folder of its source")
fi

# ---- memory that is refused: whichever call of malloc, calloc or realloc it is, the program goes on to its end, or ends by itself
refused() { # PROGRAM FIRST LAST ARGUMENT..
    local program=$1 first=$2 last=$3
    shift 3
    # shellcheck disable=SC2016
    seq "$first" "$last" | PRELOAD=$room/refuse.so xargs -P "$(nproc)" -I{} sh -c 'timeout 60 env FAIL_AT={} LD_PRELOAD="$PRELOAD" "$0" "$@" >/dev/null 2>&1 </dev/null; [ $? -lt 124 ] || { echo "refused: {}"; exit 1; }' "$room/$program" "$@"
}
# and where a program makes what is refused memory once more, whichever it is, it ends well
right() { # PROGRAM
    # shellcheck disable=SC2016
    CALLS_TO=$room/allocations LD_PRELOAD=$room/refuse.so "$room/$1" && [ "$(tr -d '\0 ' <"$room/allocations")" -gt 1000 ] &&
        seq 1 "$(tr -d '\0 ' <"$room/allocations")" | PRELOAD=$room/refuse.so xargs -P "$(nproc)" -I{} sh -c 'timeout 60 env FAIL_AT={} LD_PRELOAD="$PRELOAD" "$0" >/dev/null 2>&1 </dev/null || { echo "refused: {}"; exit 1; }' "$room/$1"
}
# shellcheck disable=SC2086
if $CC -Wall -Wextra -Werror -shared -fPIC -o "$room/refuse.so" "$here/tools/refuse.c" -ldl; then
    for name in play edges server_edges rfb_edges screen_calls; do try "$name: each of its first 150 allocations is refused" refused "$name" 1 150; done
    try "rfb_edges, its second half first: each of its first 150 allocations is refused" refused rfb_edges 1 150 second
    for name in rfb_drive server_calls server_adopt server_viewers server_events server_limits server_record server_web; do
        try "$name: each of its first 150 allocations is refused" refused "$name" 1 150 soon
    done
    try "screen_drawing: each of its allocations is refused, and its answers stand" right screen_drawing
    for name in clock sketch own_pixels own_loop; do try "$name: each of its first 40 allocations is refused" refused "$name" 1 40 0 1; done
else
    left+=("refused memory: no shared object")
fi

# ---- viewers of others
if have vncsnapshot; then
    snapshot() {
        local port
        port=$(free_port)
        "$room/clock" "$port" 4 &
        servers+=($!)
        sleep 1
        vncsnapshot -quiet "127.0.0.1::$port" "$room/clock.jpg" && [ -s "$room/clock.jpg" ] && wait $!
    }
    try "clock: vncsnapshot has a picture of it" snapshot
else
    left+=("vncsnapshot: not installed")
fi

try "install.sh --uninstall" "$here/install.sh" --uninstall "$room/prefix"
try "nothing of it is left" test -z "$(find "$room/prefix" -type f -o -type l)"
for what in "${left[@]}"; do echo "left out: $what"; done
[ -z "${UNPROVED:-}" ] || echo "the archives were not proved"
echo "$passed ok, $failed failed, ${#left[@]} left out"
[ "$failed" = 0 ]
