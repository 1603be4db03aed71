#!/bin/sh
# install.sh PREFIX [LIBRARY ..]: puts vnc_screen and vnc_server, or those that are named, below PREFIX: of each the archive, a shared
# object that exports vnc_* alone, its header and its .pc file; and with vnc_server the sources of rfb_compat, and a .pc file that names
# them. The archives are those that c/archives.sh left. One that is not there, or not of this source, or not proved, is refused.
# install.sh --prove PREFIX [LIBRARY ..]: such a one is proved and made first, by `rt lib` in crates/vnc_screen or crates/vnc_server. From
# nothing that takes over an hour of the processor, and all processors at once.
# install.sh --unproved FOLDER PREFIX [LIBRARY ..]: the archives that c/unproved.sh left in FOLDER, which nobody proved.
# install.sh --uninstall PREFIX: takes all of it away again.
# KIT is the toolchain's folder, whose C functions that call the C library's go in too. LIBDIR is the libraries' folder, in place of
# PREFIX/lib. With DESTDIR all is put below that folder, for a package, and is meant for PREFIX all the same.
set -eu
here=$(cd "$(dirname "$0")" && pwd)
usage="usage: install.sh [--prove | --unproved FOLDER] PREFIX [LIBRARY ..], or install.sh --uninstall PREFIX"
stop() { echo "install.sh: $*" >&2; exit 1; }
prove='' unproved='' uninstall=''
case ${1-} in
--prove) prove=yes ;;
--unproved) unproved=${2:?$usage} ;;
--uninstall) uninstall=yes ;;
-*) stop "$usage" ;;
esac
[ -z "$prove$uninstall" ] || shift
[ -z "$unproved" ] || shift 2
absolute() { # PATH: with no slash at its end
    case $1 in /*) path=$1 ;; *) path=$PWD/$1 ;; esac
    case $path in *[!A-Za-z0-9/._+~,@%=-]*) stop "a .pc file can't name the folder $path" ;; esac
    echo "$path" | sed 's|/*$||'
}
prefix=$(absolute "${1:?$usage}")
shift
lib=$(absolute "${LIBDIR:-$prefix/lib}")
to=${DESTDIR:-}

if [ -n "$uninstall" ]; then
    for name in vnc_screen vnc_server; do
        rm -f "$to$lib/lib$name.a" "$to$lib/lib$name.so" "$to$lib/lib$name.so".[0-9]* "$to$prefix/include/$name.h" "$to$lib/pkgconfig/$name.pc"
    done
    rm -f "$to$prefix/include/vnc_types.h" "$to$lib/pkgconfig/rfb_compat.pc"
    rm -rf "$to$prefix/share/rfb_compat"
    echo "taken away below $prefix"
    exit 0
fi

. "$here/sources.sh"
[ $# -gt 0 ] || set -- vnc_screen vnc_server
version=$(cat "$here/VERSION")
room=$(mktemp -d)
trap 'rm -rf "$room"' EXIT
[ -z "$unproved" ] || [ -f "$unproved/UNPROVED" ] || stop "$unproved has no file UNPROVED: c/unproved.sh didn't make what is there"

# objection NAME: why its archive is refused, if it is
objection() {
    why=$(lacks "$1" "$folder")
    [ -n "$why" ] || [ -n "$unproved" ] || is_proved "$1" "$folder" || why="$folder/lib$1.a is not proved"
    echo "$why"
}

# the folder of an archive that may be installed
find_archive() {
    folder=${unproved:-$top/crates/$1/out}
    why=$(objection "$1")
    if [ -n "$why" ] && [ -n "$prove" ]; then
        echo "install.sh: proving and making $1, since $why" >&2
        source=$(source_sum "$1")
        rm -f "$folder/lib$1.a" "$folder/lib$1.stamp"
        (cd "$top/crates/$1" && logged "$room/log" rt lib) >&2
        write_stamp "$1" "$folder" "$source" "$(verdict_in "$room/log")"
        why=$(objection "$1")
    fi
    [ -z "$why" ] || stop "$why. c/archives.sh makes it, right behind rt ci; install.sh --prove proves it first, over an hour of the processor"
}

# Where the loader doesn't look by itself, a program is told where the shared object is.
case $lib in /lib | /lib/* | /usr/lib | /usr/lib/*) rpath='' ;; *) rpath='-Wl,-rpath,${libdir} ' ;; esac
case $lib in "$prefix"/*) libdir="\${prefix}${lib#"$prefix"}" ;; *) libdir=$lib ;; esac
sources=$(cd "$here" && printf '${folder}/%s ' rfb_compat*.c)
pc_file() {
    sed "s|@PREFIX@|$prefix|; s|@LIBDIR@|$libdir|; s|@VERSION@|$version|; s|@RPATH@|$rpath|; s|@SOURCES@|${sources% }|
        s|@UNPROVED@|${unproved:+, NOT PROVED}|" "$here/$1.pc.in" > "$to$lib/pkgconfig/$1.pc"
    chmod 644 "$to$lib/pkgconfig/$1.pc"
}

for name; do
    case $name in vnc_screen | vnc_server) ;; *) stop "there is no library $name: $usage" ;; esac
    find_archive "$name"
    made=$folder/lib$name.a
    support=$(support_of "$name")
    # A shared object has the number of its interface in its name and in its symbols: a program meets its own, or doesn't start.
    upper=$(echo "$name" | tr a-z A-Z)
    number=$(sed -n "s/^#define ${upper}_ABI //p" "$here/$name.h")
    shared=lib$name.so.$number
    printf '%s_%s { global: vnc_*; local: *; };\n' "$upper" "$number" > "$room/map"
    # (ar's script takes no path that has a blank, so all is brought together under plain names)
    cp "$made" "$room/made.a"
    parts=made.a
    for it in $support; do cp "$it" "$room/" && parts="$parts $(basename "$it")"; done
    # shellcheck disable=SC2086
    { printf 'CREATE whole.a\n' && printf 'ADDLIB %s\n' $parts && printf 'SAVE\nEND\n'; } > "$room/script"
    (cd "$room" && rm -f whole.a && ar -M < script && mv whole.a "lib$name.a")
    # shellcheck disable=SC2086
    ${CC:-cc} -shared -Wl,--whole-archive "$made" -Wl,--no-whole-archive $support -Wl,--no-undefined -Wl,-z,relro,-z,now \
        -Wl,--version-script="$room/map" -Wl,-soname,"$shared" -o "$room/$shared"
    install -d -m 755 "$to$lib/pkgconfig" "$to$prefix/include"
    install -m 644 "$room/lib$name.a" "$to$lib/"
    install -m 755 "$room/$shared" "$to$lib/"
    ln -sf "$shared" "$to$lib/lib$name.so"
    install -m 644 "$here/$name.h" "$here/vnc_types.h" "$to$prefix/include/"
    pc_file "$name"
    [ "$name" = vnc_server ] || continue
    install -d -m 755 "$to$prefix/share/rfb_compat"
    install -m 644 "$here"/rfb_compat*.[ch] "$to$prefix/share/rfb_compat/"
    if [ -d "$here/rfb" ]; then
        install -d -m 755 "$to$prefix/share/rfb_compat/rfb"
        install -m 644 "$here"/rfb/*.h "$to$prefix/share/rfb_compat/rfb/"
    fi
    pc_file rfb_compat
done
echo "installed below $prefix: $*, version $version${unproved:+, NOT PROVED}"
[ -z "$to" ] || exit 0
[ -n "$rpath" ] || echo "once, as root, so that programs find the shared objects: ldconfig"
echo "to compile a program: cc program.c \$(PKG_CONFIG_PATH=$lib/pkgconfig pkg-config --cflags --libs $name)"
