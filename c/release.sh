#!/bin/bash
# release.sh [OPTION ..] VERSION OUT: makes in OUT what a person needs who has no toolchain: a tar.gz for any prefix, and Debian packages of
# the shared objects, of what C programs are compiled with, and of vncdemo. It takes the archives that c/archives.sh left in this checkout,
# and vncdemo as rt ci left it. Everything is made twice, and has to be the same bytes. VERSION is what stands in c/VERSION.
#   --gate LOG         what .ci/run printed, on both streams, in this checkout. Nothing is made where it isn't there, isn't green, or is of
#                      another commit or of other archives
#   --no-licence       nor is anything made without a file LICENSE at the top, but with this
#   --trial            to try packages: what would be refused is made, and its version and its file PROVED say that it is no release
#   --unproved FOLDER  with --trial: over the archives that c/unproved.sh left in FOLDER
# MAINTAINER is whom the packages name, as NAME <ADDRESS>. KIT is the toolchain's folder.
set -euo pipefail
here=$(cd "$(dirname "$0")" && pwd)
usage="usage: release.sh [--gate LOG] [--no-licence] [--trial [--unproved FOLDER]] VERSION OUT"
stop() { echo "release.sh: $*" >&2 && exit 1; }
gate='' no_licence='' trial='' unproved=''
while :; do
    case ${1-} in
    --gate) gate=${2:?$usage} ;;
    --unproved) unproved=${2:?$usage} ;;
    --no-licence) no_licence=yes ;;
    --trial) trial=yes ;;
    -*) stop "$usage" ;;
    *) break ;;
    esac
    case $1 in --gate | --unproved) shift ;; esac
    shift
done
version=${1:?$usage}
out=${2:?$usage}
maintainer=${MAINTAINER:-nobody <nobody@localhost>}
for tool in ar "${CC:-cc}" dpkg-architecture dpkg-deb dpkg-gensymbols dpkg-shlibdeps git gzip python3 strip tar xz; do
    command -v "$tool" >/dev/null || stop "there is no $tool"
done
. "$here/sources.sh"
[ "$version" = "$(cat "$here/VERSION")" ] || stop "c/VERSION has $(cat "$here/VERSION")"
[ -z "$unproved" ] || [ -n "$trial" ] || stop "what nobody proved is for --trial"
if [ ! -f "$top/LICENSE" ]; then
    [ -n "$no_licence" ] || stop "there is no file LICENSE at the top, so nobody could pass on what is made; --no-licence makes it for your own use"
    echo "release.sh: without a licence nobody may pass on what is made" >&2
fi

# ---- what keeps this from being a release
doubts=() state=proved
commit=$(git -C "$top" rev-parse HEAD)
[ -z "$(git -C "$top" status --porcelain -- .ci c crates crates.txt docs)" ] || doubts+=("files differ from those of the commit")
demo=crates/vncdemo/out/vncdemo
made=()
for name in vnc_screen vnc_server; do
    folder=${unproved:-$top/crates/$name/out}
    why=$(lacks "$name" "$folder")
    [ -z "$why" ] || stop "$why"
    is_proved "$name" "$folder" || { state="NOT PROVED" && doubts+=("nobody proved lib$name.a"); }
    made+=("crates/$name/out/lib$name.a")
done
[ -f "$top/$demo" ] || doubts+=("$demo is not there")
if [ -z "$gate" ]; then
    doubts+=("there is no log of .ci/run")
else
    grep -qE '^[0-9]+ passed, 0 failed$' "$gate" || doubts+=("in the log rt ci isn't green")
    grep -qx "status 0, commit $commit" "$gate" || doubts+=("in the log .ci/run isn't green, or is of another commit")
    ! grep -q ': left out, no ' "$gate" || doubts+=("in the log .ci/run leaves something out")
    for it in "${made[@]}" "$demo"; do
        [ ! -f "$top/$it" ] || grep -qx "$(sum_of "$top/$it")  $it" "$gate" || doubts+=("the log is of another $it")
    done
fi
[ -z "$trial" ] || doubts+=("it was made with --trial")
if [ ${#doubts[@]} -gt 0 ]; then
    printf 'release.sh: no release: %s\n' "${doubts[@]}" >&2
    [ -n "$trial" ] || exit 1
    version=$version~trial
fi

# ---- what each package says of itself
verdict_of_demo() { [ -z "$gate" ] || awk '/^== / { on = $0 == "== vncdemo" } on && /^logic=proved /' "$gate"; }
say_proved() {
    echo "version: $version"
    [ ${#doubts[@]} -eq 0 ] || printf 'NO RELEASE: %s\n' "${doubts[@]}"
    echo "commit: $commit"
    echo "toolchain: $(said vnc_server "${unproved:-$top/crates/vnc_server/out}" toolchain)"
    for name in vnc_screen vnc_server; do
        folder=${unproved:-$top/crates/$name/out}
        echo "lib$name.a: sha256 $(sum_of "$folder/lib$name.a"), before the toolchain's C functions were added"
        echo "lib$name.a: $(said "$name" "$folder" verdict)"
    done
    if [ -f "$top/$demo" ]; then
        echo "vncdemo: sha256 $(sum_of "$top/$demo")"
        verdict_of_demo | sed 's/^/vncdemo: /'
    fi
    [ -z "$gate" ] || grep -E '^[0-9]+ passed, |^(rt: )?ok; handles |^status [0-9]' "$gate" | sed 's/^/gate: /' || :
}
# where the code isn't for each processor of the kind, a package says so
processor=$(say_proved | sed -n 's/.* cpu=\([^ ]*\).*/\1/p' | sort -u)
say_processor() {
    [ -n "$processor" ] || return 0
    echo
    echo "It is made for processors that have the instructions of $processor. Not each"
    echo "$arch has them: on an older one it doesn't run."
}

SOURCE_DATE_EPOCH=$(git -C "$top" log -1 --format=%ct)
day=$(date -u -d "@$SOURCE_DATE_EPOCH" +%F)
arch=$(dpkg-architecture -qDEB_HOST_ARCH)
multiarch=$(dpkg-architecture -qDEB_HOST_MULTIARCH)
lib=usr/lib/$multiarch
export SOURCE_DATE_EPOCH LC_ALL=C DPKG_DEB_THREADS_MAX=1

number_of() { sed -n "s/^#define VNC_.*_ABI //p" "$here/$1.h"; }
package_of() { echo "lib${1/_/-}$(number_of "$1")"; }
same_time() { chmod -R u=rwX,go=rX "$1" && find "$1" -exec touch -h -d "@$SOURCE_DATE_EPOCH" {} +; }

# pages PREFIX: the manual below a folder
pages() {
    local man=$1/share/man name
    mkdir -p "$man/man1" "$man/man3"
    sed "s|@VERSION@|$version|; s|@DAY@|$day|" "$top/docs/vncdemo.1" | gzip -9n >"$man/man1/vncdemo.1.gz"
    for name in rfb_compat vnc_screen vnc_server vnc_types; do
        python3 "$here/tools/manpage.py" "$here/$name.h" "$version" "$day" | gzip -9n >"$man/man3/$name.3.gz"
    done
    for name in vnc_screen vnc_server; do
        python3 "$here/tools/manpage.py" --names "$here/$name.h" | while read -r call; do ln -s "$name.3.gz" "$man/man3/$call.3.gz"; done
    done
}

# deb PACKAGE DEPENDS SECTION SHORT < LONG: the package whose files lie in $room/PACKAGE
deb() {
    local tree=$room/$1 doc=$room/$1/usr/share/doc/$1
    [ -n "$2" ] || stop "nobody can say what $1 needs"
    mkdir -p "$tree/DEBIAN" "$doc"
    cp "$room/PROVED" "$doc/"
    cp "$room/copyright" "$doc/"
    gzip -9n <"$room/changelog" >"$doc/changelog.gz"
    {
        echo "Package: $1"
        echo "Source: libvnc-server"
        echo "Version: $version"
        echo "Architecture: $arch"
        echo "Maintainer: $maintainer"
        echo "Installed-Size: $(find "$tree/usr" -type f -printf '%s\n' -o -printf '1\n' | awk '{ n += int(($1 + 1023) / 1024) } END { print n }')"
        echo "Depends: $2"
        [ "$3" != libs ] || echo "Multi-Arch: same"
        echo "Section: $3"
        echo "Priority: optional"
        echo "Description: $4"
        { cat && say_processor; } | sed 's/^$/./; s/^/ /'
    } >"$tree/DEBIAN/control"
    (cd "$tree" && find usr -type f | sort | xargs md5sum) >"$tree/DEBIAN/md5sums"
    same_time "$tree"
    dpkg-deb --root-owner-group -Zxz --build "$tree" "$to/$1_${version}_$arch.deb" >/dev/null
}
# needs FILE: what its system's libraries are in
needs() { (cd "$room/source" && dpkg-shlibdeps -O -e"$1" 2>/dev/null) | sed 's/^shlibs:Depends=//'; }

# shared_object NAME SHORT < LONG
shared_object() {
    local package file
    package=$(package_of "$1")
    file=lib$1.so.$(number_of "$1")
    mkdir -p "$room/$package/$lib" "$room/$package/DEBIAN" "$room/source/debian"
    install -m 644 "$room/all/$lib/$file" "$room/$package/$lib/"
    echo "lib$1 $(number_of "$1") $package (>= $version)" >"$room/$package/DEBIAN/shlibs"
    echo "activate-noawait ldconfig" >"$room/$package/DEBIAN/triggers"
    printf 'Source: libvnc-server\n\nPackage: %s\nArchitecture: any\n' "$package" >"$room/source/debian/control"
    (cd "$room/source" && dpkg-gensymbols -q -p"$package" -v"$version" -e"$room/$package/$lib/$file" \
        -O"$room/$package/DEBIAN/symbols" >/dev/null)
    deb "$package" "$(needs "$room/$package/$lib/$file")" libs "$2"
}

# make_all ROOM TO: everything
make_all() {
    local room=$1 to=$2 tree package
    local -a from=()
    [ -z "$unproved" ] || from=(--unproved "$unproved")
    mkdir -p "$room" "$to"
    say_proved >"$room/PROVED"
    if [ -f "$top/LICENSE" ]; then cp "$top/LICENSE" "$room/copyright"; else echo "There is no licence: nobody may pass this on." >"$room/copyright"; fi
    printf 'libvnc-server (%s) unstable; urgency=medium\n\n  * Made from commit %s.\n\n -- %s  %s\n' "$version" "$commit" "$maintainer" \
        "$(date -u -R -d "@$SOURCE_DATE_EPOCH")" >"$room/changelog"

    # one installation, of which each package has a part
    DESTDIR=$room/all LIBDIR=/$lib "$here/install.sh" "${from[@]}" /usr >/dev/null
    strip --strip-unneeded "$room/all/$lib"/*.so.*
    shared_object vnc_server "VNC server in one thread, $state (shared library)" <<TEXT
A picture, a port and its viewers, over RFB 3.3 to 3.8, in Raw, CopyRect, RRE
and Hextile. There is no password and no encryption.
TEXT
    shared_object vnc_screen "screen of a VNC server, $state (shared library)" <<TEXT
A picture, and the bytes that each viewer is sent. The program has the sockets
and the loop.
TEXT
    package=libvnc-server-dev
    mkdir -p "$room/$package/usr/share/doc/$package/examples"
    pages "$room/$package/usr"
    rm -r "$room/$package/usr/share/man/man1"
    (cd "$room/all" && cp -a --parents usr/include usr/share/rfb_compat "$lib/pkgconfig" "$lib"/*.a "$lib"/*.so "$room/$package/")
    cp "$here"/examples/*.* "$room/$package/usr/share/doc/$package/examples/"
    cp "$top/docs/C_LIBRARY.md" "$room/$package/usr/share/doc/$package/"
    deb "$package" "$(package_of vnc_server) (= $version), $(package_of vnc_screen) (= $version), libc6-dev" libdevel \
        "VNC server in one thread, $state (development files)" <<TEXT
Headers, archives, pkg-config files, manual pages and examples of libvnc_server
and libvnc_screen; and LibVNCServer's names over them, as sources.
TEXT
    if [ -f "$top/$demo" ]; then
        package=vncdemo
        pages "$room/$package/usr"
        rm -r "$room/$package/usr/share/man/man3"
        # (as rt ci left it, with its symbols: its sum stands in PROVED)
        install -D -m 755 "$top/$demo" "$room/$package/usr/bin/vncdemo"
        deb "$package" "$(needs "$room/$package/usr/bin/vncdemo")" net "VNC server to try, and its recorded sessions" <<TEXT
It shows a screen to viewers at 127.0.0.1, and replays sessions that this or a
program with libvnc_server recorded: what a viewer was given, byte for byte.
TEXT
    fi

    tree=$room/libvnc-server-$version
    DESTDIR=$room "$here/install.sh" "${from[@]}" "/libvnc-server-$version" >/dev/null
    strip --strip-unneeded "$tree"/lib/*.so.*
    # (a .pc file says where it lies itself)
    sed -i 's|^prefix=.*|prefix=${pcfiledir}/../..|' "$tree"/lib/pkgconfig/*.pc
    pages "$tree"
    mkdir -p "$tree/share/doc/libvnc-server/examples"
    cp "$here"/examples/*.* "$tree/share/doc/libvnc-server/examples/"
    cp "$top/docs/C_LIBRARY.md" "$room/PROVED" "$room/copyright" "$tree/share/doc/libvnc-server/"
    [ ! -f "$top/$demo" ] || install -D -m 755 "$top/$demo" "$tree/bin/vncdemo"
    same_time "$tree"
    tar -C "$room" --sort=name --owner=0 --group=0 --numeric-owner --format=gnu -c "libvnc-server-$version" |
        gzip -9n >"$to/libvnc-server-$version-linux-$arch.tar.gz"
    (cd "$to" && sha256sum ./*.deb ./*.tar.gz >SHA256SUMS)
}

rooms=$(mktemp -d)
trap 'rm -rf "$rooms"' EXIT
(
    umask 022
    make_all "$rooms/one" "$rooms/first"
)
(
    umask 077
    export TZ=Asia/Tokyo
    make_all "$rooms/another" "$rooms/second"
)
diff -r "$rooms/first" "$rooms/second" >&2 || stop "two runs made different bytes"
mkdir -p "$out"
cp "$rooms/first"/* "$out/"
cat "$out/SHA256SUMS"
