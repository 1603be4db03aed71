#!/bin/sh
# archives.sh [--cpu NAME]: makes the archives of vnc_screen and vnc_server over the libraries that `rt ci` has just left in this checkout,
# in minutes, where `rt lib` would prove the crates below once more; and beside each its stamp (sources.sh). A library that is older than
# its source is refused. NAME is the processor that the code is for: x86-64 is each of that kind, x86-64-v2 what is taken else. KIT is the
# toolchain's folder.
set -eu
here=$(cd "$(dirname "$0")" && pwd)
usage="usage: archives.sh [--cpu NAME]"
case ${1-} in
'') cpu='' ;;
--cpu) cpu=--cpu=${2:?$usage} ;;
*) echo "$usage" >&2 && exit 2 ;;
esac
. "$here/sources.sh"
room=$(mktemp -d)
trap 'rm -rf "$room"' EXIT

for name in vnc_screen vnc_server; do
    set -- --extern "std=$kit/rlibs/std.rlib" -L "dependency=$kit/rlibs"
    for dep in $(deps_of "$name"); do
        library=$top/crates/$dep/out/rlib/$dep.rlib
        [ -d "$top/crates/$dep" ] || library=$kit/rlibs/$dep.rlib
        set -- "$@" --extern "$dep=$library"
    done
    for dep in $(below "$name"); do
        library=crates/$dep/out/rlib/$dep.rlib
        [ -d "$top/$library" ] || { echo "archives.sh: $library is not there: run rt ci" >&2 && exit 1; }
        # (rt ci puts back what an earlier rt check or rt lib left)
        # shellcheck disable=SC2046
        newer=$(cd "$top/crates" && find $(files_of "$dep") -newer "$top/$library")
        [ -z "$newer" ] || { echo "archives.sh: older than its source is $library: remove crates/*/out, and run rt ci" >&2 && exit 1; }
        set -- "$@" -L "dependency=$top/crates/$dep/out/rlib"
    done
    out=$top/crates/$name/out
    mkdir -p "$out"
    rm -f "$out/lib$name.a" "$out/lib$name.stamp"
    source=$(source_sum "$name")
    # shellcheck disable=SC2086
    (cd "$top/crates/$name" && logged "$room/log" "$kit/bin/rattle" build --crate-name "$name" src/lib.rt "$@" --crate-type staticlib \
        --antt-project "$kit/rattle/logic/antt-project.json" --logic-built "$kit/logic_built" --jobs 2 --links "$name=" $cpu \
        --toolchain "$kit/toolchain" --backend llvm -o "out/lib$name.a")
    write_stamp "$name" "$out" "$source" "$(verdict_in "$room/log")"
done
