# sources.sh: what archives.sh, unproved.sh, install.sh and release.sh share; they read it, where $here is the folder c.
# Beside an archive lib<name>.a lies its stamp, lib<name>.stamp, which says what the archive is. It keeps an old archive, or another one,
# from being taken for this source's. It is no seal: whoever may write there can write a false one.
top=$(cd "$here/.." && pwd)
kit=${KIT:-$(dirname "$(dirname "$(readlink -f "$(command -v rt)")")")}

sum_of() { sha256sum < "$1" | cut -d ' ' -f 1; }

# what a crate's line of crates.txt names
deps_of() { sed -n "s/^$1\( staticlib\)\{0,1\}://p" "$top/crates.txt"; }

# the crates of this repository below one, each once
below() {
    seen=" "
    todo=$(deps_of "$1")
    while [ -n "$todo" ]; do
        # shellcheck disable=SC2086
        set -- $todo
        next=$1
        shift
        todo=$*
        case $seen in *" $next "*) continue ;; esac
        [ -d "$top/crates/$next" ] || continue
        seen="$seen$next "
        todo="$todo $(deps_of "$next")"
    done
    echo "$seen"
}

# the files of a crate's folder that a proof or a build reads
files_of() { find "$1/src" "$1/specs" "$1/proofs" -type f 2>/dev/null || :; }

# a sum of all that an archive is made of: of its crate and those below, what each uses and its files
source_sum() {
    (
        cd "$top/crates"
        for crate in $1 $(below "$1"); do
            echo "$crate: $(deps_of "$crate")"
            files_of "$crate" | LC_ALL=C sort | xargs sha256sum
        done
    ) | sha256sum | cut -d ' ' -f 1
}

# what goes with an archive, of the toolchain: the C functions that call malloc, realloc and free, and what a server asks the system besides
support_of() {
    echo "$kit/c/liblibc_c.a"
    [ "$1" != vnc_server ] || echo "$kit/c/libos_c.a"
}

# logged LOG COMMAND..: runs it, and has what it says in a log too
logged() {
    log=$1
    shift
    { "$@" 2>&1 && echo 0 > "$log.status" || echo $? > "$log.status"; } | tee "$log"
    return "$(cat "$log.status")"
}

# verdict_in LOG: the line by which rattle says that an archive is proved
verdict_in() { grep '^logic=proved .*target=' "$1" | tail -n 1; }

# write_stamp NAME FOLDER SOURCE VERDICT: of the archive that was just made there, of sources with this sum
write_stamp() {
    [ -n "$4" ] || { echo "no verdict was printed of $1" >&2; return 1; }
    {
        echo "source: $3"
        echo "archive: $(sum_of "$2/lib$1.a")"
        for it in $(support_of "$1"); do echo "with: $(sum_of "$it") $(basename "$it")"; done
        echo "toolchain: $(head -n 1 "$kit/KIT-ID")"
        echo "verdict: $4"
    } > "$2/lib$1.stamp"
}

# said NAME FOLDER WORD: what the stamp there says
said() { sed -n "s/^$3: //p" "$2/lib$1.stamp"; }

# lacks NAME FOLDER: why the archive there may not be installed as this source's; nothing where it may
lacks() {
    if [ ! -f "$2/lib$1.a" ]; then echo "$2/lib$1.a is not there"
    elif [ ! -f "$2/lib$1.stamp" ]; then echo "$2/lib$1.a has no stamp that says what it is"
    elif [ "$(said "$1" "$2" archive)" != "$(sum_of "$2/lib$1.a")" ]; then echo "$2/lib$1.a is not the file that its stamp speaks of"
    elif [ "$(said "$1" "$2" source)" != "$(source_sum "$1")" ]; then echo "$2/lib$1.a is not made of this source"
    else
        for it in $(support_of "$1"); do
            [ -f "$it" ] || { echo "there is no $it: set KIT to the toolchain's folder"; return; }
            grep -qx "with: $(sum_of "$it") $(basename "$it")" "$2/lib$1.stamp" || { echo "$2/lib$1.a goes with another $it"; return; }
        done
    fi
}

# is_proved NAME FOLDER: whether the archive's stamp has a verdict
is_proved() { said "$1" "$2" verdict | grep -q '^logic=proved '; }
