#!/usr/bin/env bash
# refused.sh: runs each test whose name has `whichever` again and again, over what `rt ci` has just left in this checkout: with its first
# allocation refused, with its second, and so on up to its last. Such a test makes a refused call again and wants the same answers then.
# It prints a line a test, and ends with status 1 where one failed. A C compiler is wanted.
set -u
top=$(cd "$(dirname "$0")/.." && pwd)
room=$(mktemp -d)
trap 'rm -rf "$room"' EXIT
${CC:-cc} -Wall -Wextra -Werror -shared -fPIC -o "$room/refuse.so" "$top/c/tools/refuse.c" -ldl || exit 2
failed=0
tests=0

# How many allocations a test makes where none is refused.
allocations() { # PROGRAM TEST
    rm -f "$room/calls"
    FAIL_AT=0 CALLS_TO=$room/calls LD_PRELOAD=$room/refuse.so "$@" >/dev/null 2>&1 && tr -d ' \0' <"$room/calls"
}

for program in "$top"/crates/*/out/*_tests; do
    [ -x "$program" ] || continue
    for test in $("$program" --list | sed -n 's/: test$//p' | grep whichever); do
        # with threads, which allocation is the Nth is the schedule's, and a run may last
        case $test in *receipts_are_right) echo "left out: $(basename "$program" _tests) $test: it has threads" && continue ;; esac
        tests=$((tests + 1))
        last=$(allocations "$program" "$test") || last=0
        # shellcheck disable=SC2016
        seq "$last" | PRELOAD=$room/refuse.so xargs -r -P "$(nproc)" -I{} sh -c \
            'timeout 60 env FAIL_AT={} LD_PRELOAD="$PRELOAD" "$0" "$1" >/dev/null 2>&1 </dev/null || echo {}' "$program" "$test" >"$room/wrong" || echo 0 >>"$room/wrong"
        if [ "$last" -gt 0 ] && [ ! -s "$room/wrong" ]; then
            echo "ok      $(basename "$program" _tests) $test: each of its $last allocations is refused"
        else
            failed=$((failed + 1))
            echo "FAILED  $(basename "$program" _tests) $test: of its $last allocations these: $(sort -n "$room/wrong" | head -n 12 | tr '\n' ' ')"
        fi
    done
done
echo "$tests tests with each allocation refused in turn, $failed failed"
[ "$failed" = 0 ] && [ "$tests" -gt 0 ]
