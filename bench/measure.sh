#!/bin/bash
# measure.sh PROGRAM OUT [beside|alone|hostile|alike [OPTION..]] - the tables of docs/PERFORMANCE.md, or one of them.
#
# PROGRAM is a built `vncdemo`. OUT is a folder that gets beside.md, alone.md, hostile.md, alike.md, and each run's numbers as JSON. It
# takes about 35 minutes on an idle machine. Status 0 where every run gave its numbers and every picture was right.
set -u
usage='usage: measure.sh PROGRAM OUT [beside|alone|hostile|alike [OPTION..]]'
PROGRAM=$(realpath "${1:?$usage}") OUT=${2:?$usage}
[ -x "$PROGRAM" ] || { echo "no program $PROGRAM"; exit 2; }
mkdir -p "$OUT" && OUT=$(realpath "$OUT") || exit 2
cd "$(dirname "$0")" && make --silent || exit 2
bad=0
for table in ${3:-beside alone hostile alike}; do
    echo "## $table"
    python3 "$table.py" "$PROGRAM" --json "$OUT/$table.json" "${@:4}" | tee "$OUT/$table.md"
    [ "${PIPESTATUS[0]}" = 0 ] || bad=1
    echo
done
exit $bad
