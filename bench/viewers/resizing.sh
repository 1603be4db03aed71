#!/bin/bash
# resizing.sh "SERVER COMMAND" [OUT] - TigerVNC under Xvfb, on a screen that its keys + and - double and halve.
#
# {port} in the command is filled in, as in "crates/example_pointer/out/example_pointer {port}". The viewer presses + six times, so
# that its window goes from 12 by 6 to 768 by 384, clicks, and presses - once. OUT gets a picture (PNG) of each size and
# seen.txt. Status 0 where the window had these sizes, and the square's corner was where it belongs.
set -u
COMMAND=${1:?usage: resizing.sh "SERVER COMMAND" [OUT]}
OUT=${2:-$(mktemp -d)}
. "$(dirname "$0")/common.sh"
[ -n "$TIGER" ] || { say "missing: xtigervncviewer"; exit 2; }
COMMAND=${COMMAND//\{port\}/$PORT}
start_server
start_screen 1000 600
"$TIGER" -SecurityTypes None "127.0.0.1::$PORT" >"$OUT/viewer.log" 2>&1 &
PIDS+=($!)
window=$(timeout 10 xdotool search --sync --onlyvisible --name 'follow the pointer' | head -1)
[ -n "$window" ] || { say "no window came"; exit 1; }
xdotool windowmove "$window" 0 0 windowfocus "$window"

# The window has this size, and its first white place is there.
look() {
    sleep 1
    local seen
    import -window root "$OUT/$1.png"
    seen=$(xdotool getwindowgeometry --shell "$window" | sed -n 's/^WIDTH=//p; s/^HEIGHT=//p' | tr '\n' ' ')
    seen+="white at $(convert "$OUT/$1.png" -fill black +opaque white txt:- 2>/dev/null | sed -n '/#FFFFFF/{s/:.*//p;q}')"
    say "$1: $seen"
    [ "$seen" = "$2" ] || { say "in place of: $2"; bad=1; }
}

look first "12 6 white at "
for _ in 1 2 3 4 5 6; do
    xdotool key plus
    sleep 0.3
done
xdotool mousemove 500 200 click 1
look doubled '768 384 white at 500,200'
xdotool key minus
look halved '384 192 white at 382,190'
exit $bad
