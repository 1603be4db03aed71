# common.sh - what windows.sh and resizing.sh begin with, to be sourced with OUT set: where they write, what they end, and the start
# of a server and of an X server.
PORT=$((5970 + RANDOM % 20))
SCREEN=$((90 + RANDOM % 100))
mkdir -p "$OUT"
SEEN=$OUT/seen.txt
: >"$SEEN"
PIDS=()
bad=0
say() { echo "$*" | tee -a "$SEEN"; }
cleanup() {
    for ((i = ${#PIDS[@]} - 1; i >= 0; i--)); do kill "${PIDS[i]}" 2>/dev/null; done
    sleep 0.2
    for p in "${PIDS[@]}"; do kill -9 "$p" 2>/dev/null; done
    wait 2>/dev/null
}
trap cleanup EXIT
have() { command -v "$1" >/dev/null 2>&1; }
for t in Xvfb xdotool import convert; do have "$t" || { say "missing: $t"; exit 2; }; done
TIGER=$(command -v xtigervncviewer || command -v vncviewer || true)

# The command's server runs, as SERVER, and listens on PORT.
start_server() {
    $COMMAND >"$OUT/server.log" 2>&1 &
    SERVER=$!
    PIDS+=("$SERVER")
    local hex
    hex=$(printf ':%04X' "$PORT")
    for _ in $(seq 100); do
        grep -q "$hex 00000000:0000 0A" /proc/net/tcp && return
        sleep 0.05
    done
    say "the server didn't listen"
    exit 1
}

# An X server of so many columns and rows runs.
start_screen() {
    Xvfb ":$SCREEN" -screen 0 "$1x$2x24" -nolisten tcp >"$OUT/xvfb.log" 2>&1 &
    PIDS+=($!)
    export DISPLAY=":$SCREEN"
    unset XAUTHORITY WAYLAND_DISPLAY
    for _ in $(seq 100); do xdotool getdisplaygeometry >/dev/null 2>&1 && return; sleep 0.05; done
}
