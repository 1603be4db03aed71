#!/bin/bash
# clients.sh "SERVER COMMAND" OUT - further viewers, on a screen of 320 by 200 on which paint.py draws a cross of strokes first.
#
# libvncclient, LibVNCServer's own client library, in seven forms: Raw, RRE, Hextile and CopyRect; 8, 16 and 32 bits a pixel. Where
# they are installed also GStreamer's rfbsrc and, under Xvfb, TightVNC's viewer in four forms and noVNC in Chromium. OUT gets a
# picture of each. {port}, {width}, {height} and {viewers} in the command are filled in. Run it on LibVNCServer's server and on
# ours, and compare the .ppm files of both by cmp. Status 0 where libvncclient always gave a picture, and TightVNC's viewer always
# shows as many white places as were drawn.
set -u
COMMAND=${1:?usage: clients.sh "SERVER COMMAND" OUT} OUT=${2:?usage: clients.sh "SERVER COMMAND" OUT}
mkdir -p "$OUT"
here=$(cd "$(dirname "$0")" && pwd)
have() { command -v "$1" >/dev/null 2>&1; }
# shellcheck disable=SC2046
gcc -O2 -Wall -Wextra -o "$OUT/lvc_client" "$here/lvc_client.c" $(pkg-config --cflags --libs libvncclient) || exit 2

count=8
have gst-launch-1.0 && count=$((count + 1))
have Xvfb && have import && have xtightvncviewer && count=$((count + 4))
have Xvfb && have import && have chromium && have websockify && count=$((count + 1))
PORT=$((5940 + RANDOM % 20))
COMMAND=${COMMAND//\{port\}/$PORT}
COMMAND=${COMMAND//\{width\}/320}
COMMAND=${COMMAND//\{height\}/200}
COMMAND=${COMMAND//\{viewers\}/$count}
$COMMAND >"$OUT/server.log" 2>&1 &
SERVER=$!
PIDS=()
cleanup() { for p in "${PIDS[@]}" "$SERVER"; do kill "$p" 2>/dev/null; done; wait 2>/dev/null; }
trap cleanup EXIT
hex=$(printf ':%04X' "$PORT")
for _ in $(seq 100); do
    grep -q "$hex 00000000:0000 0A" /proc/net/tcp && break
    sleep 0.05
done

bad=0
drawn=$(python3 "$here/paint.py" "$PORT" 320 200) || { echo "paint.py: no strokes"; exit 1; }
echo "$drawn places are drawn"
for form in "raw 32" "rre 32" "hextile 32" "hextile 16" "rre 8" "raw 8" "copyrect 32"; do
    read -r encoding bits <<<"$form"
    timeout 20 "$OUT/lvc_client" "$PORT" "$encoding" "$bits" "$OUT/lvc_${encoding}_$bits.ppm" 2 2>>"$OUT/lvc.log" ||
        { echo "libvncclient, $form: no picture"; bad=1; }
done
if have gst-launch-1.0; then
    timeout 20 gst-launch-1.0 -q rfbsrc host=127.0.0.1 port="$PORT" num-buffers=3 ! videoconvert ! pngenc snapshot=true ! \
        filesink location="$OUT/rfbsrc.png" >"$OUT/rfbsrc.log" 2>&1 || echo "rfbsrc: no picture"
fi
if have Xvfb && have import; then
    SCREEN=$((90 + RANDOM % 100))
    Xvfb ":$SCREEN" -screen 0 500x400x24 -nolisten tcp >/dev/null 2>&1 &
    PIDS+=($!)
    export DISPLAY=":$SCREEN"
    sleep 1
fi
if have Xvfb && have import && have xtightvncviewer; then
    for form in rre raw hextile "copyrect hextile"; do
        xtightvncviewer -viewonly -encodings "$form" "127.0.0.1::$PORT" >"$OUT/tight.log" 2>&1 &
        viewer=$!
        sleep 3
        picture="$OUT/tight_${form// /_}.png"
        import -silent -window root "$picture"
        kill "$viewer" 2>/dev/null
        wait "$viewer" 2>/dev/null
        white=$(convert "$picture" -fill black +opaque white -fill white -opaque white -format '%[fx:round(mean*w*h)]' info:)
        echo "xtightvncviewer, $form: $white white places"
        [ "$white" = "$drawn" ] || bad=1
    done
fi
if have Xvfb && have import && have chromium && have websockify; then
    WEB=$((PORT + 100))
    websockify --web /usr/share/novnc "$WEB" "127.0.0.1:$PORT" >"$OUT/websockify.log" 2>&1 &
    PIDS+=($!)
    sleep 1
    chromium --no-sandbox --disable-gpu --no-first-run --window-size=480,380 --window-position=0,0 --user-data-dir="$OUT/profile" \
        "--app=http://127.0.0.1:$WEB/vnc_lite.html?host=127.0.0.1&port=$WEB&path=" >"$OUT/chromium.log" 2>&1 &
    PIDS+=($!)
    sleep 10
    import -silent -window root "$OUT/novnc.png" || echo "noVNC: no picture"
fi
exit $bad
