#!/bin/bash
# windows.sh "SERVER COMMAND" [OUT] [WIDTH HEIGHT] - real viewers under Xvfb.
#
# {port}, {width}, {height} and {viewers} in the command are filled in; the last is how many viewers will connect. Viewers, where
# they are installed: TigerVNC (Hextile, then Raw), gvncviewer, gvnccapture, and vncsnapshot (RRE). The first one draws strokes
# with the pointer, types keys and hands over a text. OUT gets pictures (PNG) and seen.txt. Status 0 where every viewer showed
# the same picture, with the strokes.
set -u
COMMAND=${1:?usage: windows.sh "SERVER COMMAND" [OUT] [WIDTH HEIGHT]}
OUT=${2:-$(mktemp -d)}
WIDTH=${3:-640}
HEIGHT=${4:-480}
. "$(dirname "$0")/common.sh"
count=0
[ -n "$TIGER" ] && count=$((count + 2))
have gvncviewer && count=$((count + 1))
have gvnccapture && count=$((count + 1))
have vncsnapshot && count=$((count + 1))
[ $count -gt 0 ] || { say "no viewer is installed"; exit 2; }

COMMAND=${COMMAND//\{port\}/$PORT}
COMMAND=${COMMAND//\{width\}/$WIDTH}
COMMAND=${COMMAND//\{height\}/$HEIGHT}
COMMAND=${COMMAND//\{viewers\}/$count}
start_server
start_screen "$((WIDTH + 80))" "$((HEIGHT + 80))"

# window NAME-REGEX: the id of the visible window with the screen's size
window() {
    local id w h
    for _ in $(seq 100); do
        for id in $(xdotool search --onlyvisible --name "$1" 2>/dev/null); do
            eval "$(xdotool getwindowgeometry --shell "$id" 2>/dev/null | grep -E '^(WIDTH|HEIGHT)=' | sed 's/^/G_/')"
            if [ "${G_WIDTH:-0}" -ge "$WIDTH" ] && [ "${G_HEIGHT:-0}" -ge "$HEIGHT" ]; then echo "$id"; return 0; fi
        done
        sleep 0.1
    done
    return 1
}
whites() { convert "$1" -fill black +opaque white -fill white -opaque white -format '%[fx:round(mean*w*h)]' info: 2>/dev/null; }
colours() { convert "$1" -format '%k' info: 2>/dev/null; }
digest() { convert "$1" -crop "${WIDTH}x${HEIGHT}+0+0" +repage -depth 8 rgb:- 2>/dev/null | md5sum | cut -c1-12; }
told() { # NAME FILE
    say "$1: picture $(identify -format '%wx%h' "$2" 2>/dev/null), colours $(colours "$2"), white places $(whites "$2"), digest $(digest "$2")"
}
# stroke X Y DX DY N: a drag with the first button, screen places
stroke() {
    xdotool mousemove "$(($1))" "$(($2))" mousedown 1
    local i
    for ((i = 1; i <= $5; i++)); do xdotool mousemove "$(($1 + $3 * i))" "$(($2 + $4 * i))"; sleep 0.03; done
    xdotool mouseup 1
}
shot() { # FILE: the viewer's window contents, with the pointer out of the way
    import -silent -window root "$OUT/root.png" && convert "$OUT/root.png" -crop "${WIDTH}x${HEIGHT}+${WX:-0}+${WY:-0}" +repage "$1"
}

first=
expect=
check() { # NAME FILE: the same white places as the first viewer
    local n
    n=$(whites "$2")
    if [ -z "$expect" ]; then expect=$n; first=$(digest "$2"); return; fi
    if [ "$n" = "$expect" ]; then say "  same white places as the first viewer"; else say "  DIFFERS: $n white places instead of $expect"; bad=1; fi
}

tiger() { # NAME, further options
    local name=$1 id
    shift
    "$TIGER" -Shared -AutoSelect=0 -RemoteResize=0 -MenuKey= -DotWhenNoCursor=0 "$@" "127.0.0.1::$PORT" >"$OUT/$name.log" 2>&1 &
    VIEWER=$!
    PIDS+=("$VIEWER")
    if ! id=$(window 'TigerVNC'); then say "$name: no window appeared"; bad=1; return 1; fi
    WX=0 WY=0
    eval "$(xdotool getwindowgeometry --shell "$id" | grep -E '^[XY]=' | sed 's/^/W/')"
    say "$name: window '$(xdotool getwindowname "$id")' at $WX,$WY"
    WINDOW=$id
    sleep 0.7
}

if [ -n "$TIGER" ]; then
    if tiger tigervnc-hextile -PreferredEncoding=Hextile; then
        shot "$OUT/tigervnc-before.png"
        told "  before the strokes" "$OUT/tigervnc-before.png"
        stroke $((WX + 50)) $((WY + 60)) 4 3 40
        stroke $((WX + 300)) $((WY + 60)) 0 5 40
        stroke $((WX + 320)) $((WY + 300)) -5 1 40
        xdotool windowfocus "$WINDOW" key a key b key Return 2>/dev/null
        # a clipboard text: sent as a client cut text, comes back as a server cut text
        if have xclip; then
            xdotool windowfocus "$WINDOW"
            sleep 0.2
            echo -n "text from the real viewer" | timeout 20 xclip -quiet -selection clipboard >/dev/null 2>"$OUT/xclip.log" &
            CLIP=$!
            PIDS+=("$CLIP")
            sleep 1
            if kill -0 "$CLIP" 2>/dev/null; then
                say "  clipboard: the text didn't come back (the selection has its old owner)"
            else
                say "  clipboard: the viewer owns it now, with '$(timeout 2 xclip -o -selection clipboard 2>/dev/null)'"
            fi
        fi
        xdotool mousemove $((WIDTH + 60)) $((HEIGHT + 60))
        sleep 0.8
        shot "$OUT/tigervnc-hextile.png"
        told "  after the strokes" "$OUT/tigervnc-hextile.png"
        before=$(whites "$OUT/tigervnc-before.png")
        after=$(whites "$OUT/tigervnc-hextile.png")
        say "  the strokes painted $((after - before)) places"
        # (on a mostly white screen white strokes don't show)
        [ "$((after - before))" -ge 20 ] || [ "$before" -gt $((WIDTH * HEIGHT / 2)) ] || { say "  TOO FEW places"; bad=1; }
        check tigervnc-hextile "$OUT/tigervnc-hextile.png"
        kill -0 "$VIEWER" 2>/dev/null || { say "  the viewer has ended"; bad=1; }
        kill "$VIEWER" 2>/dev/null
        sleep 0.3
    fi
    if tiger tigervnc-raw -PreferredEncoding=Raw; then
        xdotool mousemove $((WIDTH + 60)) $((HEIGHT + 60))
        sleep 0.5
        shot "$OUT/tigervnc-raw.png"
        told "  tigervnc-raw" "$OUT/tigervnc-raw.png"
        check tigervnc-raw "$OUT/tigervnc-raw.png"
        kill "$VIEWER" 2>/dev/null
        sleep 0.3
    fi
fi
if have gvncviewer; then
    gvncviewer "127.0.0.1:$((PORT - 5900))" >"$OUT/gvncviewer.log" 2>&1 &
    VIEWER=$!
    PIDS+=("$VIEWER")
    if id=$(window '.'); then
        say "gvncviewer: window '$(xdotool getwindowname "$id")'"
        xdotool mousemove $((WIDTH + 60)) $((HEIGHT + 60))
        sleep 0.7
        import -silent -window root "$OUT/gvncviewer.png"
        told "  gvncviewer (whole window)" "$OUT/gvncviewer.png"
    else
        say "gvncviewer: no window appeared"
    fi
    kill "$VIEWER" 2>/dev/null
    sleep 0.3
fi
if have gvnccapture; then
    timeout 15 gvnccapture -q "127.0.0.1:$((PORT - 5900))" "$OUT/gvnccapture.png" >"$OUT/gvnccapture.log" 2>&1
    if [ -s "$OUT/gvnccapture.png" ]; then told gvnccapture "$OUT/gvnccapture.png"; check gvnccapture "$OUT/gvnccapture.png"; else say "gvnccapture: no picture"; bad=1; fi
fi
if have vncsnapshot; then
    timeout 15 vncsnapshot -quiet -allowblank -encodings "rre copyrect raw" "127.0.0.1:$((PORT - 5900))" "$OUT/vncsnapshot.jpg" >"$OUT/vncsnapshot.log" 2>&1
    if [ -s "$OUT/vncsnapshot.jpg" ]; then
        say "vncsnapshot (RRE; a JPEG, so colours are near): picture $(identify -format '%wx%h' "$OUT/vncsnapshot.jpg"), bright places $(convert "$OUT/vncsnapshot.jpg" -colorspace gray -threshold 75% -format '%[fx:round(mean*w*h)]' info:)"
    else
        say "vncsnapshot: no picture ($(tail -1 "$OUT/vncsnapshot.log"))"
        bad=1
    fi
fi
kill -0 "$SERVER" 2>/dev/null && say "the server still runs" || say "the server has ended"
[ $bad = 0 ] && say "verdict: all viewers agree" || say "verdict: FAILED"
say "files: $OUT"
exit $bad
