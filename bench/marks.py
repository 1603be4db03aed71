#!/usr/bin/env python3
"""marks.py VIEWERS MARKS - a script of `vncdemo play`: each viewer is sent the black screen once, by RRE, and asks for nothing
more; then rectangles of 8 by 8 places are marked, which a stated sequence of numbers chooses."""
import sys

OPENING = "524642203030332e3030380a0101"     # RFB 003.008, security type None, ClientInit
RRE = "0200000100000002"                      # SetEncodings
WHOLE = "03000000000007800438"               # FramebufferUpdateRequest of 1920 by 1080, not incremental


def script(viewers, marks):
    lines = ["screen 1920 1080 demo"]
    for v in range(1, viewers + 1):
        lines += [f"connect {v}", f"hear {v} {OPENING}{RRE}{WHOLE}", f"cut {v}"]
    x = 1
    for _ in range(marks):
        x = (x * 6364136223846793005 + 1442695040888963407) % 2**64
        left, top = (x >> 33) % 1912, (x >> 48) % 1072
        lines.append(f"mark {left} {top} {left + 8} {top + 8}")
    return "\n".join(lines) + "\n"


if __name__ == "__main__":
    print(script(int(sys.argv[1]), int(sys.argv[2])), end="")
