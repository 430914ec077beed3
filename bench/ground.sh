#!/bin/sh
# Prints the time of settles over zones of ground and through foliage by the proved program, and of one path with its ground
# effect (a source and a receiver, eight bands): that of an input with the settle less that of the same input without it.
set -e
. "$(dirname "$0")/timing.sh"

# zones COUNT: so many squares of 70 m beside each other, of all kinds of ground.
zones() {
    awk -v count="$1" 'BEGIN {
        for (i = 0; i < count; i++) {
            x = i % 8 * 80000 - 320000
            y = int(i / 8) * 80000 - 320000
            printf "{\"do\":\"zone\",\"name\":\"z%d\",\"points\":[[%d,%d],[%d,%d],[%d,%d],[%d,%d]],\"g\":%d}\n", i, x, y, x + 70000, y, x + 70000, y + 70000, x, y + 70000, i * 37 % 101
        }
    }'
}

# outlines NUMBER Y: so many squares of 70 m beside each other, from Y on to the north, each as `"name":..,"points":..`.
outlines() {
    awk -v count="$1" -v y0="$2" 'BEGIN {
        for (i = 0; i < count; i++) {
            x = i % 32 * 80000 - 1280000
            y = int(i / 32) * 80000 + y0
            printf "\"name\":\"o%d\",\"points\":[[%d,%d],[%d,%d],[%d,%d],[%d,%d]]\n", i, x, y, x + 70000, y, x + 70000, y + 70000, x, y + 70000
        }
    }'
}

# beside WHAT SOURCES RECEIVERS LINES: the settle of these sources and receivers with these lines in the scene.
beside() {
    { printf '%s\n' "$4"; sources "$2"; receivers "$3"; } > "$work/scene"
    spent=$(settle_time "$work/scene")
    printf '%-32s  %7d  %9d  %9d  %9d\n' "$1" "$2" "$3" "$spent" $((spent * 1000000 / ($2 * $3)))
}

# far WORD REST, near WORD REST: 1,024 and 16 parts of this kind, out of the way of all paths and in their way.
far() { outlines 1024 1200000 | sed "s/.*/{\"do\":\"$1\",&,$2}/"; }
near() { outlines 16 -320000 | sed "s/.*/{\"do\":\"$1\",&,$2}/"; }

# row SOURCES RECEIVERS ZONES G: G is the ground outside the zones, in per cent.
row() {
    { echo "{\"do\":\"set\",\"g\":$4}"; zones "$3"; sources "$1"; receivers "$2"; } > "$work/scene"
    spent=$(settle_time "$work/scene")
    printf '%7d  %9d  %5d  %14d  %9d  %9d\n' "$1" "$2" "$3" "$4" "$spent" $((spent * 1000000 / ($1 * $2)))
}

echo 'sources  receivers  zones  porous outside  settle ms  ns a path'
row 16 4096 0 0
row 16 4096 0 50
row 16 4096 4 50
row 16 4096 64 50
row 128 4096 16 50

echo
echo 'beside                            sources  receivers  settle ms  ns a path'
beside 'nothing' 16 1024 ''
beside '1,024 zones out of the way' 16 1024 "$(far zone '"g":50')"
beside '1,024 foliage out of the way' 16 1024 "$(far foliage '"h":20000')"
beside '16 foliage in the way' 16 1024 "$(near foliage '"h":20000')"
beside 'ground by the alternative method' 16 1024 '{"do":"set","ground":"simple"}'
