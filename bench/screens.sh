#!/bin/sh
# Prints the time of one path (a source and a receiver, eight bands) among barriers and buildings by the proved program, and
# how much of it is the search of their sides: what as many obstacles take that don't cross the path. A barrier here has one
# side, crosses every path and rises above it, so that sound goes over it and, in all bands along the same two strings, round
# its ends; a building has four sides and lies beside them.
set -e
. "$(dirname "$0")/timing.sh"

# obstacles COUNT CROSSING: so many, of which so many cross.
obstacles() {
    awk -v count="$1" -v crossing="$2" 'BEGIN {
        for (i = 0; i < crossing; i++) {
            x = 20000 * (i + 1)
            printf "{\"do\":\"barrier\",\"name\":\"w%d\",\"points\":[[%d,-120000],[%d,120000]],\"h\":%d,\"density\":20}\n", i, x, x, 6000 + i * 37 % 11 * 100
        }
        for (i = crossing; i < count; i++) {
            x = i % 32 * 12000
            y = int(i / 32) * 12000 + 200000
            printf "{\"do\":\"building\",\"name\":\"b%d\",\"points\":[[%d,%d],[%d,%d],[%d,%d],[%d,%d]],\"h\":9000}\n", i, x, y, x + 8000, y, x + 8000, y + 8000, x, y + 8000
        }
    }'
}

# path_time COUNT CROSSING: nanoseconds a path.
path_time() {
    { ends 100; obstacles "$1" "$2"; } > "$work/scene"
    echo $(($(settle_time "$work/scene") * 1000000 / 8192))
}

echo 'obstacles  crossing  sides  ns a path  search of sides'
open=$(path_time 0 0)
printf '%9d  %8d  %5d  %9d  %15d\n' 0 0 0 "$open" 0
for count in 16 128 1024; do
    passed=$(path_time "$count" 0)
    for crossing in 0 1 4 16; do
        spent=$passed
        if [ "$crossing" -gt 0 ]; then spent=$(path_time "$count" "$crossing"); fi
        printf '%9d  %8d  %5d  %9d  %15d\n' "$count" "$crossing" $(((count - crossing) * 4 + crossing)) "$spent" $((passed - open))
    done
done
