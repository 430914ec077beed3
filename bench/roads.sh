#!/bin/sh
# Prints what line sources cost by the proved program: a line of 1,024 points 8 km apart in pieces of 1 m, which is refused as
# Full, beside the same line refused by its kind, which is read alike and cut into no pieces; and a settle of 4,096 receivers
# beside a building without and with a road of 128 pieces.
set -e
. "$(dirname "$0")/timing.sh"

# far KIND COUNT: that line so many times.
far() {
    awk -v kind="$1" -v count="$2" 'BEGIN {
        for (i = 0; i < 1024; i++)
            points = points (i ? "," : "") sprintf("[%d,%d]", i % 2 ? -4000000 : 4000000, i * 7000 - 4000000)
        for (i = 0; i < count; i++)
            printf "{\"do\":\"line\",\"name\":\"l\",\"kind\":\"%s\",\"points\":[%s],\"h\":1000,\"lw\":[8000,8000,8000,8000,8000,8000,8000,8000],\"piece\":1000}\n", kind, points
    }'
}

# beside a building, and receivers
beside() {
    echo '{"do":"building","name":"b","points":[[100000,20000],[120000,20000],[120000,30000],[100000,30000]],"h":9000}'
    echo '{"do":"grid","name":"r","x":-320000,"y":50000,"step":10000,"columns":64,"rows":64,"h":4000}'
}

far road 500 > "$work/full"
far tram 500 > "$work/read"
echo "a refused line us  $((($(milliseconds "$work/full") - $(milliseconds "$work/read")) * 2))"
beside > "$work/without"
{ beside; echo '{"do":"line","name":"road","kind":"road","points":[[0,0],[1280000,0]],"h":500,"lw":[7000,7000,7000,7000,7000,7000,7000,7000],"piece":10000}'; } > "$work/with"
echo "a settle without and with a road of 128 pieces ms  $(settle_time "$work/without") $(settle_time "$work/with")"
