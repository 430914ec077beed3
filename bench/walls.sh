#!/bin/sh
# Prints the time of one path (a source and a receiver, eight bands) beside walls by the proved program: of walls that mirror
# each source to each receiver, and of walls that could reflect and mirror none, which are only looked at. No wall crosses a
# path or a leg.
set -e
. "$(dirname "$0")/timing.sh"

# walls MIRRORS OTHERS: so many barriers north and south of the line that mirror, each a quarter farther off than the one
# before it, and the sides of so many buildings, a fourth of OTHERS, behind the receivers.
walls() {
    awk -v mirrors="$1" -v others="$2" 'BEGIN {
        y = 60000
        for (i = 0; i < mirrors; i++) {
            printf "{\"do\":\"barrier\",\"name\":\"w%d\",\"points\":[[170000,%d],[230000,%d]],\"h\":20000,\"density\":20,\"rho\":800}\n", i, i % 2 ? -y : y, i % 2 ? -y : y
            if (i % 2) y = int(y * 5 / 4)
        }
        for (i = 0; i < others / 4; i++) {
            x = i % 32 * 12000 + 500000
            z = int(i / 32) * 12000 + 200000
            printf "{\"do\":\"building\",\"name\":\"b%d\",\"points\":[[%d,%d],[%d,%d],[%d,%d],[%d,%d]],\"h\":9000,\"rho\":800}\n", i, x, z, x + 8000, z, x + 8000, z + 8000, x, z + 8000
        }
    }'
}

echo 'mirrors  other walls  ns a path'
for others in 0 1024; do
    for mirrors in 0 4 32; do
        { ends 10; walls "$mirrors" "$others"; } > "$work/scene"
        printf '%7d  %11d  %9d\n' "$mirrors" "$others" $(($(settle_time "$work/scene") * 1000000 / 8192))
    done
done
