#!/bin/sh
# Prints the time of settles by the proved program, and of one path (a source and a receiver, eight bands): that of an
# input with the settle less that of the same input without it.
set -e
. "$(dirname "$0")/timing.sh"

echo 'sources  receivers  settle ms  ns a path'
for count in 1 16 128; do
    { sources "$count"; receivers 4096; } > "$work/scene"
    spent=$(settle_time "$work/scene")
    printf '%7d  %9d  %9d  %9d\n' "$count" 4096 "$spent" $((spent * 1000000 / (count * 4096)))
done
