#!/bin/bash
# A site with 16 sources, 1,024 receivers and 500 buildings, again and again with 16 workers: each run has to end within two
# minutes, with the text of a run without workers. So many runs get their input at once, so many with pauses amid it, and a
# tenth of that on one processor. The gate does not run it: a count of 1,000 takes some 25 minutes on four processors.
# Usage: tests/often.sh COUNT [PROGRAM]
set -eu
count=$1
program=${2:-$(cd "$(dirname "$0")/.." && pwd)/crates/noise_map/out/noise_map}
# shellcheck source=bench/timing.sh
. "$(dirname "$0")/../bench/timing.sh"
# shellcheck source=bench/site.sh
. "$(dirname "$0")/../bench/site.sh"
among > "$work/site"
half=$(($(wc -l < "$work/site") / 2))
"$program" < "$work/site" > "$work/wanted"
failed=0

# paused NUMBER: the lines of the site, which pause in the middle and again 40 lines later, for some milliseconds each.
paused() {
    head -n "$half" "$work/site"
    sleep "0.0$(($1 % 10))"
    tail -n +$((half + 1)) "$work/site" | head -n 40
    sleep "0.00$(($1 % 7))"
    tail -n +$((half + 41)) "$work/site"
}

# judge WHAT NUMBER: compares the rows of a run with those that are wanted.
judge() {
    cmp -s "$work/wanted" "$work/rows" || { failed=$((failed + 1)); echo "$1, run $2: another text, or no end"; }
}

for number in $(seq "$count"); do
    timeout 120 "$program" --workers 16 < "$work/site" > "$work/rows" || true
    judge "at once" "$number"
    paused "$number" | timeout 120 "$program" --workers 16 > "$work/rows" || true
    judge "with pauses" "$number"
    [ $((number % 10)) -ne 0 ] || {
        timeout 120 taskset -c 0 "$program" --workers 16 < "$work/site" > "$work/rows" || true
        judge "on one processor" "$number"
    }
done
echo "$((2 * count + count / 10)) runs, $failed failed"
[ "$failed" -eq 0 ]
