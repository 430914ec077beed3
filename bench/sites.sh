#!/bin/bash
# Prints what the first settle of dense sites costs: instructions and allocations a path (a source and a receiver within reach)
# of the whole program with --bands by `valgrind`, where it is there, and milliseconds; each less those of the same input
# without the settle. Then the instructions of other work, each less those of the same input without it.
set -e
. "$(dirname "$0")/timing.sh"

# dense SOURCES RECEIVERS OBSTACLES HALF KIND: a site of that many in a square of twice HALF mm, a quarter of the
# obstacles barriers, the others buildings of which half reflect, or all with the kind `reflect`; and 16 zones. With the kind
# `pairs` there is a barrier of 40 turns besides. The first line is how many paths it has.
dense() {
    python3 - "$@" << 'END'
import json, random, sys
sources, receivers, obstacles, half = (int(word) for word in sys.argv[1:5])
kind = sys.argv[5]
draw = random.Random(1)
lines = []

def place():
    return draw.randint(-half, half)

def rectangle(least, most):
    wide, deep = least + draw.randrange(most), least + draw.randrange(most)
    x, y = min(place(), half - wide), min(place(), half - deep)
    return [[x, y], [x + wide, y], [x + wide, y + deep], [x, y + deep]]

heard = []
for i in range(sources):
    heard.append((place(), place()))
    lines.append(dict(do="source", name=f"s{i}", kind="industry", x=heard[-1][0], y=heard[-1][1],
                      h=500 + draw.randrange(5000), lw=[8000 + draw.randrange(3000) for _ in range(8)]))
for i in range(obstacles - obstacles // 4):
    lines.append(dict(do="building", name=f"b{i}", points=rectangle(5000, 30000), h=3000 + draw.randrange(20000),
                      rho=800 if kind == "reflect" else draw.choice([0, 800])))
for i in range(obstacles // 4):
    x, y = place(), place()
    to = [min(x + 1000 + draw.randrange(60000), half), min(y + 1000 + draw.randrange(60000), half)]
    if to != [x, y]:
        lines.append(dict(do="barrier", name=f"w{i}", points=[[x, y], to], h=2000 + draw.randrange(4000), density=20))
for i in range(16):
    lines.append(dict(do="zone", name=f"z{i}", points=rectangle(20000, 200000), g=draw.randrange(101)))
if kind == "pairs":
    turns = [[k * half // 40 - half // 2, half // 4 if k % 2 else -half // 4] for k in range(40)]
    lines.append(dict(do="barrier", name="zigzag", points=turns, h=6000, density=20))
columns = max(n for n in range(1, receivers + 1) if receivers % n == 0 and n * n <= receivers)
rows = receivers // columns
step = min(2 * half // rows, 1000000)
west, south = -half + half // columns, -half + half // rows
lines.append(dict(do="grid", name="g", x=west, y=south, step=step, columns=columns, rows=rows, h=4000))
paths = sum((west + c * step - x) ** 2 + (south + r * step - y) ** 2 <= 4000000 ** 2
            for x, y in heard for c in range(columns) for r in range(rows))
print(paths)
for line in lines:
    print(json.dumps(line, separators=(",", ":")))
END
}

# instructions INPUT WORD..: those of a run over a file, with these words.
instructions() {
    input=$1
    shift
    valgrind --tool=callgrind --callgrind-out-file=/dev/null "$program" "$@" < "$input" 2>&1 > /dev/null |
        sed -n 's/.*Collected : //p'
}

# allocations INPUT WORD..: how often a run over a file, with these words, asks for memory.
allocations() {
    input=$1
    shift
    valgrind --leak-check=no "$program" "$@" < "$input" 2>&1 > /dev/null |
        sed -n 's/.*total heap usage: \([0-9,]*\) allocs.*/\1/p' | tr -d ,
}

# row SOURCES RECEIVERS OBSTACLES HALF KIND: one line of the table.
row() {
    dense "$@" > "$work/site"
    paths=$(head -1 "$work/site")
    tail -n +2 "$work/site" > "$work/scene"
    { cat "$work/scene"; echo '{"do":"settle"}'; } > "$work/settled"
    spent=$(settle_time "$work/scene")
    counted=- asked=-
    if command -v valgrind > /dev/null; then
        counted=$((($(instructions "$work/settled" --bands) - $(instructions "$work/scene" --bands)) / paths))
        tenths=$((($(allocations "$work/settled" --bands) - $(allocations "$work/scene" --bands)) * 10 / paths))
        asked=$((tenths / 10)).$((tenths % 10))
    fi
    printf '%7d  %9d  %9d  %7d  %10s  %6d  %19s  %18s  %9d\n' "$1" "$2" "$3" "$(($4 / 500))" "$5" "$paths" "$counted" "$asked" "$spent"
}

# beside WHAT COUNT WORD..: a line of the second table: the instructions of $work/after less those of $work/before, by so many.
beside() {
    what=$1 count=$2
    shift 2
    printf '%-44s  %7d  %12d\n' "$what" "$count" "$((($(instructions "$work/after" "$@") - $(instructions "$work/before" "$@")) / count))"
}

program=$root/crates/noise_map/out/noise_map
echo 'sources  receivers  obstacles  metres        kind   paths  instructions a path  allocations a path  settle ms'
row 16 64 500 500000 half
row 4 16 1024 1000000 reflect
row 8 64 200 500000 pairs
row 32 128 2000 3990000 half

command -v valgrind > /dev/null || exit 0
echo 'what                                            by so many  instructions'
settle='{"do":"settle"}'
{ sources 128; receivers 1024; } > "$work/before"
{ cat "$work/before"; echo "$settle"; } > "$work/after"
beside 'a path in the open, on hard ground' 131072
{
    cat "$work/before"
    awk 'BEGIN {
        for (i = 0; i < 16; i++)
            printf "{\"do\":\"zone\",\"name\":\"z%d\",\"points\":[[%d,%d],[%d,%d],[%d,%d]],\"g\":%d}\n", i, i * 30000 - 300000, -300000, i * 30000 - 260000, -300000, i * 30000 - 280000, 300000, i * 6
    }'
} > "$work/zones"
{ cat "$work/zones"; echo "$settle"; } > "$work/after"
mv "$work/zones" "$work/before"
beside 'a path among 16 zones' 131072
{ sources 128; receivers 1024; echo "$settle"; } > "$work/before"
{ cat "$work/before"; sources 1 | sed 's/"x":0,/"x":1000,/'; echo "$settle"; } > "$work/after"
beside 'a row whose one of 128 sources moved' 1024
{ cat "$work/before"; echo '{"do":"look"}'; } > "$work/after"
beside 'a row of a look' 1024
: > "$work/before"
dense 32 128 2000 3990000 half | tail -n +2 > "$work/after"
beside 'a line of a site that is read' 2049
printf '' > "$work/after"
printf '%-44s  %7d  %12d\n' 'a path of --make 7, its edits within' 4000 "$(($(instructions "$work/after" --make 7) / 4000))"
