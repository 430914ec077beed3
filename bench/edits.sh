#!/bin/sh
# Prints what edits cost by the proved program: 20 edits, each followed by a settle, of 16 sources and 1,024 receivers among
# 500 buildings, beside the same where each edit touches every receiver; the time of one edit of each kind that touches none
# of 262,080 settled paths; the time of a line where a scene is put part by part and nothing is settled; the bytes of a settled
# path, and the greatest memory of 128 sources and 4,096 receivers in a free field.
set -e
. "$(dirname "$0")/timing.sh"
. "$(dirname "$0")/site.sh"

# free SOURCES: so many sources and 4,096 receivers with nothing between them.
free() {
    sources "$1"
    receivers 4096
    echo '{"do":"settle"}'
}

# moves: 20 times a building of its own moved by a metre, and a settle.
moves() {
    awk 'BEGIN {
        for (i = 0; i < 20; i++) {
            x = i * 25000 - 311000
            y = i * 25000 - 250000
            printf "{\"do\":\"building\",\"name\":\"b%d\",\"points\":[[%d,%d],[%d,%d],[%d,%d],[%d,%d]],\"h\":9000}\n{\"do\":\"settle\"}\n", i * 26 % 500, x, y, x + 8000, y, x + 8000, y + 8000, x, y + 8000
        }
    }'
}

# lines COUNT LINE: a line so many times.
lines() {
    yes "$2" | head -n "$1"
}

# once INPUT: the time of one run over a file, in milliseconds.
once() {
    begin=$(date +%s%N)
    "$root/noisemap" < "$1" > "$work/rows" || true
    end=$(date +%s%N)
    echo $(((end - begin) / 1000000))
}

# peak INPUT: the greatest memory of a run over a file, in KiB.
peak() {
    python3 -c 'import resource, subprocess, sys
subprocess.run([sys.argv[1]], stdin=open(sys.argv[2]), stdout=subprocess.DEVNULL)
print(resource.getrusage(resource.RUSAGE_CHILDREN).ru_maxrss)' "$root/noisemap" "$1"
}

among > "$work/among"
{ among; moves; } > "$work/moved"
{ among; lines 40 '{"do":"set"}' | sed '2~2s/set/settle/'; } > "$work/all"
first=$(once "$work/among")
moved=$(once "$work/moved")
all=$(once "$work/all")
echo 'the first settle ms  20 moves and settles ms  20 times all of it ms'
printf '%19d  %23d  %22d\n' "$first" $((moved - first)) $((all - first))

# (a receiver less, so that there is room for another)
{ free 64; echo '{"do":"remove","name":"r/63/63"}'; } > "$work/free"
before=$(once "$work/free")
echo 'edit that touches nothing             us  ns a path of 262,080'
one() {
    { cat "$work/free"; lines 100 "$2"; } > "$work/edited"
    spent=$(($(once "$work/edited") - before))
    printf '%-32s  %6d  %20d\n' "$1" $((spent * 10)) $((spent * 10000 / 262080))
}
one barrier '{"do":"barrier","name":"w","points":[[900000,900000],[900000,910000]],"h":4000,"density":20}'
one building '{"do":"building","name":"b","points":[[900000,900000],[910000,900000],[910000,910000]],"h":4000}'
one 'barrier of 1 mm amid the paths' '{"do":"barrier","name":"w","points":[[50001,70003],[50002,70003]],"h":4000,"density":20}'
one zone '{"do":"zone","name":"z","points":[[900000,900000],[910000,900000],[910000,910000]],"g":50}'
one source '{"do":"source","name":"far","kind":"road","x":3900000,"y":3900000,"h":1000,"lw":[9000,9500,9800,10000,10000,9700,9200,8500]}'
one receiver '{"do":"receiver","name":"extra","x":900000,"y":900000,"h":4000}'
one grid '{"do":"grid","name":"g","x":900000,"y":900000,"step":1,"columns":1,"rows":1,"h":4000}'

# One of 128 sources moved 20 times, with a settle behind each, beside the first settle of them all.
{ sources 128; receivers 4096; } > "$work/scene"
{ cat "$work/scene"; echo '{"do":"settle"}'; } > "$work/first"
{ cat "$work/first"; for i in $(seq 20); do sources 1 | sed "s/\"x\":0,/\"x\":$i,/"; echo '{"do":"settle"}'; done; } > "$work/often"
{ cat "$work/first"; for i in $(seq 20); do echo '{"do":"settle"}'; done; } > "$work/again"
bare=$(once "$work/scene")
once_settled=$(once "$work/first")
moves=$(($(once "$work/often") - $(once "$work/again")))
echo 'first settle of 524,288 paths ms  ns a path  one of 128 sources moved and a settle ms  ns a path of its own'
printf '%32d  %9d  %40d  %20d\n' $((once_settled - bare)) $(((once_settled - bare) * 1000000 / 524288)) $((moves / 20)) $((moves * 1000000 / 81920))

# put KIND: 4,096 parts of a kind, a line each.
put() {
    awk -v kind="$1" 'BEGIN {
        for (i = 0; i < 4096; i++) {
            x = i % 64 * 10000
            y = int(i / 64) * 10000
            if (kind == "receiver")
                printf "{\"do\":\"receiver\",\"name\":\"p%d\",\"x\":%d,\"y\":%d,\"h\":4000}\n", i, x, y
            else
                printf "{\"do\":\"barrier\",\"name\":\"w%d\",\"points\":[[%d,%d],[%d,%d]],\"h\":3000,\"density\":20}\n", i, x, y, x + 5000, y
        }
    }'
}

echo 'lines of a scene that is not settled    lines      ms  us a line'
series() {
    spent=$(($(once "$work/after") - $(once "$work/before")))
    printf '%-36s  %8d  %6d  %9d\n' "$1" "$2" "$spent" $((spent * 1000 / $2))
}
: > "$work/before"
put receiver > "$work/after"
series 'receivers' 4096
put barrier > "$work/after"
series 'barriers' 4096
receivers 4096 > "$work/before"
{ cat "$work/before"; lines 1000 '{"do":"barrier","name":"w","points":[[0,0],[5000,0]],"h":3000,"density":20}'; } > "$work/after"
series 'a barrier beside 4,096 receivers' 1000
{ put barrier; receivers 4032; } > "$work/before"
{ cat "$work/before"; lines 1000 '{"do":"receiver","name":"extra","x":0,"y":0,"h":4000}'; } > "$work/after"
series 'a receiver beside 4,032 others' 1000

free 1 > "$work/one"
free 128 > "$work/many"
low=$(peak "$work/one")
high=$(peak "$work/many")
echo 'KiB of 4,096 paths  KiB of 524,288 paths  bytes a path'
printf '%18d  %20d  %12d\n' "$low" "$high" $(((high - low) * 1024 / (524288 - 4096)))
