#!/bin/sh
# The program from outside: its words, its rows, its exit status and what it says on standard error, also where the
# system fails it; that the documents show what it does; and the script `noisemap`. Without a word it tries both programs
# that `rt ci` has built of one proved source, by LLVM (noise_map) and by Rattle's own compiler (noise_map.by-rattle);
# else the programs named. It needs prlimit.
cd "$(dirname "$0")/.." || exit 1
room=$(mktemp -d) || exit 1
trap 'rm -rf "$room"' EXIT
: > "$room/nothing"
passed=0
failed=0

# judge NAME STATUS WANTED-STATUS WANTED-ROWS WARNING: looks at what a run has left in $room/rows and $room/said.
judge() {
    if [ -n "$5" ]; then echo "noisemap: $5"; fi > "$room/warning"
    if [ "$2" -eq "$3" ] && cmp -s "$4" "$room/rows" && cmp -s "$room/warning" "$room/said"; then
        passed=$((passed + 1))
    else
        failed=$((failed + 1))
        echo "FAILED: $program: $1: status $2, wanted $3; the first lines of its rows and of what it said:"
        head -n 3 "$room/rows" "$room/said"
    fi
}

# expect NAME WANTED-STATUS WANTED-ROWS WARNING COMMAND..: runs a command on the standard input given.
expect() {
    name=$1 wanted=$2 rows=$3 warning=$4
    shift 4
    "$@" > "$room/rows" 2> "$room/said"
    judge "$name" $? "$wanted" "$rows" "$warning"
}

# with_room COMMAND..: runs a command with more and more address space, until it ends with a status of the program's own.
# Below that the system kills it, and the shell would tell.
with_room() {
    bytes=524288
    while [ "$bytes" -le 268435456 ]; do
        (prlimit --as="$bytes" "$@" < "$input" > "$room/rows" 2> "$room/said"; exit $?) 2> /dev/null
        status=$?
        if [ "$status" -le 6 ]; then return "$status"; fi
        bytes=$((bytes + 262144))
    done
    return 99
}

# words_of EXAMPLE, input_of EXAMPLE, status_of EXAMPLE: what stands beside its rows; none, nothing and 0 where no file says
# it. Of words there is one a line, and no blank in it.
words_of() {
    if [ -f "$1.args" ]; then cat "$1.args"; fi
}

input_of() {
    if [ -f "$1.jsonl" ]; then echo "$1.jsonl"; else echo "$room/nothing"; fi
}

status_of() {
    if [ -f "$1.status" ]; then cat "$1.status"; else echo 0; fi
}

try_examples() {
    for rows in examples/*.csv; do
        example=${rows%.csv}
        # shellcheck disable=SC2046
        expect "$example" "$(status_of "$example")" "$rows" "" "$program" $(words_of "$example") < "$(input_of "$example")"
    done
    expect "a site, and input beside it" 0 examples/site7.csv "" "$program" --make 7 < examples/first.jsonl
}

# The runs that the files of a folder list, whose rows are those of an independent calculation: `#` a name, `$` the words, `=`
# the exit status where it isn't 0, `<` a line of the input, and `>` a row.
try_runs() {
    for list in tests/runs/*.txt; do
        rm -f "$room"/run.*
        awk -v room="$room" '
            /^#/ { count++; run = room "/run." count; printf "" > (run ".jsonl"); printf "" > (run ".csv"); part = "name" }
            /^\$/ { part = "args" }
            /^=/ { part = "status" }
            /^</ { part = "jsonl" }
            /^>/ { part = "csv" }
            /./ { print substr($0, 3) > (run "." part) }
        ' "$list"
        for name in "$room"/run.*.name; do
            run=${name%.name}
            # shellcheck disable=SC2046
            expect "$list: $(cat "$name")" "$(status_of "$run")" "$run.csv" "" "$program" $(words_of "$run") < "$run.jsonl"
        done
    done
}

# agree WHAT FILE: whether $room/shown is this file.
agree() {
    if cmp -s "$room/shown" "$2"; then
        passed=$((passed + 1))
    else
        failed=$((failed + 1))
        echo "FAILED: $1: it isn't $2"
    fi
}

# blocks DOCUMENT: puts each fenced block of a document into a file of its own, $room/block.N, and lists them in
# $room/blocks: the number, and the words behind the fence.
blocks() {
    rm -f "$room"/block.*
    awk -v room="$room" '
        /^```/ && !inside { inside = 1; count++; print count, substr($0, 4); printf "" > (room "/block." count); next }
        /^```/ { inside = 0; close(room "/block." count); next }
        inside { print > (room "/block." count) }
    ' "$1" > "$room/blocks"
}

# A block behind `json FILE` or `csv FILE` is that file, or a part of it: the blocks of one file, one after the other, are
# the whole file. One that begins with a command is what the command, as it is printed, writes. `sh` are commands to
# type, and `text` is a picture. A document has no other block.
try_document() {
    document=$1
    blocks "$document"
    cut -d ' ' -f 3 "$room/blocks" | sort -u | grep . > "$room/files"
    while read -r file; do
        awk -v file="$file" '$3 == file { print $1 }' "$room/blocks" | while read -r number; do
            cat "$room/block.$number"
        done > "$room/shown"
        agree "$document: $file" "$file"
    done < "$room/files"
    while read -r number kind file; do
        block=$room/block.$number
        command=$(sed -n '1s/^\$ .\/noisemap//p' "$block")
        case "$kind $file" in
            'json examples/'* | 'csv examples/'* | 'sh ' | 'text ') ;;
            *) if [ -n "$command" ]; then try_command "$document"; else judge_block; fi ;;
        esac
    done < "$room/blocks"
}

# A block that says neither what it is nor how it came about.
judge_block() {
    failed=$((failed + 1))
    echo "FAILED: $document: block $number names no file: $(head -n 1 "$block")"
}

# try_command DOCUMENT: runs the command of a block, and compares its rows and its words with those of its example.
try_command() {
    words=${command%%<*}
    input=$(echo "$command" | sed -n 's/.*< //p')
    example=${input%.jsonl}
    if [ -z "$input" ]; then
        input=$room/nothing
        for rows in examples/*.csv; do
            if [ ! -f "${rows%.csv}.jsonl" ] && [ "$(words_of "${rows%.csv}" | xargs)" = "$(echo "$words" | xargs)" ]; then
                example=${rows%.csv}
            fi
        done
    fi
    sed 1d "$block" > "$room/shown"
    agree "$1:$command" "$example.csv"
    # shellcheck disable=SC2086
    expect "$1:$command" "$(status_of "$example")" "$room/shown" "" "$program" $words < "$input"
}

try_documents() {
    for document in README.md docs/*.md examples/README.md; do
        try_document "$document"
    done
}

# The script, in a folder with a program and in one without: it is called by a link, and builds nothing here.
try_script() {
    mkdir -p "$room/house/crates/noise_map/out" "$room/bare/crates" "$room/bin"
    for house in house bare; do
        cp noisemap crates.txt "$room/$house"
    done
    cp "$program" "$room/house/crates/noise_map/out/noise_map"
    ln -sf ../house/noisemap "$room/bin/noisemap"
    expect "the script by a link" 0 examples/first.csv "" "$room/bin/noisemap" < examples/first.jsonl
    expect "the script without the kit" 70 "$room/nothing" \
        "rt not found: the program has to be built, which needs the Rattle kit (see README.md)" \
        env PATH=/usr/bin:/bin "$room/bare/noisemap" < examples/first.jsonl
}

try_words() {
    for words in --help --bands=1 -- x; do
        expect "the word $words" 2 "$room/nothing" usage "$program" "$words" < examples/first.jsonl
    done
    expect "an empty word" 2 "$room/nothing" usage "$program" "" < examples/first.jsonl
    expect "an option twice" 2 "$room/nothing" usage "$program" --bands --bands < examples/first.jsonl
    expect "a word that is no text" 2 "$room/nothing" usage "$program" "$(printf '\377')" < examples/first.jsonl
    expect "17 workers" 2 "$room/nothing" usage "$program" --workers 17 < examples/first.jsonl
}

try_ends() {
    expect "empty input" 0 "$room/nothing" "" "$program" < "$room/nothing"
    expect "a directory as input" 3 "$room/nothing" "read fault" "$program" < /
    expect "closed input" 3 "$room/nothing" "read fault" "$program" <&-
    expect "a full device" 4 "$room/nothing" "write fault" \
        sh -c '"$0" > /dev/full' "$program" < examples/first.jsonl
    expect "closed output" 4 "$room/nothing" "write fault" sh -c '"$0" >&-' "$program" < examples/first.jsonl
    expect "a site on a full device" 4 "$room/nothing" "write fault" \
        sh -c '"$0" --make=7 --workers 4 > /dev/full' "$program" < examples/first.jsonl
    expect "closed output, and nothing to write" 0 "$room/nothing" "" sh -c '"$0" >&-' "$program" < "$room/nothing"
    expect "closed standard error" 2 "$room/nothing" "" sh -c '"$0" --help 2>&-' "$program" < examples/first.jsonl
    { "$program" < "$room/many" 2> "$room/said"; echo $? > "$room/status"; } | head -n 1 > "$room/rows"
    echo "settle,1,4096,,,," > "$room/head"
    judge "a broken pipe" "$(cat "$room/status")" 4 "$room/head" "write fault"
    expect "67,108,864 bytes" 0 "$room/nothing" "" "$program" < "$room/full"
    expect "67,108,865 bytes" 6 "$room/nothing" "input limit" "$program" < "$room/over"
}

# The longest line that is read, one byte more, and each line that is cut off.
try_lengths() {
    echo "look,0,0,,,," > "$room/look"
    echo "refused,0,1,LongLine,,," > "$room/long"
    echo "refused,0,1,NotJson,,," > "$room/broken"
    printf '%s%65523s\n' "$look_line" '' > "$room/line"
    expect "a line of 65,536 bytes" 0 "$room/look" "" "$program" < "$room/line"
    printf '%s%65524s\n' "$look_line" '' > "$room/line"
    expect "a line of 65,537 bytes" 1 "$room/long" "" "$program" < "$room/line"
    for size in $(seq 1 $((${#source_line} - 1))); do
        printf "%.${size}s" "$source_line" > "$room/line"
        expect "a line cut off behind $size bytes" 1 "$room/broken" "" "$program" < "$room/line"
    done
}

# A last line without its line feed, and lines with carriage returns.
try_line_ends() {
    { echo "settle,2,1,,,,"; echo "row,2,r,current,,51.62,51.64"; } > "$room/settled"
    printf '%s\n%s\n%s' "$source_line" "$receiver_line" "$settle_line" > "$room/line"
    expect "a line without a line feed" 0 "$room/settled" "" "$program" < "$room/line"
    printf '%s\r\n' "$source_line" "$receiver_line" "$settle_line" > "$room/line"
    expect "lines with carriage returns" 0 "$room/settled" "" "$program" < "$room/line"
}

# nested COUNT: a look with a further field of so many arrays, one within the other.
nested() {
    awk -v count="$1" 'BEGIN {
        for (i = 0; i < count; i++) { opening = opening "["; closing = closing "]" }
        printf "{\"do\":\"look\",\"more\":%s%s}", opening, closing
    }'
}

# behind NAME STATUS ROW: the hostile line in $room/hostile has this row, and the look behind it is done. It reads no pipe: a
# function behind one runs in a shell of its own, whose counts are lost.
behind() {
    { cat "$room/hostile"; printf '\n%s\n' "$look_line"; } > "$room/line"
    { echo "$3"; echo "look,0,0,,,,"; } > "$room/looks"
    expect "a look behind $1" "$2" "$room/looks" "" "$program" < "$room/line"
}

try_hostile_lines() {
    not_json=refused,0,1,NotJson,,,
    nested 60 > "$room/hostile"
    behind "60 arrays" 0 look,0,0,,,,
    nested 126 > "$room/hostile"
    behind "126 arrays" 0 look,0,0,,,,
    nested 127 > "$room/hostile"
    behind "127 arrays" 1 "$not_json"
    nested 200 > "$room/hostile"
    behind "200 arrays" 1 "$not_json"
    nested 32000 > "$room/hostile"
    behind "32,000 arrays" 1 "$not_json"
    printf '\377' > "$room/hostile"
    behind "a byte that is no text" 1 "$not_json"
    printf '%70000s' '' | tr ' ' x > "$room/hostile"
    behind "70,000 bytes" 1 refused,0,1,LongLine,,,
}

# As many receivers and sources as may be, and one more.
try_full() {
    echo "refused,1,2,Full,receiver,4096," > "$room/full_of_receivers"
    { head -n 1 "$room/many"; echo "$receiver_line"; } > "$room/line"
    expect "the 4,097th receiver" 1 "$room/full_of_receivers" "" "$program" < "$room/line"
    echo "refused,128,129,Full,source,128," > "$room/full_of_sources"
    for number in $(seq 0 128); do
        echo "{\"do\":\"source\",\"name\":\"s$number\",\"kind\":\"road\",\"x\":0,\"y\":0,\"h\":1,\"lw\":[1,2,3,4,5,6,7,8]}"
    done > "$room/line"
    expect "the 129th source" 1 "$room/full_of_sources" "" "$program" < "$room/line"
}

# Workers change no row of a settle, nor do the threads of an edit, also where no thread can be started: there its stack
# finds no room.
try_workers() {
    for workers in 0 1 4 16; do
        expect "$workers workers" 0 examples/works.csv "" "$program" --workers "$workers" < examples/works.jsonl
        expect "a site with $workers workers" 0 examples/site7.csv "" "$program" --make 7 --workers "$workers" < "$room/nothing"
    done
    expect "workers without threads" 0 examples/works.csv "" \
        prlimit --stack=8589934592 --as=4294967296 "$program" --workers 16 < examples/works.jsonl
    # Its edits of so many paths start threads of their own, where that can be.
    expect "edits of many paths without threads" 0 examples/crowd.csv "" \
        prlimit --stack=8589934592 --as=4294967296 "$program" < examples/crowd.jsonl
}

# As many obstacles and sides as may be, out to the ends of the map, and one obstacle more: the rows of $room/sides, which
# is made below. The levels are those of an independent calculation.
try_screens() {
    {
        echo "refused,4098,4099,Full,obstacle,4096,"
        echo "settle,4098,1,,,,"
        echo "row,4098,r,current,,75.05,75.06"
        echo "band,4098,r,63,,87.57,87.58"
        echo "band,4098,r,125,,84.31,84.32"
        echo "band,4098,r,250,,79.44,79.45"
        echo "band,4098,r,500,,73.13,73.14"
        echo "band,4098,r,1000,,63.07,63.08"
        echo "band,4098,r,2000,,38.14,38.15"
        echo "band,4098,r,4000,,0.00,0.00"
        echo "band,4098,r,8000,,0.00,0.00"
    } > "$room/screened"
    expect "16,384 sides" 1 "$room/screened" "" "$program" --bands < "$room/sides"
}

try_memory() {
    input=$room/zones
    with_room "$program"
    judge "a scene without memory" $? 5 "$room/nothing" "no memory"
    input=$room/nothing
    word=$(printf '%0100000d' 0)
    with_room "$program" "$word" "$word" "$word" "$word" "$word" "$word" "$word" "$word" "$word" "$word"
    judge "words without memory" $? 5 "$room/nothing" "no memory"
}

# Inputs: single lines; many rows; the limit, and one byte more; many sides, for try_screens; much memory.
source_line='{"do":"source","name":"s","kind":"industry","x":0,"y":0,"h":2000,"lw":[null,null,null,null,10000,null,null,null]}'
receiver_line='{"do":"receiver","name":"r","x":100000,"y":0,"h":2000}'
settle_line='{"do":"settle"}'
look_line='{"do":"look"}'
{
    echo '{"do":"grid","name":"g","x":0,"y":0,"step":1000,"columns":64,"rows":64,"h":4000}'
    yes '{"do":"settle"}' | head -n 20
} > "$room/many"
yes "$(printf '%65535s' '')" | head -n 1024 > "$room/full"
{ cat "$room/full"; printf ' '; } > "$room/over"
{
    echo '{"do":"source","name":"s","kind":"other","x":-2000000,"y":0,"h":1,"lw":[16000,16000,16000,16000,16000,16000,16000,16000],"dc":2000}'
    echo '{"do":"receiver","name":"r","x":1999999,"y":3,"h":100000}'
    awk 'BEGIN {
        for (i = 0; i < 4096; i++) {
            x = i % 64 * 125000 - 4000000
            y = int(i / 64) * 125000 - 4000000 + i % 7
            printf "{\"do\":\"barrier\",\"name\":\"w%d\",\"points\":[[%d,%d],[%d,%d],[%d,%d],[%d,%d],[%d,%d]],\"h\":%d,\"density\":10}\n", i, x, y, x + 90000, y + 100000, x + 120000, y, x + 100000, y + 124000, x + 60000, y + 124000, 100000 - i % 64 * 997
        }
    }'
    echo '{"do":"barrier","name":"more","points":[[0,0],[1,0]],"h":1,"density":10}'
    echo '{"do":"settle"}'
} > "$room/sides"
points=$(seq 1 1023 | sed 's/.*/[&,&],/' | tr -d '\n')
for number in $(seq 1 100); do
    echo "{\"do\":\"zone\",\"name\":\"z$number\",\"points\":[${points}[0,1000]],\"g\":50}"
done > "$room/zones"

if [ $# -eq 0 ]; then
    set -- crates/noise_map/out/noise_map crates/noise_map/out/noise_map.by-rattle
fi
for program in "$@"; do
    try_examples
    try_runs
    try_documents
    try_script
    try_words
    try_ends
    try_lengths
    try_line_ends
    try_hostile_lines
    try_full
    try_workers
    try_screens
    try_memory
done
echo "program: $passed passed, $failed failed"
[ "$failed" -eq 0 ]
