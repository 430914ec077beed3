#!/bin/sh
# The program where it gets no memory. A run may then end with status 5 and some first rows, each of them whole; else it
# ends as it does with ample memory. Where a worker alone goes without, the run goes on, so rows may be whole all the same.
# First the N-th request for memory is refused, for N from 1 until a run makes no so many. Then the site of a works is
# calculated with 16 workers in less and less address space. A run that doesn't end within a minute is a fault.
# With the word `sample` it tries some of these numbers, in some seconds; without, all of them, in some five minutes a
# program. Programs may be named behind it, as for tests/program.sh. The first part needs a C compiler and a program that
# takes its memory from the C library of the system, the second prlimit; what is missing is told and passed over.
cd "$(dirname "$0")/.." || exit 1
room=$(mktemp -d) || exit 1
trap 'rm -rf "$room"' EXIT
: > "$room/nothing"
passed=0
failed=0
if [ "$1" = sample ]; then
    sample=yes
    shift
else
    sample=
fi

# Stands between the program and the C library: the request for memory of the number REFUSE is refused, and the file REFUSED
# is made then.
cat > "$room/refuse.c" << 'END'
#include <errno.h>
#include <fcntl.h>
#include <stdatomic.h>
#include <stdlib.h>
#include <unistd.h>

extern void *__libc_malloc(size_t);
extern void *__libc_calloc(size_t, size_t);
extern void *__libc_realloc(void *, size_t);

static unsigned long wanted;
static atomic_ulong asked;

__attribute__((constructor)) static void begin(void) {
    const char *number = getenv("REFUSE");
    wanted = number ? strtoul(number, NULL, 10) : 0;
}

static int is_refused(void) {
    if (wanted == 0 || atomic_fetch_add(&asked, 1) + 1 != wanted)
        return 0;
    close(open(getenv("REFUSED"), O_WRONLY | O_CREAT, 0600));
    errno = ENOMEM;
    return 1;
}

void *malloc(size_t size) { return is_refused() ? NULL : __libc_malloc(size); }
void *calloc(size_t count, size_t size) { return is_refused() ? NULL : __libc_calloc(count, size); }
void *realloc(void *old, size_t size) { return is_refused() ? NULL : __libc_realloc(old, size); }
END

# fail WHAT: tells what isn't as it should be.
fail() {
    failed=$((failed + 1))
    echo "FAILED: $program: $1"
}

# judge STATUS WANTED-STATUS WANTED-ROWS NAME: looks at what a run has left in $room/rows and $room/said, and counts it among
# the `whole` or the `broken` runs.
judge() {
    if [ "$1" -eq "$2" ] && cmp -s "$3" "$room/rows" && [ ! -s "$room/said" ]; then
        passed=$((passed + 1))
        whole=$((whole + 1))
    elif [ "$1" -eq 5 ] && head -n "$(wc -l < "$room/rows")" "$3" | cmp -s - "$room/rows" &&
        [ "$(cat "$room/said")" = "noisemap: no memory" ]; then
        passed=$((passed + 1))
        broken=$((broken + 1))
    else
        fail "$4: status $1, wanted $2 or 5; the last of its rows and of what it said:"
        tail -n 1 "$room/rows"
        tail -n 1 "$room/said"
    fi
}

# refuse STEP INPUT WANTED-STATUS WANTED-ROWS WORDS..: refuses the first request for memory of a run, in the next run that
# of a number so much higher, and so on until a run has made all its requests.
refuse() {
    step=$1 input=$2 wanted=$3 rows=$4
    shift 4
    number=1
    whole=0
    broken=0
    while :; do
        rm -f "$room/refused"
        timeout 60 env LD_PRELOAD="$room/refuse.so" REFUSE="$number" REFUSED="$room/refused" "$program" "$@" \
            < "$input" > "$room/rows" 2> "$room/said"
        status=$?
        if [ ! -e "$room/refused" ]; then break; fi
        judge "$status" "$wanted" "$rows" "$(basename "$input") $*, without request $number"
        number=$((number + step))
    done
    if [ "$number" -eq 1 ]; then fail "$(basename "$input") $*: it asks the C library for no memory"; fi
    if [ "$status" -eq 5 ]; then fail "$(basename "$input") $*: no memory, and no request was refused"; fi
    judge "$status" "$wanted" "$rows" "$(basename "$input") $*"
    echo "$program: $(basename "$input") $*: one of $((number - step)) requests refused:" \
        "$broken runs ended with 5, $((whole - 1)) with all rows"
}

# refuse_all STEP-OF-SHORT-RUNS STEP-OF-LONG-RUNS: over a run whose way round the left of a barrier is blocked, over examples
# with words that make several edits or more rows, and over the site of a works; without workers and with some.
refuse_all() {
    refuse "$1" "$room/blocked.jsonl" 0 "$room/blocked.csv"
    refuse "$1" "$room/settles.jsonl" 0 "$room/settles.csv" --workers 2
    refuse "$1" examples/undo.jsonl "$(cat examples/undo.status)" examples/undo.csv
    refuse "$1" examples/line.jsonl "$(cat examples/line.status)" examples/line.csv
    refuse "$1" examples/contour.jsonl 0 examples/contour.csv
    refuse "$2" examples/works.jsonl 0 examples/works.csv
    refuse "$2" examples/works.jsonl 0 examples/works.csv --workers 2
    if [ -z "$sample" ] && [ "$whole" -le 1 ]; then
        fail "no worker went without memory alone"
    fi
}

# within BYTES INPUT WORDS..: a run in so much address space, and its status. Where the system kills it, the shell would tell.
within() {
    bytes=$1 input=$2
    shift 2
    (prlimit --as="$bytes" timeout 60 "$program" "$@" < "$input" > "$room/rows" 2> "$room/said"; exit $?) 2> /dev/null
}

# The least number of pages in which the site comes to a status of the program's own. In fewer the system can't start it, or
# ends it.
find_least() {
    below=0
    least=65536
    while [ $((least - below)) -gt 1 ]; do
        middle=$(((below + least) / 2))
        within $((middle * 4096)) examples/works.jsonl --workers 16
        if [ $? -le 6 ]; then least=$middle; else below=$middle; fi
    done
}

# crowd STEP PAGES: runs with 16 workers, each in less room than the one before, down to nearly the least: 100 times so many
# pages above it in the first, and STEP times so many fewer in each further one.
crowd() {
    more=$(($2 * 100))
    while [ "$more" -gt 0 ]; do
        within $(((least + more) * 4096)) examples/works.jsonl --workers 16
        judge $? 0 examples/works.csv "16 workers in $((least + more)) pages"
        more=$((more - $1 * $2))
    done
}

# Down from the room for the stacks and heaps of all workers, and then page by page.
crowd_all() {
    whole=0
    broken=0
    find_least
    crowd "$1" 6144
    crowd "$1" 1
    echo "$program: 16 workers in less and less room: $broken runs ended with 5, $whole with all rows"
}

# A barrier with a lower building behind it, which is then taken away. The levels are of an independent calculation.
{
    echo '{"do":"source","name":"s","kind":"industry","x":0,"y":0,"h":2000,"lw":[null,null,null,null,10000,null,null,null]}'
    echo '{"do":"receiver","name":"r","x":100000,"y":0,"h":2000}'
    echo '{"do":"barrier","name":"a","points":[[50000,-10000],[50000,10000]],"h":12000,"density":20}'
    echo '{"do":"building","name":"b","points":[[72000,3000],[78000,3000],[78000,9000],[72000,9000]],"h":6000}'
    echo '{"do":"settle"}'
    echo '{"do":"remove","name":"b"}'
    echo '{"do":"look"}'
    echo '{"do":"settle"}'
} > "$room/blocked.jsonl"
{
    echo "settle,4,1,,,,"
    echo "row,4,r,current,,33.39,33.40"
    echo "look,5,1,,,,"
    echo "row,4,r,stale,5,33.39,33.40"
    echo "settle,5,1,,,,"
    echo "row,5,r,current,,35.61,35.62"
} > "$room/blocked.csv"
# The same without its look, which beside workers may find the row calculated again.
grep -v look "$room/blocked.jsonl" > "$room/settles.jsonl"
grep -v -e look -e stale "$room/blocked.csv" > "$room/settles.csv"

compiler=
for name in cc clang gcc; do
    if [ -z "$compiler" ] && command -v "$name" > /dev/null; then compiler=$name; fi
done
if [ -n "$compiler" ] && ! "$compiler" -O2 -shared -fPIC -o "$room/refuse.so" "$room/refuse.c"; then compiler=; fi
if [ -z "$compiler" ]; then
    echo "memory: no C compiler here, so no request is refused"
fi
if ! command -v prlimit > /dev/null; then
    echo "memory: no prlimit here, so no run gets little room"
fi
if [ $# -eq 0 ]; then
    set -- crates/noise_map/out/noise_map crates/noise_map/out/noise_map.by-rattle
fi
for program in "$@"; do
    if [ -n "$compiler" ]; then
        if [ -n "$sample" ]; then refuse_all 13 197; else refuse_all 1 1; fi
    fi
    if command -v prlimit > /dev/null; then
        if [ -n "$sample" ]; then crowd_all 10; else crowd_all 1; fi
    fi
done
echo "memory: $passed passed, $failed failed"
[ "$failed" -eq 0 ]
