#!/bin/sh
# Prints what workers bring by the proved program: the time of `--make 7`, and of a site with 16 sources, 1,024 receivers and
# 500 buildings, with 0 to 15 workers on as many processors as there are, and beside as many busy loops; the time of an edit and
# of a look at that site while 4 workers calculate it; that of one edit beside some 4,000 receivers while a job is out; and what
# 0 to 16 workers cost: processor time without a job, and beside a slow editor; the time of 20,000 edits, and of a look behind
# an edit.
set -e
. "$(dirname "$0")/timing.sh"
. "$(dirname "$0")/site.sh"

# run_time WORD..: the least time of three runs with these words over $work/site, in milliseconds.
run_time() {
    least=
    for _ in 1 2 3; do
        begin=$(date +%s%N)
        "$root/noisemap" "$@" < "$work/site" > "$work/rows" || true
        end=$(date +%s%N)
        spent=$(((end - begin) / 1000000))
        [ -z "$least" ] || [ "$spent" -lt "$least" ] && least=$spent
    done
    echo "$least"
}

among > "$work/site"
echo "workers  --make 7 ms  the site ms  (on $(nproc) processors)"
for workers in 0 1 2 3 7 15; do
    printf '%7d  %11d  %11d\n' "$workers" "$(run_time --make 7 --workers "$workers")" "$(run_time --workers "$workers")"
done

# The same beside as many busy loops as there are processors.
loops=
for _ in $(seq "$(nproc)"); do
    (while :; do :; done) &
    loops="$loops $!"
done
echo "workers  the site ms  (beside $(nproc) busy loops)"
for workers in 0 3 15; do
    printf '%7d  %11d\n' "$workers" "$(run_time --workers "$workers")"
done
# shellcheck disable=SC2086
kill $loops

# Looks, and edits with looks, one after the other as the rows come, while the workers have the whole site before them.
grep -v settle "$work/site" > "$work/unsettled"
python3 - "$root/noisemap" "$work/unsettled" <<'PYTHON'
import subprocess, sys, time
program, site = sys.argv[1:]
run = subprocess.Popen([program, "--workers", "4"], stdin=subprocess.PIPE, stdout=subprocess.PIPE, text=True, bufsize=1 << 20)
run.stdin.write(open(site).read())

def look(edits):
    """The time of so many edits and a look, in ms, and how many rows are current."""
    begin = time.monotonic()
    for number in range(edits):
        run.stdin.write('{"do":"barrier","name":"w","points":[[900000,900000],[900000,%d]],"h":4000,"density":20}\n' % (910000 + number))
    run.stdin.write('{"do":"look"}\n')
    run.stdin.flush()
    rows = int(run.stdout.readline().split(",")[2])
    states = [run.stdout.readline().split(",")[3] for _ in range(rows)]
    return (time.monotonic() - begin) * 1000, states.count("current")

look(0)
plain, edited, current = [], [], []
for _ in range(10):
    spent, count = look(0)
    plain.append(spent)
    current.append(count)
    edited.append((look(10)[0] - spent) / 10)
print("look ms  edit ms  receivers current meanwhile")
print(f"{sorted(plain)[5]:7.2f}  {sorted(edited)[5]:7.2f}  {current[0]} to {current[-1]}")
run.stdin.close()
run.wait()
PYTHON

# One edit of a map while the one worker calculates its rows, so that a job has the scene: a barrier beside 4,096 receivers, and
# a receiver beside 4,032; the median of 100, each some milliseconds behind the last, and the same without workers. Then that of
# the first edits of 25 maps, where next to no row is calculated yet. The row of a line that is refused tells when an edit was
# done; what such a line costs alone is taken off.
python3 - "$root/crates/noise_map/out/noise_map" <<'PYTHON'
import subprocess, sys, time
program = sys.argv[1]
refused = '{"do":"remove","name":"nobody"}\n'
barrier = '{"do":"barrier","name":"w","points":[[900000,900000],[900000,910000]],"h":4000,"density":20}\n'
receiver = '{"do":"receiver","name":"extra","x":900000,"y":900000,"h":4000}\n'

def scene(rows):
    sources = "".join('{"do":"source","name":"s%d","kind":"industry","x":%d,"y":%d,"h":2000,"lw":[9000,9500,9800,10000,10000,9700,9200,8500]}\n' % (i, i * 7919 % 200000, i * 104729 % 200000) for i in range(128))
    return sources + '{"do":"grid","name":"r","x":-320000,"y":-320000,"step":10000,"columns":64,"rows":%d,"h":4000}\n' % rows

def each(rows, workers, edit, count):
    """Microseconds of each of so many edits behind this scene."""
    run = subprocess.Popen([program, "--workers", str(workers)], stdin=subprocess.PIPE, stdout=subprocess.PIPE, text=True, bufsize=1 << 20)
    def spent(lines):
        time.sleep(0.003)
        begin = time.monotonic()
        run.stdin.write(lines + refused)
        run.stdin.flush()
        run.stdout.readline()
        return (time.monotonic() - begin) * 1e6
    spent(scene(rows) + edit)
    times = [-spent("") + spent(edit) for _ in range(count)]
    run.kill()
    run.wait()
    return times

def median(times):
    return sorted(times)[len(times) // 2]

print("workers  us of a barrier beside 4,096 receivers  of the first  of a receiver beside 4,032  of the first")
for workers in (0, 1):
    row = []
    for rows, edit in ((64, barrier), (63, receiver)):
        row.append(median(each(rows, workers, edit, 100)))
        row.append(median([each(rows, workers, edit, 1)[0] for _ in range(25)]))
    print("{:7}  {:38.0f}  {:12.0f}  {:27.0f}  {:12.0f}".format(workers, *row), flush=True)
PYTHON

# What workers cost where there is nothing to do for them, or little.
python3 - "$root/crates/noise_map/out/noise_map" <<'PYTHON'
import resource, subprocess, sys, time
program = sys.argv[1]

def start(workers):
    return subprocess.Popen([program, "--workers", str(workers)], stdin=subprocess.PIPE, stdout=subprocess.PIPE, text=True, bufsize=1 << 20)

def source(number):
    return '{"do":"source","name":"s","kind":"industry","x":0,"y":0,"h":2000,"lw":[9000,9500,9800,10000,10000,9700,9200,%d]}\n' % (8000 + number % 1000)

def grid(columns):
    return '{"do":"grid","name":"g","x":-100000,"y":-100000,"step":20000,"columns":%d,"rows":%d,"h":4000}\n' % (columns, columns)

def spent():
    used = resource.getrusage(resource.RUSAGE_CHILDREN)
    return used.ru_utime + used.ru_stime

def slow(workers, lines):
    """Processor milliseconds of a run that gets these lines, one each 10 ms, and then nothing until 3 s are over."""
    before, end = spent(), time.monotonic() + 3
    run = start(workers)
    for line in lines:
        run.stdin.write(line)
        run.stdin.flush()
        time.sleep(0.01)
    time.sleep(max(0, end - time.monotonic()))
    run.communicate()
    return (spent() - before) * 1000

def quick(workers, lines):
    """Milliseconds of a run that gets these lines at once."""
    run = start(workers)
    begin = time.monotonic()
    run.communicate("".join(lines))
    return (time.monotonic() - begin) * 1000

def look(workers):
    """Milliseconds of an edit that touches 256 rows and of a look behind it: the median of 40."""
    run, times = start(workers), []
    run.stdin.write(source(0) + grid(16) + '{"do":"settle"}\n')
    for number in range(41):
        begin = time.monotonic()
        run.stdin.write((source(number) if number else "") + '{"do":"look"}\n')
        run.stdin.flush()
        rows = 257 * 2 if number == 0 else 257
        for _ in range(rows):
            run.stdout.readline()
        times.append((time.monotonic() - begin) * 1000)
        time.sleep(0.02)
    run.communicate()
    return sorted(times[1:])[20]

def settled(columns):
    """A settled map of a source and so many rows of so many receivers."""
    return [source(0), grid(columns), '{"do":"settle"}\n']

sources = [source(number) for number in range(20000)]
print("workers  without a job  an edit each 10 ms of 16 rows  of 64 rows  20,000 edits  of 16 rows each  look behind an edit")
print("         cpu ms of 3 s                   cpu ms of 3 s       the same           ms               ms                   ms")
for workers in (0, 1, 4, 16):
    idle = slow(workers, [])
    few, more = [slow(workers, settled(columns) + sources[:280]) for columns in (4, 8)]
    bare, touching = quick(workers, sources), quick(workers, [grid(4)] + sources)
    print(f"{workers:7}  {idle:13.0f}  {few:29.0f}  {more:10.0f}  {bare:12.0f}  {touching:15.0f}  {look(workers):19.2f}", flush=True)
PYTHON
