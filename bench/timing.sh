# Sourced by the benchmarks beside it that time the proved program, which is built first where that is needed and $program
# names no other.
root=$(cd "$(dirname "$0")/.." && pwd)
work=$(mktemp -d)
trap 'rm -rf "$work"' EXIT
[ -n "${program:-}" ] || "$root/noisemap" < /dev/null

# sources COUNT: so many lines of sources of eight bands, each at another place.
sources() {
    awk -v count="$1" 'BEGIN {
        for (i = 0; i < count; i++)
            printf "{\"do\":\"source\",\"name\":\"s%d\",\"kind\":\"industry\",\"x\":%d,\"y\":%d,\"h\":%d,\"lw\":[9000,9500,9800,10000,10000,9700,9200,8500]}\n", i, i * 7919 % 200000, i * 104729 % 200000, 500 + i * 37 % 9000
    }'
}

# receivers COUNT: a grid of so many, 10 m apart in rows of 64.
receivers() {
    echo "{\"do\":\"grid\",\"name\":\"r\",\"x\":-320000,\"y\":-320000,\"step\":10000,\"columns\":64,\"rows\":$(($1 / 64)),\"h\":4000}"
}

# ends STEP: 16 sources beside each other, and 512 receivers 400 m east of them, so many millimetres apart.
ends() {
    awk -v step="$1" 'BEGIN {
        for (i = 0; i < 16; i++)
            printf "{\"do\":\"source\",\"name\":\"s%d\",\"kind\":\"industry\",\"x\":0,\"y\":%d,\"h\":2000,\"lw\":[9000,9500,9800,10000,10000,9700,9200,8500]}\n", i, i * 100
        for (i = 0; i < 512; i++)
            printf "{\"do\":\"receiver\",\"name\":\"r%d\",\"x\":400000,\"y\":%d,\"h\":4000}\n", i, (i - 256) * step
    }'
}

# milliseconds INPUT: the least time of five runs over a file. The rows of the last are in $work/rows.
milliseconds() {
    least=
    for _ in 1 2 3 4 5; do
        begin=$(date +%s%N)
        "$root/noisemap" < "$1" > "$work/rows" || true
        end=$(date +%s%N)
        spent=$(((end - begin) / 1000000))
        [ -z "$least" ] || [ "$spent" -lt "$least" ] && least=$spent
    done
    echo "$least"
}

# settle_time INPUT: by how much a settle at the end of a file makes its run longer, in milliseconds.
settle_time() {
    { cat "$1"; echo '{"do":"settle"}'; } > "$work/settled"
    echo $(($(milliseconds "$work/settled") - $(milliseconds "$1")))
}
