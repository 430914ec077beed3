# Sourced by benchmarks after timing.sh: a site that has many obstacles.

# buildings COUNT: so many buildings of 8 m by 8 m, in rows of 25, 25 m apart.
buildings() {
    awk -v count="$1" 'BEGIN {
        for (i = 0; i < count; i++) {
            x = i % 25 * 25000 - 312000
            y = int(i / 25) * 25000 - 250000
            printf "{\"do\":\"building\",\"name\":\"b%d\",\"points\":[[%d,%d],[%d,%d],[%d,%d],[%d,%d]],\"h\":9000}\n", i, x, y, x + 8000, y, x + 8000, y + 8000, x, y + 8000
        }
    }'
}

# among: 16 sources and 1,024 receivers among 500 buildings, and a settle.
among() {
    sources 16
    receivers 1024
    buildings 500
    echo '{"do":"settle"}'
}
