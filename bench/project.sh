# Sourced by the benchmarks beside it.
root=$(cd "$(dirname "$0")/.." && pwd)

# begin PROGRAM CRATE..: makes a project outside the repository, of these crates, lowest first, and of a program over
# them that is still without source, and goes to the program's folder.
begin() {
    work=$(mktemp -d)
    trap 'rm -rf "$work"' EXIT
    mkdir "$work/crates"
    cp "$root/HANDLES" "$work/HANDLES"
    program=$1
    shift
    for crate in "$@"; do
        cp -r "$root/crates/$crate" "$work/crates/$crate"
        rm -rf "$work/crates/$crate/must-fail" "$work/crates/$crate/out"
        grep "^$crate[ :]" "$root/crates.txt" >> "$work/crates.txt"
    done
    cd "$work"
    rt new "crates/$program" start_io > /dev/null
    echo "$program: $*" >> crates.txt
    cd "crates/$program"
    rm -rf BUILD.bazel specs proofs src/* std*
}

# measure WORD..: builds the program as `rt run` does, proved and by LLVM, runs it, and prints those of its lines that
# grep finds by these words.
measure() {
    rt run > "$work/log" 2>&1 || { cat "$work/log"; exit 1; }
    grep "$@" "$work/log"
}
