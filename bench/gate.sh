#!/bin/bash
# Prints the processor seconds that the gate spends on each crate: its proof from nothing, each must-fail edit over what that
# proof kept, and its tests from nothing. Works on a copy of what is committed, so that no kept work is touched.
# Usage: bench/gate.sh [CRATE..]; with no name, every crate.
set -eu
root=$(cd "$(dirname "$0")/.." && pwd)
copy=$(mktemp -d)
trap 'rm -rf "$copy"' EXIT
git -C "$root" archive HEAD | tar -x -C "$copy"
git init -q "$copy"
cd "$copy"

# spent COMMAND..: the processor seconds of a command and of all that it starts, in $seconds, and its status in $status.
spent() {
    local times TIMEFORMAT='%U %S'
    status=0
    times=$({ time "$@" > "$copy/said" 2>&1 < /dev/null; } 2>&1) || status=$?
    seconds=$(echo "$times" | tail -1 | awk '{ print int($1 + $2 + 0.5) }')
}

# line NAME WHAT FAULT: one line of the table, which says where a check ended otherwise than it should.
line() {
    printf '%-18s %-52s %5d%s\n' "$1" "$2" "$seconds" "$3"
}

# apply EDIT CRATE: writes the texts of an edit over the files of the crate.
apply() {
    python3 - "$1" "$2" << 'END'
import sys
edit, crate = sys.argv[1:]
path = old = None
for text in open(edit, encoding="utf-8").read().split("\n"):
    if text.startswith("file: "):
        path = f"{crate}/{text[6:].strip()}"
    elif text.startswith("old: "):
        old = text[5:]
    elif text.startswith("new:"):
        whole = open(path, encoding="utf-8").read()
        open(path, "w", encoding="utf-8").write(whole.replace(old, text[4:].removeprefix(" "), 1))
END
}

names=${*:-$(sed -n 's/^\([a-z][a-z0-9_]*\).*:.*/\1/p' crates.txt)}
for name in $names; do
    crate=crates/$name
    # the libraries below aren't part of its time
    below=$(sed -n "s/^$name\( [^:]*\)\{0,1\}:\(.*\)/\2/p" crates.txt)
    for library in $below; do
        [ ! -d "crates/$library" ] || (cd "crates/$library" && rt lib --jobs 1 > /dev/null 2>&1)
    done
    rm -rf "$crate/out"
    cd "$crate"
    spent rt check --jobs 1
    cd "$copy"
    line "$name" proof "$([ $status = 0 ] || echo '  NOT PROVED')"
    for edit in "$crate"/must-fail/*.edit; do
        [ -e "$edit" ] || continue
        cp -a "$crate/src" "$copy/src-as-it-was"
        apply "$edit" "$crate"
        cd "$crate"
        spent rt check --jobs 1
        cd "$copy"
        line "$name" "$(basename "$edit" .edit)" "$([ $status != 0 ] || echo '  NOT REFUSED')"
        rm -rf "$crate/src"
        mv "$copy/src-as-it-was" "$crate/src"
    done
    if grep -rq '^ *#\[test\]' "$crate/src"; then
        rm -rf "$crate/out"
        cd "$crate"
        spent rt check --test --jobs 1
        cd "$copy"
        line "$name" tests "$([ $status = 0 ] || echo '  NOT PROVED')"
    fi
done
