#!/bin/sh
# Builds and runs a benchmark of this folder. It works in a repository of its own, beside copies of
# the libraries that the benchmark names and of all below them, so the gate doesn't prove it.
#
#     sh tools/speed/bench/bench.sh NAME LIBRARIES [FOLDER]
#
# FOLDER, by default a new one, keeps what was proved for the next time. With MBE_BENCH=try the
# benchmark runs without proof.
set -eu
case "${1:-}" in
-h | --help | "") sed -n '2,/^set/s/^# \{0,1\}//p' "$0"; exit 0 ;;
esac
top=$(cd "$(dirname "$0")/../../.." && pwd)
bench=$1
folder=${3:-$(mktemp -d)}
mkdir -p "$folder/crates"
# What the benchmark names, and all below it.
libraries=$(awk -F: -v asked="$2" '
    { below[$1] = $2 }
    END {
        left = split(asked, todo, " ")
        while (left) {
            it = todo[left--]
            if (it in seen || !(it in below)) continue
            seen[it] = 1
            count = split(below[it], more, " ")
            for (i = 1; i <= count; i++) todo[++left] = more[i]
        }
        for (it in seen) print it
    }' "$top/crates.txt")
: >"$folder/crates.txt"
for crate in $libraries; do
    grep "^$crate:" "$top/crates.txt" >>"$folder/crates.txt"
done
echo "$bench: $2" >>"$folder/crates.txt"
for crate in $(for name in $libraries; do echo "crates/$name"; done) "tools/speed/bench/$bench"; do
    to=$folder/crates/$(basename "$crate")
    mkdir -p "$to"
    rm -rf "$to/src" "$to/specs" "$to/proofs"
    for part in src specs proofs out; do
        # The proofs of an earlier run remain.
        if [ -e "$top/$crate/$part" ] && [ ! -e "$to/$part" ]; then
            cp -a "$top/$crate/$part" "$to/"
        fi
    done
done
# Its sources end in `.in`, since the gate asks that a crate reads each Rattle file.
find "$folder/crates/$bench" -name '*.in' | while read -r file; do
    mv "$file" "${file%.in}"
done
cd "$folder/crates/$bench"
exec rt "${MBE_BENCH:-run}"
