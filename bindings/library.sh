#!/bin/sh
# library.sh OUT_DIR: makes OUT_DIR/libmbe_c.a over the proved libraries that `rt ci` leaves in crates/*/out/rlib. It proves mbe_c once
# more. If there is a cc with its tools, link.sh makes OUT_DIR/libmbe.a and OUT_DIR/libmbe.so.1 of it. KIT is the toolchain's folder, else /opt/rattle.
set -eu
out=$(mkdir -p "$1" && cd "$1" && pwd)
root=$(cd "$(dirname "$0")/.." && pwd)
kit=${KIT:-/opt/rattle}
below=$(python3 - "$root/crates.txt" <<'P'
import sys
deps = {}
for line in open(sys.argv[1]):
    name, _, rest = line.split("#")[0].strip().partition(":")
    if name:
        deps[name.split()[0]] = rest.split()
seen = []
def walk(name):
    for it in deps.get(name, []):
        if it in deps and it not in seen:
            walk(it)
            seen.append(it)
walk("mbe_c")
print(*seen)
P
)
set --
for it in $below; do
    rlib=${MBE_RLIBS:-$root}/crates/$it/out/rlib/$it.rlib
    [ -d "$rlib" ] || rlib=$root/crates/$it/out/rlib/$it.rlib
    if [ ! -d "$rlib" ]; then
        echo "library.sh: no proved library of $it: run rt ci first ($rlib isn't there)" >&2
        exit 1
    fi
    set -- "$@" -L "dependency=$(dirname "$rlib")"
    case " mbe_tt mbe_program " in *" $it "*) set -- "$@" --extern "$it=$rlib" ;; esac
done
cd "$root/crates/mbe_c"
mkdir -p out/rlib
"$kit/bin/rattle" build --crate-name mbe_c src/lib.rt --extern "std=$kit/rlibs/std.rlib" -L "dependency=$kit/rlibs" "$@" \
    --antt-project "$kit/rattle/logic/antt-project.json" --logic-built "$kit/logic_built" --links mbe_c= \
    --jobs "${JOBS:-2}" --crate-type staticlib --toolchain "$kit/toolchain" -o "$out/libmbe_c.a"
# What takes memory is in C, and is linked with the library.
for it in "$kit"/c/liblibc_c.a "$kit"/c/libos_c.a; do
    (cd "$out" && rm -rf objects && mkdir objects && cd objects && ar x "$it" && ar r ../libmbe_c.a ./*.o && cd .. && rm -rf objects)
done
for it in cc ld nm objcopy strip; do
    command -v "$it" >/dev/null || { echo "library.sh: no $it: libmbe.a and libmbe.so.1 aren't made"; exit 0; }
done
sh "$root/bindings/link.sh" "$out"
