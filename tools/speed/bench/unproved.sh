#!/bin/sh
# Makes the `mbex` of a checkout without proof, in a minute or two:
#
#     sh tools/speed/bench/unproved.sh CHECKOUT PROGRAM
#
# With CRATE=expandm ARGS=data/tour.rs it makes `expandm`: ARGS are arguments for a run of the
# program, in the folder of its crate. To run `expandm` alone, take tools/expandm.
#
# `rt try` gives clang a module with a check wherever the gate asks for a proof. It compiles this
# module for a sanitizer that valgrind can't run. So a folder of links to the kit has a script
# instead of clang, which keeps the module and stops. Then the checks are removed (with CHECKS=kept
# they remain), the hints on inlining are added, and the kit's clang and linker make the program.
#
# The program is near the gate's program, not equal to it: a function without a hint is inlined
# otherwise. So compare only programs that this script made.
set -eu
case "${1:-}" in
-h | --help | "") sed -n '2,/^set/s/^# \{0,1\}//p' "$0"; exit 0 ;;
esac
checkout=$(realpath "$1")
program=$(realpath "$2")
kit=$(dirname "$(rt doc | tail -1)")
work=$(mktemp -d)
trap 'rm -rf "$work"' EXIT
mkdir -p "$work/kit/bin" "$work/kit/toolchain/bin"
for it in "$kit"/* "$kit"/bin/* "$kit"/toolchain/* "$kit"/toolchain/bin/*; do
    at="$work/kit/${it#"$kit"/}"
    [ -e "$at" ] || ln -s "$it" "$at"
done
rm "$work/kit/bin/rt" "$work/kit/bin/rtlib.py" "$work/kit/toolchain/bin/clang"
cp "$kit/bin/rt" "$kit/bin/rtlib.py" "$work/kit/bin"
cat >"$work/kit/toolchain/bin/clang" <<END
#!/bin/sh
case "\$*" in *fsanitize=address*) cp module.bc "$work/kept.bc"; exit 1 ;; esac
exec "$kit/toolchain/bin/clang" "\$@"
END
chmod +x "$work/kit/toolchain/bin/clang"
(cd "$checkout/crates/${CRATE:-mbex}" && "$work/kit/bin/rt" try -- ${ARGS:-data/first.def data/first.arg} >"$work/log" 2>&1) || true
[ -e "$work/kept.bc" ] || { cat "$work/log" >&2; exit 1; }
target=x86_64-unknown-linux-gnu
clang="$kit/toolchain/bin/clang --target=$target --sysroot=$kit/toolchain -march=x86-64 --no-default-config"
$clang -x ir "$work/kept.bc" -S -emit-llvm -Xclang -disable-llvm-passes -O3 -o "$work/kept.ll" 2>"$work/log"
sed -i 's/ sanitize_address / /' "$work/kept.ll"
python3 "$(dirname "$0")/hints.py" "$work/kept.ll" "$checkout/crates" "$kit/rattle"
[ "${CHECKS:-}" = kept ] || sed -i -e '/^ *call void @llvm.trap()/d' -e '/^ *call void @"rattle-llvm-checks::/d' "$work/kept.ll"
$clang -mllvm -no-trap-after-noreturn -mllvm -trap-unreachable -mllvm -no-x86-call-frame-opt -mllvm -disable-machine-licm \
    -mllvm -disable-postra-machine-licm -mllvm -sink-common-insts=false -ffunction-sections -fdata-sections -fPIE -O3 \
    -c -x ir "$work/kept.ll" -o "$work/kept.o"
"$kit/bin/rattle-link" --target $target --toolchain "$kit/toolchain" -o "$program" "$work/kept.o" "$kit"/c/libos_c.a "$kit"/c/liblibc_c.a
