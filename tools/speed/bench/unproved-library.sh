#!/bin/sh
# Makes the library for C of a checkout without proof, to try the bindings before mbe_c is proved:
#
#     sh tools/speed/bench/unproved-library.sh CHECKOUT OUT_DIR
#
# It makes OUT_DIR/libmbe_c.a, libmbe.a and libmbe.so.1, as bindings/library.sh does. Then
# `MBE_LIB_DIR=OUT_DIR sh bindings/test.sh` tries them. In a copy of the crates, mbe_c becomes a
# program whose `main` calls each export. The rest is as in unproved.sh, CHECKS=kept too.
set -eu
case "${1:-}" in
-h | --help | "") sed -n '2,/^set/s/^# \{0,1\}//p' "$0"; exit 0 ;;
esac
checkout=$(realpath "$1")
tools=$(cd "$(dirname "$0")" && pwd)
mkdir -p "$2"
out=$(realpath "$2")
kit=$(dirname "$(rt doc | tail -1)")
work=$(mktemp -d)
trap 'rm -rf "$work"' EXIT
mkdir -p "$work/kit/bin" "$work/kit/toolchain/bin" "$work/copy/crates"
for it in "$kit"/* "$kit"/bin/* "$kit"/toolchain/* "$kit"/toolchain/bin/*; do
    at="$work/kit/${it#"$kit"/}"
    [ -e "$at" ] || ln -s "$it" "$at"
done
rm "$work/kit/bin/rt" "$work/kit/bin/rtlib.py" "$work/kit/toolchain/bin/clang"
cp "$kit/bin/rt" "$kit/bin/rtlib.py" "$work/kit/bin"
cat >"$work/kit/toolchain/bin/clang" <<END
#!/bin/sh
case "\$*" in *fsanitize=address*) cp module.bc "$work/kept.bc"; exit 1 ;; esac
exec "$kit/toolchain/bin/clang" "\$@"
END
chmod +x "$work/kit/toolchain/bin/clang"
for it in "$checkout"/crates/*; do
    name=$(basename "$it")
    mkdir "$work/copy/crates/$name"
    for part in src specs proofs; do
        [ ! -d "$it/$part" ] || cp -r "$it/$part" "$work/copy/crates/$name/$part"
    done
done
cp "$checkout/HANDLES" "$work/copy"
sed 's/^mbe_c staticlib:/mbe_c:/' "$checkout/crates.txt" >"$work/copy/crates.txt"
cd "$work/copy/crates/mbe_c"
mv src/lib.rt src/main.rt
exports=$(sed -n 's/^pub extern "C" fn \(mbe_c_[a-z_]*\).*/\1/p' src/main.rt)
# A call of each export, with a default for each parameter by its type.
python3 - src/main.rt >"$work/main" <<'P'
import re
import sys
DEFAULTS = {"Global": "rt.alloc()", "&Request": "&Request::default()",
            "&KeptCall": "&KeptCall::default()", "&mut Reply": "&mut Reply::default()",
            "&mut MacroHandle": "&mut MacroHandle::none(rt.alloc())"}
text = open(sys.argv[1]).read()
print("\nfn main(rt: HostRuntime) {")
for name, words in re.findall(r'pub extern "C" fn (\w+)\(([^)]*)\)', text):
    kinds = [it.split(":", 1)[1].strip() for it in words.split(",") if ":" in it]
    given = [DEFAULTS.get(it) or ("&mut []" if it.startswith("&mut [") else "&[]") for it in kinds]
    print(f"    let _{name} = {name}({', '.join(given)});")
print("}")
P
cat "$work/main" >>src/main.rt
"$work/kit/bin/rt" try >"$work/log" 2>&1 || true
[ -e "$work/kept.bc" ] || { cat "$work/log" >&2; exit 1; }
target=x86_64-unknown-linux-gnu
clang="$kit/toolchain/bin/clang --target=$target --sysroot=$kit/toolchain -march=x86-64 --no-default-config"
$clang -x ir "$work/kept.bc" -S -emit-llvm -Xclang -disable-llvm-passes -O3 -o "$work/kept.ll" 2>"$work/log"
sed -i -e 's/ sanitize_address / /' -e 's/@main\b/@mbe_unproved_main/' "$work/kept.ll"
for it in $exports; do
    sed -i -e "s/@\"mbe_c::$it\"/@$it/" -e "s/^define internal \(.*@$it(\)/define \1/" "$work/kept.ll"
done
python3 "$tools/hints.py" "$work/kept.ll" "$checkout/crates" "$kit/rattle"
[ "${CHECKS:-}" = kept ] || sed -i -e '/^ *call void @llvm.trap()/d' -e '/^ *call void @"rattle-llvm-checks::/d' "$work/kept.ll"
$clang -mllvm -no-trap-after-noreturn -mllvm -trap-unreachable -mllvm -no-x86-call-frame-opt -mllvm -disable-machine-licm \
    -mllvm -disable-postra-machine-licm -mllvm -sink-common-insts=false -ffunction-sections -fdata-sections -fPIC -O3 \
    -c -x ir "$work/kept.ll" -o "$work/kept.o"
rm -f "$out/libmbe_c.a"
ar rc "$out/libmbe_c.a" "$work/kept.o"
for it in "$kit"/c/liblibc_c.a "$kit"/c/libos_c.a; do
    (mkdir "$work/objects" && cd "$work/objects" && ar x "$it" && ar r "$out/libmbe_c.a" ./*.o && cd .. && rm -rf objects) 2>/dev/null
done
sh "$tools/../../../bindings/link.sh" "$out"
