#!/bin/sh
# link.sh DIR: makes the library as packages have it from DIR/libmbe_c.a, which is what the compiler and the kit's C make:
#
#     DIR/libmbe.a       the static library. Only the exports mbe_c_* are global names, so it can't collide with other libraries.
#     DIR/libmbe.so.1    the shared library, with that SONAME, and with the exports mbe_c_* of the version MBE_1
#     DIR/libmbe.so      a link to it; so is libmbe_c.so, its earlier name
#
# The results depend on libmbe_c.a and on the tools alone, not on times and folders.
set -eu
here=$(cd "$(dirname "$0")" && pwd)
cd "$1"
objects=$(mktemp -d)
trap 'rm -rf "$objects"' EXIT
# What no export needs is left out, such as the kit's calls for processes.
roots=$(nm -g --defined-only libmbe_c.a 2>/dev/null | sed -n 's/.* T \(mbe_c_[a-z_]*\)$/-u \1/p')
ld -r --gc-sections $roots -o "$objects/mbe.o" libmbe_c.a
objcopy --wildcard --keep-global-symbol='mbe_c_*' --strip-unneeded --remove-section=.comment "$objects/mbe.o"
rm -f libmbe.a libmbe.so libmbe.so.1 libmbe_c.so
ar rcD libmbe.a "$objects/mbe.o"
cc -shared -s -o libmbe.so.1 "$objects/mbe.o" -Wl,-soname,libmbe.so.1 -Wl,--version-script="$here/c/mbe.map" \
    -Wl,--gc-sections -Wl,-z,relro,-z,now -Wl,-z,noexecstack -Wl,-z,defs -lm
strip --remove-section=.comment libmbe.so.1
ln -s libmbe.so.1 libmbe.so
ln -s libmbe.so.1 libmbe_c.so
