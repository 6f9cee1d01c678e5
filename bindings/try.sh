#!/bin/sh
# try.sh: makes the static library over what `rt ci` proved, into crates/mbe_c/out, and runs the tests of the bindings with it. The last line is
# `N passed, M failed`.
here=$(cd "$(dirname "$0")" && pwd)
out=$here/../crates/mbe_c/out
log=$(mktemp)
sh "$here/library.sh" "$out" >"$log" 2>&1 || { cat "$log"; rm -f "$log"; echo "0 passed, 1 failed"; exit 1; }
rm -f "$log"
MBE_LIB_DIR=$out exec sh "$here/test.sh"
