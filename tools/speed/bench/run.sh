#!/bin/sh
# Builds and runs the benchmark of reading, expanding and large token trees:
#
#     sh tools/speed/bench/run.sh [FOLDER]
#
# bench.sh says how it is built, and what FOLDER keeps.
case "${1:-}" in
-h | --help) sed -n '2,/^case/s/^# \{0,1\}//p' "$0"; exit 0 ;;
esac
exec sh "$(dirname "$0")/bench.sh" mbe_bench 'mbe mbe_text mbe_tt' "$@"
