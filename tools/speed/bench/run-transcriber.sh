#!/bin/sh
# Builds and runs the benchmark of templates with repetitions:
#
#     sh tools/speed/bench/run-transcriber.sh [FOLDER]
#
# bench.sh says how it is built, and what FOLDER keeps.
case "${1:-}" in
-h | --help) sed -n '2,/^case/s/^# \{0,1\}//p' "$0"; exit 0 ;;
esac
exec sh "$(dirname "$0")/bench.sh" mbe_transcriber_bench 'mbe_tt mbe_ops mbe_parser mbe_log mbe_bindings mbe_transcriber mbe_text' "$@"
