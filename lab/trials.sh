#!/bin/sh
# Judges waveforms twice, by the checker and by the plain judge of whole traces: of ten seeds 20,000 random ones each, and the worked
# runs' dumps with every one that differs from them in one line at one clock, through the built program
# crates/rows_trials/out/rows_trials (made by `rt run` there or by `rt ci`). Usage: lab/trials.sh [PROGRAM [SEEDS]]
set -eu
program=$(realpath -- "${1:-$(dirname "$0")/../crates/rows_trials/out/rows_trials}")
cd "$(dirname "$0")/.."
[ -x "$program" ] || { echo "no program at $program: build it by 'rt run' in crates/rows_trials" >&2; exit 2; }
# Prints what a call of the program says in one line. It ends this script with 1 where the call fails, or judged one waveform differently.
judged() {
    said=$("$program" "$@") || { echo "the program ended with status $?" >&2; exit 1; }
    echo "$said" | tr '\n' ' '
    echo
    case "$said" in *"judged, "[1-9]*) exit 1 ;; *"judged, 0 of them differently"*) ;; *) exit 1 ;; esac
}
judged 1 0 crates/rows_trials/data/*.vcd
for seed in $(seq 1 "${2:-10}"); do
    judged "$seed" 20000
done
