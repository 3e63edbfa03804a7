#!/bin/sh
# Runs every measurement of this folder and prints one table. FIRST is a program of an earlier landing, to be measured on the same dump.
# Usage: lab/all.sh [PROGRAM [FIRST]]
set -eu
program=$(realpath -- "${1:-$(dirname "$0")/../crates/p6bench/out/p6bench}")
first=${2:+$(realpath -- "$2")}
cd "$(dirname "$0")/.."
printf '%-62s %-10s %12s   %s\n' work measured memory 'asked for'
for script in read_bench.sh run_bench.sh check_dump.sh look_at_dump.sh show_dump.sh many_codes.sh many_dumps.sh; do
    sh "lab/$script" "$program"
done
python3 lab/others.py "$program" ${first:+--first "$first"}
