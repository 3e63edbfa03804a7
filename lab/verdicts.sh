#!/bin/sh
# Judges many dumps, several at a time. Reads their names from standard input, one a line, and prints a line for each as it is done: the
# exit status, the name, and the verdict or why there is none, divided by tabs. The status of this script is 0 where each name got a line.
# Usage: lab/verdicts.sh [PROGRAM [JOBS]] < NAMES      (a PROGRAM without a slash is looked for on the path)
set -eu
program=${1:-$(dirname "$0")/../crates/p6bench/out/p6bench}
command -v -- "$program" > /dev/null || { echo "no program $program: build it by 'rt run' in crates/p6bench" >&2; exit 2; }
tr '\n' '\0' | xargs -r -0 -P "${2:-$(getconf _NPROCESSORS_ONLN)}" -n 1 sh -c '
    said=$("$0" check "$1" 2>&1) && status=0 || status=$?
    printf "%s\t%s\t%s\n" "$status" "$1" "$(printf %s "$said" | head -n 1)"' "$program"
