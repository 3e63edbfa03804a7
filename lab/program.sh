# What a measuring script begins with, read by it as it stands: the built program (its first word, or the one that `rt run` makes), the top
# of the checkout as the folder that it runs in, and a folder of its own, which is gone when it ends.
program=$(realpath -- "${1:-$(dirname "$0")/../crates/p6bench/out/p6bench}")
cd "$(dirname "$0")/.."
[ -x "$program" ] || { echo "no program at $program: build it by 'rt run' in crates/p6bench" >&2; exit 2; }
folder=$(mktemp -d)
trap 'rm -rf "$folder"' EXIT
