# Sourced by the benchmarks of i3replay: finds the program, proved and built first where it is not, and makes a folder
# that goes when the benchmark ends. Sets `program` and `folder`.
here=$(cd "$(dirname "$0")/.." && pwd)
program=${1:-$here/crates/i3replay/out/i3replay}
if [ ! -x "$program" ]; then
    "$here/run" i3replay --version >/dev/null
fi
folder=$(mktemp -d)
trap 'rm -rf "$folder"' EXIT
