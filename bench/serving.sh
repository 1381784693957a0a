# Sourced by the benchmarks of i3desk: finds the server, proved and built first where it is not, and makes a folder that goes
# when the benchmark ends. Sets `here`, `server` and `folder`.
here=$(cd "$(dirname "$0")/.." && pwd)
server=${1:-$here/crates/i3desk/out/i3desk}
[ -x "$server" ] || "$here/run" i3desk --version >/dev/null
folder=$(mktemp -d)
trap 'rm -rf "$folder"' EXIT
