#!/bin/sh
# Times commands of each kind over 16, 128, 1,024 and 4,032 windows in splits of a workspace (bench/rows.py says how), against those of
# another program where one is named.
# usage: bench/commands.sh [PROGRAM [OTHER]]
set -eu
. "$(dirname "$0")/program.sh"
python3 "$here/bench/rows.py" commands "$program" ${2+"$2"}
