#!/bin/sh
# Times commands of each kind over 16 and over 256 workspaces on 8 outputs, a window in each (bench/rows.py says how), against those of
# another program where one is named.
# usage: bench/spaces.sh [PROGRAM [OTHER]]
set -eu
. "$(dirname "$0")/program.sh"
python3 "$here/bench/rows.py" spaces "$program" ${2+"$2"}
