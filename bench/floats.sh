#!/bin/sh
# Times commands of each kind over 20, 200, 1,024 and 4,090 floating windows (bench/rows.py says how), against those of another program
# where one is named.
# usage: bench/floats.sh [PROGRAM [OTHER]]
set -eu
. "$(dirname "$0")/program.sh"
python3 "$here/bench/rows.py" floats "$program" ${2+"$2"}
