#!/bin/sh
# Times the arrangement of 16 and of 64 tabbed containers side by side with 16 windows each (bench/arranged.py says how), and a change of
# the focus over them (bench/rows.py), against that of another program where one is named.
# usage: bench/tabs.sh [PROGRAM [OTHER]]
set -eu
. "$(dirname "$0")/program.sh"
cases=$here/crates/cases_tree/out/cases_tree
if [ ! -x "$cases" ]; then
    (cd "$here/crates/cases_tree" && rt run -- /dev/null >/dev/null)
fi
python3 "$here/bench/arranged.py" "$cases"
python3 "$here/bench/rows.py" tabs "$program" ${2+"$2"}
