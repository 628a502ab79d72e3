#!/bin/sh
# Builds the programs and works through the example networks.
set -eu
cd "$(dirname "$0")/.."
for program in plan session_plan marks; do
    sh tools/program.sh "$program"
done
plan=crates/plan/out/plan
session_plan=crates/session_plan/out/session_plan
marks=crates/marks/out/marks
# ask PROGRAM ARGUMENTS COMMANDS
ask() {
    echo "\$ $(basename "$1") $2   (asked: $3)"
    echo "$3" | tr ';' '\n' | sed 's/^ //' | "$1" $2
    echo
}
echo "== One tip and one cable: what is left before any decision"
echo "\$ marks < examples/berm.net"
"$marks" <examples/berm.net
echo
echo "== The tip's first value is chosen; its third is then out of the question"
ask "$session_plan" examples/berm.net 'choose 0 0; page; choose 0 2; value 1; withdraw; page'
echo "== The same over direct clauses, which see less: the third value is open, and choosing it is a clash"
ask "$session_plan" 'examples/berm.net direct' 'page; choose 0 2; clash; withdraw; page'
echo "== A line of seven boreholes, 23 points and 49 tables: the deep trench, two inputs, the second logger"
ask "$session_plan" examples/line.net 'choose 22 2; choose 2 0; choose 5 1; bar 8 2; choose 21 1; page'
echo "== Hole 4 takes input 6; hole 5 cannot have input 7 then, since holes 6 and 7 need what is left"
ask "$session_plan" examples/line.net 'choose 22 2; choose 11 6; choose 14 7; clash; withdraw; bar 14 7; page'
echo "== The clauses behind it"
ask "$plan" examples/berm.net 'number 0; number 4; number 5'
ask "$plan" examples/line.net 'number 0; number 100; number 123; number 124'
ask "$plan" examples/berm.net 'clauses support; clauses direct; clauses minimal'
ask "$session_plan" examples/berm.net 'half 0'
for kind in direct support minimal; do
    echo "\$ plan examples/line.net   (asked: clauses $kind; the first lines)"
    echo "clauses $kind" | "$plan" examples/line.net | head -n 4
    echo
done
spoilt=$(mktemp)
trap 'rm -f "$spoilt"' EXIT
cat examples/berm.net >"$spoilt"
printf '\0' >>"$spoilt"
echo "== A spoilt file: one byte behind the end of berm.net"
"$marks" <"$spoilt"
"$plan" "$spoilt" </dev/null
