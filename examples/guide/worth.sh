#!/bin/sh
# The figures of docs/GUIDE.md, "What a lower index is worth", that the program alone gives:
# sh examples/guide/worth.sh [PROGRAM] > examples/guide/worth.report
# 30 starts with the budget of 2,000 that `make` writes, against one climb to LOCAL, of towns of 64 and of 200 junctions.
# PROGRAM is the built program, crates/transyt_cli/out/transyt_cli where none is named. It takes a minute or two.
here=$(CDPATH='' cd "$(dirname "$0")" && pwd)
program=${1:-$here/../../crates/transyt_cli/out/transyt_cli}
[ -x "$program" ] || { echo "$program is not built" >&2; exit 1; }
work=$(mktemp -d) || exit 1
trap 'rm -rf "$work"' EXIT

# timed WHAT COMMAND..: a command's answer into $work/answer; how long it took goes to standard error
timed() {
    what=$1
    shift
    begun=$(date +%s)
    "$@" >"$work/answer" || exit 1
    echo "$what: $(($(date +%s) - begun)) s" >&2
}

for junctions in 64 200; do
    "$program" make 1 "$junctions" >"$work/town.deck"
    timed "$junctions junctions, starts" "$program" starts 2 1 30 <"$work/town.deck"
    starts=$(awk '$2 == "BEST" { print $4 }' "$work/answer")
    { sed 's/^STEPS [0-9]*/STEPS 1000000/' "$work/town.deck"; echo CLIMB; } >"$work/climb.deck"
    timed "$junctions junctions, climb" "$program" run 2 <"$work/climb.deck"
    awk -v junctions="$junctions" -v starts="$starts" '$1 == "LOCAL" {
        printf "%s junctions, make 1 %s: one climb to LOCAL %s, 30 starts of budget 2000 %s, %.1f in 100 above it\n",
            junctions, junctions, $4, starts, 100 * (starts - $4) / $4 }' "$work/answer"
done
