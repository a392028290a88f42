#!/bin/sh
# Runs each step of docs/GUIDE.md: sh examples/guide/run.sh [PROGRAM] > examples/guide/run.report
# PROGRAM is the built program, crates/transyt_cli/out/transyt_cli where none is named.
here=$(CDPATH='' cd "$(dirname "$0")" && pwd)
program=${1:-$here/../../crates/transyt_cli/out/transyt_cli}
[ -x "$program" ] || { echo "$program is not built" >&2; exit 1; }
TRANSYT=$program
export TRANSYT
plan=$here/../../plan
work=$(mktemp -d) || exit 1
trap 'rm -rf "$work"' EXIT
deck=$here/two-junctions.deck
best=$work/best.deck

# ask DECK COMMAND..: the answers to commands over a deck, without the line of END
ask() {
    file=$1
    shift
    { cat "$file"; printf '%s\n' "$@"; } | "$program" run | tail -n +2
}

# cards DECK: the cards of a deck up to END, without comments
cards() { sed '/^END/q' "$1" | grep -v '^\*'; }

# sizes NAME SIZE..: the index of an example's deck after a climb by its own step sizes, and by these
sizes() {
    name=$1
    shift
    cards "$here/../$name.deck" >"$work/own.deck"
    sed "s/^STEPS.*/STEPS 100000 $*/" "$work/own.deck" >"$work/many.deck"
    for kind in own many; do
        echo "$name, $(grep '^STEPS' "$work/$kind.deck"): $(ask "$work/$kind.deck" CLIMB | tail -n 1)"
    done
}

echo '== deck';     "$plan" deck "$here" 2>&1 >"$work/made.deck"; cmp "$work/made.deck" "$deck" && cards "$deck"
echo '== accepted'; "$program" run <"$deck"
echo '== equisat';  "$program" equisat <"$deck"
echo '== plot';     ask "$deck" 'PLOT 21'
echo '== links';    ask "$deck" LINKS
echo '== figures';  ask "$deck" FIGURES
echo '== chart';    ask "$deck" CHART
echo '== timing';   ask "$deck" TIMING
echo '== climb';    ask "$deck" INDEX CLIMB
echo '== sizes';    sizes arterial 13 10 8 7 6 5 4 3 2 1; sizes town 15 12 10 8 6 5 4 3 2 1
echo '== sweeps';   for s in 1 2 3 8; do sed "s/^CYCLE 90 90 3/CYCLE 90 90 $s/" "$deck" >"$work/s.deck"; echo "S $s $(ask "$work/s.deck" INDEX)"; done
echo '== starts';   cards "$deck" | "$program" starts 2 1 50 | sed -n '1,5p;/^\* BEST/,/^NODE/p'
echo '== spread'
for name in arterial town; do
    cards "$here/../$name.deck" | "$program" starts 2 1 30 | awk -v name=$name '$2 == "START" { sum += $NF; if (++n == 1) first = least = most = $NF }
        $2 == "START" && $NF < least { least = $NF } $2 == "START" && $NF > most { most = $NF }
        END { printf "%s: start 0 %.3f, least %.3f, mean %.3f, most %.3f\n", name, first / 1e6, least / 1e6, sum / n / 1e6, most / 1e6 }'
done
echo '== best';     "$plan" best "$deck" --cycles 70 120 10 --workers 2 2>&1 >"$best"; cards "$best"
echo '== turned';   sed 's/^NODE 1 0/NODE 1 7/; s/^NODE 2 0/NODE 2 7/' "$deck" >"$work/turned.deck"; ask "$work/turned.deck" INDEX
echo '== held';     sed '/^NODE 2/,/^LINK/{s/^STAGE 0 6 7/STAGE 0 6 43/;s/^STAGE 49 5 4/STAGE 49 5 11/;s/^STAGE 65 6 7/STAGE 65 6 19/}' "$deck" >"$work/held.deck"
ask "$work/held.deck" CERT | awk '$3 == "CHANGE" && $4 == 2 { n++; barred += $NF == "BARRED" } END { print barred " of " n " changes barred" }'
echo '== stress';   "$plan" stress "$best" --workers 2
echo '== cycles';   "$program" cycles 2 60 120 10 <"$deck" | grep '^\*'
echo '== scan';     "$program" scan 2 60 120 10 <"$deck"
echo '== cert';     ask "$best" CERT
echo '== audit';    { cards "$best"; ask "$best" CERT; } | "$program" audit
echo '== compare';  "$plan" compare "$deck" "$best"
echo '== after';    ask "$best" FIGURES CHART TIMING
echo '== counts';   { cat "$deck"; printf '11,,430,30\n11,,455,30\n12,23,540,60\n'; } | "$program" counts
echo '== trial';    ask "$deck" INDEX TRIAL 'OFFSET 2 20' INDEX BACK INDEX
echo '== file'
"$plan" file "$best" -o "$work/filed" --title 'Bridge Street and Market Street' --by 'A. Engineer' --date 2026-04-02 --sheets "$here" 2>/dev/null
ls "$work/filed"
echo '== check';    "$plan" check "$work/filed" | sed 's/[0-9a-f]\{64\}/.../; s/(.*)/(..)/'
