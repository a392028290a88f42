#!/bin/sh
# Files the guide's plan (docs/GUIDE.md, chapter 11) and the arterial's, anew: sh examples/filed/make.sh [PROGRAM]
# PROGRAM is the built program, crates/transyt_cli/out/transyt_cli where none is named; ./plan check tells of each at last.
here=$(CDPATH='' cd "$(dirname "$0")" && pwd) && cd "$here/../.." || exit 1
TRANSYT=$(realpath "${1:-crates/transyt_cli/out/transyt_cli}") && [ -x "$TRANSYT" ] && export TRANSYT || exit 1
work=$(mktemp -d "$here/.made.XXXXXX") && trap 'rm -rf "$work"' EXIT || exit 1

# filed NAME TITLE DECK OPTION..: a deck's plan into the folder NAME, in the place of the one that is there
filed() {
    name=$1 title=$2 deck=$3
    shift 3
    ./plan file "$deck" -o "$work/$name" --title "$title" --by 'A. Engineer' --date 2026-04-02 "$@" &&
        rm -rf "${here:?}/$name" && mv "$work/$name" "$here/$name" && ./plan check "$here/$name" --same-program
}

./plan best examples/guide/two-junctions.deck --cycles 70 120 10 --workers 2 >"$work/guide.deck" &&
    filed guide 'Bridge Street and Market Street, morning peak' "$work/guide.deck" --sheets examples/guide &&
    ./plan best examples/arterial.deck --starts 0 --kicks 0 --workers 2 >"$work/arterial.deck" &&
    filed arterial 'The arterial of six junctions, climbed until LOCAL' "$work/arterial.deck"
