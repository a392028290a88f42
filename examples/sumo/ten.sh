#!/bin/sh
# ten.sh [FOLDER] [SEEDS]: a made map of ten signals goes from SUMO to sheets, a deck, a better plan and its page, and
# back into SUMO, where the plan before and after is driven by the same cars: in the deck's town, and on the map itself
# with the trips that were counted. The two tables go to standard output.
set -e
here=$(CDPATH='' cd "$(dirname "$0")" && pwd -P)
plan=$here/../../plan
folder=${1:-ten}
seeds=${2:-3}
tools=${SUMO_HOME:-/usr/share/sumo}/tools
mkdir "$folder"
# a map: five by two signals, a pocket for each left turn, which has a stage of its own; 3,000 trips in an hour
netgenerate --grid --grid.x-number 5 --grid.y-number 2 --grid.x-length 300 --grid.y-length 240 \
    --grid.attach-length 250 --turn-lanes 1 --turn-lanes.length 60 --tls.guess --tls.minor-left.max-speed 0 \
    --tls.left-green.time 9 --no-turnarounds -o "$folder/ten.net.xml" >&2
python3 "$tools/randomTrips.py" -n "$folder/ten.net.xml" -o "$folder/trips.xml" -r "$folder/routes.xml" \
    --begin 0 --end 3600 --period 1.2 --fringe-factor 1000 --min-distance 600 --seed 4 >&2
python3 "$tools/turn-defs/generateTurnRatios.py" -r "$folder/routes.xml" -o "$folder/turns.xml" \
    --begin 0 --end 3600 -i 3600 >&2
# sheets, a deck, a better plan, its page beside the plan before
"$plan" from-sumo "$folder/ten.net.xml" --turns "$folder/turns.xml" -o "$folder/sheets"
"$plan" deck "$folder/sheets" > "$folder/before.deck"
"$plan" best "$folder/before.deck" > "$folder/after.deck"
"$plan" page "$folder/after.deck" "$folder/before.deck" > "$folder/after.html"
# back into SUMO
"$plan" sumo look "$folder/after.deck" "$folder/town" >&2
"$plan" sumo drive "$folder/before.deck" --against "$folder/after.deck" --seeds "$seeds"
echo
python3 "$here/back.py" "$folder/ten.net.xml" "$folder/routes.xml" "$folder/before.deck" "$folder/after.deck"
