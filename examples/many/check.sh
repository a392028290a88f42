#!/bin/sh
# Lists what wants a look in the answers of a folder: check.sh FOLDER. It ends with 1 where there is something. Of several
# climbs the last counts.
cd "$1" || exit 1
{
    for deck in *.deck; do [ -e "${deck%.deck}.out" ] || echo "$deck: no answer"; done
    grep -n -e REFUSED -e 'AUDIT NO' ./*.out
    for out in ./*.out; do
        grep -n -e '^LOCAL [0-9]' -e '^BUDGET [0-9]' "$out" /dev/null | tail -n 1 | grep ':BUDGET '
    done
} | grep . && exit 1
echo "$(ls ./*.out | wc -l) answers, nothing to look at"
