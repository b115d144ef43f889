#!/bin/sh
# Reads what rt ci (or rt must-fail) printed of every must-fail edit. The first error must be a fact that fails: an edit whose proof only no longer fits
# the program (a place that is gone, a tactic that finds nothing) shows nothing, and one that is not named there was not tried.
#   tests/refused.sh [LOG]      what was printed, default target/ci.log
# rt prints 160 characters of that error: it has to say within them what fails.
set -u
cd "$(dirname "$0")/.." || exit 1
log=${1:-target/ci.log}
[ -f "$log" ] || { echo "refused: there is no $log"; exit 1; }
fact='it is not proved that |two types (first )?differ |the two types are |expected type .*, but this has type|the goal does not follow from what it read'
weak='only because a proof file names|only by a limit|has no `|was not admitted|not in scope|no instance|no occurrence|needs a function \(or path\) type|has no field|components but its type|cannot be named|parse|is refused by'
status=0
for f in crates/*/must-fail/*.edit; do
    e=$(echo "$f" | sed 's#crates/\(.*\)/must-fail/\(.*\).edit#\1/\2#')
    line=$(grep -F "rt: must-fail $e.edit: " "$log" | tail -n 1)
    said=${line#"rt: must-fail $e.edit: "}
    first=${said#'refused, as it must be: '}
    if [ -z "$line" ]; then
        echo "refused: $e was not tried: $log does not name it"
        status=1
    elif [ "$first" = "$said" ] || printf '%s\n' "$first" | grep -qE "$weak" ||
        ! printf '%s\n' "$first" | grep -qE "$fact"; then
        echo "refused: $e shows no failing fact: $said"
        status=1
    fi
done
exit $status
