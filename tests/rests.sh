#!/bin/sh
# What the library and the program rest on beside the prover, as docs/STATEMENTS.md has it: a line for each library of the kit of whose C functions
# they reach any, with those functions. Read from what the prover reports of their whole graphs, in which each crate stands: target/lib.log
# (rt lib --list-axioms) and target/hexline.log (rt check --list-axioms), which `make report` makes. Fails where a report is not there, or not whole.
set -u
cd "$(dirname "$0")/.." || exit 1
status=0
for c in rivetgnome:target/lib.log hexline:target/hexline.log; do
    name=${c%%:*} log=${c#*:}
    if ! grep -q '^logic=proved ' "$log" 2>/dev/null || ! grep -q '^axioms ' "$log"; then
        echo "rests: no report of $name in $log"
        status=1
        continue
    fi
    awk -v name="$name" '
        /^axioms / { of = $2; sub(/:$/, "", of); order[++k] = of; said += $3; next }
        of && /^  .* reached$/ { all[of] = all[of] (all[of] ? ", " : "") $1; found++; next }
        /^logic=proved / { of = ""; for (i = 2; i <= NF; i++) if ($i ~ /^axioms=/) counted = substr($i, 8) }
        END {
            for (i = 1; i <= k; i++) if (all[order[i]]) print "    " name " rests on " order[i] ": " all[order[i]]
            if (found + 0 != said + 0 || found + 0 != counted + 0) {
                print "rests: of the functions that " name " rests on the report names " found + 0 ", and counts " said + 0 " and " counted + 0
                exit 1
            }
        }' "$log" || status=1
done
exit $status
