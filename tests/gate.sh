#!/bin/sh
# The whole gate, for `make test`: rt ci over all crates, then the tests from outside over the program that it built and the archive that rt lib builds.
# Its last line is rt ci's own where all is green, else 'N passed, K failed' with K at least 1.
set -u
cd "$(dirname "$0")/.." || exit 1
work=$(mktemp -d) || exit 1
trap 'rm -rf "$work"' EXIT

# All of rt ci's output but its last line, as it comes.
{ rt ci 2>&1; echo $? >"$work/status"; } | tee "$work/log" | awk 'NR > 1 { print held; fflush() } { held = $0 }'
last=$(tail -n 1 "$work/log")
passed=$(printf '%s\n' "$last" | sed -n 's/^\([0-9]*\) passed, [0-9]* failed.*/\1/p')
failed=$(printf '%s\n' "$last" | sed -n 's/^[0-9]* passed, \([0-9]*\) failed.*/\1/p')
case $passed:$failed in
[0-9]*:[0-9]*) ;;
*) printf '%s\n' "$last"; passed=0 failed=1 ;;
esac
[ "$(cat "$work/status")" = 0 ] || [ "$failed" != 0 ] || failed=1

# An edit that cannot be applied or read shows nothing; rt ci only counts it, in its line 'rt: ok'.
if [ "$failed" = 0 ]; then
    ok=$(grep '^rt: ok; ' "$work/log" | tail -n 1)
    bad=$(printf '%s\n' "$ok" | sed -n 's/.*must-fail edits: [^;]*, \([0-9][0-9]*\) bad.*/\1/p')
    if [ -z "$ok" ]; then
        echo "gate: rt ci did not say 'rt: ok'"
        failed=1
    elif [ "${bad:-0}" != 0 ]; then
        echo "gate: bad must-fail edits: $bad"
        failed=$bad
    fi
fi
mkdir -p target && cp "$work/log" target/ci.log || failed=$((failed + 1))

# part NAME COMMAND..: a part that fails is one more failure; one that was skipped is not called done
part() {
    name=$1
    shift
    { "$@" </dev/null 2>&1; echo $? >"$work/status"; } | tee "$work/part"
    if [ "$(cat "$work/status")" != 0 ]; then
        echo "gate: $name: FAILED"
        failed=$((failed + 1))
    elif ! grep -q '^skipped: ' "$work/part"; then
        echo "gate: $name: done"
    fi
}
# The program that rt ci built and ran, to where the tests and `make install` look for it.
program() {
    mkdir -p target/bin && rm -f target/bin/hexline && cp crates/hexline/out/hexline target/bin/hexline
}
if [ "$failed" = 0 ]; then
    part 'the border of index::inside' tests/border.sh
    part 'the border, tried' tests/border_tried.sh
    part 'the wrong programs' tests/refused.sh
    part 'the program' program
    part 'the archive' make -s lib
    part 'what they rest on' make -s report BUILT=1
    part 'the statements' tests/statements.sh
    part 'from C and C++' make -s test-c BUILT=1
    part 'the Python binding' make -s test-python BUILT=1
    part 'the line program' tests/hexline.sh
    part 'installed' tests/install.sh
    part 'the Rust binding' make -s test-rust BUILT=1
    part 'beside the Rust' make -s test-differ BUILT=1
    part 'abuse' tests/abuse/run.sh calls 2000000 100000
    part 'fuzz' tests/abuse/run.sh lines 200000
fi
if [ "$failed" = 0 ]; then
    printf '%s\n' "$last"
else
    echo "$passed passed, $failed failed"
    exit 1
fi
