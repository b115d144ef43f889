#!/bin/sh
# Makes crates/hexline/stdin and stdout again: a sample of the Rust's answers, those that its documentation prints, then lines written by hand (tests/lines), whose last has no end.
set -eu
cd "$(dirname "$0")/.."
tests/oracle/build.sh
into=target/sample
mkdir -p $into
target/oracle/differ --sample 100 --seed 1 --into $into
cat $into/stdin tests/lines/published.in tests/lines/differences.in tests/lines/steps.in tests/lines/by_hand.in >crates/hexline/stdin
cat $into/stdout tests/lines/published.out tests/lines/differences.out tests/lines/steps.out tests/lines/by_hand.out >crates/hexline/stdout
