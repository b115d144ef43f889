#!/bin/sh
# The main job: hexline answers docs/tour.txt, printed request by request with its answer.
set -eu
cd "$(dirname "$0")/.."
target/bin/hexline <docs/tour.txt >target/tour.out
paste -d '|' docs/tour.txt target/tour.out | awk -F '|' '{ printf "%-40s %s\n", $1, $2 }'
