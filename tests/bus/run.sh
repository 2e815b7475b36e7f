#!/bin/sh
# Builds the library for C, runs the example and compares the library with the implementation in compare.py.
# Usage: tests/bus/run.sh [CALLS] [SEED]
set -eu
cd "$(dirname "$0")/../.."
(cd crates/bus && ${RT:-rt} lib > /dev/null)
out=crates/bus/out/tests
mkdir -p "$out"
for program in example driver; do
    ${CC:-cc} -std=c11 -D_DEFAULT_SOURCE -Wall -Wextra -Werror -O1 -I crates/bus/include "tests/bus/$program.c" \
        crates/bus/out/libbus.a -o "$out/$program"
done
"$out/example" | diff - tests/bus/example.txt
echo "the example prints what it should"
python3 tests/bus/compare.py "$out/driver" "${1:-20000}" "${2:-1}"
