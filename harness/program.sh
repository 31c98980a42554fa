#!/bin/sh
# program.sh NAME: target/bin/NAME, the program of crates/NAME, proved and built by `rt run`, which also runs it, here on an empty input.
set -eu
name=$1
cd "$(dirname "$0")/.."
mkdir -p target/bin
(cd "crates/$name" && rt run </dev/null >&2)
cmp -s "crates/$name/out/$name" "target/bin/$name" || cp "crates/$name/out/$name" target/bin/
