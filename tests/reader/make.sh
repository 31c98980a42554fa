#!/bin/sh
# make.sh: the files crates/reader_runs/stdin and crates/reader_runs/stdout from sheets.tsv: each sheet after its length in two bytes, the most
# significant first; what reading gives, a line each. The .tsv is the source, written by hand; the second program must agree with it first.
# With --check nothing is written: are the files as they should be?
set -eu
here=$(cd "$(dirname "$0")" && pwd)
root=$(cd "$here/../.." && pwd)
space=$(mktemp -d)
trap 'rm -rf "$space"' EXIT
(cd "$root/harness" && cargo build -q -j1 --release --offline -p second --bin sheets)
sheets=$root/target/cargo/release/sheets
"$sheets" tsv "$here/sheets.tsv"
"$sheets" tsv "$here/sheets.tsv" --batch >"$space/stdin"
"$sheets" tsv "$here/sheets.tsv" --lines >"$space/stdout"
status=0
for name in stdin stdout; do
    stored=crates/reader_runs/$name
    cmp -s "$space/$name" "$root/$stored" && continue
    if [ "${1-}" = --check ]; then
        status=1
        echo "$stored is not what tests/reader/sheets.tsv gives: run tests/make"
    else
        cp "$space/$name" "$root/$stored"
        echo "$stored: written"
    fi
done
exit $status
