#!/bin/sh
# litmus.sh: makes the files of examples/litmus/ from litmus.src, and examples/first.sheet, 01's whole example.
# litmus.sh --check: says whether they are as the source makes them.
set -eu
cd "$(dirname "$0")"
cargo build -q -j1 --release --offline -p second --bin sheets
dir=../examples/litmus
../target/cargo/release/sheets litmus $dir/litmus.src $dir "$@"
if [ $# -eq 0 ]; then cp $dir/01-example.sheet ../examples/first.sheet; else cmp $dir/01-example.sheet ../examples/first.sheet; fi
