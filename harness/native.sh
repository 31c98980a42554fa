#!/bin/sh
# native.sh [NAME]: target/native/libNAME.a, the static library NAME (plimdrong if none is named): what `rt lib` proves and writes, for x86-64.
set -eu
name=${1:-plimdrong}
cd "$(dirname "$0")/.."
out=target/native
mkdir -p $out
if [ "$(uname -m)" != x86_64 ]; then
    echo "native.sh: this machine is $(uname -m), and the Rattle kit makes archives for x86-64 alone" >&2
    exit 1
fi
(cd "crates/$name" && rt lib)
# an archive that has not changed keeps its time, so that cargo links nothing anew
cmp -s "crates/$name/out/lib$name.a" "$out/lib$name.a" || cp "crates/$name/out/lib$name.a" "$out/"
