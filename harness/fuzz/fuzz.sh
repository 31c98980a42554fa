#!/bin/sh
# fuzz.sh [SECONDS]: libFuzzer over plimdrong_judge, plimdrong_check and plimdrong_why beside the second program (Debian:
# clang, libclang-rt-14-dev). What is new is kept in target/fuzz/corpus; a difference or a crash leaves its input in target/fuzz/. Not
# part of the gate.
#
# The archive of the judge carries no counters of its own. The fuzzer is led by those of the second program, which is
# compiled for it: it takes a branch for every clause of document 01, so inputs that reach a new clause are kept.
set -eu
seconds=${1:-60}
cd "$(dirname "$0")"
root=$(cd ../.. && pwd)
../native.sh
RUSTFLAGS="-Cpasses=sancov-module -Cllvm-args=-sanitizer-coverage-level=4 -Cllvm-args=-sanitizer-coverage-inline-8bit-counters -Cllvm-args=-sanitizer-coverage-pc-table -Cllvm-args=-sanitizer-coverage-trace-compares -Ccodegen-units=1" \
    cargo build -q -j1 --release --offline --target "$(rustc -vV | sed -n 's/^host: //p')" --target-dir "$root/target/cargo/fuzz"
out=$root/target/fuzz
mkdir -p "$out/corpus" "$out/seeds"
cp "$root"/examples/litmus/*.sheet "$out/seeds/"
(cd .. && cargo run -q -j1 --release --offline -p second --bin sheets -- files "$out/seeds" 1 1000)
# and a thousand with a list: sheet, list, the list's length, the byte that says so
(cd .. && cargo run -q -j1 --release --offline -p second --bin sheets -- lists 1 1000) | python3 -c '
import sys
for line in sys.stdin:
    name, sheet, numbers, answer = line.rstrip("\n").split("\t")
    numbers = bytes(map(int, filter(None, numbers.split(","))))
    if len(numbers) < 40:
        with open(sys.argv[1] + "/list-" + name, "wb") as f:
            f.write(bytes.fromhex(sheet.strip("-")) + numbers + bytes([len(numbers), 0xfd]))
' "$out/seeds"
# and a thousand aimed at 26: sheet, the length of the buffer for the bars, the scratch's, the byte that says so
(cd .. && cargo run -q -j1 --release --offline -p second --bin sheets -- whys 1 1000) | python3 -c '
import sys
for line in sys.stdin:
    name, sheet, scratch, bars, answer = line.rstrip("\n").split("\t")
    lengths = bytes([min(int(bars), 255), 15, 0xfe])
    with open(sys.argv[1] + "/why-" + name, "wb") as f:
        f.write(bytes.fromhex(sheet.strip("-")) + lengths)
' "$out/seeds"
# and the largest litmus sheets with buffers that are just enough, and a byte too short: order, scratch, the byte that says so
for lengths in '\026\017\376' '\025\017\376' '\026\217\376'; do
    for sheet in 16a-eighteen-others s6a-twenty-two-events-the-last-first; do
        { cat "$root/examples/litmus/$sheet.sheet" && printf "$lengths"; } >"$out/seeds/$sheet-$(printf "$lengths" | od -An -tx1 | tr -d ' \n')"
    done
done
lib=$(ls "$root"/target/cargo/fuzz/*/release/libfuzz_second.a)
clang -g -O1 -fsanitize=fuzzer,address -I "$root/include" target.c "$root/target/native/libplimdrong.a" "$lib" \
    -o "$out/target" -lpthread -ldl -lm
cd "$out"
./target -max_total_time="$seconds" -max_len=1500 -timeout=20 -print_final_stats=1 -use_value_profile=1 corpus seeds
