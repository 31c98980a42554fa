#!/usr/bin/env bash
# measure.sh [RECORDS]: the rates of docs/SCALE.md on this machine, over an archive of RECORDS sheets (default 200,000) that the second program
# makes, in four folders below TMPDIR. Files are in the cache, as they were just written. Of three runs the shortest counts.
set -eu
root=$(dirname "$(dirname "$(dirname "$(readlink -f "$0")")")")
records=${1:-200000}
python=${PYTHON:-/usr/bin/python3}
export PYTHONPATH=$root/harness/python PYTHON=$python
plimdrong=$root/target/cargo/release/plimdrong
export PLIMDRONG=$plimdrong
"$root/plimdrong" judge "$root/examples/first.sheet" >/dev/null
"$root/harness/shared.sh"
(cd "$root/harness" && cargo build -q -j1 --release --offline -p second --bin sheets)
space=$(mktemp -d)
started=()
trap '[ ${#started[@]} -eq 0 ] || kill "${started[@]}" 2>/dev/null; wait; rm -rf "$space"' EXIT
trap 'exit 130' INT TERM HUP
cd "$space"
for part in 1 2 3 4; do
    mkdir -p "archive/$part"
    "$root/target/cargo/release/sheets" files "archive/$part" $part $((records / 4))
done
tar cf archive.tar archive
TIMEFORMAT='%R %U %S'
rate() { # what, command..: status 1 is an audit's own, some records are not consistent
    local what=$1 least='' run
    shift
    for _ in 1 2 3; do
        run=$({ time "$@" >out 2>said || [ $? -eq 1 ] || cat said >&2; } 2>&1)
        if [ -z "$least" ] || [ "$(printf '%s\n' "$run" "$least" | sort -g | head -n 1)" = "$run" ]; then least=$run; fi
    done
    echo "$what $least" | awk -v n="$records" '{ t = $(NF - 2); printf "%-44s %7.2f s  %8d records/s  own CPU %.2f s\n", substr($0, 1, index($0, t) - 2), t, n / t, $(NF - 1) + $NF }'
}
one() { "$python" -c 'import sys, plimdrong
out = open("python.csv", "wb")
out.write(plimdrong.HEADER)
out.writelines(map(plimdrong.row, plimdrong.names("archive")))'; }
names() { "$python" "$root/examples/scale/chunk.py" names archive; }
dask() { "$python" "$root/examples/scale/dask_audit.py" --scheduler "tcp://127.0.0.1:$port" --out "dask-$1.csv" "$1"; }

lscpu | sed -n 's/^Model name: */processor: /p'
echo "cores: $(nproc); records: $records, $(find archive -type f -printf '%s\n' | awk '{ s += $1 } END { printf "%.0f", s / NR }') bytes each on average"
rate "plimdrong audit, a folder" "$plimdrong" audit archive --csv audit.csv
rate "plimdrong audit, a tar file" "$plimdrong" audit archive.tar --csv tar.csv
rate "plimdrong.row in one process" one
rate "names alone" names
rate "GNU parallel" "$root/examples/scale/parallel_audit.sh" parallel.csv archive
port=$("$python" -c 'import socket; s = socket.socket(); s.bind(("127.0.0.1", 0)); print(s.getsockname()[1])')
"$python" -m distributed.cli.dask_scheduler --host 127.0.0.1 --port "$port" --no-dashboard >scheduler.log 2>&1 &
started+=($!)
for number in 1 2; do
    "$python" -m distributed.cli.dask_worker "tcp://127.0.0.1:$port" --host 127.0.0.1 --no-nanny --nthreads 1 --memory-limit 0 --no-dashboard \
        --local-directory "$space/room" --death-timeout 20 >"worker-$number.log" 2>&1 &
    started+=($!)
done
mkdir few && cp "$root/examples/first.sheet" few/
dask few 2>/dev/null
rate "Dask, two workers" dask archive
records=1 rate "Dask, one record: its start" dask few
cmp audit.csv python.csv && cmp audit.csv parallel.csv && cmp audit.csv dask-archive.csv && echo "all CSVs are the same"
