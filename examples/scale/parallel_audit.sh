#!/usr/bin/env bash
# parallel_audit.sh OUT.csv FOLDER|LIST: audits an archive through GNU parallel over `plimdrong judge --batch`, and writes the CSV that
# `plimdrong audit --csv` writes.
#   names of the records, zero bytes between -> blocks of them, a job each -> lines of the CSV, kept in order
# On several machines that share the file system: PARALLEL='-S one,two --wd .' in the environment, which parallel itself reads.
# PLIMDRONG names the command (default: ./plimdrong at the root), PYTHON the Python (default: python3), BLOCK the bytes of names a job.
# OUT.csv is there only when it is whole. Status: 0 all consistent; 1 some not; 2 some could not be read, or there was no record, or
# the CSV could not be written.
set -uo pipefail
root=$(dirname "$(dirname "$(dirname "$(readlink -f "$0")")")")
python=${PYTHON:-python3}
complain() { printf 'parallel_audit: %s\n' "$*" >&2; }
die() { complain "$*"; exit 2; }

[ $# -eq 2 ] || die "usage: parallel_audit.sh OUT.csv FOLDER|LIST"
command -v parallel >/dev/null || die "there is no parallel on the PATH: install GNU parallel, on Debian: apt-get install parallel"
out=$1 archive=$2
[ -r "$archive" ] || die "$archive: no folder or list that you may read: check the name"
case $(readlink -m "$out") in "$(readlink -m "$archive")" | "$(readlink -m "$archive")"/*) die "$out: it would stand inside the archive, as a record of it: name another place" ;; esac
if [ -d "$archive" ]; then how=names rows=(rows); else how=listed rows=(rows --list); fi
# where jobs run elsewhere, the environment does not go with them: the command goes as an argument, by its whole path
program=$(readlink -f "${PLIMDRONG:-$root/plimdrong}")
[ -x "$program" ] || die "${PLIMDRONG-}: no such program: set PLIMDRONG to the command's path, or unset it"
chunk=(env PLIMDRONG="$program" "$python" "$root/examples/scale/chunk.py")

# The command is built, where it must be, by one run of it and not by all at once.
"$program" judge --batch </dev/null || die "$program judge --batch does not run: what it printed above says why"
# 262,144 bytes of names a job: some thousand records, which it has in memory
{
    echo name,bytes,digest,line &&
        "${chunk[@]}" "$how" "$archive" |
        parallel -k -q --pipe --recend '\0' --block "${BLOCK:-262144}" --halt now,fail=1 "${chunk[@]}" "${rows[@]}"
} >"$out.part" || { rm -f "$out.part"; die "a job failed, or $out.part could not be written: what was printed above says why; there is no $out"; }
{ sync "$out.part" && mv "$out.part" "$out"; } || die "$out could not be written: see that its folder has room"
"${chunk[@]}" status "$out"
