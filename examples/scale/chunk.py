"""chunk.py: the steps between GNU parallel and `plimdrong judge --batch`, for parallel_audit.sh.

    chunk.py names FOLDER      the names of the records below a folder, each ended by a zero byte
    chunk.py listed FILE       the names in a list, in the same form
    chunk.py rows [--list]     such names on standard input; their lines of the CSV on standard output
    chunk.py status FILE       ends with the exit status of an audit whose CSV this is

The verdicts come from the program that the environment variable PLIMDRONG names: it gets all sheets of a chunk at once.
"""

import csv
import os
import pathlib
import subprocess
import sys

root = pathlib.Path(__file__).resolve().parents[2]
sys.path.insert(0, str(root / "harness" / "python"))

import plimdrong


def put(names):
    for name in names:
        sys.stdout.buffer.write(name + b"\0")


def verdicts(sheets):
    """The report lines of sheets, by one run of `plimdrong judge --batch`."""
    program = os.environ.get("PLIMDRONG", str(root / "plimdrong"))
    batch = b"".join(len(sheet).to_bytes(2, "big") + sheet for sheet in sheets)
    done = subprocess.run([program, "judge", "--batch"], input=batch, stdout=subprocess.PIPE)
    lines = done.stdout.decode().splitlines()
    if done.returncode or len(lines) != len(sheets):
        sys.exit(f"chunk.py: {program} judge --batch gave {len(lines)} lines for {len(sheets)} sheets, status {done.returncode}: see that it is of this repository")
    return iter(lines)


def rows(names, in_list):
    """Writes the lines of the CSV of these names."""
    found = []
    for name in names:
        try:
            found.append((name, plimdrong.read(name, in_list=in_list)))
        except plimdrong.Unreadable as why:
            found.append((name, why))
    line = verdicts([read[2] for _, read in found if isinstance(read, tuple)])
    for name, read in found:
        if isinstance(read, tuple):
            row = plimdrong.line_of_csv(name, read[0], read[1], next(line))
        else:
            row = plimdrong.line_of_csv(name, "", "", f"unreadable: {read}")
        sys.stdout.buffer.write(row)


def status(file):
    """The greatest status of the lines, 2 where there is none. A name may have line ends, so this goes by the CSV's rules."""
    with open(file, newline="", encoding="utf-8", errors="surrogateescape") as source:
        lines = csv.reader(source)
        next(lines)
        return max((plimdrong.status(b"," + fields[3].encode()) for fields in lines), default=2)


def main(arguments):
    step, rest = arguments[0], arguments[1:]
    if step == "names":
        put(plimdrong.names(rest[0]))
    elif step == "listed":
        put(plimdrong.listed(rest[0]))
    elif step == "rows":
        rows(filter(None, sys.stdin.buffer.read().split(b"\0")), rest == ["--list"])
    elif step == "status":
        return status(rest[0])
    else:
        sys.exit(__doc__)


if __name__ == "__main__":
    try:
        sys.exit(main(sys.argv[1:]))
    except BrokenPipeError:
        # parallel has given up, and said why
        os.dup2(os.open(os.devnull, os.O_WRONLY), 1)
        sys.exit(1)
