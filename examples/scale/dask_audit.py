"""dask_audit.py: audits an archive through Dask, and writes the CSV that `plimdrong audit --csv` writes.

    dask_audit.py --scheduler tcp://127.0.0.1:8786 --out records.csv FOLDER|LIST

The driver names the records and hands chunks of names to the workers. A worker reads its chunk's records from the file
system that all share and answers with their lines. The driver writes the lines in the order of the names to records.csv.part,
and renames it when all are there. Only a window of chunks is under way at a time: memory does not grow with the archive.

A worker that dies: Dask has its chunks done again. A scheduler that dies: the driver waits for it to come back and hands it
again every chunk that it has no answer of. A chunk's lines are written once, when it is the next in the order. Workers end
when their scheduler goes, so run them under something that starts them again.

Workers need harness/python on their PYTHONPATH, or a plimdrong.py elsewhere on it and PLIMDRONG_LIBRARY.
Exit status: 0 all consistent; 1 some not; 2 some could not be read, or there was no record, or the CSV could not be written.
"""

import argparse
import collections
import itertools
import logging
import os
import pathlib
import sys
import time

sys.path.insert(0, str(pathlib.Path(__file__).resolve().parents[2] / "harness" / "python"))

import plimdrong
from distributed import CancelledError, Client, TimeoutError, wait


def rows(chunk, archive, below, in_list, pause):
    """The lines of a chunk of names, and the greatest status among them. It depends on nothing but the records."""
    import os
    import time

    import plimdrong

    # a worker that does not see the archive at all is at fault, not each record
    os.stat(os.path.join(below, archive))
    time.sleep(pause)
    lines = [plimdrong.row(name, below, in_list) for name in chunk]
    return b"".join(lines), max(map(plimdrong.status, lines))


def say(text):
    print(f"dask_audit: {text}", file=sys.stderr, flush=True)


class Gone(Exception):
    """The scheduler does not answer."""


# What a client raises where its scheduler goes. CommClosedError is an OSError.
GOING = (Gone, CancelledError, TimeoutError, OSError)


class Audit:
    """Chunks handed out and their answers, in order, whatever happens to workers and scheduler."""

    def __init__(self, options, chunks):
        self.options = options
        self.chunks = chunks  # those not yet handed out: index and names
        self.kept = collections.OrderedDict()  # those handed out and not yet answered: index to names
        self.futures = {}  # index to future, at the scheduler of now
        self.tries = collections.Counter()  # how often a chunk of `kept` has failed
        self.repeats = 0
        self.client = None
        self.meetings = 0
        self.lost = 0  # connections, since the last answer
        self.alone = False  # whether it was said that there is no worker
        self.run = f"{os.getpid():x}-{time.time_ns():x}"

    # -- the scheduler

    def connect(self):
        """A client of the scheduler, which is waited for."""
        began = time.monotonic()
        while self.client is None:
            try:
                self.client = Client(self.options.scheduler, timeout=2)
                self.client.subscribe_topic("all", self.happened)
            except (OSError, TimeoutError) as why:
                self.leave()
                if time.monotonic() - began > self.options.wait:
                    sys.exit(f"dask_audit: no scheduler at {self.options.scheduler} for {self.options.wait:g} s ({why}): start one, as: dask-scheduler --host 127.0.0.1")
                time.sleep(0.2)
        self.meetings += 1
        if self.meetings > 1:
            self.repeats += len(self.kept)
            say(f"the scheduler is back: {len(self.kept)} chunks are handed out again, from chunk {next(iter(self.kept))} on")

    def leave(self):
        client, self.client, self.futures = self.client, None, {}
        if client is not None:
            try:
                client.close(timeout=1)
            except Exception as why:  # it is given up, whatever it says
                say(f"the old connection ended with {why!r}")

    def happened(self, event):
        """Tells of workers that went with chunks of this run. Nothing rests on it: Dask has them done again."""
        said = event[1]
        if isinstance(said, dict) and said.get("action") == "remove-worker":
            lost = [key for key in said.get("processing-tasks", ()) if str(key).startswith(f"audit-{self.run}-")]
            self.repeats += len(lost)
            say(f"the worker {said.get('worker')} went: Dask does {len(lost)} chunks again")

    # -- chunks

    def submit(self, index):
        options = self.options
        # the key is new at each meeting and try: nothing of an earlier one is taken for its answer
        key = f"audit-{self.run}-{self.meetings}-{index}-{self.tries[index]}"
        about = (options.archive, options.below, options.list, options.pause)
        self.futures[index] = self.client.submit(rows, self.kept[index], *about, key=key, pure=False)

    def take(self):
        """Takes chunks until the window is full. Here alone names are read: an archive that cannot be listed ends the run."""
        self.kept.update(itertools.islice(self.chunks, self.options.window - len(self.kept)))

    def hand_out(self):
        """Hands out what was taken."""
        if self.client is None:
            self.connect()
        for index in self.kept:
            if index not in self.futures:
                self.submit(index)

    def failed(self, index, why):
        self.tries[index] += 1
        if self.tries[index] > self.options.tries:
            sys.exit(f"dask_audit: chunk {index} failed {self.tries[index]} times, at last with {why!r}: see the workers' logs, and that each sees the archive and has harness/python on its PYTHONPATH")
        self.repeats += 1
        say(f"chunk {index} failed ({why!r}): handed out again")
        self.submit(index)

    def answer(self, index):
        """The lines of a chunk and its status; it is waited for. Gone where the scheduler went."""
        while True:
            future = self.futures[index]
            while not future.done():
                if self.client.status != "running":
                    raise Gone
                try:
                    wait(future, timeout=5)
                except TimeoutError:
                    self.look_for_workers()
            if future.status == "finished":
                return future.result(timeout=60)
            if future.status == "error":
                self.failed(index, future.exception())
            else:  # cancelled or lost: what a client makes of its futures when the scheduler goes
                raise Gone

    def look_for_workers(self):
        """Says once where there is none: the run then waits for the first."""
        if not self.alone and not self.client.scheduler_info()["workers"]:
            self.alone = True
            say(f"the scheduler has no worker; start one, as: PYTHONPATH=$PWD/harness/python dask-worker {self.options.scheduler}")

    def answers(self):
        """The answers of all chunks, in order."""
        while True:
            self.take()
            if not self.kept:
                return
            index = next(iter(self.kept))
            try:
                self.hand_out()
                got = self.answer(index)
            except GOING as why:
                self.lost += 1
                if self.lost > self.options.tries:
                    sys.exit(f"dask_audit: the connection was lost {self.lost} times without an answer in between, at last with {why!r}: see the scheduler's log")
                say(f"the scheduler does not answer ({why!r}): waiting for it")
                self.leave()
                continue
            self.lost = 0
            del self.kept[index], self.futures[index], self.tries[index]
            yield got


def chunks_of(names, size):
    names = iter(names)
    return enumerate(iter(lambda: list(itertools.islice(names, size)), []))


def asked(arguments):
    parser = argparse.ArgumentParser(description="Audits an archive through Dask: a line of CSV for each record.")
    parser.add_argument("--scheduler", required=True, help="its address, as tcp://127.0.0.1:8786")
    parser.add_argument("--out", required=True, help="the CSV; it is there only when it is whole")
    parser.add_argument("--chunk", type=int, default=4000, help="records a chunk")
    parser.add_argument("--window", type=int, default=64, help="chunks under way at a time")
    parser.add_argument("--tries", type=int, default=5, help="how often a chunk may fail")
    parser.add_argument("--wait", type=float, default=600, help="seconds to wait for a scheduler")
    parser.add_argument("--pause", type=float, default=0, help="seconds that a worker waits before each chunk, for tests")
    parser.add_argument("archive", metavar="FOLDER|LIST", help="a folder, with all below it, or a file of names")
    options = parser.parse_args(arguments)
    options.below = os.getcwdb()
    options.archive = os.fsencode(options.archive)
    options.list = not os.path.isdir(options.archive)
    out, archive = os.path.realpath(os.fsencode(options.out)), os.path.realpath(options.archive)
    if out == archive or out.startswith(os.path.join(archive, b"")):
        sys.exit(f"dask_audit: {options.out}: it would stand inside the archive, as a record of it: name another place")
    return options


def main(arguments):
    options = asked(arguments)
    names = (plimdrong.listed if options.list else plimdrong.names)(options.archive)
    # a lost connection is told in a line; its traces of many lines help nobody
    logging.disable(logging.ERROR)
    audit = Audit(options, chunks_of(names, options.chunk))
    done, worst = 0, None
    part = options.out + ".part"
    with open(part, "wb") as out:
        out.write(plimdrong.HEADER)
        for lines, status in audit.answers():
            out.write(lines)
            done, worst = done + 1, max(worst or 0, status)
        out.flush()
        os.fsync(out.fileno())
    os.replace(part, options.out)
    audit.leave()
    say(f"{done} chunks, {audit.repeats} repeated, {audit.meetings} connections")
    return 2 if worst is None else worst


if __name__ == "__main__":
    try:
        sys.exit(main(sys.argv[1:]))
    except OSError as why:
        say(f"{why}: see that the archive can be read and the CSV's folder written")
        sys.exit(2)
    except SystemExit as end:
        if isinstance(end.code, str):
            print(end.code, file=sys.stderr)
            sys.exit(2)
        raise
