"""Recorded executions ("sheets") judged against the ECMAScript memory model, by a judge that is proved.

>>> sheet = bytes([
...     1, 0, 3, 1, 1, 1,           # head: edition 1, 1 agent, 1 byte of memory
...     2, 0, 6, 0, 2, 0, 0, 1, 0,  # event 0: agent 0, write, init, start 0, width 1, data 0
...     2, 0, 6, 1, 1, 1, 0, 1, 0,  # event 1: agent 1, read, unordered, start 0, width 1, saw 0
...     3, 0, 3, 1, 0, 0,           # row: event 1 read byte 0 from event 0
... ])
>>> judge(sheet)
'consistent orderly then 0 1'

Without its row the sheet is refused: no row is guessed.

>>> judge(sheet[:24])
'refused 11 at 15'

An order from an engine's own log is checked: it is accepted where it names every event once and meets the rules.

>>> check(sheet, [0, 1])
'accepted'
>>> check(sheet, [1, 0])
'not accepted 3 at 0'

Where no order exists, `why` gives the bars that leave none, each by its reader, its writer and the write between.

>>> why(sheet)
'consistent orderly'

This is ctypes over target/native/libplimdrong.so, which harness/shared.sh makes; PLIMDRONG_LIBRARY names another one. It
needs the standard library and nothing else. What is proved is the functions behind `judge`, `check` and `why`. Trusted are the
compiler's back end, the linker, ctypes, and the reading of the 64-bit answer here (include/plimdrong.h says what it holds).

For an archive: `names` and `listed` give the names of its records, `row` a record's line of the CSV that `plimdrong audit`
writes. `python3 plimdrong.py FILE..` prints the lines that ./verdict prints.
"""

import ctypes
import errno
import hashlib
import operator
import os
import stat
import sys
import threading

__all__ = ["judge", "judge_many", "check", "why", "names", "listed", "row", "read", "line_of_csv", "status", "Unreadable", "HEADER"]

MAX_SHEET = 4096
MAX_SCRATCH = 32768
MAX_EVENTS = 22
BARS_BYTES = 3 * MAX_EVENTS**3

# One byte more than the longest sheet has: the judge sees by it that a sheet is too long, and needs no more.
LOOKED_AT = MAX_SHEET + 1

NONE = 255
UNTOUCHED = bytes([NONE]) * MAX_EVENTS

# ---- the library

_Scratch = ctypes.c_char * MAX_SCRATCH
_Order = ctypes.c_char * MAX_EVENTS
_lock = threading.Lock()
_functions = {}


def _library(name):
    """The object's path: PLIMDRONG_LIBRARY, else target/native/libplimdrong.so of the repository that has this file (plimdrong_why has one of its own)."""
    named = os.environ.get("PLIMDRONG_LIBRARY")
    if named:
        return named
    root = os.path.dirname(os.path.dirname(os.path.dirname(os.path.realpath(__file__))))
    return os.path.join(root, "target", "native", "libplimdrong_why.so" if name == "plimdrong_why" else "libplimdrong.so")


def _load(name, lent):
    """An exported function of a sheet and so many lent slices, loaded once. CDLL: a call lets other threads run."""
    with _lock:
        if name not in _functions:
            path = _library(name)
            try:
                function = getattr(ctypes.CDLL(path), name)
            except (OSError, AttributeError) as why:
                raise OSError(f"{path} cannot be loaded ({why}): run harness/shared.sh, or set PLIMDRONG_LIBRARY") from why
            function.restype = ctypes.c_uint64
            function.argtypes = [ctypes.c_char_p, ctypes.c_size_t] + [ctypes.c_void_p, ctypes.c_size_t] * lent
            _functions[name] = function
    return _functions[name]


# ---- the answer

# The names that each broken rule has: reader or event, writer, the event between, address.
RULES = {21: "11-1", 22: "1---", 23: "11-1", 24: "1111", 25: "111-", 26: "----"}


def _parts(word):
    """Kind, number, the 32 bits, and these as four bytes."""
    low = word & 0xFFFFFFFF
    return word >> 40 & 255, word >> 32 & 255, low, low.to_bytes(4, "big")


def _no_answer(word):
    return RuntimeError(f"{word:#x} is no answer: the library is of another version; run harness/shared.sh, and use its plimdrong.py")


def _of_the_sheet(word, unknown):
    """The line of a sheet that is refused or broken; None for every other word and for a number that is unknown."""
    kind, number, low, called = _parts(word)
    if kind == 1 and 1 <= number <= 14 and number not in unknown:
        return f"refused {number} at {low}"
    if kind == 2 and "".join("-" if n == NONE else "1" for n in called) == RULES.get(number) and number not in unknown:
        return f"broken {number} " + " ".join("-" if n == NONE else str(n) for n in called)
    return None


def _line(word, order):
    """The report line of a word and the order buffer after it, every byte of which was 255 before the call."""
    line = _of_the_sheet(word, ())
    if line:
        return line
    kind, number, low, called = _parts(word)
    if kind == 3:
        then = " ".join(map(str, order.partition(b"\xff")[0]))
        if number == 0 and low == 0xFFFFFFFF:
            return "consistent orderly then " + then
        if number == 1 and low & 0xFFFF == 0xFFFF and NONE not in called[:2]:
            return f"consistent unsettled {called[0]} {called[1]} then {then}"
    raise _no_answer(word)


def _checked(word):
    """The line of a word that says something of a list. 12, 13 and 26 are no answers there."""
    line = _of_the_sheet(word, (12, 13, 26))
    if line:
        return line
    kind, number, low, called = _parts(word)
    if kind == 6 and number == 0 and low == 0:
        return "accepted"
    if kind == 7 and number == 1:
        return f"not accepted 1 length {low}"
    if kind == 7 and number in (2, 3):
        return f"not accepted {number} at {low}"
    if kind == 7 and number == 4 and NONE not in called:
        return "not accepted 4 " + " ".join(map(str, called))
    raise _no_answer(word)


def _kept(word, bars):
    """The line of a word that says why no order exists, and of the bars after it. 13 and 26 are no answers there."""
    line = _of_the_sheet(word, (13, 26))
    if line:
        return line
    kind, number, low, called = _parts(word)
    if kind == 3 and number == 0 and low == 0xFFFFFFFF:
        return "consistent orderly"
    if kind == 3 and number == 1 and low & 0xFFFF == 0xFFFF and NONE not in called[:2]:
        return f"consistent unsettled {called[0]} {called[1]}"
    if kind == 8 and number == 26 and 3 * low <= len(bars):
        told = [" ".join(map(str, bars[3 * i : 3 * i + 3])) for i in range(low)]
        return f"kept {low} bar{'' if low == 1 else 's'}: " + ", ".join(told)
    raise _no_answer(word)


class _Judge:
    """The function with buffers for every sheet, for one thread at a time."""

    def __init__(self):
        self.function = _load("plimdrong_judge", 2)
        self.scratch = _Scratch()

    def line(self, sheet):
        sheet = _front(sheet)
        # The order is a call's own: a signal's handler may judge too, between the call and the reading of its answer.
        order = _Order.from_buffer_copy(UNTOUCHED)
        return _line(self.function(sheet, len(sheet), self.scratch, MAX_SCRATCH, order, MAX_EVENTS), order.raw)


def _front(sheet):
    """A sheet's bytes, as many as are looked at."""
    if type(sheet) is not bytes:
        sheet = _bytes(sheet)
    return sheet[:LOOKED_AT] if len(sheet) > LOOKED_AT else sheet


def _bytes(sheet):
    if isinstance(sheet, (bytes, bytearray, memoryview)):
        return bytes(sheet)
    raise TypeError(f"a sheet is bytes, bytearray or memoryview, not {type(sheet).__name__}: open its file with 'rb' and read it")


_own = threading.local()


def judge(sheet):
    """The report line of a sheet (bytes, bytearray or memoryview). Every byte string gets one. Threads may call it side by side.

    >>> judge(b"")
    'refused 3 at 0'
    >>> judge(bytearray(5000))
    'refused 1 at 0'
    >>> judge("sheet")
    Traceback (most recent call last):
    TypeError: a sheet is bytes, bytearray or memoryview, not str: open its file with 'rb' and read it
    """
    try:
        kept = _own.judge
    except AttributeError:
        kept = _own.judge = _Judge()
    return kept.line(sheet)


def judge_many(sheets):
    """The report lines of many sheets, in their order; a sheet is taken only when its line is asked for.

    >>> list(judge_many([b"", bytes([1, 0, 3, 1, 1, 1])]))
    ['refused 3 at 0', 'refused 10 at 6']
    """
    line = _Judge().line
    for sheet in sheets:
        yield line(sheet)


def check(sheet, events):
    """What the checker says of a sheet and of a list of event numbers: bytes, a byte a number, or any numbers in their order.

    The line is `accepted`, or `not accepted` with the first fault: 1, the list's length; 2, a number out of range or repeated,
    and 3, an event before one that happens before it, with its index; 4, the reader, the writer, the write between and the
    address. A sheet that is refused, or broken by 21 to 25, is answered so, as `judge` does it. Threads may call it side by side.

    >>> check(b"", [])
    'refused 3 at 0'

    A number that is no byte is out of range for every sheet:

    >>> sheet = bytes([1, 0, 3, 1, 1, 1, 2, 0, 6, 0, 2, 0, 0, 1, 0, 2, 0, 6, 1, 1, 1, 0, 1, 0, 3, 0, 3, 1, 0, 0])
    >>> [check(sheet, events) for events in (b"", [0, 1000], [-1, 1], range(2))]
    ['not accepted 1 length 0', 'not accepted 2 at 1', 'not accepted 2 at 0', 'accepted']
    >>> check(sheet, "0 1")
    Traceback (most recent call last):
    TypeError: a list is of event numbers, as [0, 1] or bytes, and not str
    """
    sheet, events = _front(sheet), _numbers(events)
    return _checked(_load("plimdrong_check", 1)(sheet, len(sheet), events, len(events)))


def why(sheet):
    """Why a sheet's events have no order: `kept`, how many bars, and each by its reader, its writer and the write between.

    No order meets these bars, and without any one of them some order meets the others. A sheet that is not broken by 26 gets
    the line of `judge`, without an order. Threads may call it side by side.

    >>> why(b"")
    'refused 3 at 0'

    Two agents add to a byte, and both saw 0:

    >>> why(bytes.fromhex("010003010201 020006000200000100 02000701030200010001 02000702030200010002 030003010000 030003020000"))
    'kept 2 bars: 1 0 2, 2 0 1'
    """
    sheet = _front(sheet)
    bars = ctypes.create_string_buffer(BARS_BYTES)
    return _kept(_load("plimdrong_why", 2)(sheet, len(sheet), _Scratch(), MAX_SCRATCH, bars, BARS_BYTES), bars.raw)


def _numbers(events):
    """Event numbers as bytes. One that is no byte becomes 255, which is no event of any sheet either."""
    if isinstance(events, (bytes, bytearray, memoryview)):
        return bytes(events)
    wrong = type(events).__name__
    if not isinstance(events, str):
        try:
            events = list(events)
            wrong = next((f"{type(event).__name__} in it" for event in events if not hasattr(event, "__index__")), None)
        except TypeError:
            pass
    if wrong:
        raise TypeError(f"a list is of event numbers, as [0, 1] or bytes, and not {wrong}")
    return bytes(event if 0 <= event <= NONE else NONE for event in map(operator.index, events))


# ---- the records of an archive


def names(folder):
    """The records below a folder, as bytes: all entries but folders, at any depth, links followed, in the order of their bytes.

    A folder that cannot be listed and a link to a folder above it stand there with a slash at their end: `row` says which it
    is. What is kept at a time is the entries of one folder and of those above it.

    >>> import tempfile
    >>> with tempfile.TemporaryDirectory() as folder:
    ...     for name in ["b", "a.sheet", "a/c"]:
    ...         path = os.path.join(folder, name)
    ...         os.makedirs(os.path.dirname(path), exist_ok=True)
    ...         open(path, "wb").close()
    ...     [name[len(folder) + 1:] for name in names(folder)]
    [b'a.sheet', b'a/c', b'b']
    """
    folder = os.fsencode(folder)
    base = folder.rstrip(b"/")
    # folders that are being walked: what stands before their names, what is left of them, which folder it is
    walked = []
    enter = b"" if base == b"." else base + b"/"
    while True:
        try:
            own = _which(os.stat(enter or b"."))
            entries = None if own in (at[2] for at in walked) else sorted(_entries(enter or b"."))
        except OSError:
            entries = None
        if entries is None:
            yield enter or b"./"
        else:
            walked.append((enter, iter(entries), own))
        enter = None
        while walked and enter is None:
            prefix, left, _ = walked[-1]
            entry = next(left, None)
            if entry is None:
                walked.pop()
            elif entry.endswith(b"/"):
                enter = prefix + entry
            else:
                yield prefix + entry
        if enter is None:
            return


def _which(about):
    return about.st_dev, about.st_ino


def _entries(path):
    """The names in a folder, those of folders with a slash at their end: so they sort as the whole names do."""
    with os.scandir(path) as found:
        for entry in found:
            try:
                folder = entry.is_dir()
            except OSError:
                folder = False
            yield entry.name + b"/" if folder else entry.name


def listed(file):
    """The names in a list, as bytes, in its order: one a line, or each ended by a zero byte where the file has one.

    >>> import tempfile
    >>> with tempfile.TemporaryDirectory() as folder:
    ...     path = os.path.join(folder, "list")
    ...     _ = open(path, "wb").write(b"one\\ntwo words\\n\\nthree")
    ...     list(listed(path))
    [b'one', b'two words', b'three']
    """
    with open(file, "rb") as source:
        rest = source.read(8192)
        # a path is shorter than that: the first zero byte, if there is any, stands in it
        end = b"\0" if b"\0" in rest else b"\n"
        # a list from elsewhere has CR LF in every line; a name may end with CR
        if end == b"\n" and all(line.endswith(b"\r") for line in rest.split(b"\n")[:-1]):
            end = b"\r\n"
        for block in iter(lambda: source.read(1 << 20), b""):
            *whole, rest = (rest + block).split(end)
            yield from filter(None, whole)
        yield from filter(None, rest.split(end))


class Unreadable(Exception):
    """Why a record could not be read, as the CSV has it."""


_WHY = {
    errno.ENOENT: "no such file",
    errno.EACCES: "you may not read it",
    errno.EPERM: "you may not read it",
    errno.ELOOP: "too many links",
    errno.ENXIO: "no regular file",  # a socket, which cannot be opened at all
}


def read(name, below=b"", in_list=False):
    """A record's length, the SHA-256 of all its bytes in hex, and as much of it as the judge looks at; else Unreadable.

    A name that is not absolute is one below the folder `below`. Of a name from a list say so by `in_list`.
    """
    path = os.path.join(below, name) if below else name
    try:
        if name.endswith(b"/") and not in_list:
            raise Unreadable(_unlisted(path))
        # O_NONBLOCK: a pipe without a writer is opened all the same, and then seen not to be a regular file
        file = os.open(path, os.O_RDONLY | os.O_CLOEXEC | os.O_NONBLOCK)
    except OSError as why:
        raise Unreadable(_why(why)) from why
    try:
        return _contents(file)
    except OSError as why:
        raise Unreadable(_why(why)) from why
    finally:
        os.close(file)


def _why(error):
    return _WHY.get(error.errno, f"reading it failed (error {error.errno})")


def _unlisted(path):
    """Why a folder was not listed: it stands among the names only where it was not."""
    try:
        os.scandir(path).close()
    except OSError as why:
        return "you may not read this folder" if why.errno in (errno.EACCES, errno.EPERM) else _why(why)
    return "a link to a folder above it"


def _contents(file):
    about = os.fstat(file)
    if stat.S_ISDIR(about.st_mode):
        raise Unreadable("a folder")
    if not stat.S_ISREG(about.st_mode):
        raise Unreadable("no regular file")
    digest = hashlib.sha256()
    front = b""
    length = 0
    # a byte more than there should be: a file that grows is left when it has grown
    while length <= about.st_size:
        block = os.read(file, min(about.st_size - length, 1 << 20) + 1)
        if not block:
            break
        digest.update(block)
        if len(front) < LOOKED_AT:
            front += block[: LOOKED_AT - len(front)]
        length += len(block)
    if length != about.st_size:
        raise Unreadable("its length changed while it was read")
    return length, digest.hexdigest(), front


HEADER = b"name,bytes,digest,line\n"


def line_of_csv(name, length, digest, line):
    r"""A line of the CSV, its end included.

    >>> line_of_csv(b'a "b" c, d', 0, "e3b0..", "refused 3 at 0")
    b'"a ""b"" c, d",0,e3b0..,refused 3 at 0\n'
    """
    if any(c in name for c in (b",", b'"', b"\r", b"\n")):
        name = b'"' + name.replace(b'"', b'""') + b'"'
    return b"%b,%b\n" % (name, f"{length},{digest},{line}".encode())


def row(name, below=b"", in_list=False):
    r"""The line of the CSV of one record, its end included.

    >>> row(b"no/such")
    b'no/such,,,unreadable: no such file\n'
    """
    try:
        length, digest, front = read(name, below, in_list)
    except Unreadable as why:
        return line_of_csv(name, "", "", f"unreadable: {why}")
    return line_of_csv(name, length, digest, judge(front))


def status(line):
    r"""What a line of the CSV makes of an audit's exit status: 0 consistent, 1 not, 2 not read. The greatest counts; without a line it is 2.

    >>> status(row(b"no/such"))
    2
    """
    said = line.rpartition(b",")[2]
    return 0 if said.startswith(b"consistent ") else 2 if said.startswith(b"unreadable: ") else 1


# ---- as a program


def _file(name):
    """The first bytes of a file, as many as the judge looks at."""
    if os.path.isdir(name):
        raise Unreadable("a folder: give a sheet's own name")
    with open(name, "rb") as file:
        return file.read(LOOKED_AT)


def main(arguments):
    """Prints the line of each sheet; with several the name stands before it. Status: 0, or 2 where one got no line."""
    if arguments and arguments[0] in ("-h", "--help"):
        print("usage: python3 plimdrong.py [FILE..]    judges each sheet, or the one on standard input")
        return 0
    out = sys.stdout.buffer
    if not arguments:
        out.write(judge(sys.stdin.buffer.read(LOOKED_AT)).encode() + b"\n")
        return 0
    failed = 0
    for name in arguments:
        try:
            line = judge(_file(name))
        except (OSError, Unreadable) as why:
            said = why.strerror if isinstance(why, OSError) and why.strerror else why
            print(f"plimdrong.py: {os.fsdecode(name)}: {said}", file=sys.stderr)
            failed = 2
            continue
        before = os.fsencode(name) + b": " if len(arguments) > 1 else b""
        out.write(before + line.encode() + b"\n")
    out.flush()
    return failed


if __name__ == "__main__":
    sys.exit(main(sys.argv[1:]))
