"""The calls that the program makes on a journal's file, seen by strace: which, in which order, before which response, and what it
does where one of them fails.

An accepted command writes its record behind the closed gate, syncs, opens the gate, syncs, and then answers. Nothing else reads,
writes or syncs but the making of a new journal, and the opening of one that is there, which writes nothing.
Usage: journal_calls.py [PROGRAM]
"""

import os
import re
import shutil
import subprocess
import sys
import tempfile
import time

from common import Wrong, check_end, commits_of, conclude, get, made_id, post, program_named
from forms import GET_0, POST_P
from journal_model import Records
from journal_runs import check_summary, fed, over, read, same, write

# those that read a file by place, change it, or sync it
CALLS = "pread64,preadv,write,writev,pwrite64,pwritev,pwritev2,fdatasync,fsync,sync_file_range,ftruncate,fallocate"
LINE = re.compile(r"^(?:\[pid +\d+\] |\d+ +)?(\w+)\((\d+)<(.*?)>(?:, (.*))?\) += (-?\d+)")
# the numbers at the end of a positional write: the length, and the place
PLACED = re.compile(r", (\d+), (\d+)$")

COMMITS = commits_of(made_id(0))
BRANCHES = f"/projects/{made_id(0)}/branches"
COMMIT = post(b'{"change":[{"payload":{"n":1}}]}', COMMITS)
ACCEPTED = [POST_P, COMMIT, COMMIT, post(b'{"name":"x"}', BRANCHES), post(b"{}", COMMITS), POST_P]
REFUSED = [
    post(b'{"name":7}'), post(b"{", COMMITS), post(b"{}", commits_of(made_id(77))), post(b'{"change":[{"payload":null}]}', COMMITS),
    post(b'{"head":{"@id":"%s"}}' % made_id(1).encode(), BRANCHES), get(COMMITS), GET_0, get("/project"),
    post(b'{"previousCommit":{"@id":"%s"}}' % made_id(0).encode(), COMMITS),
]  # fmt: skip


class Trace:
    """The calls of one run over a file. Each on the file is told as (call, length, place), each write of output as ANSWER."""

    ANSWER, READ, SYNC = ("answer",), ("read",), ("sync",)

    def __init__(self, program, path, requests, *faults):
        with tempfile.TemporaryDirectory() as folder:
            told = os.path.join(folder, "trace")
            words = ["strace", "-f", "-y", "-s", "4", "-o", told, "-e", f"trace={CALLS}"]
            for fault in faults:
                words += ["-e", f"inject={fault}"]
            self.ran = fed([*words, program, path, "once"], b"".join(requests))
            found = [LINE.match(line) for line in read(told).decode("utf-8", "replace").splitlines()]
        # (whoever loads the program reads by place too: the place of the first read of the file among all such reads)
        reads = [it[3] for it in found if it and it[1] == "pread64"]
        self.first_read = reads.index(path) + 1 if path in reads else None
        calls = [it for it in (self.call(it, path) for it in found) if it]
        # (how an opening reads is its own affair: reads count from the first answer on)
        first = calls.index(self.ANSWER) if self.ANSWER in calls else len(calls)
        self.calls = [it for place, it in enumerate(calls) if it != self.READ or place > first]

    def call(self, found, path):
        if not found:
            return None
        name, number, target, rest, result = found.groups()
        if number == "1" and name in ("write", "writev"):
            return self.ANSWER
        if target != path:
            return None
        if name == "pwrite64":
            length, place = map(int, PLACED.search(rest).groups())
            if int(result) != -1:
                same(f"how much of {length} bytes at {place} was written", int(result), length)
            return "write", length, place
        return {"fdatasync": self.SYNC, "fsync": self.SYNC, "pread64": self.READ, "preadv": self.READ}.get(name, (name, rest))


def keeping(gate, length):
    """The calls that keep a record of this length behind a gate, and then answer."""
    return [("write", length + 5, gate + 1), Trace.SYNC, ("write", 1, gate), Trace.SYNC, Trace.ANSWER]


def expected(first, accepted, placed):
    """The calls of a run: those of the opening, then those of each request, by whether it is accepted."""
    placed, calls = iter(placed), list(first)
    for it in accepted:
        gate, record = next(placed, (0, b"")) if it else (0, b"")
        calls += keeping(gate, len(record)) if it else [Trace.ANSWER]
    return calls


CREATED = [("ftruncate", "0"), ("write", 17, 0), Trace.SYNC]
OPENED = [Trace.SYNC]


def mixed():
    """Accepted and refused requests by turns, with the refused ones in each place."""
    for asked in ACCEPTED:
        yield asked, True
        yield from ((it, False) for it in REFUSED)


def check_run(program, path, pairs, first):
    before = len(Records(read(path)).placed) if os.path.exists(path) else 0
    trace = Trace(program, path, [asked for asked, _ in pairs])
    check_end(trace.ran, 0, "")
    check_calls(trace.calls, expected(first, [it for _, it in pairs], Records(read(path)).placed[before:]))


def check_calls(found, wanted):
    for place, (one, right) in enumerate(zip(found, wanted)):
        same(f"call {place}", one, right)
    same("how many calls there were", len(found), len(wanted))


def checks():
    """The name of each run over one file, its requests, and the calls of its opening."""
    mixture = list(mixed())
    yield "a new file, and requests one after another", mixture, CREATED
    yield "a journal that is there", mixture, OPENED
    yield "requests that are refused alone", [(it, False) for it in REFUSED], OPENED
    yield "no requests", [], OPENED


def faults(gate, length):
    """Each device call of a command that fails, by its name, as strace is told it: the calls that follow, and how many 500s.

    The first sync is the opening's. A record in doubt is settled before the next one is written: its gate is closed, and synced."""
    keeps, settles = keeping(gate, length), [("write", 1, gate), Trace.SYNC]
    write, sync, answer = "pwrite64:error=EIO:when=", "fdatasync:error=EIO:when=", Trace.ANSWER
    yield "the record's write", [write + "1"], [*keeps[:1], answer, *keeps], 1
    yield "the record's sync", [sync + "2"], [*keeps[:2], answer, *keeps], 1
    yield "the gate's write", [write + "2"], [*keeps[:3], answer, *settles, *keeps], 1
    yield "the gate's sync", [sync + "3"], [*keeps, *settles, *keeps], 1
    twice = [*keeps, *settles[:1], answer, *settles, *keeps]
    yield "the gate's sync, and settling's write", [sync + "3", write + "3"], twice, 2
    yield "the gate's sync, and settling's", [sync + "3..4"], [*keeps, *settles, answer, *settles, *keeps], 2


def check_fault(program, path, some, calls, failing):
    """Over a journal of two records: commands that meet the fault are answered 500, the next one is kept behind the two."""
    kept = read(path)
    trace = Trace(program, path, [COMMIT] * (failing + 1), *some)
    check_end(trace.ran, 0, "")
    same("the statuses", re.findall(rb"HTTP/1\.1 (\d+)", trace.ran.output), [b"500"] * failing + [b"201"])
    check_calls(trace.calls, [*OPENED, *calls])
    same("the records that were there before", Records(read(path)).placed[:2], Records(kept).placed)
    same("how many records there are", len(Records(read(path)).placed), 3)
    check_summary(program, path)
    # where the program ends behind the 500, the record in doubt may be found
    write(path, kept)
    check_end(Trace(program, path, [COMMIT] * failing, *some).ran, 0, "")
    if len(Records(read(path)).placed) not in (2, 3):
        raise Wrong("a run that ended in doubt left neither two records nor three")
    check_summary(program, path)


def check_faults(program, path):
    """Each fault, over a journal of its own; and the name of each that isn't met as it should be."""
    check_end(over(program, path, ["once"], POST_P + COMMIT), 0, "")
    kept = read(path)
    gate, length = Records(kept).used - 1, len(Records(kept).placed[1][1])
    for name, some, calls, failing in faults(gate, length):
        write(path, kept)
        try:
            check_fault(program, path, some, calls, failing)
        except Wrong as why:
            yield f"a fault of {name}: {why}"
        else:
            yield None
    write(path, kept)
    yield opening_fault(program, path, "sync", "fdatasync", 1)
    yield opening_fault(program, path, "read", "pread64", Trace(program, path, []).first_read)


def opening_fault(program, path, name, call, place):
    """What is wrong where the opening's first call of this kind fails: nothing may be answered, and nothing written."""
    kept = read(path)
    try:
        trace = Trace(program, path, [COMMIT], f"{call}:error=EIO:when={place}")
        check_end(trace.ran, 1, "sysapi: device fault\n")
        check_calls(trace.calls, OPENED)
        same("the file", read(path), kept)
    except Wrong as why:
        return f"a fault of the opening's {name}: {why}"
    return None


def is_tracing():
    """Whether strace is there, may trace, and knows how to let calls fail."""
    words = ["strace", "-f", "-y", "-o", os.devnull, "-e", "inject=fdatasync:error=EIO:when=3..4", sys.executable, "-c", ""]
    return bool(shutil.which("strace")) and subprocess.run(words, stderr=subprocess.DEVNULL, check=False).returncode == 0


def main():
    program, started, count, failures = program_named(), time.monotonic(), 0, []
    if not is_tracing():
        print("journal_calls: skipped, as there is no strace on PATH that may trace and let calls fail", flush=True)
        return
    with tempfile.TemporaryDirectory() as folder:
        path = os.path.join(os.path.realpath(folder), "journal")
        for name, pairs, first in checks():
            count += 1
            try:
                check_run(program, path, pairs, first)
            except Wrong as why:
                failures.append(f"{name}: {why}")
        found = list(check_faults(program, path + "-faults"))
        count, failures = count + len(found), failures + [it for it in found if it]
    conclude("journal_calls", count, started, failures)


if __name__ == "__main__":
    main()
