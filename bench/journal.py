"""How fast the built program keeps commits in a file, beside the same device calls alone, and how it opens many of them.

Commits of one change go through `sysapi FILE once` on a real file, sent one at a time (the next when the response is read, so the
time of this script counts too), and as one stream, from a file of them. The stream's time is that between the moments of its first and of
its last commit, which the journal has, so that neither the start of the program nor its end counts, and nothing looks on. Beside them
runs a loop of the four calls that keep a record of that length (write, sync, write, sync), in C, or in Python where there is no gcc; its
start and end count as little. The three take turns: a rate is the median of the rounds, and so is what it is over the loop's rate
of the same round, since a device that others use too is now fast and now slow.
Then a journal of many small commits is opened by `check` and by `once` without requests: the least time of the rounds, and the peak
of resident memory beside that of a process that accepted the same commits in memory.
Usage: journal.py [--commits N] [--rounds N] [--entries N] [--folder FOLDER] [PROGRAM]
"""

import argparse
import os
import shutil
import statistics
import subprocess
import sys
import tempfile
import time

from once import ELEMENTS, change, commit, peak_memory, processor, source_of

from common import PROGRAM, get, made_id, program_at
from entry_model import encoded
from journal_model import Records, command_of, journal
from model import front

# the four calls, so many times, with records of so many bytes and a gate and a length each; tells the seconds
RAW = """
#include <fcntl.h>
#include <stdio.h>
#include <stdlib.h>
#include <time.h>
#include <unistd.h>

int main(int words, char **word) {
    int file = words == 4 ? open(word[1], O_RDWR | O_CREAT | O_TRUNC, 0666) : -1;
    long count = file < 0 ? 0 : atol(word[2]), length = file < 0 ? 0 : atol(word[3]) + 5;
    char *body = calloc(1, length + 1), gate = 1;
    struct timespec start, end;
    off_t place = 16;
    if (file < 0 || !body || pwrite(file, body, 1, place) != 1 || fdatasync(file)) return 1;
    clock_gettime(CLOCK_MONOTONIC, &start);
    for (; count > 0; count--, place += length)
        if (pwrite(file, body, length, place + 1) != length || fdatasync(file) ||
            pwrite(file, &gate, 1, place) != 1 || fdatasync(file)) return 1;
    clock_gettime(CLOCK_MONOTONIC, &end);
    printf("%.9f", (end.tv_sec - start.tv_sec) + (end.tv_nsec - start.tv_nsec) / 1e9);
    return 0;
}
"""


def raw_words(folder):
    """The words that run the loop of the four calls, and the name of its language."""
    if not shutil.which("gcc"):
        return [sys.executable, os.path.abspath(__file__), "--raw"], "Python"
    source, program = os.path.join(folder, "raw.c"), os.path.join(folder, "raw")
    with open(source, "w", encoding="ascii") as it:
        it.write(RAW)
    subprocess.run(["gcc", "-O2", "-o", program, source], check=True)
    return [program], "C"


def raw_in_python(path, count, length):
    """The loop of the four calls, where there is no gcc."""
    file, body, place = os.open(path, os.O_RDWR | os.O_CREAT | os.O_TRUNC), bytes(length + 5), 16
    os.pwrite(file, b"\0", place)
    os.fdatasync(file)
    start = time.perf_counter()
    for _ in range(count):
        os.pwrite(file, body, place + 1)
        os.fdatasync(file)
        os.pwrite(file, b"\1", place)
        os.fdatasync(file)
        place += len(body)
    print(time.perf_counter() - start, end="")


def commits(count):
    """Commits of one change, each with a record of the same length."""
    return [commit([change(it, f"B{it:07}")]) for it in range(count)]


class Keeping:
    """The program over a new file, behind the requests that make a project and its elements."""

    def __init__(self, program, path):
        self.path = path
        pipe = subprocess.PIPE
        self.process = subprocess.Popen([program, path, "once"], stdin=pipe, stdout=pipe, bufsize=0)
        for request in ELEMENTS:
            self.ask(request)

    def ask(self, request):
        """Sends a request, and reads its response, which is short enough to come in one piece."""
        os.write(self.process.stdin.fileno(), request)
        told = os.read(self.process.stdout.fileno(), 65536)
        if not told.startswith(b"HTTP/1.1 201 "):
            sys.exit(f"a request was answered {told[:80]!r}, so the times say nothing")

    def end(self):
        self.process.stdin.close()
        if self.process.wait():
            sys.exit(f"the program ended with status {self.process.returncode}")


def kept(path, count):
    """The records of the last commits in a journal, of which there are so many; the file is removed."""
    with open(path, "rb") as it:
        records = [record for _, record in Records(it.read()).placed]
    if len(records) != count + len(ELEMENTS):
        sys.exit(f"{len(records)} records for {count + len(ELEMENTS)} accepted commands, so the times say nothing")
    os.remove(path)
    return records[len(ELEMENTS) :]


def one_by_one(program, path, requests):
    """How long it takes to send these commits one at a time."""
    keeping = Keeping(program, path)
    start = time.perf_counter()
    for request in requests:
        keeping.ask(request)
    took = time.perf_counter() - start
    keeping.end()
    kept(path, len(requests))
    return took


def moment_of(record):
    """The moment of an entry, in milliseconds, with which its bytes begin."""
    return int.from_bytes(record[:8], "big")


def in_one_stream(program, path, requests):
    """How long a run takes for these commits, told by the moments of the first and of the last, and the length of a record."""
    with source_of(ELEMENTS + requests) as source:
        source.seek(0)
        subprocess.run([program, path, "once"], stdin=source, stdout=subprocess.DEVNULL, check=True)
    records = kept(path, len(requests))
    between = (moment_of(records[-1]) - moment_of(records[0])) / 1000
    return between * len(records) / (len(records) - 1), max(len(it) for it in records)


def raw_seconds(words, path, count, length):
    told = subprocess.run([*words, path, str(count), str(length)], stdout=subprocess.PIPE, check=True).stdout
    os.remove(path)
    return float(told)


def rates(program, folder, asked):
    """The table's rows on the rate of commits."""
    path, requests = os.path.join(folder, "journal"), commits(asked.commits)
    words, language = raw_words(folder)
    _, length = in_one_stream(program, path, requests)
    times = {"raw": [], "single": [], "stream": []}
    for _ in range(asked.rounds):
        times["raw"].append(raw_seconds(words, path, len(requests), length))
        times["single"].append(one_by_one(program, path, requests))
        times["stream"].append(in_one_stream(program, path, requests)[0])
    names = (f"the four calls alone, in {language}", "commits sent one at a time, by this script", "commits in one stream, from a file")
    for name, several in zip(names, times.values()):
        took = statistics.median(several)
        over = statistics.median(raw / other for raw, other in zip(times["raw"], several))
        yield f"| {name} | {length} | {len(requests) / took:,.0f} | {over:.2f} |"


def least_seconds(words, rounds):
    """The least time of the program without input, by the clock on the wall."""
    times = []
    for _ in range(rounds):
        start = time.perf_counter()
        subprocess.run(words, stdin=subprocess.DEVNULL, stdout=subprocess.DEVNULL, check=True)
        times.append(time.perf_counter() - start)
    return min(times)


def peak_of_check(program, path):
    """The most memory that `check` had resident, in bytes, where there is GNU time to tell it.

    It starts the program from a small process; what the system tells of one that this script started counts the script too."""
    if not os.access("/usr/bin/time", os.X_OK):
        return None
    words = ["/usr/bin/time", "-f", "%M", program, path, "check"]
    return int(subprocess.run(words, stdout=subprocess.DEVNULL, stderr=subprocess.PIPE, check=True).stderr) * 1024


def response_size(words, stream):
    """How many bytes the program writes in response to a stream."""
    stream.seek(0)
    return len(subprocess.run(words, stdin=stream, stdout=subprocess.PIPE, check=True).stdout)


def openings(program, folder, asked):
    """The table's rows on opening a journal of many commits, beside the process that accepted them in memory."""
    requests = ELEMENTS + commits(asked.entries)
    path, moment = os.path.join(folder, "long"), time.time_ns() // 1_000_000
    with open(path, "wb") as it:
        it.write(journal([encoded(moment, command_of(front(request, 0)[0])) for request in requests]))
    accepted, opened = [program, "-", "once"], [program, path, "once"]
    with source_of(requests) as stream, source_of([get(f"/projects/{made_id(0)}")]) as one_read:
        start = time.perf_counter()
        size = response_size(accepted, stream)
        took = time.perf_counter() - start
        memory = peak_memory(accepted, stream, size)
        opened_memory = peak_memory(opened, one_read, response_size(opened, one_read))
    yield row(f"{asked.entries:,} commits, accepted in memory", took, memory, memory)
    yield row("opened by `check`", least_seconds([program, path, "check"], asked.rounds), peak_of_check(program, path), memory)
    yield row("opened by `once`", least_seconds(opened, asked.rounds), opened_memory, memory)


def row(name, seconds, memory, other):
    told = f"{memory / 2**20:.1f} | {memory / other:.2f}" if memory else " | "
    return f"| {name} | {seconds:.3f} | {told} |"


def table(heads, rows):
    print("| " + " | ".join(heads) + " |")
    print("|---" + "|---:" * (len(heads) - 1) + "|")
    for it in rows:
        print(it, flush=True)


def words_asked():
    asked = argparse.ArgumentParser(description="Measures the built program on a journal in a real file.")
    asked.add_argument("--commits", type=int, default=2000, metavar="N", help="commits of a round (2,000)")
    asked.add_argument("--rounds", type=int, default=9, metavar="N", help="rounds (9)")
    asked.add_argument("--entries", type=int, default=10_000, metavar="N", help="commits of the journal that is opened (10,000)")
    asked.add_argument("--folder", metavar="FOLDER", help="where the files stand (the folder of temporary files)")
    asked.add_argument("program", nargs="?", default=PROGRAM, metavar="PROGRAM")
    return asked.parse_args()


def main():
    if sys.argv[1:2] == ["--raw"]:
        raw_in_python(sys.argv[2], int(sys.argv[3]), int(sys.argv[4]))
        return
    asked = words_asked()
    program = program_at(asked.program)
    with tempfile.TemporaryDirectory(dir=asked.folder) as folder:
        print(f"{processor()}, {os.cpu_count()} processors; median of {asked.rounds} rounds\n")
        table(("kept in a file", "bytes of an entry", "a second", "over the calls alone"), rates(program, folder, asked))
        print()
        table(("opened", "seconds", "peak memory, MiB", "over accepting"), openings(program, folder, asked))


if __name__ == "__main__":
    main()
