"""How fast the built program serves long streams, whether twice the stream takes twice the time, and in how much memory.

For each kind of stream, of N and of 2N requests, it prints one row: the requests a second by the clock on the wall, the
processor time of a request, that time over the yardstick's (bench/yardstick.py), the processor time for 2N over that for N, and
the program's peak of resident memory. Commits of one change, branches and tags are a tenth as many, and a commit of many
payloads is one request, of N/2 and of N payloads. Lists are read twenty times. Each time is the least of a few runs; processor
time is told because other work on the machine changes it least. Starting up doesn't count, and neither do the requests that
make what the others read: the times are less those of a stream of these alone.
Usage: once.py [--requests N] [--rounds N] [PROGRAM]
"""

import argparse
import os
import platform
import subprocess
import sys
import tempfile
import time

HERE = os.path.dirname(os.path.abspath(__file__))
sys.path.insert(0, os.path.join(os.path.dirname(HERE), "checks"))

from common import PROGRAM, commits_of, element_at, get, made_id, post, program_at  # noqa: E402

COMMITS = commits_of(made_id(0))
BRANCHES = f"/projects/{made_id(0)}/branches"
TAGS = f"/projects/{made_id(0)}/tags"
PROJECT = post(b'{"name":"P"}')


def element(number):
    """The identity of one of a few elements."""
    return "11111111-1111-4111-8111-%012x" % (number % 100)


def change(number, name):
    """A change that sets the name of one of the elements."""
    return '{"identity":{"@id":"%s"},"payload":{"@type":"Package","declaredName":"%s"}}' % (element(number), name)


def commit(changes):
    return post(('{"change":[%s]}' % ",".join(changes)).encode(), COMMITS)


# a project and its first commit, #2, which makes a hundred elements
ELEMENTS = [PROJECT, commit(change(it, "A") for it in range(100))]

# a project and its first commit, #2, which has no changes; a branch and a tag of it draw one serial each, from #3 on
EMPTY = [PROJECT, commit([])]
BRANCH = post(b'{"name":"x","head":{"@id":"%s"}}' % made_id(2).encode(), BRANCHES)
TAG = post(b'{"name":"v1","taggedCommit":{"@id":"%s"}}' % made_id(2).encode(), TAGS)


def branches(count):
    return EMPTY + [BRANCH] * count


def branch_reads(count):
    """Ten times as many reads as there are branches, of one after another, in an order that jumps."""
    return [get(f"{BRANCHES}/{made_id(3 + it * 7919 % count)}") for it in range(10 * count)]


def empty_commits(count):
    return [PROJECT] + [commit([])] * count


def one_commit(count):
    """A project, and its one commit of this many changes."""
    return [PROJECT, *payloads(count)]


def lists(path):
    """What makes the reads of a list, however long it is."""
    return lambda _: [get(path)] * 20


def payloads(count):
    """One commit of this many payloads without identities."""
    return [commit('{"payload":{"@type":"Part","n":%d}}' % it for it in range(count))]


def reads(count):
    return [get(element_at(made_id(0), made_id(2), element(it))) for it in range(count)]


class Stream:
    """Requests of one kind behind the first ones, whose responses have the status 201, as many as a part of those asked for.

    The first ones are told as a list, or by the number of the others."""

    def __init__(self, name, first, make, status, part=1):
        self.name, self.first = name, first if callable(first) else lambda _: first
        self.make, self.status, self.part = make, status, part

    def requests(self, asked):
        """The first requests, those behind them, and their name."""
        size = max(1, asked // self.part)
        return self.first(size), self.make(size), self.name.replace("N ", f"{size:,} ")

    def check(self, first, count, output):
        """The program has answered each request, and as it should."""
        output.seek(0)
        told = output.read()
        wanted = count + (len(first) if self.status == 201 else 0)
        found = told.count(b"HTTP/1.1 %d " % self.status)
        if found != wanted:
            sys.exit(f"{self.name}: {found} of {wanted} responses have status {self.status}, so the times say nothing")


STREAMS = [
    Stream("projects", [], lambda size: [PROJECT] * size, 201),
    Stream("reads of one project", [PROJECT], lambda size: [get(f"/projects/{made_id(0)}")] * size, 200),
    Stream("reads of one element", ELEMENTS, reads, 200),
    Stream("commits of one change", ELEMENTS, lambda size: [commit([change(it, f"B{it}")]) for it in range(size)], 201, 10),
    Stream("one commit of N small payloads", [PROJECT], payloads, 201, 2),
    Stream("branches", EMPTY, lambda size: [BRANCH] * size, 201, 10),
    Stream("tags", EMPTY, lambda size: [TAG] * size, 201, 10),
    Stream("reads of one of N branches", branches, branch_reads, 200, 10),
    Stream("lists of N branches", branches, lists(BRANCHES), 200, 10),
    Stream("lists of N commits of a branch", empty_commits, lists(f"{COMMITS}?branchId={made_id(1)}"), 200, 10),
    Stream("lists of N changes of a commit", one_commit, lists(f"{COMMITS}/{made_id(2)}/changes"), 200, 10),
]


class Lane:
    """Runs of one command on one file: the least times, and what the last run wrote and said, in files."""

    def __init__(self, words, source):
        self.words = words
        self.source = source
        self.wall = self.processor = float("inf")

    def run(self):
        self.output, self.said = tempfile.TemporaryFile(), tempfile.TemporaryFile()
        self.source.seek(0)
        began = time.perf_counter()
        ran = subprocess.Popen(self.words, stdin=self.source, stdout=self.output, stderr=self.said)
        _, status, usage = os.wait4(ran.pid, 0)
        self.wall = min(self.wall, time.perf_counter() - began)
        self.processor = min(self.processor, usage.ru_utime + usage.ru_stime)
        ran.returncode = os.waitstatus_to_exitcode(status)
        self.said.seek(0)
        if ran.returncode:
            sys.exit(f"{self.words} ended with status {ran.returncode}: {self.said.read().decode()}")


class Yardstick(Lane):
    """Runs of the yardstick, which tells its processor time itself, without Python's start."""

    def run(self):
        told, self.processor = self.processor, float("inf")
        super().run()
        self.processor = min(told, float(self.said.read()))


def take_turns(lanes, rounds):
    """Runs each lane in turn, again and again, so that what else the machine does meets all of them alike."""
    for _ in range(rounds):
        for lane in lanes:
            lane.run()


def peak_memory(words, source, size):
    """The most memory that the program had resident, in bytes, once it has written `size` bytes and waits for more input.

    What the system tells of a process that has ended counts what this script had resident when it started that process."""
    with tempfile.TemporaryFile() as output, subprocess.Popen(words, stdin=subprocess.PIPE, stdout=output) as ran:
        source.seek(0)
        for piece in iter(lambda: source.read(65536), b""):
            ran.stdin.write(piece)
        ran.stdin.flush()
        while os.fstat(output.fileno()).st_size < size and ran.poll() is None:
            time.sleep(0.001)
        with open(f"/proc/{ran.pid}/status", encoding="ascii") as it:
            told = [line.split() for line in it if line.startswith("VmHWM:")]
    return int(told[0][1]) * 1024


def source_of(requests):
    """A file of these requests."""
    source = tempfile.TemporaryFile()
    source.write(b"".join(requests))
    source.flush()
    return source


class Race:
    """The program and the yardstick on the whole of a stream, and each on its first requests, whose times are taken off."""

    def __init__(self, words, yardstick, first, requests):
        whole, before = source_of(first + requests), source_of(first)
        self.lanes = [Lane(words, whole), Lane(words, before), Yardstick(yardstick, whole), Yardstick(yardstick, before)]

    def times(self):
        """The wall's and the processor's time of the program, and the processor's of the yardstick."""
        whole, before, other, other_before = self.lanes
        spent = (whole.wall - before.wall, whole.processor - before.processor, other.processor - other_before.processor)
        return [max(it, 1e-9) for it in spent]


def rows(stream, asked, words, yardstick, rounds):
    """The table's rows for one kind of stream, for each of these numbers of requests."""
    made = [stream.requests(it) for it in asked]
    races = [Race(words, yardstick, first, requests) for first, requests, _ in made]
    take_turns([lane for race in races for lane in race.lanes], rounds)
    half = None
    for (first, requests, name), race in zip(made, races):
        count, lane = len(requests), race.lanes[0]
        stream.check(first, count, lane.output)
        memory = peak_memory(words, lane.source, os.fstat(lane.output.fileno()).st_size)
        wall, processor, other = race.times()
        # (what takes the yardstick less than a millisecond is no measure)
        over = f"{processor / other:.2f}" if other > 0.001 else ""
        yield (
            f"| {name} | {count:,} | {count / wall:,.0f} | {processor / count * 1e6:,.2f} "
            f"| {over} | {f'{processor / half:.2f}' if half else ''} | {memory / 2**20:.1f} |"
        )
        half = processor


def processor():
    """The processor's name, where the system tells it."""
    try:
        with open("/proc/cpuinfo", encoding="utf-8") as it:
            names = [line.split(":", 1)[1].strip() for line in it if line.startswith("model name")]
    except OSError:
        names = []
    return names[0] if names else platform.processor() or platform.machine()


def main():
    asked = argparse.ArgumentParser(description="Measures the built program on long streams of requests.")
    asked.add_argument("--requests", type=int, default=20_000, metavar="N", help="requests of the shorter stream (20,000)")
    asked.add_argument("--rounds", type=int, default=7, metavar="N", help="runs of which the fastest counts (7)")
    asked.add_argument("program", nargs="?", default=PROGRAM, metavar="PROGRAM")
    asked = asked.parse_args()
    words = [program_at(asked.program), "-", "once"]
    yardstick = [sys.executable, os.path.join(HERE, "yardstick.py")]
    name = subprocess.run([*yardstick, "--name"], stdout=subprocess.PIPE, text=True, check=True).stdout.strip()
    print(f"{processor()}, {os.cpu_count()} processors; yardstick: {name}; least of {asked.rounds} runs\n")
    print("| stream | requests | requests/s | processor µs a request | over the yardstick's | 2N over N | peak memory, MiB |")
    print("|---|---:|---:|---:|---:|---:|---:|")
    for stream in STREAMS:
        for row in rows(stream, (asked.requests, 2 * asked.requests), words, yardstick, asked.rounds):
            print(row, flush=True)


if __name__ == "__main__":
    main()
