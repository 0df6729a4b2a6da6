"""Rounds in which the program is killed at a random moment under a stream of commits, over one file that goes on through all.

Behind each kill `check` must call the file sound, and its records must be the commands whose responses were read whole, in their
order, at most followed by the one sent next. The system stays up, so this shows the order of the program's calls and nothing of
what a disk keeps when the power goes. The seed is printed; what a kill meets differs from run to run all the same.
"""

import json
import os
import random
import re
import select
import subprocess
import threading
import time

from common import PATIENCE, Wrong, check_responses, commits_of, get, made_id, milliseconds, post
from entry_model import decoded
from forms import POST_P
from journal_again import Keeping
from journal_model import Records, moment_text
from journal_runs import Check, Expected, check_summary, read, same

SEED = 20_000_303
ROUNDS = 100
# rounds that are enough where the time is over
ROUNDS_LEAST = 40
SECONDS = 90
# commits that are sent in a round, all at once
SENT = 40

COMMITS = commits_of(made_id(0))
HEAD = re.compile(rb"HTTP/1\.1 (?:[^\r]+\r\n)+?Content-Length: (\d+)\r\n(?:[^\r]+\r\n)*\r\n")


class Killed:
    """A run of the program on these requests that ends by a kill: what it wrote before, and the clock before and after."""

    def __init__(self, words, requests, draws):
        self.output, self.before = b"", milliseconds()
        pipe = subprocess.PIPE
        with subprocess.Popen(words, stdin=pipe, stdout=pipe, stderr=pipe, bufsize=0) as self.process:
            feeder = threading.Thread(target=self.feed, args=(b"".join(requests),), daemon=True)
            feeder.start()
            try:
                self.wait(draws)
            finally:
                self.process.kill()
            self.take_all()
            feeder.join(PATIENCE)
            self.complaint = self.process.stderr.read()
        self.after = milliseconds()
        # (a signal ends it, and it said nothing before)
        same("the end", (self.process.wait(), self.complaint), (-9, b""))

    def feed(self, stream):
        try:
            while stream:
                stream = stream[self.process.stdin.write(stream) :]
        except (OSError, ValueError):
            # (the program was killed, or its input was closed behind it)
            pass

    def wait(self, draws):
        """Waits for a random moment: some time from the start on, or a little behind a random response."""
        by_clock, responses = draws.random() < 0.25, draws.randrange(1, SENT)
        end = time.monotonic() + (draws.uniform(0, 0.05) if by_clock else PATIENCE)
        while time.monotonic() < end:
            if self.take(end - time.monotonic()):
                raise Wrong(f"it ended its output by itself, and said {self.process.stderr.read()!r}")
            if not by_clock and self.output.count(b"HTTP/1.1 ") >= responses:
                time.sleep(draws.choice((0, draws.uniform(0, 0.001), draws.uniform(0, 0.01))))
                return
        if not by_clock:
            raise Wrong(f"there were no {responses} responses after {PATIENCE} seconds")

    def take(self, seconds):
        """Takes what the program writes within some time, and tells whether it has ended its output."""
        if not select.select([self.process.stdout], [], [], max(0, seconds))[0]:
            return False
        piece = os.read(self.process.stdout.fileno(), 65536)
        self.output += piece
        return not piece

    def take_all(self):
        """Takes what the program wrote before it was killed."""
        while not self.take(PATIENCE):
            pass

    def whole_responses(self):
        """How many responses are whole, and the bytes behind the last of them."""
        count, at = 0, 0
        while head := HEAD.match(self.output, at):
            if head.end() + int(head[1]) > len(self.output):
                break
            count, at = count + 1, head.end() + int(head[1])
        return count, self.output[at:]


class Told:
    """What a run is known to have answered."""

    def __init__(self, killed, output):
        self.output, self.before, self.after = output, killed.before, killed.after


class Rounds:
    """The file, and what it keeps from round to round."""

    def __init__(self, program, path):
        self.program, self.path, self.sent, self.more = program, path, 0, 0
        self.draws, self.keeping = random.Random(SEED), Keeping()

    def next_commit(self):
        """A commit of one change, unlike all others."""
        self.sent += 1
        return post(b'{"change":[{"payload":{"@id":"%s","n":%d}}]}' % (made_id(9).encode(), self.sent), COMMITS)

    def round(self):
        requests = [self.next_commit() for _ in range(SENT)]
        killed = Killed([self.program, self.path, "once"], requests, self.draws)
        count, part = killed.whole_responses()
        self.check_answers(killed, requests[:count], killed.output[: len(killed.output) - len(part)])
        if len(Records(read(self.path)).placed) > len(self.keeping.records):
            self.check_one_more(requests[count:])
        elif part:
            raise Wrong(f"there is no record of a command whose response began with {part!r}")
        check_summary(self.program, self.path)

    def check_answers(self, killed, requests, output):
        """The acknowledged commands are kept, in order."""
        expected, told = Expected(self.keeping.repository, requests), Told(killed, output)
        check_responses(expected.answers, told, self.keeping.created)
        found = [it for _, it in Records(read(self.path)).placed]
        kept = len(self.keeping.records)
        same("the records that were there before", found[:kept], self.keeping.records)
        self.keeping.records = found[: kept + len(requests)]
        expected.check_records(self.keeping.records[kept:], output)

    def check_one_more(self, requests):
        """One command more is kept, the first of these, whose response wasn't read whole."""
        expected = Expected(self.keeping.repository, requests[:1])
        found = [it for _, it in Records(read(self.path)).placed]
        same("how many records stand behind the acknowledged ones", len(found) - len(self.keeping.records), 1)
        expected.check_commands(found[-1:])
        self.keeping.records, self.more = found, self.more + 1
        # (its moment is told by the record alone)
        made = json.loads(expected.answers[0].partition("\r\n\r\n")[2], strict=False)
        self.keeping.created[made["@id"]] = moment_text(decoded(found[-1])[0])


def kill_rounds(program, path):
    rounds, started, number = Rounds(program, path), time.monotonic(), 0
    rounds.keeping.check_run(program, path, [POST_P])
    while number < ROUNDS and time.monotonic() - started < SECONDS:
        try:
            rounds.round()
        except Wrong as why:
            raise Wrong(f"round {number}, seed {SEED}: {why}") from None
        number += 1
    if number < ROUNDS_LEAST:
        raise Wrong(f"there was time for {number} rounds alone")
    rounds.keeping.check_run(program, path, [get(COMMITS), get(f"{COMMITS}?branchId={made_id(1)}")])
    kept = len(rounds.keeping.records) - 1
    print(f"journal: {number} kills, seed {SEED}: {kept} commits kept, {rounds.more} of them not acknowledged", flush=True)


KILLS = Check("kills under a stream of commits", kill_rounds)
