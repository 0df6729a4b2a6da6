"""Sessions over one file: each is cut into several runs, and each run goes on from what the runs before it kept.

The requests are drawn with a fixed seed, of every kind and many of them refused. Behind each run the records of the file are
decoded and compared with the commands that the model accepts, one record each, in their order.
"""

import functools
import random

from common import Wrong, check_end, check_responses, commits_of, element_at, get, made_id, post, put
from hostile import MAKES, POST_P, Session
from journal_model import Records, State
from journal_runs import Check, Expected, check_summary, over, read, same

SEED = 20_000_202
SESSIONS = 16


class KeptSession(Session):
    """A session that keeps its requests apart."""

    def __init__(self, draws):
        super().__init__(draws)
        self.requests = []

    def add(self, request):
        super().add(request)
        self.requests.append(request)


def drawn_runs(number):
    """The requests of a session, cut into runs; some of them have none."""
    draws = random.Random(SEED + number)
    session = KeptSession(draws)
    session.add(POST_P)
    session.add(MAKES)
    for _ in range(draws.randint(60, 120)):
        session.draw_request()
    cuts = sorted(draws.choices(range(len(session.requests) + 1), k=6))
    return [session.requests[start:end] for start, end in zip([0, *cuts], [*cuts, len(session.requests)])]


class Keeping:
    """What the runs so far have kept: the repository, the moments of its records by their ids, and the records of the file."""

    def __init__(self):
        self.repository, self.created, self.records = State().repository, {}, []

    def check_run(self, program, path, requests):
        """One more run answers as the model, and keeps what it accepted behind what was kept before."""
        expected = Expected(self.repository, requests)
        ran = over(program, path, ["once"], b"".join(requests))
        check_responses(expected.answers, ran, self.created)
        check_end(ran, 0, "")
        found = [it for _, it in Records(read(path)).placed]
        same("the records that were there before", found[: len(self.records)], self.records)
        expected.check_records(found[len(self.records) :], ran.output)
        self.records = found


def long_runs():
    """Runs that keep a long name, and a commit of many changes, and read them again."""
    name, several = b"n" * 3_000_000, b",".join(b'{"payload":{"n":%d}}' % it for it in range(3_000))
    changes = f"{commits_of(made_id(0))}/{made_id(2)}/changes"
    yield [post(b'{"name":"%s"}' % name), post(b'{"change":[%s]}' % several, commits_of(made_id(0)))]
    yield [get("/projects"), get(changes), get(element_at(made_id(0), made_id(2), made_id(4)))]
    yield [put(b'{"name":"P"}', f"/projects/{made_id(0)}"), get("/projects")]
    yield [get("/projects"), get(changes)]


def session_of(name, make_runs):
    def act(program, path):
        keeping = Keeping()
        for place, requests in enumerate(make_runs()):
            try:
                keeping.check_run(program, path, requests)
                check_summary(program, path)
            except Wrong as why:
                raise Wrong(f"run {place}: {why}") from None
        same("the moments of what the records made", Records(read(path)).state().created, keeping.created)

    return Check(f"{name}, over one file", act)


def sessions():
    yield session_of("long entries", long_runs)
    for number in range(SESSIONS):
        yield session_of(f"session {number}", functools.partial(drawn_runs, number))
