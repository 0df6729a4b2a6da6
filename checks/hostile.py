"""Streams that nobody would send: the program ends each by itself, with a status of its own and whole responses alone.

The streams are drawn with a fixed seed, so each run of this check makes the same ones. What is right for a stream comes from
model.py: the responses that it gets, at most one a request, and the status and the line on standard error at its end.
Usage: hostile.py [PROGRAM]
"""

import concurrent.futures
import functools
import itertools
import json
import os
import random
import re
import time

import model
from common import (
    Wrong,
    check_end,
    check_responses,
    commits_of,
    conclude,
    delete,
    element_at,
    get,
    made_id,
    post,
    program_named,
    put,
    run,
)
from documents import ID

SEED = 20_000_101

COMMITS = commits_of(made_id(0))

POST_P = post(b'{"name":"P"}')
GET_0 = get(f"/projects/{made_id(0)}")
MAKES = post(b'{"change":[{"payload":{"n":1}}],"previousCommit":null}', COMMITS)
REPLACES = post(b'{"change":[{"payload":{"@id":"%s","n":2}}]}' % made_id(4).encode(), COMMITS)
ELEMENT = get(element_at(made_id(0), made_id(2), made_id(4)))
HEAD = b"HEAD /projects HTTP/1.1\r\nHost: h\r\n\r\n"
NO_METHOD = b"PUT /projects?x HTTP/1.1\nhost:h\nConnection: Keep-Alive\ncontent-length: 4\n\nbody"
ABSOLUTE = b"GET http://h/projects HTTP/1.1\r\nHost: h\r\n\r\n"
BAD_BODY = b"POST /projects?a=b?c HTTP/1.1\r\nHost: h\r\nAccept: */*\r\nContent-Length: 1\r\n\r\n{"
CHUNKED = b"POST /projects HTTP/1.1\r\nHost: h\r\nTransfer-Encoding: chunked\r\n\r\n2\r\n{}\r\n0\r\n\r\n"
OLD = b"GET /projects HTTP/1.0\r\nHost: h\r\n\r\n"
UPDATE = put(b'{"name":"Q","defaultBranch":{"@id":"%s"}}' % made_id(1).encode(), f"/projects/{made_id(0)}")
BRANCH = post(b'{"name":"x","head":{"@id":"%s"}}' % made_id(2).encode(), f"/projects/{made_id(0)}/branches")
TAG = post(b'{"taggedCommit":{"@id":"%s"}}' % made_id(2).encode(), f"/projects/{made_id(0)}/tags")
LIST = get(f"{COMMITS}?branchId={made_id(1)}")
CHANGES = get(f"{COMMITS}/{made_id(2)}/changes")
LOST = delete(f"/projects/{made_id(0)}/branches/{made_id(7)}")
GONE = delete(f"/projects/{made_id(0)}")
REQUESTS = [POST_P, POST_P, GET_0, HEAD, NO_METHOD, ABSOLUTE, BAD_BODY, CHUNKED, OLD, MAKES, REPLACES, ELEMENT]
REQUESTS += [UPDATE, BRANCH, TAG, LIST, CHANGES, LOST, GONE]
GOOD = POST_P + GET_0 + HEAD + NO_METHOD + ABSOLUTE + MAKES + BAD_BODY + REPLACES + ELEMENT + BRANCH + LIST + LOST + GONE

# bytes that mean something in a head or in a document, and a few that never do
TELLING = b"\r\n\r\n  \t:/?#{}[]\",\\0159-+.eEpPHh\x00\x7f\x80\xc3\xff"


def early_bytes():
    """Every byte value in every place of a request line and a first field."""
    stream = POST_P + GET_0
    for place in range(stream.index(b"Content-Length")):
        for value in range(256):
            yield f"byte {value} at {place}", stream[:place] + bytes([value]) + stream[place + 1 :]


def late_bytes():
    """Other bytes in every place of a body, where the session goes on after each."""
    body = b'{"name":"P"}'
    for place in range(len(body)):
        yield f"each byte at {place} of a project", b"".join(map(post, each_byte(body, place, range(256)))) + GET_0
    body = b'{"change":[{"identity":{"@id":"%s"},"payload":{}}]}' % made_id(4).encode()
    for place in range(len(body)):
        several = [post(it, COMMITS) for it in each_byte(body, place, TELLING)]
        yield f"each telling byte at {place} of a commit", POST_P + b"".join(several) + ELEMENT
    for request in (UPDATE, BRANCH, TAG):
        head, body = request.split(b"\r\n\r\n")
        for place in range(len(body)):
            several = [head + b"\r\n\r\n" + it for it in each_byte(body, place, TELLING)]
            yield f"each telling byte at {place} of {body[:8]!r}", POST_P + MAKES + b"".join(several) + LIST + CHANGES


def targets():
    """Targets with a byte changed, added or dropped, in every place."""
    values = (b"", b"%2", b"\xc3\xa9", *(bytes([it]) for it in b"/?#&=%+.;-x0A{*"))
    for request in (LIST, get(f"{COMMITS}/{made_id(2)}/changes/{made_id(3)}"), LOST, ABSOLUTE):
        before, target, after = request.split(b" ", 2)
        for value in values:
            changed = [target[:it] + value + target[it + kept :] for it in range(len(target)) for kept in (0, 1)]
            stream = b"".join(b" ".join((before, it, after)) for it in changed if it)
            yield f"targets of {request[:20]!r} with {value!r}", POST_P + MAKES + BRANCH + stream


def each_byte(body, place, values):
    """A body with each of these bytes in one place."""
    return [body[:place] + bytes([value]) + body[place + 1 :] for value in values]


def cuts():
    """Streams that end after each byte, and streams that begin at each."""
    for place in range(len(GOOD)):
        yield f"cut at {place}", GOOD[:place]
        yield f"begun at {place}", GOOD[place:]


def doubled():
    """Requests again and again, whole or in parts that overlap."""
    for place, request in enumerate(REQUESTS):
        for times in (2, 3, 100):
            yield f"request {place}, {times} times", request * times
        for end in range(1, len(request), 7):
            yield f"{end} bytes of request {place}, and then all of it", request[:end] + request


def mutated(draws):
    """Requests with a few bytes changed, dropped, added, moved or repeated."""
    for number in range(2000):
        stream = bytearray(POST_P * draws.randrange(2) + b"".join(draws.choices(REQUESTS, k=draws.randint(1, 6))))
        for _ in range(draws.randint(1, 4)):
            mutate(draws, stream)
        yield f"mutant {number}", bytes(stream)


def mutate(draws, stream):
    """One change of a few bytes."""
    at = draws.randrange(len(stream) + 1)
    some = draws.randint(1, 8)
    kind = draws.randrange(5)
    if kind == 0:
        stream[at : at + 1] = bytes([draws.choice(TELLING)])
    elif kind == 1:
        del stream[at : at + some]
    elif kind == 2:
        stream[at:at] = bytes(draws.choices(TELLING, k=some))
    elif kind == 3:
        stream[at:at] = stream[at : at + 10 * some]
    else:
        piece = stream[at : at + some]
        del stream[at : at + some]
        elsewhere = draws.randrange(len(stream) + 1)
        stream[elsewhere:elsewhere] = piece


def noise(draws):
    """Bytes at random: of every value, and of the values that mean something."""
    for number in range(300):
        length = draws.choice((1, 2, 3, 8, 40, 300, 5000))
        yield f"noise {number}", POST_P * draws.randrange(2) + draws.randbytes(length)
        yield f"telling noise {number}", POST_P * draws.randrange(2) + bytes(draws.choices(TELLING, k=length))


def long_heads():
    """Heads about as long as a head may be, with each part of them grown in turn."""
    line, host, end = b"GET /project HTTP/1.1\r\n", b"Host: h\r\n", b"\r\n"
    grown = {
        "method": lambda n: b"G" * n + line + host + end,
        "target": lambda n: line.replace(b"/project", b"/" + b"p" * n) + host + end,
        "target of two bytes a letter": lambda n: line.replace(b"/project", "\u00e9".encode() * (n // 2)) + host + end,
        "field name": lambda n: line + host + b"a" * n + b":b\r\n" + end,
        "field value": lambda n: line + host + b"a:" + b"b" * n + b"\r\n" + end,
        "blanks": lambda n: line + b"Host:" + b" " * n + b"h\r\n" + end,
        "empty lines before": lambda n: b"\r\n" * (n // 2) + line + host + end,
        "fields": lambda n: line + host + b"a:\n" * (n // 3) + end,
        "no end": lambda n: line + host + b"a:" + b"b" * n,
    }
    for name, make in grown.items():
        base = len(make(0))
        for length in (100, 16_382, 16_383, 16_384, 16_385, 16_386, 40_000, 1_000_000):
            yield f"{name} grown to a head of {length}", make(max(0, length - base)) + POST_P
    for count in (63, 64, 65, 5000):
        yield f"{count} fields", line + host + b"a:b\r\n" * (count - 1) + end + POST_P


def lengths():
    """Bodies of the lengths that a head may tell, and of those that it may not."""
    for told in (b"0", b"00", b"1", b"67108864", b"67108865", b"4294967296", b"9" * 400, b"-1", b"0x1", b"1 ", b"1,1", b""):
        yield f"a told length of {told!r}", b"POST /projects HTTP/1.1\r\nHost: h\r\nContent-Length: " + told + b"\r\n\r\n{}" + GET_0
    for size in (4_000, 4_096, 65_536, 5_000_000):
        yield f"a name of {size} bytes", post(b'{"name":"' + b"n" * size + b'"}') + GET_0
        yield f"a name of {size} escapes", post(b'{"name":"' + b"\\u0001" * size + b'"}') + GET_0


def documents(draws):
    """Deep documents, wide ones, ones at random, and these with a few bytes changed."""
    for deep in (1, 98, 99, 100, 101, 125, 126, 127, 128, 1000, 100_000):
        for opening, closing in ((b"[", b"]"), (b'{"a":', b"}")):
            middle = b"" if opening == b"[" else b"1"
            nested = opening * deep + middle + closing * deep
            again = post(b'{"x":' + nested + b',"x":1}')
            yield f"{deep} nested", post(b'{"x":' + nested + b"}") + again + post(nested) + post(opening * deep) + GET_0
    for wide in (1000, 100_000):
        yield f"{wide} keys", post(b"{" + b",".join(b'"%d":%d' % (it, it) for it in range(wide)) + b"}") + GET_0
        yield f"{wide} equal keys", post(b'{"name":"Q"' + b',"name":"P"' * wide + b"}") + GET_0
        yield f"{wide} members", post(b'{"x":[' + b"null," * wide + b'{}],"name":"P"}') + GET_0
    for number in range(100):
        bodies = [drawn_body(draws) for _ in range(20)]
        yield f"documents {number}", b"".join(map(post, bodies)) + GET_0


def drawn_body(draws):
    """A body that is mostly right, as Python writes it, at times with a few bytes changed."""
    shown = {key: drawn_value(draws, 3) for key in draws.sample(["name", "description", "x", "@id", "\u00e9\n"], draws.randint(0, 4))}
    for key in ("name", "description"):
        if key in shown and draws.random() < 0.8:
            shown[key] = drawn_text(draws)
    body = json.dumps(shown, ensure_ascii=draws.random() < 0.5, indent=draws.choice((None, 0, 2)))
    body = bytearray(body.encode("utf-8", "surrogatepass"))
    if draws.random() < 0.4:
        mutate(draws, body)
    return bytes(body)


def drawn_value(draws, deep):
    """A document; at times one with a number that isn't whole, or out of range."""
    kind = draws.randrange(8 if deep else 6)
    if kind == 6:
        return [drawn_value(draws, deep - 1) for _ in range(draws.randrange(4))]
    if kind == 7:
        return {drawn_text(draws): drawn_value(draws, deep - 1) for _ in range(draws.randrange(4))}
    edge = draws.choice((0, 1, -1, 2**63, -(2**63), 2**64 - 1, 2**64, -(2**63) - 1, 10**25))
    plain = (None, True, False, drawn_text(draws), edge, 1.5 if draws.random() < 0.1 else 7)
    return plain[kind]


def drawn_text(draws):
    """A text of letters that are written as they are, as escapes, or in several bytes."""
    letters = "ab\"\\/\b\f\n\r\t\x00\x1f\x7f\u00e9\u2028\uffff\U0001f600"
    surrogate = "\ud800" if draws.random() < 0.02 else ""
    return "".join(draws.choices(letters, k=draws.randrange(12))) + surrogate


def in_json(body):
    return json.dumps(body, ensure_ascii=False).encode()


def plain_text(draws):
    """Such a text without half a letter."""
    return drawn_text(draws).replace("\ud800", "")


class Session:
    """Requests of one repository, drawn so that many of them fit what the earlier ones made."""

    # identities that commits give; most are ids that the repository makes too
    IDENTITIES = [*map(made_id, (4, 6, 7, 9, 11, 15)), *("aaaaaaaa-0000-4000-8000-%012d" % it for it in (1, 2))]

    def __init__(self, draws):
        self.draws = draws
        self.repository = model.Repository()
        self.stream = b""

    def add(self, request):
        """Takes one more request, whose answer steers what is drawn next."""
        self.stream += request
        self.repository.answer(model.front(request, 0)[0])

    def draw_request(self):
        projects = list(self.repository.projects) or [made_id(0)]
        project = self.draws.choice(projects[:1] * 4 + projects) if self.draws.random() < 0.95 else self.drawn_id()
        (kind,) = self.draws.choices(list(KINDS), KINDS.values())
        self.add(kind(self, project))

    def new_project(self, _):
        return post(b'{"name":"Q"}')

    def new_commit(self, project):
        branch = self.some_branch(project) if self.draws.random() < 0.6 else None
        wrong = self.draws.choice(("?branchId=x", "?branchId", "?x=y&branchId=%22", f"?branchId={branch}&branchId={branch}"))
        query = wrong if self.draws.random() < 0.05 else f"?branchId={branch}" if branch else ""
        return post(in_json(self.commit_body(project, branch)), self.spelled(commits_of(project) + query))

    def new_branch(self, project):
        """POST of a branch, mostly with a head."""
        body = self.name_and_more({self.draw_key("head", "referencedCommit"): self.referred(self.some_commit(project))})
        return post(in_json(body), self.spelled(f"/projects/{project}/branches"))

    def new_tag(self, project):
        body = self.name_and_more({self.draw_key("taggedCommit", "referencedCommit"): self.referred(self.some_commit(project))})
        return post(in_json(body), self.spelled(f"/projects/{project}/tags"))

    def update(self, project):
        body = self.name_and_more({"description": plain_text(self.draws)})
        if self.draws.random() < 0.6:
            body["defaultBranch"] = self.referred(self.some_branch(project))
        return put(in_json(body), self.spelled(f"/projects/{project}"))

    def removal(self, project):
        """DELETE of a branch, of a tag, or now and then of the project."""
        paths = [f"/branches/{self.some_branch(project)}", f"/tags/{self.some_tag(project)}", ""]
        (path,) = self.draws.choices(paths, (4, 4, 1))
        return delete(self.spelled(f"/projects/{project}{path}"))

    def element(self, project):
        return get(self.spelled(element_at(project, self.some_commit(project), self.some_identity(project))))

    def look(self, project):
        """GET of a list or of a record."""
        commit, branch = self.some_commit(project), self.some_branch(project)
        several = ["", "/branches", f"/branches/{branch}", "/tags", f"/tags/{self.some_tag(project)}", "/commits"]
        several += [f"/commits?branchId={branch}", f"/commits/{commit}", f"/commits/{commit}/changes"]
        several.append(f"/commits/{commit}/changes/{self.some_version(project, commit)}")
        path = f"/projects/{project}{self.draws.choice(several)}" if self.draws.random() < 0.95 else "/projects"
        asked = get(self.spelled(path))
        return asked.replace(b"GET", self.draws.choice((b"HEAD", b"PATCH", b"get"))) if self.draws.random() < 0.03 else asked

    def spelled(self, target):
        """A target, at times with its ids in upper case, in absolute form, with one byte less, or with another one."""
        kind = self.draws.randrange(50)
        if kind == 0:
            return target[:-1]
        if kind == 1:
            place = self.draws.randrange(len(target))
            return target[:place] + self.draws.choice("/?#&=%x0A-") + target[place + 1 :]
        if kind == 2:
            return "http://h" + target
        return re.sub(ID, lambda it: it[0].upper(), target) if kind < 5 else target

    def name_and_more(self, body):
        """A body of a name and more, now and then of a wrong shape."""
        if self.draws.random() < 0.8:
            body["name"] = plain_text(self.draws)
        if self.draws.random() < 0.1:
            body[self.draws.choice((*body, "name", "head", "taggedCommit", "defaultBranch", "x"))] = self.wrong()
        return body

    def draw_key(self, usual, other):
        return usual if self.draws.random() < 0.8 else other

    def referred(self, identity):
        return {"@id": identity} if self.draws.random() < 0.9 else None

    def known(self, project):
        none = {"@id": project, "defaultBranch": {"@id": made_id(1)}}
        return self.repository.projects.get(project, model.Project(none))

    def drawn_id(self):
        return made_id(self.draws.randrange(self.repository.serial + 4))

    def some(self, several):
        """One of these ids, mostly."""
        several = sorted(several)
        return self.draws.choice(several) if several and self.draws.random() < 0.93 else self.drawn_id()

    def some_commit(self, project):
        return self.some(self.known(project).commits)

    def some_branch(self, project):
        return self.some(self.known(project).branches)

    def some_tag(self, project):
        return self.some(self.known(project).tags)

    def some_version(self, project, commit):
        found = self.known(project).commits.get(commit)
        return self.some(found.versions if found else ())

    def some_identity(self, project):
        return self.some(self.known(project).identities)

    def commit_body(self, project, branch):
        """A body that asks for a commit on a branch, now and then of a wrong shape."""
        body = {"change": [self.change(project) for _ in range(self.draws.choice((0, 1, 1, 1, 2, 2, 3, 6)))]}
        if self.draws.random() < 0.5:
            body["previousCommit"] = self.previous(project, branch)
        if self.draws.random() < 0.2:
            body["description"] = plain_text(self.draws)
        if self.draws.random() < 0.1:
            body[self.draws.choice(("change", "description", "previousCommit", "x"))] = self.wrong()
        return body

    def wrong(self):
        """A value that is wrong in most places."""
        return self.draws.choice((7, "", [], {}, False, None, [None], [{}], {"@id": "x"}, 1.5))

    def previous(self, project, branch):
        """The branch's head, mostly."""
        known, other = self.known(project), {"@id": self.some_commit(project)}
        found = known.branches.get(branch or known.default_branch())
        right = found and found.record["head"]
        return self.draws.choice((right, right, right, [right] if right else [], [], other, [right or other, other]))

    def change(self, project):
        """A change, often of an identity that is there already."""
        draws, body = self.draws, {}
        identity = draws.choice((draws.choice(self.IDENTITIES), self.some_identity(project)))
        identity = identity.upper() if draws.random() < 0.1 else identity
        if draws.random() < 0.6:
            body["identity"] = {"@id": identity}
        if draws.random() < 0.75:
            body["payload"] = self.payload(identity if draws.random() < 0.97 else self.drawn_id())
        elif draws.random() < 0.5:
            body["payload"] = None
        if draws.random() < 0.02:
            body[draws.choice(("identity", "payload"))] = self.wrong()
        return body

    def payload(self, identity):
        draws = self.draws
        payload = {"n": draws.randrange(1000), plain_text(draws): plain_text(draws)}
        if draws.random() < 0.5:
            payload["@id"] = identity if draws.random() < 0.98 else self.wrong()
        if draws.random() < 0.5:
            payload["@type"] = draws.choices(TYPES, (9, 3, 3, 1, 1, 1))[0]
        return payload


# the kinds of requests that are drawn, and how often of each
KINDS = {
    Session.new_project: 1, Session.new_commit: 9, Session.new_branch: 2, Session.new_tag: 2, Session.update: 1,
    Session.removal: 2, Session.element: 6, Session.look: 9,
}  # fmt: skip

# the types of payloads that are drawn: an element's, and those that are no elements or no types
TYPES = ("Part", "ExternalData", "ExternalRelationship", "ProjectUsage", ["ProjectUsage"], None)


def sessions():
    """Sessions of all kinds of requests. Each is drawn by the worker that checks it, from a seed of its own."""
    for number in range(900):
        yield f"session {number}", functools.partial(drawn_session, number)


def drawn_session(number):
    """A session that is left whole, or is cut, or has a few bytes changed."""
    draws = random.Random(SEED + number)
    session = Session(draws)
    session.add(POST_P)
    if number % 5:
        session.add(MAKES)
    for _ in range(draws.randint(3, 50)):
        session.draw_request()
    stream = bytearray(session.stream)
    if number % 4 == 2:
        del stream[draws.randrange(len(stream)) :]
    elif number % 4 == 3:
        mutate(draws, stream)
    return bytes(stream)


def long_commits():
    """A commit of many changes, many commits of one, and a read at each of them."""
    n = 500
    several = b",".join(b'{"payload":{"n":%d}}' % it for it in range(n))
    reads = [get(element_at(made_id(0), made_id(2), made_id(3 + it))) for it in range(2 * n + 2)]
    yield f"a commit of {n} changes", POST_P + post(b'{"change":[%s]}' % several, COMMITS) + b"".join(reads)
    again = b'{"change":[{"payload":{"@id":"%s","n":%%d}}]}' % made_id(4).encode()
    stream = POST_P + b"".join(post(again % it, COMMITS) for it in range(n))
    reads = [get(element_at(made_id(0), made_id(2 + it), made_id(4))) for it in range(2 * n + 2)]
    yield f"{n} commits of one element", stream + b"".join(reads)
    passed = b",".join(b'{"identity":{"@id":"%s"},"payload":{}}' % made_id(it).encode() for it in range(3, n))
    late = get(element_at(made_id(0), made_id(2), made_id(n)))
    yield f"an identity behind {n} others", POST_P + post(b'{"change":[{"payload":{}},%s]}' % passed, COMMITS) + late


def long_lists():
    """Many branches, tags, commits, changes and projects, and their lists."""
    n = 500
    one = f"/projects/{made_id(0)}"
    yield f"{n} branches", POST_P + MAKES + BRANCH * n + get(one + "/branches") + get(f"{one}/branches/{made_id(n)}") + LOST * 2
    yield f"{n} tags", POST_P + MAKES + TAG * n + get(one + "/tags") + get(f"{one}/tags/{made_id(n)}")
    yield f"{n} commits", POST_P + post(b"{}", COMMITS) * n + get(COMMITS) + LIST + get(f"{COMMITS}/{made_id(n)}")
    several = post(b'{"change":[%s]}' % b",".join([b'{"payload":{}}'] * n), COMMITS)
    yield f"{n} changes", POST_P + several + CHANGES + get(f"{COMMITS}/{made_id(2)}/changes/{made_id(n - 1)}")
    yield f"{n} projects", POST_P * n + get("/projects") + GONE * 2 + get("/projects")


def streams():
    """The name of each stream, and the stream or what draws it."""
    draws = random.Random(SEED)
    for group in (early_bytes, late_bytes, targets, cuts, doubled, long_heads, lengths, long_commits, long_lists, sessions):
        yield from group()
    for group in (mutated, noise, documents):
        yield from group(draws)


def check(program, name, stream):
    """Returns what is wrong with the program's run on this stream, if anything is."""
    stream = stream() if callable(stream) else stream
    try:
        ran = run(program, ("-", "once"), stream)
        responses, status, complaint = model.session(stream)
        check_responses(responses, ran)
        check_end(ran, status, complaint)
    except Wrong as why:
        return f"{name}, {stream[:200]!r}: {why}"
    return None


def check_share(program, number, of):
    """Checks each of-th stream from this number on; returns how many there are and what is wrong."""
    share = itertools.islice(streams(), number, None, of)
    found = [check(program, name, stream) for name, stream in share]
    return len(found), [it for it in found if it]


def main():
    program, started = program_named(), time.monotonic()
    workers = os.cpu_count() or 1
    with concurrent.futures.ProcessPoolExecutor(workers) as pool:
        shares = [pool.submit(check_share, program, number, workers) for number in range(workers)]
        done = [it.result() for it in shares]
    failures = [it for _, some in done for it in some]
    conclude("hostile", sum(count for count, _ in done), started, failures)


if __name__ == "__main__":
    main()
