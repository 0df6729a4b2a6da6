"""Each worked row of the program that is built so far, byte for byte, through its standard input and output.

The expected bytes are written out here from the documents, never from what the program answers. Only the moments may differ,
and common.py judges those. Usage: rows.py [PROGRAM]
"""

import os
import time

import branch_rows
import commit_rows
import page_rows
import route_rows
from common import (
    CREATED,
    CUT_SHORT,
    REFUSED,
    Run,
    Wrong,
    check_end,
    conclude,
    example,
    post,
    program_named,
    response,
)
from forms import (
    BAD_JSON,
    FOUND_P,
    GET_0,
    MADE_P,
    NO_ROUTE,
    NOT_WHOLE,
    POST_P,
    TOO_DEEP,
    UNKNOWN_PROJECT,
    Row,
    bad_body,
)

GET_1 = b"GET /projects/00000000-0001-8000-8000-000000000001 HTTP/1.1\r\nHost: h\r\n\r\n"

BAD_HEAD = response("400 Bad Request", 36, '{"@type":"Error","error":"bad-head"}', "Connection: close")
UNKNOWN_CODING = response("501 Not Implemented", 42, '{"@type":"Error","error":"unknown-coding"}', "Connection: close")

BAD_WORDS = "sysapi: bad words\n"
CANNOT_OPEN = "sysapi: cannot open\n"


def served():
    """What is served: projects, one after another, and what is answered where there is none."""
    yield Row("empty input", b"", [])
    yield Row("first project", POST_P + GET_0, [MADE_P, FOUND_P])
    yield Row("first project, from examples/", example("first-project.http"), [MADE_P, FOUND_P])
    yield Row("first project, without the GET", POST_P, [MADE_P])
    yield Row("a project that isn't there", GET_0, [UNKNOWN_PROJECT])
    yield Row("no such route", b"GET /project HTTP/1.1\r\nHost: h\r\n\r\n", [NO_ROUTE])
    yield Row("a branch's id is no project's", POST_P + GET_1 + GET_0, [MADE_P, UNKNOWN_PROJECT, FOUND_P])
    upper = b"GET /projects/0000000A-0001-8000-8000-00000000000A HTTP/1.1\r\nHost: h\r\n\r\n"
    yield Row("an id in upper case", upper + POST_P, [UNKNOWN_PROJECT, MADE_P])
    yield Row("a second project", POST_P + post(b'{"description":"D"}') + GET_0, [MADE_P, second_project(), FOUND_P])
    yield Row("a project without name and description", post(b"{}"), [bare_project()])


def second_project():
    body = (
        '{"@id":"00000000-0001-8000-8000-000000000002","@type":"Project","created":"' + CREATED + '",'
        '"defaultBranch":{"@id":"00000000-0001-8000-8000-000000000003"},"description":"D","name":null}'
    )
    return response("201 Created", 194, body)


def bare_project():
    body = (
        '{"@id":"00000000-0001-8000-8000-000000000000","@type":"Project","created":"' + CREATED + '",'
        '"defaultBranch":{"@id":"00000000-0001-8000-8000-000000000001"},"description":null,"name":null}'
    )
    return response("201 Created", 195, body)


def bodies():
    """Bodies that make no project; nothing of them is kept, and the session goes on."""
    lists = lambda deep: b"[" * deep + b"]" * deep
    for answer, several in (
        (BAD_JSON, NO_JSON),
        (TOO_DEEP, (b'{"x":' + lists(100) + b"}", lists(101), lists(127), b'{"x":1.5,"y":' + lists(126) + b"}")),
        (NOT_WHOLE, (b'{"x":1.5}', b'{"x":-0}', b'{"x":1e2}', b"[0.1]", b"-0", b'{"name":7,"x":[[{"y":1e-1}]]}',
                     b'{"x":18446744073709551616}', b'{"x":-9223372036854775809}')),
        (bad_body(""), (b"[]", b"null", b'"name"', b"7", b"false", b'[{"name":"P"}]', lists(100))),
        (bad_body("name"), (b'{"name":7}', b'{"name":["P"]}', b'{"description":7,"name":false}', b'{"name":"P","name":{}}')),
        (bad_body("description"), (b'{"description":false}', b'{"name":"P","description":{}}', b'{"description":[]}')),
    ):  # fmt: skip
        for body in several:
            yield Row(f"bad body {body[:24]!r}, {len(body)} bytes", post(body) + POST_P + GET_0, [answer, MADE_P, FOUND_P])
    for body in (
        b'{"name":"P"}', b' {"name" : "P"}\r\n', b'{"name":"P","description":null}', b'{"name":7,"name":"P"}',
        b'{"x":1.5,"x":1,"name":"P"}', b'{"name":"\\u0050"}', b'{"x":18446744073709551615,"y":-9223372036854775808,"name":"P"}',
        b'{"@id":"7","created":"then","name":"P"}', b'{"name":"P","x":' + lists(99) + b"}",
        b'{"x":' + lists(126) + b',"x":0,"name":"P"}',
    ):  # fmt: skip
        yield Row(f"good body {body[:24]!r}", post(body) + GET_0, [MADE_P, FOUND_P])


# bytes that are no text, or no JSON to a reader whose nesting ends at 127
NO_JSON = (
    b"", b"{", b'{"name":"P"}}', b'{"name":P}', b"{'name':'P'}", b'{"name":"P",}', b'{"name":"\xff"}', b'{"name":"\\ud800"}',
    b'{"name":"\x01"}', b'\xef\xbb\xbf{"name":"P"}', b"[" * 101, b"[" * 128 + b"]" * 128, b"[1.5", b'["\\udc00"]', b'"\\ud800"',
    b'{"x":' + b"[" * 127 + b"]" * 127 + b',"x":0}', b'{"x":1e400,"x":0}', b"[-0,]", b"[" * 101 + b"]" * 100,
)  # fmt: skip


def cut():
    """Streams whose last request isn't whole, or isn't what its length says."""
    yield Row("a length too short by one", post(b'{"name":"P"}', length=11), [BAD_JSON, BAD_HEAD], 6, REFUSED)
    for end in range(len(POST_P) - 12, len(POST_P)):
        yield Row(f"input that ends at byte {end}, inside the body", POST_P[:end], [], 6, CUT_SHORT)
    for end in range(1, len(POST_P) - 12):
        yield Row(f"input that ends at byte {end}, inside the head", POST_P[:end], [], 6, CUT_SHORT)
    yield Row("input that ends inside the second request", POST_P + GET_0[:-1], [MADE_P], 6, CUT_SHORT)
    yield Row("an empty line behind the last request", POST_P + b"\r\n", [MADE_P], 6, CUT_SHORT)
    yield Row("empty lines before a request", b"\r\n\n" + POST_P + b"\r\n" + GET_0, [MADE_P, FOUND_P])
    yield Row("lines that end in LF alone", GET_0.replace(b"\r", b"") + POST_P, [UNKNOWN_PROJECT, MADE_P])


def refused():
    """Requests that end the session: the answer says so, and what stands behind them is never answered."""
    for name, stream in (
        ("a byte that begins no head", b"}"),
        ("a control byte", b"\0" + POST_P),
        ("a line that is no request line", b"GET /projects\r\n"),
        ("another version", b"GET /projects HTTP/2.0\r\n"),
        ("a field without a colon", b"GET /projects HTTP/1.1\r\nHost\r\n"),
        ("a space before the colon", b"GET /projects HTTP/1.1\r\nHost : h\r\n"),
        ("a field that goes on in a second line", b"GET /projects HTTP/1.1\r\nHost: h\r\n x\r\n"),
        ("a target that is no UTF-8", b"GET /\xff HTTP/1.1\r\n"),
    ):
        yield Row(f"bad head: {name}", POST_P + stream + b"\r\n" + GET_0, [MADE_P, BAD_HEAD], 6, REFUSED)
    for name, stream in unbuilt():
        yield Row(f"not built: {name}", POST_P + stream + GET_0, [MADE_P, UNKNOWN_CODING], 6, REFUSED)


def unbuilt():
    """Forms of request that aren't built yet."""
    get = b"GET /project HTTP/1.1\r\n"
    yield "HTTP/1.0", b"GET /project HTTP/1.0\r\nHost: h\r\n\r\n"
    yield "no Host", get + b"\r\n"
    yield "two Hosts", get + b"Host: h\r\nHost: h\r\n\r\n"
    yield "65 fields", get + b"Host: h\r\n" + b"a: b\r\n" * 64 + b"\r\n"
    yield "a head of more than 16,384 bytes", get + b"Host: h\r\na: " + b"b" * 16384
    yield "Connection: close", get + b"Host: h\r\nConnection: close\r\n\r\n"
    yield "Connection: keep-alive, close", get + b"Host: h\r\nConnection: keep-alive, close\r\n\r\n"
    yield "two lengths", get + b"Host: h\r\nContent-Length: 0\r\nContent-Length: 0\r\n\r\n"
    yield "a length with a sign", get + b"Host: h\r\nContent-Length: +1\r\n\r\n1"
    yield "an empty length", get + b"Host: h\r\nContent-Length:\r\n\r\n"
    yield "a length above 67,108,864", get + b"Host: h\r\nContent-Length: 67108865\r\n\r\n"
    chunked = b'POST /projects HTTP/1.1\r\nHost: h\r\nTransfer-Encoding: chunked\r\n\r\n5\r\n{"nam\r\n7\r\ne":"P"}\r\n0\r\n\r\n'
    yield "a chunked body", chunked


def built():
    """Forms at the edge of those that are built."""
    for name, fields in (
        ("Connection: Keep-Alive", b"Connection: Keep-Alive\r\n"),
        ("64 fields", b"a: b\r\n" * 62),
        ("a Content-Type and an Expect", b"Content-Type: text/plain\r\nExpect: 100-continue\r\n"),
        ("a field without a value", b"X:\r\n"),
    ):
        yield Row(f"built: {name}", post(b'{"name":"P"}', head=fields) + GET_0, [MADE_P, FOUND_P])
    yield Row("built: a length with zeros before it", post(b'{"name":"P"}', length="000012"), [MADE_P])
    full = b"GET /project HTTP/1.1\r\nHost: h\r\na: "
    full += b"b" * (16384 - len(full) - 4) + b"\r\n\r\n"
    yield Row("built: a head of 16,384 bytes", full + POST_P, [NO_ROUTE, MADE_P])
    yield Row("built: a length of 67,108,864 whose body doesn't come", post(b"", length=67108864), [], 6, CUT_SHORT)


def words():
    """Words that the program has not: one line, a status, and nothing read."""
    for given in ((), ("-",), ("-", "Once"), ("-", "once", "once"), ("-", "once", ""), ("-", ""), ("-", "serve"),
                  ("-", "check", "check"), ("-", "check", "once"), ("-", "once", "check"), ("-", "check", "--room", "5"),
                  ("-", "--help"), ("-", "--", "once"), ("-", "once", "--room", "4096")):  # fmt: skip
        name = f"bad words: {' '.join(given) or 'none'}"
        yield Row(name, POST_P, [], 2, BAD_WORDS, words=given, reads_nothing=True)
    # (other first words are paths of files, which the checks of the journal try)
    for given in (("",), ("", "once"), ("", "check")):
        name = f"an empty first word: {' '.join(given)}"
        yield Row(name, POST_P, [], 1, CANNOT_OPEN, words=given, reads_nothing=True)
    yield Row("`check` of a new disk in memory", POST_P, [], 4, "sysapi: damaged at 0\n", words=("-", "check"), reads_nothing=True)


class Fault:
    """A run whose input or output fails: its name, what opens the file in its place, and the line that tells it."""

    def __init__(self, name, stdin, stdout, complaint):
        self.name, self.opens, self.complaint = name, (stdin, stdout), complaint

    def check(self, program):
        source, sink = [it() for it in self.opens]
        try:
            check_end(Run([program, "-", "once"], stdin=source, stdout=sink), 1, self.complaint)
        finally:
            os.close(source)
            os.close(sink)


def faults():
    """Files that the system refuses to read or to write."""
    folder = lambda: os.open("/", os.O_RDONLY)
    nothing = lambda: os.open(os.devnull, os.O_RDWR)
    yield Fault("input that can't be read", folder, nothing, "sysapi: read fault\n")
    yield Fault("output onto a full device", requests_in_pipe, lambda: os.open("/dev/full", os.O_WRONLY), "sysapi: write fault\n")
    yield Fault("output into a pipe that nobody reads", requests_in_pipe, pipe_without_reader, "sysapi: write fault\n")


def requests_in_pipe():
    """The end of a pipe that has the first project's requests."""
    reader, writer = os.pipe()
    os.write(writer, POST_P + GET_0)
    os.close(writer)
    return reader


def pipe_without_reader():
    reader, writer = os.pipe()
    os.close(reader)
    return writer


def main():
    program, started = program_named(), time.monotonic()
    rows, failures = [], []
    several = (*route_rows.GROUPS, *commit_rows.GROUPS, *branch_rows.GROUPS, *page_rows.GROUPS)
    for group in (served, bodies, *several, cut, refused, built, words, faults):
        rows += group()
    for row in rows:
        try:
            row.check(program)
        except Wrong as why:
            failures.append(f"{row.name}: {why}")
    conclude("rows", len(rows), started, failures)


if __name__ == "__main__":
    main()
