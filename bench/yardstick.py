"""A yardstick for bench/once.py: reads the same requests, reads their JSON, and answers each by one write of fixed bytes.

It keeps nothing, checks nothing and looks nothing up, and each list has one member: what is left is the least that such a
server in Python does, with the fastest reader of JSON that is installed. It prints the seconds of processor time that it took,
without Python's start, on standard error; `--name` prints which reader it has.
"""

import os
import sys
import time

try:
    import orjson as reader
except ImportError:
    import json as reader


def answer(status, body):
    head = "Date: Sat, 01 Jan 2000 00:00:00 GMT\r\nContent-Type: application/json\r\nContent-Length: "
    return f"HTTP/1.1 {status}\r\n{head}{len(body)}\r\n\r\n{body}".encode()


PROJECT = (
    '{"@id":"00000000-0001-8000-8000-000000000000","@type":"Project","created":"2000-01-01T00:00:00.000Z",'
    '"defaultBranch":{"@id":"00000000-0001-8000-8000-000000000001"},"description":null,"name":"P"}'
)
COMMIT = (
    '{"@id":"00000000-0001-8000-8000-000000000002","@type":"Commit","created":"2000-01-01T00:00:00.000Z","description":null,'
    '"owningProject":{"@id":"00000000-0001-8000-8000-000000000000"},"previousCommit":null}'
)
BRANCH = (
    '{"@id":"00000000-0001-8000-8000-000000000003","@type":"Branch","created":"2000-01-01T00:00:00.000Z",'
    '"head":{"@id":"00000000-0001-8000-8000-000000000002"},"name":"x",'
    '"owningProject":{"@id":"00000000-0001-8000-8000-000000000000"},'
    '"referencedCommit":{"@id":"00000000-0001-8000-8000-000000000002"}}'
)
ELEMENT = '{"@id":"11111111-1111-4111-8111-000000000000","@type":"Package","declaredName":"A"}'
# by the method and the slashes of the path
ANSWERS = {
    (b"POST", 1): answer("201 Created", PROJECT),
    (b"GET", 2): answer("200 OK", PROJECT),
    (b"POST", 3): answer("201 Created", COMMIT),
    (b"GET", 3): answer("200 OK", f"[{BRANCH}]"),
    (b"GET", 4): answer("200 OK", BRANCH),
    (b"GET", 5): answer("200 OK", f"[{BRANCH}]"),
    (b"GET", 6): answer("200 OK", ELEMENT),
}

PIECE = 65536


def take(stream, at):
    """Answers the request at this place, and returns the place behind it, or None where it isn't whole."""
    end = stream.find(b"\r\n\r\n", at)
    if end < 0:
        return None
    first, *lines = stream[at:end].split(b"\r\n")
    method, target, _version = first.split(b" ")
    fields = dict(line.split(b": ", 1) for line in lines)
    start = end + 4
    behind = start + int(fields.get(b"Content-Length", 0))
    if behind > len(stream):
        return None
    if behind > start:
        reader.loads(stream[start:behind])
    os.write(1, ANSWERS[method, target.count(b"/")])
    return behind


def serve():
    kept = b""
    for piece in iter(lambda: os.read(0, PIECE), b""):
        stream, at = kept + piece, 0
        while True:
            behind = take(stream, at)
            if behind is None:
                break
            at = behind
        kept = stream[at:]


def main():
    if sys.argv[1:] == ["--name"]:
        print(f"Python {sys.version.split()[0]} with {reader.__name__}")
        return
    began = time.process_time()
    serve()
    print(time.process_time() - began, file=sys.stderr)


if __name__ == "__main__":
    main()
