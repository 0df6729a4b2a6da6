"""The short forms in which the worked rows are written: a run, the requests, and the responses.

In a text `#` and hexadecimal digits stand for the id of that serial, and `"E"` for an identity of the client's own.
"""

import functools
import re

from common import (
    CREATED,
    Wrong,
    check_end,
    check_responses,
    commits_of,
    delete,
    element_at,
    get,
    made_id,
    post,
    put,
    response,
    run,
)

POST_P = b'POST /projects HTTP/1.1\r\nHost: h\r\nContent-Length: 12\r\n\r\n{"name":"P"}'
GET_0 = b"GET /projects/00000000-0001-8000-8000-000000000000 HTTP/1.1\r\nHost: h\r\n\r\n"

PROJECT_P = (
    '{"@id":"00000000-0001-8000-8000-000000000000","@type":"Project","created":"' + CREATED + '",'
    '"defaultBranch":{"@id":"00000000-0001-8000-8000-000000000001"},"description":null,"name":"P"}'
)
MADE_P = response("201 Created", 194, PROJECT_P)
FOUND_P = response("200 OK", 194, PROJECT_P)

BAD_JSON = response("400 Bad Request", 36, '{"@type":"Error","error":"bad-json"}')
NOT_WHOLE = response("400 Bad Request", 37, '{"@type":"Error","error":"not-whole"}')
TOO_DEEP = response("400 Bad Request", 36, '{"@type":"Error","error":"too-deep"}')
MULTIPLE_PREVIOUS = response("400 Bad Request", 45, '{"@type":"Error","error":"multiple-previous"}')
NO_ROUTE = response("404 Not Found", 36, '{"@type":"Error","error":"no-route"}')
UNKNOWN_PROJECT = response("404 Not Found", 43, '{"@type":"Error","error":"unknown-project"}')
UNKNOWN_BRANCH = response("404 Not Found", 42, '{"@type":"Error","error":"unknown-branch"}')
UNKNOWN_TAG = response("404 Not Found", 39, '{"@type":"Error","error":"unknown-tag"}')
UNKNOWN_COMMIT = response("404 Not Found", 42, '{"@type":"Error","error":"unknown-commit"}')
UNKNOWN_CHANGE = response("404 Not Found", 42, '{"@type":"Error","error":"unknown-change"}')
UNKNOWN_ELEMENT = response("404 Not Found", 43, '{"@type":"Error","error":"unknown-element"}')
DEFAULT_BRANCH = response("409 Conflict", 42, '{"@type":"Error","error":"default-branch"}')

E = "11111111-1111-4111-8111-111111111111"


class Row:
    """A run: its name, the bytes that it reads, what it must write and end with, and its words."""

    def __init__(self, name, stream, responses, *end, words=("-", "once"), reads_nothing=False):
        self.name, self.words = name, words
        self.stream, self.reads_nothing = stream, reads_nothing
        self.responses, self.end = responses, end or (0, "")

    def check(self, program):
        ran = run(program, self.words, self.stream)
        check_responses(self.responses, ran)
        check_end(ran, *self.end)
        if self.reads_nothing and ran.taken:
            raise Wrong(f"{ran.taken} bytes of standard input were read")


def steps(name, *pairs):
    """A run of requests, each with its response."""
    return Row(name, b"".join(asked for asked, _ in pairs), [answer for _, answer in pairs])


def filled(text):
    """A text with the ids that its short forms stand for."""
    return re.sub("#([0-9a-f]+)", lambda it: made_id(int(it[1], 16)), text).replace('"E"', f'"{E}"')


def answered(status, body):
    """A response with this body."""
    body = filled(body)
    return response(status, len(body.encode()), body)


def found(body):
    return answered("200 OK", body)


def created(body):
    return answered("201 Created", body)


def listed(*members):
    """The response with a page of these members."""
    return found("[" + ",".join(members) + "]")


def reference(identity):
    """A reference to this id, or null without one."""
    return '{"@id":"%s"}' % identity if identity else "null"


# records: where they take a name or a description, that is its text as a document


def project_record(number="#0", branch="#1", name='"P"', description="null"):
    return (
        f'{{"@id":"{number}","@type":"Project","created":"{CREATED}","defaultBranch":{reference(branch)},'
        f'"description":{description},"name":{name}}}'
    )


def branch_record(number, head, name='"x"', project="#0"):
    return (
        f'{{"@id":"{number}","@type":"Branch","created":"{CREATED}","head":{reference(head)},"name":{name},'
        f'"owningProject":{reference(project)},"referencedCommit":{reference(head)}}}'
    )


def tag_record(number, tagged, name='"v1"', project="#0"):
    return (
        f'{{"@id":"{number}","@type":"Tag","created":"{CREATED}","name":{name},"owningProject":{reference(project)},'
        f'"referencedCommit":{reference(tagged)},"taggedCommit":{reference(tagged)}}}'
    )


def commit_record(number, previous, project="#0", description="null"):
    return (
        f'{{"@id":"{number}","@type":"Commit","created":"{CREATED}","description":{description},'
        f'"owningProject":{reference(project)},"previousCommit":{reference(previous)}}}'
    )


def version_record(number, identity, shown):
    """The record of a data version, whose payload is shown by this text."""
    identity = f'{{"@id":"{identity}","@type":"DataIdentity"}}'
    return f'{{"@id":"{number}","@type":"DataVersion","identity":{identity},"payload":{shown}}}'


def made(number, previous, project="#0", description="null"):
    """The response with a new commit's record."""
    return created(commit_record(number, previous, project, description))


def wrong_key(error, key):
    return answered("400 Bad Request", '{"@type":"Error","error":"%s","key":"%s"}' % (error, key))


# each takes the key
bad_body = functools.partial(wrong_key, "bad-body")
bad_id = functools.partial(wrong_key, "bad-id")
bad_parameter = functools.partial(wrong_key, "bad-parameter")


def no_method(allow):
    """The response that tells these methods, one after another."""
    return response("405 Method Not Allowed", 37, '{"@type":"Error","error":"no-method"}', "Allow: " + allow)


def wrong_change(status, error, place):
    return answered(status, '{"@type":"Error","error":"%s","place":%d}' % (error, place))


# each takes the place
mismatch = functools.partial(wrong_change, "400 Bad Request", "identity-mismatch")
twice = functools.partial(wrong_change, "400 Bad Request", "identity-twice")
delete_unknown = functools.partial(wrong_change, "409 Conflict", "delete-unknown")
unknown_pin = functools.partial(wrong_change, "409 Conflict", "unknown-pin")


def head_moved(head):
    return answered("409 Conflict", '{"@type":"Error","error":"head-moved","head":%s}' % head)


def gets(path):
    """GET of a path in the short form; the next three have it too."""
    return get(filled(path))


def deletes(path):
    return delete(filled(path))


def posts(path, body):
    return post(filled(body).encode(), filled(path))


def puts(path, body):
    return put(filled(body).encode(), filled(path))


def commit(body, project="#0", more=""):
    """POST of a commit of a project, the first one where none is told, with more behind the path."""
    return post(filled(body).encode(), commits_of(filled(project)) + more)


def commit_of(*changes, branch=None):
    """POST of a commit of these changes, to the default branch where no other is told."""
    return commit('{"change":[%s]}' % ",".join(changes), more=filled(f"?branchId={branch}") if branch else "")


def change(identity, payload):
    """A change that gives its identity."""
    return '{"identity":{"@id":"%s"},"payload":%s}' % (identity, payload)


def payload(text):
    """A change of a payload alone."""
    return '{"payload":%s}' % text


def read(commit_id, identity, project="#0"):
    """GET of an element at a commit."""
    return get(filled(element_at(project, commit_id, identity)))
