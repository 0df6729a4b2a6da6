"""The worked rows of commits, and of the one element that is read at each of them. rows.py runs them."""

from common import CREATED, example, post, response
from forms import (
    BAD_JSON,
    FOUND_P,
    GET_0,
    MADE_P,
    MULTIPLE_PREVIOUS,
    NOT_WHOLE,
    POST_P,
    TOO_DEEP,
    UNKNOWN_COMMIT,
    UNKNOWN_ELEMENT,
    UNKNOWN_PROJECT,
    E,
    Row,
    bad_body,
    change,
    commit,
    commit_of,
    created,
    delete_unknown,
    filled,
    found,
    head_moved,
    made,
    mismatch,
    payload,
    project_record,
    read,
    steps,
    twice,
    unknown_pin,
)

# each is a request and its response, and each goes on from those before
PROJECT = (POST_P, MADE_P)
MAKES = (
    commit('{"change":[{"payload":{"@type":"Package","declaredName":"A"}}],"previousCommit":null}'),
    made("#2", None),
)
REPLACES = (commit_of(change("#4", '{"@type":"Package","declaredName":"B"}')), made("#5", "#2"))
DELETES = (commit_of(change("#4", "null")), made("#7", "#5"))
FIRST = (PROJECT, MAKES)
THREE = (*FIRST, REPLACES, DELETES)

PACKAGE_A = found('{"@id":"#4","@type":"Package","declaredName":"A"}')
PACKAGE_B = found('{"@id":"#4","@type":"Package","declaredName":"B"}')

NOTHING = commit("{}")


def worked():
    """A Package that is made, replaced and deleted, which stays as it was at each commit."""
    made_2 = (
        '{"@id":"00000000-0001-8000-8000-000000000002","@type":"Commit","created":"' + CREATED + '","description":null,'
        '"owningProject":{"@id":"00000000-0001-8000-8000-000000000000"},"previousCommit":null}'
    )
    found_4 = '{"@id":"00000000-0001-8000-8000-000000000004","@type":"Package","declaredName":"A"}'
    written_out = [MADE_P, response("201 Created", 204, made_2), response("200 OK", 83, found_4)]
    yield Row("first commit", POST_P + MAKES[0] + read("#2", "#4"), written_out)
    old, new, gone = (read("#2", "#4"), PACKAGE_A), (read("#5", "#4"), PACKAGE_B), (read("#7", "#4"), UNKNOWN_ELEMENT)
    yield steps("element replaced", *FIRST, REPLACES, old, new)
    shown = [MADE_P, MAKES[1], REPLACES[1], PACKAGE_A, PACKAGE_B]
    yield Row("element replaced, from examples/", example("commit.http"), shown)
    yield steps("element deleted", *THREE, gone, new, old)
    stray = (commit_of(change("E", "null")), delete_unknown(0))
    yield steps("delete of an unknown", *THREE, stray, (NOTHING, made("#9", "#7")), (read("#9", E), UNKNOWN_ELEMENT), gone)
    again = (commit_of(change("#4", '{"x":1}')), made("#9", "#7"))
    yield steps("deleted and made again", *THREE, again, (read("#9", "#4"), found('{"@id":"#4","x":1}')), gone, new)
    two = [(NOTHING, made("#5", "#2")), (NOTHING, made("#6", "#5"))]
    yield steps("commits without changes", *FIRST, *two, (read("#6", "#4"), PACKAGE_A))
    nulls = '{"change":null,"description":null,"previousCommit":null,"x":{"y":[]}}'
    yield steps("null is as absent", *FIRST, (commit(nulls), made("#5", "#2")))
    told = commit('{"description":"\\u00e9\\n\\"","change":[]}')
    yield steps("a description", PROJECT, (told, made("#2", None, description='"\u00e9\\n\\""')), (GET_0, FOUND_P))


def identities():
    """Whose identity a payload gets, and which serials are drawn."""
    given, own = change("E", "{}"), payload('{"@id":"E"}')
    for both in ((given, given), (given, own), (own, given), (own, own)):
        yield steps(f"one identity twice: {both}", *THREE, (commit_of(*both), twice(1)), (NOTHING, made("#9", "#7")))
    yield steps("two identities of one change", *THREE, (commit_of(change("E", '{"@id":"#4"}')), mismatch(0)))
    three = (commit_of(payload("{}"), change("#4", "{}"), payload("{}")), made("#2", None))
    there = [(read("#2", it), found('{"@id":"%s"}' % it)) for it in ("#5", "#4", "#8")]
    not_there = [(read("#2", it), UNKNOWN_ELEMENT) for it in ("#3", "#6", "#7", "#2", "#1")]
    yield steps("an identity passed over", PROJECT, three, *there, *not_there, (NOTHING, made("#9", "#2")))
    row = commit_of(payload("{}"), change("#6", "{}"), payload('{"@id":"#4"}'), change("#5", "{}"))
    passed = [(row, made("#2", None)), passes("#2", "#7"), (NOTHING, made("#b", "#2"))]
    yield steps("three identities passed over", PROJECT, *passed)
    plain = commit_of(payload("{}"))
    named = (commit_of(change("#6", "{}")), made("#2", None))
    passed = [(plain, made("#4", "#2")), passes("#4", "#7"), (NOTHING, made("#8", "#4"))]
    yield steps("an identity of an earlier commit", PROJECT, named, *passed)
    named, gone = (commit_of(change("#8", "{}")), made("#2", None)), (commit_of(change("#8", "null")), made("#4", "#2"))
    passed = [(plain, made("#6", "#4")), passes("#6", "#9"), (NOTHING, made("#a", "#6"))]
    yield steps("a deleted identity", PROJECT, named, gone, *passed)
    other = (commit('{"change":[{"payload":{}}]}', "#2"), made("#6", None, "#2"))
    ours = (commit_of(change("#8", '{"n":1}')), made("#4", None))
    reads = [(read("#4", "#8"), found('{"@id":"#8","n":1}')), (read("#6", "#8", "#2"), found('{"@id":"#8"}'))]
    yield steps("an identity of another project", PROJECT, (POST_P, second_project()), ours, other, *reads)
    refused = (commit_of(change("#4", "{}"), change("#4", "{}")), twice(1))
    yield steps("an identity of a refused commit", PROJECT, refused, MAKES, (read("#2", "#4"), PACKAGE_A))
    for other in ("#0", "#1", "#2", "#3", "#4"):
        named = [(commit_of(change(other, "{}")), made("#2", None)), passes("#2", other)]
        yield steps(f"an identity like another record's, {other}", PROJECT, *named, (NOTHING, made("#4", "#2")))
    upper, lower = "AAAAAAAA-BBBB-4CCC-8DDD-EEEEEEEEEEEE", "aaaaaaaa-bbbb-4ccc-8ddd-eeeeeeeeeeee"
    shown = [(read("#2", it), found('{"@id":"%s"}' % lower)) for it in (upper, lower)]
    for text in (change(upper, "{}"), change(upper, '{"@id":"%s"}' % lower), payload('{"@id":"%s"}' % upper)):
        yield steps(f"an identity in upper case, {text}", PROJECT, (commit_of(text), made("#2", None)), *shown)
    both = commit_of(change(upper, "{}"), payload('{"@id":"%s"}' % lower))
    yield steps("one identity in both cases", PROJECT, (both, twice(1)))


def passes(at, identity):
    """An empty payload got this identity."""
    return read(at, identity), found('{"@id":"%s"}' % identity)


def second_project():
    return created(project_record("#2", "#3"))


def previous():
    """Which previous commits are right; the branch's head is #7, or null in a new project."""
    for text, answer in (
        ('{"@id":"#2"}', head_moved('{"@id":"#7"}')),
        ('[{"@id":"#5"}]', head_moved('{"@id":"#7"}')),
        ('{"@id":"E"}', head_moved('{"@id":"#7"}')),
        ('[{"@id":"#7"},{"@id":"#5"}]', MULTIPLE_PREVIOUS),
        ('[{"@id":"#7"},{"@id":"#7"}]', MULTIPLE_PREVIOUS),
        ('[{"@id":"#7"}]', made("#9", "#7")),
        ('{"@type":"Commit","@id":"#7"}', made("#9", "#7")),
        ("[]", made("#9", "#7")),
        ("null", made("#9", "#7")),
    ):
        yield steps(f"previous commit {text}", *THREE, (commit('{"previousCommit":%s}' % text), answer))
    for text in ('{"@id":"#1"}', '{"@id":"#2"}'):
        new = (commit('{"previousCommit":%s}' % text), head_moved("null"))
        yield steps(f"previous commit {text} of none", PROJECT, new, (NOTHING, made("#2", None)))


def refusals():
    """Commits that are refused: the first row of the table is told, at its least place, and nothing changes."""
    usage, both, none = payload('{"@type":"ProjectUsage"}'), change("E", '{"@id":"#4"}'), change("#9", "null")
    given = change("E", "{}")
    for name, changes, answer in (
        ("neither identity nor payload", ["{}"], delete_unknown(0)),
        ("a null payload without identity", ['{"identity":null,"payload":null}'], delete_unknown(0)),
        ("a delete of what was deleted", [change("#4", "null")], delete_unknown(0)),
        ("a delete of a commit's id", [given, change("#2", "null")], delete_unknown(1)),
        ("two deletes of unknowns", [given, none, change("#a", "null")], delete_unknown(1)),
        ("a mismatch behind one identity twice", [given, given, both], mismatch(2)),
        ("two mismatches", [given, both, both], mismatch(1)),
        ("one identity twice behind a delete of an unknown", [none, given, given, given], twice(2)),
        ("one delete twice", [none, none], twice(1)),
        ("a delete of an unknown behind a usage", [usage, none], delete_unknown(1)),
        ("a usage", [usage], unknown_pin(0)),
        ("two usages", [given, usage, usage], unknown_pin(1)),
        ("a usage of a commit", [payload('{"@type":"ProjectUsage","usedCommit":{"@id":"#2"}}')], unknown_pin(0)),
    ):
        yield steps(f"refused: {name}", *THREE, (commit_of(*changes), answer), (NOTHING, made("#9", "#7")))
    wrong = '{"change":[%s,%s],"previousCommit":%s}'
    several = commit(wrong % (none, both, '[{"@id":"E"},{"@id":"E"}]'))
    yield steps("refused: several previous commits first", *THREE, (several, MULTIPLE_PREVIOUS))
    moved = commit(wrong % (none, both, '{"@id":"E"}'))
    yield steps("refused: a moved head next", *THREE, (moved, head_moved('{"@id":"#7"}')))
    for project in ("#1", "#2", "#4"):
        stray = commit(wrong % (none, both, '[{"@id":"E"},{"@id":"E"}]'), project)
        yield steps(f"refused: a project {project}", *FIRST, (stray, UNKNOWN_PROJECT), (NOTHING, made("#5", "#2")))
    shape = (commit('{"change":7}'), bad_body("change"))
    yield steps("refused: a project, behind a wrong body", shape, (NOTHING, UNKNOWN_PROJECT))


def reads():
    """Elements that are there, and those that aren't."""
    for name, asked, answer in (
        ("no such commit", read(E, "#4"), UNKNOWN_COMMIT),
        ("a data version is no commit", read("#3", "#4"), UNKNOWN_COMMIT),
        ("no such identity", read("#5", E), UNKNOWN_ELEMENT),
        ("no such project", read("#2", "#4", "#1"), UNKNOWN_PROJECT),
        ("neither project nor commit", read(E, E, E), UNKNOWN_PROJECT),
        ("neither commit nor element", read(E, E), UNKNOWN_COMMIT),
        ("a query part", read("#2", "#4").replace(b" HTTP", b"?excludeUsed=x&&?/ HTTP"), PACKAGE_A),
        ("a body", read("#2", "#4").replace(b"\r\n\r\n", b"\r\nContent-Length: 1\r\n\r\n{"), PACKAGE_A),
        ("a length of 0", read("#2", "#4").replace(b"\r\n\r\n", b"\r\nContent-Length: 0\r\n\r\n"), PACKAGE_A),
    ):
        yield steps(f"read: {name}", *FIRST, REPLACES, (asked, answer), (read("#2", "#4"), PACKAGE_A))
    two = [PROJECT, (POST_P, second_project()), (commit("{}", "#2"), made("#4", None, "#2"))]
    strays = [(read("#4", "#4"), UNKNOWN_COMMIT), (read("#4", "#4", "#2"), UNKNOWN_ELEMENT)]
    yield steps("read: another project's commit", *two, *strays)
    later = (commit_of(change("E", "{}")), made("#5", "#2"))
    yield steps("read: before it was made", *FIRST, later, (read("#2", E), UNKNOWN_ELEMENT), passes("#5", E))
    to_a = [(NOTHING, made("#2", None))] + [(NOTHING, made(f"#{it + 1:x}", f"#{it:x}")) for it in range(2, 10)]
    upper = read("#b", "#d").replace(b"000b", b"000B").replace(b"000d", b"000D")
    last = (commit_of(payload("{}")), made("#b", "#a"))
    yield steps("read: ids in upper case", PROJECT, *to_a, last, (upper, found('{"@id":"#d"}')))
    for kind in ("ExternalData", "ExternalRelationship"):
        stored = commit_of(change("E", '{"@type":"%s"}' % kind))
        hidden = [(stored, made("#2", None)), (read("#2", E), UNKNOWN_ELEMENT)]
        gone = [(commit_of(change("E", "null")), made("#4", "#2")), (read("#4", E), UNKNOWN_ELEMENT)]
        yield steps(f"read: {kind} is no element, but is deleted", PROJECT, *hidden, *gone)
        turned = commit_of(change("E", '{"@type":"x"}'))
        shown = (read("#4", E), found('{"@id":"E","@type":"x"}'))
        yield steps(f"read: {kind} that becomes an element", PROJECT, *hidden, (turned, made("#4", "#2")), shown, hidden[1])
    for kind in ("null", "7", '""', '"Externaldata"', '["ProjectUsage"]', '{"x":"ExternalData"}', '"ProjectUsage "'):
        body = '{"@id":"E","@type":%s}' % kind
        stored = (commit_of(payload(body)), made("#2", None))
        yield steps(f"read: of the type {kind}", PROJECT, stored, (read("#2", E), found(body)))


def shapes():
    """Bodies that are documents and make no commit: the first wrong key is told."""
    for body, key in (
        ("[]", ""), ("null", ""), ('"change"', ""), ("7", ""), ("[{}]", ""), ("true", ""),
        ('{"change":1}', "change"), ('{"change":{}}', "change"), ('{"change":""}', "change"), ('{"change":[1]}', "change"),
        ('{"change":[{},null]}', "change"), ('{"change":[{},[]]}', "change"), ('{"change":false}', "change"),
        ('{"change":[{"identity":7},7]}', "change"), ('{"change":[{}],"change":7}', "change"),
        ('{"change":[{"identity":"E"}]}', "identity"), ('{"change":[{"identity":{}}]}', "identity"),
        ('{"change":[{"identity":{"@id":null}}]}', "identity"), ('{"change":[{"identity":{"@id":"x"}}]}', "identity"),
        ('{"change":[{"identity":[{"@id":"E"}]}]}', "identity"), ('{"change":[{"payload":7,"identity":false}]}', "identity"),
        ('{"change":[{"payload":7}]}', "payload"), ('{"change":[{"payload":[]}]}', "payload"),
        ('{"change":[{"payload":""}]}', "payload"), ('{"change":[{"payload":false}]}', "payload"),
        ('{"change":[{"payload":7},{"identity":7}]}', "payload"), ('{"change":[{},{"payload":{}},{"payload":0}]}', "payload"),
        ('{"change":[{"payload":{"@id":null}}]}', "@id"), ('{"change":[{"payload":{"@id":7}}]}', "@id"),
        ('{"change":[{"payload":{"@id":{"@id":"E"}}}]}', "@id"), ('{"change":[{"payload":{"@id":""}}]}', "@id"),
        ('{"change":[{"payload":{"@id":"11111111111141118111111111111111"}}]}', "@id"),
        ('{"change":[{"payload":{"@id":"{11111111-1111-4111-8111-111111111111}"}}]}', "@id"),
        ('{"change":[{"payload":{"@id":"urn:uuid:11111111-1111-4111-8111-111111111111"}}]}', "@id"),
        ('{"change":[{"payload":{"@id":"11111111-1111-4111-8111-11111111111g"}}]}', "@id"),
        ('{"change":[{"payload":{"@id":"11111111-1111-4111-8111-11111111111"}}],"description":7}', "@id"),
        ('{"change":[{"identity":{"@id":"E"},"payload":{"@id":7}},{"identity":7}]}', "@id"),
        ('{"description":7,"previousCommit":7}', "description"), ('{"description":{}}', "description"),
        ('{"description":[],"change":[]}', "description"), ('{"description":false}', "description"),
        ('{"previousCommit":7}', "previousCommit"), ('{"previousCommit":"E"}', "previousCommit"),
        ('{"previousCommit":{}}', "previousCommit"), ('{"previousCommit":[null]}', "previousCommit"),
        ('{"previousCommit":[{"@id":"E"},7]}', "previousCommit"), ('{"previousCommit":[[]]}', "previousCommit"),
        ('{"previousCommit":[{"@id":"E"},{"@id":"E"},{"@id":""}]}', "previousCommit"),
        ('{"previousCommit":{"@id":7},"change":[{}]}', "previousCommit"),
        ('{"change":[{"identity":{"@id":"E"}}],"previousCommit":false}', "previousCommit"),
    ):  # fmt: skip
        yield steps(f"bad body {body}", PROJECT, (commit(body), bad_body(key)), MAKES)


def documents():
    """Commits whose bodies are no documents, and documents that are stored and shown to the byte."""
    yield steps("a body that is cut", PROJECT, (commit("{"), BAD_JSON), (commit(""), BAD_JSON), MAKES)
    no_text = post(b'{"change":[{"payload":{"x":"\xff"}}]}', filled("/projects/#0/commits"))
    yield steps("a body that is no UTF-8", PROJECT, (no_text, BAD_JSON), MAKES)
    for answer, numbers in (
        (NOT_WHOLE, ("1.5", "-0", "1e2", "1E0", "0.0", "18446744073709551616", "-9223372036854775809", "1e308")),
        (BAD_JSON, ("1e400", "1" * 400, "01", "+1", "1.", ".5", "NaN", "-", "0x1")),
    ):
        for number in numbers:
            yield steps(f"the number {number}", PROJECT, (commit_of(payload('{"value":%s}' % number)), answer), MAKES)
    for number in ("18446744073709551615", "-9223372036854775808", "0", "9223372036854775808", "-1"):
        stored = (commit_of(payload('{"value":%s}' % number)), made("#2", None))
        yield steps(f"the number {number}", PROJECT, stored, (read("#2", "#4"), found('{"@id":"#4","value":%s}' % number)))
    for deep in (2, 50, 97):
        stored = (commit_of(payload(nested(deep))), made("#2", None))
        shown = nested(deep).replace("{", '{"@id":"#4",', 1)
        yield steps(f"a payload of depth {deep}", PROJECT, stored, (read("#2", "#4"), found(shown)))
    for deep, answer in ((98, TOO_DEEP), (100, TOO_DEEP), (101, TOO_DEEP), (124, TOO_DEEP), (125, BAD_JSON), (1000, BAD_JSON)):
        lists = '{"x":%s%s}' % ("[" * (deep - 1), "]" * (deep - 1))
        for kind, text in (("objects", nested(deep)), ("lists", lists)):
            yield steps(f"a payload of depth {deep}, {kind}", PROJECT, (commit_of(payload(text)), answer), MAKES)
    for deep, answer in ((100, bad_body("")), (101, TOO_DEEP), (127, TOO_DEEP), (128, BAD_JSON)):
        yield steps(f"{deep} lists as the whole body", PROJECT, (commit("[" * deep + "]" * deep), answer), MAKES)
    hundred = "[" * 98 + "]" * 98
    counts = commit_of(payload('{"x":%s,"x":1.5,"x":1}' % hundred))
    shown = (read("#2", "#4"), found('{"@id":"#4","x":1}'))
    yield steps("the last value of a key counts alone", PROJECT, (counts, made("#2", None)), shown)
    both = commit_of(payload('{"y":1.5,"x":%s}' % hundred))
    yield steps("too deep and not whole", PROJECT, (both, TOO_DEEP), MAKES)
    for body in ("[1.5]", '{"change":-0}'):
        yield steps(f"not whole and of a wrong shape: {body}", PROJECT, (commit(body), NOT_WHOLE), MAKES)
    for given, shown in STORED:
        stored = (commit_of(change("E", given)), made("#2", None))
        yield steps(f"stored: {given[:40]!r}", PROJECT, stored, (read("#2", E), found(shown)))


def nested(deep):
    """The text of an object of this depth."""
    return '{"x":' * (deep - 1) + "{}" + "}" * (deep - 1)


# payloads as they are given with the identity E, and as they are shown
STORED = (
    ("{}", '{"@id":"E"}'),
    (' { "b" : [ 1 , { "d" : { } , "c" : [ ] } ] ,\n"a":null,\t"@id":"E"}', '{"@id":"E","a":null,"b":[1,{"c":[],"d":{}}]}'),
    ('{"a":1,"a":2,"b":true,"a":{"a":false}}', '{"@id":"E","a":{"a":false},"b":true}'),
    ('{"z":1,"A":2,"a":3,"":4,"@":5,"@ida":6,"!":7}', '{"":4,"!":7,"@":5,"@id":"E","@ida":6,"A":2,"a":3,"z":1}'),
    ('{"\U0001f600":1,"\uffff":2,"\u00e9":3,"e":4}', '{"@id":"E","e":4,"\u00e9":3,"\uffff":2,"\U0001f600":1}'),
    ('{"\\ud83d\\ude00":"\\u00e9\\/\\u007f"}', '{"@id":"E","\U0001f600":"\u00e9/\x7f"}'),
    ('{"x":"\\b\\f\\n\\r\\t\\"\\\\\\u0000\\u001F"}', '{"@id":"E","x":"\\b\\f\\n\\r\\t\\"\\\\\\u0000\\u001f"}'),
    ('{"\\u0001\\n":"\u2028"}', '{"\\u0001\\n":"\u2028","@id":"E"}'),
    ('{"created":"","owner":null,"ownedElement":[7]}', '{"@id":"E","created":"","ownedElement":[7],"owner":null}'),
    ('{"x":{"@id":"AAAAAAAA-0000-4000-8000-00000000000A"}}', '{"@id":"E","x":{"@id":"AAAAAAAA-0000-4000-8000-00000000000A"}}'),
)

GROUPS = (worked, identities, previous, refusals, reads, shapes, documents)
