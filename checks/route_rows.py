"""The worked rows of routes: which requests have one, and why the others are refused, in that order. rows.py runs them."""

from branch_rows import BRANCHES, COMMITS, MAKES_X, ONE, TAGS, list_commits
from commit_rows import FIRST, MAKES, NOTHING, PACKAGE_A, PROJECT
from common import bare, filed, response
from forms import (
    BAD_JSON,
    FOUND_P,
    GET_0,
    MADE_P,
    NO_ROUTE,
    POST_P,
    UNKNOWN_BRANCH,
    UNKNOWN_COMMIT,
    UNKNOWN_PROJECT,
    E,
    Row,
    bad_body,
    bad_id,
    bad_parameter,
    branch_record,
    commit,
    commit_record,
    created,
    deletes,
    filled,
    found,
    gets,
    listed,
    made,
    no_method,
    posts,
    project_record,
    puts,
    read,
    steps,
    tag_record,
)

NO_ROUTE_HEAD = response("404 Not Found", 36, "")

# the paths that are built, with the methods in the order in which they are told, and the keys of their parts that are ids
BUILT = (
    ("/projects", "GET, POST", ()),
    ("/projects/#0", "GET, PUT, DELETE", ("projectId",)),
    ("/projects/#0/branches", "GET, POST", ("projectId",)),
    ("/projects/#0/branches/#1", "GET, DELETE", ("projectId", "branchId")),
    ("/projects/#0/tags", "GET, POST", ("projectId",)),
    ("/projects/#0/tags/#5", "GET, DELETE", ("projectId", "tagId")),
    ("/projects/#0/commits", "GET, POST", ("projectId",)),
    ("/projects/#0/commits/#2", "GET", ("projectId", "commitId")),
    ("/projects/#0/commits/#2/changes", "GET", ("projectId", "commitId")),
    ("/projects/#0/commits/#2/changes/#3", "GET", ("projectId", "commitId", "changeId")),
    ("/projects/#0/commits/#2/elements/#4", "GET", ("projectId", "commitId", "elementId")),
)
METHODS = ("GET", "POST", "PUT", "DELETE", "PATCH", "OPTIONS", "TRACE", "CONNECT", "QUERY", "get", "Get", "GETS", "G")

# parts that are no ids' texts
NO_IDS = (
    "x", "-", ".", "..", "%20", "%", "0", "00000000000180008000000000000000", "{projectId}", "\u00e9", "*", "#",
    "00000000-0001-8000-8000-00000000000", "00000000-0001-8000-8000-0000000000000", "00000000-0001-8000-8000-00000000000g",
    "0000000-00001-8000-8000-000000000000", "00000000_0001_8000_8000_000000000000", "000000000001-8000-8000-000000000000",
    "{00000000-0001-8000-8000-000000000000}", "urn:uuid:00000000-0001-8000-8000-000000000000",
    "00000000-0001-8000-8000-00000000000\u0660",
    "%300000000-0001-8000-8000-000000000000", "00000000-0001-8000-8000-000000000000%20", "+00000000-0001-8000-8000-00000000000",
    "00000000-0001-8000-8000-000000000000;x", "00000000-0001-8000-8000-000000000000#", "-0000000-0001-8000-8000-000000000000",
)  # fmt: skip


def asks(method, path):
    return bare(method, filled(path))


def head_of(response_to_get):
    """What HEAD gets where GET would get this."""
    return response_to_get.split("{", 1)[0]


def worked():
    """Each kind of refusal once."""
    no_method = '{"@type":"Error","error":"no-method"}'
    bad_parameter = '{"@type":"Error","error":"bad-parameter","key":"branchId"}'
    written_out = [
        (gets(ONE), response("404 Not Found", 43, '{"@type":"Error","error":"unknown-project"}')),
        (gets("/project"), response("404 Not Found", 36, '{"@type":"Error","error":"no-route"}')),
        (asks("PATCH", "/projects"), response("405 Method Not Allowed", 37, no_method, "Allow: GET, POST")),
        (gets("/projects/x"), response("400 Bad Request", 52, '{"@type":"Error","error":"bad-id","key":"projectId"}')),
        (gets(COMMITS + "?branchId=x"), response("400 Bad Request", 58, bad_parameter)),
    ]
    yield steps("route refusals", *written_out, (gets("/projects"), response("200 OK", 2, "[]")))
    get = b"GET /projects HTTP/1.1\r\nHost: h\r\n\r\n"
    yield Row("a list twice in one piece", get + get, [response("200 OK", 2, "[]")] * 2)


def unrouted():
    """Paths without a route, whatever the method."""
    for path in (
        "/", "//", "/project", "/Projects", "/projects/", "//projects", "/projects//", "/projects#", "/%70rojects",
        ONE + "/", "/projects//commits", ONE + "/commits/", ONE + "//commits", ONE + "/Commits", ONE + "/commit",
        ONE + "/commits#x",
        ONE + "/branches/", ONE + "/branches/#1/", ONE + "/branches/#1/commits", ONE + "/tags/", ONE + "/tags/#5/x", ONE + "/x",
        COMMITS + "/#2/", COMMITS + "/#2/changes/", COMMITS + "/#2/changes/#3/", COMMITS + "/#2/changes/#3/identity",
        COMMITS + "//changes", COMMITS + "/#2/x", COMMITS + "//elements/#4", COMMITS + "/#2/elements//",
        COMMITS + "/#2/elements/#4/",
        COMMITS + "/#2/elements/#4/owner", "/" + COMMITS, "/projects/x/y", "/projects/x/y/z", "*", "projects", "?",
        "x/projects", "\u00e9",
        # not built yet
        COMMITS + "/#2/elements", COMMITS + "/#2/roots", COMMITS + "/#2/elements/#4/relationships", ONE + "/queries",
        ONE + "/queries/#5", ONE + "/queries/#5/results", ONE + "/query-results", "/meta", "/history",
    ):  # fmt: skip
        pairs = [(asks(method, path), NO_ROUTE) for method in ("GET", "POST", "PUT", "DELETE", "get", "PATCH")]
        pairs += [(asks("HEAD", path), NO_ROUTE_HEAD), (gets(path + "?branchId=x"), NO_ROUTE)]
        yield steps(f"no route: {path}", *FIRST, *pairs, (NOTHING, made("#5", "#2")))
    with_body = filed("POST", "/project", b"GET / HTTP/1.1\r\n\r\n")
    yield steps("no route, with a body that is read over", (with_body, NO_ROUTE), PROJECT)


def no_methods():
    """Paths with a route, and methods that they have not: the others are told. This comes before wrong ids."""
    for path, allowed, keys in BUILT:
        others = [it for it in METHODS if it not in allowed.split(", ")]
        paths = [path, path + "?branchId=x"] + ([path.replace("#0", "x"), path.replace("#", "x")] if keys else [])
        pairs = [(asks(method, it), no_method(allowed)) for it in paths for method in others]
        heads = [(asks("HEAD", it), head_of(no_method(allowed))) for it in paths]
        yield steps(f"no method on {path}", *FIRST, *pairs, *heads, (NOTHING, made("#5", "#2")))
    body = filed("PATCH", "/projects", b"POST /projects HTTP/1.1\r\n\r\n")
    yield steps("no method, with a body that is read over", (body, no_method("GET, POST")), PROJECT)
    body = filed("HEAD", "/projects", b"{")
    yield steps("HEAD with a body", (body, head_of(no_method("GET, POST"))), PROJECT)
    commits = (asks("POST", "/projects/commits"), no_method("GET, PUT, DELETE"))
    yield steps("parts of a path are taken as they are", (asks("PUT", "/projects/.."), bad_id("projectId")), commits)


def bad_ids():
    """Parts of a path that are no ids' texts: the first of them is told."""
    for path, allowed, keys in BUILT[1:]:
        parts = path.split("/")
        places = [place for place, part in enumerate(parts) if part.startswith("#")]
        pairs = []
        for key, place in zip(keys, places):
            one = "/".join([*parts[:place], "x", *parts[place + 1 :]])
            rest = "/".join([*parts[:place], *(("y" if it.startswith("#") else it) for it in parts[place:])])
            wrong = (one, rest, one + "?branchId=x&x")
            pairs += [(asks(method, it), bad_id(key)) for it in wrong for method in allowed.split(", ")]
        yield steps(f"bad ids on {path}", *FIRST, *pairs, (NOTHING, made("#5", "#2")))
    for text in NO_IDS:
        pairs = [(bare("GET", f"/projects/{text}"), bad_id("projectId"))]
        pairs.append((bare("DELETE", f"{filled(BRANCHES)}/{text}"), bad_id("branchId")))
        pairs.append((bare("GET", f"{filled(COMMITS)}/{text}/changes"), bad_id("commitId")))
        yield steps(f"no id's text: {text}", PROJECT, *pairs, (GET_0, FOUND_P))
    several = [(deletes(TAGS + "/x"), bad_id("tagId")), (deletes("/projects/x/tags/y"), bad_id("projectId"))]
    yield steps("a bad id before a project that isn't there", *several, (deletes(ONE), UNKNOWN_PROJECT))


def parameters():
    """The parameter branchId of commits, as forms write it, and all others, which are ignored."""
    one = "#1"
    for query in (
        "branchId=x", "branchId=", "branchId", "branchId=&", f"branchId={one}&branchId={one}", f"branchId={one}&branchId",
        "branchId=+",
        f"branchId={one}+", f"branchId=+{one}", f"branchId={one}%20", f"branchId={one}%00", f"branchId={one};x=1",
        f"branchId={one}#x",
        f"branchId={one}?", f"branchId=={one}", f"branchId=%22{one}%22", f"x&branchId={one}&y=2&branchId={one}", "branchId=%ff",
        f"branchId=x&branchId={one}", f"branch%49d={one}&branchId={one}", f"branchId={one}%", "branchId=\u00e9",
        f"branchId={{{one}}}",
        "branchId=00000000000180008000000000000001", f"branchId=urn:uuid:{one}", "branchId=null", "?&branchId=1",
        f"branchId={one},{one}",
    ):  # fmt: skip
        pairs = [(gets(f"{COMMITS}?{query}"), bad_parameter("branchId"))]
        pairs += [(commit(body, more=filled("?" + query)), bad_parameter("branchId")) for body in ("{}", "{")]
        yield steps(f"a bad parameter: {query}", *FIRST, *pairs, (NOTHING, made("#5", "#2")))
    upper = "00000000-0001-8000-8000-00000000000A"
    for query in (
        f"branchId={one}", f"x=1&branchId={one}&y", f"&&branchId={one}&", f"%62ranch%49d={one}",
        "branchId=%300000000-0001-8000-8000-000000000001", "branchId=00000000%2d0001%2D8000-8000-000000000001",
        f"b=branchId&branchId={one}",
        f"branchid=x&branchId={one}", f"branchId={one}&branchId%20=x", f"branchId={one}&+branchId=x",
        f"branchId={one}&branchId[]=x",
        f"branchId={one}&page[size]=x", f"branchId={one}&page[after]=&page[before]=&page%5Bsize%5D=0",
        f"branchId={one}&excludeUsed=x",
        f"branchId={one}&%ff=%ff", f"branchId={one}&commitId=x&commitId=x", f"branchId={one}&=x&=",
    ):  # fmt: skip
        pairs = [list_commits(commit_record("#2", None)), (gets(f"{COMMITS}?{query}"), listed(commit_record("#2", None)))]
        yield steps(f"a right parameter: {query}", *FIRST, *pairs, (commit("{}", more=filled("?" + query)), made("#5", "#2")))
    for query in (
        "", "?", "x", "branchid=x", "BRANCHID=x", "branchId[]=x", "branch-id=x&branchId+=x", "x=branchId", "%", "page[size]=0",
        "&=&",
    ):  # fmt: skip
        shown = (gets(f"{COMMITS}?{query}"), listed(commit_record("#2", None)))
        yield steps(f"no parameter: {query}", *FIRST, shown, (commit("{}", more="?" + query), made("#5", "#2")))
    for method, path, answer in (
        ("GET", "/projects", listed(project_record())),
        ("GET", ONE, FOUND_P),
        ("GET", BRANCHES, listed(branch_record("#1", "#2", "null"))),
        ("GET", BRANCHES + "/#1", found(branch_record("#1", "#2", "null"))),
        ("GET", TAGS, listed()),
        ("GET", COMMITS + "/#2", found(commit_record("#2", None))),
        ("GET", COMMITS + "/#2/elements/#4", PACKAGE_A),
        ("DELETE", ONE, FOUND_P),
    ):
        several = "?branchId=x&branchId=x&page[size]=x&page[size]=0&direction=up&excludeUsed=7&commitId"
        yield steps(f"parameters that {method} {path} doesn't take", *FIRST, (asks(method, path + several), answer))
    late = [(gets(COMMITS + "?branchId=" + upper), UNKNOWN_BRANCH), (commit("{}", more="?branchId=" + upper), UNKNOWN_BRANCH)]
    yield steps("a parameter in upper case", *FIRST, *late, (NOTHING, made("#5", "#2")))


def in_order():
    """Of several reasons the first is told: no route, no method, a bad id, a bad parameter, a bad body, the command's own."""
    several = "?branchId=x"
    pairs = [
        (posts("/projects/x/commit" + several, "{"), NO_ROUTE),
        (puts("/projects/x/commits" + several, "{"), no_method("GET, POST")),
        (posts("/projects/x/commits" + several, "{"), bad_id("projectId")),
        (posts(f"/projects/{E}/commits" + several, "{"), bad_parameter("branchId")),
        (posts(f"/projects/{E}/commits?branchId=" + E, "{"), BAD_JSON),
        (posts(f"/projects/{E}/commits?branchId=" + E, '{"change":7}'), bad_body("change")),
        (posts(f"/projects/{E}/commits?branchId=" + E, "{}"), UNKNOWN_PROJECT),
        (posts(COMMITS + "?branchId=" + E, '{"previousCommit":{"@id":"E"}}'), UNKNOWN_BRANCH),
        (gets(f"/projects/{E}/commits/x/changes/y"), bad_id("commitId")),
        (gets(f"/projects/{E}/commits/{E}/changes/y"), bad_id("changeId")),
        (gets(f"/projects/{E}/commits/{E}/changes/{E}"), UNKNOWN_PROJECT),
        (gets(f"{COMMITS}/{E}/changes/{E}"), UNKNOWN_COMMIT),
        (puts("/projects/x", "{"), bad_id("projectId")),
        (puts(f"/projects/{E}", "{"), BAD_JSON),
        (puts(f"/projects/{E}", '{"defaultBranch":{"@id":"E"}}'), UNKNOWN_PROJECT),
        (posts("/projects/x/branches", "{"), bad_id("projectId")),
        (posts(f"/projects/{E}/tags", "{}"), bad_body("taggedCommit")),
    ]
    yield steps("reasons in their order", PROJECT, *pairs, (GET_0, FOUND_P), (NOTHING, made("#2", None)))


def ignored_bodies():
    """GET and DELETE with bodies, of which nothing is taken."""
    for body in (b"{", b'{"name":7}', b"\xff\0", b"GET /projects HTTP/1.1\r\n\r\n", b"[" * 1000, b"x" * 100_000):
        several = [
            ("GET", "/projects", listed(project_record())),
            ("GET", ONE, FOUND_P),
            ("GET", COMMITS, listed(commit_record("#2", None))),
            ("GET", COMMITS + "/#2/elements/#4", PACKAGE_A),
            ("GET", "/projects/x", bad_id("projectId")),
            ("DELETE", BRANCHES + "/#5", found(branch_record("#5", "#2"))),
            ("DELETE", TAGS + "/#6", found(tag_record("#6", "#2"))),
            ("DELETE", ONE, FOUND_P),
        ]
        tagged = (posts(TAGS, '{"name":"v1","taggedCommit":{"@id":"#2"}}'), created(tag_record("#6", "#2")))
        pairs = [(filed(method, filled(path), body), answer) for method, path, answer in several]
        yield steps(f"a body that is ignored: {body[:24]!r}, {len(body)} bytes", *FIRST, MAKES_X, tagged, *pairs)


def absolute():
    """Targets with a scheme and an authority, and others that begin with no slash."""
    for before in (
        "http://h", "http://", "http://other:99", "http://user:pass@h:80", "http://[::1]:9000", "http://h%2f", "http://-",
        "http://\u00e9",
        "http://h\\x", "http://http:",
    ):  # fmt: skip
        pairs = [(gets(before + "/projects"), listed(project_record())), (gets(before + ONE + "?x=/y"), FOUND_P)]
        pairs.append((gets(before + COMMITS + "?branchId=x"), bad_parameter("branchId")))
        pairs += [(gets(before + "/projects/x"), bad_id("projectId")), (gets(before + "/project"), NO_ROUTE)]
        pairs.append((asks("PATCH", before + "/projects"), no_method("GET, POST")))
        pairs.append((gets(before + COMMITS + "/#2/elements/#4"), PACKAGE_A))
        pairs.append((posts(before + COMMITS + "?branchId=#1", "{}"), made("#5", "#2")))
        yield steps(f"an absolute target: {before}", *FIRST, *pairs)
    made_so = (POST_P.replace(b" /", b" http://h/", 1), MADE_P)
    yield steps("a project by an absolute target", made_so, MAKES, (read("#2", "#4"), PACKAGE_A))
    for target in (
        "http://", "http:///", "http://h", "http://h/", "http://h?", "http://h?x", "http://h?/projects", "http://h#/projects",
        "http://?/projects",
        "http://#/projects", "http://h//projects", "http://h/projects/", "http://h/projects#x", "http://h/http://h/projects",
        "HTTP://h/projects",
        "Http://h/projects", "https://h/projects", "http:/projects", "http:/h/projects", "http:projects", "http://projects",
        "httpx://h/projects",
        "ws://h/projects", "h/projects", "h:80/projects", "://h/projects", "//h/projects", "/http://h/projects",
        "ttp://h/projects", "http//h/projects",
    ):  # fmt: skip
        pairs = [(asks(method, target), NO_ROUTE) for method in ("GET", "POST", "PATCH")]
        yield steps(f"no route: {target}", *pairs, (asks("HEAD", target), NO_ROUTE_HEAD), PROJECT)
    for query in ("", "http://h/x", "?", "#/x", "/projects/x", "%", "\u00e9"):
        pairs = (gets("/projects?" + query), listed()), (posts("/projects?" + query, '{"name":"P"}'), MADE_P)
        yield steps(f"what follows the question mark: {query}", *pairs)


GROUPS = (worked, unrouted, no_methods, bad_ids, parameters, in_order, ignored_bodies, absolute)
