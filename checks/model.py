"""What the program answers to a stream of bytes, said once more in plain Python, for streams that nobody wrote down.

It judges the whole stream at once, by regular expressions, where the program reads pieces. Bodies are read by documents.py.
It has no clock: its responses have common.py's marks where moments stand.
"""

import re
from urllib.parse import unquote_plus

from common import CREATED, CUT_SHORT, REFUSED, made_id, response
from documents import (
    BAD_REQUEST,
    Refusal,
    branch_asked,
    commit_asked,
    id_of,
    project_asked,
    tag_asked,
    update_asked,
    written,
)

HEAD_MOST = 16_384
FIELDS_MOST = 64
BODY_MOST = 67_108_864

# RFC 9112, sections 3 and 5, with lines that may end in LF alone, and empty lines before the request line
BLANK = rb"(?:\r?\n)*"
TOKEN = rb"[!#$%&'*+.^_`|~0-9A-Za-z-]+"
LINE = rb"(" + TOKEN + rb") ([\x21-\x7e\x80-\xff]+) HTTP/1\.([01])\r?\n"
FIELD = TOKEN + rb":[\t\x20-\x7e\x80-\xff]*\r?\n"
HEAD = re.compile(BLANK + LINE + rb"((?:" + FIELD + rb")*)\r?\n")
# what begins a head: bytes before its first space, and lines that are whole
BEFORE_SPACE = re.compile(BLANK + rb"(?:\r|(?:" + TOKEN + rb")?)")
WHOLE_LINES = re.compile(BLANK + rb"(?:" + LINE + rb"(?:" + FIELD + rb")*)?")


class Request:
    def __init__(self, method, target, body):
        self.method = method
        self.target = target
        self.body = body


def is_text(data):
    try:
        data.decode("utf-8")
    except UnicodeDecodeError:
        return False
    return True


def head_of(window):
    """The head that stands at the start of these bytes, as a match, where one does."""
    head = HEAD.match(window)
    return head if head and is_text(head[2]) else None


def begins_a_head(window):
    """Whether bytes with no whole head can still become one: judged before the first space, and at each line's end."""
    lines = WHOLE_LINES.fullmatch(window[: window.rfind(b"\n") + 1])
    line_is_right = lines and (lines[2] is None or is_text(lines[2]))
    return line_is_right and BEFORE_SPACE.fullmatch(window.split(b" ", 1)[0])


def body_length(head):
    """The length of the body behind a whole head, or None where this form of request isn't built."""
    fields = [line.split(b":", 1) for line in head[4].split(b"\n")[:-1]]
    fields = [(name.lower(), value.strip(b" \t\r")) for name, value in fields]
    values = lambda name: [value for other, value in fields if other == name]
    lengths = values(b"content-length")
    is_built = (
        len(fields) <= FIELDS_MOST
        and head[3] == b"1"
        and len(values(b"host")) == 1
        and not values(b"transfer-encoding")
        and all(it.lower() == b"keep-alive" for it in values(b"connection"))
        and len(lengths) <= 1
        and all(re.fullmatch(rb"[0-9]+", it) and is_within(it) for it in lengths)
    )
    if not is_built:
        return None
    return int(lengths[0]) if lengths else 0


def is_within(digits):
    digits = digits.lstrip(b"0")
    return len(digits) <= 8 and int(digits or b"0") <= BODY_MOST


def front(stream, at):
    """What stands at this place: a request and the place behind it, the text of an error, or None where it isn't whole."""
    window = stream[at : at + HEAD_MOST]
    head = head_of(window)
    if head:
        length = body_length(head)
        if length is None:
            return "unknown-coding"
        start = at + head.end()
        if start + length > len(stream):
            return None
        return Request(head[1], head[2].decode("utf-8"), stream[start : start + length]), start + length
    if not begins_a_head(window):
        return "bad-head"
    return "unknown-coding" if len(window) == HEAD_MOST else None


def told(status, body, *more):
    return response(status, len(body.encode("utf-8")), body, *more)


def shown(record):
    """The text of a record, whose `created` is the moment of the request that made it."""
    return written({**record, "created": ""}).replace('"created":""', f'"created":"{CREATED}"', 1)


def made(record):
    return told("201 Created", shown(record))


def found(record):
    return told("200 OK", shown(record))


def listed(texts):
    """The page of these members, each a text."""
    return told("200 OK", "[" + ",".join(texts) + "]")


def reference(identity):
    return identity and {"@id": identity}


class Commit:
    """A commit: its record, the one before it, and its data versions, whose payload is None where they delete."""

    def __init__(self, record, previous, versions):
        self.record = record
        self.previous = previous
        self.versions = {it["@id"]: it for it in versions}
        self.payloads = {it["identity"]["@id"]: it["payload"] for it in versions}

    def ancestry(self):
        """This commit, and the ones before it."""
        it = self
        while it:
            yield it
            it = it.previous

    def own(self, identity):
        """The payload of an identity by the last change of it down the ancestry, or None."""
        return next((it.payloads[identity] for it in self.ancestry() if identity in it.payloads), None)


class Branch:
    """A branch: its record but for the head, and the commit that is its head, or None."""

    def __init__(self, record, head):
        self.fixed = record
        self.head = head

    def head_id(self):
        return self.head and self.head.record["@id"]

    @property
    def record(self):
        head = reference(self.head_id())
        return {**self.fixed, "head": head, "referencedCommit": head}

    def own(self, identity):
        """The own value of an identity at the head."""
        return self.head and self.head.own(identity)


class Project:
    """A project: its record, its branches, commits and records of tags by id, and all identities of its changes."""

    def __init__(self, record):
        self.record = record
        self.branches, self.tags, self.commits = {}, {}, {}
        self.identities = set()

    def default_branch(self):
        return self.record["defaultBranch"]["@id"]

    def branch(self, asked):
        return known(self.branches, asked, "unknown-branch")

    def tag(self, asked):
        return known(self.tags, asked, "unknown-tag")

    def commit(self, asked):
        return known(self.commits, asked, "unknown-commit")


def known(several, asked, error):
    """The one with this id, which must be there."""
    if asked not in several:
        raise Refusal("404 Not Found", error)
    return several[asked]


def in_order(several):
    """All of these, in the order of their ids."""
    return [several[it] for it in sorted(several)]


def judge(asked, branch):
    """Refuses a commit by the first row that holds, a row of the changes at its least place."""
    if len(asked.previous) > 1:
        raise Refusal(BAD_REQUEST, "multiple-previous")
    if asked.previous and asked.previous[0] != branch.head_id():
        raise Refusal("409 Conflict", "head-moved", head=reference(branch.head_id()))
    identities = [change.identity for change in asked.changes]
    rows = [
        (BAD_REQUEST, "identity-mismatch", lambda _, it: it.given and it.own and it.given != it.own),
        (BAD_REQUEST, "identity-twice", lambda place, it: it.identity and it.identity in identities[:place]),
        ("409 Conflict", "delete-unknown", lambda _, it: it.payload is None and branch.own(it.identity) is None),
        ("409 Conflict", "unknown-pin", lambda _, it: it.payload and it.payload.get("@type") == "ProjectUsage"),
    ]
    for status, text, holds in rows:
        for place, change in enumerate(asked.changes):
            if holds(place, change):
                raise Refusal(status, text, place=place)


class Repository:
    """The projects of a repository of this number, and the next serial. A call takes the request, and the ids of its path."""

    def __init__(self, number=1):
        self.number = number
        self.projects = {}
        self.serial = 0

    def draw(self, taken=()):
        """A new id, of the least serial from the next one on whose id isn't taken."""
        while made_id(self.serial, self.number) in taken:
            self.serial += 1
        self.serial += 1
        return made_id(self.serial - 1, self.number)

    def answer(self, request):
        try:
            call, *ids = routed(request)
            return call(self, request, *ids)
        except Refusal as why:
            refused = told(why.status, why.body, *why.lines)
            # (a response to HEAD has no body)
            return refused.split("{", 1)[0] if request.method == b"HEAD" else refused

    def project(self, asked):
        return known(self.projects, asked, "unknown-project")

    def all_projects(self, _):
        return listed(shown(it.record) for it in in_order(self.projects))

    def make_project(self, request):
        name, description = project_asked(request.body)
        record = {"@id": self.draw(), "@type": "Project", "defaultBranch": {"@id": self.draw()}}
        record.update(description=description, name=name)
        project = self.projects[record["@id"]] = Project(record)
        self.add_branch(project, project.default_branch(), None, None)
        return made(record)

    def one_project(self, _, asked):
        return found(self.project(asked).record)

    def update_project(self, request, asked):
        name, description, branch = update_asked(request.body)
        project = self.project(asked)
        if branch:
            project.branch(branch)
            project.record["defaultBranch"] = {"@id": branch}
        project.record.update(description=description, name=name)
        return found(project.record)

    def delete_project(self, _, asked):
        gone = found(self.project(asked).record)
        del self.projects[asked]
        return gone

    def all_branches(self, _, asked):
        return listed(shown(it.record) for it in in_order(self.project(asked).branches))

    def add_branch(self, project, branch, name, head):
        record = {"@id": branch, "@type": "Branch", "name": name, "owningProject": {"@id": project.record["@id"]}}
        project.branches[branch] = Branch(record, head)
        return project.branches[branch]

    def make_branch(self, request, asked):
        name, head = branch_asked(request.body)
        project = self.project(asked)
        head = head and project.commit(head)
        return made(self.add_branch(project, self.draw(), name, head).record)

    def one_branch(self, _, asked, branch):
        return found(self.project(asked).branch(branch).record)

    def delete_branch(self, _, asked, branch):
        project = self.project(asked)
        gone = project.branch(branch)
        if branch == project.default_branch():
            raise Refusal("409 Conflict", "default-branch")
        del project.branches[branch]
        return found(gone.record)

    def all_tags(self, _, asked):
        return listed(map(shown, in_order(self.project(asked).tags)))

    def make_tag(self, request, asked):
        name, commit = tag_asked(request.body)
        project = self.project(asked)
        project.commit(commit)
        record = {"@id": self.draw(), "@type": "Tag", "name": name, "owningProject": {"@id": asked}}
        record.update(referencedCommit={"@id": commit}, taggedCommit={"@id": commit})
        project.tags[record["@id"]] = record
        return made(record)

    def one_tag(self, _, asked, tag):
        return found(self.project(asked).tag(tag))

    def delete_tag(self, _, asked, tag):
        project = self.project(asked)
        gone = project.tag(tag)
        del project.tags[tag]
        return found(gone)

    def all_commits(self, request, asked):
        branch = branch_parameter(request)
        project = self.project(asked)
        several = project.commits
        if branch:
            head = project.branch(branch).head
            several = {it.record["@id"]: it for it in (head.ancestry() if head else ())}
        return listed(shown(it.record) for it in in_order(several))

    def make_commit(self, request, asked):
        branch = branch_parameter(request)
        wanted = commit_asked(request.body)
        project = self.project(asked)
        branch = project.branch(branch or project.default_branch())
        judge(wanted, branch)
        record = {"@id": self.draw(), "@type": "Commit", "description": wanted.description}
        record.update(owningProject={"@id": asked}, previousCommit=reference(branch.head_id()))
        branch.head = Commit(record, branch.head, self.versions_made(project, wanted.changes))
        project.commits[record["@id"]] = branch.head
        return made(record)

    def versions_made(self, project, changes):
        """The data versions of a commit. Each draws an id, and one for its identity if it has none."""
        project.identities.update(change.identity for change in changes if change.identity)
        versions = []
        for change in changes:
            version = {"@id": self.draw(), "@type": "DataVersion"}
            identity = change.identity or self.draw(project.identities)
            project.identities.add(identity)
            payload = None if change.payload is None else {**change.payload, "@id": identity}
            versions.append({**version, "identity": {"@id": identity, "@type": "DataIdentity"}, "payload": payload})
        return versions

    def one_commit(self, _, asked, commit):
        return found(self.project(asked).commit(commit).record)

    def all_changes(self, _, asked, commit):
        return listed(written(it) for it in in_order(self.project(asked).commit(commit).versions))

    def one_change(self, _, asked, commit, version):
        return told("200 OK", written(known(self.project(asked).commit(commit).versions, version, "unknown-change")))

    def one_element(self, _, asked, commit, identity):
        payload = self.project(asked).commit(commit).own(identity)
        if payload is None or payload.get("@type") in NO_ELEMENTS:
            raise Refusal("404 Not Found", "unknown-element")
        return told("200 OK", written(payload))


# data of these types are no elements
NO_ELEMENTS = ("ProjectUsage", "ExternalData", "ExternalRelationship")

# the paths, and of each the methods in the order in which they are told
ROUTES = {
    "/projects": {"GET": Repository.all_projects, "POST": Repository.make_project},
    "/projects/{projectId}": {
        "GET": Repository.one_project,
        "PUT": Repository.update_project,
        "DELETE": Repository.delete_project,
    },
    "/projects/{projectId}/branches": {"GET": Repository.all_branches, "POST": Repository.make_branch},
    "/projects/{projectId}/branches/{branchId}": {"GET": Repository.one_branch, "DELETE": Repository.delete_branch},
    "/projects/{projectId}/tags": {"GET": Repository.all_tags, "POST": Repository.make_tag},
    "/projects/{projectId}/tags/{tagId}": {"GET": Repository.one_tag, "DELETE": Repository.delete_tag},
    "/projects/{projectId}/commits": {"GET": Repository.all_commits, "POST": Repository.make_commit},
    "/projects/{projectId}/commits/{commitId}": {"GET": Repository.one_commit},
    "/projects/{projectId}/commits/{commitId}/changes": {"GET": Repository.all_changes},
    "/projects/{projectId}/commits/{commitId}/changes/{changeId}": {"GET": Repository.one_change},
    "/projects/{projectId}/commits/{commitId}/elements/{elementId}": {"GET": Repository.one_element},
}


def path_and_query(target):
    """The path of a target, and what follows its first question mark. A path without a slash first has no route."""
    if target.startswith("http://"):
        target = re.sub("http://[^/?#]*", "", target, count=1)
    path, _, query = target.partition("?")
    return path, query


def routed(request):
    """The call of a request and the ids of its path, or the first reason why it has none."""
    path = path_and_query(request.target)[0].split("/")
    for form, methods in ROUTES.items():
        parts = list(zip(form.split("/"), path))
        if len(path) != form.count("/") + 1 or not all(part if key[:1] == "{" else part == key for key, part in parts):
            continue
        call = methods.get(request.method.decode("ascii"))
        if not call:
            raise Refusal("405 Method Not Allowed", "no-method", "Allow: " + ", ".join(methods))
        ids = [(key.strip("{}"), id_of(part)) for key, part in parts if key[:1] == "{"]
        for key, identity in ids:
            if not identity:
                raise Refusal(BAD_REQUEST, "bad-id", key=key)
        return call, *[identity for _, identity in ids]
    raise Refusal("404 Not Found", "no-route")


def branch_parameter(request):
    """The id that the parameter branchId has, or None without it."""
    pairs = [it.partition("=") for it in path_and_query(request.target)[1].split("&")]
    values = [unquote_plus(value) for key, _, value in pairs if unquote_plus(key) == "branchId"]
    if values and (len(values) > 1 or not id_of(values[0])):
        raise Refusal(BAD_REQUEST, "bad-parameter", key="branchId")
    return id_of(values[0]) if values else None


def session(stream, repository=None):
    """The responses to a stream over a repository, a new one where none is told, and the status and the complaint at its end."""
    repository, responses, at = repository or Repository(), [], 0
    while at < len(stream):
        found = front(stream, at)
        if found is None:
            return responses, 6, CUT_SHORT
        if isinstance(found, str):
            refusal = Refusal(BAD_REQUEST if found == "bad-head" else "501 Not Implemented", found)
            return responses + [told(refusal.status, refusal.body, "Connection: close")], 6, REFUSED
        request, at = found
        responses.append(repository.answer(request))
    return responses, 0, ""
