"""The bodies of requests, read once more in plain Python: JSON documents, and what the commands take from them.

The reader is Python's own, with hooks where the program's differs from it.
"""

import collections
import json
import re

DEPTH_MOST = 100
# deeper texts are no JSON to the program's reader
NESTING_MOST = 127

ID = "[0-9A-Fa-f]{8}(?:-[0-9A-Fa-f]{4}){3}-[0-9A-Fa-f]{12}"


BAD_REQUEST = "400 Bad Request"


class Refusal(Exception):
    """A request is refused: the status, the body of the error with its text and further key, and further head lines."""

    def __init__(self, status, error, *lines, **more):
        super().__init__(status, error)
        self.status = status
        self.body = written({"@type": "Error", "error": error, **more})
        self.lines = lines


class NotJson(Exception):
    """The text is no JSON."""


class Object(dict):
    """An object with the last value of each key, and how deep its text is nested, with the values that don't count."""

    def __init__(self, pairs):
        super().__init__(pairs)
        self.nesting = 1 + max((nesting(value) for _, value in pairs), default=0)
        if any(map(has_lone_surrogate, self)) or any(has_lone_surrogate(value) for _, value in pairs):
            raise NotJson


class NotWhole:
    """A number that isn't a whole number in range."""

    def __init__(self, text):
        if float(text) in (float("inf"), float("-inf")):
            raise NotJson


def whole(text):
    is_short = len(text) <= 20
    is_in_range = is_short and text != "-0" and -(2**63) <= int(text) < 2**64
    return int(text) if is_in_range else NotWhole(text)


def refuse(_):
    raise NotJson


def has_lone_surrogate(value):
    if isinstance(value, list):
        return any(map(has_lone_surrogate, value))
    return isinstance(value, str) and any("\ud800" <= it <= "\udfff" for it in value)


def nesting(value):
    if isinstance(value, Object):
        return value.nesting
    if isinstance(value, list):
        return 1 + max(map(nesting, value), default=0)
    return 0


def members(value):
    """The values in a list or an object; none in any other value."""
    if isinstance(value, Object):
        return list(value.values())
    return value if isinstance(value, list) else []


def depth(value):
    return 1 + max(map(depth, members(value)), default=0) if isinstance(value, (Object, list)) else 0


def is_whole(value):
    """Whether each number in a value is a whole one in range."""
    return not isinstance(value, NotWhole) and all(map(is_whole, members(value)))


def document(body):
    """The document that a body is, of any kind."""
    try:
        value = json.loads(
            body.decode("utf-8"), object_pairs_hook=Object, parse_int=whole, parse_float=NotWhole, parse_constant=refuse
        )
        if nesting(value) > NESTING_MOST or has_lone_surrogate(value):
            raise NotJson
    except (ValueError, RecursionError, NotJson):
        raise Refusal(BAD_REQUEST, "bad-json") from None
    if depth(value) > DEPTH_MOST:
        raise Refusal(BAD_REQUEST, "too-deep")
    if not is_whole(value):
        raise Refusal(BAD_REQUEST, "not-whole")
    return value


def written(value):
    """The compact text of a document, keys in the order of their bytes."""
    return json.dumps(value, ensure_ascii=False, separators=(",", ":"), sort_keys=True)


def id_of(value):
    """The id whose text a value is, in lower case, or None."""
    return value.lower() if isinstance(value, str) and re.fullmatch(ID, value) else None


def referred(value):
    """The id that a value refers to, or None."""
    return id_of(value.get("@id")) if isinstance(value, dict) else None


def demand(is_right, key):
    """The first wrong key is told, so keys are judged in their order."""
    if not is_right:
        raise Refusal(BAD_REQUEST, "bad-body", key=key)


def text_at(found, key):
    """The text at a key, or None where null or nothing stands there."""
    value = found.get(key)
    demand(value is None or isinstance(value, str), key)
    return value


def reference_at(found, key):
    """The id that the value at a key refers to, or None where null or nothing stands there."""
    value = found.get(key)
    demand(value is None or referred(value), key)
    return referred(value)


def object_asked(body):
    """The object that a body is."""
    found = document(body)
    demand(isinstance(found, dict), "")
    return found


def project_asked(body):
    """The name and the description of the project that a body makes."""
    found = object_asked(body)
    return text_at(found, "name"), text_at(found, "description")


def update_asked(body):
    """The name, the description and the default branch that a body gives a project."""
    found = object_asked(body)
    return text_at(found, "name"), text_at(found, "description"), reference_at(found, "defaultBranch")


def branch_asked(body):
    """The name and the head of the branch that a body makes. A head that is null is there."""
    found = object_asked(body)
    return text_at(found, "name"), reference_at(found, "head" if "head" in found else "referencedCommit")


def tag_asked(body):
    """The name and the commit of the tag that a body makes."""
    found = object_asked(body)
    name = text_at(found, "name")
    is_other = "taggedCommit" not in found and "referencedCommit" in found
    key = "referencedCommit" if is_other else "taggedCommit"
    commit = reference_at(found, key)
    demand(commit, key)
    return name, commit


Asked = collections.namedtuple("Asked", "changes description previous")


class Change:
    """A change as it is asked for: the identity that it gives, the one that its payload has, and the payload."""

    def __init__(self, found):
        self.given, self.payload, self.own = referred(found.get("identity")), found.get("payload"), None
        demand(self.given or found.get("identity") is None, "identity")
        demand(self.payload is None or isinstance(self.payload, dict), "payload")
        if self.payload and "@id" in self.payload:
            self.own = id_of(self.payload["@id"])
            demand(self.own, "@id")
        self.identity = self.given or self.own


def commit_asked(body):
    """The commit that a body asks for."""
    found = object_asked(body)
    listed = found.get("change")
    listed = [] if listed is None else listed
    demand(isinstance(listed, list) and all(isinstance(it, dict) for it in listed), "change")
    changes = [Change(it) for it in listed]
    return Asked(changes, text_at(found, "description"), previous_asked(found.get("previousCommit")))


def previous_asked(value):
    """The ids of the commits that a value names as previous ones."""
    several = value if isinstance(value, list) else [] if value is None else [value]
    ids = [referred(it) for it in several]
    demand(all(ids), "previousCommit")
    return ids
