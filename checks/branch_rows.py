"""The worked rows of branches and tags, of projects that change or go, of lists and of changes. rows.py runs them."""

from commit_rows import DELETES, FIRST, MAKES, NOTHING, PACKAGE_A, PROJECT, REPLACES, THREE, second_project
from common import CREATED, example, post, response
from forms import (
    BAD_JSON,
    DEFAULT_BRANCH,
    FOUND_P,
    GET_0,
    MADE_P,
    MULTIPLE_PREVIOUS,
    NOT_WHOLE,
    POST_P,
    TOO_DEEP,
    UNKNOWN_BRANCH,
    UNKNOWN_CHANGE,
    UNKNOWN_COMMIT,
    UNKNOWN_ELEMENT,
    UNKNOWN_PROJECT,
    UNKNOWN_TAG,
    E,
    Row,
    bad_body,
    branch_record,
    change,
    commit,
    commit_of,
    commit_record,
    created,
    delete_unknown,
    deletes,
    filled,
    found,
    gets,
    head_moved,
    listed,
    made,
    payload,
    posts,
    project_record,
    puts,
    read,
    steps,
    tag_record,
    version_record,
)

ONE = "/projects/#0"
BRANCHES, TAGS, COMMITS = ONE + "/branches", ONE + "/tags", ONE + "/commits"


def named(name):
    """A change that gives the Package another name, and what is shown of it then."""
    text = '{"@type":"Package","declaredName":"%s"}' % name
    return change("#4", text), found(text.replace("{", '{"@id":"#4",', 1))


SETS_X, PACKAGE_X = named("X")
SETS_Y, PACKAGE_Y = named("Y")

# each is a request and its response, and each goes on from those before
MAKES_X = (posts(BRANCHES, '{"name":"x","head":{"@id":"#2"}}'), created(branch_record("#5", "#2")))
MAKES_Y = (posts(BRANCHES, '{"name":"y","head":{"@id":"#2"}}'), created(branch_record("#6", "#2", '"y"')))
ON_X = (commit_of(SETS_X, branch="#5"), made("#7", "#2"))
ON_Y = (commit_of(SETS_Y, branch="#6"), made("#9", "#2"))
TWO = (*FIRST, MAKES_X, MAKES_Y, ON_X, ON_Y)

TAGGED = (posts(TAGS, '{"name":"v1","taggedCommit":{"@id":"#2"}}'), created(tag_record("#5", "#2")))
TAG_GOES = (deletes(TAGS + "/#5"), found(tag_record("#5", "#2")))

# a second project, and its first commit: ids that the first project has not
OTHER = (PROJECT, (POST_P, second_project()), (commit("{}", "#2"), made("#4", None, "#2")))


def show_branch(number, head, name='"x"'):
    return gets(f"{BRANCHES}/{number}"), found(branch_record(number, head, name))


def list_branches(*records):
    return gets(BRANCHES), listed(*records)


def list_commits(*records, branch=None):
    return gets(COMMITS + (f"?branchId={branch}" if branch else "")), listed(*records)


def worked():
    """Two branches that part, a tag that comes and goes, and each record looked up."""
    heads = [show_branch("#5", "#7"), show_branch("#6", "#9", '"y"'), show_branch("#1", "#2", "null")]
    shown = [(read("#7", "#4"), PACKAGE_X), (read("#9", "#4"), PACKAGE_Y), (read("#2", "#4"), PACKAGE_A)]
    behind_x = list_commits(commit_record("#2", None), commit_record("#7", "#2"), branch="#5")
    stays = (deletes(BRANCHES + "/#1"), DEFAULT_BRANCH)
    goes = (deletes(BRANCHES + "/#6"), found(branch_record("#6", "#9", '"y"')))
    yield steps("two branches", *TWO, *shown, *heads, behind_x, stays, goes, shown[1], *heads[::2], shown[0])
    again = (deletes(TAGS + "/#5"), UNKNOWN_TAG)
    yield steps("a tag that comes and goes", *FIRST, TAGGED, TAG_GOES, again)
    version = version_record("#3", "#4", '{"@id":"#4","@type":"Package","declaredName":"A"}')
    reads = [show_branch("#1", "#2", "null"), (gets(COMMITS + "/#2"), found(commit_record("#2", None)))]
    reads.append((gets(COMMITS + "/#2/changes/#3"), found(version)))
    reads.append((puts(ONE, '{"name":"Q"}'), found(project_record(name='"Q"'))))
    second = tag_record("#6", "#2", '"v2"')
    reads.append((posts(TAGS, '{"name":"v2","taggedCommit":{"@id":"#2"}}'), created(second)))
    reads += [(gets(TAGS), listed(second)), (gets(TAGS + "/#6"), found(second))]
    yield steps("all reads", *FIRST, TAGGED, TAG_GOES, again, *reads)
    yield written_out()
    yield from_examples()


def written_out():
    """A branch, a tag, a data version, a list and two refusals, each byte of them."""
    branch = (
        '{"@id":"00000000-0001-8000-8000-000000000005","@type":"Branch","created":"' + CREATED + '",'
        '"head":{"@id":"00000000-0001-8000-8000-000000000002"},"name":"x",'
        '"owningProject":{"@id":"00000000-0001-8000-8000-000000000000"},'
        '"referencedCommit":{"@id":"00000000-0001-8000-8000-000000000002"}}'
    )
    tag = (
        '{"@id":"00000000-0001-8000-8000-000000000006","@type":"Tag","created":"' + CREATED + '","name":"v1",'
        '"owningProject":{"@id":"00000000-0001-8000-8000-000000000000"},'
        '"referencedCommit":{"@id":"00000000-0001-8000-8000-000000000002"},'
        '"taggedCommit":{"@id":"00000000-0001-8000-8000-000000000002"}}'
    )
    version = (
        '{"@id":"00000000-0001-8000-8000-000000000003","@type":"DataVersion",'
        '"identity":{"@id":"00000000-0001-8000-8000-000000000004","@type":"DataIdentity"},'
        '"payload":{"@id":"00000000-0001-8000-8000-000000000004","@type":"Package","declaredName":"A"}}'
    )
    default = (
        '{"@id":"00000000-0001-8000-8000-000000000001","@type":"Branch","created":"' + CREATED + '",'
        '"head":{"@id":"00000000-0001-8000-8000-000000000002"},"name":null,'
        '"owningProject":{"@id":"00000000-0001-8000-8000-000000000000"},'
        '"referencedCommit":{"@id":"00000000-0001-8000-8000-000000000002"}}'
    )
    default_branch = '{"@type":"Error","error":"default-branch"}'
    no_method = '{"@type":"Error","error":"no-method"}'
    pairs = (
        (MAKES_X[0], response("201 Created", 294, branch)),
        (posts(TAGS, '{"name":"v1","taggedCommit":{"@id":"#2"}}'), response("201 Created", 300, tag)),
        (gets(COMMITS + "/#2/changes/#3"), response("200 OK", 243, version)),
        (gets(BRANCHES), response("200 OK", 592, f"[{default},{branch}]")),
        (gets(COMMITS + "/#2/changes"), response("200 OK", 245, f"[{version}]")),
        (deletes(BRANCHES + "/#1"), response("409 Conflict", 42, default_branch)),
        (posts(BRANCHES + "/#5", "{}"), response("405 Method Not Allowed", 37, no_method, "Allow: GET, DELETE")),
    )
    return steps("branch, tag, version and list, written out", *FIRST, *pairs)


def from_examples():
    """The session of examples/, whose project has a default branch, and then another one in its place."""
    first, last = commit_record("#2", None), commit_record("#6", "#2")
    tag, moved = tag_record("#8", "#6"), project_record(branch="#5")
    version = version_record("#7", "#4", '{"@id":"#4","@type":"Package","declaredName":"X"}')
    answers = [MADE_P, MAKES[1], MAKES_X[1], created(last), created(tag)]
    answers += [listed(branch_record("#1", "#2", "null"), branch_record("#5", "#6")), listed(first, last), listed(version)]
    answers += [PACKAGE_A, PACKAGE_X, found(moved), found(branch_record("#1", "#2", "null")), found(tag), listed(moved)]
    return Row("branches and tags, from examples/", example("branches.http"), answers)


def new_branches():
    """What a new branch begins with, and which commits it may begin with."""
    for body, name, head in (
        ("{}", "null", None),
        ('{"name":null,"head":null}', "null", None),
        ('{"head":null,"referencedCommit":{"@id":"#2"}}', "null", None),
        ('{"head":null,"referencedCommit":7,"name":"x"}', '"x"', None),
        ('{"referencedCommit":null}', "null", None),
        ('{"referencedCommit":{"@id":"#2"},"name":"x"}', '"x"', "#2"),
        ('{"head":{"@id":"#2"},"referencedCommit":{"@id":"E"}}', "null", "#2"),
        ('{"head":{"@id":"#2"},"referencedCommit":"E"}', "null", "#2"),
        ('{"head":{"@type":"Branch","@id":"#2","x":1},"name":""}', '""', "#2"),
        ('{"head":7,"head":{"@id":"#2"}}', "null", "#2"),
        ('{"@id":"E","@type":"Tag","created":"then","owningProject":7,"name":"\\u00e9\\n\\""}', '"\u00e9\\n\\""', None),
    ):
        made_5, shown = (posts(BRANCHES, body), created(branch_record("#5", head, name))), show_branch("#5", head, name)
        yield steps(f"a branch of {body}", *FIRST, made_5, shown, show_branch("#1", "#2", "null"), (NOTHING, made("#6", "#2")))
    for text in ("E", "#0", "#1", "#3", "#4", "#5", "#6"):
        for key in ("head", "referencedCommit"):
            stray = (posts(BRANCHES, '{"%s":{"@id":"%s"}}' % (key, text)), UNKNOWN_COMMIT)
            none = list_branches(branch_record("#1", "#2", "null"))
            yield steps(f"a branch with the {key} {text}", *FIRST, stray, none, MAKES_X)
    stray = (posts(BRANCHES, '{"head":{"@id":"#4"}}'), UNKNOWN_COMMIT)
    ours = (posts("/projects/#2/branches", '{"head":{"@id":"#4"}}'), created(branch_record("#5", "#4", "null", "#2")))
    yield steps("a branch with another project's commit", *OTHER, stray, ours, (gets(BRANCHES + "/#5"), UNKNOWN_BRANCH))
    strays = [(posts(f"/projects/{it}/branches", '{"head":{"@id":"E"}}'), UNKNOWN_PROJECT) for it in ("#1", "#2", E)]
    yield steps("a branch of no project", *FIRST, *strays, MAKES_X)
    twice = (posts(BRANCHES, '{"name":"x","head":{"@id":"#2"}}'), created(branch_record("#6", "#2")))
    all_three = list_branches(branch_record("#1", "#2", "null"), branch_record("#5", "#2"), branch_record("#6", "#2"))
    yield steps("two branches of one name", *FIRST, MAKES_X, twice, all_three)
    old = (posts(BRANCHES, '{"name":"x","head":{"@id":"#2"}}'), created(branch_record("#9", "#2")))
    onto = (commit_of(payload("{}"), branch="#9"), made("#a", "#2"))
    yield steps("a branch of an old commit", *THREE, old, onto, (read("#a", "#4"), PACKAGE_A), (NOTHING, made("#d", "#7")))


def commits_on_branches():
    """Each branch has a head of its own, against which its commits are judged."""
    empty = (posts(BRANCHES, '{"name":"w"}'), created(branch_record("#5", None, '"w"')))
    gone = (commit_of(change("#4", "null"), branch="#5"), delete_unknown(0))
    moved = (commit('{"previousCommit":{"@id":"#2"}}', more=filled("?branchId=#5")), head_moved("null"))
    first = (commit('{"previousCommit":[]}', more=filled("?branchId=#5")), made("#6", None))
    shown = [(read("#6", "#4"), UNKNOWN_ELEMENT), show_branch("#5", "#6", '"w"'), show_branch("#1", "#2", "null")]
    lists = [list_commits(commit_record("#6", None), branch="#5"), list_commits(commit_record("#2", None), branch="#1")]
    lists.append(list_commits(commit_record("#2", None), commit_record("#6", None)))
    row = (empty, list_commits(branch="#5"), gone, moved, first, *shown, *lists)
    yield steps("commits on a branch without a head", *FIRST, *row)
    for text, answer in (
        ('{"@id":"#2"}', head_moved('{"@id":"#7"}')),
        ('{"@id":"#9"}', head_moved('{"@id":"#7"}')),
        ('[{"@id":"#7"}]', made("#b", "#7")),
        ("[]", made("#b", "#7")),
        ('[{"@id":"#7"},{"@id":"#9"}]', MULTIPLE_PREVIOUS),
    ):
        asked = commit('{"previousCommit":%s}' % text, more=filled("?branchId=#5"))
        yield steps(f"previous commit {text} on a branch", *TWO, (asked, answer), show_branch("#6", "#9", '"y"'))
    default = (commit('{"previousCommit":{"@id":"#2"}}'), made("#b", "#2"))
    behind = [show_branch("#1", "#b", "null"), show_branch("#5", "#7"), (read("#b", "#4"), PACKAGE_A)]
    yield steps("the default branch beside others", *TWO, default, *behind)
    named = (commit("{}", more=filled("?branchId=#1")), made("#b", "#2"))
    yield steps("the default branch by its id", *TWO, named, show_branch("#1", "#b", "null"))
    gone = [(commit_of(change("#4", "null"), branch="#5"), made("#b", "#7")), (read("#b", "#4"), UNKNOWN_ELEMENT)]
    again = [(commit_of(change("#4", "null"), branch="#5"), delete_unknown(0)), (read("#9", "#4"), PACKAGE_Y)]
    both = [(commit_of(change("#4", "null"), branch="#6"), made("#d", "#9")), (read("#2", "#4"), PACKAGE_A)]
    yield steps("a delete on a branch", *TWO, *gone, *again, *both)
    passed = (commit_of(payload("{}")), made("#8", "#2"))
    given = (commit_of(change("#a", "{}"), branch="#5"), made("#6", "#2"))
    reads = [(read("#8", it), answer) for it, answer in (("#b", found('{"@id":"#b"}')), ("#a", UNKNOWN_ELEMENT))]
    yield steps("an identity of another branch is known", *FIRST, MAKES_X, given, passed, *reads)
    line = ["#2", *(f"#{it:x}" for it in range(6, 20))]
    many = [(commit("{}", more=filled("?branchId=#5")), made(new, old)) for old, new in zip(line, line[1:])]
    whole = [commit_record(new, old) for old, new in zip([None, *line], line)]
    shown = (list_commits(*whole, branch="#5"), list_commits(whole[0], branch="#1"))
    yield steps("many commits on a branch", *FIRST, MAKES_X, *many, *shown)


def lost_branches():
    """Branches that aren't there, and those that go."""
    for text in (E, "#0", "#2", "#3", "#4", "#b"):
        several = [(gets(f"{BRANCHES}/{text}"), UNKNOWN_BRANCH), (deletes(f"{BRANCHES}/{text}"), UNKNOWN_BRANCH)]
        several += [(gets(f"{COMMITS}?branchId={text}"), UNKNOWN_BRANCH), (commit_of(branch=text), UNKNOWN_BRANCH)]
        several.append((puts(ONE, '{"name":"Q","defaultBranch":{"@id":"%s"}}' % text), UNKNOWN_BRANCH))
        yield steps(f"no branch {text}", *TWO, *several, (GET_0, FOUND_P), (NOTHING, made("#b", "#2")))
    strays = [(gets(BRANCHES + "/#3"), UNKNOWN_BRANCH), (deletes(BRANCHES + "/#3"), UNKNOWN_BRANCH)]
    strays += [(gets(COMMITS + "?branchId=#3"), UNKNOWN_BRANCH), (commit_of(branch="#3"), UNKNOWN_BRANCH)]
    strays += [(puts(ONE, '{"defaultBranch":{"@id":"#3"}}'), UNKNOWN_BRANCH), (gets(TAGS + "/#3"), UNKNOWN_TAG)]
    yield steps("another project's branch", *OTHER, *strays, (GET_0, FOUND_P))
    goes = (deletes(BRANCHES + "/#6"), found(branch_record("#6", "#9", '"y"')))
    lost = [(gets(BRANCHES + "/#6"), UNKNOWN_BRANCH), (deletes(BRANCHES + "/#6"), UNKNOWN_BRANCH)]
    lost += [(gets(COMMITS + "?branchId=#6"), UNKNOWN_BRANCH), (commit_of(branch="#6"), UNKNOWN_BRANCH)]
    lost += [(puts(ONE, '{"defaultBranch":{"@id":"#6"}}'), UNKNOWN_BRANCH)]
    kept = [list_branches(branch_record("#1", "#2", "null"), branch_record("#5", "#7")), (read("#9", "#4"), PACKAGE_Y)]
    kept.append(list_commits(commit_record("#2", None), commit_record("#7", "#2"), commit_record("#9", "#2")))
    kept.append((gets(COMMITS + "/#9"), found(commit_record("#9", "#2"))))
    anew = (posts(BRANCHES, '{"head":{"@id":"#9"},"name":"x"}'), created(branch_record("#b", "#9")))
    yield steps("a branch that goes", *TWO, goes, *lost, *kept, anew, (NOTHING, made("#c", "#2")))
    strays = [(deletes("/projects/#1/branches/#1"), UNKNOWN_PROJECT), (gets("/projects/#1/branches/#1"), UNKNOWN_PROJECT)]
    yield steps("a branch of no project goes", *FIRST, *strays, (deletes(BRANCHES + "/#1"), DEFAULT_BRANCH))
    usage = '{"@id":"#4","@type":"ProjectUsage"}'
    wrong = '{"change":[{"payload":%s}],"previousCommit":[{"@id":"E"},{"@id":"E"}]}' % usage
    first = (commit(wrong, more="?branchId=" + E), UNKNOWN_BRANCH)
    other = (commit(wrong, "#1", more="?branchId=" + E), UNKNOWN_PROJECT)
    shape = (commit('{"change":7}', "#1", more="?branchId=" + E), bad_body("change"))
    yield steps("no branch: refused before the commit is judged", *FIRST, first, other, shape)
    other = [(gets(f"/projects/#1/commits?branchId={E}"), UNKNOWN_PROJECT)]
    yield steps("no branch: refused behind the project", *FIRST, *other)


def tags():
    """Tags, what they are made of, and that they stay."""
    for body, name in (
        ('{"taggedCommit":{"@id":"#2"}}', "null"),
        ('{"referencedCommit":{"@id":"#2"}}', "null"),
        ('{"name":null,"taggedCommit":{"@id":"#2"},"referencedCommit":{"@id":"E"}}', "null"),
        ('{"name":"v1","taggedCommit":{"@id":"#2"},"referencedCommit":null}', '"v1"'),
        ('{"name":"","taggedCommit":{"@id":"#2","x":7},"referencedCommit":7}', '""'),
        ('{"@id":"E","created":7,"head":7,"name":"\\u00e9\\t","referencedCommit":{"@id":"#2"}}', '"\u00e9\\t"'),
    ):
        record = tag_record("#5", "#2", name)
        shown = [(posts(TAGS, body), created(record)), (gets(TAGS + "/#5"), found(record)), (gets(TAGS), listed(record))]
        yield steps(f"a tag of {body}", *FIRST, *shown, (NOTHING, made("#6", "#2")))
    for text in ("E", "#0", "#1", "#3", "#4", "#5"):
        for key in ("taggedCommit", "referencedCommit"):
            stray = (posts(TAGS, '{"%s":{"@id":"%s"}}' % (key, text)), UNKNOWN_COMMIT)
            yield steps(f"a tag with the {key} {text}", *FIRST, stray, (gets(TAGS), listed()), TAGGED)
    stray = (posts(TAGS, '{"taggedCommit":{"@id":"#4"}}'), UNKNOWN_COMMIT)
    ours = (posts("/projects/#2/tags", '{"taggedCommit":{"@id":"#4"}}'), created(tag_record("#5", "#4", "null", "#2")))
    strays = [(gets(TAGS + "/#5"), UNKNOWN_TAG), (deletes(TAGS + "/#5"), UNKNOWN_TAG), (gets(TAGS), listed())]
    there = (gets("/projects/#2/tags/#5"), found(tag_record("#5", "#4", "null", "#2")))
    yield steps("another project's commit and tag", *OTHER, stray, ours, *strays, there)
    strays = [(posts("/projects/#1/tags", '{"taggedCommit":{"@id":"E"}}'), UNKNOWN_PROJECT)]
    strays += [(gets("/projects/#1/tags/#5"), UNKNOWN_PROJECT), (deletes("/projects/#1/tags/#5"), UNKNOWN_PROJECT)]
    yield steps("a tag of no project", *FIRST, *strays, TAGGED)
    for text in (E, "#0", "#1", "#2", "#6"):
        several = [(gets(f"{TAGS}/{text}"), UNKNOWN_TAG), (deletes(f"{TAGS}/{text}"), UNKNOWN_TAG)]
        yield steps(f"no tag {text}", *FIRST, TAGGED, *several, (gets(TAGS + "/#5"), TAG_GOES[1]))
    later = [(commit_of(SETS_X), made("#6", "#2")), (gets(TAGS + "/#5"), found(tag_record("#5", "#2")))]
    yield steps("a tag stays where it is", *FIRST, TAGGED, *later, show_branch("#1", "#6", "null"))
    several, makes = [], []
    for number, tagged in (("#b", "#7"), ("#c", "#9"), ("#d", "#2")):
        several.append(tag_record(number, tagged))
        makes.append((posts(TAGS, '{"name":"v1","taggedCommit":{"@id":"%s"}}' % tagged), created(several[-1])))
    goes = [(deletes(TAGS + "/#c"), found(several[1])), (gets(TAGS), listed(several[0], several[2]))]
    branch = [(deletes(BRANCHES + "/#5"), found(branch_record("#5", "#7"))), (gets(TAGS + "/#b"), found(several[0]))]
    again = (posts(TAGS, '{"taggedCommit":{"@id":"#9"}}'), created(tag_record("#e", "#9", "null")))
    yield steps("several tags of one name", *TWO, *makes, (gets(TAGS), listed(*several)), *goes, *branch, again)


def updates():
    """Projects that get another name, description or default branch."""
    for body, name, description in (
        ('{"name":"Q"}', '"Q"', "null"),
        ("{}", "null", "null"),
        ('{"description":"D"}', "null", '"D"'),
        ('{"name":"Q","description":"\\u00e9\\\\","defaultBranch":null}', '"Q"', '"\u00e9\\\\"'),
        ('{"name":null,"description":null,"defaultBranch":{"@id":"#1","@type":"Branch"}}', "null", "null"),
        ('{"@id":"E","@type":"Tag","created":"then","name":"Q","x":[]}', '"Q"', "null"),
    ):
        shown = project_record(name=name, description=description)
        several = [(puts(ONE, body), found(shown)), (GET_0, found(shown)), (gets("/projects"), listed(shown))]
        yield steps(f"an update {body}", PROJECT, *several, (NOTHING, made("#2", None)))
    described = (post(b'{"name":"P","description":"D"}'), created(project_record(description='"D"')))
    bare = (puts(ONE, '{"name":"P"}'), found(project_record()))
    yield steps("an update replaces the description", described, bare, (GET_0, FOUND_P))
    moves = (puts(ONE, '{"name":"P","defaultBranch":{"@id":"#5"}}'), found(project_record(branch="#5")))
    onto = [(NOTHING, made("#6", "#2")), show_branch("#5", "#6"), show_branch("#1", "#2", "null")]
    keeps = [(puts(ONE, "{}"), found(project_record(branch="#5", name="null"))), (deletes(BRANCHES + "/#5"), DEFAULT_BRANCH)]
    goes = [(deletes(BRANCHES + "/#1"), found(branch_record("#1", "#2", "null"))), list_branches(branch_record("#5", "#6"))]
    back = (puts(ONE, '{"defaultBranch":{"@id":"#1"}}'), UNKNOWN_BRANCH)
    kept = (GET_0, found(project_record(branch="#5", name="null")))
    yield steps("another default branch", *FIRST, MAKES_X, moves, *onto, *keeps, *goes, back, kept, (NOTHING, made("#7", "#6")))
    there = (puts(ONE, '{"name":"P","defaultBranch":{"@id":"#1"}}'), FOUND_P)
    both = [(NOTHING, made("#7", "#2")), (deletes(BRANCHES + "/#5"), found(branch_record("#5", "#6")))]
    yield steps("a default branch and back", *FIRST, MAKES_X, moves, onto[0], there, *both)
    other = (puts(ONE, '{"name":"Q","description":"D","defaultBranch":{"@id":"#3"}}'), UNKNOWN_BRANCH)
    ours = (puts("/projects/#2", '{"name":"Q","defaultBranch":{"@id":"#3"}}'), found(project_record("#2", "#3", '"Q"')))
    listing = (gets("/projects"), listed(project_record(), project_record("#2", "#3", '"Q"')))
    yield steps("another project's default branch", *OTHER, other, (GET_0, FOUND_P), ours, listing)
    for text in ("#1", "#2", E):
        stray = (puts(f"/projects/{text}", "{}"), UNKNOWN_PROJECT)
        yield steps(f"an update of no project {text}", *FIRST, stray, (GET_0, FOUND_P))
    stray = (puts("/projects/#1", '{"defaultBranch":{"@id":"E"}}'), UNKNOWN_PROJECT)
    yield steps("an update of neither project nor branch", PROJECT, stray)


def goings():
    """Projects that go: their routes know nothing of them, and the other projects stay."""
    goes, lost = (deletes(ONE), FOUND_P), (GET_0, UNKNOWN_PROJECT)
    yield steps("a project that goes", PROJECT, goes, lost, (deletes(ONE), UNKNOWN_PROJECT), (gets("/projects"), listed()))
    several = [(gets(ONE + path), UNKNOWN_PROJECT) for path in (
        "", "/branches", "/branches/#1", "/branches/#5", "/tags", "/tags/#6", "/commits", "/commits?branchId=#5", "/commits/#2",
        "/commits/#2/changes", "/commits/#2/changes/#3", "/commits/#2/elements/#4",
    )]  # fmt: skip
    several += [(deletes(ONE + path), UNKNOWN_PROJECT) for path in ("", "/branches/#1", "/branches/#5", "/tags/#6")]
    several += [(puts(ONE, '{"name":"Q"}'), UNKNOWN_PROJECT), (posts(BRANCHES, '{"head":{"@id":"#2"}}'), UNKNOWN_PROJECT)]
    several += [(posts(TAGS, '{"taggedCommit":{"@id":"#2"}}'), UNKNOWN_PROJECT), (NOTHING, UNKNOWN_PROJECT)]
    several += [(commit("{}", more=filled("?branchId=#5")), UNKNOWN_PROJECT), (posts(TAGS, "{}"), bad_body("taggedCommit"))]
    tagged = (posts(TAGS, '{"name":"v1","taggedCommit":{"@id":"#2"}}'), created(tag_record("#6", "#2")))
    yield steps("a project that goes, on each route", *FIRST, MAKES_X, tagged, goes, *several)
    anew = (POST_P, created(project_record("#5", "#6")))
    mine = [(commit_of(change("#4", "{}"), payload("{}")), UNKNOWN_PROJECT)]
    ours = [(posts("/projects/#5/commits", '{"change":[{"payload":{}}]}'), made("#7", None, "#5"))]
    ours.append((read("#7", "#9", "#5"), found('{"@id":"#9"}')))
    stray = (posts("/projects/#5/branches", '{"head":{"@id":"#2"}}'), UNKNOWN_COMMIT)
    one = (gets("/projects"), listed(project_record("#5", "#6")))
    yield steps("a project after one that went", *FIRST, goes, anew, *mine, *ours, stray, one)
    kept = [(gets("/projects/#2/commits"), listed(commit_record("#4", None, "#2")))]
    kept += [(commit("{}", "#2"), made("#5", "#4", "#2")), (gets("/projects"), listed(project_record("#2", "#3")))]
    yield steps("a project beside one that went", *OTHER, goes, lost, *kept)
    updated = (puts(ONE, '{"description":"D"}'), found(project_record(name="null", description='"D"')))
    yield steps("a project that was updated goes", PROJECT, updated, (deletes(ONE), updated[1]), lost)
    strays = [(deletes(f"/projects/{it}"), UNKNOWN_PROJECT) for it in ("#1", "#2", "#5", E)]
    yield steps("no project goes", *FIRST, *strays, (GET_0, FOUND_P), goes)


def lists():
    """Lists are whole, in the order of ids, and an empty one is a list too."""
    yield steps("no projects", (gets("/projects"), listed()), PROJECT, (gets("/projects"), listed(project_record())))
    many = [(POST_P, created(project_record(f"#{2 * it:x}", f"#{2 * it + 1:x}"))) for it in range(12)]
    whole = [project_record(f"#{2 * it:x}", f"#{2 * it + 1:x}") for it in range(12)]
    goes, left = (deletes("/projects/#8"), found(whole[4])), (gets("/projects"), listed(*whole[:4], *whole[5:]))
    yield steps("12 projects", *many, (gets("/projects"), listed(*whole)), goes, left)
    new = [list_branches(branch_record("#1", None, "null")), (gets(TAGS), listed()), list_commits(), list_commits(branch="#1")]
    yield steps("the lists of a new project", PROJECT, *new)
    strays = [(gets(f"/projects/#1/{it}"), UNKNOWN_PROJECT) for it in ("branches", "tags", "commits", "commits/#2/changes")]
    yield steps("the lists of no project", *FIRST, *strays)
    three = [commit_record("#2", None), commit_record("#5", "#2"), commit_record("#7", "#5")]
    yield steps("the commits of one branch", *THREE, list_commits(*three), list_commits(*three, branch="#1"))
    told = (commit('{"description":"D"}'), made("#2", None, description='"D"'))
    yield steps("a commit with a description", PROJECT, told, list_commits(commit_record("#2", None, description='"D"')))
    others = (gets("/projects/#2/commits"), listed(commit_record("#4", None, "#2")))
    yield steps("another project's commits", *OTHER, list_commits(), others)
    for text, answer in (("#7", found(three[2])), ("#2", found(three[0])), ("#3", UNKNOWN_COMMIT), (E, UNKNOWN_COMMIT)):
        stray = (gets(f"/projects/#1/commits/{text}"), UNKNOWN_PROJECT)
        yield steps(f"commit {text}", *THREE, (gets(f"{COMMITS}/{text}"), answer), stray)
    yield steps("another project's commit", *OTHER, (gets(COMMITS + "/#4"), UNKNOWN_COMMIT))
    twelve = [(NOTHING, made(f"#{it:x}", f"#{it - 1:x}" if it > 2 else None)) for it in range(2, 12)]
    upper = lambda asked: asked.replace(b"00b", b"00B").replace(b"00c", b"00C")
    shown = [(upper(it), answer) for it, answer in (
        (posts(BRANCHES, '{"head":{"@id":"#b"}}'), created(branch_record("#c", "#b", "null"))),
        (gets(COMMITS + "/#b"), found(commit_record("#b", "#a"))),
        (gets(COMMITS + "/#b/changes"), listed()),
        (gets(BRANCHES + "/#c"), found(branch_record("#c", "#b", "null"))),
        (commit("{}", more=filled("?branchId=#c")), made("#d", "#b")),
        (puts(ONE, '{"defaultBranch":{"@id":"#c"}}'), found(project_record(branch="#c", name="null"))),
        (deletes(BRANCHES + "/#c"), DEFAULT_BRANCH),
    )]  # fmt: skip
    yield steps("ids in upper case", PROJECT, *twelve, *shown)


def changes():
    """The data versions of a commit, one by one and listed."""
    external = '{"@type":"ExternalData","created":""}'
    makes = (commit_of(payload('{"@type":"Part"}'), change("E", external), change("#4", "null")), made("#5", "#2"))
    versions = [
        version_record("#6", "#7", '{"@id":"#7","@type":"Part"}'),
        version_record("#8", "E", external.replace("{", '{"@id":"E",')),
        version_record("#9", "#4", "null"),
    ]
    each = [(gets(f"{COMMITS}/#5/changes/{it}"), found(version)) for it, version in zip(("#6", "#8", "#9"), versions)]
    earlier = version_record("#3", "#4", '{"@id":"#4","@type":"Package","declaredName":"A"}')
    first = [(gets(COMMITS + "/#2/changes"), listed(earlier)), (gets(COMMITS + "/#2/changes/#3"), found(earlier))]
    yield steps("three changes", *FIRST, makes, (gets(COMMITS + "/#5/changes"), listed(*versions)), *each, *first)
    for at, several in (("#5", ("#3", "#4", "#7", "#5", E)), ("#2", ("#6", "#4", "#a"))):
        strays = [(gets(f"{COMMITS}/{at}/changes/{it}"), UNKNOWN_CHANGE) for it in several]
        yield steps(f"no changes in {at}", *FIRST, makes, *strays)
    strays = [(gets(COMMITS + "/#3/changes"), UNKNOWN_COMMIT), (gets(COMMITS + "/#3/changes/#3"), UNKNOWN_COMMIT)]
    strays.append((gets(f"{COMMITS}/{E}/changes/{E}"), UNKNOWN_COMMIT))
    strays.append((gets(f"/projects/#1/commits/{E}/changes/{E}"), UNKNOWN_PROJECT))
    yield steps("the changes of no commit", *FIRST, *strays)
    strays = [(gets(COMMITS + "/#4/changes"), UNKNOWN_COMMIT), (gets("/projects/#2/commits/#4/changes"), listed())]
    yield steps("the changes of another project's commit", *OTHER, *strays)
    many = commit_of(*[payload('{"n":%d}' % it) for it in range(10)])
    ids = [(f"#{3 + 2 * it:x}", f"#{4 + 2 * it:x}") for it in range(10)]
    records = [version_record(number, it, f'{{"@id":"{it}","n":{place}}}') for place, (number, it) in enumerate(ids)]
    late = (gets(COMMITS + "/#2/changes/#15"), found(records[9]))
    yield steps("ten changes", PROJECT, (many, made("#2", None)), (gets(COMMITS + "/#2/changes"), listed(*records)), late)
    upper, lower = "AAAAAAAA-BBBB-4CCC-8DDD-EEEEEEEEEEEE", "aaaaaaaa-bbbb-4ccc-8ddd-eeeeeeeeeeee"
    given = (commit_of(change(upper, '{"@id":"%s","b":{"@id":"%s"},"a":1.0,"a":1}' % (upper, upper))), made("#2", None))
    shown = version_record("#3", lower, '{"@id":"%s","a":1,"b":{"@id":"%s"}}' % (lower, upper))
    yield steps("a change as it is stored", PROJECT, given, (gets(COMMITS + "/#2/changes/#3"), found(shown)))
    gone = (gets(COMMITS + "/#7/changes"), listed(version_record("#8", "#4", "null")))
    yield steps("the change that deletes", *FIRST, REPLACES, DELETES, gone, (gets(COMMITS + "/#7/changes/#6"), UNKNOWN_CHANGE))


# values that are no references
NO_REFERENCES = (
    "7", '"E"', "{}", "[]", '{"@id":null}', '{"@id":"x"}', '[{"@id":"E"}]', "false", '{"@id":{"@id":"E"}}', '{"@ID":"E"}',
)  # fmt: skip

# for each kind of body, how it is sent, its keys of references, and more bodies of a wrong shape by their first wrong key
SHAPES = (
    (puts, ONE, ("defaultBranch",), {
        "name": ('{"defaultBranch":7,"description":7,"name":7}',),
        "description": ('{"description":7}', '{"defaultBranch":7,"description":[]}', '{"name":"Q","description":{}}'),
        "defaultBranch": (
            '{"defaultBranch":7,"name":"Q","description":"D"}', '{"defaultBranch":{"@id":"#1"},"defaultBranch":7}',
        ),
    }),
    (posts, BRANCHES, ("head", "referencedCommit"), {
        "name": ('{"head":7,"referencedCommit":7,"name":7}',),
        "head": ('{"head":7,"referencedCommit":{"@id":"#2"}}', '{"referencedCommit":7,"head":7}'),
    }),
    (posts, TAGS, ("taggedCommit", "referencedCommit"), {
        "name": ('{"taggedCommit":7,"name":7}', '{"name":7,"taggedCommit":{"@id":"#2"}}'),
        "taggedCommit": (
            "{}", '{"name":"v1"}', '{"taggedCommit":null}', '{"taggedCommit":null,"referencedCommit":{"@id":"#2"}}',
            '{"referencedCommit":7,"taggedCommit":7}', '{"@id":"#2"}', '{"head":{"@id":"#2"}}', '{"TaggedCommit":{"@id":"#2"}}',
        ),
        "referencedCommit": ('{"referencedCommit":null}', '{"name":"v1","referencedCommit":null}'),
    }),
)  # fmt: skip


def shapes():
    """Bodies that are documents and make no branch or tag, or update no project: the first wrong key is told."""
    for ask, path, references, more in SHAPES:
        wrong = {"": ("[]", "null", '"name"', "7", "true", "[{}]"), "name": ('{"name":7}', '{"name":false}', '{"name":["x"]}')}
        wrong.update({key: ['{"%s":%s}' % (key, it) for it in NO_REFERENCES] for key in references})
        for key in {**wrong, **more}:
            for body in (*wrong.get(key, ()), *more.get(key, ())):
                yield steps(f"bad body on {path}: {body}", *FIRST, (ask(path, body), bad_body(key)), TAGGED, (GET_0, FOUND_P))
        for body, answer in (("{", BAD_JSON), ("", BAD_JSON), ('{"name":1.5}', NOT_WHOLE), ("[" * 101 + "]" * 101, TOO_DEEP)):
            yield steps(f"no body on {path}: {body[:20]}", *FIRST, (ask(path, body), answer), TAGGED, (GET_0, FOUND_P))
    strays = [(puts("/projects/#1", '{"name":7}'), bad_body("name"))]
    strays.append((posts("/projects/#1/branches", '{"head":7}'), bad_body("head")))
    strays.append((posts("/projects/#1/tags", "{}"), bad_body("taggedCommit")))
    yield steps("bad bodies before a project that isn't there", *FIRST, *strays)


GROUPS = (worked, new_branches, commits_on_branches, lost_branches, tags, updates, goings, lists, changes, shapes)
