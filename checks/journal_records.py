"""Journals that are cut after each byte, that have each byte changed, or whose records are no acceptable entries.

What `check` and a run of reads must tell of each comes from journal_model.py; neither may change the file.
"""

import itertools

import model
from common import check_end, check_responses, commits_of, element_at, get, made_id
from entry_model import COUNT, Command, command_bytes, encoded
from journal_model import NotOpened, Records, State, header, journal
from journal_runs import Check, over, read, same, write

MOMENT = 946_684_800_000
PROJECT, BRANCH, COMMIT, IDENTITY = map(made_id, (0, 1, 2, 4))

# one record each of four kinds: a project, a commit of one change, a branch that begins there, and its end
KEPT = [
    encoded(MOMENT, Command(1, ("P", None))),
    encoded(MOMENT + 1, Command(4, (PROJECT, None, [], None, [(None, {"n": 1})]))),
    encoded(MOMENT + 2, Command(5, (PROJECT, "x", COMMIT))),
    encoded(MOMENT + 3, Command(6, (PROJECT, made_id(5)))),
]
# (what stands behind the first closed gate is ignored)
WHOLE = journal(KEPT) + b"\1\0\x7f"

READS = [
    get("/projects"),
    get(f"/projects/{PROJECT}/branches"),
    get(f"{commits_of(PROJECT)}/{COMMIT}/changes"),
    get(element_at(PROJECT, COMMIT, IDENTITY)),
    get(f"{commits_of(PROJECT)}?branchId={BRANCH}"),
]


class Judged:
    """How a file of these bytes must be opened: the status and the complaint, and what was read where it is opened."""

    def __init__(self, data):
        self.end, self.summary, self.state = (0, ""), "", None
        try:
            records = Records(data)
            self.state, self.summary = records.state(), records.summary()
        except NotOpened as why:
            self.end = why.end


def check_file(program, path, data):
    """Both words judge these bytes by the definition, and leave them as they are; reads alone make a journal of no bytes."""
    write(path, data)
    judged = Judged(data)
    ran = over(program, path, ["check"])
    check_end(ran, *judged.end)
    same("the summary", ran.output.decode(), judged.summary)
    same("the file behind `check`", read(path), data)
    state = judged.state if data else State()
    ran = over(program, path, ["once"], b"".join(READS))
    check_end(ran, *(judged.end if data else (0, "")))
    responses = model.session(b"".join(READS), state.repository)[0] if state else []
    check_responses(responses, ran, state and dict(state.created))
    same("the file behind reads", read(path), data or journal([]))


def file_of(name, data):
    return Check(name, lambda program, path: check_file(program, path, data))


def cuts():
    for size in range(len(WHOLE) + 1):
        yield file_of(f"a journal cut to {size} bytes", WHOLE[:size])


def changes():
    """Each byte flipped in its last bit and in its first, 00, 01 and ff."""
    for place, byte in enumerate(WHOLE):
        for value in sorted({byte ^ 1, byte ^ 0x80, 0, 1, 0xFF} - {byte}):
            yield file_of(f"a journal with byte {place} set to {value:02x}", WHOLE[:place] + bytes([value]) + WHOLE[place + 1 :])


def document_entry(text):
    """The entry of a commit whose one payload has this text, whatever it is."""
    whole = command_bytes(Command(4, (PROJECT, None, [], None, [(None, {})])))
    return MOMENT.to_bytes(8, "big") + whole[:-6] + COUNT.write(len(text)) + text


def entries():
    """Records that stand behind the first project's, with their names. The model says which of them are acceptable."""
    first, commit = KEPT[0], KEPT[1]
    yield "no bytes", b""
    yield "the byte 00", b"\0"
    yield "an entry with a byte behind it", commit + b"\0"
    yield "an entry without its last byte", commit[:-1]
    yield "the last moment of the year 9999", encoded(253_402_300_799_999, Command(1, (None, None)))
    yield "the first moment of the year 10000", encoded(253_402_300_800_000, Command(1, (None, None)))
    yield "a deletion of what isn't there", KEPT[3]
    yield "a branch that begins at no commit", KEPT[2]
    yield "an update", encoded(0, Command(2, (PROJECT, "Q", "\u00e9\0", BRANCH)))
    yield "an update to another branch", encoded(0, Command(2, (PROJECT, None, None, made_id(9))))
    yield "a deleted project", encoded(MOMENT, Command(3, (PROJECT,)))
    yield "a commit behind another head", encoded(MOMENT, Command(4, (PROJECT, None, [COMMIT], None, [])))
    yield "a commit behind two heads", encoded(MOMENT, Command(4, (PROJECT, BRANCH, [COMMIT, COMMIT], None, [])))
    yield "a commit on its branch", encoded(MOMENT, Command(4, (PROJECT, BRANCH, [], "d", [])))
    yield "a deletion of an unknown datum", encoded(MOMENT, Command(4, (PROJECT, None, [], None, [(IDENTITY, None)])))
    yield "one identity twice", encoded(MOMENT, Command(4, (PROJECT, None, [], None, [(IDENTITY, {}), (IDENTITY, {})])))
    mismatch = [(IDENTITY, {"@id": COMMIT})]
    yield "an identity that isn't its payload's", encoded(MOMENT, Command(4, (PROJECT, None, [], None, mismatch)))
    yield "a usage", encoded(MOMENT, Command(4, (PROJECT, None, [], None, [(None, {"@type": "ProjectUsage"})])))
    for tag in (0, 9, 10, 11, 12, 0x81):
        yield f"the tag {tag}", first[:8] + bytes([tag]) + first[9:]
    yield "a name that is no UTF-8", first[:-2] + b"\xff\0"
    yield "an option of 02", first[:9] + b"\2" + first[10:]
    yield "a count of 2^32 - 1", commit.replace(COUNT.write(1), b"\xff" * 4, 1)
    for text in TEXTS:
        yield f"a payload {text[:40]!r}", document_entry(text)


# texts of payloads: right ones, loose spellings of right ones, and texts of nothing that can be stored
TEXTS = [
    b"{}", b'{"n":1}', b'{"a":2,"b":1}', b'{"b":1,"a":2}', b'{"a":1,"a":1}', b' {"n":1}', b'{"n": 1}', b'{"n":1}\n', b"[]", b"null",
    b"1", b"", b"{", b'{"n":1.0}', b'{"n":1e0}', b'{"n":-0}', b'{"n":18446744073709551615}', b'{"n":18446744073709551616}',
    b'{"n":"\\u0041"}', b'{"n":"\\u0001"}', b'{"n":"\\u001F"}', b'{"n":"\\u001f"}', b'{"n":"\\n"}', b'{"n":"\\u000a"}',
    b'{"n":"\\/"}', b'{"n":"\x7f"}', b'{"n":"\xc3\xa9"}', b'{"n":"\\u00e9"}', b'{"n":"\xff"}', b'{"@id":"x"}', b'{"@id":7}',
    b'{"@id":"%s"}' % made_id(10).encode(), b'{"@id":"%s"}' % made_id(10).upper().encode(),
    b'{"x":' + b"[" * 96 + b"]" * 96 + b"}", b'{"x":' + b"[" * 97 + b"]" * 97 + b"}",
    b'{"\xf0\x9f\x98\x80":1,"\xef\xbf\xbf":2}', b'{"\xef\xbf\xbf":2,"\xf0\x9f\x98\x80":1}',
]  # fmt: skip


def placed():
    """Each of these records as the second one, with a third behind it; and faults at two places, of which one is told."""
    for name, record in entries():
        yield file_of(f"a second record: {name}", journal([KEPT[0], record, KEPT[0]]))
    whole = journal([KEPT[0], b"\0", KEPT[0]])
    yield file_of("no entry, and then a record that doesn't fit", whole[:-1])
    yield file_of("two records that are no entries", journal([KEPT[0], b"\0", b"\0"]))
    yield file_of("no journal, and another version", header()[:7] + b"\2" + header()[8:15] + b"\1" + b"\0")
    yield file_of("another version of 16 bytes", header()[:7] + b"\2" + header()[8:])
    yield file_of("another version of 17 bytes", header()[:7] + b"\2" + header()[8:] + b"\1")
    yield file_of("a record of 2^27 + 1 bytes that aren't there", header() + b"\1" + COUNT.write(2**27 + 1) + b"\0" * 40)
    for damage in (journal([KEPT[0], KEPT[3], KEPT[0]]), WHOLE[:100], WHOLE[:39], journal([b"\0"])):
        place = int(Judged(damage).end[1].split()[-1])
        yield file_of(f"what stands before damage at {place}, and a closed gate", damage[:place] + b"\0")
    for number in (0, 2, 2**48 - 1):
        yield file_of(f"the first project of repository {number}", journal(KEPT[:1], number))
        yield file_of(f"more of repository {number}", journal(KEPT[:2], number))


def rows():
    return list(itertools.chain(cuts(), changes(), placed()))
