"""What the outside checks share: runs of the built program, and the judgement of what it wrote.

An expected response is its bytes with DATE where the moment of its Date stands and CREATED where a record's `created`
stands. Both are as long as what they stand for, so each other byte is compared at its own place.
"""

import calendar
import email.utils
import json
import os
import re
import subprocess
import sys
import tempfile
import time

# no response has a control byte but CR and LF, so these can't be mistaken for something that was written
DATE = "\1" * len("Sat, 01 Jan 2000 00:00:00 GMT")
CREATED = "\2" * len("2000-01-01T00:00:00.000Z")

# seconds that one run of the program may take before it counts as hanging
PATIENCE = 20
# when a check gives up, on the clock that only goes forward: each ends by itself within a minute of its start
DEADLINE = time.monotonic() + 55

# the program that a build leaves in this repository
TOP = os.path.dirname(os.path.dirname(os.path.abspath(__file__)))
PROGRAM = os.path.join(TOP, "crates", "sysapi", "out", "sysapi")

REFUSED = "sysapi: request refused\n"
CUT_SHORT = "sysapi: input cut short\n"


class Wrong(Exception):
    """Something that the program did and should not have done."""


class Run:
    """One run of the program: what it wrote, its status, and the clock in milliseconds before and after it."""

    def __init__(self, words, patience=PATIENCE, **files):
        self.before = milliseconds()
        try:
            ended = subprocess.run(words, stderr=subprocess.PIPE, timeout=patience, **files)
        except subprocess.TimeoutExpired:
            raise Wrong(f"it had not ended after {patience:.0f} seconds") from None
        self.after = milliseconds()
        self.output = ended.stdout
        self.complaint = ended.stderr.decode("utf-8", "replace")
        self.status = ended.returncode


def program_at(path):
    """The program at this path, where there is one."""
    if not os.access(path, os.X_OK):
        sys.exit(f"no program at {path}: ./sysapi - once </dev/null builds it")
    return os.path.abspath(path)


def program_named():
    """The program that the command line names, else the one that a build leaves in this repository."""
    return program_at(sys.argv[1] if len(sys.argv) > 1 else PROGRAM)


def example(name):
    """A stream of the folder examples/."""
    with open(os.path.join(TOP, "examples", name), "rb") as it:
        return it.read()


def milliseconds():
    return time.time_ns() // 1_000_000


def run(program, words, stream):
    """Runs the program with these words on these bytes.

    The bytes come from a file, whose place the two processes share: `taken` is how many of them the program read."""
    with tempfile.TemporaryFile() as source:
        source.write(stream)
        source.seek(0)
        patience = min(PATIENCE, DEADLINE - time.monotonic())
        if patience <= 0:
            raise Wrong("not tried, as the time of this check was over")
        ran = Run([program, *words], patience, stdin=source, stdout=subprocess.PIPE)
        ran.taken = os.lseek(source.fileno(), 0, os.SEEK_CUR)
        return ran


def check_end(ran, status, complaint):
    """The status, and standard error to the byte."""
    if (ran.status, ran.complaint) != (status, complaint):
        raise Wrong(f"status {ran.status} with {ran.complaint!r}, and not {status} with {complaint!r}")


def check_responses(expected, ran, created=None):
    """Standard output is the expected responses, joined, up to moments that are right and agree with one another.

    `created` has the moments of the records that were there before, by their ids, and gets those that are made."""
    at, created = 0, {} if created is None else created
    for place, wanted in enumerate(expected):
        wanted = wanted.encode("utf-8")
        wrote = ran.output[at : at + len(wanted)]
        at += len(wanted)
        try:
            check_response(wanted, wrote, ran, created)
        except Wrong as why:
            raise Wrong(f"response {place}: {why}") from None
    if at < len(ran.output):
        raise Wrong(f"{len(expected)} responses, and then more: {ran.output[at:at + 80]!r}")


def check_response(wanted, wrote, ran, created):
    """One response: its bytes, and its moments. Where one record stands in it, or a list of them, each has its moment."""
    dates, moments = compared(wanted, wrote)
    for date in dates:
        if not ran.before // 1000 <= second_of_date(date) <= ran.after // 1000:
            raise Wrong(f"Date {date} is not between the clock's readings before and after the run")
    if moments:
        shown = json.loads(wrote.partition(b"\r\n\r\n")[2])
        records = shown if isinstance(shown, list) else [shown]
        is_new = wrote.startswith(b"HTTP/1.1 201 ")
        for record, moment in zip(records, moments):
            check_created(record, moment, is_new and dates[0], ran, created)


def compared(wanted, wrote):
    """Compares two responses byte for byte, and returns the texts that stand at DATE and at CREATED."""
    found = {DATE[0]: [], CREATED[0]: []}
    at = 0
    for piece in re.findall(rb"\x01+|\x02+|[^\x01\x02]+", wanted):
        here = wrote[at : at + len(piece)]
        mark = chr(piece[0])
        if mark in found:
            found[mark].append(here.decode("latin-1"))
        elif here != piece:
            raise Wrong(f"{here!r} stands in the place of {piece!r}")
        at += len(piece)
    return found[DATE[0]], found[CREATED[0]]


def check_created(record, moment, date, ran, created):
    """A record is made at the moment of its request's Date, which is told then alone, and shown with that moment ever after.

    A project's default branch is made with it."""
    if date:
        when = millisecond_of_created(moment)
        if not ran.before <= when <= ran.after:
            raise Wrong(f"created {moment} is not between the clock's readings before and after the run")
        if when // 1000 != second_of_date(date):
            raise Wrong(f"created {moment} and Date {date} are not one moment")
        created[record["@id"]] = created[record.get("defaultBranch", record)["@id"]] = moment
    elif created.get(record["@id"]) != moment:
        raise Wrong(f"created {moment} is not the moment of the record's first response, {created.get(record['@id'])}")


def second_of_date(text):
    """The moment of an IMF-fixdate (RFC 9110, section 5.6.7), which must be in its exact form."""
    parsed = email.utils.parsedate_tz(text)
    second = calendar.timegm(parsed[:6] + (0, 0, 0)) if parsed else None
    if second is None or email.utils.formatdate(second, usegmt=True) != text:
        raise Wrong(f"Date {text!r} is no IMF-fixdate")
    return second


def millisecond_of_created(text):
    """The moment of a time stamp with milliseconds (RFC 3339, in UTC), which must be in its exact form."""
    found = re.fullmatch(r"(\d{4}-\d\d-\d\dT\d\d:\d\d:\d\d)\.(\d{3})Z", text, re.ASCII)
    try:
        second = calendar.timegm(time.strptime(found[1], "%Y-%m-%dT%H:%M:%S")) if found else None
    except ValueError:
        second = None
    if second is None or time.strftime("%Y-%m-%dT%H:%M:%S", time.gmtime(second)) != found[1]:
        raise Wrong(f"created {text!r} is no moment in its exact form")
    return second * 1000 + int(found[2])


def response(status, length, body, *more):
    """A response from its status line's end, the length as the head tells it, the body, and further header lines."""
    lines = [
        f"HTTP/1.1 {status}",
        f"Date: {DATE}",
        "Content-Type: application/json",
        f"Content-Length: {length}",
        *more,
        "",
        body,
    ]
    return "\r\n".join(lines)


def made_id(serial, repository=1):
    """The id that a repository makes of this serial."""
    number = f"{repository:012x}"
    return f"{number[:8]}-{number[8:]}-8000-8000-{serial:012x}"


def bare(method, path):
    """A request without a body."""
    return f"{method} {path} HTTP/1.1\r\nHost: h\r\n\r\n".encode()


def get(path):
    return bare("GET", path)


def delete(path):
    return bare("DELETE", path)


def filed(method, path, body, length=None, head=b""):
    """A request with these bytes as its body, with a Content-Length, and further head lines."""
    told = len(body) if length is None else length
    first, last = f"{method} {path} HTTP/1.1\r\nHost: h\r\n", f"Content-Length: {told}\r\n\r\n"
    return first.encode() + head + last.encode() + body


def post(body, path="/projects", length=None, head=b""):
    """POST of these bytes, of a project where no other path is told."""
    return filed("POST", path, body, length, head)


def put(body, path):
    return filed("PUT", path, body)


def commits_of(project):
    """The path of a project's commits."""
    return f"/projects/{project}/commits"


def element_at(project, commit, identity):
    """The path of an element at a commit."""
    return f"{commits_of(project)}/{commit}/elements/{identity}"


def conclude(name, count, started, failures):
    """Tells what was found, and ends the check with its status."""
    for failure in failures[:20]:
        print(f"{name}: WRONG: {failure}")
    seconds = time.monotonic() - started
    print(f"{name}: {count - len(failures)} held, {len(failures)} did not, in {seconds:.1f} s", flush=True)
    sys.exit(1 if failures else 0)
