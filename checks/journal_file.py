"""Worked rows over a file: the first project's journal byte for byte, what `check` tells, words, and files that can't be used."""

import os
import resource
import signal
import subprocess

from common import CUT_SHORT, REFUSED, Run, Wrong, check_end, check_responses, element_at, get, made_id, post, response
from forms import FOUND_P, GET_0, MADE_P, POST_P, answered, commit, made, project_record
from journal_model import Records, journal
from journal_runs import BAD_WORDS, CANNOT_OPEN, Check, check_of, check_silent, check_summary, over, read, same, write

# the journal of the first project, written out from the document of its format
FIRST = "5359534150494a01 000000000001 0000 01 00000010 000000dc6acfac00 010100000001 50 00 00"
FIRST_MOMENT = slice(21, 29)

BAD_HEAD = response("400 Bad Request", 36, '{"@type":"Error","error":"bad-head"}', "Connection: close")
DEVICE = answered("500 Internal Server Error", '{"@type":"Error","error":"device"}')
FAULT = "sysapi: device fault\n"
DAMAGED_AT_0 = "sysapi: damaged at 0\n"


def keep_first(program, path):
    """Makes the first project over a new file, and returns what the file then holds."""
    ran = over(program, path, ["once"], POST_P)
    check_responses([MADE_P], ran)
    check_end(ran, 0, "")
    kept, wanted = bytearray(read(path)), bytes.fromhex(FIRST)
    moment = int.from_bytes(kept[FIRST_MOMENT], "big")
    if not ran.before <= moment <= ran.after:
        raise Wrong(f"the moment {moment} of the entry is not between the clock's readings before and after the run")
    kept[FIRST_MOMENT] = wanted[FIRST_MOMENT]
    same("the file but for its moment", kept.hex(), wanted.hex())
    return read(path)


@check_of("first project, over a new file")
def first_project(program, path):
    kept = keep_first(program, path)
    ran = over(program, path, ["check"])
    check_end(ran, 0, "")
    same("the summary", ran.output, b"version 1\nrepository 1\nentries 1\nbytes 38\n")
    created = Records(kept).state().created
    ran = over(program, path, ["once"], GET_0)
    check_responses([FOUND_P], ran, created)
    check_end(ran, 0, "")
    same("the file behind reads", read(path), kept)


@check_of("empty input, over a new file")
def empty_input(program, path):
    check_silent(over(program, path, ["once"]), 0, "")
    same("the file", read(path), journal([]))
    check_summary(program, path)
    check_silent(over(program, path, ["once"]), 0, "")
    same("the file behind a second run", read(path), journal([]))


def broken(place, value, status, complaint):
    """The first project's journal with one byte set to a value."""

    def act(program, path):
        kept = bytearray(bytes.fromhex(FIRST))
        kept[place] = value
        write(path, kept)
        for word in ("check", "once"):
            check_silent(over(program, path, [word], POST_P + GET_0), status, complaint)
            same(f"the file behind `{word}`", read(path), bytes(kept))

    return Check(f"first project, with byte {place} set to {value:02x}", act)


@check_of("`check` of files that are no journal")
def no_journal(program, path):
    check_silent(over(program, path, ["check"]), 4, DAMAGED_AT_0)
    same("the file that wasn't there", read(path), b"")
    for data in (b"", b"S", bytes.fromhex(FIRST)[:16], b"x" * 100, b"\0" * 17):
        write(path, data)
        check_silent(over(program, path, ["check"]), 4, DAMAGED_AT_0)
        same("the file", read(path), data)


def bad_words():
    """Words that the program has not: nothing is read, a file is made where there is none, and one that is there stays."""
    for words in ((), ("",), ("Once",), ("once", "check"), ("check", "once"), ("check", "check"), ("once", "once"), ("check", ""),
                  ("check", "--room", "5"), ("once", "--room", "5"), ("--help",), ("--", "check"), ("serve",)):  # fmt: skip

        def act(program, path, words=words):
            for before in (None, bytes.fromhex(FIRST), b"no journal"):
                if before is not None:
                    write(path, before)
                ran = over(program, path, words, POST_P)
                check_silent(ran, 2, BAD_WORDS)
                same("how much was read", ran.taken, 0)
                same("the file", read(path), before or b"")

        yield Check(f"bad words over a file: {' '.join(words) or 'none'}", act)


@check_of("a session that ends in a refusal, or inside a request, keeps what it accepted")
def ended_early(program, path):
    for count, (more, answers, complaint) in enumerate(((b"}", [BAD_HEAD], REFUSED), (GET_0[:-1], [], CUT_SHORT)), 1):
        ran = over(program, path, ["once"], post(b"{}") + more)
        check_responses([made_project(2 * count - 2), *answers], ran)
        check_end(ran, 6, complaint)
        same("records", len(Records(read(path)).placed), count)
        check_summary(program, path)


def made_project(serial):
    """The response with a project without a name, whose id has this serial."""
    return answered("201 Created", project_record(f"#{serial:x}", f"#{serial + 1:x}", "null"))


@check_of("output that can't be written")
def full_output(program, path):
    """The command whose response is lost stands in the journal, and no later one; `check` tells its own fault."""
    with open("/dev/full", "wb") as full:
        for words, records in ((["once"], 1), (["once"], 2), (["check"], 2)):
            ran = Run([program, path, *words], stdin=requests_in_pipe(), stdout=full)
            check_end(ran, 1, "sysapi: write fault\n")
            same("records", len(Records(read(path)).placed), records)
    check_summary(program, path)


def requests_in_pipe():
    """The end of a pipe that has two commands."""
    reader, writer = os.pipe()
    os.write(writer, POST_P + POST_P)
    os.close(writer)
    return reader


@check_of("the first word is a path, whatever it looks like")
def paths(program, path):
    folder = os.path.dirname(path)
    for name in ("once", "check", "--", "--help", "x", "é ü"):
        check_silent(over(program, name, [], POST_P, cwd=folder), 2, BAD_WORDS)
        same(f"the file {name}", read(os.path.join(folder, name)), b"")
        check_silent(over(program, name, ["once"], cwd=folder), 0, "")
        same(f"the file {name}", read(os.path.join(folder, name)), journal([]))


@check_of("what can't be opened")
def not_opened(program, path):
    write(path, b"")
    for name in ("", os.path.dirname(path), path + "/", os.path.join(path, "x"), os.path.join(path + "s", "x")):
        for words in (["once"], ["check"], []):
            ran = over(program, name, words, POST_P)
            check_silent(ran, 1, CANNOT_OPEN)
            same("how much was read", ran.taken, 0)
    same("the folder", os.listdir(os.path.dirname(path)), ["journal"])


@check_of("a second process on a journal in use")
def in_use(program, path):
    pipe = subprocess.PIPE
    with subprocess.Popen([program, path, "once"], stdin=pipe, stdout=pipe, stderr=pipe) as first:
        try:
            os.write(first.stdin.fileno(), POST_P)
            check_begun(first)
            kept = read(path)
            for words in (["once"], ["check"], ["once", "check"]):
                check_silent(over(program, path, words, POST_P), 1, CANNOT_OPEN)
            same("the file behind a second process", read(path), kept)
            output, complaint = first.communicate(POST_P, timeout=20)
        finally:
            first.kill()
    same("the end of the first process", (first.returncode, complaint), (0, b""))
    same("responses of the first process, then", output.count(b"HTTP/1.1 201 Created\r\n"), 1)
    same("records", len(Records(read(path)).placed), 2)
    check_summary(program, path)


def check_begun(first):
    """The first process has answered 201."""
    told = os.read(first.stdout.fileno(), 65536)
    if not told.startswith(b"HTTP/1.1 201 Created\r\n"):
        raise Wrong(f"the first process answered {told!r}")


def limited(most):
    """What lets a process write no file beyond so many bytes: a write there fails, and no signal comes."""

    def limit():
        signal.signal(signal.SIGXFSZ, signal.SIG_IGN)
        resource.setrlimit(resource.RLIMIT_FSIZE, (most, resource.getrlimit(resource.RLIMIT_FSIZE)[1]))

    return {"preexec_fn": limit}


CHANGE = '{"change":[{"identity":{"@id":"#a"},"payload":{"n":1}}]}'


@check_of("a file that can't grow")
def full_file(program, path):
    """Commands that don't fit are answered 500 and leave nothing; reads, and what still fits, go on."""
    kept = keep_first(program, path)
    created = Records(kept).state().created
    element = get(element_at(made_id(0), made_id(2), made_id(10)))
    asked = [POST_P, commit(CHANGE), GET_0, element, commit("{}"), GET_0]
    for room, most in ((0, 2), (1, 2), (4, 2), (5, 2), (10, 2), (21, 2)):
        ran = over(program, path, ["once"], b"".join(asked), **limited(len(kept) + room))
        missing = answered("404 Not Found", '{"@type":"Error","error":"unknown-commit"}')
        wanted = [MADE_AGAIN if room == 21 else DEVICE, DEVICE, FOUND_P, missing, DEVICE, FOUND_P]
        check_responses(wanted, ran, dict(created))
        check_end(ran, 0, "")
        records = [it for _, it in Records(read(path)).placed]
        same(f"records behind a run with {room} bytes left", len(records), 2 if room == 21 else 1)
        same("the first record", records[0], Records(kept).placed[0][1])
        check_summary(program, path)
    ran = over(program, path, ["once"], commit(CHANGE))
    check_responses([made("#4", None)], ran)
    check_end(ran, 0, "")
    same("records at last", len(Records(read(path)).placed), 3)
    check_summary(program, path)


MADE_AGAIN = MADE_P.replace(made_id(1), made_id(3)).replace(made_id(0), made_id(2))


@check_of("a new file that can't grow")
def no_file(program, path):
    for most in (0, 16):
        ran = over(program, path, ["once"], POST_P, **limited(most))
        check_silent(ran, 1, FAULT)
        os.remove(path)


def rows():
    yield from (first_project, empty_input, no_journal, ended_early, full_output, paths, not_opened, in_use, full_file, no_file)
    yield broken(29, 0x7F, 4, "sysapi: damaged at 16\n")
    yield broken(7, 0x09, 5, "sysapi: journal version 9\n")
    yield broken(0, 0x73, 4, DAMAGED_AT_0)
    yield broken(15, 0x01, 4, DAMAGED_AT_0)
    yield broken(20, 0x11, 4, "sysapi: damaged at 16\n")
    yield from bad_words()
