"""What the checks of the journal share: runs of the program over a file, and the judgement of what the file then holds."""

import os
import re
import subprocess
import tempfile

import model
from common import PATIENCE, Run, Wrong, check_end, second_of_date
from entry_model import MOMENT_SIZE, command_bytes
from journal_model import Records, command_of, is_accepted, moment_text

BAD_WORDS = "sysapi: bad words\n"
CANNOT_OPEN = "sysapi: cannot open\n"


class Check:
    """One check: its name, and what it does with a program and a path in an empty folder, where no file is yet."""

    def __init__(self, name, act):
        self.name, self.act = name, act

    def check(self, program):
        with tempfile.TemporaryDirectory() as folder:
            self.act(program, os.path.join(folder, "journal"))


def check_of(name):
    """What makes a check of a function."""
    return lambda act: Check(name, act)


def read(path):
    with open(path, "rb") as it:
        return it.read()


def write(path, data):
    with open(path, "wb") as it:
        it.write(data)


def same(what, found, wanted):
    if found != wanted:
        # (a file may be long, and so may a list of its records)
        raise Wrong(f"{what} is {repr(found)[:500]}, and not {repr(wanted)[:500]}")


def fed(words, stream, **more):
    """Runs these words on these bytes. `taken` is how many of them were read."""
    with tempfile.TemporaryFile() as source:
        source.write(stream)
        source.seek(0)
        ran = Run(words, PATIENCE, stdin=source, stdout=subprocess.PIPE, **more)
        ran.taken = os.lseek(source.fileno(), 0, os.SEEK_CUR)
        return ran


def over(program, path, words, stream=b"", **more):
    """Runs the program with these words over the file at this path."""
    return fed([program, path, *words], stream, **more)


def check_silent(ran, status, complaint):
    """The program wrote nothing but the complaint."""
    check_end(ran, status, complaint)
    same("standard output", ran.output, b"")


def check_summary(program, path):
    """The word `check` tells what the file holds, and leaves it as it is."""
    data = read(path)
    ran = over(program, path, ["check"])
    check_end(ran, 0, "")
    same("the summary", ran.output.decode(), Records(data).summary())
    same("the file behind `check`", read(path), data)


class Expected:
    """What a repository must answer to requests, and the command of each one that it must accept."""

    def __init__(self, repository, requests):
        parsed = [model.front(it, 0)[0] for it in requests]
        self.answers = [repository.answer(it) for it in parsed]
        commands = map(command_of, parsed)
        self.commands = [it if is_accepted(answer) else None for it, answer in zip(commands, self.answers)]

    def check_records(self, records, output):
        """The records are those of the accepted commands, one each, in their order, each of the moment of its response.

        The responses have been compared with the expected ones, which are as long."""
        at, left = 0, iter(records)
        for answer, command in zip(self.answers, self.commands):
            size = len(answer.encode("utf-8"))
            if command:
                record = next(left, None)
                if record is None:
                    raise Wrong(f"no record is left for the command {command}")
                check_record(record, command, output[at : at + size])
            at += size
        if next(left, None) is not None:
            raise Wrong("there is a record more than accepted commands")


    def check_commands(self, records):
        """The records are those of the accepted commands, at whatever moments."""
        commands = [it[MOMENT_SIZE:] for it in records]
        same("the records behind their moments", commands, [command_bytes(it) for it in self.commands if it])


def check_record(record, command, response):
    """The record is the entry of this command, at the moment that its response tells."""
    same("a record behind its moment", record[MOMENT_SIZE:], command_bytes(command))
    moment = int.from_bytes(record[:MOMENT_SIZE], "big")
    date = re.search(rb"\r\nDate: (.*?)\r\n", response)[1].decode()
    same("the second of a record's moment", moment // 1000, second_of_date(date))
    created = re.search(rb'"created":"(.*?)"', response)
    if response.startswith(b"HTTP/1.1 201 "):
        same("the moment of a record that makes something", moment_text(moment), created[1].decode())
