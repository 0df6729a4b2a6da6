"""Journals, said once more in plain Python from their format alone: records behind gates, and what opening a file answers.

What an entry does is asked of model.py, as the request whose command the entry keeps.
"""

import datetime
import json

import model
from common import Wrong
from documents import Refusal, branch_asked, commit_asked, project_asked, tag_asked, update_asked, written
from entry_model import COUNT, RECORD_MOST, Command, NotAnEntry, decoded

GATES_END = 2**36

# the request that asks for a command: its method, what follows /projects in its target, and its body
ASKS = {
    1: lambda name, description: ("POST", "", {"name": name, "description": description}),
    2: lambda project, name, description, branch: (
        "PUT", f"/{project}", {"name": name, "description": description, "defaultBranch": model.reference(branch)},
    ),
    3: lambda project: ("DELETE", f"/{project}", {}),
    4: lambda project, branch, previous, description, changes: (
        "POST", f"/{project}/commits" + (f"?branchId={branch}" if branch else ""), commit_body(previous, description, changes),
    ),
    5: lambda project, name, head: ("POST", f"/{project}/branches", {"name": name, "head": model.reference(head)}),
    6: lambda project, branch: ("DELETE", f"/{project}/branches/{branch}", {}),
    7: lambda project, name, commit: ("POST", f"/{project}/tags", {"name": name, "taggedCommit": {"@id": commit}}),
    8: lambda project, tag: ("DELETE", f"/{project}/tags/{tag}", {}),
}  # fmt: skip


def commit_body(previous, description, changes):
    changes = [{"identity": model.reference(identity), "payload": payload} for identity, payload in changes]
    return {"change": changes, "description": description, "previousCommit": [{"@id": it} for it in previous]}


def request_of(command):
    method, path, body = ASKS[command.tag](*command.fields)
    return model.Request(method.encode(), "/projects" + path, written(body).encode("utf-8"))


# the command that each call asks for, of its request and the ids of its path
COMMANDS = {
    model.Repository.make_project: lambda request: (1, project_asked(request.body)),
    model.Repository.update_project: lambda request, *ids: (2, (*ids, *update_asked(request.body))),
    model.Repository.delete_project: lambda _, *ids: (3, ids),
    model.Repository.make_commit: lambda request, *ids: (4, (*ids, *commit_fields(request))),
    model.Repository.make_branch: lambda request, *ids: (5, (*ids, *branch_asked(request.body))),
    model.Repository.delete_branch: lambda _, *ids: (6, ids),
    model.Repository.make_tag: lambda request, *ids: (7, (*ids, *tag_asked(request.body))),
    model.Repository.delete_tag: lambda _, *ids: (8, ids),
}


def commit_fields(request):
    asked = commit_asked(request.body)
    changes = [(change.given, change.payload) for change in asked.changes]
    return model.branch_parameter(request), asked.previous, asked.description, changes


def command_of(request):
    """The command that a request asks for, where it asks for one."""
    try:
        call, *ids = model.routed(request)
        return Command(*COMMANDS[call](request, *ids)) if call in COMMANDS else None
    except Refusal:
        return None


def is_accepted(answer):
    """Whether this is the response to a command that was accepted, or to a read that found something."""
    return answer.startswith("HTTP/1.1 20")


class State:
    """A repository, and the moments of the records that it made, by their ids."""

    def __init__(self, number=1):
        self.repository, self.created = model.Repository(number), {}

    def accept(self, moment, command):
        """Takes an entry, and says whether it is acceptable."""
        answer = self.repository.answer(request_of(command))
        if answer.startswith("HTTP/1.1 201 "):
            # (marks that are control characters stand for moments)
            record = json.loads(answer.partition("\r\n\r\n")[2], strict=False)
            self.created[record["@id"]] = self.created[record.get("defaultBranch", record)["@id"]] = moment_text(moment)
        return is_accepted(answer)


def moment_text(moment):
    when = datetime.datetime(1970, 1, 1) + datetime.timedelta(milliseconds=moment)
    return when.isoformat(timespec="milliseconds") + "Z"


class NotOpened(Wrong):
    """A journal isn't opened: the status and the complaint. That is wrong of a file which the program wrote."""

    def __init__(self, status, complaint):
        super().__init__(f"it isn't opened: {complaint}")
        self.end = status, f"sysapi: {complaint}\n"


def damaged(place):
    return NotOpened(4, f"damaged at {place}")


def header(number=1):
    return b"SYSAPIJ\1" + number.to_bytes(6, "big") + b"\0\0"


def journal(records, number=1):
    """The bytes of a journal of these records."""
    return header(number) + b"".join(b"\1" + COUNT.write(len(it)) + it for it in records) + b"\0"


class Records:
    """What stands behind the open gates of sound bytes: the number, pairs of a gate's place and a record, and `used`."""

    def __init__(self, data):
        if len(data) < 17 or data[:7] != b"SYSAPIJ" or data[14:16] != b"\0\0":
            raise damaged(0)
        if data[7] != 1:
            raise NotOpened(5, f"journal version {data[7]}")
        self.number, self.placed, gate = int.from_bytes(data[8:14], "big"), [], 16
        while data[gate] == 1:
            length = int.from_bytes(data[gate + 1 : gate + 5], "big")
            end = gate + 5 + length
            if gate >= GATES_END or length > RECORD_MOST or end >= len(data):
                raise damaged(gate)
            self.placed.append((gate, data[gate + 5 : end]))
            gate = end
        self.used = gate + 1

    def summary(self):
        return f"version 1\nrepository {self.number}\nentries {len(self.placed)}\nbytes {self.used}\n"

    def state(self):
        """What the entries made, where each is acceptable."""
        state = State(self.number)
        for place, record in self.placed:
            try:
                is_right = state.accept(*decoded(record))
            except NotAnEntry:
                is_right = False
            if not is_right:
                raise damaged(place)
        return state
