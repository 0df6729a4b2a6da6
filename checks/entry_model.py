"""Entries as bytes, said once more in plain Python from their format alone: one spelling an entry, and nothing behind it."""

import collections

from common import made_id
from documents import Refusal, depth, document, id_of, written

RECORD_MOST = 2**27
# the first moment of the year 10000
MOMENTS_END = 253_402_300_800_000
PAYLOAD_DEPTH = 97
# the bytes of an entry's moment, which stands first
MOMENT_SIZE = 8


class NotAnEntry(Exception):
    """The bytes are no entry that can be stored."""


class Source:
    """Bytes that are read from left to right."""

    def __init__(self, data):
        self.data, self.at = data, 0

    def take(self, size):
        found = self.data[self.at : self.at + size]
        if len(found) < size:
            raise NotAnEntry
        self.at += size
        return found

    def is_at_end(self):
        return self.at == len(self.data)


# Parts of an entry: each is written as bytes, and read from a source.


class Number:
    def __init__(self, size):
        self.size = size

    def write(self, value):
        return value.to_bytes(self.size, "big")

    def read(self, source):
        return int.from_bytes(source.take(self.size), "big")


COUNT = Number(4)


class Id:
    """An id, whose value is its text."""

    def write(self, value):
        return bytes.fromhex(value.replace("-", ""))

    def read(self, source):
        digits = source.take(16).hex()
        return "-".join((digits[:8], digits[8:12], digits[12:16], digits[16:20], digits[20:]))


class Text:
    def write(self, value):
        value = value.encode("utf-8")
        return COUNT.write(len(value)) + value

    def read(self, source):
        try:
            return source.take(COUNT.read(source)).decode("utf-8")
        except UnicodeDecodeError:
            raise NotAnEntry from None


class Payload:
    """An object, as its compact text and nothing else."""

    def write(self, value):
        return Text().write(written(value))

    def read(self, source):
        told = Text().read(source)
        try:
            value = document(told.encode("utf-8"))
        except Refusal:
            raise NotAnEntry from None
        is_payload = isinstance(value, dict) and depth(value) <= PAYLOAD_DEPTH and id_of(value.get("@id", made_id(0)))
        if not is_payload or written(value) != told:
            raise NotAnEntry
        return value


class Optional:
    def __init__(self, part):
        self.part = part

    def write(self, value):
        return b"\0" if value is None else b"\1" + self.part.write(value)

    def read(self, source):
        flag = source.take(1)[0]
        if flag > 1:
            raise NotAnEntry
        return self.part.read(source) if flag else None


class Listed:
    def __init__(self, part):
        self.part = part

    def write(self, value):
        return COUNT.write(len(value)) + b"".join(map(self.part.write, value))

    def read(self, source):
        return [self.part.read(source) for _ in range(COUNT.read(source))]


class Parts:
    """Parts one after another, whose value is a tuple."""

    def __init__(self, *parts):
        self.parts = parts

    def write(self, values):
        return b"".join(part.write(value) for part, value in zip(self.parts, values))

    def read(self, source):
        return tuple(part.read(source) for part in self.parts)


ID, NAME, CHANGE = Id(), Optional(Text()), Parts(Optional(Id()), Optional(Payload()))

# the fields behind each tag
FIELDS = {
    1: Parts(NAME, NAME),
    2: Parts(ID, NAME, NAME, Optional(ID)),
    3: Parts(ID),
    4: Parts(ID, Optional(ID), Listed(ID), NAME, Listed(CHANGE)),
    5: Parts(ID, NAME, Optional(ID)),
    6: Parts(ID, ID),
    7: Parts(ID, NAME, ID),
    8: Parts(ID, ID),
}

Command = collections.namedtuple("Command", "tag fields")


def command_bytes(command):
    """The bytes of an entry behind its moment."""
    return bytes([command.tag]) + FIELDS[command.tag].write(command.fields)


def encoded(moment, command):
    """The bytes of an entry."""
    return Number(MOMENT_SIZE).write(moment) + command_bytes(command)


def decoded(data):
    """The moment and the command of an entry that has these bytes."""
    source = Source(data)
    moment, tag = Number(MOMENT_SIZE).read(source), source.take(1)[0]
    if len(data) > RECORD_MOST or moment >= MOMENTS_END or tag not in FIELDS:
        raise NotAnEntry
    command = Command(tag, FIELDS[tag].read(source))
    if not source.is_at_end():
        raise NotAnEntry
    return moment, command
