"""The examples of docs/api.md, which are one session. rows.py runs them.

Their bytes come from model.py, which is another reading of the same definitions, and never from the program."""

import os
import re

from common import CREATED, DATE, TOP
from forms import Row

# the page's moment, as a head and as a record tell it
PAGE_DATE, PAGE_CREATED = "Sat, 01 Jan 2000 00:00:00 GMT", "2000-01-01T00:00:00.000Z"


def page():
    """The page's requests and responses, one after another, up to those that end a session."""
    with open(os.path.join(TOP, "docs", "api.md"), encoding="utf-8") as it:
        text = it.read().split("\n## Bytes that are no request\n")[0]
    shown = re.findall(r"^```(\w*)\n(.*?)^```$", text, re.DOTALL | re.MULTILINE)
    blocks = [on_the_wire(block) for language, block in shown if not language]
    stream = "".join(it for it in blocks if not it.startswith("HTTP/"))
    responses = [it.replace(PAGE_DATE, DATE).replace(PAGE_CREATED, CREATED) for it in blocks if it.startswith("HTTP/")]
    yield Row(f"the {len(responses)} examples of docs/api.md", stream.encode(), responses)


def on_the_wire(block):
    """The bytes of a request or a response that the page shows line by line."""
    head, _, body = block.partition("\n\n")
    return head.replace("\n", "\r\n") + "\r\n\r\n" + body.rstrip("\n")


GROUPS = (page,)
