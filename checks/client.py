"""Sessions of real clients with the program: Python's http.client, and curl where it is there.

The program serves one connection over its standard input and output, so a bridge listens on a free port of this machine and
gives each connection that it accepts a program of its own. Every response must be whole by the client's own judgement.
Usage: client.py [PROGRAM]
"""

import contextlib
import email.utils
import http.client
import json
import os
import re
import shutil
import socket
import subprocess
import tempfile
import threading
import time

from common import REFUSED, Wrong, commits_of, conclude, element_at, made_id, program_named
from documents import written

HOST = "127.0.0.1"
# seconds that any one step of a client may take: a session ends with the first that takes longer
PATIENCE = 4

PROJECT = "/projects/" + made_id(0)
COMMITS = commits_of(made_id(0))
ERROR = '{"@type":"Error","error":"%s"}'


class Bridge:
    """Hands the bytes of each connection to a program of its own and back, at most `piece` bytes at a time to the program."""

    def __init__(self, program, piece):
        self.program = program
        self.piece = piece
        self.started = []
        self.ends = []
        self.served = threading.Condition()
        self.listener = socket.create_server((HOST, 0))
        self.port = self.listener.getsockname()[1]
        threading.Thread(target=self.accept, daemon=True).start()

    def accept(self):
        while True:
            try:
                connection, _ = self.listener.accept()
            except OSError:
                return
            threading.Thread(target=self.serve, args=(connection,), daemon=True).start()

    def serve(self, connection):
        pipe = subprocess.PIPE
        with connection, subprocess.Popen([self.program, "-", "once"], stdin=pipe, stdout=pipe, stderr=pipe, bufsize=0) as it:
            self.started.append(it)
            inward = threading.Thread(target=self.hand_in, args=(connection, it.stdin), daemon=True)
            inward.start()
            self.hand_out(connection, it)
            inward.join(PATIENCE)
            end = (it.wait(), it.stderr.read().decode("utf-8", "replace"))
        with self.served:
            self.ends.append(end)
            self.served.notify_all()

    @staticmethod
    def hand_out(connection, it):
        """Copies what the program writes; then the peer sees the end, and is read to its own, so that it misses nothing."""
        try:
            for written in iter(lambda: it.stdout.read(65536), b""):
                connection.sendall(written)
        except OSError:
            # (the peer left, and says itself what it missed)
            it.kill()
        with contextlib.suppress(OSError):
            connection.shutdown(socket.SHUT_WR)

    def hand_in(self, connection, to):
        """Copies what the peer sends until it ends; what comes after the program's end is dropped."""
        try:
            for sent in iter(lambda: connection.recv(65536), b""):
                for at in range(0, len(sent), self.piece):
                    if not to.closed:
                        self.write(to, sent[at : at + self.piece])
        except OSError:
            pass
        if not to.closed:
            to.close()

    @staticmethod
    def write(to, piece):
        try:
            to.write(piece)
        except BrokenPipeError:
            to.close()

    def check_end(self, place, status, complaint):
        """The program of the connection with this place has ended, with this status and this line."""
        with self.served:
            if not self.served.wait_for(lambda: len(self.ends) > place, PATIENCE):
                raise Wrong(f"the program of connection {place} had not ended after {PATIENCE} seconds")
            if self.ends[place] != (status, complaint):
                raise Wrong(f"the program of connection {place} ended with {self.ends[place]}, and not {(status, complaint)}")

    def close(self):
        """Takes no more connections, and leaves no program behind, whatever it was at."""
        self.listener.close()
        for it in self.started:
            it.kill()


def same(what, found, wanted):
    if found != wanted:
        raise Wrong(f"{what} is {found!r}, and not {wanted!r}")


def record(body, **wanted):
    """The body is a record of these values, made at some moment; returns it as it stands."""
    created = json.loads(body)["created"]
    if not re.fullmatch(r"\d{4}-\d\d-\d\dT\d\d:\d\d:\d\d\.\d{3}Z", created):
        raise Wrong(f"created is {created!r}")
    same("the record", body.decode("utf-8"), written({"created": created, **wanted}))
    return body


def project_record(body, name):
    """The body is the first project's record."""
    names = {"@id": made_id(0), "@type": "Project"}
    return record(body, **names, defaultBranch={"@id": made_id(1)}, description=None, name=name)


def commit_record(body, serial, previous):
    """The body is the record of a commit of the first project, by the serials of its id and of the one before it."""
    previous = previous and {"@id": made_id(previous)}
    names = {"@id": made_id(serial), "@type": "Commit"}
    return record(body, **names, description=None, owningProject={"@id": made_id(0)}, previousCommit=previous)


def branch_record(body, serial, head, name):
    """The body is the record of a branch of the first project."""
    names, head = {"@id": made_id(serial), "@type": "Branch"}, {"@id": made_id(head)}
    return record(body, **names, head=head, name=name, owningProject={"@id": made_id(0)}, referencedCommit=head)


def tag_record(body, serial, commit, name):
    """The body is the record of a tag of the first project."""
    names, commit = {"@id": made_id(serial), "@type": "Tag"}, {"@id": made_id(commit)}
    return record(body, **names, name=name, owningProject={"@id": made_id(0)}, referencedCommit=commit, taggedCommit=commit)


def listed(*members):
    """The body of a list of these members' bodies."""
    return b"[" + b",".join(members) + b"]"


def change_text(payload, identity=None):
    """The body of a commit of one change."""
    return written({"change": [{"identity": identity and {"@id": identity}, "payload": payload}]}).encode("utf-8")


def element_path(commit, identity):
    """The path of an element of the first project, by the serials of the commit and of the identity."""
    return element_at(made_id(0), made_id(commit), made_id(identity))


class Peer:
    """One connection of http.client, which must stay the same connection from request to request."""

    def __init__(self, port):
        self.connection = http.client.HTTPConnection(HOST, port, timeout=PATIENCE)
        self.connection.connect()
        self.socket = self.connection.sock
        # (http.client closes its own where the server is to close)
        self.watched = self.socket.dup()

    def ask(self, method, path, body=None, headers=None):
        self.connection.request(method, path, body, headers or {})
        return self.answer()

    def send_slowly(self, path, body):
        """Sends a request's body in pieces of one to seven bytes, each in a packet of its own."""
        self.socket.setsockopt(socket.IPPROTO_TCP, socket.TCP_NODELAY, 1)
        self.connection.putrequest("POST", path)
        self.connection.putheader("Content-Length", str(len(body)))
        self.connection.endheaders()
        at = 0
        while at < len(body):
            some = 1 + at % 7
            self.connection.send(body[at : at + some])
            at += some
        return self.answer()

    def close(self):
        self.connection.close()
        self.watched.close()

    def answer(self, closes=False):
        """The response's status and its body, whole, with a head of the documented form."""
        if self.connection.sock is not self.socket:
            raise Wrong("the client had to connect again")
        response = self.connection.getresponse()
        body = response.read()
        names = ["Date", "Content-Type", "Content-Length"]
        names += ["Allow"] * (response.status == 405) + ["Connection"] * closes
        same("the list of fields", [name for name, _ in response.getheaders()], names)
        same("the version", response.version, 11)
        same("whether the server closes", response.will_close, closes)
        same("Content-Type", response.getheader("Content-Type"), "application/json")
        when = email.utils.parsedate_to_datetime(response.getheader("Date")).timestamp()
        if abs(time.time() - when) > PATIENCE:
            raise Wrong(f"Date is {response.getheader('Date')}")
        self.length = int(response.getheader("Content-Length"))
        self.allowed = response.getheader("Allow")
        return response.status, body


def session_of_http_client(bridge):
    """Keep-alive, a refused body, HEAD, a body in many small pieces, and then a request that ends the session."""
    peer = Peer(bridge.port)
    status, made = peer.ask("POST", "/projects", '{"name":"P"}', {"Content-Type": "application/json"})
    same("the status", status, 201)
    project_record(made, "P")
    same("the project", peer.ask("GET", PROJECT), (200, made))
    same("another project", peer.ask("GET", "/projects/" + made_id(7)), (404, (ERROR % "unknown-project").encode()))
    same("a wrong body", peer.ask("POST", "/projects", '{"name":'), (400, (ERROR % "bad-json").encode()))
    same("HEAD", peer.ask("HEAD", "/projects"), (405, b""))
    same("what HEAD tells", (peer.length, peer.allowed), (len(ERROR % "no-method"), "GET, POST"))
    same("the project after HEAD", peer.ask("GET", PROJECT), (200, made))
    name = "slowly, slowly \u00e9 " * 100
    body = json.dumps({"name": name}, ensure_ascii=False).encode("utf-8")
    status, second = peer.send_slowly("/projects", body)
    same("the status of a slow body", (status, json.loads(second)["name"]), (201, name))
    same("the first project after it", peer.ask("GET", PROJECT), (200, made))
    peer.connection.request("POST", "/projects", iter([b"{}"]), {"Transfer-Encoding": "chunked"}, encode_chunked=True)
    same("a chunked body", peer.answer(closes=True), (501, (ERROR % "unknown-coding").encode()))
    same("what comes after the last response", peer.watched.recv(1), b"")
    peer.close()
    bridge.check_end(0, 6, REFUSED)


def commits_of_http_client(bridge):
    """A session that commits, and reads back what each commit holds, also after the element was replaced and deleted."""
    peer, json_type = Peer(bridge.port), {"Content-Type": "application/json"}
    project_record(peer.ask("POST", "/projects", '{"name":"P"}', json_type)[1], "P")
    old = {"@type": "Package", "declaredName": "A \u00e9\U0001f600\n", "n": [2**64 - 1, -(2**63), None]}
    new = {"@type": "Package", "declaredName": "B", "text": "slowly " * 1000}
    shown = [written({**it, "@id": made_id(4)}).encode("utf-8") for it in (old, new)]
    status, made = peer.ask("POST", COMMITS, change_text(old), json_type)
    same("the status of a commit", (status, commit_record(made, 2, None)), (201, made))
    same("the element", peer.ask("GET", element_path(2, 4)), (200, shown[0]))
    status, made = peer.send_slowly(COMMITS, change_text(new, made_id(4)))
    same("the status of a slow commit", (status, commit_record(made, 5, 2)), (201, made))
    same("the element as it was", peer.ask("GET", element_path(2, 4)), (200, shown[0]))
    same("the element as it is", peer.ask("GET", element_path(5, 4)), (200, shown[1]))
    late = written({"previousCommit": {"@id": made_id(2)}})
    moved = written({"@type": "Error", "error": "head-moved", "head": {"@id": made_id(5)}}).encode()
    same("a commit on an old head", peer.ask("POST", COMMITS, late, json_type), (409, moved))
    status, made = peer.ask("POST", COMMITS, change_text(None, made_id(4)), json_type)
    same("the status of a delete", (status, commit_record(made, 7, 5)), (201, made))
    same("the element that was deleted", peer.ask("GET", element_path(7, 4)), (404, (ERROR % "unknown-element").encode()))
    same("a delete again", peer.ask("POST", COMMITS, change_text(None, made_id(4)))[0], 409)
    same("the element before it was deleted", peer.ask("GET", element_path(5, 4)), (200, shown[1]))
    same("the element at first", peer.ask("GET", element_path(2, 4)), (200, shown[0]))
    peer.close()
    bridge.check_end(0, 0, "")


def branches_of_http_client(bridge):
    """A session of a branch and a tag, with PUT and DELETE, and lists of what was made."""
    peer, json_type = Peer(bridge.port), {"Content-Type": "application/json"}
    posts = lambda path, body: peer.ask("POST", path, body, json_type)
    branches, tags = PROJECT + "/branches", PROJECT + "/tags"
    same("no projects", peer.ask("GET", "/projects"), (200, b"[]"))
    project = project_record(posts("/projects", '{"name":"P"}')[1], "P")
    first = commit_record(posts(COMMITS, change_text({"n": 1}))[1], 2, None)
    status, made = posts(branches, written({"name": "x", "head": {"@id": made_id(2)}}))
    same("the status of a branch", (status, branch_record(made, 5, 2, "x")), (201, made))
    status, last = posts(COMMITS + "?branchId=" + made_id(5), change_text({"n": 2}, made_id(4)))
    same("the status of a commit on it", (status, commit_record(last, 6, 2)), (201, last))
    same("the branch's commits", peer.ask("GET", COMMITS + "?branchId=" + made_id(5)), (200, listed(first, last)))
    same("the default branch's commits", peer.ask("GET", COMMITS + "?branchId=" + made_id(1)), (200, listed(first)))
    version = {"@id": made_id(7), "@type": "DataVersion", "identity": {"@id": made_id(4), "@type": "DataIdentity"}}
    version = written({**version, "payload": {"@id": made_id(4), "n": 2}}).encode()
    same("the commit's changes", peer.ask("GET", f"{COMMITS}/{made_id(6)}/changes"), (200, listed(version)))
    same("its one change", peer.ask("GET", f"{COMMITS}/{made_id(6)}/changes/{made_id(7)}"), (200, version))
    status, tag = posts(tags, written({"name": "v1", "taggedCommit": {"@id": made_id(6)}}))
    same("the status of a tag", (status, tag_record(tag, 8, 6, "v1")), (201, tag))
    same("the tags", peer.ask("GET", tags), (200, listed(tag)))
    same("a tag that goes", peer.ask("DELETE", f"{tags}/{made_id(8)}"), (200, tag))
    same("a tag that went", peer.ask("DELETE", f"{tags}/{made_id(8)}"), (404, (ERROR % "unknown-tag").encode()))
    same("the default branch stays", peer.ask("DELETE", f"{branches}/{made_id(1)}")[0], 409)
    moves = written({"name": "P", "defaultBranch": {"@id": made_id(5)}})
    moved = project.replace(made_id(1).encode(), made_id(5).encode())
    same("an update", peer.ask("PUT", PROJECT, moves, json_type), (200, moved))
    status, gone = peer.ask("DELETE", f"{branches}/{made_id(1)}")
    same("a branch that goes", (status, branch_record(gone, 1, 2, None)), (200, gone))
    shown = branch_record(peer.ask("GET", f"{branches}/{made_id(5)}")[1], 5, 6, "x")
    same("the branches", peer.ask("GET", branches), (200, listed(shown)))
    same("a method that isn't there", (peer.ask("PATCH", branches)[0], peer.allowed), (405, "GET, POST"))
    same("the projects", peer.ask("GET", "/projects"), (200, listed(moved)))
    same("a project that goes", peer.ask("DELETE", PROJECT), (200, moved))
    same("the project that went", peer.ask("GET", branches), (404, (ERROR % "unknown-project").encode()))
    peer.close()
    bridge.check_end(0, 0, "")


def each_connection_starts_anew(bridge):
    """Another connection has another program, whose repository is empty, and which ends well when the client leaves."""
    peer = Peer(bridge.port)
    same("a project of the other connection", peer.ask("GET", PROJECT), (404, (ERROR % "unknown-project").encode()))
    peer.close()
    bridge.check_end(0, 0, "")


def run_curl(bridge, requests, says):
    """One call of curl, whose judgement of each transfer and of the connections made for it is told; returns the bodies."""
    url, places = f"http://{HOST}:{bridge.port}", []
    with tempfile.TemporaryDirectory() as folder:
        words = []
        for number, (path, *more) in enumerate(requests):
            places.append(os.path.join(folder, str(number)))
            words += ["--next"] * bool(number) + ["-sS", "--noproxy", "*", "--max-time", str(PATIENCE), "-o", places[-1]]
            words += ["-w", "%{http_code} %{num_connects}\n", *more, url + path]
        ended = subprocess.run(["curl", "-q", "--fail-early", *words], capture_output=True, timeout=2 * PATIENCE, text=True)
        same("what curl complains of", (ended.returncode, ended.stderr), (0, ""))
        same("what curl says of its transfers", ended.stdout.split("\n")[:-1], says)
        return [read(place) for place in places]


def session_of_curl(bridge):
    """The first session by one call of curl: it stays on one connection until it is refused."""
    requests = [
        ("/projects", *posted('{"name":"P"}')),
        (PROJECT,),
        ("/projects", "--head"),
        ("/projects", *posted("{")),
        (PROJECT,),
        ("/projects", "-H", "Transfer-Encoding: chunked", "--data-binary", "{}"),
        (PROJECT,),
    ]
    bodies = run_curl(bridge, requests, ["201 1", "200 0", "405 0", "400 0", "200 0", "501 0", "404 1"])
    made, head = project_record(bodies[0], "P"), bodies.pop(2)
    same("the last lines of what HEAD gets", head.split(b"\r\n")[-4:], [b"Content-Length: 37", b"Allow: GET, POST", b"", b""])
    errors = [(ERROR % text).encode() for text in ("bad-json", "unknown-coding", "unknown-project")]
    same("what curl got", bodies[1:], [made, errors[0], made, errors[1], errors[2]])
    bridge.check_end(0, 6, REFUSED)
    bridge.check_end(1, 0, "")


def commits_of_curl(bridge):
    """Commits and reads by one call of curl, all on one connection."""
    payloads = [{"@type": "Package", "declaredName": name} for name in ("A", "B \u00e9")]
    requests = [
        ("/projects", *posted("{}")),
        (COMMITS, *posted(change_text(payloads[0]).decode("utf-8"))),
        (element_path(2, 4),),
        (COMMITS, *posted(change_text(payloads[1], made_id(4)).decode("utf-8"))),
        (element_path(2, 4),),
        (element_path(5, 4) + "?excludeUsed=true",),
        (COMMITS, *posted('{"change":1}')),
        (COMMITS, *posted(change_text(None, made_id(4)).decode("utf-8"))),
        (element_path(7, 4),),
        (element_path(5, 4),),
    ]
    says = ["201 1", "201 0", "200 0", "201 0", "200 0", "200 0", "400 0", "201 0", "404 0", "200 0"]
    bodies = run_curl(bridge, requests, says)
    project_record(bodies[0], None)
    for place, serial, before in ((1, 2, None), (3, 5, 2), (7, 7, 5)):
        commit_record(bodies[place], serial, before)
    shown = [written({**it, "@id": made_id(4)}).encode("utf-8") for it in payloads]
    wrong = b'{"@type":"Error","error":"bad-body","key":"change"}'
    same("what curl read", bodies[2:3] + bodies[4:7], [shown[0], shown[0], shown[1], wrong])
    same("what curl read at last", bodies[8:], [(ERROR % "unknown-element").encode(), shown[1]])
    bridge.check_end(0, 0, "")


def branches_of_curl(bridge):
    """A branch and a tag by one call of curl, with its own ways of PUT and DELETE."""
    branches, tags = PROJECT + "/branches", PROJECT + "/tags"
    lost = ("-X", "DELETE")
    requests = [
        ("/projects", *posted('{"name":"P"}')),
        (COMMITS, *posted("{}")),
        (branches, *posted(written({"name": "x", "head": {"@id": made_id(2)}}))),
        (COMMITS + "?branchId=" + made_id(3), *posted("{}")),
        (tags, *posted(written({"taggedCommit": {"@id": made_id(4)}}))),
        (COMMITS,),
        (f"{tags}/{made_id(5)}", *lost),
        (PROJECT, "-X", "PUT", *posted('{"name":"Q"}')),
        (f"{branches}/{made_id(3)}", *lost),
        (branches,),
        (PROJECT, *lost),
        ("/projects",),
    ]
    bodies = run_curl(bridge, requests, ["201 1"] + ["201 0"] * 4 + ["200 0"] * 7)
    project, first, branch, last, tag, listing, lost_tag, renamed, lost_branch, left, gone, none = bodies
    commits = listed(commit_record(first, 2, None), commit_record(last, 4, 2))
    same("the commits", listing, commits)
    branch_record(branch, 3, 2, "x")
    branch_record(lost_branch, 3, 4, "x")
    same("the tag that went", lost_tag, tag_record(tag, 5, 4, None))
    same("the project that was updated", renamed, project_record(project, "P").replace(b'"name":"P"', b'"name":"Q"'))
    same("the branches that are left", left, listed(branch_record(left[1:-1], 1, 2, None)))
    same("what went last", (gone, none), (renamed, b"[]"))
    bridge.check_end(0, 0, "")


def posted(body):
    """What curl is told of a request with this body."""
    return ["-H", "Content-Type: application/json", "--data-binary", body]


def read(place):
    """The file's content, or nothing where curl had no body to write."""
    if not os.path.exists(place):
        return b""
    with open(place, "rb") as it:
        return it.read()


def main():
    program, started = program_named(), time.monotonic()
    sessions = [session_of_http_client, commits_of_http_client, branches_of_http_client, each_connection_starts_anew]
    if shutil.which("curl"):
        sessions += [session_of_curl, commits_of_curl, branches_of_curl]
    else:
        print("client: the sessions by curl are skipped: there is no curl on PATH")
    count, failures = 0, []
    for session in sessions:
        for piece in (65536, 1):
            bridge, count = Bridge(program, piece), count + 1
            try:
                session(bridge)
            except (Wrong, OSError, ValueError, http.client.HTTPException, subprocess.TimeoutExpired) as why:
                failures.append(f"{session.__name__}, {piece} bytes at a time: {type(why).__name__}: {why}")
            bridge.close()
    conclude("client", count, started, failures)


if __name__ == "__main__":
    main()
