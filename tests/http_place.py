"""A server that answers browsers and monitors too, and what it answers them."""

import http.client
import json
import re
import socket

from serving import Server
from waiting import PATIENCE, comes_to

ANSWERED = re.compile(r"browsers and monitors are answered at http://([0-9.]+):(\d+)/")
# A line of the text that monitors read: a name, labels, and a number.
SAMPLE = re.compile(r"(\w+)(\{[^}]*\})? (\S+)")


class SeenServer(Server):
    """A server with `--http`, and its address for HTTP: at this port, or at the one in its log."""

    def __init__(self, snapd, *files, more=(), port=0, **rest):
        super().__init__(snapd, *files, more=("--http", f"127.0.0.1:{port}", *more), **rest)
        try:
            if port == 0:
                comes_to(1, lambda: len(self.places()))
            self.seen_at = ("127.0.0.1", port) if port else self.places()[0]
        except BaseException:
            self.kill()
            raise

    def places(self):
        found = [ANSWERED.fullmatch(it) for it in self.logged("INFO", "http")]
        return [(it[1], int(it[2])) for it in found if it]

    def url(self, path="/"):
        return "http://{}:{}{}".format(*self.seen_at, path)

    def get(self, path, method="GET"):
        """The status, the headers and the content of an answer."""
        connection = http.client.HTTPConnection(*self.seen_at, timeout=PATIENCE)
        try:
            connection.request(method, path)
            answer = connection.getresponse()
            return answer.status, dict(answer.getheaders()), answer.read()
        finally:
            connection.close()

    def document(self, path):
        status, headers, content = self.get(path)
        assert status == 200 and headers["content-type"] == "application/json", (status, headers, content)
        return json.loads(content)

    def metrics(self):
        """Each sample by its name and labels."""
        status, headers, content = self.get("/metrics")
        assert (
            status == 200 and headers["content-type"] == "text/plain; version=0.0.4; charset=utf-8"
        ), (status, headers)
        lines = [it for it in content.decode().splitlines() if not it.startswith("#")]
        found = [SAMPLE.fullmatch(it) for it in lines]
        assert all(found), [it for it, is_sample in zip(lines, found) if not is_sample]
        samples = {it[1] + (it[2] or ""): it[3] for it in found}
        assert len(samples) == len(found)
        return samples

    def call_http(self, timeout=PATIENCE):
        """A connection over which bytes can be sent that are no request."""
        return socket.create_connection(self.seen_at, timeout=timeout)
