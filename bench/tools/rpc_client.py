"""A client of JSON-RPC over HTTP, and raw requests."""

import base64
import http.client
import json
import socket
import time

HOST = "127.0.0.1"
SECONDS = 60


def basic(words):
    """The header of who knows `user:password`."""
    return {"Authorization": "Basic " + base64.b64encode(words.encode()).decode()}


class Told:
    """What a request is answered: status, headers by small names, body."""

    def __init__(self, response):
        self.status, self.body = response.status, response.read()
        self.headers = {name.lower(): value for name, value in response.getheaders()}

    def json(self):
        """The body as a value. It must be a line."""
        if not self.body.endswith(b"\n"):
            raise ValueError(f"{self.body[:200]!r} is no line")
        return json.loads(self.body)


class RpcClient:
    """A kept connection to a node's JSON-RPC."""

    def __init__(self, port, words, seconds=SECONDS):
        self.headers = {**basic(words), "Content-Type": "application/json"}
        self.connection = http.client.HTTPConnection(HOST, port, timeout=seconds)

    def __enter__(self):
        return self

    def __exit__(self, *_):
        self.connection.close()

    def post(self, body, headers=None, method="POST", **given):
        """What a body is answered; one that isn't text is written as JSON."""
        if not isinstance(body, (str, bytes)) and not hasattr(body, "__next__"):
            body = json.dumps(body)
        self.connection.request(method, "/", body, self.headers if headers is None else headers, **given)
        return Told(self.connection.getresponse())

    def call(self, method, *params, **more):
        """The answer to a call, as a value with `result`, `error` and `id`."""
        return self.post({"method": method, "params": list(params), "id": 1, **more}).json()

    def result(self, method, *params):
        """The result of a call that isn't refused."""
        answer = self.call(method, *params)
        if answer["error"] is not None:
            raise ValueError(f"{method} {params}: {answer['error']}")
        return answer["result"]

    def code(self, method, *params):
        """The number by which a call is refused."""
        return (self.call(method, *params)["error"] or {}).get("code")


def request(words, body, *lines, method="POST", length=None):
    """The bytes of a request, with these lines more in its head."""
    head = [f"{method} / HTTP/1.1", "Host: 127.0.0.1", "Authorization: " + basic(words)["Authorization"], "Content-Type: application/json",
            f"Content-Length: {len(body) if length is None else length}", *lines]
    return ("\r\n".join(head) + "\r\n\r\n").encode() + body


def opened(port, seconds=SECONDS):
    """A connection."""
    return socket.create_connection((HOST, port), seconds)


def all_read(stream):
    """All bytes until the peer closes the connection."""
    parts = []
    try:
        while part := stream.recv(1 << 16):
            parts.append(part)
    except (ConnectionResetError, BrokenPipeError):
        pass
    return b"".join(parts)


def closed_after(stream):
    """After how many seconds the peer closes the connection, and what it sent before."""
    began = time.monotonic()
    read = all_read(stream)
    return time.monotonic() - began, read
