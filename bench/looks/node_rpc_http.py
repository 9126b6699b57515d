#!/usr/bin/python3
"""Asks a node by JSON-RPC as clients and strangers may: /usr/bin/python3 bench/looks/node_rpc_http.py [PROGRAM] [--only NAME] [--at PORT]

It needs the program, Linux, curl, and Debian's package python3-bitcoinlib, which
that python3 finds. It takes some 70 seconds. With --at it looks at what listens at that port already, in place of a program; that must
know `getblockcount` and `stop`, and the user and password of --words. What methods answer is in node_rpc.py. Behind each look the next
client is served. The status is 0 where all came out so.
"""

import http.client
import json
import random
import socket
import subprocess
import sys
import tempfile
import threading
import time
from concurrent.futures import ThreadPoolExecutor
from pathlib import Path

sys.path.insert(0, str(Path(__file__).resolve().parents[2]))

import bitcoin
import bitcoin.rpc

from bench.tools.looks import Looks
from bench.tools.process_talk import NodeProcess, closed_port
from bench.tools.programs import built, usage
from bench.tools.rpc_client import HOST, RpcClient, all_read, basic, closed_after, opened, request

WORDS = "user:secret"
COUNT = {"method": "getblockcount", "params": [], "id": 1}
# In how many seconds a still connection, and a request that isn't whole, is closed, and how much later on a busy machine.
STILL, WHOLE, LATE = 5, 30, 5
# How long a stranger waits, in seconds.
PAUSE = 0.25
WORKERS = 16
CLIENTS, CALLS = 100, 20
MUTATED, SEED = 1_000, 1
MOST_REQUESTS, MOST_BODY, MOST_HEAD = 1_000, 4_000_000, 16_384
IDS = ["1", "-1", "1.50", "1e400", '"a\\"b\u00e9"', "null", "true", '[1,{"a":null}]', '{"b":[]}', "123456789012345678901234567890"]
HOSTS = {"127.0.0.1": 200, "127.0.0.1:18443": 200, "localhost": 200, "LOCALHOST:1": 200, "[::1]": 200, "[::1]:18443": 200, "127.1.2.3": 200,
         "example.com": 403, "localhost.example.com": 403, "127.0.0.1.example.com": 403, "127.example.com": 403, "10.0.0.1": 403,
         "[::2]": 403, "0.0.0.0": 403, "localhostx": 403, "": 403}
TYPES = {"application/json": 200, "application/json; charset=utf-8": 200, "Application/JSON": 200, "application/json-rpc": 200,
         "text/plain": 415, "text/plain;": 415, "application/x-www-form-urlencoded": 415, "application/jso": 415, "": 415, None: 415}


class Served(Looks):
    """JSON-RPC at a port."""

    def __init__(self, name, port, words):
        super().__init__(name, None)
        self.port, self.words = port, words
        self.height = None

    def client(self, **given):
        """A client that knows the password."""
        return RpcClient(self.port, self.words, **given)

    def make(self, look):
        """Makes a look, and then a plain call."""
        began = time.monotonic()
        look()
        self.serves(look.__name__)
        print(f"{self.name}: {look.__name__} took {time.monotonic() - began:.1f} s", flush=True)

    def serves(self, when):
        """A plain call is answered."""
        with self.client() as client:
            self.look(f"the height after {when}", client.result("getblockcount"), self.height)

    def tells(self, what, answer, status, value):
        """An answer is this one. A value of None stands for no body."""
        self.look(f"{what}: its status", answer.status, status)
        self.look(f"{what}: its value", answer.json() if answer.body else None, value)

    # ---- the text

    def answers(self):
        """One request: JSON-RPC 1.x and 2.0."""
        height = self.height
        old = {"result": height, "error": None}
        with self.client() as client:
            self.tells("a call", client.post(COUNT), 200, {**old, "id": 1})
            self.tells("a call of 1.0", client.post({**COUNT, "jsonrpc": "1.0"}), 200, {**old, "id": 1})
            self.tells("one with no id", client.post({"method": "getblockcount"}), 200, {**old, "id": None})
            self.tells("one of 2.0", client.post({**COUNT, "jsonrpc": "2.0"}), 200, {"jsonrpc": "2.0", "result": height, "id": 1})
            self.tells("one of 2.0 with the id null", client.post({**COUNT, "jsonrpc": "2.0", "id": None}), 200,
                      {"jsonrpc": "2.0", "result": height, "id": None})
            self.tells("a notification", client.post({"jsonrpc": "2.0", "method": "getblockcount"}), 204, None)
            self.tells("one of no method", client.post({"jsonrpc": "2.0", "method": "nope"}), 204, None)
            answer = client.post(COUNT)
            self.look("the content type", answer.headers.get("content-type"), "application/json")
            self.look("the order of fields", list(answer.json()), ["result", "error", "id"])
            answer = client.post({**COUNT, "jsonrpc": "2.0"})
            self.look("the order of fields in 2.0", list(answer.json()), ["jsonrpc", "result", "id"])
            for name in IDS:
                answer = client.post(('{"method":"getblockcount","id":%s}' % name).encode())
                self.look(f"the id {name}", answer.body.decode(), '{"result":%d,"error":null,"id":%s}\n' % (height, name))

    def faults(self):
        """Requests that are none."""
        with self.client() as client:
            for body, status, code in (('{"method":', 500, -32700), ("", 500, -32700), ("\xff", 500, -32700), ("3", 500, -32700),
                                       ("null", 500, -32700), ('{"id":1}', 400, -32600), ('{"method":3,"id":1}', 400, -32600),
                                       ('{"method":"nope","id":1}', 404, -32601)):
                answer = client.post(body.encode("latin-1"))
                self.look(f"{body!r}: its status", answer.status, status)
                value = answer.json()
                self.look(f"{body!r}: its parts", (value["result"], value["error"]["code"], sorted(value["error"])),
                          (None, code, ["code", "message"]))
                self.look(f"{body!r}: its id", value["id"], 1 if '"id":1' in body else None)
            answer = client.post({"jsonrpc": "2.0", "method": "nope", "id": 5})
            self.look("of 2.0: its status", answer.status, 200)
            self.look("of 2.0: its parts", (answer.json()["error"]["code"], list(answer.json())), (-32601, ["jsonrpc", "error", "id"]))

    def batches(self):
        """Lists of requests in their order, of 1,000 and of 1,001 too."""
        with self.client() as client:
            mixed = [COUNT, {"method": "nope", "id": "b"}, {"jsonrpc": "2.0", "method": "getblockcount"}, 7, [], None,
                     {"jsonrpc": "2.0", "method": "nope", "id": "c"}, {"jsonrpc": "2.0", "method": "getblockcount", "id": [1]}]
            answer = client.post(mixed)
            self.look("a mixed batch: its status", answer.status, 200)
            self.look("a mixed batch: its ids", [one["id"] for one in answer.json()], [1, "b", None, None, None, "c", [1]])
            self.look("a mixed batch: its codes", [(one.get("error") or {}).get("code") for one in answer.json()],
                      [None, -32601, -32600, -32600, -32600, -32601, None])
            self.tells("an empty batch", client.post([]), 200, [])
            self.tells("a batch of notifications", client.post([{"jsonrpc": "2.0", "method": "getblockcount"}] * 3), 204, None)
            many = [{**COUNT, "id": n} for n in range(MOST_REQUESTS)]
            answer = client.post(many)
            self.look("1,000 requests: the ids", [one["id"] for one in answer.json()], list(range(MOST_REQUESTS)))
            answer = client.post([*many, COUNT])
            self.look("1,001 requests", (answer.status, answer.json()["error"]["code"]), (400, -32600))

    # ---- who is refused

    def strangers(self):
        """Who lacks the password waits for 250 ms, and is refused."""
        user, _, password = self.words.partition(":")
        wrong = [f"{user}:{it}" for it in (f"{password}x", password[:-1], "x" * len(password), "")] + [f"{user}x:{password}", ":", ""]
        for words in wrong:
            with RpcClient(self.port, words) as client:
                began = time.monotonic()
                answer = client.post(COUNT)
                self.look(f"{words!r}: its status and body", (answer.status, answer.body), (401, b""))
                self.look(f"{words!r}: what it is asked for", answer.headers.get("www-authenticate"), 'Basic realm="jsonrpc"')
                self.look(f"{words!r}: whether it waits", time.monotonic() - began >= PAUSE, True)
        right = basic(self.words)["Authorization"]
        for value in (right[6:], right.lower(), f" {right} x", f"Bearer {right[6:]}", right + "="):
            with self.client() as client:
                answer = client.post(COUNT, {**client.headers, "Authorization": value})
                self.look(f"{value!r}: its status", answer.status, 401)
        with RpcClient(self.port, "x:y") as client:
            self.look("no header: its status", client.post(COUNT, {"Content-Type": "application/json"}).status, 401)

    def strangers_hold_up_nobody(self):
        """Many who lack the password, beside one who has it."""
        stop = threading.Event()

        def knock():
            while not stop.is_set():
                with RpcClient(self.port, "x:y") as client:
                    client.post(COUNT)

        knocking = [threading.Thread(target=knock) for _ in range(WORKERS // 2)]
        for one in knocking:
            one.start()
        took = []
        with self.client() as client:
            for _ in range(50):
                began = time.monotonic()
                client.result("getblockcount")
                took.append(time.monotonic() - began)
        stop.set()
        for one in knocking:
            one.join()
        print(f"{self.name}: beside strangers a call takes {1000 * sorted(took)[25]:.1f} ms, at most {1000 * max(took):.0f} ms")
        self.look("whether half of the calls take less than a stranger's pause", sorted(took)[25] < PAUSE, True)

    def heads(self):
        """Methods, hosts, origins and content types."""
        with self.client() as client:
            for method in ("GET", "HEAD", "PUT", "OPTIONS", "DELETE"):
                answer = client.post("", method=method)
                self.look(f"{method}: its status and header", (answer.status, answer.headers.get("allow")), (405, "POST"))
            self.look("GET: its body", client.post("", method="GET").body, b"JSONRPC server handles only POST requests")
            self.look("GET without the password", client.post("", {}, "GET").status, 405)
            for origin in ("http://example.com", "null", "http://127.0.0.1"):
                self.look(f"the origin {origin}", client.post(COUNT, {**client.headers, "Origin": origin}).status, 403)
            for host, status in HOSTS.items():
                self.look(f"the host {host!r}", client.post(COUNT, {**client.headers, "Host": host}).status, status)
            for name, status in TYPES.items():
                headers = {**basic(self.words), **({} if name is None else {"Content-Type": name})}
                self.look(f"the content type {name!r}", client.post(json.dumps(COUNT).encode(), headers).status, status)
            client.connection.request("POST", "/wallet/x", json.dumps(COUNT), client.headers)
            self.look("another path", client.connection.getresponse().status, 200)

    # ---- clients

    def library(self):
        """bitcoinlib's Proxy."""
        bitcoin.SelectParams("regtest")
        proxy = bitcoin.rpc.Proxy(f"http://{self.words}@{HOST}:{self.port}", timeout=60)
        for _ in range(50):
            self.look("the height", proxy.getblockcount(), self.height)
        try:
            proxy.call("nope")
            self.look("whether an unknown method is refused", False, True)
        except bitcoin.rpc.JSONRPCError as error:
            self.look("its number", error.error["code"], -32601)
        proxy.close()

    def curl(self, *words, body=json.dumps(COUNT)):
        """What curl prints: the body, the status, and how many connections it made, for each address."""
        address = f"http://{HOST}:{self.port}/"
        with tempfile.NamedTemporaryFile("w") as file:
            file.write(body)
            file.flush()
            command = ["curl", "-s", "-m", "30", "-u", self.words, "-H", "content-type: application/json",
                       "-w", "%{http_code} %{num_connects}\n", *words, "--data-binary", f"@{file.name}", address, address]
            return subprocess.run(command, capture_output=True, text=True, timeout=90, check=False).stdout.split("\n")

    def curls(self):
        """curl: a kept connection, chunks, Expect, a large body."""
        line = '{"result":%d,"error":null,"id":1}' % self.height
        for words in ((), ("-H", "Transfer-Encoding: chunked"), ("-H", "Expect: 100-continue"), ("--http1.0",)):
            again = "1" if "--http1.0" in words else "0"
            self.look(f"curl {' '.join(words)}", self.curl(*words), [line, "200 1", line, f"200 {again}", ""])
        self.look("a large body", self.curl(body=json.dumps({**COUNT, "x": "y" * 3_000_000})), [line, "200 1", line, "200 0", ""])

    # ---- limits

    def long_ones(self):
        """Heads and bodies past their limits, and deep nesting."""
        with self.client() as client:
            room = MOST_BODY - len(json.dumps({**COUNT, "x": ""}))
            self.look("a body of 4,000,000 bytes", client.post({**COUNT, "x": "y" * room}).status, 200)
            for body in ("[" * 100_000, '{"method":' * 100_000, '{"method":"getblockcount","params":' + "[" * 100_000):
                self.look(f"{body[:12]} nested", client.post(body).status, 500)
        for what, text, status in (("a body", request(self.words, b"", length=MOST_BODY + 1), b"413"),
                                   ("a line", b"POST /" + b"a" * 20_000 + b" HTTP/1.1\r\n", b"414"),
                                   ("a head", request(self.words, b"", "X: " + "a" * 20_000), b"431"),
                                   ("100 fields", request(self.words, b"", *["X: a"] * 100), b"431"),
                                   ("no host", b"POST / HTTP/1.1\r\n\r\n", b"400"), ("no request", b"\x00" * 100, b"400"),
                                   ("an unknown coding", b"POST / HTTP/1.1\r\nHost: x\r\nTransfer-Encoding: gzip, chunked\r\n\r\n", b"501")):
            with opened(self.port) as stream:
                stream.sendall(text)
                self.look(f"{what}: its status", all_read(stream)[9:12], status)

    def slow_ones(self):
        """Connections that say nothing, or little by little, all at once."""
        def still(text):
            with opened(self.port) as stream:
                stream.sendall(text)
                return closed_after(stream)

        def trickles(text, pause):
            began = time.monotonic()
            with opened(self.port) as stream:
                try:
                    for place in range(len(text)):
                        stream.sendall(text[place:place + 1])
                        time.sleep(pause)
                except (ConnectionResetError, BrokenPipeError):
                    pass
            return time.monotonic() - began

        whole = request(self.words, json.dumps(COUNT).encode())
        with ThreadPoolExecutor(8) as pool:
            nothing = pool.submit(still, b"")
            kept = pool.submit(still, whole)
            head, body = pool.submit(still, whole[:40]), pool.submit(still, whole[:-5])
            slow_head = pool.submit(trickles, whole[:60] + b"X" * 400, 0.25)
            slow_body = pool.submit(trickles, request(self.words, b"x" * 300), 0.125)
            quick = pool.submit(trickles, whole, 0.02)
            self.serves("slow ones begin")
            for what, one, least in (("nothing", nothing, STILL), ("an answered one", kept, STILL), ("half a head", head, WHOLE),
                                     ("half a body", body, WHOLE)):
                seconds = one.result()[0]
                self.look(f"whether {what} is closed in time ({seconds:.1f} s)", least - 1 <= seconds <= least + LATE, True)
            self.look("what the answered one was told", kept.result()[1].count(b"HTTP/1.1 200"), 1)
            for what, one in (("head", slow_head), ("body", slow_body)):
                seconds = one.result()
                self.look(f"whether a slow {what} is closed in time ({seconds:.1f} s)", WHOLE - 1 <= seconds <= WHOLE + LATE, True)
            quick.result()

    def still_ones_give_way(self):
        """As many still connections as there are workers: a client gets in once they give way."""
        still = [opened(self.port) for _ in range(WORKERS)]
        began = time.monotonic()
        self.serves("still ones")
        self.look("whether that was in time", time.monotonic() - began <= STILL + LATE, True)
        for one in still:
            one.close()

    def cut_ones(self):
        """Requests that end early, and connections that are reset."""
        whole = request(self.words, json.dumps(COUNT).encode())
        for place in range(0, len(whole), 7):
            with opened(self.port) as stream:
                stream.sendall(whole[:place])
                if place % 2:
                    stream.shutdown(socket.SHUT_WR)
                    all_read(stream)
        with opened(self.port) as stream:  # two requests at once, and the end of input
            stream.sendall(whole * 2)
            stream.shutdown(socket.SHUT_WR)
            self.look("two at once", all_read(stream).count(b"HTTP/1.1 200"), 2)

    def mutated_ones(self):
        """1,000 bodies mutated from good ones: each is answered or closed."""
        draw = random.Random(SEED)
        good = COUNT, {**COUNT, "jsonrpc": "2.0"}, [COUNT, COUNT], {**COUNT, "params": {"a": [1.5, "x"]}}
        good = [json.dumps(one).encode() for one in good]
        kinds = {}
        client = self.client()
        for _ in range(MUTATED):
            body = bytearray(draw.choice(good))
            for _ in range(draw.randint(1, 4)):
                place = draw.randrange(len(body))
                change = draw.randrange(3)
                if change == 0:
                    body[place] = draw.randrange(256)
                elif change == 1 and len(body) > 1:
                    del body[place]
                else:
                    body[place:place] = bytes([draw.choice(b'{}[]",:0e-\\\xff')])
            if b"stop" in body:
                continue
            try:
                status = client.post(bytes(body)).status
            except (http.client.HTTPException, OSError):
                status = None
                client.connection.close()
            kinds[status] = kinds.get(status, 0) + 1
        client.connection.close()
        print(f"{self.name}: mutated bodies by status: {kinds}")
        self.look("whether each is answered", set(kinds) <= {200, 204, 400, 404, 500}, True)

    # ---- many

    def many(self, kept):
        """What a client's calls are answered, on a kept connection or on new ones."""
        right = 0
        if kept:
            with self.client() as client:
                right = sum(client.post({**COUNT, "id": n}).json() == {"result": self.height, "error": None, "id": n} for n in range(CALLS))
        else:
            for n in range(CALLS):
                with self.client() as client:
                    right += client.post({**COUNT, "id": n}).json()["id"] == n
        return right

    def many_clients(self):
        """100 clients at once, on kept connections and on new ones."""
        for kept in (True, False):
            began = time.monotonic()
            with ThreadPoolExecutor(CLIENTS) as pool:
                right = sum(pool.map(self.many, [kept] * CLIENTS))
            took = time.monotonic() - began
            how = "kept" if kept else "new"
            print(f"{self.name}: {CLIENTS} clients, {CALLS} calls each, {how} connections: {CLIENTS * CALLS / took:.0f} a second")
            self.look("how many calls are answered", right, CLIENTS * CALLS)

    def pace(self):
        """How long a call takes."""
        with self.client() as client:
            began = time.monotonic()
            for _ in range(1_000):
                client.post(COUNT)
            print(f"{self.name}: a call on a kept connection takes {time.monotonic() - began:.3f} ms")

    def stops(self):
        """`stop` is answered, and all connections end."""
        still = [opened(self.port) for _ in range(WORKERS // 2)]
        with opened(self.port) as half:
            half.sendall(request(self.words, b"", length=5))
            with self.client() as client:
                self.look("stop", client.post({"method": "stop", "id": 1}).status, 200)
                began = time.monotonic()
                for one in [*still, half]:
                    all_read(one)
                    one.close()
                self.look("whether all end in time", time.monotonic() - began <= LATE, True)
        end = time.monotonic() + LATE
        while time.monotonic() < end:
            try:
                opened(self.port).close()
            except ConnectionRefusedError:
                break
            time.sleep(0.05)
        else:
            self.look("whether nobody listens", False, True)


def look_all(port, words, only):
    """Makes all looks, or one, at what listens at a port, and ends it. The exit status comes back."""
    looks = Served("node_rpc_http", port, words)
    with looks.client() as client:
        looks.height = client.result("getblockcount")
    for look in (looks.answers, looks.faults, looks.batches, looks.strangers, looks.strangers_hold_up_nobody, looks.heads,
                 looks.library, looks.curls, looks.long_ones, looks.cut_ones, looks.mutated_ones, looks.many_clients, looks.pace,
                 looks.still_ones_give_way, looks.slow_ones):
        if only in (None, look.__name__):
            looks.make(look)
    looks.stops()
    return looks.told()


def main():
    words = usage(__doc__, program="the program")
    words.add_argument("--only", help="the name of the look to make alone")
    words.add_argument("--at", type=int, help="the port at which JSON-RPC is served already")
    words.add_argument("--words", default=WORDS, help="user and password there, as user:password")
    given = words.parse_args()
    if given.at:
        return look_all(given.at, given.words, given.only)
    user, _, password = WORDS.partition(":")
    port = closed_port()
    key = ("--rpc", f"{HOST}:{port}", "--rpc-user", user, "--rpc-password", password)
    with NodeProcess(built(given.program, "cbrelay"), "--no-input", *key):
        return look_all(port, WORDS, given.only)


if __name__ == "__main__":
    sys.exit(main())
