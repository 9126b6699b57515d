"""Processes of the program: nodes of `cbrelay node` with their operator, and nodes of `cbrelay run` that are told line by line what to
do."""

import contextlib
import os
import queue
import re
import resource
import socket
import subprocess
import threading
import time

from bench.tools.basics import shown
from bench.tools.looks import Looks

# What a connection moved, as `run --stats` and `peers` of `node` tell it.
MOVED = (r"in \d+ messages \d+ payload bytes out \d+ messages \d+ bytes "
         r"blocks full \d+ compact \d+ completed \d+ fallback \d+ saved \d+ bytes")
# How a line of `peers` is told: a slot and a generation, a direction and an address, a phase, what the connection moved, when it was
# made and when its latest message came, how long its latest `pong` took, and what its `version` told.
PEER = re.compile(rf"slot (\d+) connection (\d+) (from|to) (\S+) (start|greeted|ready|over) ({MOVED})"
                  r" since (\d+) last (\d+|-) pong (?:(\d+) ms|-) version (-?\d+|-) height (-?\d+|-) agent ([ -~]*)")
# A yes of an audit: how many answers it compared, and how many a checkpoint had dropped before.
YES = re.compile(r"audit yes (\d+) answers, (\d+) dropped")
# No node has this slot, so a kick of it is told at once, behind all that was told before.
NOWHERE = 64
LISTENS = "0A"


def connected(port, seconds=60, host="127.0.0.1"):
    """A socket that is connected to a node on this machine, from this address. Small writes aren't held back."""
    stream = socket.create_connection(("127.0.0.1", port), seconds, (host, 0))
    stream.setsockopt(socket.IPPROTO_TCP, socket.TCP_NODELAY, 1)
    return stream


def many_descriptors():
    """Lets this process have as many descriptors as the machine allows."""
    most = resource.getrlimit(resource.RLIMIT_NOFILE)[1]
    resource.setrlimit(resource.RLIMIT_NOFILE, (most, most))


def closed_port():
    """A port of the loopback address at which nobody listens."""
    with socket.socket() as one:
        one.bind(("127.0.0.1", 0))
        return one.getsockname()[1]


def counted(line):
    """How many answers an audit that says yes compared, and how many were dropped before. None if it doesn't say yes."""
    told = YES.fullmatch(line or "")
    return (int(told[1]), int(told[2])) if told else None


class Peer:
    """A connection as a line of `peers` tells it."""

    def __init__(self, line):
        told = PEER.fullmatch(line)
        assert told, line
        self.slot, self.generation, self.way, self.address = int(told[1]), int(told[2]), told[3], told[4]
        self.phase, rest = told[5], told[6].split()
        self.payload_in, self.bytes_out = after(rest, "in", 3), after(rest, "out", 3)
        self.messages_in, self.messages_out = after(rest, "in", 1), after(rest, "out", 1)
        self.full, self.compact, self.completed, self.fallback = (after(rest, way, 1) for way in ("full", "compact", "completed", "fallback"))
        self.saved = after(rest, "saved", 1)
        self.since, self.last, self.pong = int(told[7]), number(told[8]), number(told[9])
        self.version, self.height, self.agent = number(told[10]), number(told[11]), told[12]

    def place(self):
        """Its slot, its generation and its direction."""
        return self.slot, self.generation, self.way


def number(word):
    """The number that a word writes; None for `-` and for no word."""
    return None if word in (None, "-") else int(word)


def after(words, word, count):
    """The number so many words behind this one."""
    return int(words[words.index(word) + count])


class Running:
    """A process that is told lines, and whose lines are read as they come."""

    def __init__(self, command, seconds, **given):
        self.seconds, self.told = seconds, queue.Queue()
        self.process = subprocess.Popen(command, stdin=subprocess.PIPE, text=True, **given)
        if self.process.stdout:
            threading.Thread(target=self.hear, args=(self.process.stdout, self.told.put), daemon=True).start()

    def __enter__(self):
        return self

    def __exit__(self, *_):
        self.process.kill()
        with contextlib.suppress(OSError):
            self.process.stdin.close()
        self.process.wait()

    @staticmethod
    def hear(pipe, take):
        """Takes each line of a pipe, and None at its end."""
        for line in pipe:
            take(line.rstrip("\n"))
        take(None)

    def line(self):
        """The next line that is printed; None at the end."""
        try:
            return self.told.get(timeout=self.seconds)
        except queue.Empty:
            raise TimeoutError("nothing is told") from None

    def tell(self, *lines):
        """Writes lines, and waits for no answer."""
        self.process.stdin.write("".join(f"{line}\n" for line in lines))
        self.process.stdin.flush()

    def rest(self):
        """Waits for the process's end. The status and what is still printed come back."""
        status = self.process.wait(timeout=self.seconds)
        return status, list(iter(self.line, None))

    # ---- what it costs

    def each_thread(self, file):
        """What the kernel tells in a file of each thread."""
        for name in os.listdir(f"/proc/{self.process.pid}/task"):
            # A thread may have ended since.
            with contextlib.suppress(FileNotFoundError, ProcessLookupError), open(f"/proc/{self.process.pid}/task/{name}/{file}", encoding="ascii") as told:
                yield told.read()

    def states(self):
        """The state of each thread, one letter each as the kernel tells it: S sleeps."""
        return [text.rpartition(")")[2].split()[0] for text in self.each_thread("stat")]

    def scheduled(self, field):
        """A field of what the kernel tells of the times of each thread that lasts, in seconds, in all."""
        return sum(int(text.split()[field]) / 1e9 for text in self.each_thread("schedstat"))

    def waited(self):
        """For how many seconds its threads have waited for a processor that others had."""
        return self.scheduled(1)

    def computed(self):
        """For how many seconds its threads have had a processor, to the nanosecond."""
        return self.scheduled(0)

    def threads(self):
        """How many threads it has."""
        return len(os.listdir(f"/proc/{self.process.pid}/task"))

    def descriptors(self):
        """What its descriptors stand for."""
        found, folder = [], f"/proc/{self.process.pid}/fd"
        for name in os.listdir(folder):
            with contextlib.suppress(FileNotFoundError):
                found.append(os.readlink(f"{folder}/{name}"))
        return found

    def processor_ms(self):
        """How many milliseconds of the processor it has taken."""
        with open(f"/proc/{self.process.pid}/stat", encoding="ascii") as file:
            fields = file.read().rpartition(")")[2].split()
        return (int(fields[11]) + int(fields[12])) * 1_000 / os.sysconf("SC_CLK_TCK")

    def memory(self, row="VmRSS"):
        """How many bytes of memory it holds; by VmHWM, how many it held at the most."""
        with open(f"/proc/{self.process.pid}/status", encoding="ascii") as file:
            return next(int(line.split()[1]) * 1_024 for line in file if line.startswith(f"{row}:"))


def command(program, nodes, handlers, *words):
    return [program, "run", "--nodes", str(nodes), "--handlers", str(handlers), *words]


class NodeTalk(Running):
    """Nodes of `run`. Lines are numbered as the program numbers them."""

    def __init__(self, program, nodes, handlers, *words, seconds=60):
        self.number = 0
        super().__init__(command(program, nodes, handlers, *words), seconds, stdout=subprocess.PIPE)

    def send(self, line):
        self.number += 1
        self.process.stdin.write(f"{line}\n")

    def say(self, line):
        """What becomes of a line: nothing where it was done."""
        self.send(line)
        number = self.number
        self.send(f"kick 0 {NOWHERE}")
        self.process.stdin.flush()
        told = None
        while answer := self.line():
            name, _, rest = answer.partition(" ")
            if name == str(self.number):
                return told
            if name == str(number):
                told = rest
        raise TimeoutError(f"nothing is told of line {number}")

    def retried(self, line, tries=2_000):
        """What becomes of a line that is said again as long as no slot is free."""
        for _ in range(tries):
            told = self.say(line)
            if told != "no slot":
                return told
            time.sleep(0.001)
        return "no slot"

    def finish(self):
        """Ends the input. The status and the lines of the report come back."""
        self.process.stdin.close()
        return self.rest()

    def ports(self):
        """The ports at which the nodes listen."""
        sockets = set(self.descriptors())
        with open("/proc/net/tcp", encoding="ascii") as file:
            rows = [row.split() for row in file.readlines()[1:]]
        return [int(row[1].partition(":")[2], 16) for row in rows if row[3] == LISTENS and f"socket:[{row[9]}]" in sockets]


class NodeProcess(Running):
    """A process that runs a node. What it prints and what it logs is read as it comes; the log only from `read_errors` on, if that is wanted."""

    def __init__(self, program, *words, listen="127.0.0.1:0", seconds=60, stdout=subprocess.PIPE, before=(), reads_errors=True):
        super().__init__([*before, program, "node", "--listen", listen, *words], seconds, stdout=stdout, stderr=subprocess.PIPE, bufsize=1)
        self.logged = []
        self.logging = threading.Thread(target=self.hear, args=(self.process.stderr, self.logged.append), daemon=True)
        if reads_errors:
            self.read_errors()

    def __enter__(self):
        """Where it listens is the first line that it prints, if somebody reads these."""
        if self.process.stdout:
            line = self.line() or ""
            self.at = line.removeprefix("listening ")
            if self.at == line:
                self.process.kill()
                raise ValueError(f"{line!r} is told first; logged: {self.logged}")
        return self

    def read_errors(self):
        """Reads the log from now on."""
        self.logging.start()

    def line(self):
        try:
            return super().line()
        except TimeoutError as late:
            raise TimeoutError(f"{late}; logged last: {self.logged[-5:]}") from None

    @property
    def port(self):
        """At which port it listens."""
        return int(self.at.rpartition(":")[2])

    def say(self, line):
        """The answer to a line: its first line."""
        self.tell(line)
        return self.line()

    def say_all(self, lines):
        """The answers to many lines of one answer each, which are told while they come."""
        teller = threading.Thread(target=self.tell, args=lines, daemon=True)
        teller.start()
        answers = [self.line() for _ in lines]
        teller.join()
        return answers

    def list(self, line):
        """The answer to a line that is answered by a list."""
        answer = self.say(line)
        word, _, count = (answer or "").partition(" ")
        if word != line:
            raise ValueError(f"{answer!r} is told to {line}")
        return [self.line() for _ in range(int(count))]

    def peers(self):
        """The connections that last."""
        return [Peer(line) for line in self.list("peers")]

    def ready(self):
        """How many of its connections are ready; None where others last too."""
        phases = [peer.phase for peer in self.peers()]
        return len(phases) if phases == ["ready"] * len(phases) else None

    def tip(self):
        """The height and the hash of the tip."""
        answer = self.say("tip")
        word, height, name = (answer or "").split()
        if word != "tip":
            raise ValueError(f"{answer!r} is told to tip")
        return int(height), name

    def served(self):
        """How many connections it had in all, and how many it closed at once, as `stats` tells."""
        words = self.say("stats").split()
        return after(words, "connections", 1), after(words, "refused", 1)

    def until(self, holds, seconds=None):
        """Waits until this holds; whether it came to that."""
        end = time.monotonic() + (seconds or self.seconds)
        while time.monotonic() < end:
            if holds():
                return True
            time.sleep(0.02)
        return False

    def until_logged(self, pattern, seconds=None):
        """Waits until a line is logged in which this is found; whether it came to that."""
        return self.until(lambda: self.found(pattern) != [], seconds)

    def found(self, pattern):
        """The logged lines in which this is found."""
        return [line for line in list(self.logged) if line and re.search(pattern, line)]

    def rest(self):
        ended = super().rest()
        self.logging.join(self.seconds)
        return ended

    def close(self, line=None):
        """Ends the input, behind this line. The status and what is still printed come back."""
        if line:
            self.tell(line)
        self.process.stdin.close()
        return self.rest()


class Stopwatch:
    """The time from now on, but for that in which these processes waited for a processor: on a busy machine that is most of it."""

    def __init__(self, *nodes):
        self.nodes, self.began, self.waited = nodes, time.monotonic(), sum(node.waited() for node in nodes)

    def seconds(self):
        waited = sum(node.waited() for node in self.nodes) - self.waited
        return time.monotonic() - self.began - max(0, waited)


class Lateness:
    """By how much the machine wakes a sleeper too late: what each other process waits for on a busy machine."""

    # A sleep in seconds, and by how much it may last longer.
    NAP, SLACK = 0.002, 0.003

    def __init__(self):
        self.seconds, self.ends = 0.0, threading.Event()
        self.sleeper = threading.Thread(target=self.measure, daemon=True)

    def measure(self):
        while not self.ends.is_set():
            began = time.monotonic()
            time.sleep(self.NAP)
            late = time.monotonic() - began - self.NAP
            self.seconds += late if late > self.SLACK else 0

    def __enter__(self):
        self.sleeper.start()
        return self

    def __exit__(self, *_):
        self.ends.set()
        self.sleeper.join()


class ProcessLooks(Looks):
    """Looks at processes that run nodes."""

    def make_once(self, look, *words):
        """Makes one look. What it has entered ends with it."""
        with contextlib.ExitStack() as self.stack:
            super().make_once(look, *words)

    def enter(self, context):
        """What lasts to the end of the look."""
        return self.stack.enter_context(context)

    def node(self, *words, **given):
        """A node that listens."""
        return self.enter(NodeProcess(self.program, *words, **given))

    def linked(self, node, *words, **given):
        """Another node, which dials this one."""
        return self.node("--connect", node.at, *words, **given)

    def deaf(self):
        """The address of a listener that accepts nothing, and whose queue is full, so that a further connection isn't made."""
        listener, *held = (self.enter(socket.socket()) for _ in range(4))
        listener.bind(("127.0.0.1", 0))
        listener.listen(0)
        for one in held:
            one.setblocking(False)
            one.connect_ex(listener.getsockname())
        return "{}:{}".format(*listener.getsockname())

    def dialled_by(self, node):
        """The socket of a peer that a node dials."""
        listener = self.enter(socket.create_server(("127.0.0.1", 0)))
        listener.settimeout(node.seconds)
        at = "{}:{}".format(*listener.getsockname())
        self.begins("connect", f"connected {at}", node.say(f"connect {at}"))
        stream = self.enter(listener.accept()[0])
        stream.settimeout(node.seconds)
        return stream

    def begins(self, line, wanted, told):
        """The answer to a line begins with these words."""
        self.look(f"what {line} is answered", (told or "").split()[: len(wanted.split())], wanted.split())

    def says(self, node, line, wanted):
        """The answer to a line is this one."""
        self.look(f"what {line} is answered", node.say(line), wanted)

    def mines(self, node, count=1, height=""):
        """A node mines blocks, up to this height. Its tip comes back."""
        line = "mine" if count == 1 else f"mine {count}"
        self.begins(line, f"mined {count} tip {height}", node.say(line))
        return node.tip()

    def submits(self, node, block):
        """A node is given a block by its operator."""
        self.look("submit-block", node.say(f"submit-block {block.text.hex()}"), f"submitted {shown(block.header.name)}")

    def comes(self, what, node, holds, seconds=None):
        """This comes about by itself. Whether it did comes back."""
        came = node.until(holds, seconds)
        self.look(what, came, True)
        return came

    def stands_at(self, tip, *nodes, seconds=None):
        """These nodes come to this tip, a height and a hash."""
        for node in nodes:
            self.comes(f"the tip {tip[0]}", node, lambda node=node: node.tip() == tip, seconds)

    def has_peers(self, node, count, seconds=None):
        """This many peers come to be ready, and there are no others."""
        return self.comes(f"{count} that are ready", node, lambda: node.ready() == count, seconds)

    def logs(self, node, pattern):
        """This is found in a line of the log."""
        self.look(f"a line of the log with {pattern}", node.until_logged(pattern), True)

    def says_yes(self, what, line, asked=False, drops=False):
        """An audit says yes. It compared some answer, where one was asked for, and each, unless it may be (None) or is known (True) that some
        were dropped before."""
        told = counted(line)
        good = told is not None and (told[0] > 0 or not asked) and (drops is None or (told[1] > 0) == drops)
        self.look(what, "yes" if good else line, "yes")

    def restarts(self, node, tip="", drops=False):
        """A node begins anew: its audit says yes, and it goes on at this tip."""
        self.says_yes("restart", node.say("restart"), drops=drops)
        self.begins("restart, further on", f"restarted tip {tip}", node.line())

    def ended_so(self, ended, status=0, asked=False, drops=False, answers=0):
        """A process ended with this status: so many answers, and then an audit that says yes. The answers come back."""
        got, told = ended
        self.look("a process's end", (got, len(told)), (status, answers + 1))
        self.says_yes("its audit", told[-1] if told else None, asked, drops)
        return told[:-1]

    def ends(self, node, line=None, status=0, asked=False, drops=False):
        """A node's process ends by this line or by the end of input, with this status. Its audit says yes, and nothing else is told."""
        self.ended_so(node.close(line), status, asked, drops)

    def waits(self, what, most, seconds, *nodes):
        """A second in which nothing happens to these nodes costs at most so many milliseconds of the processor for each."""
        before = sum(node.processor_ms() for node in nodes)
        time.sleep(seconds)
        cost = (sum(node.processor_ms() for node in nodes) - before) / seconds / len(nodes)
        self.tell(f"a second in which {what} costs {cost:.0f} ms of the processor")
        self.most("its cost", cost, most)
