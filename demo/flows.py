"""Flows from the inside host to the server outside, which says from which port it sees each."""

import errno
import selectors
import socket
import time

from pair import HOSTS, SERVER

PORT = 4000
# A datagram is sent again after so many seconds without an answer.
AGAIN = 1.0
# A flow that isn't answered for so many seconds is silent.
PATIENCE = 30


class Loop:
    """Waits for sockets and calls what belongs to them."""

    def __init__(self):
        self.table = selectors.DefaultSelector()

    def watch(self, sock, call, events=selectors.EVENT_READ):
        self.table.register(sock, events, call)

    def change(self, sock, events):
        self.table.modify(sock, events, self.table.get_key(sock).data)

    def forget(self, sock):
        self.table.unregister(sock)

    def turn(self, seconds=0.01):
        for key, _ in self.table.select(seconds):
            key.data()

    def until(self, test, seconds):
        """Turns until a test holds or the time is over, and says whether it holds."""
        end = time.monotonic() + seconds
        while time.monotonic() < end:
            if test():
                return True
            self.turn()
        return test()


class Flow:
    """One socket of the inside host, and the ports from which the server saw it."""

    def __init__(self, loop, number, protocol, on_answer, hosts=HOSTS):
        self.loop = loop
        self.number = number
        self.protocol = protocol
        self.on_answer = on_answer
        self.hosts = hosts
        self.round = 0
        self.answered = 0
        self.asked = 0.0
        self.ports = []
        self.addresses = set()
        self.end = None
        self.broken = ""
        self.connected = False

    @property
    def address(self):
        return self.hosts[self.number % len(self.hosts)]

    def open(self, space):
        kind = socket.SOCK_DGRAM if self.protocol == "udp" else socket.SOCK_STREAM
        with space.entered():
            self.sock = socket.socket(socket.AF_INET, kind)
        self.sock.setblocking(False)
        self.sock.bind((self.address, 0))
        self.end = self.sock.getsockname()
        self.sock.connect_ex((SERVER, PORT))
        if self.protocol == "udp":
            self.connected = True
            self.loop.watch(self.sock, self.take)
        else:
            events = selectors.EVENT_READ | selectors.EVENT_WRITE
            self.loop.watch(self.sock, self.take, events)

    def ask(self):
        """Asks anew. A connection asks once: TCP itself repeats what was lost."""
        self.round += 1
        self.send()

    def question(self):
        return b"flow %d %d" % (self.number, self.round)

    def send(self):
        self.asked = time.monotonic()
        if not self.connected or self.broken:
            return
        try:
            self.sock.send(self.question() + b"\n")
        except OSError as error:
            self.fail(error)

    def take(self):
        if not self.connected:
            self.connect()
            return
        try:
            text = self.sock.recv(2048)
        except BlockingIOError:
            return
        except OSError as error:
            self.fail(error)
            return
        if not text:
            self.fail(OSError(errno.ECONNRESET, ""))
        for line in text.splitlines():
            self.note(line.split())

    def note(self, words):
        """An answer counts where it is that to the last question."""
        if int(words[1]) == self.number and int(words[2]) == self.round > self.answered:
            self.answered = self.round
            self.ports.append(int(words[5]))
            self.addresses.add(words[4].decode())
            self.on_answer(self)

    def connect(self):
        number = self.sock.getsockopt(socket.SOL_SOCKET, socket.SO_ERROR)
        if number:
            self.fail(OSError(number, ""))
            return
        self.connected = True
        self.loop.change(self.sock, selectors.EVENT_READ)
        self.send()

    def fail(self, error):
        """A datagram's socket goes on; a connection that fails is over."""
        if self.protocol == "tcp":
            self.broken = errno.errorcode.get(error.errno, "error")
            self.loop.forget(self.sock)

    def wants_again(self, now):
        late = now - self.asked > AGAIN
        return self.protocol == "udp" and self.answered < self.round and late

    def close(self):
        self.sock.close()


class Flows:
    """Many flows at once, of these hosts, numbered from the first on."""

    def __init__(self, loop, space, stack, hosts=HOSTS, first=0):
        self.loop = loop
        self.space = space
        self.stack = stack
        self.hosts = hosts
        self.first = first
        self.flows = []
        self.repeated = 0.0

    def open(self, count, window, seconds, left=0):
        """Opens so many fresh flows, half of them UDP, at most `window` unanswered at a time, and
        waits until at most `left` of them are unanswered. Gives the new ones."""
        new, answered = [], []
        end = time.monotonic() + seconds
        while time.monotonic() < end and (len(new) < count or len(answered) + left < count):
            may_open = len(new) < count and len(new) - len(answered) < window
            if may_open:
                new.append(self.open_one(answered.append))
            self.turn(0 if may_open else 0.01)
        return new

    def open_one(self, on_answer):
        number = self.first + len(self.flows)
        flow = Flow(self.loop, number, ("udp", "tcp")[number % 2], on_answer, self.hosts)
        flow.open(self.space)
        flow.ask()
        self.stack.callback(flow.close)
        self.flows.append(flow)
        return flow

    def turn(self, seconds):
        """A turn of the loop. Now and then the datagrams without an answer are sent again."""
        self.loop.turn(seconds)
        now = time.monotonic()
        if now - self.repeated > AGAIN / 10:
            self.repeated = now
            for flow in self.flows:
                if flow.wants_again(now):
                    flow.send()

    def ask(self, flows, seconds):
        """Asks once more in each of some flows, and waits for the answers."""
        for flow in flows:
            flow.ask()
        self.wait(flows, seconds)

    def wait(self, flows, seconds):
        """Waits until all have an answer, or the time is over."""
        end = time.monotonic() + seconds
        while time.monotonic() < end and any(flow.answered < flow.round for flow in flows):
            self.turn(0.01)


def verdict(flows):
    """How many flows held their port in their last round, moved, and stayed without an answer."""
    held = sum(f.answered == f.round and len(set(f.ports)) == 1 for f in flows)
    moved = sum(len(set(f.ports)) > 1 for f in flows)
    return held, moved, len(flows) - held - moved
