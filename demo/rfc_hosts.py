"""Probes by hosts with kernels of their own: what a user sees of the way between a host inside and a server beyond the router."""

import contextlib
import os
import socket
import time

from packets import ECHO, ICMP, REPLY, Packet, icmp
from pair import BEYOND, HOSTS, ROUTER, SERVER
from rfc_packets import told, yes

TCP_PLACE, UDP_PLACE, CLOSED = (SERVER, 8080), (SERVER, 8081), (SERVER, 9)
SIZE = 3_000_000
NARROW = 1200
# An upload has this time; at full width it takes a part of a second.
LONGEST = 8.0
# An answer of a host's kernel comes within so many seconds.
PATIENCE = 1.0
IP_MTU_DISCOVER, NEVER_CUT, MAY_CUT = 10, 2, 0
IP_MTU, IP_RECVERR = 14, 11
# The type of the error by which a router says that a TTL is over, and the identifier of a host's Echos.
TTL_OVER, IDENTIFIER = 11, b"\0\7"
# Where the sender of an error stands in what the kernel tells of it: struct sock_extended_err, and an address behind it.
OFFENDER = slice(20, 24)


def bound(space, kind, place, protocol=0):
    """A socket of a namespace, at an address of it."""
    with space.entered():
        found = socket.socket(socket.AF_INET, kind, protocol)
    found.setblocking(False)
    found.setsockopt(socket.SOL_SOCKET, socket.SO_REUSEADDR, 1)
    found.bind(place)
    return found


class Hosts:
    """A host and a server with sockets, and the network between the router and the server."""

    def __init__(self, current, stack):
        self.current = current
        self.stack = stack
        networks = current.networks
        self.host, self.router, self.server = networks.host, networks.router, networks.server
        self.host.sysctl("ipv4/tcp_mtu_probing", 0)
        for space in (self.router, self.server):
            space.sysctl("ipv4/icmp_ratelimit", 0)
        self.listener = self.keep(bound(self.server, socket.SOCK_STREAM, TCP_PLACE))
        self.listener.listen()
        self.heard = self.keep(bound(self.server, socket.SOCK_DGRAM, UDP_PLACE))

    def keep(self, sock):
        self.stack.callback(sock.close)
        return sock

    def own(self, kind, protocol=0):
        return self.keep(bound(self.host, kind, (HOSTS[0], 0), protocol))

    def widen(self, most=None):
        """How long a packet the network behind the router takes. The host forgets what it has learnt."""
        width = ("mtu", str(most)) if most else ()
        self.router.ip("route", "replace", "198.51.100.0/24", "dev", "eth1", "src", BEYOND, *width)
        self.host.ip("route", "flush", "cache")

    def until(self, read, seconds):
        """What a call of a socket gives, as soon as it doesn't have to wait; an error of the network is one too."""
        found = []

        def is_there():
            try:
                found.append(read())
            except BlockingIOError:
                pass
            except OSError as error:
                found.append(error)
            return bool(found)

        self.current.loop.until(is_there, seconds)
        return found[0] if found else None

    def upload(self):
        """How many bytes of an upload have come to the server."""
        sender = self.own(socket.SOCK_STREAM)
        sender.connect_ex(TCP_PLACE)
        taken = self.until(self.listener.accept, PATIENCE * 3)
        if not isinstance(taken, tuple):
            return 0
        taken[0].setblocking(False)
        left, come = SIZE, 0
        end = time.monotonic() + LONGEST
        while come < SIZE and time.monotonic() < end:
            with contextlib.suppress(BlockingIOError):
                left -= sender.send(bytes(min(left, 1 << 16)))
            with contextlib.suppress(BlockingIOError):
                come += len(taken[0].recv(1 << 20))
            self.current.loop.turn(0.001)
        taken[0].close()
        return come

    def datagram(self, size, cut=MAY_CUT):
        """Whether a datagram comes, which may be cut or not, of three."""
        sender = self.own(socket.SOCK_DGRAM)
        sender.setsockopt(socket.IPPROTO_IP, IP_MTU_DISCOVER, cut)
        for _ in range(3):
            with contextlib.suppress(OSError):
                sender.sendto(bytes(size), UDP_PLACE)
            found = self.until(lambda: self.heard.recv(1 << 16), PATIENCE / 2)
            if isinstance(found, bytes) and len(found) == size:
                return True
        return False

    def told(self, place, size):
        """What a sender is told, whose datagram may not be cut, or has no one who takes it; and the path's MTU by then."""
        sender = self.own(socket.SOCK_DGRAM)
        sender.setsockopt(socket.IPPROTO_IP, IP_MTU_DISCOVER, NEVER_CUT)
        sender.connect(place)
        try:
            sender.send(bytes(size))
            found = self.until(lambda: sender.recv(1), PATIENCE)
        except OSError as error:
            found = error
        text = os.strerror(found.errno) if isinstance(found, OSError) else "nothing"
        return text, sender.getsockopt(socket.IPPROTO_IP, IP_MTU)

    def hop(self, ttl):
        """Who answers a datagram of this TTL to a closed port by an error, as `traceroute` asks."""
        sender = self.own(socket.SOCK_DGRAM)
        sender.setsockopt(socket.IPPROTO_IP, IP_RECVERR, 1)
        sender.setsockopt(socket.IPPROTO_IP, socket.IP_TTL, ttl)
        sender.sendto(b"who is there", (SERVER, 33433 + ttl))
        found = self.until(lambda: sender.recvmsg(512, 512, socket.MSG_ERRQUEUE), PATIENCE)
        return socket.inet_ntoa(found[1][0][2][OFFENDER]) if isinstance(found, tuple) else None

    def echo(self, ttl):
        """Who answers an Echo of this TTL to the server, by a Reply or by an error about it."""
        sender = self.own(socket.SOCK_RAW, ICMP)
        sender.setsockopt(socket.IPPROTO_IP, socket.IP_TTL, ttl)
        asked = IDENTIFIER + ttl.to_bytes(2, "big")
        sender.sendto(icmp(ECHO, 0, asked, b"who is there"), (SERVER, 0))

        def answer():
            packet = Packet(bytes(14) + sender.recv(1 << 16))
            if packet.payload[0] not in (REPLY, TTL_OVER) or asked not in packet.payload:
                raise BlockingIOError
            return packet.source

        found = self.until(answer, PATIENCE)
        return found if isinstance(found, str) else None


def at_full_width(hosts, bench, report):
    come = hosts.upload()
    report.note(bench, "5382 REQ-2", f"a host's upload of {SIZE:,} bytes", f"{come:,} bytes", come == SIZE)
    text, _ = hosts.told(CLOSED, 1)
    report.note(bench, "4787 REQ-12 b", "a host is told of a closed UDP port", text, text == "Connection refused")
    found = [hosts.hop(ttl) for ttl in (1, 2, 3)]
    report.note(bench, "5508 REQ-10 a", "a traceroute has a line of the pair", told(found[:1]), found[0] is not None)
    report.note(bench, "4787 REQ-12 b", "a traceroute has lines of the router and the server", told(found[1:]),
                found[1:] == [ROUTER, SERVER])
    found = hosts.datagram(3000)
    report.note(bench, "4787 REQ-14", "a host's datagram of 3,000 bytes comes", yes(found), found)
    found = [hosts.echo(ttl) for ttl in (1, 2, 3)]
    report.note(bench, "5508 REQ-10 a", "a traceroute by Echo has a line of the pair", told(found[:1]), found[0] is not None)
    report.note(bench, "5508 REQ-4", "a traceroute by Echo has a line of the router", told(found[1:2]), found[1] == ROUTER)
    report.note(bench, "5508 REQ-1 a", "a host's ping of the server is answered", told(found[2:]), found[2] == SERVER)


def at_a_narrow_path(hosts, bench, report):
    come = hosts.upload()
    report.note(bench, "5382 REQ-9", f"the upload, where the path takes {NARROW:,} bytes", f"{come:,} bytes", come == SIZE)
    text, most = hosts.told(UDP_PLACE, 1400)
    report.note(bench, "4787 REQ-12 b", f"a host is told that 1,400 bytes are too long there, and {NARROW:,} not",
                f"{text}, {most:,}", (text, most) == ("Message too long", NARROW))


def by_hosts(current, bench, report):
    with contextlib.ExitStack() as stack:
        hosts = Hosts(current, stack)
        at_full_width(hosts, bench, report)
        hosts.widen(NARROW)
        stack.callback(hosts.widen)
        at_a_narrow_path(hosts, bench, report)
