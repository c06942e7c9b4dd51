"""Network namespaces without names, and the programs that run in them.

A namespace lives as long as this process holds it open or a program runs in it. Each program that
is started here dies with this process. So nothing is left behind, however this process ends.
"""

import contextlib
import ctypes
import fcntl
import os
import signal
import socket
import struct
import subprocess

from ending import SIGNALS, undisturbed

CLONE_NEWNET = 0x40000000
PR_SET_PDEATHSIG = 1
SIOCETHTOOL = 0x8946
# ETHTOOL_S of: receiving checksums, sending checksums, scatter-gather, TSO, GSO, GRO.
OFFLOADS = (0x15, 0x17, 0x19, 0x1F, 0x24, 0x2C)
# ETHTOOL_GTXCSUM
SENDS_CHECKSUMS = 0x16
# A short program is over in so many seconds.
LONGEST_RUN = 20

LIBC = ctypes.CDLL(None, use_errno=True)


def own_namespace():
    """The network namespace that the calling thread is in, held open."""
    return os.open("/proc/thread-self/ns/net", os.O_RDONLY | os.O_CLOEXEC)


def check(result):
    if result != 0:
        number = ctypes.get_errno()
        raise OSError(number, os.strerror(number))


class Namespace:
    """A network namespace: its own interfaces, addresses, routes and loopback."""

    def __init__(self, name):
        self.name = name
        self.children = []
        home = own_namespace()
        try:
            check(LIBC.unshare(CLONE_NEWNET))
            self.handle = own_namespace()
        finally:
            check(LIBC.setns(home, CLONE_NEWNET))
            os.close(home)
        self.sysctl("ipv4/ip_forward", 0)
        self.sysctl("ipv6/conf/all/disable_ipv6", 1)
        self.sysctl("ipv6/conf/default/disable_ipv6", 1)
        self.ip("link", "set", "dev", "lo", "up")

    @contextlib.contextmanager
    def entered(self):
        """In its body the calling thread is in the namespace: sockets made there stay there."""
        home = own_namespace()
        check(LIBC.setns(self.handle, CLONE_NEWNET))
        try:
            yield
        finally:
            check(LIBC.setns(home, CLONE_NEWNET))
            os.close(home)

    def begin(self, parent, user=None):
        """What a child does before its program begins, as this user where one is named."""
        check(LIBC.setns(self.handle, CLONE_NEWNET))
        os.setpgrp()
        if user:
            os.setgroups([])
            os.setresgid(user.pw_gid, user.pw_gid, user.pw_gid)
            os.setresuid(user.pw_uid, user.pw_uid, user.pw_uid)
        signal.pthread_sigmask(signal.SIG_UNBLOCK, SIGNALS)
        LIBC.prctl(PR_SET_PDEATHSIG, signal.SIGKILL)
        if os.getppid() != parent:
            os._exit(1)

    def start(self, *words, user=None, **options):
        """A program that runs in the namespace until it ends or `close` ends it."""
        parent = os.getpid()
        with undisturbed():
            child = subprocess.Popen(words, preexec_fn=lambda: self.begin(parent, user), **options)
            self.children.append(child)
        return child

    def run(self, *words, user=None, **options):
        """Runs a short program in the namespace to its end, which has to be a good one."""
        parent = os.getpid()
        line = " ".join(words)
        try:
            with undisturbed():
                done = subprocess.run(
                    words,
                    preexec_fn=lambda: self.begin(parent, user),
                    check=True,
                    capture_output=True,
                    text=True,
                    timeout=LONGEST_RUN,
                    **options,
                )
        except subprocess.CalledProcessError as error:
            raise SystemExit(f"demo: {self.name}: {line}: {error.stderr.strip()}") from None
        except subprocess.TimeoutExpired:
            raise SystemExit(f"demo: {self.name}: {line}: not over in {LONGEST_RUN} s") from None
        return done.stdout

    def ip(self, *words):
        return self.run("ip", *words)

    def sysctl(self, name, value):
        with self.entered(), contextlib.suppress(FileNotFoundError):
            with open(f"/proc/sys/net/{name}", "w", encoding="ascii") as file:
                file.write(str(value))

    def cable(self, name, other, other_name):
        """A cable between two namespaces: an interface at each end, both up."""
        place = f"/proc/{os.getpid()}/fd/{other.handle}"
        peer = ("peer", "name", other_name, "netns", place)
        self.ip("link", "add", "name", name, "type", "veth", *peer)
        for space, end in ((self, name), (other, other_name)):
            space.no_offload(end)
            space.ip("link", "set", "dev", end, "up")

    def no_offload(self, name):
        """Makes the kernel fill in every checksum of what an interface sends, and cut to its MTU.

        Between two virtual interfaces it leaves both to a card that isn't there.
        """
        with self.entered(), socket.socket(socket.AF_INET, socket.SOCK_DGRAM) as control:
            for command in OFFLOADS:
                with contextlib.suppress(OSError):
                    ethtool(control, name, command, 0)
            if ethtool(control, name, SENDS_CHECKSUMS, 0) != 0:
                raise SystemExit(f"demo: {self.name}: {name} still leaves checksums out")

    def end(self):
        """Ends the programs that run in it."""
        for child in self.children:
            if child.poll() is None:
                child.kill()
            child.wait()

    def close(self):
        self.end()
        os.close(self.handle)


def ethtool(control, name, command, value):
    """One command of ethtool to an interface; what it gives back."""
    words = (ctypes.c_uint32 * 2)(command, value)
    request = struct.pack("16sQ16x", name.encode(), ctypes.addressof(words))
    fcntl.ioctl(control, SIOCETHTOOL, request)
    return words[1]
