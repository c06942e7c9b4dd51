"""Calls at a box's control socket, as fast as it can, until it is ended or the number is reached; prints each second how
many calls there were, and how many had an answer.

    caller.py USER PATH ask NUMBER WORD..     says a word (in hexadecimal) and reads the answer to its end
    caller.py USER PATH mute NUMBER WORD..    says a word and never reads; two hundred such calls stay open
    caller.py USER PATH garbage NUMBER        says random bytes
    caller.py USER PATH silent NUMBER         says nothing, and goes

It is started as root, and calls as this user.
"""

import collections
import itertools
import os
import pwd
import random
import socket
import sys
import time

OPEN = 200
LONGEST = 300


class Caller:
    """What it has done."""

    def __init__(self, path, kind, words):
        self.path, self.kind = path, kind
        self.words = itertools.cycle([bytes.fromhex(word) for word in words] or [b""])
        self.open = collections.deque()
        self.calls, self.answers = 0, 0
        self.chance = random.Random(37)

    def call(self):
        sock = socket.socket(socket.AF_UNIX)
        sock.settimeout(3)
        try:
            sock.connect(self.path)
            self.calls += 1
            self.say(sock)
        except OSError:
            # Its list of callers is full, or it let this one go.
            time.sleep(0.0005)
        finally:
            if self.kind == "mute":
                self.open.append(sock)
                if len(self.open) > OPEN:
                    self.open.popleft().close()
            else:
                sock.close()

    def say(self, sock):
        if self.kind == "silent":
            return
        word = self.chance.randbytes(self.chance.randrange(1, LONGEST)) if self.kind == "garbage" else next(self.words)
        sock.sendall(word)
        if self.kind == "ask":
            self.answers += bool(self.read(sock))

    def read(self, sock):
        found = 0
        while part := sock.recv(65536):
            found += len(part)
        return found


def main():
    name, path, kind, number, *words = sys.argv[1:]
    user = pwd.getpwnam(name)
    os.setgroups([])
    os.setresgid(user.pw_gid, user.pw_gid, user.pw_gid)
    os.setresuid(user.pw_uid, user.pw_uid, user.pw_uid)
    caller, told = Caller(path, kind, words), time.monotonic()
    while caller.calls < int(number):
        caller.call()
        if time.monotonic() - told > 0.2:
            told = time.monotonic()
            print(caller.calls, caller.answers, flush=True)
    print(caller.calls, caller.answers, flush=True)


if __name__ == "__main__":
    main()
