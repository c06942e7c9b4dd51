"""A name server whose answers are long, as those with many keys are; and one who asks it.

    resolver.py serve ADDRESS PORT
    resolver.py ask ADDRESS PORT BYTES COUNT SOURCE..    asks so often from each of these addresses, by a port of its own each
                                                         time; prints how many questions there were, how many answers of so
                                                         many bytes, and how many that were otherwise

A question is one UDP datagram (RFC 1035) that says that an answer may have 4,096 bytes (RFC 6891). The answer is one record
of type TXT, whose text is another one for each question.
"""

import os
import random
import socket
import struct
import sys

TXT, OPT, INTERNET = 16, 41, 1
NAME = b"\4keys\7example\0"
ASKED = NAME + struct.pack(">HH", TXT, INTERNET)
# A question: recursion is desired, one question, one record more. An answer has the two bits more that say so.
QUESTION, ANSWER = 0x0100, 0x8500
MOST = struct.pack(">BHHIH", 0, OPT, 4096, 0, 0)
# A string of a record has so many bytes at most.
STRING = 255
PATIENCE = 1.0


def head(number, flags, answers):
    return struct.pack(">HHHHHH", number, flags, 1, answers, 0, 1)


def question_of(number):
    return head(number, QUESTION, 0) + ASKED + MOST


def strings(number, size):
    """So many bytes of strings, each with its length before it."""
    chance, found = random.Random(number), b""
    while len(found) < size:
        length = min(STRING, size - len(found) - 1)
        found += bytes([length]) + chance.randbytes(length)
    return found


def answer_of(number, size):
    """The answer of so many bytes to the question of a number."""
    before, behind = head(number, ANSWER, 1) + ASKED, MOST
    record = struct.pack(">HHHI", 0xC00C, TXT, INTERNET, 60)
    text = strings(number, size - len(before) - len(record) - 2 - len(behind))
    return before + record + len(text).to_bytes(2, "big") + text + behind


def serve(place):
    sock = socket.socket(socket.AF_INET, socket.SOCK_DGRAM)
    sock.bind(place)
    print("serving", flush=True)
    while True:
        question, source = sock.recvfrom(512)
        number = int.from_bytes(question[:2], "big")
        if question == question_of(number):
            sock.sendto(answer_of(number, 4000), source)


def ask(place, size, source):
    """Whether the answer is as it has to be; None where there is none."""
    number = int.from_bytes(os.urandom(2), "big")
    with socket.socket(socket.AF_INET, socket.SOCK_DGRAM) as sock:
        sock.bind((source, 0))
        sock.connect(place)
        sock.settimeout(PATIENCE)
        sock.send(question_of(number))
        try:
            return sock.recv(65535) == answer_of(number, size)
        except TimeoutError:
            return None


def main():
    kind, address, port, *rest = sys.argv[1:]
    place = address, int(port)
    if kind == "serve":
        serve(place)
    size, count, sources = int(rest[0]), int(rest[1]), rest[2:]
    found = [ask(place, size, source) for _ in range(count) for source in sources]
    print(len(found), found.count(True), found.count(False), flush=True)


if __name__ == "__main__":
    main()
