"""The server outside: says to each flow from which address and port it sees it.

    server.py ADDRESS PORT

A question is one UDP datagram or one line of a TCP connection; the answer is the question and the
address and port that it came from.
"""

import selectors
import socket
import sys

from cards import ROOM, SO_RCVBUFFORCE
from limits import many_files


def seen(question, source):
    return b"%s from %s %d\n" % (question.strip(), source[0].encode(), source[1])


def answer_datagram(sock):
    question, source = sock.recvfrom(2048)
    sock.sendto(seen(question, source), source)


def answer_line(table, sock, source):
    try:
        question = sock.recv(2048)
        if question:
            sock.send(seen(question, source))
            return
    except OSError:
        pass
    table.unregister(sock)
    sock.close()


def accept(table, listener):
    sock, source = listener.accept()
    sock.setblocking(False)
    table.register(sock, selectors.EVENT_READ, lambda: answer_line(table, sock, source))


def main():
    many_files()
    place = (sys.argv[1], int(sys.argv[2]))
    datagrams = socket.socket(socket.AF_INET, socket.SOCK_DGRAM)
    datagrams.setsockopt(socket.SOL_SOCKET, SO_RCVBUFFORCE, ROOM)
    datagrams.bind(place)
    listener = socket.create_server(place, backlog=1024)
    table = selectors.DefaultSelector()
    table.register(datagrams, selectors.EVENT_READ, lambda: answer_datagram(datagrams))
    table.register(listener, selectors.EVENT_READ, lambda: accept(table, listener))
    print("serving", flush=True)
    while True:
        for key, _ in table.select():
            key.data()


if __name__ == "__main__":
    main()
