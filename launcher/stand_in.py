"""Stands for `natpair gate` in the launcher's test: says what it was given and what comes.

    stand_in.py CONTROL [WORD..]

It prints its words, what /proc says of its privileges, whether NOTIFY_SOCKET is in its environment, and a line for each
frame (`frame DESCRIPTOR HEX`) and each word of the control socket (`word HEX`). A frame of the experimental EtherType
88b5 is written to the other side as it came, and a datagram that begins with `back` to the link. A service manager's
descriptor (`--notify descriptor:N`) is told that it is ready. The word that it is to end ends it, as does something to
be read at the descriptor of `--stop-on descriptor:N`, which it says; but not with `deaf` among its words. CONTROL is the folder of its control socket, or `-` for none.
"""

import os
import selectors
import socket
import sys

OTHER = {3: 4, 4: 3}
LINK = 5


def say(*words):
    print(*words, flush=True)


def tell_status():
    with open("/proc/self/status", encoding="ascii") as file:
        for line in file:
            name, value = line.split(":", 1)
            if name in ("Uid", "CapInh", "CapPrm", "CapEff", "CapBnd", "CapAmb", "NoNewPrivs", "SigBlk"):
                say("status", name, *value.split())


def take_frame(number):
    try:
        frame = os.read(number, 4096)
    except OSError as error:
        say("error", number, error.strerror)
        return
    say("frame", number, frame.hex())
    if frame[12:14] == b"\x88\xb5" and number in OTHER:
        os.write(OTHER[number], frame)
    if frame.startswith(b"back") and number == LINK:
        os.write(LINK, frame)


def take_word(listener):
    caller, _ = listener.accept()
    with caller:
        caller.settimeout(2)
        word = caller.recv(64)
        say("word", word.hex())
        caller.sendall(b"heard")
    if word == b"NE" and "deaf" not in sys.argv:
        sys.exit(0)


def take_stop():
    say("stop")
    if "deaf" not in sys.argv:
        sys.exit(0)


def descriptors():
    """The descriptors that its words name, by the option before them."""
    words = sys.argv[2:]
    return {name: int(word.split(":")[1]) for name, word in zip(words, words[1:]) if word.startswith("descriptor:")}


def main():
    say("words", *sys.argv[2:])
    tell_status()
    say("environment", "has" if "NOTIFY_SOCKET" in os.environ else "hasn't", "NOTIFY_SOCKET")
    table = selectors.DefaultSelector()
    opened = descriptors()
    manager = opened.pop("--notify", None)
    table.register(opened.pop("--stop-on"), selectors.EVENT_READ, take_stop)
    for number in opened.values():
        os.set_blocking(number, False)
        table.register(number, selectors.EVENT_READ, lambda number=number: take_frame(number))
    if sys.argv[1] != "-":
        os.mkdir(sys.argv[1], 0o700)
        listener = socket.socket(socket.AF_UNIX)
        listener.bind(f"{sys.argv[1]}/socket")
        listener.listen()
        table.register(listener, selectors.EVENT_READ, lambda: take_word(listener))
    if manager is not None:
        os.write(manager, b"READY=1\nSTATUS=boot 7\n")
    say("ready")
    while True:
        for key, _ in table.select():
            key.data()


main()
