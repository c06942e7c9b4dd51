"""An upload by HTTP that says how it went.

    upload.py URL BYTES SECONDS SOURCE

Its last line is `end TAKEN SHA256 SECONDS` with the server's answer, or `still` where the upload wasn't over in that time.
Before it comes `path MTU SEGMENT UNANSWERED`: how long the host's TCP takes a packet of this path to be, how much goes into
a segment, and how many of them were sent and have no answer.
"""

import http.client
import random
import socket
import struct
import sys
import time
import urllib.parse

# Where these three stand in struct tcp_info.
SEGMENT, UNANSWERED, MTU = 16, 24, 60
LONG_ENOUGH = 104
NO_LINGER = struct.pack("ii", 1, 0)


def known_of(sock):
    """What the host's TCP knows of a connection's path."""
    info = sock.getsockopt(socket.IPPROTO_TCP, socket.TCP_INFO, LONG_ENOUGH)
    return [struct.unpack_from("=I", info, place)[0] for place in (MTU, SEGMENT, UNANSWERED)]


def upload(url, size, seconds, source):
    place = urllib.parse.urlsplit(url)
    server = http.client.HTTPConnection(place.hostname, place.port, timeout=seconds, source_address=(source, 0))
    begun = time.monotonic()
    server.connect()
    try:
        server.request("PUT", place.path, body=random.Random(size).randbytes(size))
        end = ("end", server.getresponse().read().decode().strip(), f"{time.monotonic() - begun:.2f}")
    except TimeoutError:
        end = ("still",)
        # What is left in the host's kernel isn't sent again later.
        server.sock.setsockopt(socket.SOL_SOCKET, socket.SO_LINGER, NO_LINGER)
    print("path", *known_of(server.sock))
    print(*end, flush=True)
    server.close()


upload(sys.argv[1], int(sys.argv[2]), float(sys.argv[3]), sys.argv[4])
