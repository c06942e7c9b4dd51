"""A web server that takes uploads, and answers how many bytes came and their SHA-256.

    taker.py ADDRESS PORT

A line `at BYTES` as an upload begins, and behind each part of it that came.
"""

import hashlib
import http.server
import sys

# How much is read at once at most.
CHUNK = 65536


class Taker(http.server.BaseHTTPRequestHandler):
    # The client's connection stays open behind the answer, so that it can be asked what it knows.
    protocol_version = "HTTP/1.1"

    def do_PUT(self):
        left, digest = int(self.headers["Content-Length"]), hashlib.sha256()
        whole = left
        print("at", 0, flush=True)
        while left and (part := self.rfile.read1(min(left, CHUNK))):
            digest.update(part)
            left -= len(part)
            print("at", whole - left, flush=True)
        answer = f"{whole - left} {digest.hexdigest()}\n".encode()
        self.send_response(200)
        self.send_header("Content-Length", str(len(answer)))
        self.end_headers()
        self.wfile.write(answer)


server = http.server.ThreadingHTTPServer((sys.argv[1], int(sys.argv[2])), Taker)
print("serving", flush=True)
server.serve_forever()
