"""A download by HTTP that says how it goes.

    fetch.py URL

A line `at BYTES` at each sixteenth, and at the end `end BYTES SECONDS GAP SHA256`: GAP is the
longest time without bytes, in seconds.
"""

import hashlib
import sys
import time
import urllib.request

# How much is read at once at most.
CHUNK = 65536


def fetch(url):
    begun = last = time.monotonic()
    gap, count, told = 0.0, 0, 0
    digest = hashlib.sha256()
    with urllib.request.urlopen(url, timeout=120) as response:
        whole = int(response.headers["Content-Length"])
        while chunk := response.read1(CHUNK):
            now = time.monotonic()
            gap = max(gap, now - last)
            last = now
            count += len(chunk)
            digest.update(chunk)
            if count * 16 // whole > told:
                told = count * 16 // whole
                print("at", count, flush=True)
    print("end", count, last - begun, gap, digest.hexdigest(), flush=True)


fetch(sys.argv[1])
