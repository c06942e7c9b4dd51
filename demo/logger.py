"""Writes what comes on its standard input to a file, as a service for logs does.

    logger.py FILE       SIGHUP: the file has been moved away, and what comes next stands in a new one of that name
"""

import os
import signal
import sys


class Log:
    """The file."""

    def __init__(self, path):
        self.path, self.file = path, None
        signal.signal(signal.SIGHUP, self.moved)

    def moved(self, *_):
        self.file = None

    def write(self, text):
        file = self.file or open(self.path, "ab", buffering=0)
        self.file = file
        file.write(text)


def main():
    log = Log(sys.argv[1])
    while text := os.read(0, 65536):
        log.write(text)


if __name__ == "__main__":
    main()
