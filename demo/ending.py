"""How the demo ends early: by a signal, and with everything removed that it made."""

import contextlib
import signal

SIGNALS = (signal.SIGINT, signal.SIGTERM, signal.SIGHUP)


def leave(number, _):
    """Ends the demo, all that it made being removed first. No further signal disturbs that."""
    for each in SIGNALS:
        signal.signal(each, lambda *_: None)
    raise SystemExit(128 + number)


def catch_signals():
    for number in SIGNALS:
        signal.signal(number, leave)


@contextlib.contextmanager
def undisturbed():
    """In its body something is made and noted as made: a signal waits until both are done."""
    before = signal.pthread_sigmask(signal.SIG_BLOCK, SIGNALS)
    try:
        yield
    finally:
        signal.pthread_sigmask(signal.SIG_SETMASK, before)
