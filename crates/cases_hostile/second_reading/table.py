"""The pairs that a gateway has, and when they are idle. By docs/PROTOCOL.md ("Owners, slots, notes") and the limits of
RFC 4787, RFC 5382 and RFC 5508 in centiseconds."""

import choice
from wire import ACK, FIN, ICMP, RST, SYN, TCP

PENDING, DOOMED, LIVE, CLOSING, HELD = "Pending", "Doomed", "Live", "Closing", "Held"
OPENING, ESTABLISHED, CLOSED = "Opening", "Established", "Closed"
LONG, SHORT = 744000, 24000
SESSIONS = 4


class Session:
    """A TCP session of a pair, with one remote end."""

    def __init__(self, remote, way, flags, now):
        self.remote, self.last = remote, now
        self.finished, self.plain = set(), set()
        self.state = CLOSED if flags & RST else OPENING if flags & SYN else ESTABLISHED
        self.mark(way, flags)

    def mark(self, way, flags):
        if flags & FIN:
            self.finished.add(way)
        if not flags & RST and not (flags & SYN and not flags & ACK):
            self.plain.add(way)

    def carried(self, way, flags, now):
        self.last = now
        if flags & RST:
            self.state = CLOSED
        elif flags & SYN and self.state == CLOSED:
            self.state = OPENING
            self.finished, self.plain = set(), set()
        else:
            self.mark(way, flags)
            if len(self.finished) == 2:
                self.state = CLOSED
            elif self.state == OPENING and len(self.plain) == 2:
                self.state = ESTABLISHED

    def is_over(self, now):
        return now - self.last >= (LONG if self.state == ESTABLISHED else SHORT)


class Entry:
    """What stands at a port."""

    def __init__(self, pair, state, by_install, now):
        self.pair, self.state, self.by_install = pair, state, by_install
        self.key, self.endpoint = pair[:2], (pair[0], *pair[2:])
        self.was_used = False
        self.renew(now)

    def renew(self, now):
        """Its life begins anew."""
        self.last, self.sessions, self.is_crowded, self.has_carried = now, [], False, False

    def translates(self):
        return self.state in (LIVE, HELD)

    def carried(self, remote, way, flags, now, inward_refresh):
        """A packet keeps the pair, but for one that whoever it comes from may send unasked."""
        is_first, self.has_carried, self.was_used = not self.has_carried, True, True
        begins = way == "outward" and (is_first or not flags & RST)
        course = next((session for session in self.sessions if session.remote == remote), None)
        keeps = begins or course is not None if self.pair[0] == TCP else way == "outward"
        if keeps or inward_refresh:
            self.last = now
        if self.pair[0] != TCP:
            return
        if course is not None:
            course.carried(way, flags, now)
        elif begins:
            self.begin(Session(remote, way, flags, now), now)

    def begin(self, fresh, now):
        """A session takes a free place, or that of one that is over; else the pair is crowded."""
        if len(self.sessions) < SESSIONS:
            return self.sessions.append(fresh)
        for place, session in enumerate(self.sessions):
            if session.is_over(now):
                self.sessions[place] = fresh
                return
        self.is_crowded = True

    def is_idle(self, now):
        if self.pair[0] == ICMP:
            return now - self.last >= 6000
        if self.pair[0] != TCP:
            return now - self.last >= 30000
        if not self.sessions or self.is_crowded:
            return now - self.last >= LONG
        return all(session.is_over(now) for session in self.sessions)


class Table:
    """The entries by key, and the ports that are owned."""

    def __init__(self):
        self.entries, self.owned = {}, set()

    @property
    def owned(self):
        return self._owned

    @owned.setter
    def owned(self, ports):
        self._owned, self._runs = ports, None

    def pairs(self):
        """All pairs, in order of protocol and port; a Doomed entry is none."""
        return [entry.pair for entry in self.ordered() if entry.state != DOOMED]

    def ordered(self):
        return [self.entries[key] for key in sorted(self.entries)]

    def of_endpoint(self, endpoint):
        """An endpoint's pair: the one on an owned port, else the Held one."""
        held = None
        for entry in self.entries.values():
            if entry.endpoint == endpoint and entry.state != DOOMED:
                if entry.state != HELD:
                    return entry
                held = entry
        return held

    def held_of(self, endpoint):
        return next((entry for entry in self.entries.values() if entry.endpoint == endpoint and entry.state == HELD), None)

    def add(self, pair, state, by_install, now):
        entry = Entry(pair, state, by_install, now)
        self.entries[entry.key] = entry
        return entry

    def remove(self, entry):
        del self.entries[entry.key]

    def free_port(self, way, endpoint):
        """The port that a new pair gets, of its inside port's parity where one is free; None where none is."""
        protocol, _inside, like = endpoint
        parities = [self.owned_of(like % 2), self.owned_of(1 - like % 2)]
        return choice.WAYS[way](parities, lambda port: (protocol, port) not in self.entries, endpoint)

    def owned_of(self, parity):
        """The owned ports of a parity, rising, one after the other."""
        return (port for first, last in self.runs() for port in range(first + (first + parity) % 2, last + 1, 2))

    def free_count(self, protocol):
        """How many owned ports are free in a protocol."""
        return sum((protocol, port) not in self.entries for port in self.owned)

    def pairs_of(self, inside):
        return sum(entry.endpoint[1] == inside and entry.state != DOOMED for entry in self.entries.values())

    def bare_ports(self):
        """The owned ports without an entry in any protocol, rising."""
        taken = {key[1] for key in self.entries}
        return [port for port in sorted(self.owned) if port not in taken]

    def runs(self):
        """The unbroken runs of owned ports, rising."""
        if self._runs is None:
            self._runs = []
            for port in sorted(self._owned):
                if self._runs and self._runs[-1][1] == port - 1:
                    self._runs[-1] = (self._runs[-1][0], port)
                else:
                    self._runs.append((port, port))
        return self._runs
