"""A VRRP router of one side, by RFC 9568 section 6, and what neighbours are known at a side, by RFC 826 and the rules
of the ARP page. Times in centiseconds."""

import wire

INITIALIZE, BACKUP, ACTIVE = "Initialize", "Backup", "Active"
GROUP, GROUP_MAC = wire.address("224.0.0.18"), bytes.fromhex("01005e000012")
BROADCAST = b"\xff" * 6


class Router:
    """The state table of a router that is no address owner."""

    def __init__(self, priority, interval, preempt, own):
        self.priority, self.interval, self.preempt, self.own = priority, interval, preempt, own
        self.state, self.due, self.heard_interval = INITIALIZE, 0, interval

    def skew(self):
        return (256 - self.priority) * self.heard_interval // 256

    def down(self):
        return 3 * self.heard_interval + self.skew()

    def start(self, now):
        if self.state == INITIALIZE:
            self.heard_interval = self.interval
            self.state, self.due = BACKUP, now + self.down()
        return []

    def stop(self):
        """The priorities that are advertised."""
        was, self.state = self.state, INITIALIZE
        return [0] if was == ACTIVE else []

    def tick(self, now):
        """Whether it advertises, and whether it announces itself too."""
        if self.state == INITIALIZE or now < self.due:
            return False, False
        is_new = self.state == BACKUP
        self.state, self.due = ACTIVE, now + self.interval
        return True, is_new

    def yields_to(self, priority, source):
        return priority > self.priority or (priority == self.priority and source > self.own)

    def heard(self, priority, interval, source, now):
        """Whether it advertises."""
        if self.state == BACKUP:
            if priority == 0:
                self.due = now + self.skew()
            elif not self.preempt or priority >= self.priority:
                self.heard_interval = interval
                self.due = now + self.down()
            return False
        if self.state == INITIALIZE:
            return False
        if priority and self.yields_to(priority, source):
            self.heard_interval = interval
            self.state, self.due = BACKUP, now + self.down()
            return False
        self.due = now + self.interval
        return True


class Neighbour:
    """What was learnt of an address, and when; when it was asked for last behind a packet sent to it, or learnt; whether a
    packet was sent to it since it was learnt, and whether the last word of it gave it another MAC."""

    def __init__(self, mac, now):
        self.mac, self.heard, self.asked, self.is_sent, self.is_changed = mac, now, now, False, False


class Neighbours:
    """The ARP cache of a side, in the order in which neighbours were heard."""

    LIFE, OLD, AGAIN, PLACES = 120000, 3000, 100, 1024

    def __init__(self, fixed):
        self.fixed, self.learnt = dict(fixed), {}

    def learn(self, address, mac, is_for_us, now):
        """Whether an ARP packet of this sender teaches anything: one for another only renews what is known."""
        entry = self.learnt.pop(address, None)
        if entry is not None:
            entry.is_changed, entry.mac, entry.heard = entry.mac != mac, mac, now
        elif is_for_us:
            if len(self.learnt) == self.PLACES:
                first = next(iter(self.learnt))
                self.learnt.pop(next((it for it, other in self.learnt.items() if not other.is_sent), first))
            entry = Neighbour(mac, now)
        else:
            return False
        self.learnt[address] = entry
        return True

    def mac_of(self, address, now):
        if address in self.fixed:
            return self.fixed[address]
        entry = self.learnt.get(address)
        return entry.mac if entry and now - entry.heard < self.LIFE else None

    def ask(self, address, now):
        """A packet was just sent to this address: whether it is asked for."""
        entry = self.learnt.get(address)
        if address in self.fixed or entry is None:
            return False
        entry.is_sent = True
        is_old = entry.is_changed or now - entry.heard >= self.OLD
        if not is_old or now - entry.asked < self.AGAIN:
            return False
        entry.asked = now
        return True


def advert_of(packet):
    """VRID, priority and interval of an advertisement; None where it is faulty."""
    body = packet.body
    if packet.ttl != 255 or len(body) < 8 or body[0] != 0x31 or body[3] == 0 or len(body) < 8 + 4 * body[3]:
        return None
    message = body[: 8 + 4 * body[3]]
    pseudo = packet.source + packet.target + bytes([0, 112]) + wire.two(len(message))
    if not wire.is_right(message) and not wire.is_right(pseudo + message):
        return None
    interval = wire.number(body[4:6]) & 0x0FFF
    return (body[1], body[2], interval) if interval else None
