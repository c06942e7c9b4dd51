"""What a stranger or a single host does to a box by `natpair sim`, whose clock can stand at any moment."""

import bisect

from benches import HOSTS, REMOTES, End, Scripted
from packets import (ACK, ICMP, IPV4, REPLY, RST, SYN, TCP, UDP, Header, Station, arp_reply, arp_request, ethernet,
                     icmp, ip_bytes, ipv4, is_arp, is_ipv4, tcp, udp)
from rfc_clock import HOST, QUERY_REST, REMOTE, SHORT, STRANGER, TICK, UDP_REST, begin

DAY = 8_640_000
# A packet of a stranger comes each so often: just before a pair would rest.
UDP_EACH, PING_EACH, SEGMENT_EACH, REFUSED_EACH = UDP_REST - 10, QUERY_REST - 10, 738_000, SHORT - 100
STRANGE_PORTS = range(7, 12)
# Of few ports: a flow a minute, so many, and a packet of a stranger to each port each so often.
FLOWS, MINUTE, FEW, KNOCK_EACH = 120, 6_000, range(20_000, 20_010), 20_000
# A packet a second goes to a next hop, for longer than any waits for its answer, to somebody behind the router.
SECOND, LONGEST, FAR = 100, 1_000, ("198.51.100.7", 53)
TRUE, OLD, FORGED = (bytes.fromhex(mac) for mac in ("0200000000fe", "0200000000fd", "020000000066"))
# More stations than a box keeps neighbours, of which each asks for the box.
CROWD = 2_200
LOOSE, STRICT, RECORD = (bytes((kind, 7, 4, 198, 51, 100, 7, 0)) for kind in (0x83, 0x89, 0x07))


class Run(Scripted):
    """A run of one script, which is made at once: events of which it is asked later what they sent."""

    def __init__(self, program, settings_file):
        super().__init__(program, settings_file)
        self.asked = []

    def hand(self, side, station, packet):
        """A frame of a station whose fate is asked for at the end."""
        self.lines.append(f"frame 0 {side} {ethernet(self.own_mac(side), station.mac, IPV4, packet).hex()}")
        self.asked.append(len(self.lines) - 1)

    def knock(self, port, protocol, source=STRANGER, flags=ACK):
        """A stranger's packet to an outside port."""
        place = self.outside(port)
        if protocol == UDP:
            payload = udp(source.place, place, b"")
        elif protocol == TCP:
            payload = tcp(source.place, place, flags, b"")
        else:
            payload = icmp(REPLY, 0, port.to_bytes(2, "big") + b"\0\1", b"")
        self.hand("outside", source.station, ipv4(source.station.address, self.virtual, protocol, payload))

    def fates(self):
        """Of each frame that was handed in, whether a packet of IPv4 was sent for it."""
        events = self.run()
        sent = [any(is_ipv4(bytes.fromhex(words[3])) for words in event if words[0] == "frame") for event in events]
        return [sent[number] for number in self.asked]


def told_time(centiseconds):
    return "a day" if centiseconds >= DAY else f"{centiseconds / 100:,.0f} s"


def passed(program, settings_file, protocol, course, first, answer, moments):
    """Whether a stranger's packet passes to a pair so long after it was made, at each of some moments. Others came at once,
    and the host may answer each."""
    run, past = Run(program, settings_file), 0
    port = begin(run, protocol, course)
    for source in first:
        run.knock(port, protocol, source)
    run.asked.clear()
    for moment in moments:
        run.rest(moment - past)
        past = moment
        run.knock(port, protocol)
        if answer:
            packet = ipv4(HOST.station.address, STRANGER.station.address, TCP, tcp(HOST.place, STRANGER.place, answer, b""))
            run.put("inside", ethernet(run.own_mac("inside"), HOST.station.mac, IPV4, packet))
    return run.fates()


def kept_by(program, settings_file, protocol, each, course=(), first=(), answer=None):
    """How long a pair was there that a stranger's packet came to each so often: a day, or until it was let go. Each packet is
    a use, so each moment between the last that passed and the next is looked at in a run of its own."""
    def fates(moments):
        return passed(program, settings_file, protocol, course, first, answer, moments)

    moments = [*range(each, DAY, each), DAY]
    seen = fates(moments)
    if all(seen):
        return DAY
    before = moments[: seen.index(False)]
    between = range(max(before, default=0) + TICK, moments[len(before)] + TICK)
    return between[bisect.bisect_left(between, True, key=lambda moment: not fates([*before, moment])[-1])]


def told_keeping(name, seconds, is_guarded, rest):
    """A row: a pair is there for a day, or as long as without strangers."""
    owed = rest if is_guarded else DAY
    return name, told_time(owed), told_time(seconds), seconds == owed


def pairs(program, settings_file, is_guarded):
    """Pairs of UDP and of pings, which a stranger's packets come to."""
    held = kept_by(program, settings_file, UDP, UDP_EACH)
    yield told_keeping("a datagram each 299.9 s keeps a pair", held, is_guarded, UDP_REST)
    held = kept_by(program, settings_file, ICMP, PING_EACH)
    yield told_keeping("a Reply each 59.9 s keeps a ping's pair", held, is_guarded, QUERY_REST)


def connections(program, settings_file, is_guarded):
    """Pairs of TCP whose host has sent a SYN, and nothing more but refusals."""
    syn = ((0, SYN),)
    held = kept_by(program, settings_file, TCP, SEGMENT_EACH, syn, [STRANGER])
    yield told_keeping("an ACK, and one each 2 h 3 min then, keep a half-open pair", held, is_guarded, SHORT)
    crowd = [End(REMOTES[1], port) for port in STRANGE_PORTS]
    held = kept_by(program, settings_file, TCP, SEGMENT_EACH, syn, crowd)
    yield told_keeping("five ACKs of five ports, then one each 2 h 3 min", held, is_guarded, SHORT)
    held = kept_by(program, settings_file, TCP, REFUSED_EACH, syn, (), RST)
    yield told_keeping("an ACK each 239 s, which the host refuses", held, is_guarded, SHORT)


def refused_of(program, settings_file, protocol):
    """Of a flow a minute how many are refused, while a stranger sends to each of few ports."""
    run = Run(program, settings_file)
    knocked = 0
    for number in range(FLOWS):
        run.rest(MINUTE)
        end = End(HOSTS[0], 5_000 + number)
        payload = udp(end.place, REMOTE.place, b"") if protocol == UDP else tcp(end.place, REMOTE.place, SYN, b"")
        run.hand("inside", end.station, ipv4(end.station.address, REMOTE.place[0], protocol, payload))
        if run.moment >= knocked + KNOCK_EACH:
            knocked = run.moment
            fate = len(run.asked)
            for port in FEW:
                run.knock(port, protocol)
            del run.asked[fate:]
    return run.fates().count(False)


def told_refusals(name, count, is_guarded):
    owed = "none is refused" if is_guarded else f"all but {len(FEW)} are refused"
    return name, owed, f"{count} of {FLOWS}", count == 0 if is_guarded else count == FLOWS - len(FEW)


def datagrams_refused(program, settings_file, is_guarded):
    count = refused_of(program, settings_file, UDP)
    yield told_refusals("a flow a minute over 10 ports, and strangers: UDP", count, is_guarded)


def segments_refused(program, settings_file, is_guarded):
    count = refused_of(program, settings_file, TCP)
    yield told_refusals("a flow a minute over 10 ports, and strangers: TCP", count, is_guarded)


def passes(bench, options):
    """Whether a packet with these options comes out: inward, and outward."""
    port = begin(bench, UDP)
    header = Header(options=options)
    inward = bench.udp(REMOTE, bench.outside(port), header)
    outward = bench.udp(HOST, REMOTE.place, header)
    return sum(found is not None for found in (inward, outward))


def routes(program, settings_file, is_guarded):
    for name, options in (("a loose source route", LOOSE), ("a strict source route", STRICT)):
        count = passes(Scripted(program, settings_file), options)
        owed = 0 if is_guarded else 2
        yield f"{name}, in and out", f"{owed} of 2 come", f"{count} of 2", count == owed
    count = passes(Scripted(program, settings_file), RECORD)
    yield "Record Route, in and out", "2 of 2 come", f"{count} of 2", count == 2


def neighbours(program, settings_file, is_guarded):
    """A host that a packet was sent to, then more stations than there are places, and another packet to the host."""
    bench = Scripted(program, settings_file)
    port = begin(bench, UDP)
    bench.udp(REMOTE, bench.outside(port))
    virtual = bench.settings["inside"]["virtual"]
    for number in range(CROWD):
        address = f"192.168.{2 + number // 250}.{1 + number % 250}"
        bench.put("inside", arp_request(Station("inside", address, b"\x02\0\1" + number.to_bytes(3, "big")), virtual))
    found = bench.udp(REMOTE, bench.outside(port)) is not None
    owed = "sent" if is_guarded else "waits"
    yield f"{CROWD:,} stations ask; a packet to a host in use", owed, "sent" if found else "waits", found == is_guarded


class Hop:
    """A next hop, which answers as soon as it is asked for, and a packet whose way goes there."""

    def __init__(self, bench, station, side, packet):
        self.bench = bench
        self.station = station
        source = HOST.station if side == "inside" else REMOTE.station
        self.line = f"frame 0 {side} {ethernet(bench.own_mac(side), source.mac, IPV4, packet).hex()}"

    def known_as(self, mac):
        """It, or who speaks in its name, asks for the box."""
        station = self.station._replace(mac=mac)
        self.bench.put(station.side, arp_request(station, self.bench.settings[station.side]["virtual"]))

    def to_mac(self):
        """Where the packet goes."""
        sent = [frame for side, frame in self.bench.do(self.line) if side == self.station.side and is_ipv4(frame)]
        return sent[0][:6] if sent else None

    def healed(self):
        """After how many seconds, in which a packet goes there each second, one goes to the true MAC."""
        begun = len(self.bench.lines)
        moments = range(self.bench.moment + SECOND, self.bench.moment + LONGEST * SECOND + 1, SECOND)
        self.bench.lines += [line for moment in moments for line in (f"tick 0 {moment}", self.line)]
        for number, event in enumerate(self.bench.run()):
            frames = [bytes.fromhex(words[3]) for words in event if words[0] == "frame"]
            asked = [frame for frame in frames if is_arp(frame, 1) and frame[38:42] == ip_bytes(self.station.address)]
            if number >= begun and asked:
                del self.bench.lines[number + 1 :]
                self.bench.put(self.station.side, arp_reply(self.station, asked[0]))
                return (number - begun) // 2 + 1 if self.to_mac() == self.station.mac else None
        return None


def router_heard(program, settings_file, mac):
    """The router, whom the box has heard with this MAC, and a packet to somebody behind it."""
    bench = Scripted(program, settings_file)
    station = Station("outside", bench.settings["outside"]["router"], TRUE)
    hop = Hop(bench, station, "inside", ipv4(HOST.station.address, FAR[0], UDP, udp(HOST.place, FAR, b"")))
    hop.known_as(mac)
    return hop


def told_healing(name, seconds, owed):
    return name, f"{owed} s", "never" if seconds is None else f"{seconds} s", seconds == owed


def moved(program, settings_file, is_guarded):
    hop = router_heard(program, settings_file, OLD)
    yield told_healing("the router's MAC changes, and nobody says so", hop.healed(), 30 if is_guarded else 900)


def forged_host(program, settings_file, is_guarded):
    """An ARP packet in the name of a host that a packet from outside is for."""
    bench = Scripted(program, settings_file)
    place = bench.outside(begin(bench, UDP))
    packet = ipv4(REMOTE.station.address, place[0], UDP, udp(REMOTE.place, place, b""))
    hop = Hop(bench, HOST.station, "outside", packet)
    hop.known_as(FORGED)
    yield told_healing("forged ARP for a host", hop.healed(), 1 if is_guarded else 900)


def listed(program, settings_file, is_guarded):
    """An ARP packet in the router's name, which the settings may have as a neighbour."""
    hop = router_heard(program, settings_file, TRUE)
    hop.known_as(FORGED)
    told = {TRUE: "to the router", FORGED: "to the forger"}
    owed = TRUE if is_guarded else FORGED
    found = hop.to_mac()
    yield "forged ARP for a router that may be a [[neighbour]]", told[owed], told.get(found, "nowhere"), found == owed
