"""Frames by the standards: what is read of their bytes, and what they are sent on as. The rules are those of the page
of the packet path: Ethernet, IPv4 (RFC 791), UDP, TCP, ICMP (RFC 792), checksums by whole sums."""

ICMP, TCP, UDP = 1, 6, 17
IPV4, ARP = b"\x08\x00", b"\x08\x06"
FIN, SYN, RST, ACK = 1, 2, 4, 16


def word_sum(octets):
    """The plain sum of 16-bit words; an odd last octet is followed by a zero."""
    padded = octets + b"\0" * (len(octets) % 2)
    return sum(padded[0::2]) * 256 + sum(padded[1::2])


def complement(octets):
    """65535 minus the one's complement sum."""
    total = word_sum(octets)
    while total > 65535:
        total = (total & 65535) + (total >> 16)
    return 65535 - total


def is_right(octets):
    """Whether what holds its own checksum is right: its sum is 0 modulo 65535, and not all of it is 0."""
    total = word_sum(octets)
    return total > 0 and total % 65535 == 0


def number(octets):
    return int.from_bytes(octets, "big")


def two(value):
    return value.to_bytes(2, "big")


def address(text):
    return bytes(int(part) for part in text.split("."))


def mac(text):
    return bytes.fromhex(text.replace("-", ""))


def is_martian(octets):
    return octets[0] in (0, 127) or octets[0] >= 224


class Packet:
    """An IPv4 packet whose header was read."""

    def __init__(self, octets):
        self.head = octets[: (octets[0] & 15) * 4]
        self.body = octets[len(self.head) : number(octets[2:4])]
        self.ttl, self.protocol = octets[8], octets[9]
        self.source, self.target = octets[12:16], octets[16:20]
        self.length, self.may_be_cut = number(octets[2:4]), not octets[6] & 0x40

    def ports(self):
        """The source and the target port; of a query its identifier, twice."""
        if self.protocol == ICMP:
            return number(self.body[4:6]), number(self.body[4:6])
        return number(self.body[0:2]), number(self.body[2:4])

    def endpoint(self):
        """The host and port, or identifier, that it comes from."""
        return self.protocol, self.source, self.ports()[0]

    def flags(self):
        return self.body[13] if self.protocol == TCP else 0


def header_reason(octets):
    """Why these octets begin with no header that is taken, by the number of the reason; None where they do."""
    if len(octets) < 20 or octets[0] >> 4 != 4 or octets[0] & 15 < 5:
        return 3
    size, total = (octets[0] & 15) * 4, number(octets[2:4])
    if total < size or total > len(octets):
        return 4
    if not is_right(octets[:size]):
        return 5
    if has_source_route(octets[20:size]):
        return 21
    return 6 if number(octets[6:8]) & 0x3FFF else None


def has_source_route(options):
    """Whether there is a loose or a strict source route before the list of options ends, or breaks off."""
    while options and options[0] != 0:
        if options[0] in (0x83, 0x89):
            return True
        size = 1 if options[0] == 1 else options[1] if len(options) > 1 else 0
        if size == 0 or (options[0] != 1 and size < 2) or size > len(options):
            return False
        options = options[size:]
    return False


def is_error(packet):
    return packet.protocol == ICMP and packet.body[:1] in (b"\x03", b"\x0b", b"\x0c")


def transport_reason(packet, side):
    """The reason of a packet that is no error, for its protocol or the header behind IPv4's."""
    body = packet.body
    if packet.protocol == UDP:
        whole = len(body) >= 8 and 8 <= number(body[4:6]) <= len(body)
        return None if whole and 0 not in packet.ports() else 9
    if packet.protocol == TCP:
        whole = len(body) >= 20 and 20 <= (body[12] >> 4) * 4 <= len(body)
        return None if whole and 0 not in packet.ports() else 9
    if packet.protocol == ICMP:
        kind = 8 if side == "inside" else 0
        if len(body) == 0 or body[0] != kind or (len(body) > 1 and body[1] != 0):
            return 8
        return None if len(body) >= 8 and packet.ports()[0] else 9
    return 8


def inside_of(packet):
    """The packet inside an error, and its ports; None where the error isn't sound."""
    inner = packet.body[8:]
    if not is_right(packet.body) or len(inner) < 20 or inner[0] >> 4 != 4 or inner[0] & 15 < 5:
        return None
    size = (inner[0] & 15) * 4
    if len(inner) < size + 8 or not is_right(inner[:size]) or number(inner[6:8]) & 0x1FFF:
        return None
    if inner[9] == ICMP and (inner[size] not in (0, 8) or inner[size + 1] != 0):
        return None
    if inner[9] not in (ICMP, TCP, UDP):
        return None
    return Inside(inner, size)


class Inside:
    """The packet inside an error, as much of it as is there."""

    def __init__(self, octets, size):
        self.head, self.body = octets[:size], octets[size:]
        self.protocol = octets[9]
        self.source, self.target = octets[12:16], octets[16:20]
        if self.protocol == ICMP:
            self.source_port = self.target_port = number(self.body[4:6])
        else:
            self.source_port, self.target_port = number(self.body[0:2]), number(self.body[2:4])

    def has_port_zero(self):
        return self.source_port == 0 or self.target_port == 0


def moved(field, before, behind, protocol):
    """A transport checksum once the words that it sums have changed."""
    if protocol == UDP and field == 0:
        return 0
    value = (field + word_sum(before) - word_sum(behind)) % 65535
    return 0xFFFF if protocol == UDP and value == 0 else value


def with_addresses(head, source, target, step):
    """A header with these addresses, its time to live lowered by `step`, and its checksum worked out anew."""
    head = bytearray(head)
    head[8] -= step
    head[12:16], head[16:20], head[10:12] = source, target, b"\0\0"
    head[10:12] = two(complement(bytes(head)))
    return bytes(head)


SUM_AT = {ICMP: 2, TCP: 16, UDP: 6}


def with_ports(body, protocol, old, new):
    """What stands behind a header, with new ports; `old` and `new` are source, source port, target and target port."""
    body = bytearray(body)
    if protocol == ICMP:
        identifier = new[1] if new[1] != old[1] else new[3]
        before, behind = two(old[1]), two(identifier)
        body[4:6] = two(identifier)
    else:
        before = old[0] + two(old[1]) + old[2] + two(old[3])
        behind = new[0] + two(new[1]) + new[2] + two(new[3])
        body[0:2], body[2:4] = two(new[1]), two(new[3])
    at = SUM_AT[protocol]
    if len(body) >= at + 2:
        body[at : at + 2] = two(moved(number(body[at : at + 2]), before, behind, protocol))
    return bytes(body)


def translated(packet, source, source_port, target, target_port):
    """The packet with other addresses and ports, one hop on."""
    old = (packet.source, packet.ports()[0], packet.target, packet.ports()[1])
    new = (source, source_port, target, target_port)
    head = with_addresses(packet.head, source, target, 1)
    return head + with_ports(packet.body, packet.protocol, old, new)


def passed_on(packet, inner, source, target, new):
    """An error with other addresses, about a packet with other addresses and ports, one hop on."""
    old = (inner.source, inner.source_port, inner.target, inner.target_port)
    body = with_addresses(inner.head, new[0], new[2], 0) + with_ports(inner.body, inner.protocol, old, new)
    message = packet.body[:2] + b"\0\0" + packet.body[4:8] + body
    message = message[:2] + two(complement(message)) + message[4:]
    return with_addresses(packet.head, source, target, 1) + message


def ethernet(target, source, kind, body):
    return target + source + kind + body


def arp(operation, sender_mac, sender, target_mac, target):
    return bytes.fromhex("000108000604") + two(operation) + sender_mac + sender + target_mac + target


def ipv4(protocol, source, target, body, ttl=64, identification=1):
    head = bytearray(20)
    head[0], head[8], head[9] = 0x45, ttl, protocol
    head[2:4], head[4:6] = two(20 + len(body)), two(identification)
    head[12:16], head[16:20] = source, target
    head[10:12] = two(complement(bytes(head)))
    return bytes(head) + body


def with_options(packet, options):
    """A packet without options with these ones, which may end anywhere: what follows is the end of the list."""
    options += bytes(-len(options) % 4)
    head = bytearray(packet[:20] + options)
    head[0], head[2:4], head[10:12] = 0x45 + len(options) // 4, two(len(packet) + len(options)), b"\0\0"
    head[10:12] = two(complement(bytes(head)))
    return bytes(head) + packet[20:]


def with_transport_sum(protocol, source, target, body):
    """A UDP or TCP body with its checksum over the pseudo-header."""
    at = SUM_AT[protocol]
    body = body[:at] + b"\0\0" + body[at + 2 :]
    pseudo = source + target + bytes([0, protocol]) + two(len(body))
    value = complement(pseudo + body)
    if protocol == UDP and value == 0:
        value = 0xFFFF
    return body[:at] + two(value) + body[at + 2 :]


def udp(source, source_port, target, target_port, data=b"hi"):
    body = two(source_port) + two(target_port) + two(8 + len(data)) + b"\0\0" + data
    return ipv4(UDP, source, target, with_transport_sum(UDP, source, target, body))


def tcp(source, source_port, target, target_port, flags):
    body = two(source_port) + two(target_port) + bytes(8) + bytes([0x50, flags]) + two(0x2000) + bytes(4)
    return ipv4(TCP, source, target, with_transport_sum(TCP, source, target, body))


def query(kind, source, target, identifier, data=b"ping"):
    body = bytes([kind, 0, 0, 0]) + two(identifier) + two(1) + data
    body = body[:2] + two(complement(body)) + body[4:]
    return ipv4(ICMP, source, target, body)


def error(kind, code, source, target, inner):
    body = bytes([kind, code, 0, 0, 0, 0, 0, 0]) + inner
    body = body[:2] + two(complement(body)) + body[4:]
    return ipv4(ICMP, source, target, body)
