"""Frames as bytes: made with right checksums, and read."""

import socket
import struct
from typing import NamedTuple

ARP, IPV4 = 0x0806, 0x0800
ICMP, TCP, UDP, VRRP = 1, 6, 17, 112
ECHO, REPLY = 8, 0
FIN, SYN, RST, PSH, ACK = 1, 2, 4, 8, 16
MORE_FRAGMENTS, DONT_FRAGMENT, PLACE = 0x2000, 0x4000, 0x1FFF
EVERYBODY = b"\xff" * 6
VRRP_MAC = bytes.fromhex("01005e000012")
VRRP_GROUP = "224.0.0.18"


class Station(NamedTuple):
    """A host of one of the two networks, and what it is known by there."""

    side: str
    address: str
    mac: bytes


class Header(NamedTuple):
    """What an IPv4 header has beside its addresses."""

    ttl: int = 64
    identification: int = 1
    fragment: int = 0
    service: int = 0
    options: bytes = b""


PLAIN = Header()


def word_sum(data):
    total = sum(struct.unpack(f">{(len(data) + 1) // 2}H", data + b"\0" * (len(data) % 2)))
    while total >> 16:
        total = (total & 0xFFFF) + (total >> 16)
    return total


def checksum(data):
    return word_sum(data) ^ 0xFFFF


def ip_bytes(address):
    return socket.inet_aton(address)


def ipv4(source, target, protocol, payload, header=PLAIN):
    length = 20 + len(header.options)
    head = struct.pack(">BBHHHBBH4s4s", 0x40 | length // 4, header.service, length + len(payload),
                       header.identification, header.fragment, header.ttl, protocol, 0,
                       ip_bytes(source), ip_bytes(target)) + header.options
    return head[:10] + checksum(head).to_bytes(2, "big") + head[12:] + payload


def fragment_of(head, word, part):
    """A packet with this header but for its length, and its flags and offset, which are `word`; and this payload."""
    head = b"".join((head[:2], (len(head) + len(part)).to_bytes(2, "big"), head[4:6], word.to_bytes(2, "big"), head[8:10],
                     bytes(2), head[12:]))
    return head[:10] + checksum(head).to_bytes(2, "big") + head[12:] + part


def cut(packet, most=1500):
    """The fragments, in order, in which a packet without options goes where so many bytes are taken at once."""
    size = (packet[0] & 15) * 4
    head, body, share = packet[:size], packet[size:], (most - size) // 8 * 8
    return [fragment_of(head, start // 8 | MORE_FRAGMENTS * (start + share < len(body)), body[start : start + share])
            for start in range(0, len(body), share)]


def transport_sum(source, target, protocol, segment):
    pseudo = ip_bytes(source) + ip_bytes(target) + struct.pack(">BBH", 0, protocol, len(segment))
    return checksum(pseudo + segment)


def udp(source, target, data):
    """A datagram between two ends, each an address and a port."""
    head = struct.pack(">HHHH", source[1], target[1], 8 + len(data), 0)
    found = transport_sum(source[0], target[0], UDP, head + data) or 0xFFFF
    return head[:6] + found.to_bytes(2, "big") + data


def tcp(source, target, flags, data, numbers=(1, 1), options=b""):
    """A segment between two ends; its numbers are that of its first byte, and that of the byte that it waits for."""
    waits = numbers[1] if flags & ACK else 0
    head = struct.pack(">HHIIBBHHH", source[1], target[1], numbers[0], waits, (20 + len(options)) // 4 << 4, flags,
                       8192, 0, 0) + options
    found = transport_sum(source[0], target[0], TCP, head + data)
    return head[:16] + found.to_bytes(2, "big") + head[18:] + data


def marked(mark):
    """A mark of four bytes as an option of TCP, of the kind that is for tries (RFC 4727)."""
    return b"\xfd\x06" + mark + b"\1\1"


def icmp(kind, code, rest, data):
    message = struct.pack(">BBH4s", kind, code, 0, rest) + data
    return message[:2] + checksum(message).to_bytes(2, "big") + message[4:]


def ethernet(target, source, kind, body):
    return target + source + kind.to_bytes(2, "big") + body


def arp_request(station, target):
    """A station asks everybody for an address; for its own it tells where it is."""
    body = bytes.fromhex("0001080006040001") + station.mac + ip_bytes(station.address)
    return ethernet(EVERYBODY, station.mac, ARP, body + bytes(6) + ip_bytes(target))


def arp_reply(station, request):
    """A station answers who asked for it."""
    asker = request[22:32]
    body = bytes.fromhex("0001080006040002") + station.mac + ip_bytes(station.address) + asker
    return ethernet(asker[:6], station.mac, ARP, body)


class Advert(NamedTuple):
    """A VRRP advertisement, and the packet that carries it."""

    router: int
    priority: int
    source: str
    address: str
    interval: int = 100
    ttl: int = 255
    version: int = 3
    pseudo: bool = False

    def frame(self):
        message = struct.pack(">BBBBHH4s", self.version << 4 | 1, self.router, self.priority, 1,
                              self.interval, 0, ip_bytes(self.address))
        pseudo = ip_bytes(self.source) + ip_bytes(VRRP_GROUP) + struct.pack(">BBH", 0, VRRP, len(message))
        found = checksum((pseudo if self.pseudo else b"") + message)
        message = message[:6] + found.to_bytes(2, "big") + message[8:]
        packet = ipv4(self.source, VRRP_GROUP, VRRP, message, Header(ttl=self.ttl))
        return ethernet(VRRP_MAC, virtual_mac(self.router), IPV4, packet)


def virtual_mac(router):
    return bytes.fromhex(f"00005e0001{router:02x}")


class Packet:
    """An IPv4 packet as it was read from a frame."""

    def __init__(self, frame):
        self.frame = frame
        self.to_mac, self.from_mac = frame[:6], frame[6:12]
        body = frame[14:]
        length = (body[0] & 15) * 4
        self.service = body[1]
        self.length, self.identification, self.fragment = struct.unpack(">HHH", body[2:8])
        self.ttl, self.protocol = body[8], body[9]
        self.source, self.target = socket.inet_ntoa(body[12:16]), socket.inet_ntoa(body[16:20])
        self.options = body[20:length]
        self.payload = body[length : self.length]

    @property
    def is_fragment(self):
        return self.fragment & (MORE_FRAGMENTS | PLACE) != 0

    @property
    def start(self):
        """Which byte of a datagram's payload its own first one is."""
        return (self.fragment & PLACE) * 8

    @property
    def source_port(self):
        """Of a query its identifier, which stands for both ports."""
        return int.from_bytes(self.payload[4:6] if self.protocol == ICMP else self.payload[:2], "big")

    @property
    def target_port(self):
        return int.from_bytes(self.payload[4:6] if self.protocol == ICMP else self.payload[2:4], "big")

    @property
    def data(self):
        """What stands behind the header of a UDP datagram or a TCP segment."""
        return self.payload[8 if self.protocol == UDP else (self.payload[12] >> 4) * 4 :]


def is_ipv4(frame):
    return len(frame) >= 34 and frame[12:14] == b"\x08\x00"


def is_advert(frame):
    return is_ipv4(frame) and frame[23] == VRRP


def is_arp(frame, operation):
    return len(frame) >= 42 and frame[12:14] == b"\x08\x06" and frame[21] == operation


def joined(packets):
    """The packet that fragments make, in whatever order they are; None where a byte is missing, or is there twice."""
    found, body = sorted(packets, key=lambda packet: packet.start), b""
    for packet in found:
        if packet.start != len(body) or bool(packet.fragment & MORE_FRAGMENTS) != (packet is not found[-1]):
            return None
        body += packet.payload
    size = len(found[0].options) + 20
    frame = found[0].frame
    return Packet(frame[:14] + fragment_of(frame[14 : 14 + size], found[0].fragment & DONT_FRAGMENT, body))


def wholes(frames):
    """The packets that the fragments among some frames make, in order. Of a fragment that comes twice one counts."""
    there, found = {}, []
    for packet in map(Packet, frames):
        name = packet.frame[:12], packet.source, packet.target, packet.protocol, packet.identification
        parts = there.setdefault(name, {})
        parts.setdefault(packet.start, packet)
        if whole := joined(parts.values()):
            found.append(whole)
            del there[name]
    return found
