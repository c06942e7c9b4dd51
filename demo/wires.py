"""What the two switches pass on of packets to a box and of a box, and what their fragments make."""

import collections
import socket
import struct

from cards import SO_RCVBUFFORCE, SOL_PACKET, card
from observer import BEHIND, PACKET_STATISTICS
from packets import ICMP, TCP, UDP, Packet, is_ipv4, virtual_mac, wholes

KINDS = (ICMP, TCP, UDP)


def mac_of(text):
    return bytes.fromhex(text.replace("-", ""))


class Wires:
    """All packets but advertisements that both switches pass on from now on, by their sides and in order."""

    def __init__(self, current):
        self.settings = current.networks.settings
        self.cards, self.frames = {}, {}
        for side, switch in current.networks.switches.items():
            with switch.space.entered():
                sock = card("bridge")
            sock.setsockopt(socket.SOL_SOCKET, SO_RCVBUFFORCE, BEHIND)
            current.stack.callback(sock.close)
            self.cards[side], self.frames[side] = sock, []
            current.loop.watch(sock, lambda side=side: self.look(side))

    def look(self, side):
        """Takes frames that are there, and not more than leave time for others."""
        try:
            for _ in range(64):
                frame = self.cards[side].recv(65535)
                if is_ipv4(frame) and frame[23] in KINDS:
                    self.frames[side].append(frame)
        except BlockingIOError:
            pass

    def unseen(self):
        """How many frames it has not seen since it was asked last, since they were too many at a time."""
        return sum(struct.unpack("II", sock.getsockopt(SOL_PACKET, PACKET_STATISTICS, 8))[1] for sock in self.cards.values())

    def came(self, side):
        """The packets that came to the Active box at a side."""
        virtual = virtual_mac(self.settings[side]["vrid"])
        return [frame for frame in self.frames[side] if frame[:6] == virtual]

    def sent(self, side, *numbers):
        """The packets that these boxes sent at a side."""
        own = [mac_of(self.settings[f"gateway_{number}"][f"{side}_mac"]) for number in numbers]
        return [frame for frame in self.frames[side] if frame[6:12] in own]

    def cut_outward(self, number):
        """The identifications, in order, under which a box sent packets of the outside address in fragments."""
        firsts = [packet for packet in map(Packet, self.sent("outside", number)) if packet.is_fragment and packet.start == 0]
        return [packet.identification for packet in firsts if packet.source == self.settings["outside"]["virtual"]]


def texts(frames):
    """The texts of the UDP datagrams that the fragments among some frames make, and how often each."""
    pieces = [frame for frame in frames if frame[23] == UDP and Packet(frame).is_fragment]
    return collections.Counter(whole.payload[8:] for whole in wholes(pieces))
