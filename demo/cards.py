"""Sockets of the demo's own, for what it watches."""

import socket
import sys

ROOM = 8 << 20

ETH_P_ALL = 3
SO_RCVBUFFORCE = 33
SOL_PACKET = 263
PACKET_ADD_MEMBERSHIP = 1
PACKET_MR_PROMISC = 1


def card(name):
    """A socket for all frames of an interface, whatever address they are for."""
    found = socket.socket(socket.AF_PACKET, socket.SOCK_RAW, 0)
    found.setsockopt(socket.SOL_SOCKET, SO_RCVBUFFORCE, ROOM)
    index = socket.if_nametoindex(name)
    member = index.to_bytes(4, sys.byteorder) + PACKET_MR_PROMISC.to_bytes(2, sys.byteorder)
    found.setsockopt(SOL_PACKET, PACKET_ADD_MEMBERSHIP, member + bytes(10))
    found.bind((name, ETH_P_ALL))
    found.setblocking(False)
    return found
