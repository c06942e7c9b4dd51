"""Which free port a new pair gets: the lowest one, or one that is drawn by a key, as in section 3.3.3 of RFC 6056, but
in a block of 64 numbers that is drawn first. The key is that of the worked runs."""

import hashlib

from wire import UDP, address, number, two

KEY = bytes(32)
BLOCK = 64


def numbers(key, endpoint):
    """The two numbers by which an endpoint's port is drawn."""
    protocol, inside, inside_port = endpoint
    told = hashlib.sha256(key + bytes([protocol]) + inside + two(inside_port)).digest()
    return number(told[:4]), number(told[4:8])


def lowest(parities, is_free, _endpoint):
    """The lowest free port; `parities` are the owned ports of each, those of the inside port's parity first."""
    return next((port for owned in parities for port in owned if is_free(port)), None)


def drawn(parities, is_free, endpoint):
    """The drawn free port."""
    for owned in map(list, parities):
        free = [port for port in owned if is_free(port)]
        if free:
            return drawn_of(owned, free, *numbers(KEY, endpoint))
    return None


def drawn_of(owned, free, first, second):
    """The first number draws a block that has a free port, the second an owned port there, free or not: the place. The
    port is the first free one of the block from the place on, else from the block's beginning."""
    blocks = sorted({port // BLOCK for port in free})
    block = blocks[first % len(blocks)]
    places = [port for port in owned if port // BLOCK == block]
    place = places[second % len(places)]
    here = [port for port in free if port // BLOCK == block]
    return next((port for port in here if port >= place), here[0])


WAYS = {"lowest": lowest, "drawn": drawn}


def self_test():
    """Numbers and a port that come from outside; and what is taken, ends or is missing in a block."""
    endpoint = (UDP, address("192.168.1.10"), 5000)
    assert numbers(bytes(32), endpoint) == (1822238821, 959157607)
    assert numbers(b"\1" * 32, endpoint) == (1261849020, 983574902)
    parities = [range(20000, 40000, 2), [20001]]
    assert drawn(parities, lambda _port: True, endpoint) == 25358
    assert drawn(parities, lambda port: port % 2 == 1, endpoint) == 20001
    assert drawn(parities, lambda _port: False, endpoint) is None
    ports = [130, 132, 190, 192]
    assert [drawn_of(ports, ports, *pair) for pair in ((0, 1), (0, 2), (1, 2), (2, 3))] == [132, 190, 192, 130]
    assert [drawn_of(ports, [132, 192], 0, second) for second in range(3)] == [132, 132, 132]
    assert [drawn_of(ports, [130, 190], 4, second) for second in range(3)] == [130, 190, 190]
