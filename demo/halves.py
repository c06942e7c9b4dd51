"""Both networks and the link are cut between the boxes, with half of the hosts at each box."""

from pair import HOSTS, SIDES

# Box 1's half has these hosts, box 0's the others, and one host more, which can go over to box 1's.
FAR, MOVER = HOSTS[2:], "192.168.1.14"
# The cables of these, and the tables by which they go out by them.
CABLES = (("eth1", FAR, "11"), ("eth2", (MOVER,), "12"))
# The part of the inside switch that is box 1's while the networks are cut.
PART = "part"


class Halves:
    """Hosts with cables of their own to the inside switch, which is cut in two. Outside, the router sees both boxes all the
    while, and each of its frames comes to both: the boxes alone don't hear each other there."""

    def __init__(self, current):
        self.networks = current.networks
        self.inside, self.outside = (self.networks.switches[side] for side in SIDES)
        self.inside.add_bridge(PART)
        current.observer.join_part(current.loop, "inside", PART)
        # Each of the host's interfaces answers and asks for its own addresses alone.
        self.networks.host.sysctl("ipv4/conf/all/arp_ignore", 1)
        self.networks.host.sysctl("ipv4/conf/all/arp_announce", 2)
        for name, addresses, table in CABLES:
            self.plug(name, addresses, table)

    def plug(self, name, addresses, table):
        host, virtual = self.networks.host, self.networks.settings["inside"]["virtual"]
        self.inside.plug(f"host-{name}", host, name)
        for address in addresses:
            if address in HOSTS:
                host.ip("addr", "del", f"{address}/24", "dev", "eth0")
            host.ip("addr", "add", f"{address}/24", "dev", name)
            host.ip("rule", "add", "from", address, "table", table)
        host.ip("route", "add", "default", "via", virtual, "dev", name, "table", table)

    def port(self, side, number):
        """A box's port at a side's switch."""
        box = self.networks.boxes[number]
        return f"vx{box.tunnel(side)[2]}" if self.networks.options.sides == "vxlan" else f"box{number}"

    def set_outside(self, *words):
        for number in (0, 1):
            self.outside.space.ip("link", "set", "dev", self.port("outside", number), "type", "bridge_slave", *words)

    def cut(self):
        for port in (self.port("inside", 1), "host-eth1"):
            self.inside.move(port, PART)
        self.set_outside("isolated", "on", "learning", "off", "fdb_flush")
        self.networks.cut_link()

    def move(self):
        """The host that moves goes over to box 1's half."""
        self.inside.move("host-eth2", PART)

    def mend(self):
        for port in (self.port("inside", 1), "host-eth1", "host-eth2"):
            self.inside.move(port, "bridge")
        self.set_outside("isolated", "off", "learning", "on")
        self.networks.mend_link()
