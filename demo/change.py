"""Each key in which the files of two boxes may differ is changed box by box under load: the Backup first, and the other one
once that is synced. No flow that had an answer is lost, and both boxes say one digest all the while."""

import copy
import json

from changes import SOON, Changes
from pair import HOSTS, ROUTER, SIDES
from scene import scene

# The outside router's second address.
SECOND_ROUTER = "192.0.2.253"
# What `check` says of a key in which files may differ.
MAY = "may differ: "
# The keys that must agree, and VRIDs, with which hosts may keep a MAC that goes: all others have a row.
MUST = {"ports.zero", "ports.one", *(f"{side}.{key}" for side in SIDES for key in ("virtual", "prefix", "vrid"))}


def mac_of(space):
    """The hardware address of a host."""
    return json.loads(space.ip("-j", "link", "show", "dev", "eth0"))[0]["address"]


def neighbours(networks):
    """All hosts that the boxes send to, as `[[neighbour]]`."""
    places = [("inside", address, networks.host) for address in HOSTS]
    places += [("outside", address, networks.router) for address in (ROUTER, SECOND_ROUTER)]
    return [{"side": side, "ip": ip, "mac": mac_of(space)} for side, ip, space in places]


def rows(networks):
    """The rows of the column of keys that may differ (docs/REFERENCE.md): by its keys, what is changed by each."""
    return {
        "host_limit": {"ports": {"host_limit": 1000}},
        "inward_refresh": {"ports": {"inward_refresh": False}},
        "choice": {"ports": {"choice": "drawn"}},
        "ahead": {"ports": {"ahead": 64}},
        "mtu": {"inside": {"mtu": 1400}, "outside": {"mtu": 1300}},
        "router": {"outside": {"router": SECOND_ROUTER}},
        "echo, errors": {"icmp": {"echo": False, "errors": False}},
        "pass": {"fragments": {"pass": False}},
        "neighbour": {"neighbour": neighbours(networks)},
        "inside_ip, outside_ip": of_both(lambda n: {"inside_ip": f"192.168.1.{4 + n}", "outside_ip": f"192.0.2.{4 + n}"}),
        "inside_mac, outside_mac": of_both(
            lambda n: {"inside_mac": f"02-00-00-00-03-0{n}", "outside_mac": f"02-00-00-00-04-0{n}"}),
        "priority": of_both(lambda n: {"priority": (90, 110)[n]}),
        "interval": of_both(lambda n: {"interval": 50}),
        "preempt": of_both(lambda n: {"preempt": False}),
        "boot_file": of_both(lambda n: {"boot_file": f"moved{n}"}),
        "wire, link, inside_port, outside_port": {
            "inside": {"wire": 7201}, "outside": {"wire": 7202},
            **of_both(lambda n: {"link": 7301 + n, "inside_port": 7311 + n, "outside_port": 7321 + n})},
        # From here on priorities, intervals and own addresses must agree.
        "peer_only": {"vrrp": {"peer_only": True}},
    }


def of_both(change):
    return {f"gateway_{number}": change(number) for number in (0, 1)}


def changed(settings, change):
    """Settings with a change: a list of neighbours takes the place of the one before, other keys come to their section."""
    found = copy.deepcopy(settings)
    for name, section in change.items():
        if isinstance(section, list):
            found[name] = section
        else:
            found.setdefault(name, {}).update(section)
    return found


def text_of(settings):
    """Settings as a file has them."""
    lines = []
    for name, section in settings.items():
        for table in section if isinstance(section, list) else [section]:
            lines.append(f"[[{name}]]" if isinstance(section, list) else f"[{name}]")
            lines += [f"{key} = {json.dumps(value)}" for key, value in table.items()]
    return "\n".join(lines) + "\n"


def values(settings):
    """The values of settings, or of a change, by their keys as `check` names them."""
    found = {}
    for name, section in settings.items():
        found |= {name: section} if isinstance(section, list) else {f"{name}.{key}": section[key] for key in section}
    return found


class KeyChanges(Changes):
    """The load, and the settings that each box runs on."""

    def __init__(self, current, count):
        super().__init__(current, count)
        self.networks = current.networks
        self.first = copy.deepcopy(current.networks.settings)
        self.settings = [self.first, self.first]
        self.files = 0
        self.digests = []

    def own(self, number):
        """A box's own section of the settings that it runs on."""
        return self.settings[number][f"gateway_{number}"]

    def backup(self):
        return next(number for number in (0, 1) if self.current.observer.active(1 - number))

    def write(self, settings):
        """A new settings file for both boxes."""
        self.files += 1
        path = self.networks.folder / f"settings{self.files}.toml"
        path.write_text(text_of(settings), encoding="utf-8")
        return path

    def expect_may(self, path, change):
        """`check` has to say that the files may differ in each key of a change, and in no other one must not."""
        said = self.current.boxes[0].natpair("check", str(self.current.boxes[0].settings), str(path)).splitlines()
        named = {line.removeprefix(MAY) for line in said[:-1] if line.startswith(MAY)}
        if named != set(values(change)) or len(said) - 1 != len(named):
            raise SystemExit(f"demo: check says {said}, and the change is of {sorted(values(change))}")

    def change(self, row, change):
        """A row: the Backup has the new file, and once it is synced, the other one."""
        settings = changed(self.settings[0], change)
        path = self.write(settings)
        self.expect_may(path, change)
        first = self.backup()
        for number in (first, 1 - first):
            self.stop(number)
            self.take_file(number, path, settings)
            self.start(number, f"{row}: box {number}")

    def take_file(self, number, path, settings):
        """A box that is stopped gets another settings file, and its boot file the name that it has there."""
        box = self.current.boxes[number]
        self.settings[number] = settings
        self.networks.settings[f"gateway_{number}"] = self.own(number)
        box.settings = path
        if box.boot_file != self.own(number)["boot_file"]:
            (box.folder / box.boot_file).rename(box.folder / self.own(number)["boot_file"])
            box.boot_file = self.own(number)["boot_file"]

    def start(self, number, name):
        """Starts a box, and waits until it is synced, and the box is Active that is to be."""
        box = self.current.boxes[number]
        box.start()
        self.wait(box.is_synced, f"box {number} is synced")
        active = number if self.takes_over(number) else 1 - number
        self.wait(lambda: self.current.observer.active(active), f"box {active} is Active")
        self.digests.append({self.digest(each) for each in self.current.boxes})
        self.note(name)

    def takes_over(self, number):
        """Whether a box that comes back takes over from the other one."""
        own, other = self.own(number), self.own(1 - number)
        return own["preempt"] and own["priority"] > other["priority"]

    def expect_all(self):
        """Each key but those that must agree has to have another value than it had at first."""
        first, last = values(self.first), values(self.settings[0])
        same = {key for key in last if last[key] == first.get(key)}
        if same != MUST:
            raise SystemExit(f"demo: of these keys there is a row too many, or none: {sorted(same ^ MUST)}")

    def digest(self, box):
        """The digest that a box says. Where the machine is busy it may answer later than a client waits."""
        words = ("status", str(box.settings), "--id", str(box.number))
        box.natpair(*words, "--until", "synced", "--seconds", str(SOON))
        return json.loads(box.natpair(*words, "--json"))["digest"]


def change(options):
    with scene(options, options.capture) as current:
        current.networks.router.ip("addr", "add", f"{SECOND_ROUTER}/24", "dev", "eth0")
        changes = KeyChanges(current, options.flows)
        for row, change_of_row in rows(current.networks).items():
            changes.change(row, change_of_row)
        changes.expect_all()
        alike = sum(len(each) == 1 for each in changes.digests)
        is_good = changes.show("change")
        print(f"both boxes say one digest after {alike} of {len(changes.digests)} turns", flush=True)
        return is_good and alike == len(changes.digests)
