"""The settings of a file, as far as a world needs them."""

import tomllib

from wire import address, mac, two


def read(path):
    with open(path, "rb") as file:
        text = tomllib.load(file)
    settings = {"ranges": [text["ports"]["zero"], text["ports"]["one"]]}
    settings["host_limit"] = text["ports"].get("host_limit")
    settings["choice"] = text["ports"].get("choice", "lowest")
    settings["ahead"] = text["ports"].get("ahead", 0)
    settings["pass"] = text.get("fragments", {}).get("pass", False)
    settings["inward_refresh"] = text["ports"].get("inward_refresh", True)
    settings["peer_only"] = text.get("vrrp", {}).get("peer_only", False)
    for side in ("inside", "outside"):
        settings[side] = dict(text[side], virtual=address(text[side]["virtual"]), neighbours={})
    settings["outside"]["router"] = address(text["outside"]["router"])
    for row in text.get("neighbour", []):
        settings[row["side"]]["neighbours"].setdefault(address(row["ip"]), mac(row["mac"]))
    settings["values"] = values_of(settings)
    settings["gateways"] = [box_of(text["gateway_0"]), box_of(text["gateway_1"])]
    return settings


def values_of(settings):
    """The 18 bytes of a datagram that say on which values its sender runs."""
    ports = b"".join(two(first) + two(last) for first, last in settings["ranges"])
    sides = settings["inside"], settings["outside"]
    return ports + b"".join(side["virtual"] for side in sides) + bytes(side["prefix"] for side in sides)


def box_of(rows):
    box = {"priority": rows.get("priority", 100), "interval": rows.get("interval", 100)}
    box["preempt"] = rows.get("preempt", True)
    for side in ("inside", "outside"):
        box[side + "_ip"] = address(rows[side + "_ip"])
        box[side + "_mac"] = mac(rows[side + "_mac"])
    return box
