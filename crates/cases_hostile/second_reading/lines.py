"""Scripts as events, and events as lines of a script."""


def read(text):
    """The events of a script's text."""
    return [event_of(line.split(" ")) for line in text.splitlines() if line.strip() and not line.startswith("#")]


def event_of(words):
    name, number = words[0], int(words[1])
    if name == "frame":
        return name, number, words[2], bytes.fromhex(words[3]) if words[3] != "-" else b""
    if name == "side":
        return name, number, words[2], words[3] == "up"
    return (name, number, *map(int, words[2:]))


def written(event):
    name, number = event[0], event[1]
    if name == "frame":
        return f"frame {number} {event[2]} {event[3].hex() or '-'}"
    if name == "side":
        return f"side {number} {event[2]} {'up' if event[3] else 'down'}"
    return " ".join([name, *map(str, event[1:])])
