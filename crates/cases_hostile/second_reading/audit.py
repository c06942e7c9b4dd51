"""A second audit: what the words of docs/THEOREM.md say of a list of notes and of two tables. It is told note after
note, each as (gateway, moment, name, pair)."""

LIFE = ("Synced", "Crashed", "Booted")


class Audit:
    def __init__(self):
        self.count = 0
        self.life, self.last = {}, {}
        self.open = set()
        self.fault = None

    def is_synced(self, gateway):
        """Its last note among Synced, Crashed and Booted is Synced; with none gateway 0 is synced."""
        return self.life.get(gateway, "Synced" if gateway == 0 else "Booted") == "Synced"

    def has_let_go(self, gateway, pair):
        """Its last note on the pair among Used, Released and Retaken is Released."""
        return self.last.get((gateway, pair)) == "Released"

    def tell(self, notes):
        for gateway, _moment, name, what in notes:
            self.count += 1
            if self.fault is None:
                self.fault = self.fault_at(gateway, name, what)
            self.take(gateway, name, what)

    def fault_at(self, gateway, name, pair):
        """What is wrong with a note: silence first, then whether it fits the pairs that are open just before it."""
        if name != "Used":
            return None
        if not self.is_synced(gateway):
            return f"NotSilent {self.count}"
        for other in self.open:
            if (other[:2] == pair[:2]) != (endpoint(other) == endpoint(pair)):
                return f"NotFits {self.count}"
        return None

    def take(self, gateway, name, what):
        if name in LIFE:
            self.life[gateway] = name
            return
        self.last[gateway, what] = name
        if name == "Used":
            self.open.add(what)
        if name == "Released" and (not self.is_synced(1 - gateway) or self.has_let_go(1 - gateway, what)):
            self.open.discard(what)

    def judge(self, tables):
        """The first fault; the tables come last: each synced gateway holds each open pair. None where all is well."""
        if self.fault is not None:
            return self.fault
        is_kept = all(self.open <= set(tables[gateway]) for gateway in (0, 1) if self.is_synced(gateway))
        return None if is_kept else "NotKept"


def endpoint(pair):
    return (pair[0], *pair[2:])


def judged(notes, tables):
    audit = Audit()
    audit.tell(notes)
    return audit.judge(tables)


def self_test():
    """The rows that are worked out of the definitions, and each fault once."""
    one, two = (17, 20000, b"\xc0\xa8\x01\x0a", 5000), (17, 20000, b"\xc0\xa8\x01\x0b", 5000)
    used, other = (0, 0, "Used", one), (0, 1, "Used", two)
    rows = [
        ([], [[], []], None),
        ([used], [[], []], "NotKept"),
        ([used], [[one], []], None),
        ([(1, 0, "Used", one)], [[], []], "NotSilent 1"),
        ([used, other], [[], []], "NotFits 2"),
        ([used, (0, 1, "Released", one), other], [[two], []], None),
        ([used, (0, 1, "Released", one), other], [[one], []], "NotKept"),
        ([used, (1, 1, "Used", two)], [[], []], "NotSilent 2"),
        ([(1, 0, "Booted", 1), (1, 0, "Synced", None), used], [[one], []], "NotKept"),
        ([(1, 0, "Booted", 1), (1, 0, "Synced", None), used], [[one], [one]], None),
    ]
    for notes, tables, owed in rows:
        assert judged(notes, tables) == owed, (notes, owed)


def planted(trace, tables):
    """Each fault planted in a trace that has none, and whether it is found: a use by a gateway that isn't synced, a use
    of a port by a second endpoint at one that is, and a pair that is gone from a table."""
    audit = Audit()
    audit.tell(trace)
    assert audit.judge(tables) is None
    pair = min(audit.open)
    stranger = (*pair[:2], b"\xc0\xa8\x01\xfe", pair[3])
    where = len(trace) + 1
    assert judged([*trace, (1, 0, "Crashed", None), (1, 0, "Used", pair)], tables) == f"NotSilent {where + 1}"
    by = 0 if audit.is_synced(0) else 1
    assert judged([*trace, (by, 0, "Used", stranger)], tables) == f"NotFits {where}"
    held = [[one for one in table if one != pair] for table in tables]
    assert judged(trace, held) == "NotKept"
