"""Numbers by a seed: the same for ever, whatever the Python."""


class Chance:
    def __init__(self, seed):
        self.state = (seed * 0x9E3779B97F4A7C15 + 1) % 2**64

    def below(self, count):
        """A number from 0 to below `count`."""
        self.state = (self.state * 6364136223846793005 + 1442695040888963407) % 2**64
        return (self.state >> 33) % count

    def one_of(self, things):
        return things[self.below(len(things))]

    def weighed(self, rows):
        """One of (weight, thing), by its weight."""
        left = self.below(sum(weight for weight, _thing in rows))
        for weight, thing in rows:
            if left < weight:
                return thing
            left -= weight
