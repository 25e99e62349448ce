"""Numbers that are drawn from a seed, the same on every machine."""

MULTIPLIER, ADDEND, MODULUS = 6364136223846793005, 1442695040888963407, 2**64


class Draws:
    """A linear congruential generator. Its numbers are whole, so they differ nowhere."""

    def __init__(self, *seeds):
        self.state = 0
        for seed in seeds:
            self.state = (self.state + seed + 1) % MODULUS
            self.below(1)

    def below(self, count):
        """A number from 0 to `count` - 1."""
        self.state = (MULTIPLIER * self.state + ADDEND) % MODULUS
        return (self.state >> 33) % count

    def between(self, least, most):
        """A number from `least` to `most`."""
        return least + self.below(most - least + 1)

    def one_of(self, items):
        """One of the items of a list."""
        return items[self.below(len(items))]
