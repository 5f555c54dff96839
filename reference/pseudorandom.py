"""Numbers that are the same at every run and on every machine."""


class Random:
    """A linear congruential generator of 64 bits (Knuth's MMIX constants); its upper 32 bits are used."""

    def __init__(self, seed):
        self.state = seed

    def word(self):
        self.state = (self.state * 6364136223846793005 + 1442695040888963407) % 2**64
        return self.state >> 32

    def below(self, count):
        return self.word() * count >> 32

    def of(self, values):
        """One of a sequence's values."""
        return values[self.below(len(values))]
