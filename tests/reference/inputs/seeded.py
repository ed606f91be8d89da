"""Seeded choices: the same on every machine and in every release of Python."""

MASK = 2 ** 64 - 1


class Seeded:
    """The generator splitmix64 and the choices made with it."""

    def __init__(self, seed):
        self.state = seed & MASK

    def next(self):
        """The next 64 bits."""
        self.state = (self.state + 0x9E3779B97F4A7C15) & MASK
        z = self.state
        z = (z ^ z >> 30) * 0xBF58476D1CE4E5B9 & MASK
        z = (z ^ z >> 27) * 0x94D049BB133111EB & MASK
        return z ^ z >> 31

    def below(self, count):
        """A whole number from 0 to count - 1."""
        return self.next() % count

    def between(self, low, high):
        """A whole number from low to high, both included."""
        return low + self.below(high - low + 1)

    def pick(self, choices):
        """One of the choices."""
        return choices[self.below(len(choices))]

    def chance(self, one_in):
        """True once in so many times."""
        return self.below(one_in) == 0

    def some(self, count, choices):
        """So many different ones of the choices, in their order."""
        left = list(range(len(choices)))
        places = sorted(left.pop(self.below(len(left))) for _ in range(count))
        return [choices[place] for place in places]
