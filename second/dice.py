"""Chance from a seed: splitmix64, so that a seed gives the same stream under every Python."""

SIZE = 2**64


class Dice:
    def __init__(self, seed):
        self.state = seed % SIZE

    def roll(self):
        self.state = (self.state + 0x9E3779B97F4A7C15) % SIZE
        mixed = self.state
        mixed = (mixed ^ (mixed >> 30)) * 0xBF58476D1CE4E5B9 % SIZE
        mixed = (mixed ^ (mixed >> 27)) * 0x94D049BB133111EB % SIZE
        return mixed ^ (mixed >> 31)

    def below(self, limit):
        return self.roll() % limit

    def between(self, least, greatest):
        return least + self.below(greatest - least + 1)

    def one_in(self, chances):
        return self.below(chances) == 0

    def pick(self, items):
        return items[self.below(len(items))]

    def weighted(self, choices):
        """Picks from pairs of a weight and an item."""
        left = self.below(sum(weight for weight, _ in choices))
        for weight, item in choices:
            left -= weight
            if left < 0:
                return item
