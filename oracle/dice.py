"""The seeded dice of every comparison.

It is SplitMix64, written out so that a seed gives the same under every version of Python.
"""

from hashlib import shake_256

MASK = 2**64 - 1


class Dice:
    def __init__(self, seed):
        self.state = seed & MASK

    def word(self):
        """The next 64 bits."""
        self.state = (self.state + 0x9E3779B97F4A7C15) & MASK
        z = self.state
        z = ((z ^ (z >> 30)) * 0xBF58476D1CE4E5B9) & MASK
        z = ((z ^ (z >> 27)) * 0x94D049BB133111EB) & MASK
        return z ^ (z >> 31)

    def below(self, limit):
        """A number from 0 to limit - 1; that some come up a hair more often does not matter here."""
        return self.word() % limit

    def between(self, least, most):
        return least + self.below(most - least + 1)

    def chance(self, one_in):
        return self.below(one_in) == 0

    def pick(self, choices):
        return choices[self.below(len(choices))]

    def bytes(self, count):
        """So many random bytes, faster than word by word."""
        return shake_256(self.word().to_bytes(8, "little")).digest(count)
