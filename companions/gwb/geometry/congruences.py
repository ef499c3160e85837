"""Whole numbers that leave given remainders."""

from math import gcd
from typing import Iterable, NamedTuple, Optional


class Congruence(NamedTuple):
    """The whole numbers remainder + k * modulus; the modulus is 1 or more."""

    remainder: int
    modulus: int

    def at_most(self, wanted: int) -> int:
        """The greatest of the numbers that is at most the wanted one."""
        return wanted - (wanted - self.remainder) % self.modulus

    def and_also(self, other: 'Congruence') -> 'Optional[Congruence]':
        """The numbers in both, by the Chinese remainder theorem; None where there is none."""
        shared = gcd(self.modulus, other.modulus)
        if (other.remainder - self.remainder) % shared:
            return None
        step = other.modulus // shared
        times = (other.remainder - self.remainder) // shared * pow(self.modulus // shared, -1, step) % step
        modulus = self.modulus * step
        return Congruence((self.remainder + self.modulus * times) % modulus, modulus)


def in_all(congruences: Iterable[Congruence]) -> Optional[Congruence]:
    """The numbers in all of the congruences; None where there is none."""
    found = Congruence(0, 1)
    for congruence in congruences:
        both = found.and_also(congruence)
        if both is None:
            return None
        found = both
    return found
